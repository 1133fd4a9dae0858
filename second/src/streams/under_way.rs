//! A stream under way: commands are added one by one, with a `D` after every call that may be accepted with a choice.

use crate::books::random::Random;
use crate::books::random_books::{counts, served_with_flow};
use crate::books::random_ratings::{heavy, heavy_counts};
use crate::definitions::book::{self, pack, Book};
use crate::definitions::cuts::{self, Cutter};
use crate::definitions::form::LARGEST;
use crate::definitions::load::Shift;
use crate::definitions::network::Network;
use crate::definitions::percentage::{Percentage, NAMEPLATE};
use crate::definitions::record;
use crate::definitions::switching::Way;
use crate::trial::reference;
use crate::trial::spaces::Spaces;
use crate::trial::stream::{self, Command, FLOWS, TABLE};

/// A stream under way: its bytes, and the spaces as our own reference would leave them.
pub struct Stream {
    pub bytes: Vec<u8>,
    pub spaces: Spaces,
    pub random: Random,
    /// Dumps are long, so a stream has only so many.
    pub dumps_left: usize,
    /// A refused `S`, `O`, `K` or `V` is followed by a dump once in so many times.
    pub dump_refused: usize,
    /// Every refused call is followed by a dump, so that what it left is seen.
    pub dump_each_refused: bool,
    /// With another program's flows a call may have been accepted that is refused here, or the other way about, so that its
    /// book may differ from ours until the next one is put in place.
    unsure: bool,
    /// The percentage of the last accepted call with a choice, at which every program's flow fits; 0 before there is one.
    fits_at: Percentage,
}

impl Stream {
    pub fn new(seed: u64) -> Stream {
        Stream {
            bytes: Vec::new(),
            spaces: Spaces::default(),
            random: Random(seed),
            dumps_left: 9,
            dump_refused: 4,
            dump_each_refused: false,
            unsure: false,
            fits_at: Percentage(0),
        }
    }

    /// Adds a command; an `S`, `O`, `K` or `V` that may be accepted gets its `D`, a refused call sometimes or always.
    pub fn add(&mut self, command: Command) {
        self.bytes.extend(stream::bytes(&command));
        let lines = reference::step(&mut self.spaces, &command);
        self.unsure = match command {
            Command::Book(_) => false,
            Command::Flow(_, kw) => self.unsure || kw.unsigned_abs() as i64 <= LARGEST,
            _ => self.unsure,
        };
        let Some(number) = command.answer_in(&lines) else { return };
        let with_choice = command.takes_percentage();
        // Whether a flow fits may hang on another program's choice, so an 11 here may be accepted there.
        self.unsure |= number == 11 && self.may_fit();
        if with_choice && number == 0 {
            // At a lower percentage than it was left at, another program's flow may not fit.
            self.unsure |= !matches!(command, Command::Screen { .. }) && self.spaces.percentage < self.fits_at;
            self.fits_at = self.spaces.percentage;
        }
        let may_be_accepted = with_choice && (number == 0 || self.unsure);
        let shown = self.dump_each_refused && number != 0;
        if may_be_accepted || shown || with_choice && self.random.once_in(self.dump_refused) {
            self.dump();
        }
    }

    pub fn dump(&mut self) {
        self.bytes.push(b'D');
        self.dumps_left = self.dumps_left.saturating_sub(1);
    }

    /// Shows all spaces but the shelf: a dump, and a read that is refused and so prints the tables as they stand.
    pub fn show(&mut self) {
        self.dump();
        self.add(Command::Read { injections: 0, branches: 0 });
    }

    pub fn add_all(&mut self, commands: impl IntoIterator<Item = Command>) {
        commands.into_iter().for_each(|command| self.add(command));
    }

    /// Whether another program's flow may fit: not where a number above every limit was put in place.
    fn may_fit(&self) -> bool {
        let count = self.standing_book().map_or(0, |book| book.branches.len());
        self.spaces.flow[..count].iter().all(|kw| kw.abs() <= LARGEST)
    }

    /// The book as it stands, if it can be read.
    pub fn standing_book(&self) -> Option<Book> {
        book::unpack(self.spaces.bytes()).ok()
    }

    pub fn book(&mut self, book: &Book) {
        self.add(Command::Book(pack(book)));
    }

    /// Tells the percentage of all calls from here on.
    pub fn percentage(&mut self, percentage: Percentage) {
        self.add(Command::Percentage(percentage));
    }

    /// The percentage that a good book is made for: the one told, or 100 where that is out of range.
    pub fn good_percentage(&self) -> Percentage {
        Some(self.spaces.percentage).filter(|told| told.in_range()).unwrap_or(NAMEPLATE)
    }

    /// A good book of either form in the book space; its number of branches.
    pub fn good_book(&mut self) -> usize {
        self.good_book_at(self.good_percentage())
    }

    /// The same for a percentage: with it or a larger one the book isn't overloaded.
    pub fn good_book_at(&mut self, percentage: Percentage) -> usize {
        let (buses, count) = counts(&mut self.random);
        let (book, _) = served_with_flow(&mut self.random, percentage, buses, count);
        self.book(&book);
        book.branches.len()
    }

    /// A good book whose ratings differ tellingly in the book space; its number of branches.
    pub fn heavy_book(&mut self) -> usize {
        let (buses, count) = heavy_counts(&mut self.random);
        let percentage = self.good_percentage();
        let (book, _) = heavy(&mut self.random, percentage, buses, count);
        self.book(&book);
        book.branches.len()
    }

    /// Room for a flow and a table of this many branches: mostly all there is, at times just enough.
    pub fn room(&mut self, count: usize) -> (usize, usize) {
        if self.random.once_in(2) {
            (FLOWS, TABLE)
        } else {
            (count, record::SIZE * count)
        }
    }

    /// Room too short by one, or by any number.
    pub fn less(&mut self, room: usize) -> usize {
        if self.random.once_in(2) {
            room.saturating_sub(1)
        } else {
            self.random.below(room + 1)
        }
    }

    pub fn screen(&mut self, count: usize) {
        let (flow, table) = self.room(count);
        self.add(Command::Screen { flow, table });
    }

    pub fn switch(&mut self, way: Way, count: usize, branch: usize) {
        let (flow, table) = self.room(count);
        self.add(Command::Switch { way, flow, table, branch });
    }

    pub fn out(&mut self, count: usize, branch: usize) {
        self.switch(Way::Out, count, branch);
    }

    pub fn back(&mut self, count: usize, branch: usize) {
        self.switch(Way::Back, count, branch);
    }

    pub fn load(&mut self, count: usize, shift: Shift) {
        let (flow, table) = self.room(count);
        self.add(Command::Load { flow, table, shift });
    }

    /// A branch of the book as it stands that is in service, or one that is out of it.
    pub fn standing(&mut self, served: bool) -> Option<usize> {
        let book = self.standing_book()?;
        let found: Vec<usize> = (0..book.branches.len()).filter(|&k| book.branches[k].served == served).collect();
        (!found.is_empty()).then(|| *self.random.pick(&found))
    }

    /// A branch in service that is as wanted, of the book as it stands, if so many tries find one; a book with an excess has
    /// none.
    pub fn found(&mut self, tries: usize, wanted: impl Fn(&Spaces, &mut Cutter, usize) -> bool) -> Option<usize> {
        let network = Network::of(&self.standing_book()?, self.spaces.percentage);
        let mut cutter = Cutter::new(&network);
        if network.lines.is_empty() || cutter.base_excess().amount > 0 {
            return None;
        }
        let any: Vec<usize> = (0..tries).map(|_| self.random.below(network.lines.len())).collect();
        any.into_iter().find(|&branch| network.lines[branch].served && wanted(&self.spaces, &mut cutter, branch))
    }

    /// A branch that can be taken out of the book as it stands, if a few tries find one; one with a flow is preferred.
    pub fn spare(&mut self) -> Option<usize> {
        let spare = |network: &Network, branch: usize| cuts::base_excess(&network.without(branch)).amount == 0;
        let with_flow = self.found(6, |spaces, cutter, branch| spaces.flow[branch] != 0 && spare(cutter.network, branch));
        with_flow.or_else(|| self.found(6, |_, cutter, branch| spare(cutter.network, branch)))
    }
}
