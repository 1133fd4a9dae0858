//! What is known of a run of calls: whether its table is true, what came since the screen, which call the next may undo.

use crate::definitions::book;
use crate::definitions::network::Network;
use crate::definitions::percentage::Percentage;
use crate::definitions::record::SIZE;
use crate::definitions::screen;
use crate::definitions::switching::Way;
use crate::trial::spaces::Spaces;
use crate::trial::stream::Command;

#[derive(Default)]
pub struct Run {
    /// The percentage at which the table is known to be true of the book and the flow: so after every judged screen. At another
    /// it needn't be, and is looked at.
    true_at: Option<Percentage>,
    /// The table's bytes are those of a table known to be true, whatever became of the book, the flow and the percentage since.
    was_true: bool,
    /// The percentage of the accepted call that left the flow and the table as they are.
    left_at: Option<Percentage>,
    /// The table was true all along since a screen, under one percentage.
    screened: bool,
    /// What was accepted since the table was known to be true, under one percentage.
    since: Since,
    /// Where nothing was changed since an outage or a move of load from a true table: its command, and the spaces before it.
    last: Option<(Command, Spaces)>,
}

/// How many outages, returns and moves of load came.
#[derive(Clone, Copy, Default)]
pub struct Since {
    pub outages: usize,
    pub returns: usize,
    pub moves: usize,
}

impl Since {
    fn count(&mut self, command: &Command) {
        match command {
            Command::Switch { way: Way::Out, .. } => self.outages += 1,
            Command::Switch { way: Way::Back, .. } => self.returns += 1,
            _ => self.moves += 1,
        }
    }
}

/// Whether a call takes back what another did: the branch taken out comes back, the kW moved go the other way.
fn undoes(later: &Command, earlier: &Command) -> bool {
    match (later, earlier) {
        (Command::Switch { way: Way::Back, branch, .. }, Command::Switch { way: Way::Out, branch: taken, .. }) => branch == taken,
        (Command::Load { shift, .. }, Command::Load { shift: moved, .. }) => *shift == moved.turned(),
        _ => false,
    }
}

impl Run {
    /// An accepted screen at a percentage was judged.
    pub fn screened(&mut self, percentage: Percentage) {
        let at = Some(percentage);
        *self = Run { true_at: at, was_true: true, left_at: at, screened: true, ..Run::default() };
    }

    /// An accepted outage, return or move of load was judged, by which a table that held at its percentage stays true at it.
    pub fn changed(&mut self, command: &Command, before: &Spaces, held: bool) {
        let at = Some(before.percentage);
        if self.true_at != at {
            // Another percentage, or a table that only now was found true: a run of its own.
            *self = Run::default();
        }
        (self.true_at, self.was_true, self.left_at) = (at.filter(|_| held), held, at);
        self.last = held.then(|| (command.clone(), before.clone()));
        if held {
            self.since.count(command);
        }
    }

    /// A command stored something or made a call whose effect is fixed.
    pub fn stored(&mut self, before: &Spaces, after: &Spaces) {
        self.was_true &= before.table == after.table;
        if !before.same_lent(after) {
            *self = Run { was_true: self.was_true, ..Run::default() };
        }
    }

    /// Whether there is anything that a stored number could change.
    pub fn known(&self) -> bool {
        self.was_true || self.left_at.is_some()
    }

    /// Whether a call at a percentage belongs to a run under it with an outage before it and a table true all along.
    pub fn after_outages(&self, percentage: Percentage) -> bool {
        self.true_at == Some(percentage) && self.since.outages > 0
    }

    /// The same with an outage or a return before it.
    pub fn after_switching(&self, percentage: Percentage) -> bool {
        self.true_at == Some(percentage) && self.since.outages + self.since.returns > 0
    }

    /// The same with a move of load before it.
    pub fn after_moves(&self, percentage: Percentage) -> bool {
        self.true_at == Some(percentage) && self.since.moves > 0
    }

    /// What was accepted since a screen at this percentage, where the table was true all along.
    pub fn since_screen(&self, percentage: Percentage) -> Option<Since> {
        (self.screened && self.true_at == Some(percentage)).then_some(self.since)
    }

    /// Whether a call at this percentage comes after an accepted outage, return or move of load since a screen at it.
    pub fn midway(&self, percentage: Percentage) -> bool {
        self.since_screen(percentage).is_some_and(|since| since.outages + since.returns + since.moves > 0)
    }

    /// How the percentage of a call stands to the one at which its flow and table were left, where that is another.
    pub fn change(&self, percentage: Percentage) -> Option<&'static str> {
        let left_at = self.left_at.filter(|left_at| *left_at != percentage)?;
        Some(if left_at < percentage { "rose" } else { "fell" })
    }

    /// The spaces before the call that this one takes back, where nothing but that call came since and the percentage is the same.
    pub fn before_undone(&self, command: &Command, percentage: Percentage) -> Option<&Spaces> {
        let same = |(last, before): &&(Command, Spaces)| undoes(command, last) && before.percentage == percentage;
        self.last.as_ref().filter(same).map(|(_, before)| before)
    }

    /// Whether the table is true of the flow and a network, the book's at the percentage in force: known to be, or found so.
    pub fn holds(&self, network: &Network, spaces: &Spaces) -> bool {
        let count = network.lines.len();
        self.true_at == Some(spaces.percentage)
            || screen::table_holds(network, &spaces.flow[..count], &spaces.table[..SIZE * count])
    }

    /// How the table stands, for a refused call. No table is true of a book that can't be read, of a flow that doesn't fit, or at
    /// a percentage out of range.
    pub fn standing(&self, spaces: &Spaces) -> &'static str {
        let book = book::unpack(spaces.bytes()).ok().filter(|_| spaces.percentage.in_range());
        if book.is_some_and(|book| self.holds(&Network::of(&book, spaces.percentage), spaces)) {
            "from a true table"
        } else if self.was_true {
            "from a table true before the book, the flow or the percentage was changed"
        } else {
            "from an untrue table"
        }
    }
}

/// What is not as it was before a branch was taken out and brought back, or load moved there and back, with nothing else between:
/// the book has its bytes back, and every record its verdict, its shortage and its group.
pub fn undone(ways: &str, start: &Spaces, end: &Spaces, count: usize) -> Result<(), String> {
    if start.bytes() != end.bytes() {
        return Err(format!("{ways}, the book is not as it was"));
    }
    let fixed = |spaces: &Spaces, k: usize| spaces.table[SIZE * k..SIZE * k + 20].to_vec();
    match (0..count).find(|&k| fixed(start, k) != fixed(end, k)) {
        Some(k) => Err(format!("{ways}, record {k} has another verdict, shortage or group than before")),
        None => Ok(()),
    }
}
