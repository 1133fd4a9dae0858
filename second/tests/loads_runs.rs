//! Any mixture of outages, returns and moves of load on random books agrees with a fresh screen (document 02, W4), by every group.

use second::books::random::Random;
use second::books::random_books::served;
use second::books::random_ratings::heavy;
use second::definitions::answer::Answer;
use second::definitions::book::{pack, unpack, with_status, Book};
use second::definitions::load::{self, Shift};
use second::definitions::network::Network;
use second::definitions::percentage::{Percentage, NAMEPLATE};
use second::definitions::record::{self, SIZE};
use second::definitions::switching::Lent;
use second::definitions::{comeback, cuts, groups, outage, screen};

/// A book with its flow and table, as a run of our own calls leaves them.
struct Held {
    percentage: Percentage,
    book: Vec<u8>,
    flow: Vec<i64>,
    table: Vec<u8>,
}

impl Held {
    fn lent(&self) -> Lent<'_> {
        Lent { percentage: self.percentage, book: &self.book, flow: &self.flow, table: &self.table }
    }

    fn network(&self) -> Network {
        Network::of(&unpack(&self.book).unwrap(), self.percentage)
    }

    fn screened(book: &Book, percentage: Percentage) -> Held {
        let network = Network::of(book, percentage);
        let flow = cuts::fitting_flow(&network).unwrap();
        Held { percentage, book: pack(book), table: screen::own_table(&network, &flow), flow }
    }

    fn left(&mut self, book: Vec<u8>, (flow, table): (Vec<i64>, Vec<u8>)) {
        *self = Held { percentage: self.percentage, book, flow, table };
    }

    /// A branch is taken out, or brought back.
    fn switch(&mut self, branch: usize) {
        let (lent, serves) = (self.lent(), !self.network().lines[branch].served);
        let left = match serves {
            true => comeback::allowed(&lent, branch).map(|network| comeback::own_result(&network, &lent, branch)),
            false => outage::allowed(&lent, branch).map(|network| outage::own_result(&network, &lent, branch)),
        };
        if let Ok(left) = left {
            self.left(with_status(&self.book, branch, serves), left);
        }
    }

    /// Load is moved; true where that was accepted. 12 is what a fresh screen of the changed book says, by every group.
    fn shift(&mut self, shift: Shift) -> bool {
        let lent = self.lent();
        let changed = shift.changed(&self.network());
        let left = match load::allowed(&lent, shift) {
            Ok(network) => load::own_result(&network, &lent, shift),
            Err(answer) => {
                let excess = groups::base_excess(&changed);
                assert_eq!(answer, Answer::overloaded(excess));
                let most = load::most(&self.network(), &self.flow, shift.up, shift.down);
                assert_eq!(excess.amount, shift.kw as i64 - most);
                return false;
            }
        };
        assert_eq!(groups::base_excess(&changed).amount, 0);
        assert_eq!(load::judge(&self.network(), &lent, shift, &left.0, &left.1).faults, Vec::<String>::new());
        self.left(shift.book(&self.book), left);
        true
    }

    /// Every record's verdict, shortage and group is that of a fresh screen by every group, and the table is true.
    fn agrees_with_a_fresh_screen(&self) {
        let network = self.network();
        assert!(screen::table_holds(&network, &self.flow, &self.table));
        for branch in 0..self.flow.len() {
            let fresh = record::bytes(groups::verdict(&network, branch), &[]);
            assert_eq!(record::stretch(&self.table, branch)[..20], fresh[..20]);
        }
    }

    /// All that the papers fix: the book, and bytes 0 to 19 of every record.
    fn fixed(&self) -> (Vec<u8>, Vec<u8>) {
        (self.book.clone(), self.table.chunks(SIZE).flat_map(|record| record[..20].to_vec()).collect())
    }
}

/// How often load was moved, refused, and moved back.
#[derive(Default)]
struct Times {
    moves: usize,
    refused: usize,
    pairs: usize,
}

/// A move drawn from the latent capacities, at times of a little more, and at times the same kW back.
fn move_some(held: &mut Held, random: &mut Random, times: &mut Times) {
    let network = held.network();
    let up = random.below(network.buses());
    let down = (up + 1 + random.below(network.buses() - 1)) % network.buses();
    let most = load::most(&network, &held.flow, up, down).min(400_000);
    let kw = (random.between(0, most) + random.once_in(4) as i64 * random.between(0, 3)) as u32;
    let there = Shift { up, down, kw };
    if there.injections(&network.injections).iter().any(|kw| kw.abs() > 1_000_000) {
        return;
    }
    let start = held.fixed();
    if !held.shift(there) {
        times.refused += 1;
        return;
    }
    held.agrees_with_a_fresh_screen();
    times.moves += 1;
    if random.once_in(2) {
        assert!(held.shift(there.turned()));
        held.agrees_with_a_fresh_screen();
        assert_eq!(held.fixed(), start);
        times.pairs += 1;
    }
}

#[test]
fn any_mixture_of_outages_returns_and_moves_agrees_with_a_fresh_screen() {
    let (mut random, mut times) = (Random(44), Times::default());
    for round in 0..500 {
        let (buses, count) = (2 + random.below(6), 1 + random.below(12));
        let percentage = *random.pick(&[NAMEPLATE, Percentage(50), Percentage(75)]);
        let book = match round % 2 {
            0 => heavy(&mut random, percentage, buses, count).0,
            _ => served(&mut random, buses, count),
        };
        if cuts::base_excess(&Network::of(&book, percentage)).amount > 0 {
            continue;
        }
        let mut held = Held::screened(&book, percentage);
        for _ in 0..8 {
            if random.once_in(3) {
                held.switch(random.below(count));
                held.agrees_with_a_fresh_screen();
            } else {
                move_some(&mut held, &mut random, &mut times);
            }
        }
    }
    let Times { moves, refused, pairs } = times;
    assert!(moves > 1000 && refused > 40 && pairs > 400, "{moves} {refused} {pairs}");
}
