//! The order of switchings (document 02, W13): two logs of the same switchings in another order, from the same book at the same
//! percentage with true tables, held to what the papers promise of them and counted.

use crate::definitions::book::{self, Book};
use crate::definitions::cuts;
use crate::definitions::form::Form;
use crate::definitions::network::{Excess, Network};
use crate::definitions::percentage::{Percentage, NAMEPLATE};
use crate::definitions::record::{self, SIZE};
use crate::definitions::switching::Way;
use crate::judging::tally::Tally;
use crate::trial::spaces::Spaces;
use std::rc::Rc;

/// A book at a percentage, with its flow and its table as far as its branches go.
#[derive(Clone, Debug, PartialEq, Eq)]
pub struct Standing {
    pub percentage: Percentage,
    pub book: Vec<u8>,
    pub flow: Vec<i64>,
    pub table: Vec<u8>,
}

impl Standing {
    /// Where spaces hold a book of so many branches.
    pub fn of(spaces: &Spaces, count: usize) -> Standing {
        Standing {
            percentage: spaces.percentage,
            book: spaces.bytes().to_vec(),
            flow: spaces.flow[..count].to_vec(),
            table: spaces.table[..SIZE * count].to_vec(),
        }
    }

    fn read(&self) -> Book {
        book::unpack(&self.book).expect("a book that was switched")
    }
}

/// A branch taken out or brought back, and whether that was accepted.
#[derive(Clone, Copy, Debug, PartialEq, Eq)]
pub struct Asked {
    pub way: Way,
    pub branch: usize,
    pub accepted: bool,
}

/// A series of switchings of different branches with nothing else between: from a true table, what was asked and answered, and what
/// it left. It goes on after a refused one, since that changes nothing.
#[derive(Clone, Debug)]
pub struct Log {
    pub start: Rc<Standing>,
    /// An outage, a return or a move of load was accepted before it since the screen.
    pub midway: bool,
    pub asked: Vec<Asked>,
    pub left: Rc<Standing>,
}

impl Log {
    pub fn in_full(&self) -> bool {
        self.asked.iter().all(|asked| asked.accepted)
    }

    /// The place of the first refusal.
    fn refused_at(&self) -> Option<usize> {
        self.asked.iter().position(|asked| !asked.accepted)
    }

    fn names(&self, asked: &Asked) -> bool {
        self.asked.iter().any(|named| (named.way, named.branch) == (asked.way, asked.branch))
    }

    fn all(&self, way: Way) -> bool {
        self.asked.iter().all(|asked| asked.way == way)
    }

    /// Whether both begin with the same book at the same percentage and ask the same in another order; flow and table may differ at
    /// the start, since what is promised rests on neither.
    pub fn another_order_of(&self, other: &Log) -> bool {
        let same_start = (self.start.percentage, &self.start.book) == (other.start.percentage, &other.start.book);
        let same_list = self.asked.len() == other.asked.len() && self.asked.iter().all(|asked| other.names(asked));
        let same_order = self.asked.iter().zip(&other.asked).all(|(one, other)| one.branch == other.branch);
        same_start && same_list && !same_order
    }

    /// The base excess of the book at the start without all branches that are asked for.
    fn excess_without_all(&self) -> Excess {
        let network = Network::of(&self.start.read(), self.start.percentage);
        cuts::base_excess(&self.asked.iter().fold(network, |network, asked| network.without(asked.branch)))
    }

    fn list(&self) -> &'static str {
        let outages = self.asked.iter().filter(|asked| asked.way == Way::Out).count();
        match (outages, self.asked.len() - outages) {
            (2, 0) => "two outages",
            (0, 2) => "two returns",
            (1, 1) => "an outage and a return",
            (_, 0) => "three or more outages",
            (0, _) => "three or more returns",
            _ => "three or more outages and returns",
        }
    }
}

/// What is wrong with two orders of the same switchings.
pub fn hold(one: &Log, other: &Log) -> Result<(), String> {
    let (first, then) = (one.in_full(), other.in_full());
    let asked: Vec<usize> = other.asked.iter().map(|asked| asked.branch).collect();
    if one.all(Way::Out) {
        if first != then {
            return Err(format!("the outages of {asked:?} are accepted in full in one order and not in another"));
        }
        let excess = one.excess_without_all().amount;
        if first != (excess == 0) {
            return Err(format!("the outages of {asked:?} are accepted in full: {first}; without them {excess} kW are short"));
        }
    }
    if one.all(Way::Back) && !(first && then) {
        return Err(format!("the returns of {asked:?} are not all accepted in every order"));
    }
    if first && then {
        same_left(&one.left, &other.left)?;
    }
    Ok(())
}

/// Books, verdicts, shortages and groups are those of the other order; flows and reroutes needn't be.
fn same_left(one: &Standing, other: &Standing) -> Result<(), String> {
    if one.book != other.book {
        return Err("the book left is another than after the same switchings in another order".into());
    }
    let fixed = |standing: &Standing, k: usize| record::stretch(&standing.table, k)[..20].to_vec();
    match (0..one.flow.len()).find(|&k| fixed(one, k) != fixed(other, k)) {
        Some(k) => {
            Err(format!("record {k} has another verdict, shortage or group than after the same switchings in another order"))
        }
        None => Ok(()),
    }
}

/// Counts two orders of the same switchings by what they are like and what came of them.
pub fn count(tally: &mut Tally, one: &Log, other: &Log) {
    let book = one.start.read();
    let kinds = [
        ("compared", true),
        ("on new books whose ratings differ", book.form == Form::New && book.ratings_differ()),
        ("below 100 percent", one.start.percentage != NAMEPLATE),
        ("above 64 buses", book.injections.len() > 64),
        ("midway in a run", one.midway && other.midway),
        ("from another flow or table", one.start != other.start),
    ];
    for (kind, _) in kinds.iter().chain(&outcomes(one, other)).filter(|(_, holds)| *holds) {
        tally.count(&format!("orders of {}: {kind}", one.list()));
    }
}

/// What came of two orders. Flows and reroutes are told where both began with the same ones.
fn outcomes(one: &Log, other: &Log) -> Vec<(&'static str, bool)> {
    let pair = one.asked.len() == 2;
    match (one.refused_at(), other.refused_at()) {
        (None, None) => {
            let begun_alike = one.start == other.start;
            let flows = one.left.flow != other.left.flow;
            // Where nothing else differs, it is the reroutes.
            let reroutes = one.left.table != other.left.table;
            vec![
                ("accepted in full both ways", true),
                ("accepted in full both ways, flows left differ", begun_alike && flows),
                ("accepted in full both ways, reroutes left differ", begun_alike && reroutes),
                ("accepted in full both ways, flows and reroutes left the same", begun_alike && !flows && !reroutes),
            ]
        }
        (Some(first), Some(then)) => vec![
            ("accepted in full neither way", true),
            ("accepted in full neither way, refused at the first call both ways", pair && (first, then) == (0, 0)),
            ("accepted in full neither way, refused at the second call both ways", pair && (first, then) == (1, 1)),
            ("accepted in full neither way, refused at the first call and at the second", pair && first != then),
            ("accepted in full neither way, refused at the same place", !pair && first == then),
            ("accepted in full neither way, refused at different places", !pair && first != then),
        ],
        _ => vec![("accepted in full one way alone", true)],
    }
}
