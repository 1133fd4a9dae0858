//! The screen: which answer is due, when a record or a table is true, and one true table of our own choice.

use crate::definitions::answer::Answer;
use crate::definitions::book::{self, Book};
use crate::definitions::cuts::{self, Cutter};
use crate::definitions::limits::Limits;
use crate::definitions::network::{Network, Verdict};
use crate::definitions::percentage::Percentage;
use crate::definitions::record;
use crate::definitions::reroutes::{self, Exactly};

/// The book, if the percentage is in range, the book can be read and the lent flow and table are long enough for it; else 21, and
/// then refusals 1 to 8, with the place of 4 and 5.
pub fn opened(percentage: Percentage, bytes: &[u8], flow_room: usize, table_room: usize) -> Result<Book, Answer> {
    percentage.tested()?;
    let book = book::unpack(bytes)?;
    let count = book.branches.len();
    if flow_room < count || table_room < record::SIZE * count {
        return Err(Answer::refused(8));
    }
    Ok(book)
}

/// The network of a book whose screen at a percentage is accepted; else the refusal due.
pub fn screened(percentage: Percentage, bytes: &[u8], flow_room: usize, table_room: usize) -> Result<Network, Answer> {
    let network = Network::of(&opened(percentage, bytes, flow_room, table_room)?, percentage);
    let excess = cuts::base_excess(&network);
    if excess.amount > 0 {
        Err(Answer::overloaded(excess))
    } else {
        Ok(network)
    }
}

/// What is wrong with a record of a network and a fitting flow; `Ok(false)` where the reroute stayed undecided.
/// The cutter is the network's.
pub fn record_holds(cutter: &mut Cutter, flow: &[i64], branch: usize, bytes: &[u8]) -> Result<bool, String> {
    let network = cutter.network;
    let verdict = cutter.verdict(branch);
    if verdict != Verdict::Carries {
        let due = record::bytes(verdict, &[]);
        return if bytes == due { Ok(true) } else { Err(format!("record {branch} should say {verdict:?}")) };
    }
    let named = record::named(bytes, network.lines.len());
    if bytes != record::bytes(Verdict::Carries, &named) {
        return Err(format!("record {branch} should say that it carries, with nothing else but a reroute below the count"));
    }
    if flow[branch] == 0 {
        return if named.is_empty() { Ok(true) } else { Err(format!("record {branch} has a reroute though its flow is 0")) };
    }
    match reroutes::exactly(network, flow, branch, &named) {
        Exactly::Yes(_) => Ok(true),
        Exactly::Undecided => Ok(false),
        Exactly::No => Err(format!("record {branch}: no flow without it within the second limits differs exactly on {named:?}")),
    }
}

/// Whether a flow fits and every record of a table is true of it; a table with a reroute that stayed undecided isn't known to be.
pub fn table_holds(network: &Network, flow: &[i64], table: &[u8]) -> bool {
    let mut cutter = Cutter::new(network);
    let holds = |branch| record_holds(&mut cutter, flow, branch, record::stretch(table, branch)) == Ok(true);
    network.fits(flow) && (0..flow.len()).all(holds)
}

/// A true record of our own choice of reroute.
pub fn own_record(cutter: &mut Cutter, flow: &[i64], branch: usize) -> [u8; record::SIZE] {
    let network = cutter.network;
    let verdict = cutter.verdict(branch);
    if verdict != Verdict::Carries {
        return record::bytes(verdict, &[]);
    }
    let all: Vec<usize> = (0..flow.len()).collect();
    let without = reroutes::confined(network, Limits::Second, flow, branch, &all).expect("a carrying branch has a reroute");
    let differs = all.into_iter().filter(|&other| other != branch && without[other] != flow[other]);
    record::bytes(verdict, &differs.collect::<Vec<_>>())
}

/// A true table of our own choice of reroutes for a network and a fitting flow.
pub fn own_table(network: &Network, flow: &[i64]) -> Vec<u8> {
    let mut cutter = Cutter::new(network);
    (0..flow.len()).flat_map(|branch| own_record(&mut cutter, flow, branch)).collect()
}

/// The verdict on every branch of a network whose base excess is 0.
pub fn verdicts(network: &Network) -> Vec<Verdict> {
    let mut cutter = Cutter::new(network);
    (0..network.lines.len()).map(|branch| cutter.verdict(branch)).collect()
}
