//! What taking a branch out, bringing one back and moving load share: what they are lent, their refusals up to the flow, the
//! shortlist, and a table in which some records are written anew and all others keep their bytes.

use crate::definitions::answer::Answer;
use crate::definitions::cuts::Cutter;
use crate::definitions::network::Network;
use crate::definitions::percentage::Percentage;
use crate::definitions::record::{self, SIZE};
use crate::definitions::screen;

/// The two ways to switch a branch.
#[derive(Clone, Copy, Debug, PartialEq, Eq)]
pub enum Way {
    Out,
    Back,
}

impl Way {
    /// The word that begins the answer of the call.
    pub fn name(self) -> &'static str {
        match self {
            Way::Out => "out",
            Way::Back => "back",
        }
    }

    /// Whether the branch is in service after the call.
    pub fn serves(self) -> bool {
        self == Way::Back
    }

    /// The refusal where the branch already stands as the call would leave it.
    fn already(self) -> u8 {
        match self {
            Way::Out => 10,
            Way::Back => 17,
        }
    }
}

/// What a call is given, the percentage, and what it is lent: the book's bytes, the flow numbers and the table bytes, as long as
/// they were lent.
pub struct Lent<'a> {
    pub percentage: Percentage,
    pub book: &'a [u8],
    pub flow: &'a [i64],
    pub table: &'a [u8],
}

/// The network of the book lent, at the percentage of the call, where its branch can be switched; else the first of 21, 1 to 8, 9,
/// and 10 or 17.
pub fn switchable(way: Way, lent: &Lent, branch: usize) -> Result<Network, Answer> {
    let book = screen::opened(lent.percentage, lent.book, lent.flow.len(), lent.table.len())?;
    let named = book.branches.get(branch).ok_or(Answer::refused(9))?;
    if named.served == way.serves() {
        return Err(Answer::refused(way.already()));
    }
    Ok(Network::of(&book, lent.percentage))
}

/// The same where, besides, the flow lent fits; else 11 comes after those.
pub fn fitting(way: Way, lent: &Lent, branch: usize) -> Result<Network, Answer> {
    fitted(switchable(way, lent, branch)?, lent)
}

/// The network of the book as it is lent, where the flow lent fits it; else 11.
pub fn fitted(network: Network, lent: &Lent) -> Result<Network, Answer> {
    if network.fits(&lent.flow[..network.lines.len()]) {
        Ok(network)
    } else {
        Err(Answer::refused(11))
    }
}

/// What was judged of what an accepted call left.
#[derive(Default, Debug)]
pub struct Judged {
    pub faults: Vec<String>,
    /// For each branch whether its record is one to be written anew.
    pub anew: Vec<bool>,
    pub undecided: usize,
    /// Of an outage: no fitting flow kept to the recorded reroute, so that any branch could be used.
    pub fell_back: bool,
}

/// Lent space beyond the branch count is never written.
pub fn judge_beyond(lent: &Lent, count: usize, flow: &[i64], table: &[u8], judged: &mut Judged) {
    if lent.flow[count..] != flow[count..lent.flow.len()] {
        judged.faults.push("the flow beyond the branch count was written".into());
    }
    if lent.table[SIZE * count..] != table[SIZE * count..lent.table.len()] {
        judged.faults.push("the table beyond the branch count was written".into());
    }
}

/// The shortlist by the table lent: every branch that is out of service, whose record's byte 0 isn't 1, that is touched, or whose
/// reroute names a touched branch. Reroute bits beyond the branch count are ignored.
pub fn shortlist(network: &Network, table: &[u8], touched: &[bool]) -> Vec<bool> {
    let listed = |k: usize| {
        let stretch = record::stretch(table, k);
        let names_touched = record::named(stretch, touched.len()).into_iter().any(|named| touched[named]);
        !network.lines[k].served || stretch[0] != 1 || touched[k] || names_touched
    };
    (0..touched.len()).map(listed).collect()
}

/// The records to be written anew are true of the changed network and the flow left, all others keep their bytes.
pub fn judge_table(changed: &Network, lent: &Lent, flow: &[i64], table: &[u8], judged: &mut Judged) {
    let mut cutter = Cutter::new(changed);
    for k in 0..flow.len() {
        let left = record::stretch(table, k);
        if judged.anew[k] {
            match screen::record_holds(&mut cutter, flow, k, left) {
                Ok(decided) => judged.undecided += !decided as usize,
                Err(fault) => judged.faults.push(format!("after the call, {fault}")),
            }
        } else if left != record::stretch(lent.table, k) {
            judged.faults.push(format!("record {k} is not to be written anew, yet it changed"));
        }
    }
}

/// A table of our own choice of reroutes as an accepted call may leave it, only as long as the counts need.
pub fn own_table(changed: &Network, lent: &Lent, flow: &[i64], anew: &[bool]) -> Vec<u8> {
    let mut cutter = Cutter::new(changed);
    let mut table = lent.table[..SIZE * flow.len()].to_vec();
    for k in (0..flow.len()).filter(|&k| anew[k]) {
        table[SIZE * k..SIZE * (k + 1)].copy_from_slice(&screen::own_record(&mut cutter, flow, k));
    }
    table
}
