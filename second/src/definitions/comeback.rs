//! Bringing a branch back (document 02, W1): which answer is due, what an accepted call must leave, and one result of our
//! own choice.

use crate::definitions::answer::Answer;
use crate::definitions::network::{Network, Verdict};
use crate::definitions::record::{self, SIZE};
use crate::definitions::switching::{self, Judged, Lent, Way};

/// The network before an accepted call; else the refusal due: 21, 1 to 8, then 9, then 17, then 11. The branch is out
/// of service in the book lent, so a flow with anything but 0 on it does not fit. There is no 12: a flow that fits without
/// the branch fits with it.
pub fn allowed(lent: &Lent, branch: usize) -> Result<Network, Answer> {
    switching::fitting(Way::Back, lent, branch)
}

/// The record of the branch brought back, whatever it held: verdict 1, an empty reroute, all else zero.
pub fn returned() -> [u8; SIZE] {
    record::bytes(Verdict::Carries, &[])
}

/// For each branch whether its record is written anew: the returned one's, and every one whose byte 0 isn't 1 in the table
/// lent. No other counts, be its branch out of service or the returned one named in its reroute.
pub fn anew(table: &[u8], branch: usize, count: usize) -> Vec<bool> {
    (0..count).map(|k| k == branch || record::stretch(table, k)[0] != 1).collect()
}

/// Judges the flow and the table left by an accepted call; `network` is the one before.
pub fn judge(network: &Network, lent: &Lent, branch: usize, flow: &[i64], table: &[u8]) -> Judged {
    let count = network.lines.len();
    let mut judged = Judged { anew: anew(lent.table, branch, count), ..Judged::default() };
    switching::judge_beyond(lent, count, flow, table, &mut judged);
    let moved: Vec<usize> = (0..count).filter(|&k| flow[k] != lent.flow[k]).collect();
    if !moved.is_empty() {
        judged.faults.push(format!("a return changes no flow, yet it changed on {moved:?}"));
    }
    if record::stretch(table, branch) != returned() {
        judged.faults.push(format!("record {branch}, of the branch brought back, should carry with nothing else"));
    }
    if judged.faults.is_empty() {
        switching::judge_table(&network.with_status(branch, true), lent, &flow[..count], table, &mut judged);
    }
    judged
}

/// The flow lent and a table of our own choice, as an accepted call may leave them (only as long as the counts need).
pub fn own_result(network: &Network, lent: &Lent, branch: usize) -> (Vec<i64>, Vec<u8>) {
    let count = network.lines.len();
    let flow = lent.flow[..count].to_vec();
    let mut others = anew(lent.table, branch, count);
    others[branch] = false;
    let mut table = switching::own_table(&network.with_status(branch, true), lent, &flow, &others);
    table[SIZE * branch..SIZE * (branch + 1)].copy_from_slice(&returned());
    (flow, table)
}
