//! Taking a branch out: which answer is due, what an accepted call must leave, and one result of our own choice.

use crate::definitions::answer::Answer;
use crate::definitions::cuts;
use crate::definitions::limits::Limits;
use crate::definitions::network::Network;
use crate::definitions::record;
use crate::definitions::reroutes;
use crate::definitions::switching::{self, Judged, Lent, Way};

/// The network before an accepted call; else the refusal due: 21, 1 to 11 in order, then 12 by the changed book's base
/// excess, whatever the record shows: this is by the normal limits, and the record by the second.
pub fn allowed(lent: &Lent, branch: usize) -> Result<Network, Answer> {
    let network = switching::fitting(Way::Out, lent, branch)?;
    let excess = cuts::base_excess(&network.without(branch));
    if excess.amount > 0 {
        Err(Answer::overloaded(excess))
    } else {
        Ok(network)
    }
}

/// Judges the flow and the table left by an accepted call; `network` is the one before.
pub fn judge(network: &Network, lent: &Lent, branch: usize, flow: &[i64], table: &[u8]) -> Judged {
    let count = network.lines.len();
    let mut judged = Judged::default();
    let (before, after) = (&lent.flow[..count], &flow[..count]);
    switching::judge_beyond(lent, count, flow, table, &mut judged);
    judge_flow(network, lent, branch, after, &mut judged);
    if judged.faults.is_empty() {
        judged.anew = shortlist(network, lent.table, branch, before, after);
        switching::judge_table(&network.without(branch), lent, after, table, &mut judged);
    }
    judged
}

fn judge_flow(network: &Network, lent: &Lent, branch: usize, after: &[i64], judged: &mut Judged) {
    let before = &lent.flow[..after.len()];
    if !network.without(branch).fits(after) {
        judged.faults.push(format!("the flow left does not fit the book without branch {branch}"));
        return;
    }
    let differs: Vec<usize> = (0..after.len()).filter(|&k| after[k] != before[k]).collect();
    if before[branch] == 0 {
        if !differs.is_empty() {
            judged.faults.push(format!("branch {branch} had no flow, yet the flow changed on {differs:?}"));
        }
        return;
    }
    let named = record::named(record::stretch(lent.table, branch), after.len());
    judged.fell_back = reroutes::confined(network, Limits::Normal, before, branch, &named).is_none();
    let strays: Vec<usize> = differs.into_iter().filter(|k| *k != branch && !named.contains(k)).collect();
    if !judged.fell_back && !strays.is_empty() {
        judged.faults.push(format!("the recorded reroute {named:?} of branch {branch} would do, yet {strays:?} changed"));
    }
}

/// The shortlist, from the table lent and the flows before and after; the branch taken out is touched whatever its flow was.
pub fn shortlist(network: &Network, table: &[u8], branch: usize, before: &[i64], after: &[i64]) -> Vec<bool> {
    let touched: Vec<bool> = (0..before.len()).map(|k| k == branch || before[k] != after[k]).collect();
    switching::shortlist(network, table, &touched)
}

/// A flow and a table of our own choice, as an accepted call may leave them (only as long as the counts need).
pub fn own_result(network: &Network, lent: &Lent, branch: usize) -> (Vec<i64>, Vec<u8>) {
    let count = network.lines.len();
    let before = &lent.flow[..count];
    let named = record::named(record::stretch(lent.table, branch), count);
    let all: Vec<usize> = (0..count).collect();
    let confined = |named: &[usize]| reroutes::confined(network, Limits::Normal, before, branch, named);
    let after = confined(&named).or_else(|| confined(&all)).expect("the changed book has a fitting flow");
    let listed = shortlist(network, lent.table, branch, before, &after);
    let table = switching::own_table(&network.without(branch), lent, &after, &listed);
    (after, table)
}
