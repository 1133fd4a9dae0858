//! Moving load between buses (document 02, W4): which answer is due, what an accepted call must leave, and one result of our own
//! choice.

use crate::definitions::answer::Answer;
use crate::definitions::book;
use crate::definitions::cuts;
use crate::definitions::form::LARGEST;
use crate::definitions::limits::Limits;
use crate::definitions::maxflow::{Graph, PLENTY};
use crate::definitions::network::{Line, Network};
use crate::definitions::screen;
use crate::definitions::switching::{self, Judged, Lent};

/// What is asked for: "one bus's injection rises by it, another's falls by it".
#[derive(Clone, Copy, Debug, PartialEq, Eq)]
pub struct Shift {
    pub up: usize,
    pub down: usize,
    pub kw: u32,
}

impl Shift {
    /// The same kW the other way.
    pub fn turned(self) -> Shift {
        Shift { up: self.down, down: self.up, kw: self.kw }
    }

    /// Whether there are both buses, and they are two.
    pub fn has_buses(self, buses: usize) -> bool {
        self.up < buses && self.down < buses && self.up != self.down
    }

    /// The two injections after it. They are whole numbers of any size here, so that no kW wraps.
    pub fn injections(self, before: &[i64]) -> [i64; 2] {
        [before[self.up] + self.kw as i64, before[self.down] - self.kw as i64]
    }

    /// The network after it.
    pub fn changed(self, network: &Network) -> Network {
        let mut changed = network.clone();
        [changed.injections[self.up], changed.injections[self.down]] = self.injections(&network.injections);
        changed
    }

    /// The bytes of a book after it, in the form that it has: the fields of the two injections are written, and nothing else.
    pub fn book(self, bytes: &[u8]) -> Vec<u8> {
        let before = book::unpack(bytes).expect("an accepted call's book").injections;
        let [up, down] = self.injections(&before);
        book::with_injection(&book::with_injection(bytes, self.up, up), self.down, down)
    }
}

/// The network of the book lent, at the percentage of the call, where its load can be moved so; else the first of 21, 1 to 8, "19
/// (no such bus, or both the same), 20 (an injection would leave its range)".
pub fn movable(lent: &Lent, shift: Shift) -> Result<Network, Answer> {
    let book = screen::opened(lent.percentage, lent.book, lent.flow.len(), lent.table.len())?;
    if !shift.has_buses(book.injections.len()) {
        return Err(Answer::refused(19));
    }
    if shift.injections(&book.injections).iter().any(|kw| kw.abs() > LARGEST) {
        return Err(Answer::refused(20));
    }
    Ok(Network::of(&book, lent.percentage))
}

/// The network before an accepted call; else the refusal due: those above, then 11 by the book as it is lent, then 12 by the base
/// excess of the changed book.
pub fn allowed(lent: &Lent, shift: Shift) -> Result<Network, Answer> {
    let network = switching::fitted(movable(lent, shift)?, lent)?;
    let excess = cuts::base_excess(&shift.changed(&network));
    if excess.amount > 0 {
        Err(Answer::overloaded(excess))
    } else {
        Ok(network)
    }
}

/// Judges the flow and the table left by an accepted call; `network` is the one before.
pub fn judge(network: &Network, lent: &Lent, shift: Shift, flow: &[i64], table: &[u8]) -> Judged {
    let count = network.lines.len();
    let mut judged = Judged::default();
    let (changed, before, after) = (shift.changed(network), &lent.flow[..count], &flow[..count]);
    switching::judge_beyond(lent, count, flow, table, &mut judged);
    judge_flow(&changed, shift.kw as i64, before, after, &mut judged);
    if judged.faults.is_empty() {
        judged.anew = shortlist(network, lent.table, before, after);
        switching::judge_table(&changed, lent, after, table, &mut judged);
    }
    judged
}

/// "Power is rerouted between the two": what is rerouted is the kW moved, so that no branch's flow changes by more.
fn judge_flow(changed: &Network, kw: i64, before: &[i64], after: &[i64], judged: &mut Judged) {
    if !changed.fits(after) {
        judged.faults.push("the flow left does not fit the book with its load moved".into());
        return;
    }
    if let Some(k) = (0..after.len()).find(|&k| (after[k] - before[k]).abs() > kw) {
        judged.faults.push(format!("{kw} kW were moved, yet the flow of branch {k} went from {} to {}", before[k], after[k]));
    }
}

/// "The shortlist rule is that of the outage call, with touched meaning a changed flow."
pub fn shortlist(network: &Network, table: &[u8], before: &[i64], after: &[i64]) -> Vec<bool> {
    let touched: Vec<bool> = before.iter().zip(after).map(|(before, after)| before != after).collect();
    switching::shortlist(network, table, &touched)
}

/// The latent capacities of a network with a fitting flow, by the normal limits, as a graph with an arc a branch.
fn latent(network: &Network, flow: &[i64]) -> (Graph, Vec<usize>) {
    let mut graph = Graph::new(network.buses());
    let arc = |(line, kw): (&Line, &i64)| {
        let limit = if line.served { line.limit(Limits::Normal) } else { 0 };
        graph.join(line.first, line.second, limit - kw, limit + kw)
    };
    let arcs = network.lines.iter().zip(flow).map(arc).collect();
    (graph, arcs)
}

/// How many kW could be moved over the latent capacities, whatever the injections' range.
pub fn most(network: &Network, flow: &[i64], up: usize, down: usize) -> i64 {
    latent(network, flow).0.largest(up, down, PLENTY)
}

/// The flow with the kW moved sent besides, from the bus that rises to the one that falls. Whatever is sent goes over a branch once,
/// so that no flow changes by more than that.
fn rerouted(network: &Network, flow: &[i64], shift: Shift) -> Vec<i64> {
    let (mut graph, arcs) = latent(network, flow);
    let before: Vec<i64> = arcs.iter().map(|&arc| graph.room(arc)).collect();
    let sent = graph.largest(shift.up, shift.down, shift.kw as i64);
    assert_eq!(sent, shift.kw as i64, "the changed book has a fitting flow");
    (0..flow.len()).map(|k| flow[k] + before[k] - graph.room(arcs[k])).collect()
}

/// A flow and a table of our own choice, as an accepted call may leave them (only as long as the counts need).
pub fn own_result(network: &Network, lent: &Lent, shift: Shift) -> (Vec<i64>, Vec<u8>) {
    let before = &lent.flow[..network.lines.len()];
    let after = rerouted(network, before, shift);
    let listed = shortlist(network, lent.table, before, &after);
    let table = switching::own_table(&shift.changed(network), lent, &after, &listed);
    (after, table)
}
