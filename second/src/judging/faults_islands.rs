//! The faults to be planted where branches would island, by name, and how each is planted.

use crate::definitions::answer::Answer;
use crate::definitions::network::{holds, Excess, Network, Verdict};
use crate::definitions::reach::{joined, joined_over};
use crate::definitions::record::{self, SIZE};
use crate::definitions::switching::Way;
use crate::judging::faults::Plant;
use crate::judging::faults_returns::old_record;
use crate::judging::islands::has_room;
use crate::judging::plant::*;
use crate::trial::reference::Done;
use crate::trial::stream::Command;

/// Every fault by its name.
pub const ISLAND_FAULTS: &[(&str, Plant)] = &[
    ("a screen with paths over the lost branch itself", |done| by_path_of(done, "screen", |_| true)),
    ("an outage with paths over the lost branch itself", |done| by_path_of(done, "out", |_| true)),
    ("a return with paths over the lost branch itself", |done| by_path_of(done, "back", |_| true)),
    ("a move of load with paths over the lost branch itself", |done| by_path_of(done, "move", |_| true)),
    ("branches of limit 0 left out of the path", |done| {
        by_path(done, |short| joined_over(short.network, short.branch, has_room))
    }),
    ("branches of a normal limit of 0 left out of the path", |done| {
        by_path(done, |short| joined_over(short.network, short.branch, |line| line.served && line.normal_limit > 0))
    }),
    ("branches that carry their limit left out of the path", |done| {
        by_path(done, |short| joined(&unfilled(short), short.branch))
    }),
    ("branches out of service in the path", |done| by_path(done, |short| joined_over(short.network, short.branch, |_| true))),
    ("3 for every short branch", |done| by_path(done, |_| false)),
    ("3 for a branch short of its whole flow, though joined", |done| {
        by_path(done, |short| short.shortage != short.flow[short.branch].abs())
    }),
    ("3 for a spur without flow", |done| idle_spur(done, 3)),
    ("2 for a spur without flow", |done| idle_spur(done, 2)),
    ("an islanding branch called carrying", |done| {
        first_record(done, ISLANDING, |_, _, _| Some(record::bytes(Verdict::Carries, &[])))
    }),
    ("an islanding branch called out", |done| first_record(done, ISLANDING, |_, _, _| Some([0; SIZE]))),
    ("an islanding branch short of one more", |done| {
        short_record(done, ISLANDING, |_, _, excess| Excess { amount: excess.amount + 1, ..excess })
    }),
    ("an islanding branch without its shortage", |done| {
        short_record(done, ISLANDING, |_, _, excess| Excess { amount: 0, ..excess })
    }),
    ("an islanding branch without its group", |done| short_record(done, ISLANDING, |_, _, excess| Excess { group: 0, ..excess })),
    ("the largest group of an islanding branch", |done| short_record(done, ISLANDING, largest_group)),
    ("all that is cut off as the group of an islanding branch", |done| short_record(done, ISLANDING, cut_off)),
    ("a reroute in an islanding record", |done| {
        first_record(done, ISLANDING, |network, branch, bytes| {
            (0..network.lines.len()).find(|&other| other != branch).map(|other| with_bit(bytes, other))
        })
    }),
    ("a record that keeps 2 after an outage that islands it", |done| keeps_byte_0(done, Way::Out, 2, 3)),
    ("a short record kept whole after an outage that islands it", |done| keeps_whole(done, Way::Out, 2, 3)),
    ("a carrying record kept whole after an outage that islands it", |done| keeps_whole(done, Way::Out, 1, 3)),
    ("a record that keeps 3 after a return that joins it", |done| keeps_byte_0(done, Way::Back, 3, 2)),
    ("an islanding record kept whole after a return that joins it", |done| keeps_whole(done, Way::Back, 3, 2)),
    ("an islanding record kept whole after a return by which it carries", |done| keeps_whole(done, Way::Back, 3, 1)),
    ("an outage that keeps a record of byte 0 = 3", |done| shortlisted_kept(done, |_, old, _| old[0] == 3)),
    ("a return that keeps a record of byte 0 = 3", |done| old_record(done, |old| old[0] == 3)),
    ("an outage accepted though the branch is shown as islanding", |done| {
        let Command::Switch { way: Way::Out, branch, .. } = *done.command else { return false };
        let refused = done.command.answer_in(done.lines) == Some(12);
        refused && record::stretch(&done.before.table, branch)[0] == 3 && says(done, Answer::ACCEPTED)
    }),
];

/// A short branch as a wrong program may look at it: the network and the flow as the call leaves them, and what it is short of.
struct Short<'a> {
    network: &'a Network,
    flow: &'a [i64],
    branch: usize,
    shortage: i64,
}

/// Gives the short records that a call writes anew 2 or 3 by another reading of what joins, where that changes any.
fn by_path(done: &mut Done, joins: impl Fn(&Short) -> bool) -> bool {
    accepted(done, |network, done| {
        let flow = done.after.flow[..network.lines.len()].to_vec();
        let mut differs = false;
        for branch in judged_records(network, done) {
            let bytes = &mut done.after.table[SIZE * branch..SIZE * (branch + 1)];
            if record::is_short(bytes) {
                let short = Short { network, flow: &flow, branch, shortage: record::shortage(bytes) };
                let byte_0 = if joins(&short) { 2 } else { 3 };
                differs |= bytes[0] != byte_0;
                bytes[0] = byte_0;
            }
        }
        differs
    })
}

/// The same for one call alone.
fn by_path_of(done: &mut Done, call: &str, joins: impl Fn(&Short) -> bool) -> bool {
    done.command.call() == Some(call) && by_path(done, joins)
}

/// The network without the branches whose flow has no room left.
fn unfilled(short: &Short) -> Network {
    let mut network = short.network.clone();
    for (line, kw) in network.lines.iter_mut().zip(short.flow) {
        line.served &= kw.abs() < line.second_limit;
    }
    network
}

/// Gives a branch that carries, without flow and with nothing else to join its ends, another byte 0.
fn idle_spur(done: &mut Done, byte_0: u8) -> bool {
    first_record(done, CARRYING, |network, branch, bytes| (!joined(network, branch)).then(|| with_byte_0(bytes, byte_0)))
}

/// All buses that the loss of a branch cuts off together with the end that its group holds.
fn cut_off(network: &Network, branch: usize, excess: Excess) -> Excess {
    let line = &network.lines[branch];
    let end = if holds(excess.group, line.first) { line.first } else { line.second };
    let island = network.without(branch).islands();
    let group = (0..network.buses()).filter(|&bus| island[bus] == island[end]).fold(0, |group, bus| group | 1 << bus);
    Excess { group, ..excess }
}

/// Changes the first record written anew whose byte 0 such a call turned; `old` and the bytes left are lent.
fn turned(done: &mut Done, way: Way, from: u8, to: u8, change: impl Fn(&[u8], &mut [u8])) -> bool {
    accepted_switch(way, done, |network, branch, done| {
        let byte_0 = |table: &[u8], k: usize| record::stretch(table, k)[0];
        let turned = |k: &usize| *k != branch && (byte_0(&done.before.table, *k), byte_0(&done.after.table, *k)) == (from, to);
        let Some(k) = judged_records(network, done).into_iter().find(turned) else { return false };
        change(record::stretch(&done.before.table, k), &mut done.after.table[SIZE * k..SIZE * (k + 1)]);
        true
    })
}

fn keeps_byte_0(done: &mut Done, way: Way, from: u8, to: u8) -> bool {
    turned(done, way, from, to, |_, left| left[0] = from)
}

fn keeps_whole(done: &mut Done, way: Way, from: u8, to: u8) -> bool {
    turned(done, way, from, to, |old, left| left.copy_from_slice(old))
}
