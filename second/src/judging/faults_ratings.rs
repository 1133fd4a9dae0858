//! The faults to be planted where the two limits of a branch differ, by name, and how each is planted.

use crate::definitions::answer::Answer;
use crate::definitions::book::{self, Book};
use crate::definitions::cuts::{self, Cutter};
use crate::definitions::limits::Limits;
use crate::definitions::network::{Excess, Network};
use crate::definitions::outage;
use crate::definitions::reach;
use crate::definitions::record::{self, SIZE};
use crate::definitions::reroutes;
use crate::definitions::screen;
use crate::definitions::switching::Way;
use crate::judging::faults::Plant;
use crate::judging::plant::*;
use crate::judging::ratings::{limits_differ, second_alone};
use crate::trial::reference::Done;
use crate::trial::stream::Command;

/// Every fault by its name.
pub const RATING_FAULTS: &[(&str, Plant)] = &[
    ("a screen with verdicts by the normal limits", |done| records_by(done, "screen", normal_alone)),
    ("an outage with verdicts by the normal limits", |done| records_by(done, "out", normal_alone)),
    ("a return with verdicts by the normal limits", |done| records_by(done, "back", normal_alone)),
    ("a move of load with verdicts by the normal limits", |done| records_by(done, "move", normal_alone)),
    ("verdicts by the second kVA without the power factor", |done| records_by_book(done, "screen", without_factor)),
    ("one branch called short, whose reroute is above a normal limit", |done| {
        record_by_normal(done, CARRYING, |_, excess| excess)
    }),
    ("a shortage and a group by the normal limits", |done| record_by_normal(done, SHORT, |_, excess| excess)),
    ("a group by the normal limits, the shortage right", |done| {
        record_by_normal(done, SHORT, |shown, excess| Excess { amount: record::shortage(shown), ..excess })
    }),
    ("a screen accepted by the second limits", |done| {
        refused_by_12(done, "screen", |network, _, done| {
            cuts::base_excess(&second_alone(network)).amount == 0 && says(done, Answer::ACCEPTED)
        })
    }),
    ("a screen that leaves a flow above a normal limit", screen_above_normal),
    ("an outage accepted by the second limits", accepted_by_seconds),
    ("an outage refused by the excess of the second limits", |done| {
        refused_by_12(done, "out", |network, branch, done| {
            let excess = cuts::base_excess(&second_alone(network).without(branch));
            excess.amount > 0 && says(done, Answer::overloaded(excess))
        })
    }),
    ("an outage refused with what the record shows", |done| refused_as_shown(done, record::shortage)),
    ("an outage refused with the group that the record shows", |done| {
        let due = done.lines.first().and_then(|line| line.split(' ').nth(2)?.parse().ok());
        due.is_some_and(|due| refused_as_shown(done, |_| due))
    }),
    ("an outage accepted since the record shows it as carrying", |done| {
        refused_by_12(done, "out", |_, branch, done| {
            record::stretch(&done.before.table, branch)[0] == 1 && says(done, Answer::ACCEPTED)
        })
    }),
    ("an outage refused since no flow keeps to the recorded reroute", |done| {
        let falls_back = |done: &Done| lost(done).is_some_and(|lost| lost.kept(Limits::Normal).is_none());
        instead(done, falls_back, "12")
    }),
    ("an outage refused since the record shows it as short", |done| {
        let shown =
            |done: &Done| lost(done).is_some_and(|lost| record::is_short(record::stretch(&done.before.table, lost.branch)));
        instead(done, shown, "12")
    }),
    ("an outage that keeps to the recorded reroute above a normal limit", |done| {
        leaves(done, |lost| if lost.kept(Limits::Normal).is_none() { lost.kept(Limits::Second) } else { None })
    }),
    ("an outage that leaves a flow above a normal limit", |done| {
        leaves(done, |lost| lost.over_all(Limits::Second).filter(|flow| !lost.network.fits(flow)))
    }),
    ("an outage that leaves the recorded reroute though it fits the normal limits", |done| {
        lost(done).is_some_and(|lost| limits_differ(&lost.network)) && screened_afresh(done)
    }),
    ("an outage with a flow between the limits taken", |done| between_taken(done, Way::Out)),
    ("a return with a flow between the limits taken", |done| between_taken(done, Way::Back)),
    ("11 for a flow at its normal limit", |done| {
        let full = |done: &Done| lost(done).is_some_and(|lost| limits_differ(&lost.network) && lost.is_full());
        instead(done, full, "11")
    }),
];

/// The network with the normal limits in the place of the second ones.
fn normal_alone(network: &Network) -> Network {
    let mut network = network.clone();
    network.lines.iter_mut().for_each(|line| line.second_limit = line.normal_limit);
    network
}

/// The network with the second ratings of its book, as if they were in kW, in the place of the second limits.
fn without_factor(network: &Network, book: &Book) -> Network {
    let mut network = network.clone();
    let lines = network.lines.iter_mut().zip(&book.branches);
    lines.for_each(|(line, branch)| line.second_limit = branch.second_kva as i64);
    network
}

/// Calls a branch short, or islanding where it is, with an excess made from that of the normal limits: the first judged record
/// with such a byte 0 that this changes.
fn record_by_normal(done: &mut Done, byte_0: &[u8], other: impl Fn(&[u8], Excess) -> Excess) -> bool {
    accepted(done, |network, done| {
        let tight = normal_alone(network);
        let mut cutter = Cutter::new(&tight);
        let listed = if limits_differ(network) { judged_records(network, done) } else { Vec::new() };
        for k in listed {
            let shown = record::stretch(&done.after.table, k).to_vec();
            let (true, Some(excess)) = (byte_0.contains(&shown[0]), cutter.verdict(k).excess()) else { continue };
            let changed = record::bytes(reach::short(network, k, other(&shown, excess)), &[]);
            if changed[..] != shown {
                done.after.table[SIZE * k..SIZE * (k + 1)].copy_from_slice(&changed);
                return true;
            }
        }
        false
    })
}

/// Writes the records that a call writes anew by another reading of the limits, where that changes what they show.
fn records_by(done: &mut Done, call: &str, reading: impl Fn(&Network) -> Network) -> bool {
    records_by_book(done, call, |network, _| reading(network))
}

/// The same by a reading of the network and its book.
fn records_by_book(done: &mut Done, call: &str, reading: impl Fn(&Network, &Book) -> Network) -> bool {
    done.command.call() == Some(call)
        && accepted(done, |network, done| {
            let misread = reading(network, &book::unpack(done.after.bytes()).expect("an accepted call's book"));
            let flow = done.after.flow[..network.lines.len()].to_vec();
            let mut cutter = Cutter::new(&misread);
            let mut differs = false;
            for k in judged_records(network, done) {
                let bytes = screen::own_record(&mut cutter, &flow, k);
                differs |= bytes[..20] != done.after.table[SIZE * k..SIZE * k + 20];
                done.after.table[SIZE * k..SIZE * (k + 1)].copy_from_slice(&bytes);
            }
            differs
        })
}

/// Whether the command is this call, refused with 12; with the network lent and the branch named, 0 for a screen.
fn refused_by_12(done: &mut Done, call: &str, plant: impl FnOnce(&Network, usize, &mut Done) -> bool) -> bool {
    if done.command.call() != Some(call) || done.command.answer_in(done.lines) != Some(12) {
        return false;
    }
    let branch = if let Command::Switch { branch, .. } = *done.command { branch } else { 0 };
    let book = book::unpack(done.before.bytes()).expect("a book refused with 12");
    let network = Network::of(&book, done.before.percentage);
    plant(&network, branch, done)
}

/// Leaves a flow within the second limits after a screen that is above some normal one, and a table as it would be then.
fn screen_above_normal(done: &mut Done) -> bool {
    matches!(done.command, Command::Screen { .. })
        && accepted(done, |network, done| {
            let flow = done.after.flow[..network.lines.len()].to_vec();
            let all: Vec<usize> = (0..flow.len()).collect();
            let served = all.iter().filter(|&&k| network.lines[k].served && flow[k] != 0);
            let above = served.filter_map(|&k| reroutes::confined(network, Limits::Second, &flow, k, &all));
            let found = above.into_iter().find(|above| !network.fits(above));
            found.filter(|_| limits_differ(network)).map(|above| left_afresh(network, &above, done)).is_some()
        })
}

/// Takes a branch out where the changed book has a flow within the second limits alone.
fn accepted_by_seconds(done: &mut Done) -> bool {
    refused_by_12(done, "out", |network, branch, done| {
        let Command::Switch { flow, table, .. } = *done.command else { return false };
        let loose = second_alone(network);
        if cuts::base_excess(&loose.without(branch)).amount > 0 {
            return false;
        }
        let (after, records) = outage::own_result(&loose, &done.before.lent(flow, table), branch);
        done.after.book = book::with_status(&done.before.book, branch, false);
        done.after.flow[..after.len()].copy_from_slice(&after);
        done.after.table[..records.len()].copy_from_slice(&records);
        says(done, Answer::ACCEPTED)
    })
}

/// A 12 with the group of the branch's own record, where that shows it as short.
fn refused_as_shown(done: &mut Done, shortage: impl Fn(&[u8]) -> i64) -> bool {
    refused_by_12(done, "out", |_, branch, done| {
        let shown = record::stretch(&done.before.table, branch);
        let excess = Excess { amount: shortage(shown), group: record::group(shown) };
        record::is_short(shown) && says(done, Answer::overloaded(excess))
    })
}

/// An accepted outage of a branch with a flow: the network before it, the flow, the branch, and the reroute recorded.
struct Lost {
    network: Network,
    flow: Vec<i64>,
    branch: usize,
    named: Vec<usize>,
}

impl Lost {
    /// A flow without the branch that keeps to the reroute recorded.
    fn kept(&self, limits: Limits) -> Option<Vec<i64>> {
        reroutes::confined(&self.network, limits, &self.flow, self.branch, &self.named)
    }

    fn over_all(&self, limits: Limits) -> Option<Vec<i64>> {
        let all: Vec<usize> = (0..self.flow.len()).collect();
        reroutes::confined(&self.network, limits, &self.flow, self.branch, &all)
    }

    /// Whether some branch carries its normal limit, which isn't 0.
    fn is_full(&self) -> bool {
        self.network.lines.iter().zip(&self.flow).any(|(line, kw)| *kw != 0 && kw.abs() == line.normal_limit)
    }
}

fn lost(done: &Done) -> Option<Lost> {
    let Command::Switch { way: Way::Out, branch, .. } = *done.command else { return None };
    let book = book::unpack(done.before.bytes()).ok().filter(|_| call_accepted(done))?;
    let network = Network::of(&book, done.before.percentage);
    let flow = done.before.flow[..network.lines.len()].to_vec();
    let named = record::named(record::stretch(&done.before.table, branch), flow.len());
    (flow[branch] != 0).then_some(Lost { network, flow, branch, named })
}

/// Leaves another flow after an accepted outage, with a table as it would be then.
fn leaves(done: &mut Done, flow: impl Fn(&Lost) -> Option<Vec<i64>>) -> bool {
    let Some((lost, flow)) = lost(done).and_then(|lost| flow(&lost).map(|flow| (lost, flow))) else { return false };
    left_afresh(&lost.network.without(lost.branch), &flow, done);
    true
}

/// A flow that fits by the second limits alone is taken for one that fits: accepted, or refused with 12.
fn between_taken(done: &mut Done, wanted: Way) -> bool {
    let Command::Switch { way, branch, .. } = *done.command else { return false };
    if way != wanted || done.command.answer_in(done.lines) != Some(11) {
        return false;
    }
    let book = book::unpack(done.before.bytes()).expect("a book refused with 11");
    let network = Network::of(&book, done.before.percentage);
    let excess = cuts::base_excess(&network.with_status(branch, way.serves()));
    let answer = if excess.amount > 0 { Answer::overloaded(excess) } else { Answer::ACCEPTED };
    network.fits_within(Limits::Second, &done.before.flow[..network.lines.len()]) && says(done, answer)
}
