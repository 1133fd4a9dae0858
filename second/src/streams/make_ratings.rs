//! Parts of random streams on books whose ratings differ tellingly: outages refused though shown as carrying, refused with
//! another group than shown, accepted where the recorded reroute won't do; flows between the two limits.

use crate::books::random_ratings::heavy;
use crate::definitions::book::unpack;
use crate::definitions::cuts::{self, Cutter};
use crate::definitions::limits::Limits;
use crate::definitions::network::{Network, Verdict};
use crate::definitions::record;
use crate::definitions::reroutes;
use crate::definitions::screen;
use crate::streams::make_loads::plausible;
use crate::streams::stored::{lend, put_record};
use crate::streams::under_way::Stream;
use crate::trial::spaces::Spaces;
use crate::trial::stream::Command;

const TRIES: usize = 20;

/// What a branch is to be like.
#[derive(Clone, Copy)]
enum Wanted {
    /// It carries, and can't be taken out for good.
    CarriesOnly,
    /// It is short, and the refusal of its outage has another group.
    OtherGroup,
    /// It can be taken out, and no flow within the normal limits keeps to the reroute recorded.
    Elsewhere,
    /// It can be taken out, and its flow moves to where the reroute recorded has it.
    AsRecorded,
}

impl Wanted {
    fn holds(self, spaces: &Spaces, cutter: &mut Cutter, branch: usize) -> bool {
        let network = cutter.network;
        let excess = cuts::base_excess(&network.without(branch));
        let spare = excess.amount == 0 && spaces.flow[branch] != 0;
        match (self, cutter.verdict(branch)) {
            (Wanted::CarriesOnly, Verdict::Carries) => excess.amount > 0,
            (Wanted::OtherGroup, shown) => shown.excess().is_some_and(|shown| excess.group != shown.group),
            (Wanted::Elsewhere, Verdict::Carries) => spare && !keeps(network, spaces, branch),
            (Wanted::AsRecorded, Verdict::Carries) => spare && keeps(network, spaces, branch),
            _ => false,
        }
    }
}

/// Whether a flow within the normal limits keeps to the reroute recorded; the flow may be one that doesn't fit.
fn keeps(network: &Network, spaces: &Spaces, branch: usize) -> bool {
    let count = network.lines.len();
    let flow = &spaces.flow[..count];
    let named = record::named(record::stretch(&spaces.table, branch), count);
    network.fits(flow) && reroutes::confined(network, Limits::Normal, flow, branch, &named).is_some()
}

/// Takes out a branch as wanted, if one is found.
fn out(stream: &mut Stream, count: usize, wanted: Wanted) {
    if let Some(branch) = stream.found(TRIES, |spaces, cutter, branch| wanted.holds(spaces, cutter, branch)) {
        stream.out(count, branch);
    }
}

/// A screen, then outages of every kind and returns between.
pub fn switched(stream: &mut Stream) {
    let count = stream.heavy_book();
    stream.screen(count);
    for _ in 0..5 + stream.random.below(5) {
        match stream.random.below(7) {
            0 | 1 => out(stream, count, Wanted::CarriesOnly),
            2 | 3 => out(stream, count, Wanted::OtherGroup),
            4 => out(stream, count, Wanted::Elsewhere),
            5 => out(stream, count, Wanted::AsRecorded),
            _ => {
                if let Some(branch) = stream.standing(false) {
                    stream.back(count, branch);
                }
            }
        }
        if stream.dumps_left == 0 {
            return;
        }
    }
}

/// A small book with a flow and a true table of our own, so that what is recorded is no other program's choice; then outages
/// of every kind.
pub fn lent_true(stream: &mut Stream) {
    let buses = 2 + stream.random.below(5);
    let count = buses + stream.random.below(buses + 1);
    let percentage = stream.good_percentage();
    let (book, flow) = heavy(&mut stream.random, percentage, buses, count);
    let flow: Vec<i32> = flow.iter().map(|&kw| kw as i32).collect();
    lend(stream, &book, &flow);
    let network = Network::of(&book, percentage);
    let table = screen::own_table(&network, &stream.spaces.flow[..count]);
    (0..count).for_each(|branch| put_record(stream, branch, record::stretch(&table, branch)));
    for wanted in [Wanted::CarriesOnly, Wanted::OtherGroup, Wanted::Elsewhere, Wanted::AsRecorded] {
        out(stream, count, wanted);
    }
}

/// Flows within the second limits and not within the normal ones.
pub fn between(stream: &mut Stream) {
    for _ in 0..2 {
        lent_between(stream);
    }
}

/// Such a flow is lent to an outage, to a return and to a move of load: 11. It is what a branch leaves that carries and can't be taken out for
/// good.
fn lent_between(stream: &mut Stream) {
    let count = stream.heavy_book();
    stream.screen(count);
    if let Some(branch) = stream.spare() {
        stream.out(count, branch);
    }
    let only = |spaces: &Spaces, cutter: &mut Cutter, branch: usize| Wanted::CarriesOnly.holds(spaces, cutter, branch);
    let Some(branch) = stream.found(TRIES, only) else { return };
    let book = unpack(stream.spaces.bytes()).expect("a book that was screened");
    let network = Network::of(&book, stream.spaces.percentage);
    let all: Vec<usize> = (0..count).collect();
    let left = reroutes::confined(&network, Limits::Second, &stream.spaces.flow[..count], branch, &all);
    // Under a percentage out of range the screen was refused, and left no flow to begin with.
    let Some(left) = left else { return };
    for (branch, kw) in left.into_iter().enumerate() {
        stream.add(Command::Flow(branch, kw as i32));
    }
    for served in [true, false] {
        let Some(branch) = stream.standing(served) else { continue };
        if served {
            stream.out(count, branch);
        } else {
            stream.back(count, branch);
        }
    }
    if let Some(shift) = plausible(stream) {
        stream.load(count, shift);
    }
}
