//! Parts of random streams in which branches would island: ties taken out, so that short branches lose their last way round, and
//! brought back, so that they have one again; spurs without flow; and tables that mistake the one for the other.

use crate::books::random_islands::{tied, tied_counts};
use crate::definitions::cuts::{self, Cutter};
use crate::definitions::network::{Network, Verdict};
use crate::definitions::reach::joined;
use crate::definitions::record;
use crate::streams::under_way::Stream;
use crate::trial::stream::Command;

const TRIES: usize = 12;

/// A book with ties in the book space; its number of branches.
pub fn tied_book(stream: &mut Stream) -> usize {
    let percentage = stream.good_percentage();
    let (buses, ties) = tied_counts(&mut stream.random);
    let (book, _) = tied(&mut stream.random, percentage, buses, ties);
    stream.book(&book);
    book.branches.len()
}

/// The network of the book as it stands at the percentage in force, with its branches that are as wanted; none where it has an
/// excess.
fn standing(stream: &Stream, wanted: impl Fn(Verdict) -> bool) -> Option<(Network, Vec<usize>)> {
    let network = Network::of(&stream.standing_book()?, stream.spaces.percentage);
    let mut cutter = Cutter::new(&network);
    if cutter.base_excess().amount > 0 {
        return None;
    }
    let found = (0..network.lines.len()).filter(|&branch| wanted(cutter.verdict(branch))).collect();
    Some((network, found))
}

/// A branch that can be taken out and is on the last way round of a short one, if a few tries find one.
fn last_way(stream: &mut Stream) -> Option<usize> {
    let (_, shorts) = standing(stream, |verdict| matches!(verdict, Verdict::Short(_)))?;
    stream.found(TRIES, |_, cutter, branch| {
        let without = cutter.network.without(branch);
        let islands = shorts.iter().any(|&short| short != branch && !joined(&without, short));
        islands && cuts::base_excess(&without).amount == 0
    })
}

/// A branch out of service that would give an islanding one a way round.
fn new_way(stream: &mut Stream) -> Option<usize> {
    let (network, islanding) = standing(stream, |verdict| matches!(verdict, Verdict::Islands(_)))?;
    let joins = |branch: &usize| {
        let with = network.with_status(*branch, true);
        islanding.iter().any(|&lost| joined(&with, lost))
    };
    let found: Vec<usize> = (0..network.lines.len()).filter(|&branch| !network.lines[branch].served).filter(joins).collect();
    (!found.is_empty()).then(|| *stream.random.pick(&found))
}

/// A branch without flow whose ends nothing else joins: it can be taken out, and parts the network.
fn idle_spur(stream: &mut Stream) -> Option<usize> {
    stream.found(TRIES, |spaces, cutter, branch| spaces.flow[branch] == 0 && !joined(cutter.network, branch))
}

/// One outage or return of the kinds above, or of any kind.
fn switch_one(stream: &mut Stream, count: usize) {
    let (out, back) = match stream.random.below(8) {
        0..=2 => (last_way(stream), None),
        3..=5 => (None, new_way(stream)),
        6 => (idle_spur(stream), None),
        _ => (None, stream.standing(false)),
    };
    let any = stream.random.below(count + 1);
    match (out, back) {
        (_, Some(branch)) => stream.back(count, branch),
        (Some(branch), _) => stream.out(count, branch),
        _ => {
            let branch = stream.spare().unwrap_or(any);
            stream.out(count, branch);
        }
    }
}

/// A screen, then outages and returns by which branches island and are joined again.
pub fn switched(stream: &mut Stream) {
    let count = tied_book(stream);
    stream.screen(count);
    for _ in 0..4 + stream.random.below(4) {
        switch_one(stream, count);
        if stream.dumps_left == 0 {
            return;
        }
    }
}

/// Several small books screened, and one outage each at most.
pub fn screened(stream: &mut Stream) {
    for _ in 0..3 {
        let count = tied_book(stream);
        stream.screen(count);
        if stream.random.once_in(2) {
            switch_one(stream, count);
        }
        if stream.dumps_left == 0 {
            return;
        }
    }
}

/// A screen, then outages and returns with the table spoilt between: short for islanding, islanding for short, and either for a
/// branch that carries or is out.
pub fn mistaken(stream: &mut Stream) {
    let count = tied_book(stream);
    stream.screen(count);
    for _ in 0..3 {
        for branch in 0..count {
            let either = 2 + stream.random.below(2) as u8;
            let (other, times) = match stream.spaces.table[record::SIZE * branch] {
                2 => (3, 2),
                3 => (2, 2),
                _ => (either, 6),
            };
            if stream.random.once_in(times) {
                stream.add(Command::Table(record::SIZE * branch, other));
            }
        }
        switch_one(stream, count);
        if stream.dumps_left == 0 {
            return;
        }
    }
}
