//! Parts of random streams in which load moves between buses: runs mixed with outages and returns, there and back, from tables that
//! aren't true, with the percentage changed between, and at the edges of what an injection can be.

use crate::books::random::Random;
use crate::books::random_loads::{self, LARGE, LEAST};
use crate::books::random_percentages::{below_nameplate, in_range};
use crate::definitions::form::LARGEST;
use crate::definitions::load::{self, Shift};
use crate::definitions::network::Network;
use crate::definitions::record;
use crate::streams::make_loads_refused::{beyond_range, refused_one};
use crate::streams::make_returns::take_out;
use crate::streams::under_way::Stream;
use crate::streams::{make_islands, make_tables};
use crate::trial::stream::Command;

const TRIES: usize = 10;

/// What a move is to be like.
#[derive(Clone, Copy)]
enum Wanted {
    Nothing,
    Any,
    Most,
    OneMore,
    MakesZero,
    TurnsSign,
}

impl Wanted {
    fn random(random: &mut Random) -> Wanted {
        let (any, zero, sign) = (Wanted::Any, Wanted::MakesZero, Wanted::TurnsSign);
        let kinds = [Wanted::Nothing, Wanted::Most, Wanted::Most, Wanted::OneMore, zero, zero, sign, sign, any, any, any, any];
        *random.pick(&kinds)
    }

    /// So many kW, if there are any as wanted: what the one bus lacks to 0 and what the other has above it are given, and the most
    /// that can be moved.
    fn kw(self, random: &mut Random, to_zero: [i64; 2], most: i64) -> Option<i64> {
        let first = random.below(2);
        let turn = [to_zero[first], to_zero[1 - first]];
        let kw = match self {
            Wanted::Nothing => Some(0),
            Wanted::Any => (most > 0).then(|| random.between(1, most)),
            Wanted::Most => Some(most),
            Wanted::OneMore => Some(most + 1),
            Wanted::MakesZero => turn.into_iter().find(|kw| (1..=most).contains(kw)),
            Wanted::TurnsSign => turn.into_iter().find(|kw| (1..most).contains(kw)).map(|kw| random.between(kw + 1, most)),
        };
        kw.filter(|&kw| kw <= u32::MAX as i64)
    }
}

/// Two buses: the ends of a branch, or any.
pub fn pair(random: &mut Random, network: &Network) -> (usize, usize) {
    let any = (random.below(network.buses()), random.below(network.buses()));
    if network.lines.is_empty() || random.once_in(2) {
        return any;
    }
    let line = random.pick(&network.lines).clone();
    if random.once_in(2) {
        (line.first, line.second)
    } else {
        (line.second, line.first)
    }
}

/// A move of the book as it stands, drawn from its latent capacities and injections, so that most are accepted.
pub fn plausible(stream: &mut Stream) -> Option<Shift> {
    let network = Network::of(&stream.standing_book()?, stream.good_percentage());
    let standing = &stream.spaces.flow[..network.lines.len()];
    let flow = if network.fits(standing) { standing.to_vec() } else { vec![0; standing.len()] };
    let wanted = Wanted::random(&mut stream.random);
    let injections = &network.injections;
    (0..TRIES).find_map(|_| {
        let (up, down) = pair(&mut stream.random, &network);
        if up == down {
            return None;
        }
        let in_range = (LARGEST - injections[up]).min(LARGEST + injections[down]);
        let most = load::most(&network, &flow, up, down).min(in_range);
        let kw = wanted.kw(&mut stream.random, [-injections[up], injections[down]], most)?;
        Some(Shift { up, down, kw: kw as u32 })
    })
}

/// A move that is mostly accepted; or none, where the book has one bus.
pub fn move_one(stream: &mut Stream, count: usize) {
    if let Some(shift) = plausible(stream) {
        stream.load(count, shift);
    }
}

/// A move, and the same kW the other way; refused calls may come between.
fn there_and_back(stream: &mut Stream, count: usize) {
    let Some(shift) = plausible(stream) else { return };
    stream.load(count, shift);
    if stream.random.once_in(4) {
        refused_one(stream, count);
    }
    stream.load(count, shift.turned());
}

/// A branch comes back, or one is taken out where all are in service.
pub fn bring_back(stream: &mut Stream, count: usize) {
    match stream.standing(false) {
        Some(branch) => stream.back(count, branch),
        None => take_out(stream, count),
    }
}

/// A book of any kind; its number of branches.
pub fn any_book(stream: &mut Stream) -> usize {
    match stream.random.below(5) {
        0 => stream.heavy_book(),
        1 => make_islands::tied_book(stream),
        _ => stream.good_book(),
    }
}

/// A screen, then moves, outages and returns in any order under one percentage, at times a screen again.
pub fn mixed(stream: &mut Stream) {
    if stream.random.once_in(3) {
        let percentage = below_nameplate(&mut stream.random);
        stream.percentage(percentage);
    }
    let count = any_book(stream);
    stream.screen(count);
    if !stream.random.once_in(5) {
        bring_back(stream, count);
    }
    for _ in 0..5 + stream.random.below(5) {
        match stream.random.below(16) {
            0..=6 => move_one(stream, count),
            7..=9 => there_and_back(stream, count),
            10 | 11 => take_out(stream, count),
            12 | 13 => bring_back(stream, count),
            14 => refused_one(stream, count),
            _ if stream.random.once_in(6) => stream.screen(count),
            _ => move_one(stream, count),
        }
        if stream.dumps_left == 0 {
            return;
        }
    }
}

/// Moves from tables that aren't true: one spoilt since a screen, or one that no screen made.
pub fn from_untrue(stream: &mut Stream) {
    let made_up = stream.random.once_in(2);
    let count = if made_up { make_tables::lend_made_up(stream) } else { any_book(stream) };
    if !made_up {
        stream.screen(count);
        take_out(stream, count);
    }
    for _ in 0..2 + stream.random.below(4) {
        if count > 0 && !(made_up && stream.random.once_in(2)) {
            let branch = stream.random.below(count);
            make_tables::spoil(stream, count, branch);
        }
        if let Some(outside) = stream.standing(false).filter(|_| stream.random.once_in(2)) {
            stream.add(Command::Table(record::SIZE * outside, 1));
        }
        move_one(stream, count);
        if stream.dumps_left == 0 {
            return;
        }
    }
}

/// A screen, then moves, outages and returns with the percentage changed between.
pub fn changed(stream: &mut Stream) {
    let start = in_range(&mut stream.random);
    let least = in_range(&mut stream.random).min(start);
    let count = stream.good_book_at(least);
    stream.percentage(start);
    stream.screen(count);
    for _ in 0..4 + stream.random.below(5) {
        let other = in_range(&mut stream.random);
        match stream.random.below(6) {
            0 | 1 => stream.percentage(other),
            2 => stream.percentage(start),
            _ => {}
        }
        match stream.random.below(6) {
            0 => take_out(stream, count),
            1 => bring_back(stream, count),
            2 => there_and_back(stream, count),
            _ => move_one(stream, count),
        }
        if stream.dumps_left == 0 {
            return;
        }
    }
}

/// The least injection and the largest: all that can be moved, half of it, one kW more, and amounts that wrap.
pub fn edges(stream: &mut Stream) {
    if stream.random.once_in(2) {
        let percentage = below_nameplate(&mut stream.random);
        stream.percentage(percentage);
    }
    let percentage = stream.good_percentage();
    let book = random_loads::far(&mut stream.random, percentage);
    let count = book.branches.len();
    stream.book(&book);
    stream.screen(count);
    let whole = Shift { up: LEAST, down: LARGE, kw: 2 * LARGEST as u32 };
    for _ in 0..3 + stream.random.below(3) {
        let any = stream.random.between(0, 2 * LARGEST) as u32;
        let kw = *stream.random.pick(&[whole.kw, whole.kw, whole.kw, whole.kw - 1, whole.kw / 2, whole.kw + 1, any]);
        stream.load(count, Shift { kw, ..whole });
        beyond_range(stream, count);
        match stream.random.below(3) {
            0 => stream.load(count, Shift { kw, ..whole.turned() }),
            1 => stream.load(count, whole.turned()),
            _ => {}
        }
        if stream.dumps_left == 0 {
            return;
        }
    }
}
