//! Parts of random streams in which a move of load is refused: no such bus, an injection out of its range, a flow that doesn't fit,
//! more than the network takes, too little room, damaged books; often with more than one of these at once.

use crate::books::random::Random;
use crate::definitions::form::LARGEST;
use crate::definitions::load::Shift;
use crate::definitions::network::Network;
use crate::definitions::record;
use crate::streams::damage::spoilt_book;
use crate::streams::make_loads::{pair, plausible};
use crate::streams::make_returns::{true_or_spoilt, SPOILT};
use crate::streams::under_way::Stream;
use crate::trial::stream::{Command, FLOWS, TABLE};

/// Any move at all: buses that are there or not, any kW, the edges of what four bytes can say often.
pub fn any(random: &mut Random) -> Shift {
    let bus = |random: &mut Random| *random.pick(&[0, 1, 2, 5, 127, 128, 65_535]);
    let some = random.below(1_000) as u32;
    let (up, down) = (bus(random), bus(random));
    Shift { up, down, kw: *random.pick(&[0, 1, some, some, 2_000_000, 1 << 31, u32::MAX]) }
}

/// One refused move of the book as it stands.
pub fn refused_one(stream: &mut Stream, count: usize) {
    match stream.random.below(4) {
        0 => no_bus(stream, count),
        1 => across(stream, count),
        _ => beyond_range(stream, count),
    }
}

/// 19: a bus at the count or beyond it, the one that rises or the one that falls, or both the same; at times with kW that no
/// injection can take.
fn no_bus(stream: &mut Stream, count: usize) {
    let Some(book) = stream.standing_book() else { return };
    let buses = book.injections.len();
    let (bus, beyond) = (stream.random.below(buses), *stream.random.pick(&[buses, buses, buses + 1, 128, 65_535]));
    let (up, down) = *stream.random.pick(&[(bus, bus), (bus, bus), (bus, beyond), (beyond, bus), (beyond, beyond)]);
    let some = stream.random.below(20) as u32;
    let kw = *stream.random.pick(&[0, some, 2_000_001, u32::MAX]);
    stream.load(count, Shift { up, down, kw });
}

/// 20: an injection that would leave its range by one kW or by more; and kW by which a sum of 32 bits would come back into it.
pub fn beyond_range(stream: &mut Stream, count: usize) {
    let Some(book) = stream.standing_book() else { return };
    let network = Network::of(&book, stream.good_percentage());
    let (up, down) = pair(&mut stream.random, &network);
    let injections = &book.injections;
    let in_range = (LARGEST - injections[up]).min(LARGEST + injections[down]);
    let back = (LARGEST + injections[up]).min(LARGEST - injections[down]).max(1);
    let wraps = (1 << 32) - stream.random.between(1, back);
    let near = (1 << 31) + stream.random.between(-3, 3);
    let kinds = [in_range + 1, in_range + 1, 2 * LARGEST, 2 * LARGEST + 1, near, u32::MAX as i64, wraps, wraps];
    let kw = *stream.random.pick(&kinds) as u32;
    stream.load(count, Shift { up, down, kw });
}

/// 12 of a move from one island to another, where there are two; of 0 kW it would be accepted.
fn across(stream: &mut Stream, count: usize) {
    let Some(book) = stream.standing_book() else { return };
    let island = Network::of(&book, stream.good_percentage()).islands();
    let tries: Vec<(usize, usize)> =
        (0..20).map(|_| (stream.random.below(island.len()), stream.random.below(island.len()))).collect();
    if let Some(&(up, down)) = tries.iter().find(|(up, down)| island[*up] != island[*down]) {
        let kw = *stream.random.pick(&[0, 1, 1, 5, 700]);
        stream.load(count, Shift { up, down, kw });
    }
}

/// Every refusal of the call, each with a table that is true as far as it can be and with one that isn't.
pub fn refused(stream: &mut Stream) {
    let count = true_or_spoilt(stream);
    before_the_flow(stream, count);
    too_much(stream, count);
    unfit(stream, count);
    for damage in SPOILT {
        let bytes = spoilt_book(&mut stream.random, damage);
        stream.add(Command::Book(bytes));
        let shift = any(&mut stream.random);
        stream.add(Command::Load { flow: FLOWS, table: TABLE, shift });
        if stream.dumps_left == 0 {
            return;
        }
    }
}

/// 8, 19 and 20, with the flow as a call left it or as `unfit` did.
fn before_the_flow(stream: &mut Stream, count: usize) {
    let (flow, table) = (stream.less(count), stream.less(record::SIZE * count));
    let shift = any(&mut stream.random);
    stream.add(Command::Load { flow, table: TABLE, shift });
    stream.add(Command::Load { flow: FLOWS, table, shift });
    no_bus(stream, count);
    no_bus(stream, count);
    beyond_range(stream, count);
    beyond_range(stream, count);
}

/// 12: more than the latent capacities take, or anything from one island to another.
fn too_much(stream: &mut Stream, count: usize) {
    for _ in 0..2 {
        if let Some(shift) = plausible(stream).filter(|shift| shift.kw > 0) {
            let kw = shift.kw.saturating_mul(*stream.random.pick(&[2, 2, 5]));
            stream.load(count, Shift { kw, ..shift });
        }
    }
    across(stream, count);
}

/// One flow number is changed, that of a branch out of service among them: 11, also where the changed book has an excess; and then
/// the refusals before it.
fn unfit(stream: &mut Stream, count: usize) {
    if count == 0 {
        return;
    }
    let any = stream.random.below(count);
    let branch = stream.standing(false).filter(|_| stream.random.once_in(2)).unwrap_or(any);
    let value = *stream.random.pick(&[7_777_777, i32::MIN, i32::MAX, 1, -1, 0]);
    stream.add(Command::Flow(branch, value));
    for _ in 0..2 {
        if let Some(shift) = plausible(stream) {
            stream.load(count, shift);
        }
    }
    across(stream, count);
    if stream.random.once_in(2) {
        before_the_flow(stream, count);
    }
}
