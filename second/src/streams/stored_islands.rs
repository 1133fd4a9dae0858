//! The part of the stored stream in which branches would island: verdicts that turn from short to islanding by an outage and
//! back by a return, branches of limit 0 that join, spurs without flow, tables that mistake the one for the other, in either form
//! and at percentages below 100; and a ring of 128 buses.

use crate::books::islands::*;
use crate::books::named::triangle;
use crate::books::plain::{moved_up, with_out};
use crate::definitions::network::{Excess, Verdict};
use crate::definitions::record::{self, SIZE};
use crate::streams::stored::{back, four, lend, out, put_record, WHOLE};
use crate::streams::stored_percentages::told;
use crate::streams::under_way::Stream;
use crate::trial::stream::Command;

pub fn add(stream: &mut Stream) {
    stream.add(Command::Spoil);
    on_triangle(stream);
    closed_by_0_kw(stream);
    below_100(stream);
    side_by_side_pairs(stream);
    run(stream);
    mistaken(stream);
    stream.add(Command::Spoil);
    stream.book(&long_ring());
    stream.add_all([WHOLE, out(LONG_CLOSES), out(64), back(LONG_CLOSES), out(64)]);
}

/// With 1-2 of 19 kVA branch 1 is short 1, with buses 0 and 1. Without 1-2 it would island, short 20 with the same group, and so
/// would branch 0, which carried, short 10 with buses 0 and 2. Without branch 0 the other two would.
fn on_triangle(stream: &mut Stream) {
    for book in [triangle(19), moved_up(triangle(19))] {
        stream.book(&book);
        stream.add_all([WHOLE, out(2), out(1), back(2)]);
    }
    stream.book(&triangle(30));
    stream.add_all([WHOLE, out(0), out(2), back(0)]);
}

/// The ring that a branch of 0 kW closes, by 0 kVA or by 1 at power factor 999; and one of 0 kVA that has 5 for a short time. It
/// is taken out and brought back, and so is the spur without flow; then it is out from the start.
fn closed_by_0_kw(stream: &mut Stream) {
    for book in [ring_zero(), ring_closed_by(1, 1, 999), ring_closed_by(0, 5, 1000)] {
        stream.book(&book);
        stream.add_all([WHOLE, out(CLOSES), out(1), out(SPUR), back(CLOSES), out(0), back(SPUR)]);
    }
    stream.book(&with_out(moved_up(ring_zero()), CLOSES));
    stream.add_all([WHOLE, back(CLOSES)]);
}

/// With 1 kVA the ring is closed by 1 kW at 100 percent and by 0 kW at 99 and at 75, and always joined.
fn below_100(stream: &mut Stream) {
    for percentage in [75, 99, 100] {
        stream.book(&ring_closed_by(1, 1, 1000));
        stream.add_all([told(percentage), WHOLE, out(CLOSES), back(CLOSES)]);
    }
    stream.book(&ring_zero());
    stream.add_all([told(75), WHOLE, out(SPUR), out(CLOSES), told(100), back(SPUR), back(CLOSES)]);
}

/// Two branches side by side: each is the other's only way round.
fn side_by_side_pairs(stream: &mut Stream) {
    for book in [side_by_side(), side_by_side_two()] {
        stream.book(&book);
        stream.add_all([WHOLE, out(0), out(1), out(0), back(1)]);
    }
}

/// Branches are taken out until a chain 0-1-3-2 is left, which would island wherever it is cut. With 0-3 back, 0-1 and 1-3 have a
/// way round and 2-3 has none; with 1-2 back all have one.
fn run(stream: &mut Stream) {
    for book in [four().0, moved_up(four().0)] {
        stream.book(&book);
        stream.add_all([WHOLE, out(2), out(5), out(1), out(4), back(5), back(2), back(1)]);
    }
}

/// A record that shows its branch as short or islanding, by byte 0.
fn shown(byte_0: u8, amount: i64, group: u128) -> [u8; SIZE] {
    let excess = Excess { amount, group };
    record::bytes(if byte_0 == 3 { Verdict::Islands(excess) } else { Verdict::Short(excess) }, &[])
}

/// Tables that aren't true: islanding for short before an outage that makes it right, short for islanding before a return that
/// does, both the wrong way about, and islanding for branches that carry or are out.
fn mistaken(stream: &mut Stream) {
    lend(stream, &ring_zero(), &[30, 10, 0, 0]);
    let islanding = [shown(3, 30, 1), shown(3, 10, 3), shown(3, 0, 0), shown(3, 0, 0)];
    islanding.iter().enumerate().for_each(|(branch, bytes)| put_record(stream, branch, bytes));
    stream.add(out(CLOSES));
    [0, SIZE].iter().for_each(|&place| stream.add(Command::Table(place, 2)));
    stream.add_all([back(CLOSES), Command::Table(0, 3), Command::Table(SPUR * SIZE, 3), out(SPUR)]);
    stream.add_all([Command::Table(0, 3), Command::Table(SPUR * SIZE, 3), back(SPUR)]);
    stream.add_all([Command::Table(SIZE, 3), Command::Table(CLOSES * SIZE, 3), out(CLOSES)]);
    stream.add_all([Command::Table(SIZE, 2), out(SPUR), Command::Table(0, 2), back(SPUR)]);
}
