//! The part of the stored stream on books whose two ratings differ: outages refused though shown as carrying or with another
//! group than shown, accepted along the recorded reroute or where it won't do, flows between the two limits, returns; and a
//! book in either form, screened and switched alike.

use crate::books::named::{largest, triangle};
use crate::books::plain::{moved_up, with_seconds};
use crate::books::ratings;
use crate::definitions::book::Book;
use crate::definitions::network::{Excess, Verdict};
use crate::definitions::record::{self, SIZE};
use crate::streams::stored::{back, four, lend, out, put_record, WHOLE};
use crate::streams::under_way::Stream;
use crate::trial::stream::Command;

pub fn add(stream: &mut Stream) {
    stream.add(Command::Spoil);
    carrying_and_refused(stream);
    other_groups(stream);
    recorded_or_elsewhere(stream);
    untrue(stream);
    between_the_limits(stream);
    mixed(stream);
    either_form(stream);
    on_largest(stream);
}

/// Branches that carry and can't be taken out for good; and limits that round down to the same, and not.
fn carrying_and_refused(stream: &mut Stream) {
    stream.book(&ratings::triangle_two());
    stream.add_all([WHOLE, out(0), out(1), out(2), out(0), back(2), out(1)]);
    stream.book(&ratings::pair());
    stream.add_all([WHOLE, out(0), out(1)]);
    for second_kva in [1001, 1002] {
        stream.book(&ratings::rounded(second_kva));
        stream.add_all([WHOLE, out(0)]);
    }
}

/// Branch 0 is shown as short with one group, and refused with another.
fn other_groups(stream: &mut Stream) {
    for book in [ratings::ring_two(), ratings::ring_tied(), ratings::ring_far()] {
        stream.book(&book);
        stream.add_all([WHOLE, out(0), out(1), out(0), back(1), out(2), back(2)]);
    }
}

/// Puts a book, a flow and a table in place: the record of branch 0, and for the others that they carry with no reroute, which
/// is true where they have no flow.
fn lend_table(stream: &mut Stream, book: &Book, flow: &[i32], first: [u8; SIZE]) {
    lend(stream, book, flow);
    put_record(stream, 0, &first);
    (1..flow.len()).for_each(|branch| put_record(stream, branch, &carries(&[])));
}

fn carries(reroute: &[usize]) -> [u8; SIZE] {
    record::bytes(Verdict::Carries, reroute)
}

/// The recorded reroute doesn't fit the normal limits, and the flow goes elsewhere; or it does, and the flow keeps to it. Then
/// the same books as a screen records them.
fn recorded_or_elsewhere(stream: &mut Stream) {
    lend_table(stream, &ratings::detour(), &[10, 0, 0], carries(&[1]));
    stream.add_all([out(0), out(2), out(1), back(0), out(2)]);
    lend_table(stream, &ratings::detour(), &[10, 0, 0], carries(&[2]));
    stream.add_all([out(0), back(0)]);
    lend_table(stream, &ratings::detour_of_two(), &[10, 0, 0, 0, 0], carries(&[1, 2]));
    stream.add_all([out(0), out(4), back(0)]);
    lend_table(stream, &ratings::straight(), &[10, 0, 0], carries(&[2]));
    stream.add_all([out(0), out(1), back(0)]);
    for book in [ratings::detour(), ratings::detour_of_two(), ratings::straight()] {
        stream.book(&book);
        stream.add_all([WHOLE, out(0), back(0)]);
    }
}

/// Tables that aren't true: what they show of branch 0 has no part in the answer. The one is accepted, the other refused.
fn untrue(stream: &mut Stream) {
    let short = record::bytes(Verdict::Short(Excess { amount: 10, group: 1 }), &[]);
    lend_table(stream, &ratings::straight(), &[10, 0, 0], short);
    stream.add_all([out(0), back(0)]);
    lend_table(stream, &ratings::ring_two(), &[30, 0, 0], carries(&[1, 2]));
    stream.add_all([out(0), out(1), out(0)]);
}

/// A flow of 25 or 30 kW on a branch of 20 kVA, 30 for a short time: 11 for an outage and a return. At 20 kW it fits.
fn between_the_limits(stream: &mut Stream) {
    stream.book(&ratings::pair_and_feeder());
    stream.add(WHOLE);
    for flow in [[25, 5, 0], [30, 0, 0]] {
        lend(stream, &ratings::pair_and_feeder(), &flow);
        stream.add_all([back(2), out(0), out(1)]);
    }
    lend(stream, &ratings::pair_and_feeder(), &[20, 10, 0]);
    stream.add_all([out(1), back(2), out(1), out(2), back(2)]);
    lend(stream, &ratings::above(), &[30]);
    stream.add_all([out(0), WHOLE]);
}

/// A run of outages and returns on a book with a feeder 0-3 of 9 kVA, 60 for a short time. With 0-1 or 0-2 out, the other
/// carries thanks to it and can't go out for good; with the feeder out it is short.
fn mixed(stream: &mut Stream) {
    stream.book(&with_seconds(four().0, &[(0, 60), (3, 31), (5, 60)]));
    stream.add_all([WHOLE, out(1), out(0), back(1), out(0), out(1), out(5), out(1), back(0), out(2), back(5), back(2), out(4)]);
}

/// An old book and the same moved up, given the same calls.
fn either_form(stream: &mut Stream) {
    for book in [four().0, triangle(19)] {
        for form in [book.clone(), moved_up(book)] {
            stream.book(&form);
            stream.add_all([WHOLE, out(2), out(0), out(1), back(2), out(0), back(0)]);
        }
    }
}

/// The largest book with every second kVA far above the first. With 5-6 out, bus 6 has two chords beside 6-7: all carry, and
/// 6-7 can't go out for good.
fn on_largest(stream: &mut Stream) {
    let seconds: Vec<(usize, u32)> = (0..256).map(|branch| (branch, 100_000 + branch as u32)).collect();
    stream.add(Command::Spoil);
    stream.book(&with_seconds(largest(), &seconds));
    stream.add_all([WHOLE, out(5), out(6), out(130), back(5), out(6), back(6)]);
}
