//! The part of the stored stream in which the same switchings are asked in several orders from the same start: accepted in full or
//! refused in either, at the same call or at another; outages, returns, and one of each; two and three.

use crate::books::orders::{feeders, halved, one_outside, ways_round};
use crate::definitions::book::Book;
use crate::streams::stored::{back, out, WHOLE};
use crate::streams::stored_percentages::told;
use crate::streams::under_way::Stream;
use crate::trial::stream::Command;

pub fn add(stream: &mut Stream) {
    stream.add(Command::Spoil);
    // 0 and 1 are refused at the first call or at the second, 1 and 2 at the second either way, all three at the first or the second.
    each(stream, &feeders(), &[&[out(0), out(1), out(2)], &[out(2), out(1), out(0)], &[out(1), out(0)]]);
    in_full(stream);
    // An outage and a return: 3 and 2 accepted either way, 0 after the return of 2 alone.
    each(stream, &one_outside(), &[&[out(0), back(2), out(3)], &[out(3), back(2), out(0)], &[back(2), out(0)]]);
    // Ratings that differ, below 100 percent.
    stream.add(told(50));
    each(stream, &halved(), &[&[out(0), out(2)], &[out(2), out(0)]]);
    stream.add(told(100));
}

/// Puts a book in place and screens it before each of these series.
fn each(stream: &mut Stream, book: &Book, series: &[&[Command]]) {
    for calls in series {
        stream.book(book);
        stream.add(WHOLE);
        stream.add_all(calls.to_vec());
    }
}

/// Three outages in three orders, the first two with other flows after two of them, and their returns in two. Once all are back the
/// book is the first again, so that a screen makes the same start.
fn in_full(stream: &mut Stream) {
    stream.book(&ways_round());
    stream.add_all([WHOLE, out(0), out(2), out(3), back(3), back(2), back(0)]);
    stream.add_all([WHOLE, out(2), out(0), out(3), back(2), back(3), back(0)]);
    stream.add_all([WHOLE, out(3), out(2), out(0)]);
}
