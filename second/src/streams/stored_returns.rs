//! The part of the stored stream in which branches come back: every refusal of the call, runs mixed with outages, an
//! untrue table, document 01's two books, document 001's 5-bus system and the largest book.

use crate::books::named::{largest, second_and_feeder, second_book, triangle};
use crate::books::plain::with_out;
use crate::books::sources::{five_bus, FIVE_3_4, FIVE_3_5};
use crate::definitions::network::Verdict;
use crate::definitions::record::{self, SIZE};
use crate::definitions::switching::Way;
use crate::streams::stored::{back, damaged_books, four, lend, out, put_record, WHOLE};
use crate::streams::under_way::Stream;
use crate::trial::stream::Command;

fn lent_back(flow: usize, table: usize, branch: usize) -> Command {
    Command::Switch { way: Way::Back, flow, table, branch }
}

pub fn add(stream: &mut Stream) {
    stream.add(Command::Spoil);
    on_triangle(stream);
    for bytes in damaged_books() {
        stream.add(Command::Book(bytes));
        stream.add(back(0));
    }
    on_second_book(stream);
    mixed(stream);
    untrue(stream);
    stream.book(&five_bus());
    stream.add_all([WHOLE, out(FIVE_3_5), back(FIVE_3_5), back(FIVE_3_4)]);
    stream.add(Command::Spoil);
    stream.book(&largest());
    stream.add_all([WHOLE, out(130), out(7), back(130), back(131), out(255), back(255), back(7)]);
}

/// Out and back; then 8, 9, 17 and 11, each before those that come after it.
fn on_triangle(stream: &mut Stream) {
    stream.book(&triangle(30));
    stream.add(Command::Screen { flow: 3, table: 156 });
    stream.add(back(0));
    stream.add(out(0));
    stream.add(lent_back(3, 156, 0));
    stream.add(out(0));
    stream.add(lent_back(2, 156, 0));
    stream.add(back(65_535));
    stream.add(back(1));
    stream.add(Command::Flow(0, 1));
    stream.add(lent_back(3, 155, 3));
    stream.add(back(3));
    stream.add(back(1));
    stream.add(back(0));
    for (branch, kw) in [(0, 0), (1, 30), (2, -9)] {
        stream.add(Command::Flow(branch, kw));
    }
    stream.add(back(0));
    stream.add(Command::Flow(2, -10));
    stream.add(back(0));
}

/// No branch of the second book can go out, and with one out from the start no flow fits. When a feeder beside it comes
/// back, two of its lines carry and one is short of less than before.
fn on_second_book(stream: &mut Stream) {
    stream.book(&second_book(25));
    stream.add_all([WHOLE, out(3), back(3)]);
    stream.book(&with_out(second_book(25), 3));
    stream.add_all([WHOLE, back(3)]);
    stream.book(&with_out(second_and_feeder(), 4));
    stream.add_all([WHOLE, back(4), out(4), back(4)]);
}

/// A run of outages and returns, the last to go not the first to come back; at its end every branch is in service.
fn mixed(stream: &mut Stream) {
    stream.book(&four().0);
    stream.add_all([WHOLE, out(2), out(5), back(2), out(1), back(5), back(5), out(4), back(1), back(4)]);
}

/// Returns from a table that isn't true, with branches 4 and 5 out. 5 comes back: 4's byte 0 is 1 and 1's reroute names 5,
/// and both records are kept; 0, 2 and 3 are written anew, 5 gets its own. Then every refusal from 8 on, 4 comes back, and
/// an outage and a return follow.
fn untrue(stream: &mut Stream) {
    let (book, _) = four();
    lend(stream, &with_out(with_out(book, 4), 5), &[25, 15, -5, 20, 0, 0]);
    let mut named = record::bytes(Verdict::Carries, &[2, 5]);
    named[51] = 1;
    let mut carries = [0xEE; SIZE];
    carries[0] = 1;
    let mut other = [0xEE; SIZE];
    other[0] = 7;
    let records = [other, named, [2; SIZE], [0; SIZE], carries, [255; SIZE]];
    records.iter().enumerate().for_each(|(branch, bytes)| put_record(stream, branch, bytes));
    stream.add_all([back(5), lent_back(6, 311, 4), back(6), back(1)]);
    stream.add_all([Command::Flow(0, 26), back(4), Command::Flow(0, 25), back(4), out(2), back(2)]);
}
