//! The part of the stored stream in which the cables are run at a percentage of nameplate: percentages out of range before all
//! that can be wrong besides, rounding, both ratings, runs under one percentage, and changes between calls.

use crate::books::named::{largest_new, second_book, second_two, triangle};
use crate::books::percentages::{stale, stale_table, summer, summer_two, STALE_FLOW};
use crate::books::plain::{moved_up, struck, with_out};
use crate::books::ratings;
use crate::definitions::fields::Field;
use crate::definitions::form::Form;
use crate::definitions::percentage::Percentage;
use crate::definitions::switching::Way;
use crate::streams::stored::{back, damaged_books, four, lend, out, put_record, written, READ_WHOLE, WHOLE};
use crate::streams::under_way::Stream;
use crate::trial::stream::{Command, BOOK, TABLE};

/// The edges of what is out of range.
const BEYOND: [u8; 4] = [0, 49, 101, 255];

pub fn told(percentage: u8) -> Command {
    Command::Percentage(Percentage(percentage))
}

pub fn add(stream: &mut Stream) {
    stream.add(Command::Spoil);
    out_of_range(stream);
    before_8_to_17(stream);
    before_1_to_7(stream);
    spoilt(stream);
    untaken(stream);
    in_range(stream);
    rounded(stream);
    two_ratings(stream);
    run(stream);
    changed(stream);
    no_longer_true(stream);
    no_longer_fitting(stream);
    on_largest(stream);
}

/// Calls that only the percentage is wrong with; told 100 again, the run goes on from where it stood.
fn out_of_range(stream: &mut Stream) {
    stream.book(&four().0);
    stream.add_all([WHOLE, out(2)]);
    for percentage in BEYOND {
        stream.add_all([told(percentage), WHOLE, out(5), back(2)]);
    }
    stream.add_all([told(100), out(5), back(2), back(5)]);
}

/// 21 before 8 to 12 and 17, with branch 0 of the triangle out of service.
fn before_8_to_17(stream: &mut Stream) {
    stream.book(&triangle(30));
    stream.add_all([WHOLE, out(0), told(49)]);
    stream.add(Command::Screen { flow: 2, table: TABLE });
    for (way, branch) in [(Way::Out, 1), (Way::Back, 0)] {
        stream.add(Command::Switch { way, flow: 3, table: 155, branch });
    }
    stream.add_all([out(3), back(65_535), told(101), out(0), back(1), out(1)]);
    stream.add_all([Command::Flow(0, 1), out(1), back(0)]);
    lend(stream, &with_out(triangle(30), 0), &[0, 30, -10]);
    stream.add_all([told(100), back(0)]);
    stream.book(&second_book(15));
    stream.add_all([told(0), WHOLE, told(100), WHOLE]);
}

/// 21 before 1 to 7, and with no place.
fn before_1_to_7(stream: &mut Stream) {
    for (place, bytes) in damaged_books().into_iter().enumerate() {
        stream.add_all([told(BEYOND[place % 4]), Command::Book(bytes)]);
        stream.add([WHOLE, out(0), back(0)][place % 3].clone());
    }
    for (percentage, change) in [(49, (3, Field::SecondKva, 0)), (101, (1, Field::SecondBus, 4))] {
        stream.add(Command::Book(struck(&second_two(), &[change])));
        stream.add_all([told(percentage), WHOLE, out(0), back(0), told(100), WHOLE]);
    }
}

/// `P` leaves the percentage: 21 for a book of no bytes, and limits at 80 percent.
fn spoilt(stream: &mut Stream) {
    stream.add_all([told(49), Command::Spoil, WHOLE, out(0), back(0)]);
    stream.add_all([told(80), Command::Spoil, WHOLE]);
    stream.book(&summer(1, 763));
    stream.add(WHOLE);
}

/// Reading, writing, moving and meters take no percentage, and are accepted and refused as ever.
fn untaken(stream: &mut Stream) {
    let move_to = |form, room| Command::Move { form, room };
    let meters = |end, supply| Command::Meters { lists: [vec![0, 0], vec![0, 0], vec![0, 3], vec![end, 2]], lent: 2, supply };
    for percentage in [0, 255] {
        stream.book(&second_two());
        stream.add_all([told(percentage), READ_WHOLE, Command::Read { injections: 3, branches: 20 }]);
        stream.add_all([move_to(Form::New, 42), move_to(Form::Old, BOOK), move_to(Form::New, 41)]);
        stream.add_all([written(Form::New, [4, 4, 999, 4, 20, 42]), written(Form::New, [4, 4, 0, 4, 20, 42])]);
        stream.dump();
        stream.book(&triangle(30));
        stream.add_all([READ_WHOLE, move_to(Form::New, BOOK)]);
        stream.add_all([written(Form::Old, [3, 3, 999, 3, 12, 25]), written(Form::Old, [3, 3, 999, 3, 12, 24])]);
        stream.dump();
        stream.add_all([meters(16, 1), meters(16, 2), WHOLE]);
    }
}

/// The triangle at every percentage of note, in either form: a screen, an outage, a return.
fn in_range(stream: &mut Stream) {
    for (place, percentage) in [50, 75, 80, 99, 100].into_iter().enumerate() {
        let book = triangle(30);
        stream.book(&if place % 2 == 0 { book } else { moved_up(book) });
        stream.add_all([told(percentage), WHOLE, out(2), back(2)]);
    }
}

/// 1003 kVA at power factor 950 and 80 percent have 762 kW: 762 are accepted and 763 are short of 1, in the answer and in a record.
/// At 79 it is 752, at 81 it is 771.
fn rounded(stream: &mut Stream) {
    for (percentage, kw) in [(80, 762), (80, 763), (79, 753), (81, 772), (100, 953)] {
        stream.book(&summer(1, kw));
        stream.add_all([told(percentage), WHOLE]);
    }
    for kw in [762, 763] {
        stream.book(&summer(2, kw));
        stream.add_all([told(80), WHOLE, out(1)]);
    }
}

/// A second kVA of 1004 has 763 kW at 80 percent. Of the pair both carry at 100; at 80 both are short 6, at 75 both are short 8, and
/// at 74 there is an excess of 2.
fn two_ratings(stream: &mut Stream) {
    for kw in [763, 764] {
        stream.book(&summer_two(1004, kw));
        stream.add_all([told(80), WHOLE, out(0)]);
    }
    for percentage in [100, 80, 75, 74] {
        stream.book(&ratings::pair());
        stream.add_all([told(percentage), WHOLE, out(1)]);
    }
}

/// Runs of outages and returns under one percentage, the book of either form. In the first, 0-1 has too little for bus 0.
fn run(stream: &mut Stream) {
    stream.book(&four().0);
    stream.add_all([told(80), WHOLE, out(2), out(5), back(2), out(1), back(5), out(4), back(4)]);
    stream.book(&moved_up(four().0));
    stream.add_all([told(90), WHOLE, out(5), out(2), back(5), back(2)]);
}

/// A screen at a low percentage, then calls at larger ones, by which the flow fits as well; then a new screen.
fn changed(stream: &mut Stream) {
    stream.book(&with_out(four().0, 5));
    stream.add_all([told(60), WHOLE, told(80), out(2), told(99), back(5), told(100), back(2), WHOLE, out(2), back(2)]);
    stream.book(&ratings::triangle_two());
    stream.add_all([told(80), WHOLE, told(100), out(2), told(49), back(2), told(100), back(2)]);
}

/// The book whose table is true at 100 percent and not at 50, where its flow still fits: the outage and the return of branch 2 keep
/// the records of 0 and 1, a new screen writes them anew. At 100 the same calls keep them, and they stay true.
fn no_longer_true(stream: &mut Stream) {
    for percentage in [50, 100] {
        lend_stale(stream);
        stream.add_all([told(percentage), out(2), back(2), out(0), WHOLE]);
    }
    lend_stale(stream);
    stream.add_all([told(101), out(2), told(50), out(2), told(100), out(0), told(50), out(1), back(0), back(2)]);
}

fn lend_stale(stream: &mut Stream) {
    lend(stream, &stale(), &STALE_FLOW);
    stale_table().iter().enumerate().for_each(|(branch, bytes)| put_record(stream, branch, bytes));
}

/// Flows that fit at one percentage and not at a smaller one: 11, of a book that isn't overloaded and of one that is.
fn no_longer_fitting(stream: &mut Stream) {
    lend(stream, &with_out(stale(), 2), &[9, 1, 0]);
    stream.add_all([told(89), back(2), out(0), told(90), back(2), told(89), out(2), told(90), out(2)]);
    stream.book(&ratings::pair_and_feeder());
    stream.add_all([told(100), WHOLE, told(50), out(0), back(2), told(100), back(2), told(50), out(2), told(100), out(2)]);
}

/// The largest new book at 90 percent: a screen, an outage and a return; then at 49.
fn on_largest(stream: &mut Stream) {
    stream.add(Command::Spoil);
    stream.book(&largest_new());
    stream.add_all([told(90), WHOLE, out(130), back(130), told(49), WHOLE, out(255), told(100)]);
}
