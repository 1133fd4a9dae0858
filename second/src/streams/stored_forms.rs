//! The part of the stored stream on books of the new form: read, written, moved from form to form, refused, and a run of
//! outages and returns on one whose ratings differ.

use crate::books::named::{filled_to, largest, largest_new, second_book, second_two, triangle, triangle_below};
use crate::books::plain::{moved_up, plain, with_out, with_seconds};
use crate::definitions::bits;
use crate::definitions::book::{pack, Book};
use crate::definitions::form::{bus_at, Form, HEADER, LAYOUT};
use crate::definitions::switching::Way;
use crate::streams::stored::{back, four, out, written, READ_WHOLE, WHOLE};
use crate::streams::under_way::Stream;
use crate::trial::stream::{Command, BOOK, TABLE};

fn move_to(form: Form, room: usize) -> Command {
    Command::Move { form, room }
}

pub fn add(stream: &mut Stream) {
    stream.add(Command::Spoil);
    read(stream);
    written_again(stream);
    moved(stream);
    moved_down_or_not(stream);
    damaged(stream);
    switched(stream);
    run(stream);
    stream.add(Command::Spoil);
    stream.book(&largest_new());
    stream.add_all([READ_WHOLE, WHOLE, out(130), back(130)]);
}

/// Five numbers a branch, with tables too short by one; and then a book without a branch.
fn read(stream: &mut Stream) {
    stream.book(&moved_up(triangle(30)));
    for (injections, branches) in [(2, 15), (3, 14), (3, 12), (3, 15)] {
        stream.add(Command::Read { injections, branches });
    }
    stream.book(&moved_up(plain(&[0], &[])));
    stream.add(Command::Read { injections: 1, branches: 0 });
}

/// The writer's refusals in its order, each with those that come after it holding too; then the book itself.
fn written_again(stream: &mut Stream) {
    let from_all = |room| written(Form::New, [4, 4, 1000, 4, 20, room]);
    stream.book(&second_two());
    stream.add(READ_WHOLE);
    stream.add_all([Command::Injection(0, 1_000_001), Command::Number(3, 39)]);
    for (buses, count, factor) in [(0, 4, 1000), (129, 4, 1000), (4, 257, 1000), (4, 4, 0), (4, 4, 1001)] {
        stream.add(written(Form::New, [buses, count, factor, 0, 0, 0]));
    }
    stream.add_all([[3, 20], [4, 19]].map(|[injections, branches]| written(Form::New, [4, 4, 1000, injections, branches, 0])));
    stream.add(from_all(0));
    stream.add_all([Command::Injection(0, 61), from_all(0)]);
    stream.add_all([Command::Number(3, 40), Command::Number(18, 1_000_001), from_all(0)]);
    stream.add_all([Command::Number(18, 1_000_000), Command::Number(19, 2), from_all(0)]);
    stream.add_all([Command::Number(19, 0), from_all(0)]);
    stream.add_all([Command::Injection(0, 60), from_all(41)]);
    // Its five numbers a branch are no four: the second kVA would be a status.
    stream.add(written(Form::Old, [4, 4, 1000, 4, 20, 0]));
    stream.add(from_all(42));
    stream.dump();
    stream.add_all([READ_WHOLE, Command::Number(19, 1), written(Form::New, [4, 4, 999, 128, 1_280, BOOK])]);
    stream.dump();
}

/// The triangle up, down, and to the form it has, into too little, just enough and more room.
fn moved(stream: &mut Stream) {
    let (old, new) = (triangle(30), moved_up(triangle(30)));
    stream.add(Command::Spoil);
    stream.add(move_to(Form::New, BOOK));
    for (book, rooms) in [(&old, [(Form::New, 33), (Form::Old, 25)]), (&new, [(Form::Old, 25), (Form::New, 33)])] {
        stream.book(book);
        for (form, room) in rooms {
            stream.add_all([move_to(form, room - 1), move_to(form, room), move_to(form, BOOK)]);
        }
    }
    stream.book(&plain(&[0], &[]));
    stream.add_all([move_to(Form::New, 6), move_to(Form::New, 7)]);
    stream.dump();
}

/// Ratings that differ on some branches, on the last alone, on one out of service alone: 18, before 8. Up they stay as they
/// are, in too little room too. The largest book moves down where its ratings are equal.
fn moved_down_or_not(stream: &mut Stream) {
    let last = with_seconds(triangle(30), &[(2, 31)]);
    let without = with_out(with_seconds(triangle(30), &[(0, 1_000_000)]), 0);
    for (book, length) in [(second_two(), 42), (last, 33), (without, 33)] {
        stream.book(&book);
        stream.add_all([move_to(Form::Old, BOOK), move_to(Form::Old, 0)]);
        stream.add_all([move_to(Form::New, length - 1), move_to(Form::New, length)]);
    }
    stream.book(&with_seconds(largest(), &[(255, 1_000_000)]));
    stream.add_all([move_to(Form::Old, 1_460), move_to(Form::Old, 1_459), move_to(Form::New, 2_099), move_to(Form::New, BOOK)]);
    stream.book(&moved_up(largest()));
    stream.add_all([move_to(Form::Old, 1_459), move_to(Form::Old, 1_460)]);
    stream.book(&largest());
    stream.add_all([move_to(Form::New, 2_099), move_to(Form::New, BOOK)]);
}

/// Books refused with 1 to 7, before each call that reads a book.
fn damaged(stream: &mut Stream) {
    for (place, bytes) in damaged_new_books().into_iter().enumerate() {
        stream.add(Command::Book(bytes));
        let form = Form::BOTH[place % 2];
        stream.add_all([READ_WHOLE, move_to(form, if place % 3 == 0 { 0 } else { BOOK })]);
        stream.add([WHOLE, out(0), back(0)][place % 3].clone());
    }
}

/// Books of the new form with one thing wrong each, in the order of the refusals 1 to 7.
pub fn damaged_new_books() -> Vec<Vec<u8>> {
    let (book, old) = (moved_up(triangle(30)), pack(&triangle(30)));
    let good = pack(&book);
    let with_bit = |book: &Book, place: usize| bits::with(&pack(book), place, true);
    let two = |size: i64, branch: (usize, usize, u32)| moved_up(plain(&[size, -size], &[branch]));
    vec![
        good[..3].to_vec(),
        good[..32].to_vec(),
        [&good[..], &[0]].concat(),
        good[..25].to_vec(),
        with_bit(&triangle(30), LAYOUT),
        filled_to(&old, 33),
        [&[0], &good[1..]].concat(),
        [&[129], &good[1..]].concat(),
        with_bit(&book, LAYOUT + 1),
        with_bit(&book, HEADER - 1),
        pack(&two(1_000_001, (0, 1, 1))),
        with_bit(&two(0, (0, 1, 1)), bus_at(1)),
        pack(&two(5, (0, 2, 5))),
        pack(&two(5, (1, 1, 5))),
        pack(&two(5, (0, 1, 1_000_001))),
        pack(&triangle_below()),
        pack(&with_seconds(triangle(30), &[(2, 1_000_001)])),
        with_bit(&book, 8 * good.len() - 1),
        pack(&moved_up(plain(&[5, -4], &[(0, 1, 5)]))),
    ]
}

/// Every refusal from 8 on of the screen, the outage and the return, on a new book.
fn switched(stream: &mut Stream) {
    stream.book(&with_seconds(triangle(30), &[(0, 80), (1, 90), (2, 1_000_000)]));
    stream.add_all([Command::Screen { flow: 2, table: TABLE }, Command::Screen { flow: 3, table: 155 }]);
    stream.add(Command::Screen { flow: 3, table: 156 });
    for way in [Way::Out, Way::Back] {
        stream.add(Command::Switch { way, flow: 3, table: 155, branch: 3 });
    }
    stream.add_all([out(3), back(0), out(0), out(0), out(1), back(3)]);
    stream.add_all([Command::Flow(0, 1), back(0), out(2)]);
    for (branch, kw) in [(0, 0), (1, 30), (2, -10)] {
        stream.add(Command::Flow(branch, kw));
    }
    stream.add(back(0));
    stream.book(&with_seconds(second_book(15), &[(2, 25)]));
    stream.add(WHOLE);
}

/// The second book's lines are those of its second ratings. Then a run of outages and returns on a book whose ratings differ,
/// read and moved between: each status bit stands where the new form has it.
fn run(stream: &mut Stream) {
    stream.book(&second_two());
    stream.add_all([WHOLE, out(3), back(3)]);
    stream.book(&with_seconds(four().0, &[(0, 41), (3, 55), (5, 1_000_000)]));
    stream.add_all([WHOLE, out(2), out(5), move_to(Form::New, BOOK), back(2), out(1), READ_WHOLE, back(5), back(5)]);
    stream.add_all([out(4), move_to(Form::Old, BOOK), back(1), back(4), move_to(Form::New, BOOK), READ_WHOLE]);
}
