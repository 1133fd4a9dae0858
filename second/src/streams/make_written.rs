//! The part of random streams in which books are written from the tables, in either form.

use crate::books::random_books::{counts, served};
use crate::definitions::book::Book;
use crate::definitions::form::Form;
use crate::streams::stored::READ_WHOLE;
use crate::streams::under_way::Stream;
use crate::trial::stream::{Command, BOOK, INJECTIONS, NUMBERS};

/// A book is read into the tables, a number of them is changed at times, and the writer is called.
pub fn tables_to_book(stream: &mut Stream) {
    let (buses, count) = counts(&mut stream.random);
    let book = served(&mut stream.random, buses, count);
    stream.book(&book);
    stream.add(READ_WHOLE);
    for _ in 0..4 {
        let bus = stream.random.below(buses);
        write_one_wrong(stream, &book, bus);
        stream.add(Command::Injection(bus, book.injections[bus] as i32));
        stream.add(Command::Write {
            form: book.form,
            buses,
            count: book.branches.len(),
            factor: book.factor as usize,
            injections: buses,
            branches: book.form.numbers() * book.branches.len(),
            room: book.length_in(book.form),
        });
        if stream.random.once_in(8) {
            stream.show();
        }
    }
    stream.screen(book.branches.len());
}

/// A write with one thing wrong: a count, a table or the output too short, a number, or the other form asked for.
fn write_one_wrong(stream: &mut Stream, book: &Book, bus: usize) {
    let (mut form, mut factor) = (book.form, book.factor as usize);
    let (mut buses, mut count) = (book.injections.len(), book.branches.len());
    let (mut injections, mut branches, mut room) = (INJECTIONS, NUMBERS, BOOK);
    match stream.random.below(10) {
        0 => factor = *stream.random.pick(&[0, 1001, 65_535]),
        1 => buses = *stream.random.pick(&[0, 129, 65_535]),
        2 => count = *stream.random.pick(&[257, 65_535]),
        3 => injections = stream.random.below(buses),
        4 => branches = (form.numbers() * count).saturating_sub(1),
        5 => room = book.length_in(form) - 1,
        6 => stream.add(Command::Injection(bus, 1_000_001)),
        7 => stream.add(Command::Injection(bus, book.injections[bus] as i32 + 1)),
        8 => form = form.other(),
        _ if count > 0 => spoil_number(stream, form, count, buses),
        _ => {}
    }
    stream.add(Command::Write { form, buses, count, factor, injections, branches, room });
}

/// A number of a branch that is wrong, or at the edge of what is right.
fn spoil_number(stream: &mut Stream, form: Form, count: usize, buses: usize) {
    let row = form.numbers() * stream.random.below(count);
    let (kva, status) = (stream.spaces.numbers[row + 2], form.numbers() - 1);
    let seconds =
        [(3, kva.saturating_sub(1)), (3, 0), (3, kva), (3, kva.saturating_add(1)), (3, 1_000_000), (3, 1_000_001), (3, u32::MAX)];
    let others = [(0, buses as u32), (1, u32::MAX), (2, 1_000_001), (2, u32::MAX), (status, 2), (status, 0), (status, 1)];
    let choice = if form == Form::New && stream.random.once_in(2) { seconds } else { others };
    let (place, value) = *stream.random.pick(&choice);
    stream.add(Command::Number(row + place, value));
}
