//! Parts of random streams in which books are moved from form to form: up, down, to their own, there and back, refused.

use crate::definitions::form::Form;
use crate::streams::damage::{lend_to_a_call, spoilt_book, Damage};
use crate::streams::stored::READ_WHOLE;
use crate::streams::under_way::Stream;
use crate::trial::stream::{Command, BOOK, INJECTIONS, NUMBERS};

/// Books of either form moved to either, and at times on from where they were moved to.
pub fn moves(stream: &mut Stream) {
    for _ in 0..3 + stream.random.below(4) {
        stream.good_book();
        for _ in 0..1 + stream.random.below(3) {
            move_it(stream);
        }
        if !stream.random.once_in(3) {
            there_and_back(stream);
        }
    }
    if stream.random.once_in(2) {
        stream.show();
    }
}

/// The book as it stands to either form, with room of every kind: just enough, too short by one or by any number, more.
pub fn move_it(stream: &mut Stream) {
    let Some(book) = stream.standing_book() else { return };
    let form = *stream.random.pick(&Form::BOTH);
    let due = book.length_in(form);
    let room = match stream.random.below(6) {
        0 | 1 => due,
        2 => stream.less(due),
        3 => due + stream.random.below(BOOK - due + 1),
        _ => BOOK,
    };
    stream.add(Command::Move { form, room });
}

/// The book as it stands to the other form; what was moved is put in its place, and moved to the form it came from.
fn there_and_back(stream: &mut Stream) {
    let Some(book) = stream.standing_book() else { return };
    let (from, to) = (book.form, book.form.other());
    stream.add(Command::Move { form: to, room: BOOK });
    if to == Form::Old && book.ratings_differ() {
        return;
    }
    let moved = stream.spaces.shelf[..book.length_in(to)].to_vec();
    stream.add(Command::Book(moved));
    match stream.random.below(6) {
        0 | 1 => stream.add(READ_WHOLE),
        2 => stream.screen(book.branches.len()),
        _ => {}
    }
    stream.add(Command::Move { form: from, room: book.length_in(from) });
}

/// Damaged books, each lent to a call that reads one and moved, at times into too little room; then tables too short for
/// what is read.
pub fn refused(stream: &mut Stream) {
    for damage in Damage::ALL {
        let bytes = spoilt_book(&mut stream.random, damage);
        stream.add(Command::Book(bytes));
        lend_to_a_call(stream);
        let (form, room) = (*stream.random.pick(&Form::BOTH), stream.less(BOOK));
        stream.add(Command::Move { form, room });
    }
    let count = stream.good_book();
    let Some(book) = stream.standing_book() else { return };
    let (injections, numbers) = (stream.less(book.injections.len()), stream.less(book.form.numbers() * count));
    stream.add(Command::Read { injections, branches: NUMBERS });
    stream.add(Command::Read { injections: INJECTIONS, branches: numbers });
    stream.show();
}
