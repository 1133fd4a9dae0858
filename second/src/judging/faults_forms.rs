//! The faults to be planted where a book has the new form or is moved to a form, by name, and how each is planted.

use crate::definitions::answer::Answer;
use crate::definitions::bits;
use crate::definitions::book::{self, pack, Book};
use crate::definitions::branch::Branch;
use crate::definitions::form::{Form, LAYOUT};
use crate::definitions::switching::Way;
use crate::definitions::tables;
use crate::definitions::wrong::Wrong;
use crate::judging::faults::Plant;
use crate::judging::forms::{differ_on_last_alone, differ_out_of_service_alone};
use crate::judging::plant::*;
use crate::trial::reference::Done;
use crate::trial::spaces::{hex, spaced};
use crate::trial::stream::{Command, BOOK};

/// Every fault by its name.
pub const FORM_FAULTS: &[(&str, Plant)] = &[
    ("an outage that clears the bit where an old book has it", |done| status_at_old_place(done, Way::Out)),
    ("a return that sets the bit where an old book has it", |done| status_at_old_place(done, Way::Back)),
    ("a new book refused with 3", |done| instead(done, new_lent, "3")),
    ("a new book refused with 1", |done| instead(done, new_lent, "1")),
    ("a second kVA below the first accepted", |done| wrong_accepted(done, Wrong::SecondKvaBelow)),
    ("a second kVA above 1,000,000 accepted", |done| wrong_accepted(done, Wrong::SecondKvaAbove)),
    ("the second kVA read before the first", |done| read_as(done, |book| tables::numbers(&turned(book)))),
    ("four numbers a branch read of a new book", |done| {
        read_as(done, |book| book.branches.iter().flat_map(|branch| branch.row(Form::Old)).collect())
    }),
    ("the second kVA written before the first", |done| written_as(done, |book| pack(&turned(book)))),
    ("a new book written without the layout bit", |done| written_as(done, |book| with_layout(&pack(book), false))),
    ("an old book written with the layout bit", |done| accepted_write(done, Form::Old, |book| with_layout(&pack(book), true))),
    ("the second kVA moved before the first", |done| moved_as(done, |_, to| pack(&turned(to)))),
    ("a book moved up with a second kVA of 0", |done| moved_as(done, |_, to| pack(&seconds_of(to, |_| 0)))),
    ("a book moved up with the largest second kVA", |done| moved_as(done, |_, to| pack(&seconds_of(to, |_| 1_000_000)))),
    ("a book moved without its layout bit", |done| moved_as(done, |_, to| with_layout(&pack(to), false))),
    ("a book moved down with the layout bit", |done| moved_as(done, |_, to| with_layout(&pack(to), true))),
    ("a book moved as it is, whatever the form", |done| moved_as(done, |from, _| pack(from))),
    ("a book moved with every branch in service", |done| {
        moved_as(done, |_, to| {
            let mut to = to.clone();
            to.branches.iter_mut().for_each(|branch| branch.served = true);
            pack(&to)
        })
    }),
    ("a move that writes a byte beyond the book", |done| beyond(done, |shelf, length, _| shelf[length] ^= 1)),
    ("a move that clears the room beyond the book", |done| beyond(done, |shelf, length, room| shelf[length..room].fill(0))),
    ("a move that changes the book", |done| {
        let moved = move_accepted(done).filter(|_| done.next == Some(&Command::Dump));
        moved.is_some_and(|(_, to)| left_in_book(done, &pack(&to)))
    }),
    ("a move that sets the length", |done| {
        move_accepted(done).is_some() && done.next == Some(&Command::Dump) && {
            other_length(done.after);
            true
        }
    }),
    ("18 after 8", |done| {
        let short = |book: &Book, room: usize| room < book.length_in(Form::Old);
        refused_18(done, short) && answer_words(done, |words| words[1] = "8".into())
    }),
    ("18 not given though the last branch differs", |done| moved_though(done, differ_on_last_alone)),
    ("18 not given for a branch out of service", |done| moved_though(done, differ_out_of_service_alone)),
    ("18 for a book that keeps its form", |done| {
        let kept = |done: &Done| move_accepted(done).is_some_and(|(from, to)| from.form == to.form && from.ratings_differ());
        instead(done, kept, "18")
    }),
    ("18 for a new book of equal ratings", |done| {
        let equal = |done: &Done| move_accepted(done).is_some_and(|(from, to)| (from.form, to.form) == (Form::New, Form::Old));
        instead(done, equal, "18")
    }),
    ("8 for a move into just enough room", |done| instead(done, |done| just_enough(done) == Some(true), "8")),
    ("a refused move that changes the shelf", |done| refused(done, "moved") && shelf_with(done, |shelf| shelf[0] ^= 1)),
    ("a refused move that writes the book", |done| refused_leaves(done, "moved", book_byte)),
    ("a refused move that writes a flow number", |done| refused_leaves(done, "moved", flow_number)),
    ("a refused move that writes a table byte", |done| refused_leaves(done, "moved", table_byte)),
    ("a refused move that writes an injection", |done| refused_leaves(done, "moved", |left| left.injections[100] ^= 1)),
    ("a refused move that writes a branch number", |done| refused_leaves(done, "moved", |left| left.numbers[1_000] ^= 1)),
    ("a refused move that writes the first bytes all the same", |done| {
        let Command::Move { form, room } = *done.command else { return false };
        let Ok(book) = book::unpack(done.before.bytes()) else { return false };
        let bytes = pack(&Book { form, ..book });
        let fitting = room.min(bytes.len());
        refused(done, "moved") && shelf_with(done, |shelf| shelf[..fitting].copy_from_slice(&bytes[..fitting]))
    }),
    ("a dump that shows the shelf", |done| {
        *done.command == Command::Dump && {
            done.lines.push(done.after.shelf_line());
            true
        }
    }),
];

/// A book whose branches have other second ratings.
fn seconds_of(book: &Book, second: impl Fn(&Branch) -> u32) -> Book {
    let mut book = book.clone();
    book.branches.iter_mut().for_each(|branch| branch.second_kva = second(branch));
    book
}

/// A book with the two ratings of every branch in each other's place.
fn turned(book: &Book) -> Book {
    let mut book = book.clone();
    book.branches.iter_mut().for_each(|branch| std::mem::swap(&mut branch.kva, &mut branch.second_kva));
    book
}

fn with_layout(bytes: &[u8], new: bool) -> Vec<u8> {
    bits::with(bytes, LAYOUT, new)
}

/// Whether a new book was lent to an accepted call that reads one.
fn new_lent(done: &Done) -> bool {
    let reads = !matches!(done.command, Command::Write { .. } | Command::Meters { .. });
    reads && call_accepted(done) && Form::of(done.before.bytes()) == Some(Form::New)
}

fn status_at_old_place(done: &mut Done, way: Way) -> bool {
    let new = new_lent(done);
    accepted_switch(way, done, |_, branch, done| {
        new && {
            let place = Form::Old.status_at(done.before.book[0] as usize, branch);
            done.after.book = bits::with(&done.before.book, place, way.serves());
            true
        }
    })
}

fn wrong_accepted(done: &mut Done, wrong: Wrong) -> bool {
    placed(done).is_some_and(|faults| faults[0].wrong == wrong) && says(done, Answer::ACCEPTED)
}

/// Other branch numbers printed by a read of a new book.
fn read_as(done: &mut Done, numbers: impl Fn(&Book) -> Vec<u32>) -> bool {
    if !matches!(done.command, Command::Read { .. }) || !new_lent(done) {
        return false;
    }
    let mut left = done.before.numbers.clone();
    let numbers = numbers(&book::unpack(done.before.bytes()).expect("an accepted read's book"));
    left[..numbers.len()].copy_from_slice(&numbers);
    let line = spaced("branches", &left);
    line_with(done, "branches", |words| *words = line.split(' ').map(String::from).collect())
}

/// Puts other bytes in the place of the book, where that changes it and the next dump shows it.
fn left_in_book(done: &mut Done, bytes: &[u8]) -> bool {
    let mut changed = done.after.book.clone();
    changed[..bytes.len()].copy_from_slice(bytes);
    let differs = changed != done.after.book;
    done.after.book = changed;
    differs
}

/// Other bytes left by an accepted write in a form, where the next dump shows them.
fn accepted_write(done: &mut Done, wanted: Form, bytes: impl Fn(&Book) -> Vec<u8>) -> bool {
    let shown = call_accepted(done) && done.next == Some(&Command::Dump);
    if !shown || !matches!(*done.command, Command::Write { form, .. } if form == wanted) {
        return false;
    }
    let book = book::unpack(done.after.bytes()).expect("an accepted write's book");
    left_in_book(done, &bytes(&book))
}

fn written_as(done: &mut Done, bytes: impl Fn(&Book) -> Vec<u8>) -> bool {
    accepted_write(done, Form::New, bytes)
}

/// The book lent to an accepted move and the book in the form asked for.
fn move_accepted(done: &Done) -> Option<(Book, Book)> {
    let Command::Move { form, .. } = *done.command else { return None };
    let from = book::unpack(done.before.bytes()).ok().filter(|_| call_accepted(done))?;
    let to = Book { form, ..from.clone() };
    Some((from, to))
}

fn just_enough(done: &Done) -> Option<bool> {
    let Command::Move { form, room } = *done.command else { return None };
    move_accepted(done).map(|(_, to)| room == to.length_in(form))
}

/// Changes the shelf and the line that prints it; true where that changes anything.
fn shelf_with(done: &mut Done, change: impl FnOnce(&mut [u8])) -> bool {
    change(&mut done.after.shelf);
    let digits = hex(&done.after.shelf);
    line_with(done, "shelf", |words| words[1] = digits)
}

/// Other bytes written by an accepted move.
fn moved_as(done: &mut Done, bytes: impl Fn(&Book, &Book) -> Vec<u8>) -> bool {
    let Some((from, to)) = move_accepted(done) else { return false };
    let bytes = bytes(&from, &to);
    shelf_with(done, |shelf| shelf[..bytes.len()].copy_from_slice(&bytes))
}

/// What an accepted move does to the shelf beyond its book, which ends before the shelf does.
fn beyond(done: &mut Done, change: impl FnOnce(&mut [u8], usize, usize)) -> bool {
    let Command::Move { form, room } = *done.command else { return false };
    let length = move_accepted(done).map(|(_, to)| to.length_in(form)).filter(|&length| length < BOOK);
    length.is_some_and(|length| shelf_with(done, |shelf| change(shelf, length, room)))
}

/// Whether the command is a move refused with 18 of a book and with room as wanted.
fn refused_18(done: &Done, wanted: impl Fn(&Book, usize) -> bool) -> bool {
    let Command::Move { room, .. } = *done.command else { return false };
    let book = book::unpack(done.before.bytes()).ok().filter(|_| done.command.answer_in(done.lines) == Some(18));
    book.is_some_and(|book| wanted(&book, room))
}

/// Moves a book down, though some of its ratings differ, where there is room for it.
fn moved_though(done: &mut Done, wanted: impl Fn(&Book) -> bool) -> bool {
    if !refused_18(done, |book, room| wanted(book) && room >= book.length_in(Form::Old)) {
        return false;
    }
    let book = book::unpack(done.before.bytes()).expect("a book refused with 18");
    let bytes = pack(&Book { form: Form::Old, ..book });
    shelf_with(done, |shelf| shelf[..bytes.len()].copy_from_slice(&bytes));
    answer_words(done, |words| words[1] = "0".into())
}
