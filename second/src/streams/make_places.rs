//! Parts of random streams in which a refusal has a place: books and tables damaged in every field, for every call that tests them.

use crate::definitions::book::pack_items;
use crate::definitions::form::Form;
use crate::definitions::items::Items;
use crate::definitions::wrong::Wrong;
use crate::streams::aim::{self, Held};
use crate::streams::make_loads_refused::any;
use crate::streams::stored::{back, out, written, READ_WHOLE, WHOLE};
use crate::streams::under_way::Stream;
use crate::trial::stream::{Command, BOOK, FLOWS, INJECTIONS, NUMBERS, TABLE};

/// Damaged books of either form, each read, at times into too little room, and lent to another call that reads one.
pub fn lent(stream: &mut Stream) {
    let start = stream.random.below(16);
    for step in start..start + 8 {
        let form = Form::BOTH[step % 2];
        let wrong = in_turn(&Held::Book.possible(form), step / 2);
        let bytes = damaged(stream, form, wrong);
        stream.add(Command::Book(bytes));
        let short = Command::Read { injections: 0, branches: 0 };
        let read = if stream.random.once_in(4) { short } else { READ_WHOLE };
        stream.add(read);
        let (branch, to, room) = (stream.random.below(300), *stream.random.pick(&Form::BOTH), stream.less(BOOK));
        let moved = Command::Load { flow: FLOWS, table: TABLE, shift: any(&mut stream.random) };
        let calls = [Command::Move { form: to, room }, WHOLE, out(branch), back(branch), moved];
        let call = stream.random.pick(&calls).clone();
        stream.add(call);
        if stream.dumps_left == 0 {
            return;
        }
    }
}

/// All in turn, so that none is met seldom.
fn in_turn(kinds: &[Wrong], step: usize) -> Wrong {
    kinds[step % kinds.len()]
}

/// A book with this wrong, and at times with a tail bit of 1 besides, which would be 6.
fn damaged(stream: &mut Stream, form: Form, wrong: Wrong) -> Vec<u8> {
    // With 128 buses no number of seven bits is too large for a bus.
    let no_bus = [Wrong::FirstNotBelow, Wrong::SecondNotBelow].contains(&wrong);
    let book = aim::target(&mut stream.random, form, if no_bus { 127 } else { 128 });
    let mut items = book.items();
    aim::damage(&mut stream.random, &mut items, Held::Book, wrong);
    let mut bytes = pack_items(&items, book.factor);
    let tail = form.branch_at(items.buses.len(), items.branches.len()) < 8 * bytes.len();
    if tail && stream.random.once_in(6) {
        *bytes.last_mut().expect("never empty") |= 1;
    }
    bytes
}

/// A book is read into the tables; these are damaged, a write is refused, and they are put right again.
pub fn in_tables(stream: &mut Stream) {
    let form = *stream.random.pick(&Form::BOTH);
    let book = aim::target(&mut stream.random, form, 128);
    stream.book(&book);
    stream.add(READ_WHOLE);
    let right = book.items();
    let (buses, count) = (right.buses.len(), right.branches.len());
    let start = stream.random.below(8);
    for step in start..start + 10 {
        let wrong = in_turn(&Held::Tables.possible(form), step);
        let mut items = right.clone();
        aim::damage(&mut stream.random, &mut items, Held::Tables, wrong);
        put(stream, &right, &items);
        let rooms = [[INJECTIONS, NUMBERS, BOOK], [buses, form.numbers() * count, 0]];
        let [injections, numbers, room] = *stream.random.pick(&rooms);
        stream.add(written(form, [buses, count, book.factor as usize, injections, numbers, room]));
        put(stream, &items, &right);
    }
    if stream.random.once_in(4) {
        stream.show();
    }
}

/// Gives the tables the numbers of `to` where those of `from`, which they have, differ.
pub fn put(stream: &mut Stream, from: &Items, to: &Items) {
    for (bus, kw) in to.injections().into_iter().enumerate() {
        if to.buses[bus] != from.buses[bus] {
            stream.add(Command::Injection(bus, kw as i32));
        }
    }
    let numbers = from.branches.iter().flatten().zip(to.branches.iter().flatten());
    for (place, (_, &number)) in numbers.enumerate().filter(|(_, (from, to))| from != to) {
        stream.add(Command::Number(place, number));
    }
}
