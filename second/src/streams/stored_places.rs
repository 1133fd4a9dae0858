//! The part of the stored stream in which a refusal has a place: every field at fault in either form, for the reader and for the
//! writer, mostly with others wrong after it; and books so damaged before every other call that reads one.

use crate::books::named::{largest, largest_new, second_and_feeder};
use crate::books::plain::{struck, Change};
use crate::definitions::book::Book;
use crate::definitions::fields::Field;
use crate::definitions::form::Form;
use crate::streams::make_places::put;
use crate::streams::stored::{back, out, written, READ_WHOLE, WHOLE};
use crate::streams::under_way::Stream;
use crate::trial::stream::{Command, BOOK, INJECTIONS, NUMBERS};

/// Changes that make a book or its tables wrong, and the place that the refusal carries.
type Damage = (&'static [Change], [usize; 2]);

/// Too large a size at a bus that isn't the last, and at the last, where it is negative; ends, kVA.
const EITHER: [Damage; 6] = [
    (&[(2, Field::Size, 1_000_001), (2, Field::Sign, 0), (3, Field::Size, 1_048_575), (0, Field::Kva, 1_000_001)], [2, 2]),
    (&[(3, Field::Size, 1_000_001)], [3, 2]),
    (&[(1, Field::FirstBus, 4), (1, Field::SecondBus, 127), (2, Field::FirstBus, 4)], [1, 1]),
    (&[(4, Field::SecondBus, 4)], [4, 2]),
    (&[(2, Field::SecondBus, 1), (2, Field::Kva, 1_000_001), (3, Field::FirstBus, 127)], [2, 2]),
    (&[(3, Field::Kva, 1_000_001), (4, Field::SecondBus, 1)], [3, 3]),
];

/// Bus 1 has 0 kW.
const IN_BOOK: Damage = (&[(1, Field::Sign, 1), (2, Field::Size, 1_000_001)], [1, 2]);
const NEW: [Damage; 2] =
    [(&[(2, Field::SecondKva, 24), (4, Field::SecondKva, 1_000_001)], [2, 4]), (&[(4, Field::SecondKva, 1_000_001)], [4, 4])];
const STATUS_OLD: Damage = (&[(3, Field::Status, 2), (4, Field::FirstBus, 4)], [3, 4]);
const STATUS_NEW: Damage = (&[(3, Field::Status, 2), (4, Field::FirstBus, 4)], [3, 5]);

/// The second book with its feeder, which has five branches, in a form.
pub fn target(form: Form) -> Book {
    Book { form, ..second_and_feeder() }
}

/// What the reader is given in a form.
pub fn damaged_books(form: Form) -> Vec<Damage> {
    let new = if form == Form::New { &NEW[..] } else { &[] };
    [&EITHER[..], &[IN_BOOK], new].concat()
}

/// What the writer is given in a form.
pub fn damaged_tables(form: Form) -> Vec<Damage> {
    match form {
        Form::Old => [&EITHER[..], &[STATUS_OLD]].concat(),
        Form::New => [&EITHER[..], &NEW, &[STATUS_NEW]].concat(),
    }
}

pub fn add(stream: &mut Stream) {
    stream.add(Command::Spoil);
    for form in Form::BOTH {
        for (changes, _) in damaged_books(form) {
            stream.add_all([Command::Book(struck(&target(form), changes)), READ_WHOLE]);
        }
        in_tables(stream, form);
        passed_on(stream, form);
    }
    on_largest(stream);
}

/// The tables hold a good book, are damaged, and put right again; there is no room for a book, which would be 8.
fn in_tables(stream: &mut Stream, form: Form) {
    let book = target(form);
    stream.book(&book);
    stream.add(READ_WHOLE);
    let right = book.items();
    for (changes, _) in damaged_tables(form) {
        let mut items = right.clone();
        changes.iter().for_each(|&(item, field, value)| *items.field_mut(item, field) = value);
        put(stream, &right, &items);
        stream.add(written(form, [4, 5, 1000, INJECTIONS, NUMBERS, 0]));
        put(stream, &items, &right);
    }
    stream.add(written(form, [4, 5, 1000, 4, 5 * form.numbers(), BOOK]));
}

/// A bus wrong for the move and the outage, a branch for the screen and the return, with others after it.
fn passed_on(stream: &mut Stream, form: Form) {
    for (damage, call) in [(IN_BOOK, Command::Move { form: form.other(), room: 0 }), (EITHER[0], out(0))] {
        stream.add_all([Command::Book(struck(&target(form), damage.0)), call]);
    }
    let branch = if form == Form::New { NEW[0] } else { EITHER[5] };
    stream.add_all([Command::Book(struck(&target(form), branch.0)), WHOLE, back(0)]);
}

/// The last bus and the last branch of the largest books, each with nothing else wrong.
fn on_largest(stream: &mut Stream) {
    stream.add(Command::Book(struck(&largest_new(), &[(127, Field::Size, 1_048_575)])));
    stream.add_all([WHOLE, back(255)]);
    stream.add(Command::Book(struck(&largest_new(), &[(255, Field::SecondKva, 0)])));
    stream.add_all([Command::Move { form: Form::Old, room: BOOK }, out(255)]);
    stream.add(Command::Book(struck(&largest(), &[(255, Field::Kva, 1_000_001)])));
    stream.add(Command::Move { form: Form::New, room: BOOK });
}
