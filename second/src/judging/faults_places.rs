//! The faults to be planted in the place that a refusal carries, by name, and how each is planted.

use crate::definitions::answer::Answer;
use crate::definitions::items::Fault;
use crate::definitions::place::Place;
use crate::definitions::wrong::Wrong;
use crate::judging::faults::Plant;
use crate::judging::places::lent_items;
use crate::judging::plant::*;
use crate::trial::reference::Done;

/// Every fault by its name.
pub const PLACE_FAULTS: &[(&str, Plant)] = &[
    ("a read that drops the place", |done| dropped(done, "read")),
    ("a write that drops the place", |done| dropped(done, "write")),
    ("a move that drops the place", |done| dropped(done, "moved")),
    ("a screen that drops the place", |done| dropped(done, "screen")),
    ("an outage that drops the place", |done| dropped(done, "out")),
    ("a return that drops the place", |done| dropped(done, "back")),
    ("a move of load that drops the place", |done| dropped(done, "move")),
    ("a place with an accepted call", |done| added(done, 0)),
    ("a place with a wrong length", |done| added(done, 1)),
    ("a place with a tail bit", |done| added(done, 6)),
    ("a place with a wrong sum", |done| added(done, 7)),
    ("a place with an overload", |done| added(done, 12)),
    ("an item one too high", |done| another_place(done, |first, _| Place { item: first.place.item + 1, ..first.place })),
    ("the last offender instead of the first", |done| another_place(done, |_, last| last.place)),
    ("the last offending field of the first offender", |done| {
        let Some(faults) = placed(done) else { return false };
        let of_first = faults.iter().rfind(|fault| (fault.number, fault.place.item) == (faults[0].number, faults[0].place.item));
        of_first.is_some_and(|last| says_at(done, last.number, last.place))
    }),
    ("a branch numbered after the buses", |done| {
        if placed(done).is_none_or(|faults| faults[0].number != 5) {
            return false;
        }
        let buses = lent_items(done.command, done.before).map_or(0, |items| items.buses.len());
        another_place(done, |first, _| Place { item: buses + first.place.item, ..first.place })
    }),
    ("a wrong branch told before a wrong bus", |done| {
        let branch = placed(done).and_then(|faults| faults.into_iter().find(|fault| fault.number == 5));
        branch.is_some_and(|fault| says_at(done, 5, fault.place))
    }),
    ("the field numbered from 0", |done| another_place(done, |first, _| Place { field: first.place.field - 1, ..first.place })),
    ("the status of a new branch numbered as in an old one", |done| fault_of(done, Wrong::StatusAbove, 5, 4)),
    ("minus zero as the sign's fault", |done| fault_of(done, Wrong::MinusZero, 2, 1)),
    ("equal ends as the first bus's fault", |done| fault_of(done, Wrong::EqualEnds, 2, 1)),
    ("a second kVA below the first as the first's fault", |done| fault_of(done, Wrong::SecondKvaBelow, 4, 3)),
    ("the field before the item", |done| {
        another_place(done, |first, _| Place { item: first.place.field, field: first.place.item })
    }),
    ("the place before the shortage", |done| {
        let Some(faults) = placed(done) else { return false };
        let Place { item, field } = faults[0].place;
        answer_words(done, |words| {
            words.truncate(2);
            words.extend([item, field, 0, 0].map(|number| number.to_string()));
        })
    }),
];

fn dropped(done: &mut Done, call: &str) -> bool {
    let Some(faults) = placed(done).filter(|_| done.command.call() == Some(call)) else { return false };
    says(done, Answer::refused(faults[0].number))
}

/// A place where none is due, with this number.
fn added(done: &mut Done, number: u32) -> bool {
    done.command.answer_in(done.lines) == Some(number) && answer_words(done, |words| words.extend(["0", "1"].map(String::from)))
}

/// Gives a refusal this place; true where it is another answer.
fn says_at(done: &mut Done, number: u8, place: Place) -> bool {
    says(done, Answer { place: Some(place), ..Answer::refused(number) })
}

/// Another place in a refusal with 4 or 5, from the first and the last that is wrong with its buses, or its branches.
fn another_place(done: &mut Done, place: impl Fn(&Fault, &Fault) -> Place) -> bool {
    let Some(faults) = placed(done) else { return false };
    let last = faults.iter().rfind(|fault| fault.number == faults[0].number).expect("the first at least");
    says_at(done, faults[0].number, place(&faults[0], last))
}

/// Another field, where this is wrong at this one.
fn fault_of(done: &mut Done, wrong: Wrong, field: usize, told: usize) -> bool {
    let meant = placed(done).is_some_and(|faults| (faults[0].wrong, faults[0].place.field) == (wrong, field));
    meant && another_place(done, |first, _| Place { field: told, ..first.place })
}
