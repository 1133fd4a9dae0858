//! The faults to be planted in what a move of load answers and in the book that it leaves, by name, and how each is planted.

use crate::definitions::answer::Answer;
use crate::definitions::bits;
use crate::definitions::book::{self, pack, with_injection, Book};
use crate::definitions::cuts;
use crate::definitions::form::{bus_at, LARGEST};
use crate::definitions::limits::Limits;
use crate::definitions::load::Shift;
use crate::definitions::network::{Excess, Network};
use crate::judging::faults::Plant;
use crate::judging::loads::wrapped;
use crate::judging::plant::*;
use crate::judging::ratings::second_alone;
use crate::trial::reference::Done;
use crate::trial::stream::Command;

/// Every fault by its name.
pub const LOAD_FAULTS: &[(&str, Plant)] = &[
    ("a move of load that leaves the book", |done| leaves_book(done, |book, _| Some(book.to_vec()))),
    ("a move of load the other way", |done| leaves_book(done, |book, shift| Some(shift.turned().book(book)))),
    ("a move of load by which one injection rises and none falls", |done| {
        leaves_book(done, |book, shift| Some(with_injection(book, shift.up, new_injections(book, shift)[0])))
    }),
    ("a move of load by which one injection falls and none rises", |done| {
        leaves_book(done, |book, shift| Some(with_injection(book, shift.down, new_injections(book, shift)[1])))
    }),
    ("a move of load of one kW less", |done| {
        leaves_book(done, |book, shift| Some(Shift { kw: shift.kw.checked_sub(1)?, ..shift }.book(book)))
    }),
    ("a move of load that writes minus zero", |done| zero_with_sign(done, |shift| shift.kw > 0)),
    ("a move of 0 kW that writes minus zero", |done| zero_with_sign(done, |shift| shift.kw == 0)),
    ("a move of load that keeps the sign", |done| {
        leaves_book(done, |book, shift| {
            let sign = |bus: usize| bits::bit(book, bus_at(bus));
            let moved = shift.book(book);
            let kept = bits::with(&moved, bus_at(shift.up), sign(shift.up));
            Some(bits::with(&kept, bus_at(shift.down), sign(shift.down)))
        })
    }),
    ("a move of load that writes the book in the other form", |done| {
        leaves_book(done, |book, shift| {
            let moved = book::unpack(&shift.book(book)).ok().filter(|moved| !moved.ratings_differ())?;
            Some(pack(&Book { form: moved.form.other(), ..moved }))
        })
    }),
    ("a move of load that changes a status bit too", |done| {
        leaves_book(done, |book, shift| {
            let last = book::unpack(book).ok()?.branches;
            Some(book::with_status(&shift.book(book), last.len().checked_sub(1)?, !last.last()?.served))
        })
    }),
    ("a move between a bus and itself taken", |done| {
        refused_with(done, 19, |done, shift, book| same_bus(shift, book) && says(done, Answer::ACCEPTED))
    }),
    ("a bus at the count taken", |done| {
        let at_count = |shift: Shift, book: &Book| [shift.up, shift.down].contains(&book.injections.len());
        refused_with(done, 19, |done, shift, book| at_count(shift, book) && says(done, Answer::ACCEPTED))
    }),
    ("9 for no such bus", |done| refused_with(done, 19, |done, _, _| says(done, Answer::refused(9)))),
    ("19 before 8", |done| {
        refused_with(done, 8, |done, shift, book| !shift.has_buses(book.injections.len()) && says(done, Answer::refused(19)))
    }),
    ("20 before 8", |done| {
        refused_with(done, 8, |done, shift, _| shift.kw as i64 > 2 * LARGEST && says(done, Answer::refused(20)))
    }),
    ("20 before 19", |done| {
        refused_with(done, 19, |done, shift, _| shift.kw as i64 > 2 * LARGEST && says(done, Answer::refused(20)))
    }),
    ("11 before 19", |done| refused_with(done, 19, |done, _, book| unfit(done, book) && says(done, Answer::refused(11)))),
    ("11 before 20", |done| refused_with(done, 20, |done, _, book| unfit(done, book) && says(done, Answer::refused(11)))),
    ("12 before 20", |done| {
        refused_with(done, 20, |done, shift, book| {
            let answer = by_injections(done, book, shift, shift.injections(&book.injections));
            answer.number == 12 && says(done, answer)
        })
    }),
    ("12 before 11, of a move of load", |done| {
        refused_with(done, 11, |done, shift, book| {
            let excess = cuts::base_excess(&shift.changed(&Network::of(book, done.before.percentage)));
            excess.amount > 0 && says(done, Answer::overloaded(excess))
        })
    }),
    ("injections that wrap taken for such in range", |done| {
        refused_with(done, 20, |done, shift, book| {
            let sums = wrapped(&book.injections, shift);
            let answer = by_injections(done, book, shift, sums);
            sums.iter().all(|kw| kw.abs() <= LARGEST) && says(done, answer)
        })
    }),
    ("the falling injection not held to its range", |done| one_not_held(done, [false, true])),
    ("the rising injection not held to its range", |done| one_not_held(done, [true, false])),
    ("an injection of 1,000,001 taken", |done| {
        refused_with(done, 20, |done, shift, book| {
            let new = shift.injections(&book.injections);
            let answer = by_injections(done, book, shift, new);
            new.iter().all(|kw| kw.abs() <= LARGEST + 1) && says(done, answer)
        })
    }),
    ("an injection of 1,000,000 refused", |done| {
        let at_edge =
            |shift: Shift, book: &[u8]| shift.kw > 0 && new_injections(book, shift).iter().any(|kw| kw.abs() == LARGEST);
        instead(done, |done| accepted_shift(done).is_some_and(|shift| at_edge(shift, done.before.bytes())), "20")
    }),
    ("a move of more than 1,000,000 kW refused", |done| {
        instead(done, |done| accepted_shift(done).is_some_and(|shift| shift.kw as i64 > LARGEST), "20")
    }),
    ("a move of 0 kW refused", |done| instead(done, |done| accepted_shift(done).is_some_and(|shift| shift.kw == 0), "19")),
    ("a move of load refused that should be accepted", |done| instead(done, |done| accepted_shift(done).is_some(), "12")),
    ("11 by the book with its load moved", |done| {
        instead(done, |done| accepted_shift(done).is_some_and(|shift| shift.kw > 0), "11")
    }),
    ("12 by the book before the move", |done| refused_with(done, 12, |done, _, _| says(done, Answer::ACCEPTED))),
    ("12 of a move of load with the shortage of the book before it", |done| {
        another_12(done, |_, _, _| Excess { amount: 0, group: 0 })
    }),
    ("12 of a move of load with all its kW as the shortage", |done| {
        another_12(done, |_, shift, due| Excess { amount: shift.kw as i64, ..due })
    }),
    ("12 of a move of load with the bus that rises as its group", |done| {
        another_12(done, |_, shift, due| Excess { group: 1 << shift.up, ..due })
    }),
    ("12 of a move of load with the largest group", |done| {
        another_12(done, |changed, _, due| {
            let mut turned = changed.clone();
            turned.injections.iter_mut().for_each(|kw| *kw = -*kw);
            Excess { group: all_buses(changed) & !cuts::base_excess(&turned).group, ..due }
        })
    }),
    ("a move of load accepted by the second limits", |done| {
        refused_with(done, 12, |done, shift, book| {
            let changed = shift.changed(&Network::of(book, done.before.percentage));
            cuts::base_excess(&second_alone(&changed)).amount == 0 && says(done, Answer::ACCEPTED)
        })
    }),
    ("a move of load refused by the excess of the second limits", |done| {
        another_12(done, |changed, _, due| {
            Some(cuts::base_excess(&second_alone(changed))).filter(|other| other.amount > 0).unwrap_or(due)
        })
    }),
    ("a move of load with a flow between the limits taken", |done| {
        refused_with(done, 11, |done, shift, book| {
            let network = Network::of(book, done.before.percentage);
            let excess = cuts::base_excess(&shift.changed(&network));
            let answer = if excess.amount > 0 { Answer::overloaded(excess) } else { Answer::ACCEPTED };
            network.fits_within(Limits::Second, &done.before.flow[..network.lines.len()]) && says(done, answer)
        })
    }),
    ("a move of load answered with the word of a moved book", |done| {
        shift_of(done).is_some() && line_with(done, "move", |words| words[0] = "moved".into())
    }),
];

/// What a move of load is to move, whatever it is answered with.
pub fn shift_of(done: &Done) -> Option<Shift> {
    match *done.command {
        Command::Load { shift, .. } => Some(shift),
        _ => None,
    }
}

/// The same of an accepted one.
pub fn accepted_shift(done: &Done) -> Option<Shift> {
    shift_of(done).filter(|_| call_accepted(done))
}

/// The two injections after a move of a book that can be read.
fn new_injections(book: &[u8], shift: Shift) -> [i64; 2] {
    shift.injections(&book::unpack(book).expect("an accepted call's book").injections)
}

/// Leaves another book than the accepted move does, made of the book before it.
fn leaves_book(done: &mut Done, other: impl FnOnce(&[u8], Shift) -> Option<Vec<u8>>) -> bool {
    let Some(shift) = accepted_shift(done) else { return false };
    let Some(left) = other(done.before.bytes(), shift).filter(|left| left != done.after.bytes()) else { return false };
    done.after.book[..left.len()].copy_from_slice(&left);
    done.after.length = left.len();
    true
}

/// Gives one of the two injections that is 0 after a move the sign of a negative one.
fn zero_with_sign(done: &mut Done, wanted: impl Fn(Shift) -> bool) -> bool {
    leaves_book(done, |book, shift| {
        let buses = [shift.up, shift.down].into_iter().zip(new_injections(book, shift));
        let (bus, _) = buses.into_iter().find(|(_, kw)| *kw == 0).filter(|_| wanted(shift))?;
        Some(bits::with(&shift.book(book), bus_at(bus), true))
    })
}

/// Whether the command is a move of load refused with this number, of a book that can be read.
pub fn refused_with(done: &mut Done, number: u32, plant: impl FnOnce(&mut Done, Shift, &Book) -> bool) -> bool {
    let Some(shift) = shift_of(done).filter(|_| done.command.answer_in(done.lines) == Some(number)) else { return false };
    book::unpack(done.before.bytes()).is_ok_and(|book| plant(done, shift, &book))
}

fn same_bus(shift: Shift, book: &Book) -> bool {
    shift.up == shift.down && shift.up < book.injections.len()
}

fn unfit(done: &Done, book: &Book) -> bool {
    !Network::of(book, done.before.percentage).fits(&done.before.flow[..book.branches.len()])
}

/// What a program answers that gets as far as the flow and then looks at these two injections.
fn by_injections(done: &Done, book: &Book, shift: Shift, injections: [i64; 2]) -> Answer {
    if unfit(done, book) {
        return Answer::refused(11);
    }
    let mut changed = Network::of(book, done.before.percentage);
    [changed.injections[shift.up], changed.injections[shift.down]] = injections;
    let excess = cuts::base_excess(&changed);
    if excess.amount > 0 {
        Answer::overloaded(excess)
    } else {
        Answer::ACCEPTED
    }
}

/// Goes on where only the rising or only the falling injection is out of its range.
fn one_not_held(done: &mut Done, out: [bool; 2]) -> bool {
    refused_with(done, 20, |done, shift, book| {
        let new = shift.injections(&book.injections);
        let answer = by_injections(done, book, shift, new);
        new.map(|kw| kw.abs() > LARGEST) == out && says(done, answer)
    })
}

/// A 12 with another shortage or group; the network is the one after the move.
fn another_12(done: &mut Done, other: impl FnOnce(&Network, Shift, Excess) -> Excess) -> bool {
    refused_with(done, 12, |done, shift, book| {
        let changed = shift.changed(&Network::of(book, done.before.percentage));
        let excess = other(&changed, shift, cuts::base_excess(&changed));
        says(done, Answer::overloaded(excess))
    })
}
