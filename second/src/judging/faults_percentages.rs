//! The faults to be planted where a percentage is in force, by name, and how each is planted.

use crate::definitions::answer::Answer;
use crate::definitions::book;
use crate::definitions::network::Network;
use crate::definitions::percentage::{Percentage, NAMEPLATE};
use crate::definitions::record::SIZE;
use crate::judging::faults::Plant;
use crate::judging::misread::{self, Misreading};
use crate::judging::percentages::{hidden, otherwise};
use crate::judging::plant::*;
use crate::trial::reference::Done;
use crate::trial::stream::Command;
use std::ops::RangeInclusive;

/// Every fault by its name.
pub const PERCENTAGE_FAULTS: &[(&str, Plant)] = &[
    ("limits rounded twice", |done| misread(done, Misreading::RoundedTwice)),
    ("limits rounded up", |done| misread(done, Misreading::RoundedUp)),
    ("the percentage on the first rating alone", |done| misread(done, Misreading::FirstAlone)),
    ("the percentage on the second rating alone", |done| misread(done, Misreading::SecondAlone)),
    ("the percentage ignored in the screen", |done| ignored(done, "screen")),
    ("the percentage ignored in the outage", |done| ignored(done, "out")),
    ("the percentage ignored in the return", |done| ignored(done, "back")),
    ("the percentage ignored in the move of load", |done| ignored(done, "move")),
    ("21 after 1 to 7, for a bad book", |done| given_before(done, 1..=7)),
    ("21 after 8", |done| given_before(done, 8..=8)),
    ("21 after 9", |done| given_before(done, 9..=9)),
    ("21 after 10", |done| given_before(done, 10..=10)),
    ("21 after 11", |done| given_before(done, 11..=11)),
    ("21 after 12", |done| given_before(done, 12..=12)),
    ("21 after 17", |done| given_before(done, 17..=17)),
    ("21 after 19", |done| given_before(done, 19..=19)),
    ("21 after 20", |done| given_before(done, 20..=20)),
    ("0 percent taken", |done| taken(done, 0)),
    ("49 percent taken", |done| taken(done, 49)),
    ("101 percent taken", |done| taken(done, 101)),
    ("255 percent taken", |done| taken(done, 255)),
    ("50 percent refused", |done| instead(done, |done| accepted_at(done, 50), "21")),
    ("100 percent refused", |done| instead(done, |done| accepted_at(done, 100), "21")),
    ("a percentage out of range taken for 100", |done| no_percentage(done) && says(done, hidden(done.command, done.before))),
    ("21 with a shortage", |done| no_percentage(done) && answer_words(done, |words| words[2] = "1".into())),
    ("21 with a group", |done| {
        no_percentage(done) && answer_words(done, |words| words.splice(3.., ["1", "0"].map(String::from)).for_each(drop))
    }),
    ("21 with the place of a bad book", |done| {
        no_percentage(done) && {
            let place = hidden(done.command, done.before).place;
            place.is_some() && says(done, Answer { place, ..Answer::refused(21) })
        }
    }),
    ("a screen refused with 21 that writes a book byte", |done| leaves_21(done, "screen", |done| book_byte(done.after))),
    ("a screen refused with 21 that writes a flow number", |done| leaves_21(done, "screen", |done| done.after.flow[0] ^= 1)),
    ("a screen refused with 21 that writes a table byte", |done| leaves_21(done, "screen", |done| done.after.table[0] ^= 1)),
    ("an outage refused with 21 that clears the bit", |done| leaves_21(done, "out", switched_bit)),
    ("an outage refused with 21 that writes a flow number", |done| leaves_21(done, "out", |done| done.after.flow[0] ^= 1)),
    ("an outage refused with 21 that writes a table byte", |done| leaves_21(done, "out", |done| done.after.table[0] ^= 1)),
    ("a return refused with 21 that sets the bit", |done| leaves_21(done, "back", switched_bit)),
    ("a return refused with 21 that writes a flow number", |done| leaves_21(done, "back", |done| done.after.flow[0] ^= 1)),
    ("a return refused with 21 that writes a table byte", |done| leaves_21(done, "back", |done| done.after.table[0] ^= 1)),
    ("a move of load refused with 21 that changes an injection", |done| leaves_21(done, "move", |done| done.after.book[5] ^= 1)),
    ("a move of load refused with 21 that writes a flow number", |done| leaves_21(done, "move", |done| done.after.flow[0] ^= 1)),
    ("a move of load refused with 21 that writes a table byte", |done| leaves_21(done, "move", |done| done.after.table[0] ^= 1)),
    ("a read refused with 21", |done| untaken(done, "read")),
    ("a write refused with 21", |done| untaken(done, "write")),
    ("a move refused with 21", |done| untaken(done, "moved")),
    ("a reading of meters refused with 21", |done| untaken(done, "meters")),
    ("`P` sets the percentage to 100", |done| *done.command == Command::Spoil && back_to_100(done)),
    ("a percentage in force for one call alone", |done| done.command.takes_percentage() && back_to_100(done)),
    ("a percentage in force until the next book", |done| matches!(done.command, Command::Book(_)) && back_to_100(done)),
    ("a percentage not taken in", |done| {
        matches!(done.command, Command::Percentage(_)) && done.before.percentage.in_range() && {
            let kept = done.before.percentage;
            shown_by_then(done) && {
                done.after.percentage = kept;
                true
            }
        }
    }),
    ("`Y` prints a line", |done| {
        matches!(done.command, Command::Percentage(_)) && {
            done.lines.push(format!("percentage {}", done.after.percentage.0));
            true
        }
    }),
];

/// What a program with this reading of the limits answers to a call whose limits count; where it accepts the call too, a record
/// with what it would show.
fn misread(done: &mut Done, reading: Misreading) -> bool {
    let counts = done.command.takes_percentage() && matches!(done.command.answer_in(done.lines), Some(0 | 11 | 12));
    if !counts {
        return false;
    }
    let percentage = done.before.percentage;
    let lent = book::unpack(done.before.bytes()).expect("a book whose limits count");
    let answer = misread::answer(done.command, &reading.network(&lent, percentage), done.before);
    if says(done, answer) {
        return true;
    }
    let shows = answer.accepted() && reading.shows();
    shows
        && accepted(done, |network, done| {
            let changed = book::unpack(done.after.bytes()).expect("an accepted call's book");
            let mut anew = vec![false; network.lines.len()];
            judged_records(network, done).into_iter().for_each(|k| anew[k] = true);
            let other = otherwise(&reading.network(&changed, percentage), &done.after.table, &anew);
            other.map(|(k, bytes)| done.after.table[SIZE * k..SIZE * (k + 1)].copy_from_slice(&bytes)).is_some()
        })
}

fn ignored(done: &mut Done, call: &str) -> bool {
    done.command.call() == Some(call) && misread(done, Misreading::Ignored)
}

/// Whether the command is a call refused with 21.
fn no_percentage(done: &Done) -> bool {
    done.command.answer_in(done.lines) == Some(21)
}

/// Gives one of these refusals where 21 hides it.
fn given_before(done: &mut Done, numbers: RangeInclusive<u8>) -> bool {
    no_percentage(done) && {
        let hidden = hidden(done.command, done.before);
        numbers.contains(&hidden.number) && says(done, hidden)
    }
}

/// Takes a percentage that is out of range, with the limits that it gives.
fn taken(done: &mut Done, percentage: u8) -> bool {
    if !no_percentage(done) || done.before.percentage != Percentage(percentage) {
        return false;
    }
    let hidden = hidden(done.command, done.before);
    let answer = match book::unpack(done.before.bytes()) {
        Ok(book) if [0, 11, 12].contains(&hidden.number) => {
            misread::answer(done.command, &Network::of(&book, Percentage(percentage)), done.before)
        }
        _ => hidden,
    };
    says(done, answer)
}

/// Whether the command is an accepted call that takes a percentage, and was given this one.
fn accepted_at(done: &Done, percentage: u8) -> bool {
    done.command.takes_percentage() && call_accepted(done) && done.before.percentage == Percentage(percentage)
}

/// What a call refused with 21 leaves otherwise than it stood, where a dump shows it.
fn leaves_21(done: &mut Done, call: &str, plant: impl FnOnce(&mut Done)) -> bool {
    let shown = no_percentage(done) && done.command.call() == Some(call) && done.next == Some(&Command::Dump);
    if shown {
        plant(done);
    }
    shown && *done.after != *done.before
}

/// Gives the branch the status that the call would have given it, if there is such a branch.
fn switched_bit(done: &mut Done) {
    let Command::Switch { way, branch, .. } = *done.command else { return };
    if book::unpack(done.before.bytes()).is_ok_and(|book| branch < book.branches.len()) {
        done.after.book = book::with_status(&done.before.book, branch, way.serves());
    }
}

/// Refuses a call that takes no percentage since the one in force is out of range.
fn untaken(done: &mut Done, call: &str) -> bool {
    let beyond = |done: &Done| done.command.call() == Some(call) && !done.before.percentage.in_range();
    beyond(done) && answer_words(done, |words| words[1] = "21".into())
}

/// Whether the percentage after the command is out of range and a call that takes it comes next, dumps aside, so that its answer
/// shows whether it is in force.
fn shown_by_then(done: &Done) -> bool {
    !done.after.percentage.in_range() && done.then.is_some_and(|then| then.takes_percentage())
}

fn back_to_100(done: &mut Done) -> bool {
    shown_by_then(done) && {
        done.after.percentage = NAMEPLATE;
        true
    }
}
