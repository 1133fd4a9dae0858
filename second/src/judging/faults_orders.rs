//! The faults to be planted in two switchings that follow each other, by name, and how each is planted: answers, books and records
//! that hang on which of the two came first.

use crate::definitions::answer::Answer;
use crate::definitions::book::{self, with_status, Book};
use crate::definitions::cuts::{self, Cutter};
use crate::definitions::network::{Excess, Network, Verdict};
use crate::definitions::record::{self, SIZE};
use crate::definitions::switching::Way;
use crate::judging::faults::Plant;
use crate::judging::plant::*;
use crate::trial::reference::Done;
use crate::trial::stream::Command;

const OUTAGES: [Way; 2] = [Way::Out, Way::Out];
const RETURNS: [Way; 2] = [Way::Back, Way::Back];
const OUT_THEN_BACK: [Way; 2] = [Way::Out, Way::Back];
const BACK_THEN_OUT: [Way; 2] = [Way::Back, Way::Out];

/// Every fault by its name.
pub const ORDER_FAULTS: &[(&str, Plant)] = &[
    ("the first of two outages refused", |done| first(done, OUTAGES).is_some() && refuses(done)),
    ("the first of two outages accepted, though it can't be spared", |done| first(done, OUTAGES).is_some() && takes(done)),
    ("the second of two outages refused, though both can be spared", |done| second(done, OUTAGES).is_some() && refuses(done)),
    ("the second of two outages accepted, though both can't be spared", |done| second(done, OUTAGES).is_some() && takes(done)),
    ("the second of two outages answered as if the first were in service", |done| as_if_first_were_not(done, OUTAGES)),
    ("the second of two outages that leaves the first in service", |done| takes_first_back(done, OUTAGES)),
    ("the second of two outages, refused, that brings the first back", |done| refused_takes_first_back(done, OUTAGES)),
    ("the record of the first of two outages that carries after the second", |done| first_record_carries(done, OUTAGES)),
    ("verdicts of the second of two outages as if the first were in service", |done| verdicts_as_if(done, OUTAGES)),
    ("a shortage that hangs on the order of two outages", |done| {
        second(done, OUTAGES).is_some()
            && short_record(done, SHORT, |_, _, excess| Excess { amount: excess.amount + 1, ..excess })
    }),
    ("a group that hangs on the order of two outages", |done| {
        second(done, OUTAGES).is_some() && short_record(done, SHORT, largest_group)
    }),
    ("the second of two returns refused", |done| second(done, RETURNS).is_some() && refuses(done)),
    ("the second of two returns that takes the first out again", |done| takes_first_back(done, RETURNS)),
    ("verdicts of the second of two returns as if the first were out of service", |done| verdicts_as_if(done, RETURNS)),
    ("a return after an outage that brings both back", |done| takes_first_back(done, OUT_THEN_BACK)),
    ("verdicts of a return as if the outage before it were not", |done| verdicts_as_if(done, OUT_THEN_BACK)),
    ("an outage after a return answered as if the return were not", |done| as_if_first_were_not(done, BACK_THEN_OUT)),
    ("an outage after a return that takes both out", |done| takes_first_back(done, BACK_THEN_OUT)),
    ("verdicts of an outage as if the return before it were not", |done| verdicts_as_if(done, BACK_THEN_OUT)),
    ("an outage before a return answered as after it", as_after_the_return),
];

fn switched(command: &Command) -> Option<(Way, usize)> {
    match *command {
        Command::Switch { way, branch, .. } => Some((way, branch)),
        _ => None,
    }
}

/// The book before the second of two switchings of these ways and of different branches, the first of them accepted; with the two.
fn second(done: &Done, ways: [Way; 2]) -> Option<(Book, usize, usize)> {
    let ((one, first), (other, branch)) = (switched(done.earlier?)?, switched(done.command)?);
    let book = book::unpack(done.before.bytes()).ok()?;
    let accepted = book.branches.get(first)?.served == one.serves();
    ([one, other] == ways && first != branch && accepted && branch < book.branches.len()).then_some((book, first, branch))
}

/// The book before the first of two such switchings; with the two.
fn first(done: &Done, ways: [Way; 2]) -> Option<(Book, usize, usize)> {
    let ((one, branch), (other, later)) = (switched(done.command)?, switched(done.then?)?);
    let book = book::unpack(done.before.bytes()).ok()?;
    let there = branch.max(later) < book.branches.len();
    ([one, other] == ways && branch != later && there).then_some((book, branch, later))
}

/// Refuses an accepted call with 12.
fn refuses(done: &mut Done) -> bool {
    let accepted = call_accepted(done);
    if accepted {
        *done.after = done.before.clone();
        says(done, Answer::overloaded(Excess { amount: 1, group: 1 }));
    }
    accepted
}

/// Accepts a call refused with 12.
fn takes(done: &mut Done) -> bool {
    done.command.answer_in(done.lines) == Some(12) && says(done, Answer::ACCEPTED)
}

/// What an outage of a network is answered where all else is as it should be.
fn answered(network: &Network, branch: usize) -> Answer {
    let excess = cuts::base_excess(&network.without(branch));
    if excess.amount > 0 {
        Answer::overloaded(excess)
    } else {
        Answer::ACCEPTED
    }
}

/// The network before the second call as it would be if the first had not been.
fn without_first(done: &Done, ways: [Way; 2]) -> Option<(Network, usize)> {
    let (book, first, branch) = second(done, ways)?;
    Some((Network::of(&book, done.before.percentage).with_status(first, !ways[0].serves()), branch))
}

fn as_if_first_were_not(done: &mut Done, ways: [Way; 2]) -> bool {
    let Some((network, branch)) = without_first(done, ways) else { return false };
    let told = done.command.answer_in(done.lines).is_some_and(|number| [0, 12].contains(&number));
    told && says(done, answered(&network, branch))
}

/// Leaves the first branch as it stood before both.
fn undo_first(done: &mut Done, ways: [Way; 2]) -> bool {
    let Some((_, first, _)) = second(done, ways) else { return false };
    done.after.book = with_status(&done.after.book, first, !ways[0].serves());
    true
}

fn takes_first_back(done: &mut Done, ways: [Way; 2]) -> bool {
    call_accepted(done) && undo_first(done, ways)
}

fn refused_takes_first_back(done: &mut Done, ways: [Way; 2]) -> bool {
    done.command.answer_in(done.lines) == Some(12) && done.next == Some(&Command::Dump) && undo_first(done, ways)
}

fn first_record_carries(done: &mut Done, ways: [Way; 2]) -> bool {
    let Some((_, first, _)) = second(done, ways).filter(|_| call_accepted(done)) else { return false };
    done.after.table[SIZE * first..SIZE * (first + 1)].copy_from_slice(&record::bytes(Verdict::Carries, &[]));
    true
}

/// Writes the first record anew whose verdict would be another if the first switching had not been.
fn verdicts_as_if(done: &mut Done, ways: [Way; 2]) -> bool {
    let Some((network, branch)) = without_first(done, ways).filter(|_| call_accepted(done)) else { return false };
    let network = network.with_status(branch, ways[1].serves());
    let mut cutter = Cutter::new(&network);
    if cutter.base_excess().amount > 0 {
        return false;
    }
    let others: Vec<[u8; SIZE]> = (0..network.lines.len()).map(|k| record::bytes(cutter.verdict(k), &[])).collect();
    let differs = |k: &usize| others[*k][..20] != record::stretch(&done.after.table, *k)[..20];
    let Some(k) = (0..others.len()).find(differs) else { return false };
    done.after.table[SIZE * k..SIZE * (k + 1)].copy_from_slice(&others[k]);
    true
}

fn as_after_the_return(done: &mut Done) -> bool {
    let Some((book, branch, back)) = first(done, OUT_THEN_BACK) else { return false };
    let network = Network::of(&book, done.before.percentage).with_status(back, true);
    done.command.answer_in(done.lines) == Some(12) && says(done, answered(&network, branch))
}
