//! Counts where the books refused with 4 and 5 were wrong: by call, by form and by what was wrong, printed as two tables.

use crate::definitions::book;
use crate::definitions::form::Form;
use crate::definitions::items::{Fault, Items};
use crate::definitions::tables;
use crate::definitions::wrong::Wrong;
use crate::trial::spaces::Spaces;
use crate::trial::stream::Command;
use std::collections::BTreeMap;
use std::fmt::{Display, Formatter, Result};

/// The calls that pass a place on, each by the word that begins its answer.
pub const CALLS: [&str; 7] = ["read", "write", "moved", "screen", "out", "back", "move"];

/// What is counted of a refusal beside what was wrong: how its place stands among the items, and what else is wrong.
#[derive(Clone, Copy, Debug, PartialEq, Eq, PartialOrd, Ord)]
pub enum Seen {
    All,
    BeyondItem0,
    LastOfSeveral,
    LaterField,
    LaterItem,
    BranchToo,
}

impl Seen {
    const ALL: [Seen; 6] =
        [Seen::All, Seen::BeyondItem0, Seen::LastOfSeveral, Seen::LaterField, Seen::LaterItem, Seen::BranchToo];

    /// The columns of the second table: a bus has one field at fault at most, and after a branch nothing else is looked at.
    const COLUMNS: [(u8, Seen); 8] = [
        (4, Seen::BeyondItem0),
        (4, Seen::LastOfSeveral),
        (4, Seen::LaterItem),
        (4, Seen::BranchToo),
        (5, Seen::BeyondItem0),
        (5, Seen::LastOfSeveral),
        (5, Seen::LaterField),
        (5, Seen::LaterItem),
    ];

    /// Whether it is to be said of a refusal, the first of these faults.
    fn holds(self, items: &Items, faults: &[Fault]) -> bool {
        let Fault { number, place, .. } = faults[0];
        let count = if number == 4 { items.buses.len() } else { items.branches.len() };
        let later = |wanted: fn(usize, usize) -> bool| {
            faults[1..].iter().any(|fault| fault.number == number && wanted(place.item, fault.place.item))
        };
        match self {
            Seen::All => true,
            Seen::BeyondItem0 => place.item > 0,
            Seen::LastOfSeveral => place.item > 0 && place.item + 1 == count,
            Seen::LaterField => later(|first, other| first == other),
            Seen::LaterItem => later(|first, other| first < other),
            Seen::BranchToo => number == 4 && faults.last().is_some_and(|last| last.number == 5),
        }
    }
}

impl Display for Seen {
    fn fmt(&self, out: &mut Formatter) -> Result {
        out.write_str(match self {
            Seen::All => "all",
            Seen::BeyondItem0 => "not item 0",
            Seen::LastOfSeveral => "the last of several items",
            Seen::LaterField => "a later field of it wrong too",
            Seen::LaterItem => "a later item wrong too",
            Seen::BranchToo => "a branch wrong too",
        })
    }
}

/// How often each was seen, by the place of the call in `CALLS`.
#[derive(Default)]
pub struct Places(BTreeMap<(usize, Form, Wrong, Seen), usize>);

impl Places {
    /// Counts a call that is refused with 4 or 5; the spaces are those it was lent.
    pub fn count(&mut self, command: &Command, lent: &Spaces) {
        let Some(items) = lent_items(command, lent) else { return };
        let faults: Vec<Fault> = items.faults().collect();
        let call = command.call().and_then(place_of).expect("a call that passes a place on");
        for seen in Seen::ALL.into_iter().filter(|seen| seen.holds(&items, &faults)) {
            *self.0.entry((call, items.form, faults[0].wrong, seen)).or_default() += 1;
        }
    }

    pub fn join(&mut self, other: &Places) {
        other.0.iter().for_each(|(key, number)| *self.0.entry(*key).or_default() += number);
    }

    pub fn of(&self, call: &str, form: Form, wrong: Wrong, seen: Seen) -> usize {
        let key = place_of(call).map(|call| (call, form, wrong, seen));
        key.and_then(|key| self.0.get(&key)).copied().unwrap_or(0)
    }

    /// The same over all that is wrong with buses (4) or with branches (5).
    fn of_number(&self, call: &str, form: Form, number: u8, seen: Seen) -> usize {
        let wrongs = Wrong::ALL.into_iter().filter(|wrong| wrong.field().of_bus() == (number == 4));
        wrongs.map(|wrong| self.of(call, form, wrong, seen)).sum()
    }
}

fn place_of(call: &str) -> Option<usize> {
    CALLS.iter().position(|other| *other == call)
}

/// What can be wrong with what a call is given.
pub fn possible(call: &str, form: Form) -> Vec<Wrong> {
    if call == "write" {
        Wrong::of_tables(form)
    } else {
        Wrong::of_book(form)
    }
}

/// What a call tests for 4 and 5: the tables that a book is to be written from, or the book lent where its length is right.
pub fn lent_items(command: &Command, lent: &Spaces) -> Option<Items> {
    match *command {
        Command::Write { form, buses, count, .. } => Some(tables::items(form, buses, count, &lent.injections, &lent.numbers)),
        _ => book::header_of_whole(lent.bytes()).ok().map(|header| book::items(lent.bytes(), &header)),
    }
}

/// A table as text: its head, and a row a call and form. An empty cell is what can't be.
fn table<T: Copy>(
    out: &mut Formatter,
    head: &[T],
    name: fn(T) -> String,
    cell: impl Fn(&str, Form, T) -> Option<usize>,
) -> Result {
    let names: String = head.iter().map(|column| format!(" {} |", name(*column))).collect();
    writeln!(out, "| call, form |{names}\n|---|{}", "---|".repeat(head.len()))?;
    for call in CALLS {
        for form in Form::BOTH {
            let cells = head.iter().map(|column| cell(call, form, *column).map_or(" |".into(), |number| format!(" {number} |")));
            writeln!(out, "| {call}, {form} |{}", cells.collect::<String>())?;
        }
    }
    Ok(())
}

/// Nothing where nothing was refused so; else what was wrong first, and then how its place stood.
impl Display for Places {
    fn fmt(&self, out: &mut Formatter) -> Result {
        if self.0.is_empty() {
            return Ok(());
        }
        let what = |wrong: Wrong| format!("{}: {wrong}", if wrong.field().of_bus() { 4 } else { 5 });
        writeln!(out, "\nRefused with 4 and 5, by what is wrong first:\n")?;
        table(out, &Wrong::ALL, what, |call, form, wrong| {
            possible(call, form).contains(&wrong).then(|| self.of(call, form, wrong, Seen::All))
        })?;
        writeln!(out, "\nThe same, by where that stands and what else is wrong:\n")?;
        let how = |(number, seen): (u8, Seen)| format!("{number}: {seen}");
        table(out, &Seen::COLUMNS, how, |call, form, (number, seen)| Some(self.of_number(call, form, number, seen)))
    }
}
