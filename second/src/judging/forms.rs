//! Counts calls by the form of their book, and refusals besides by what was wrong.

use crate::definitions::book::{self, Book};
use crate::definitions::form::Form;
use crate::definitions::tables;
use crate::judging::tally::Tally;
use crate::trial::spaces::Spaces;
use crate::trial::stream::Command;

/// The form that a call is counted under: the one it was asked to write, or that of the book lent; under 4 bytes there is none.
fn form_of(command: &Command, book: &[u8]) -> String {
    let form = match command {
        Command::Write { form, .. } => Some(*form),
        _ => Form::of(book),
    };
    form.map_or("no form".into(), |form| format!("{form} form"))
}

/// Counts an accepted call; `book` is the book lent, or the one written.
pub fn accepted(tally: &mut Tally, call: &str, book: &[u8]) {
    let Ok(book) = book::unpack(book) else { return };
    tally.kinds(call, &[(&format!("{} form", book.form), true), ("new form, ratings differ", book.ratings_differ())]);
}

/// Counts an accepted move by the forms it went between.
pub fn moved(tally: &mut Tally, book: &[u8], to: Form, room: usize) {
    let Ok(book) = book::unpack(book) else { return };
    let way = format!("{} to {to}", book.form);
    let kinds =
        [(&way[..], true), ("ratings differ", book.ratings_differ()), ("into just enough room", room == book.length_in(to))];
    tally.kinds("moved", &kinds);
}

/// Counts a refused call that has to do with a book; the spaces are those it was lent.
pub fn refused(tally: &mut Tally, command: &Command, lent: &Spaces, number: u8) {
    let (Some(call), false) = (command.call(), matches!(command, Command::Meters { .. })) else { return };
    let kind = format!("{call} refused {number:>2}, {}", form_of(command, lent.bytes()));
    tally.count(&kind);
    for (why, holds) in reasons(command, lent, number) {
        if holds {
            tally.count(&format!("{kind}, {why}"));
        }
    }
}

/// What a refusal is counted by besides its number; where a 4 or 5 stands is counted apart.
fn reasons(command: &Command, lent: &Spaces, number: u8) -> Vec<(&'static str, bool)> {
    match *command {
        Command::Write { form, buses, count, injections, branches, .. } if number == 8 => {
            let enough = tables::enough(form, buses, count, injections, branches);
            vec![("its source too short", !enough), ("its output too short", enough)]
        }
        Command::Move { form, room } if number == 18 => book::unpack(lent.bytes()).map_or(Vec::new(), |book| {
            vec![
                ("the last branch alone", differ_on_last_alone(&book)),
                ("branches out of service alone", differ_out_of_service_alone(&book)),
                ("its output too short as well", room < book.length_in(form)),
            ]
        }),
        _ => Vec::new(),
    }
}

/// Whether the ratings differ on the last branch and on no other.
pub fn differ_on_last_alone(book: &Book) -> bool {
    let differs = |k: &usize| book.branches[*k].kva != book.branches[*k].second_kva;
    (0..book.branches.len()).filter(differs).eq(book.branches.len().checked_sub(1))
}

/// Whether the ratings differ on no branch in service.
pub fn differ_out_of_service_alone(book: &Book) -> bool {
    book.branches.iter().all(|branch| !branch.served || branch.kva == branch.second_kva)
}
