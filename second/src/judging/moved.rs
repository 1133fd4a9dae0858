//! What the papers promise of an accepted move, held apart from how a move is made.

use crate::definitions::book::{self, Book};
use crate::definitions::branch::Branch;
use crate::definitions::form::Form;
use crate::definitions::moves;

/// What any move keeps, as a book: power factor, injections, ends, kVA and status.
fn kept(book: &Book) -> Book {
    let branches = book.branches.iter().map(|branch| Branch { second_kva: branch.kva, ..branch.clone() });
    Book { form: Form::Old, branches: branches.collect(), ..book.clone() }
}

/// What is wrong with a shelf after an accepted move of the book `lent` to a form; `before` is the shelf before it.
pub fn promised(lent: &[u8], form: Form, before: &[u8], shelf: &[u8]) -> Result<(), String> {
    let from = book::unpack(lent).map_err(|refusal| format!("moved, though the book is refused with {refusal}"))?;
    let (moved, beyond) = shelf.split_at(from.length_in(form));
    if *beyond != before[moved.len()..] {
        return Err("the shelf beyond the moved book was written".into());
    }
    if form == from.form && moved != lent {
        return Err("a book in the form asked for came back changed".into());
    }
    let to = book::unpack(moved).map_err(|refusal| format!("the moved book is refused with {refusal}"))?;
    if to.form != form || kept(&to) != kept(&from) {
        return Err("the moved book is in another form, or says something else".into());
    }
    let seconds = |book: &Book| book.branches.iter().map(|branch| branch.second_kva).collect::<Vec<_>>();
    if from.form != form && to.ratings_differ() || seconds(&to) != seconds(&from) {
        return Err("the moved book has other second ratings".into());
    }
    if moves::moved(moved, from.form, lent.len()).as_deref() != Ok(lent) {
        return Err("moved there and back, the book is not as it was".into());
    }
    Ok(())
}
