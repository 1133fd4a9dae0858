//! Moving a book to a form (document 02, W3).

use crate::definitions::book::{self, Book};
use crate::definitions::form::Form;
use crate::definitions::place::Refusal;

/// The book's bytes in the form asked for; else 1 to 7 of the book, 4 and 5 with their place, then 18, then 8. An old book's ratings are equal on
/// every branch, so 18 is only given for a new one.
pub fn moved(bytes: &[u8], form: Form, room: usize) -> Result<Vec<u8>, Refusal> {
    let book = book::unpack(bytes)?;
    if form == Form::Old && book.ratings_differ() {
        return Err(18.into());
    }
    if room < book.length_in(form) {
        return Err(8.into());
    }
    Ok(book::pack(&Book { form, ..book }))
}
