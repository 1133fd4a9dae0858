//! The tables beside a book, injections and four or five numbers a branch by its form: read into, and written from.

use crate::definitions::book::{self, counts_in_range, Book};
use crate::definitions::form::Form;
use crate::definitions::items::Items;
use crate::definitions::place::Refusal;

/// The numbers of all branches in the book's own form.
pub fn numbers(book: &Book) -> Vec<u32> {
    book.branches.iter().flat_map(|branch| branch.row(book.form)).collect()
}

/// Whether tables with this room are long enough for the counts in a form.
pub fn enough(form: Form, buses: usize, count: usize, injections: usize, numbers: usize) -> bool {
    injections >= buses && numbers >= form.numbers() * count
}

/// The reader: the book, if it can be read and the lent tables are long enough for its form; else 1 to 8.
pub fn read(bytes: &[u8], injections: usize, numbers: usize) -> Result<Book, Refusal> {
    let book = book::unpack(bytes)?;
    if enough(book.form, book.injections.len(), book.branches.len(), injections, numbers) {
        Ok(book)
    } else {
        Err(8.into())
    }
}

/// The buses and branches that so many numbers of tables long enough for them name, field by field, whatever they say.
pub fn items(form: Form, buses: usize, count: usize, injections: &[i64], numbers: &[u32]) -> Items {
    let rows = numbers.chunks(form.numbers()).take(count).map(<[u32]>::to_vec);
    Items::new(form, &injections[..buses], rows.collect())
}

/// The writer: a form, its source tables as lent (they may be too short or too long), and the room of its output.
pub fn write(
    form: Form,
    buses: usize,
    count: usize,
    factor: u32,
    injections: &[i64],
    numbers: &[u32],
    room: usize,
) -> Result<Vec<u8>, Refusal> {
    if !counts_in_range(buses, count, factor) {
        return Err(2.into());
    }
    if !enough(form, buses, count, injections.len(), numbers.len()) {
        return Err(8.into());
    }
    let items = items(form, buses, count, injections, numbers);
    items.tested()?;
    if items.injections().iter().sum::<i64>() != 0 {
        return Err(7.into());
    }
    if room < form.length(buses, count) {
        return Err(8.into());
    }
    Ok(book::pack_items(&items, factor))
}
