//! Books as they are most often written by hand: old, power factor 1000, and every branch in service but named ones; and
//! the same in the new form, and with fields that are wrong.

use crate::definitions::book::{pack_items, Book};
use crate::definitions::branch::Branch;
use crate::definitions::fields::Field;
use crate::definitions::form::Form;

/// An old book with every branch in service at power factor 1000.
pub fn plain(injections: &[i64], branches: &[(usize, usize, u32)]) -> Book {
    let branch = |&(first, second, kva): &(usize, usize, u32)| Branch::rated(first, second, kva, true);
    Book { form: Form::Old, factor: 1000, injections: injections.to_vec(), branches: branches.iter().map(branch).collect() }
}

/// A new book with every branch in service at power factor 1000, both its ratings given.
pub fn two_rated(injections: &[i64], branches: &[(usize, usize, u32, u32)]) -> Book {
    let branch = |&(first, second, kva, second_kva): &_| Branch { first, second, kva, second_kva, served: true };
    Book { form: Form::New, factor: 1000, injections: injections.to_vec(), branches: branches.iter().map(branch).collect() }
}

/// The same book with one branch out of service.
pub fn with_out(mut book: Book, branch: usize) -> Book {
    book.branches[branch].served = false;
    book
}

/// The same book in the new form, both ratings equal.
pub fn moved_up(book: Book) -> Book {
    Book { form: Form::New, ..book }
}

/// The same book in the new form, with a second kVA of its own on some branches.
pub fn with_seconds(book: Book, seconds: &[(usize, u32)]) -> Book {
    let mut book = moved_up(book);
    seconds.iter().for_each(|&(branch, kva)| book.branches[branch].second_kva = kva);
    book
}

/// A bus or a branch, one of its fields, and the value that it gets.
pub type Change = (usize, Field, u32);

/// The bytes of a book with some fields changed, right or wrong.
pub fn struck(book: &Book, changes: &[Change]) -> Vec<u8> {
    let mut items = book.items();
    changes.iter().for_each(|&(item, field, value)| *items.field_mut(item, field) = value);
    pack_items(&items, book.factor)
}
