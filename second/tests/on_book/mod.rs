//! A stream of commands on one book.

use second::definitions::book::{pack, Book};
use second::trial::stream::{bytes, Command};

pub fn stream(book: &Book, commands: &[Command]) -> Vec<u8> {
    std::iter::once(&Command::Book(pack(book))).chain(commands).flat_map(bytes).collect()
}
