//! What the gate stores for its programs: the standard input of each, and the outputs that document 01 fixes whole. The
//! output of `trial` holds choices of its own and is judged instead.

use crate::books::named;
use crate::definitions::list::list;
use crate::streams::stored;

/// The stored input that `outages` is run on.
const BOOK_OF_OUTAGES: &str = "second";

/// The stored stream that `trial` is run on, and what it printed.
pub const TRIAL_INPUT: &str = "trial/stdin";
pub const TRIAL_OUTPUT: &str = "trial/stdout";

/// Every file by its path among the crates. `outages_try` is given all stored inputs, each with its length in two bytes
/// before it, and prints the list of each.
pub fn files() -> Vec<(&'static str, Vec<u8>)> {
    let inputs = named::inputs();
    let (_, book) = inputs.iter().find(|(name, _)| *name == BOOK_OF_OUTAGES).expect("a stored input");
    let joined = inputs.iter().flat_map(|(_, bytes)| [&(bytes.len() as u16).to_be_bytes()[..], bytes].concat());
    let lists: String = inputs.iter().map(|(_, bytes)| list(bytes)).collect();
    vec![
        ("outages/stdin", book.clone()),
        ("outages/stdout", list(book).into_bytes()),
        ("outages_try/stdin", joined.collect()),
        ("outages_try/stdout", lists.into_bytes()),
        (TRIAL_INPUT, stored::stream()),
    ]
}
