//! The named books and inputs whose lists are stored: document 01's two books in either form, marked examples, books whose
//! two ratings differ, books with branches that would island, damaged and too long inputs.

use crate::books::plain::{moved_up, plain, struck, with_out, with_seconds};
use crate::books::{islands, ratings, sources};
use crate::definitions::book::{pack, Book};
use crate::definitions::fields::Field;

/// Document 01's triangle, with the rating of its branch 1-2.
pub fn triangle(last: u32) -> Book {
    plain(&[30, -10, -20], &[(0, 1, 40), (0, 2, 40), (1, 2, last)])
}

/// Document 01's second book, with the rating of its branch 1-2.
pub fn second_book(last: u32) -> Book {
    plain(&[60, 0, -40, -20], &[(0, 1, 40), (0, 2, 40), (1, 2, last), (2, 3, 30)])
}

/// The second book with a fifth branch beside the others: a feeder 1-3 of 30 kVA.
pub fn second_and_feeder() -> Book {
    plain(&[60, 0, -40, -20], &[(0, 1, 40), (0, 2, 40), (1, 2, 25), (2, 3, 30), (1, 3, 30)])
}

/// The second book in the new form: branches 0-2 and 2-3 have a second kVA above the first. So 0-1 and 1-2 carry.
pub fn second_two() -> Book {
    with_seconds(second_book(25), &[(1, 60), (3, 1_000_000)])
}

/// The triangle in the new form with the last branch's second kVA one below the first: refused with 5.
pub fn triangle_below() -> Book {
    with_seconds(triangle(30), &[(2, 29)])
}

/// 1,461 bytes that start with these: longer than any old book.
pub fn too_long(start: &[u8]) -> Vec<u8> {
    filled_to(start, 1461)
}

/// Bytes that start with these and then are 0, so many in all.
pub fn filled_to(start: &[u8], length: usize) -> Vec<u8> {
    let mut bytes = start.to_vec();
    bytes.resize(length, 0);
    bytes
}

/// The largest book: 128 buses in a ring with chords, 256 branches, at power factor 999.
pub fn largest() -> Book {
    let injections: Vec<i64> = (0..128).map(|bus| if bus % 2 == 0 { 400 + bus } else { 0 - 400 - (bus - 1) }).collect();
    let ring = (0..128).map(|bus| (bus, (bus + 1) % 128, 900 + 3 * bus as u32));
    let chords = (0..128).map(|bus| (bus, (bus + 11) % 128, 150 + 7 * (bus as u32 % 9)));
    let mut book = plain(&injections, &ring.chain(chords).collect::<Vec<_>>());
    book.factor = 999;
    book
}

/// The largest book in the new form, the second kVA above the first on every chord: 2,100 bytes.
pub fn largest_new() -> Book {
    let chords: Vec<(usize, u32)> = (128..256).map(|branch| (branch, 250 + branch as u32)).collect();
    with_seconds(largest(), &chords)
}

/// Names and bytes of every stored input; a request's own come after all that stood there before.
pub fn inputs() -> Vec<(&'static str, Vec<u8>)> {
    old_inputs().into_iter().chain(new_inputs()).chain(rated_inputs()).chain(wrong_inputs()).chain(island_inputs()).collect()
}

fn new_inputs() -> Vec<(&'static str, Vec<u8>)> {
    vec![
        ("triangle-new", pack(&moved_up(triangle(30)))),
        ("second-new", pack(&moved_up(second_book(25)))),
        ("second-two", pack(&second_two())),
        ("largest-new", pack(&largest_new())),
        ("long-new-1", filled_to(&pack(&largest_new()), 2101)),
        ("triangle-below", pack(&triangle_below())),
    ]
}

fn rated_inputs() -> Vec<(&'static str, Vec<u8>)> {
    vec![("triangle-two", pack(&ratings::triangle_two())), ("ring-two", pack(&ratings::ring_two()))]
}

/// Refused with 4 or 5, each at another field. In the last two more is wrong after the first: far down in the one, in the same
/// branch in the other.
fn wrong_inputs() -> Vec<(&'static str, Vec<u8>)> {
    let second = second_book(25);
    vec![
        ("bus-large", struck(&triangle(30), &[(2, Field::Size, 1_000_001)])),
        ("minus-zero", struck(&second, &[(1, Field::Sign, 1)])),
        ("equal-ends", struck(&second, &[(2, Field::SecondBus, 1)])),
        ("no-bus-new", struck(&moved_up(second), &[(3, Field::SecondBus, 4)])),
        (
            "kva-far",
            struck(&largest(), &[(200, Field::Kva, 1_000_001), (201, Field::SecondBus, 73), (255, Field::Kva, 1_048_575)]),
        ),
        ("many-new", struck(&second_two(), &[(1, Field::Kva, 1_000_001), (1, Field::SecondKva, 0), (3, Field::FirstBus, 127)])),
    ]
}

/// A branch of 0 kVA joins the ends of two short ones; with it out of service they would island. The spur carries.
fn island_inputs() -> Vec<(&'static str, Vec<u8>)> {
    let ring = islands::ring_zero();
    vec![("ring-zero", pack(&ring)), ("ring-zero-out", pack(&with_out(ring, islands::CLOSES)))]
}

fn old_inputs() -> Vec<(&'static str, Vec<u8>)> {
    vec![
        ("triangle", pack(&triangle(30))),
        ("second", pack(&second_book(25))),
        ("example-b", pack(&with_out(triangle(30), 0))),
        ("example-d", pack(&triangle(20))),
        ("example-e", pack(&triangle(19))),
        ("example-j", pack(&second_book(15))),
        ("example-k", pack(&plain(&[0], &[]))),
        ("tie", pack(&plain(&[5, 0, -5], &[(0, 2, 5), (0, 1, 3), (1, 2, 3)]))),
        ("rounding", pack(&Book { factor: 999, ..plain(&[1000, -1000], &[(0, 1, 1000), (0, 1, 1000), (0, 1, 1)]) })),
        ("largest", pack(&largest())),
        ("source-five", pack(&sources::five_bus())),
        ("source-five-out", pack(&with_out(sources::five_bus(), sources::FIVE_3_5))),
        ("source-five-moved", pack(&sources::five_bus_moved())),
        ("source-seven", pack(&sources::seven_bus())),
        ("source-ten", pack(&sources::ten_bus(&sources::TEN_SPLIT))),
        ("empty", Vec::new()),
        ("long-2", too_long(&[0, 0, 0, 0])),
        ("long-3", too_long(&[0x80, 0x80, 0x7D, 0x01])),
        ("long-1", too_long(&pack(&largest()))),
    ]
}
