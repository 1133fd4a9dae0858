//! Where a book is wrong (document 02, W6): places worked out by hand, in either form and for every call; and another reading of
//! the bits and of the tables.

use second::books::named::triangle;
use second::books::plain::{moved_up, plain, struck, Change};
use second::books::random::Random;
use second::definitions::answer::Answer;
use second::definitions::book::{pack, pack_items, unpack, Book};
use second::definitions::fields::Field;
use second::definitions::form::Form;
use second::definitions::percentage::NAMEPLATE;
use second::definitions::place::{Place, Refusal};
use second::definitions::switching::Lent;
use second::definitions::{comeback, list, moves, outage, screen, tables};
use second::streams::aim::{self, Held};
use second::streams::stored_places::{damaged_books, damaged_tables, target};

/// The bytes with a number put at a place, so many bits wide.
fn put(bytes: &[u8], at: usize, width: usize, value: usize) -> Vec<u8> {
    let mut text: String = bytes.iter().map(|byte| format!("{byte:08b}")).collect();
    text.replace_range(at..at + width, &format!("{value:0width$b}"));
    let byte = |place: usize| u8::from_str_radix(&text[place..place + 8], 2).unwrap();
    (0..text.len()).step_by(8).map(byte).collect()
}

/// Numbers put into a packed book: the place of the first bit, the width, the value.
fn listed(form: Form, changes: &[(usize, usize, usize)]) -> String {
    let book = pack(&Book { form, ..triangle(30) });
    list::list(&changes.iter().fold(book, |bytes, &(at, width, value)| put(&bytes, at, width, value)))
}

#[test]
fn buses_of_the_triangle_are_named_by_hand() {
    // Bus k has its sign at 32 + 21k and its size after it. Bus 0 has 30 kW, the others are negative.
    for form in Form::BOTH {
        assert_eq!(listed(form, &[(33, 20, 1_000_001)]), "refused 4 0 2\n");
        assert_eq!(listed(form, &[(54, 20, 1_048_575)]), "refused 4 1 2\n");
        assert_eq!(listed(form, &[(75, 20, 1_000_001)]), "refused 4 2 2\n");
        assert_eq!(listed(form, &[(75, 20, 0)]), "refused 4 2 2\n");
        assert_eq!(listed(form, &[(54, 20, 0), (75, 20, 1_000_001)]), "refused 4 1 2\n");
        assert_eq!(listed(form, &[(33, 20, 0), (32, 1, 1), (54, 20, 0), (75, 20, 0)]), "refused 4 0 2\n");
        // Every bus comes before any branch, whose first field stands at 95.
        assert_eq!(listed(form, &[(75, 20, 0), (95, 7, 127)]), "refused 4 2 2\n");
        // A sign alone is never at fault; nor is zero, or a size of 1,000,000.
        assert_eq!(listed(form, &[(32, 1, 1)]), "refused 7\n");
        assert_eq!(listed(form, &[(33, 20, 0)]), "refused 7\n");
        assert_eq!(listed(form, &[(33, 20, 1_000_000)]), "refused 7\n");
    }
}

#[test]
fn branches_of_the_triangle_are_named_by_hand() {
    // They start at 95 and are 35 bits long, or 55: 0-1 of 40, 0-2 of 40, 1-2 of 30.
    for (form, length) in [(Form::Old, 35), (Form::New, 55)] {
        let at = |branch: usize, bit: usize| 95 + length * branch + bit;
        assert_eq!(listed(form, &[(at(1, 0), 7, 3)]), "refused 5 1 1\n");
        assert_eq!(listed(form, &[(at(2, 7), 7, 127)]), "refused 5 2 2\n");
        assert_eq!(listed(form, &[(at(1, 7), 7, 0)]), "refused 5 1 2\n");
        assert_eq!(listed(form, &[(at(2, 0), 7, 2)]), "refused 5 2 2\n");
        assert_eq!(listed(form, &[(at(2, 14), 20, 1_000_001)]), "refused 5 2 3\n");
        // The first item, and in it the first field.
        assert_eq!(listed(form, &[(at(2, 0), 7, 3), (at(1, 14), 20, 1_048_575)]), "refused 5 1 3\n");
        assert_eq!(listed(form, &[(at(0, 14), 20, 1_048_575), (at(0, 7), 7, 0)]), "refused 5 0 2\n");
        assert_eq!(listed(form, &[(at(1, 0), 7, 127), (at(1, 7), 7, 127)]), "refused 5 1 1\n");
        // The status is one bit and never at fault. A tail bit comes after every branch.
        assert_ne!(&listed(form, &[(at(1, length - 1), 1, 0)])[..7], "refused");
    }
    assert_eq!(listed(Form::New, &[(95 + 165, 4, 1)]), "refused 6\n");
    assert_eq!(listed(Form::New, &[(95 + 165, 4, 1), (95 + 110, 7, 3)]), "refused 5 2 1\n");
}

#[test]
fn second_figures_are_the_fourth_field() {
    let at = |branch: usize, bit: usize| 95 + 55 * branch + bit;
    assert_eq!(listed(Form::New, &[(at(0, 34), 20, 39)]), "refused 5 0 4\n");
    assert_eq!(listed(Form::New, &[(at(2, 34), 20, 0)]), "refused 5 2 4\n");
    assert_eq!(listed(Form::New, &[(at(1, 34), 20, 1_000_001)]), "refused 5 1 4\n");
    // Raising the first figure above the second is the second's fault, as long as the first is right.
    assert_eq!(listed(Form::New, &[(at(1, 14), 20, 41)]), "refused 5 1 4\n");
    assert_eq!(listed(Form::New, &[(at(1, 14), 20, 1_000_001)]), "refused 5 1 3\n");
    assert_eq!(listed(Form::New, &[(at(1, 14), 20, 1_000_001), (at(1, 34), 20, 1_000_001)]), "refused 5 1 3\n");
    assert_eq!(listed(Form::New, &[(at(1, 34), 20, 39), (at(1, 7), 7, 0)]), "refused 5 1 2\n");
    assert_eq!(listed(Form::New, &[(at(2, 0), 7, 3), (at(1, 34), 20, 39)]), "refused 5 1 4\n");
}

#[test]
fn the_writer_names_injections_and_numbers() {
    let good = [0, 1, 40, 1, 0, 2, 40, 1, 1, 2, 30, 1];
    let write =
        |injections: [i64; 3], numbers: &[u32]| tables::write(Form::Old, 3, 3, 1000, &injections, numbers, 0).unwrap_err();
    let with = |place: usize, value: u32| {
        let mut numbers = good;
        numbers[place] = value;
        write([30, -10, -20], &numbers)
    };
    for injections in [[0, 1_000_001, -1_000_001], [0, i32::MIN as i64, 0], [0, i32::MAX as i64, 9_999_999]] {
        assert_eq!(write(injections, &[9; 12]), Refusal::at(4, 1, 2));
    }
    for (place, value, item, field) in [(0, 3, 0, 1), (5, u32::MAX, 1, 2), (9, 1, 2, 2), (10, 1_000_001, 2, 3), (7, 2, 1, 4)] {
        assert_eq!(with(place, value), Refusal::at(5, item, field));
    }
    assert_eq!(with(11, u32::MAX), Refusal::at(5, 2, 4));
    assert_eq!(with(11, 0), 8.into());
    let new = |row: [u32; 5]| tables::write(Form::New, 3, 1, 1000, &[30, -10, -20], &row, 0).unwrap_err();
    assert_eq!(new([0, 1, 40, 39, 2]), Refusal::at(5, 0, 4));
    assert_eq!(new([0, 1, 40, u32::MAX, 2]), Refusal::at(5, 0, 4));
    assert_eq!(new([0, 1, 40, 40, 2]), Refusal::at(5, 0, 5));
    assert_eq!(new([0, 0, 40, 40, 2]), Refusal::at(5, 0, 2));
    assert_eq!(new([0, 1, 40, 40, 1]), 8.into());
}

/// What each call answers to a book: the reader, the move to either form, the screen, the outage and the return.
fn answers(book: &[u8]) -> Vec<Answer> {
    let lent = Lent { percentage: NAMEPLATE, book, flow: &[], table: &[] };
    let mut answers = vec![Answer::from(tables::read(book, 0, 0).unwrap_err())];
    answers.extend(Form::BOTH.map(|form| Answer::from(moves::moved(book, form, 0).unwrap_err())));
    answers.push(screen::screened(NAMEPLATE, book, 0, 0).unwrap_err());
    answers.extend([outage::allowed(&lent, 999).unwrap_err(), comeback::allowed(&lent, 999).unwrap_err()]);
    answers
}

#[test]
fn every_call_passes_the_place_on() {
    for form in Form::BOTH {
        for (changes, [item, field]) in damaged_books(form) {
            let book = struck(&target(form), changes);
            let number = if changes[0].1.of_bus() { 4 } else { 5 };
            let due = Answer { number, shortage: 0, group: 0, place: Some(Place { item, field }) };
            assert_eq!(answers(&book), [due; 6]);
            assert_eq!(due.to_string(), format!("{number} 0 0 {item} {field}"));
            assert_eq!(list::list(&book), format!("refused {number} {item} {field}\n"));
        }
        for (changes, [item, field]) in damaged_tables(form) {
            let mut items = target(form).items();
            changes.iter().for_each(|&(item, field, value): &Change| *items.field_mut(item, field) = value);
            let number = if changes[0].1.of_bus() { 4 } else { 5 };
            let written = tables::write(form, 4, 5, 1000, &items.injections(), &items.branches.concat(), 0);
            assert_eq!(written, Err(Refusal::at(number, item, field)));
        }
    }
}

/// Every offence of a book that is as long as its counts say, found in a text of zeros and ones: number, item and field.
fn offences(bytes: &[u8]) -> Vec<(u8, usize, usize)> {
    let text: String = bytes.iter().map(|byte| format!("{byte:08b}")).collect();
    let number = |at: usize, width: usize| usize::from_str_radix(&text[at..at + width], 2).unwrap();
    let (buses, count, new) = (number(0, 8), number(8, 9), number(27, 1) == 1);
    let mut found = Vec::new();
    for branch in 0..count {
        let at = 32 + 21 * buses + branch * if new { 55 } else { 35 };
        let (first, second, kva) = (number(at, 7), number(at + 7, 7), number(at + 14, 20));
        let second_kva = if new { number(at + 34, 20) } else { kva };
        let wrong = [first >= buses, second >= buses || second == first, kva > 1_000_000];
        found.extend((0..3).filter(|&field| wrong[field]).map(|field| (5, branch, field + 1)));
        found.extend((new && (second_kva < kva || second_kva > 1_000_000)).then_some((5, branch, 4)));
    }
    for bus in 0..buses {
        let (sign, size) = (number(32 + 21 * bus, 1), number(33 + 21 * bus, 20));
        found.extend((size > 1_000_000 || (sign, size) == (1, 0)).then_some((4, bus, 2)));
    }
    found
}

#[test]
fn another_reading_of_the_bits_finds_the_same_place() {
    let mut random = Random(61);
    let (mut placed, mut right, mut several) = (0, 0, 0);
    for _ in 0..4000 {
        let form = *random.pick(&Form::BOTH);
        let book = aim::target(&mut random, form, 128);
        let mut items = book.items();
        let wrong = *random.pick(&Held::Book.possible(form));
        if !random.once_in(8) {
            aim::damage(&mut random, &mut items, Held::Book, wrong);
        }
        let mut bytes = pack_items(&items, book.factor);
        for _ in 0..random.below(3) {
            let place = 32 + random.below(8 * bytes.len() - 32);
            bytes[place / 8] ^= 1 << (7 - place % 8);
        }
        let mut offences = offences(&bytes);
        offences.sort();
        match (offences.first(), unpack(&bytes)) {
            (Some(&(number, item, field)), read) => assert_eq!(read, Err(Refusal::at(number, item, field))),
            (None, Ok(_)) => right += 1,
            (None, Err(refusal)) => assert!([6, 7].contains(&refusal.number) && refusal.place.is_none()),
        }
        placed += !offences.is_empty() as usize;
        several += (offences.len() > 1) as usize;
    }
    assert!(placed > 3000 && right > 100 && several > 1000, "{placed} {right} {several}");
}

/// The first offence of tables, looked for from the last number to the first.
fn first_in_tables(form: Form, injections: &[i64], numbers: &[u32]) -> Option<(u8, usize, usize)> {
    let (buses, row) = (injections.len() as u32, if form == Form::New { 5 } else { 4 });
    let mut first = None;
    for place in (0..numbers.len()).rev() {
        let (value, before) = (numbers[place], numbers[place.saturating_sub(1)]);
        let (item, field) = (place / row, place % row + 1);
        let wrong = match (field, row) {
            (1, _) => value >= buses,
            (2, _) => value >= buses || value == before,
            (3, _) => value > 1_000_000,
            (4, 5) => value > 1_000_000 || value < before,
            _ => value > 1,
        };
        first = if wrong { Some((5, item, field)) } else { first };
    }
    let bus = injections.iter().position(|kw| !(-1_000_000..=1_000_000).contains(kw));
    bus.map_or(first, |bus| Some((4, bus, 2)))
}

#[test]
fn another_look_at_the_tables_finds_the_same_place() {
    let mut random = Random(62);
    let (mut placed, mut right) = (0, 0);
    for _ in 0..4000 {
        let form = *random.pick(&Form::BOTH);
        let book = aim::target(&mut random, form, 128);
        let mut items = book.items();
        let wrong = *random.pick(&Held::Tables.possible(form));
        if !random.once_in(8) {
            aim::damage(&mut random, &mut items, Held::Tables, wrong);
        }
        let (injections, numbers) = (items.injections(), items.branches.concat());
        let written = tables::write(form, injections.len(), items.branches.len(), book.factor, &injections, &numbers, 2_100);
        match first_in_tables(form, &injections, &numbers) {
            Some((number, item, field)) => assert_eq!(written, Err(Refusal::at(number, item, field))),
            None => assert!(written.is_ok()),
        }
        (placed, right) = (placed + written.is_err() as usize, right + written.is_ok() as usize);
    }
    assert!(placed > 3000 && right > 300, "{placed} {right}");
}

#[test]
fn a_bus_number_of_seven_bits_is_never_too_large_for_128_buses() {
    let book = plain(&[0; 128], &[(0, 1, 5), (2, 3, 5)]);
    for book in [book.clone(), moved_up(book)] {
        assert!(unpack(&struck(&book, &[(1, Field::FirstBus, 127), (0, Field::SecondBus, 127)])).is_ok());
        assert_eq!(unpack(&struck(&book, &[(1, Field::FirstBus, 3)])), Err(Refusal::at(5, 1, 2)));
    }
}
