//! The two forms of a book (document 02, W3): bytes worked out by hand, another reading of the bits, moves and round trips.

use second::books::named::{largest_new, triangle};
use second::books::plain::{moved_up, plain, with_out, with_seconds};
use second::books::random::Random;
use second::books::random_books::{counts, strained};
use second::definitions::book::{pack, unpack, Book};
use second::definitions::form::Form;
use second::definitions::moves::moved;
use second::definitions::{bits, list, tables};
use second::streams::stored::damaged_books;
use second::streams::stored_forms::damaged_new_books;

/// Document 01's triangle.
const TRIANGLE: &str = "03 01 FD 00 00 00 F4 00 02 A0 00 28 00 08 00 14 40 02 00 02 88 10 40 00 3D";

/// The same moved up, worked out by hand. The header's layout bit makes its last byte 10; the 63 bits of the buses stay; then
/// come 0000000 0000001, 40 and 40 in 20 bits each, 1; 0000000 0000010, 40, 40, 1; 0000001 0000010, 30, 30, 1; 0000.
const TRIANGLE_NEW: &str = "03 01 FD 10 00 00 F4 00 02 A0 00 28 00 08 00 14 00 01 44 00 20 00 28 00 02 88 10 40 00 3C 00 03 D0";

fn bytes(hex: &str) -> Vec<u8> {
    hex.split(' ').map(|byte| u8::from_str_radix(byte, 16).unwrap()).collect()
}

#[test]
fn the_triangle_moved_up_has_the_bytes_worked_out_by_hand() {
    let (old, new) = (bytes(TRIANGLE), bytes(TRIANGLE_NEW));
    assert_eq!(moved(&old, Form::New, 33).as_ref(), Ok(&new));
    assert_eq!(moved(&new, Form::Old, 25).as_ref(), Ok(&old));
    assert_eq!(unpack(&new), Ok(moved_up(triangle(30))));
    assert_eq!(tables::numbers(&unpack(&new).unwrap()), [0, 1, 40, 40, 1, 0, 2, 40, 40, 1, 1, 2, 30, 30, 1]);
    assert_eq!(tables::numbers(&unpack(&old).unwrap()), [0, 1, 40, 1, 0, 2, 40, 1, 1, 2, 30, 1]);
    assert_eq!(
        tables::write(Form::New, 3, 3, 1000, &[30, -10, -20], &[0, 1, 40, 40, 1, 0, 2, 40, 40, 1, 1, 2, 30, 30, 1], 33),
        Ok(new)
    );
}

#[test]
fn the_largest_new_book_has_2100_bytes() {
    assert_eq!(Form::New.length(128, 256), 2100);
    assert_eq!(pack(&largest_new()).len(), 2100);
    assert!(list::list(&pack(&largest_new())).starts_with("128 256\n"));
    let one = plain(&[0], &[]);
    assert_eq!((pack(&one).len(), pack(&moved_up(one)).len()), (7, 7));
}

/// What a good book's bits say, read from a text of zeros and ones.
#[derive(Debug, PartialEq)]
struct Said {
    new: bool,
    factor: usize,
    injections: Vec<i64>,
    /// First bus, second bus, kVA, second kVA where there is one, status.
    branches: Vec<Vec<u32>>,
}

fn said(bytes: &[u8]) -> Said {
    let text: String = bytes.iter().map(|byte| format!("{byte:08b}")).collect();
    let mut rest = &text[..];
    let mut take = |width: usize| {
        let (field, after) = rest.split_at(width);
        rest = after;
        usize::from_str_radix(field, 2).unwrap()
    };
    let (buses, count, factor, new) = (take(8), take(9), take(10), take(1) == 1);
    assert_eq!(take(4), 0);
    let bus = |take: &mut dyn FnMut(usize) -> usize| (if take(1) == 1 { -1 } else { 1 }) * take(20) as i64;
    let injections = (0..buses).map(|_| bus(&mut take)).collect();
    let widths = if new { vec![7, 7, 20, 20, 1] } else { vec![7, 7, 20, 1] };
    let branches = (0..count).map(|_| widths.iter().map(|&width| take(width) as u32).collect()).collect();
    assert!(rest.len() < 8 && !rest.contains('1'));
    Said { new, factor, injections, branches }
}

#[test]
fn another_reading_of_the_bits_says_the_same() {
    let mut random = Random(21);
    for _ in 0..1500 {
        let (buses, count) = counts(&mut random);
        let book = strained(&mut random, buses, count);
        let said = said(&pack(&book));
        assert_eq!((said.new, said.factor as u32), (book.form == Form::New, book.factor));
        assert_eq!(said.injections, book.injections);
        assert_eq!(said.branches.concat(), tables::numbers(&book));
    }
}

#[test]
fn a_moved_book_says_the_same_and_comes_back() {
    let mut random = Random(22);
    let (mut up, mut down, mut never) = (0, 0, 0);
    for _ in 0..3000 {
        let (buses, count) = counts(&mut random);
        let lent = pack(&strained(&mut random, buses, count));
        let from = said(&lent);
        let own = if from.new { Form::New } else { Form::Old };
        assert_eq!(moved(&lent, own, lent.len()).as_ref(), Ok(&lent));
        let equal = !from.new || from.branches.iter().all(|row| row[2] == row[3]);
        let Ok(bytes) = moved(&lent, own.other(), 2100) else {
            assert!(!equal);
            never += 1;
            continue;
        };
        let to = said(&bytes);
        assert!(equal && to.new != from.new);
        assert_eq!((to.factor, &to.injections), (from.factor, &from.injections));
        let (old, new) = if from.new { (to, from) } else { (from, to) };
        for (old, new) in old.branches.iter().zip(&new.branches) {
            assert_eq!(*new, [old[0], old[1], old[2], old[2], old[3]]);
        }
        assert_eq!(moved(&bytes, own, lent.len()), Ok(lent));
        (up, down) = (up + (own == Form::Old) as usize, down + (own == Form::New) as usize);
    }
    assert!(up > 1300 && down > 400 && never > 600, "{up} {down} {never}");
}

#[test]
fn random_new_books_differ_in_every_way() {
    let mut random = Random(23);
    let (mut equal, mut last_alone, mut one_alone, mut one_more, mut largest) = (0, 0, 0, 0, 0);
    for _ in 0..2000 {
        let book = strained(&mut random, 20, 40);
        if book.form == Form::Old {
            assert!(!book.ratings_differ());
            continue;
        }
        let differing: Vec<usize> = (0..40).filter(|&k| book.branches[k].kva != book.branches[k].second_kva).collect();
        equal += differing.is_empty() as usize;
        last_alone += (differing == [39]) as usize;
        one_alone += (differing.len() == 1 && differing[0] < 39) as usize;
        one_more += differing.iter().any(|&k| book.branches[k].second_kva == book.branches[k].kva + 1) as usize;
        largest += differing.iter().any(|&k| book.branches[k].second_kva == 1_000_000) as usize;
    }
    for number in [equal, last_alone, one_alone, one_more, largest] {
        assert!(number > 80, "{equal} {last_alone} {one_alone} {one_more} {largest}");
    }
}

#[test]
fn moving_refuses_1_to_7_first_and_as_reading_does() {
    for book in damaged_books().iter().chain(&damaged_new_books()) {
        for form in Form::BOTH {
            assert_eq!(moved(book, form, 0), Err(unpack(book).unwrap_err()));
        }
    }
    let given: Vec<u8> = damaged_new_books().iter().map(|book| unpack(book).unwrap_err().number).collect();
    assert_eq!(given, [1, 1, 1, 1, 1, 1, 2, 2, 3, 3, 4, 4, 5, 5, 5, 5, 5, 6, 7]);
    // Ratings that differ come after the sum and the tail.
    let mut book = with_seconds(triangle(30), &[(0, 41)]);
    let tail = bits::with(&pack(&book), 263, true);
    assert_eq!(moved(&tail, Form::Old, 0), Err(6.into()));
    book.injections[0] = 31;
    assert_eq!(moved(&pack(&book), Form::Old, 0), Err(7.into()));
}

#[test]
fn moving_refuses_18_before_8() {
    let differing = pack(&with_seconds(triangle(30), &[(2, 31)]));
    let out = pack(&with_out(with_seconds(triangle(30), &[(0, 41)]), 0));
    for book in [&differing, &out] {
        for room in [0, 24, 25, 2100] {
            assert_eq!(moved(book, Form::Old, room), Err(18.into()));
        }
        assert_eq!(moved(book, Form::New, 32), Err(8.into()));
        assert_eq!(moved(book, Form::New, 33).as_ref(), Ok(book));
    }
    for from in Form::BOTH {
        for (to, length) in [(Form::Old, 25), (Form::New, 33)] {
            let bytes = pack(&Book { form: from, ..triangle(30) });
            assert_eq!(moved(&bytes, to, length - 1), Err(8.into()));
            assert_eq!(moved(&bytes, to, length), Ok(pack(&Book { form: to, ..triangle(30) })));
        }
    }
}
