//! Each refusal number, its order among the others, and what its row names, in either form of a book.

use second::books::named::{filled_to, largest, largest_new, too_long, triangle};
use second::books::plain::{plain, with_out, with_seconds};
use second::definitions::book::{pack, unpack, with_status, Book};
use second::definitions::form::Form;
use second::definitions::meters::{injections, Registers};
use second::definitions::network::Network;
use second::definitions::outage::allowed;
use second::definitions::percentage::NAMEPLATE;
use second::definitions::place::Refusal;
use second::definitions::switching::Lent;
use second::definitions::{bits, comeback, list, screen, tables};
use second::streams::stored::damaged_books;
use second::streams::stored_forms::damaged_new_books;

/// The bytes of a book in a form, both ratings of every branch equal.
fn in_form(form: Form, book: Book) -> Vec<u8> {
    pack(&Book { form, ..book })
}

#[test]
fn reading_refuses_1_to_7_in_either_form() {
    for form in Form::BOTH {
        let good = in_form(form, triangle(30));
        assert_eq!(unpack(&good).unwrap().form, form);
        reading_refuses_1_to_3(&good, form);
        assert_eq!(unpack(&in_form(form, plain(&[1_000_001, -10, -20], &[(0, 0, 1)]))), Err(Refusal::at(4, 0, 2)));
        assert_eq!(unpack(&bits::with(&in_form(form, plain(&[0, 0], &[(0, 1, 1)])), 32, true)), Err(Refusal::at(4, 0, 2)));
        for (branch, field) in [((0, 3, 40), 2), ((3, 0, 40), 1), ((1, 1, 40), 2), ((0, 1, 1_000_001), 3)] {
            let book = plain(&[31, -10, -20], &[(0, 1, 1), branch]);
            assert_eq!(unpack(&in_form(form, book)), Err(Refusal::at(5, 1, field)));
        }
        assert_eq!(unpack(&bits::with(&in_form(form, plain(&[1], &[])), 55, true)), Err(6.into()));
        assert_eq!(unpack(&in_form(form, plain(&[31, -10, -20], &[(0, 1, 1)]))), Err(7.into()));
        let most = plain(&[1_000_000, -1_000_000], &[(0, 1, 1_000_000)]);
        assert_eq!(unpack(&in_form(form, most)).unwrap().injections[0], 1_000_000);
    }
}

fn reading_refuses_1_to_3(good: &[u8], form: Form) {
    for length in 0..4 {
        assert_eq!(unpack(&good[..length]), Err(1.into()));
    }
    assert_eq!(unpack(&good[..good.len() - 1]), Err(1.into()));
    assert_eq!(unpack(&[good, &[0]].concat()), Err(1.into()));
    let header = |buses: u32, count: u32, factor: u32, fill: u32| (buses << 24 | count << 15 | factor << 5 | fill).to_be_bytes();
    for (buses, count, factor) in
        [(0, 3, 1000), (129, 3, 1000), (255, 3, 1000), (3, 257, 1000), (3, 511, 1000), (3, 3, 0), (3, 3, 1001), (3, 3, 1023)]
    {
        assert_eq!(unpack(&[&header(buses, count, factor, 31)[..], &good[4..]].concat()), Err(2.into()));
    }
    for place in 28..32 {
        assert_eq!(unpack(&bits::with(good, place, true)), Err(3.into()));
        assert_eq!(unpack(&bits::with(&good[..9], place, true)), Err(3.into()));
    }
    // The layout bit is no fill bit: turned, it asks for the length of the other form.
    let mut turned = good.to_vec();
    turned[3] ^= 16;
    assert_eq!(unpack(&turned), Err(1.into()));
    turned.resize(form.other().length(3, 3), 0);
    assert_ne!(unpack(&turned), Err(1.into()));
}

#[test]
fn reading_refuses_a_second_kva_below_the_first_or_too_large() {
    let read = |kva: u32, second: u32| {
        let book = with_seconds(plain(&[5, -4], &[(0, 1, 9), (0, 1, kva), (1, 0, 7)]), &[(1, second)]);
        unpack(&pack(&book)).unwrap_err().number
    };
    // The sum is wrong besides, so that 7 says that no branch is.
    for (kva, second, due) in [(40, 39, 5), (40, 0, 5), (40, 40, 7), (40, 41, 7), (0, 0, 7), (0, 1_000_000, 7)] {
        assert_eq!(read(kva, second), due, "{kva} {second}");
    }
    for (kva, second, due) in [(40, 1_000_001, 5), (40, 1_048_575, 5), (1_000_000, 1_000_000, 7), (1_000_001, 1_000_001, 5)] {
        assert_eq!(read(kva, second), due, "{kva} {second}");
    }
}

#[test]
fn writing_refuses_in_its_own_order_in_either_form() {
    for form in Form::BOTH {
        let book = Book { form, ..triangle(30) };
        let (row, bytes) = (form.numbers(), pack(&book));
        let numbers = tables::numbers(&book);
        let write = |(buses, count, factor), injections: &[i64], numbers: &[u32], room| {
            tables::write(form, buses, count, factor, injections, numbers, room)
        };
        for counts in [(0, 3, 1000), (129, 3, 1000), (3, 257, 1000), (3, 3, 0), (3, 3, 1001)] {
            assert_eq!(write(counts, &[], &[], 0), Err(2.into()));
        }
        let counts = (3, 3, 1000);
        assert_eq!(write(counts, &[7_777_777; 2], &numbers, 0), Err(8.into()));
        assert_eq!(write(counts, &[7_777_777; 3], &numbers[..3 * row - 1], 0), Err(8.into()));
        assert_eq!(write(counts, &[0, 0, i32::MIN as i64], &[9; 15], 0), Err(Refusal::at(4, 2, 2)));
        let mut status = numbers.clone();
        status[row - 1] = 2;
        assert_eq!(write(counts, &[1, 0, 0], &status, 0), Err(Refusal::at(5, 0, row)));
        assert_eq!(write(counts, &[1, 0, 0], &numbers, 0), Err(7.into()));
        assert_eq!(write(counts, &book.injections, &numbers, bytes.len() - 1), Err(8.into()));
        assert_eq!(write(counts, &book.injections, &numbers, bytes.len()), Ok(bytes));
    }
}

#[test]
fn writing_refuses_a_second_kva_below_the_first_or_too_large() {
    let write = |second: u32| tables::write(Form::New, 2, 1, 1000, &[1, 0], &[0, 1, 40, second, 1], 0);
    for (second, due) in [(39, 5), (0, 5), (40, 7), (41, 7), (1_000_000, 7), (1_000_001, 5), (u32::MAX, 5)] {
        assert_eq!(write(second).unwrap_err().number, due, "{second}");
    }
}

#[test]
fn reading_into_tables_asks_for_four_or_five_numbers_a_branch() {
    for (form, numbers) in [(Form::Old, 12), (Form::New, 15)] {
        let bytes = in_form(form, triangle(30));
        assert_eq!(tables::read(&bytes, 3, numbers).map(|book| tables::numbers(&book).len()), Ok(numbers));
        assert_eq!(tables::read(&bytes, 3, numbers - 1), Err(8.into()));
        assert_eq!(tables::read(&bytes, 2, numbers), Err(8.into()));
        assert_eq!(tables::read(&in_form(form, plain(&[1], &[])), 0, 0), Err(7.into()));
    }
}

#[test]
fn the_screen_refuses_8_and_12_after_reading() {
    for form in Form::BOTH {
        let bytes = in_form(form, triangle(30));
        assert_eq!(screen::screened(NAMEPLATE, &bytes, 2, 156).unwrap_err().number, 8);
        assert_eq!(screen::screened(NAMEPLATE, &bytes, 3, 155).unwrap_err().number, 8);
        assert!(screen::screened(NAMEPLATE, &bytes, 3, 156).is_ok());
        let heavy = in_form(form, plain(&[50, -50], &[(0, 1, 20)]));
        assert_eq!(screen::screened(NAMEPLATE, &heavy, 0, 52).unwrap_err().number, 8);
        let answer = screen::screened(NAMEPLATE, &heavy, 1, 52).unwrap_err();
        assert_eq!((answer.number, answer.shortage, answer.group), (12, 30, 1));
    }
}

#[test]
fn an_outage_refuses_8_to_12_in_order() {
    for form in Form::BOTH {
        let bytes = in_form(form, with_out(triangle(30), 0));
        let number = |flow: &[i64], room: usize, branch: usize| {
            let table = vec![0; room];
            allowed(&Lent { percentage: NAMEPLATE, book: &bytes, flow, table: &table }, branch)
                .err()
                .map_or(0, |answer| answer.number)
        };
        assert_eq!(number(&[9; 2], 156, 3), 8);
        assert_eq!(number(&[9; 3], 155, 3), 8);
        assert_eq!(number(&[9; 3], 156, 3), 9);
        assert_eq!(number(&[9; 3], 156, 65535), 9);
        assert_eq!(number(&[9; 3], 156, 0), 10);
        assert_eq!(number(&[9; 3], 156, 1), 11);
        assert_eq!(number(&[0, 30, -9], 156, 1), 11);
        assert_eq!(number(&[1, 30, -10], 156, 1), 11);
        assert_eq!(number(&[0, 30, -10], 156, 1), 12);
        let spare = in_form(form, plain(&[0, 0], &[(0, 1, 5)]));
        assert!(allowed(&Lent { percentage: NAMEPLATE, book: &spare, flow: &[0], table: &[0; 52] }, 0).is_ok());
        let heavy = in_form(form, plain(&[50, -50], &[(0, 1, 20)]));
        assert_eq!(
            allowed(&Lent { percentage: NAMEPLATE, book: &heavy, flow: &[50], table: &[0; 52] }, 0).unwrap_err().number,
            11
        );
    }
}

/// The number that a return is answered with; 0 where it is accepted.
fn returned(book: &[u8], flow: &[i64], room: usize, branch: usize) -> u8 {
    let table = vec![0; room];
    let allowed = comeback::allowed(&Lent { percentage: NAMEPLATE, book, flow, table: &table }, branch);
    allowed.err().map_or(0, |answer| {
        assert_eq!((answer.shortage, answer.group), (0, 0));
        answer.number
    })
}

#[test]
fn a_return_refuses_1_to_7_first_and_as_reading_does() {
    for books in [damaged_books(), damaged_new_books()] {
        let due: Vec<u8> = books.iter().map(|book| unpack(book).unwrap_err().number).collect();
        let given: Vec<u8> = books.iter().map(|book| returned(book, &[], 0, 65_535)).collect();
        assert_eq!(given, due);
        assert!((1..=7).all(|number| given.contains(&number)));
    }
}

#[test]
fn a_return_refuses_8_9_17_and_11_in_order() {
    for form in Form::BOTH {
        returns_refuse_in_order(&in_form(form, with_out(triangle(30), 0)));
    }
}

fn returns_refuse_in_order(bytes: &[u8]) {
    assert_eq!(returned(bytes, &[9; 2], 156, 3), 8);
    assert_eq!(returned(bytes, &[9; 3], 155, 3), 8);
    assert_eq!(returned(bytes, &[9; 3], 156, 3), 9);
    assert_eq!(returned(bytes, &[9; 3], 156, 65_535), 9);
    assert_eq!(returned(bytes, &[9; 3], 156, 1), 17);
    assert_eq!(returned(bytes, &[0, 30, -10], 156, 2), 17);
    assert_eq!(returned(bytes, &[9; 3], 156, 0), 11);
    assert_eq!(returned(bytes, &[0, 30, -9], 156, 0), 11);
    assert_eq!(returned(bytes, &[0, 30, -10], 156, 0), 0);
    assert_eq!(returned(bytes, &[0, 30, -10, 7], 200, 0), 0);
}

#[test]
fn a_return_needs_a_flow_that_fits_before_it() {
    // This flow would fit with branch 0 in service, and does not as long as it is out.
    let bytes = pack(&with_out(triangle(30), 0));
    assert!(Network::of(&triangle(30), NAMEPLATE).fits(&[10, 20, 0]));
    assert_eq!(returned(&bytes, &[10, 20, 0], 156, 0), 11);
    // A book with an excess has no fitting flow, so 12 never comes up; a branch out is no 10.
    let heavy = pack(&with_out(plain(&[50, -50], &[(0, 1, 20), (0, 1, 40)]), 1));
    assert_eq!(returned(&heavy, &[20, 0], 104, 1), 11);
    assert_eq!(returned(&heavy, &[20, 30], 104, 1), 11);
    assert_eq!(returned(&heavy, &[20, 30], 104, 0), 17);
}

#[test]
fn registers_refuse_13_to_16() {
    let number = |lengths: [usize; 4], supply: usize, room: usize, ends: u32| {
        let zeros = [0; 200];
        let full = [ends; 200];
        let registers = Registers {
            import_start: &zeros[..lengths[0]],
            import_end: &zeros[..lengths[1]],
            export_start: &zeros[..lengths[2]],
            export_end: &full[..lengths[3]],
        };
        injections(&registers, supply, room).err().unwrap_or(0)
    };
    for lengths in [[3, 2, 2, 2], [2, 3, 2, 2], [2, 2, 3, 2], [2, 2, 2, 3], [0, 0, 0, 0], [129, 129, 129, 129]] {
        assert_eq!(number(lengths, 999, 128, u32::MAX), 13);
    }
    assert_eq!(number([2; 4], 999, 1, u32::MAX), 13);
    assert_eq!(number([2; 4], 2, 2, u32::MAX), 14);
    assert_eq!(number([2; 4], 1, 2, 1_000_001), 15);
    assert_eq!(number([3; 4], 1, 3, 500_001), 16);
    assert_eq!(number([3; 4], 1, 3, 500_000), 0);
    assert_eq!(number([1; 4], 0, 1, u32::MAX), 0);
    assert_eq!(number([128; 4], 0, 128, 7_874), 0);
}

#[test]
fn long_inputs_are_refused_as_their_bytes_require() {
    let long = |start: &[u8]| list::list(&too_long(start));
    assert_eq!(long(&[0, 0, 0, 0]), "refused 2\n");
    assert_eq!(long(&[0x80, 0x80, 0x7D, 0x01]), "refused 3\n");
    assert_eq!(long(&[0x80, 0x80, 0x7D, 0x00]), "refused 1\n");
    assert_eq!(list::list(&[]), "refused 1\n");
    for (start, due) in [([0x80, 0x80, 0x7D, 0x10], 1), ([0x80, 0x80, 0x7D, 0x18], 3), ([0x81, 0x80, 0x7D, 0x10], 2)] {
        assert_eq!(list::list(&filled_to(&start, 2101)), format!("refused {due}\n"));
        assert_eq!(list::list(&filled_to(&start, 100_000)), format!("refused {due}\n"));
    }
}

#[test]
fn an_outage_clears_one_bit_and_a_return_sets_it() {
    for book in [largest(), largest_new()] {
        let bytes = pack(&book);
        let (start, bits_each) = (32 + 21 * 128, if book.form == Form::Old { 35 } else { 55 });
        for branch in [0, 1, 100, 255] {
            let changed = with_status(&bytes, branch, false);
            assert_eq!(changed, pack(&with_out(book.clone(), branch)));
            let differing = (0..8 * bytes.len()).filter(|&place| bits::bit(&bytes, place) != bits::bit(&changed, place));
            assert_eq!(differing.collect::<Vec<_>>(), [start + bits_each * (branch + 1) - 1]);
            assert_eq!(with_status(&changed, branch, true), bytes);
        }
    }
}
