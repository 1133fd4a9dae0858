//! A book typed as text becomes its packed book and comes back, by the commands `book` and `text`; a wrong line is named.

use second::books::text;
use std::fs;
use std::path::{Path, PathBuf};
use std::process::{Command, Output};

const TRIANGLE: &str = "factor 1000\nbus 30\nbus -10\nbus -20\nbranch 0 1 40 in\nbranch 0 2 40 in\nbranch 1 2 30 in\n";
const TRIANGLE_BYTES: &str = "03 01 FD 00 00 00 F4 00 02 A0 00 28 00 08 00 14 40 02 00 02 88 10 40 00 3D";

fn run(words: &[&Path]) -> Output {
    Command::new(env!("CARGO_BIN_EXE_second")).args(words).output().unwrap()
}

/// A place of its own for a file that a test makes.
fn made(name: &str) -> PathBuf {
    Path::new(env!("CARGO_TARGET_TMPDIR")).join(name)
}

fn stored(name: &str) -> PathBuf {
    Path::new(env!("CARGO_MANIFEST_DIR")).join("books").join(name)
}

#[test]
fn the_triangle_goes_both_ways() {
    let (words, book) = (made("triangle.txt"), made("triangle.book"));
    fs::write(&words, TRIANGLE).unwrap();
    assert!(run(&["book".as_ref(), &words, &book]).status.success());
    let hex: Vec<String> = fs::read(&book).unwrap().iter().map(|byte| format!("{byte:02X}")).collect();
    assert_eq!(hex.join(" "), TRIANGLE_BYTES);
    let back = run(&["text".as_ref(), &book]);
    assert!(back.status.success());
    assert_eq!(String::from_utf8(back.stdout).unwrap(), TRIANGLE);
}

#[test]
fn the_second_book_is_packed_to_its_stored_bytes() {
    let book = made("second.book");
    assert!(run(&["book".as_ref(), &stored("second.txt"), &book]).status.success());
    assert_eq!(fs::read(&book).unwrap(), fs::read(stored("second.book")).unwrap());
    let back = run(&["text".as_ref(), &stored("second.book")]);
    assert_eq!(back.stdout, fs::read(stored("second.txt")).unwrap());
}

#[test]
fn remarks_and_empty_lines_are_passed_over() {
    let remarked = format!("# a remark\n\n{}", TRIANGLE.replace("bus 30", "  bus 30 # the supply"));
    assert_eq!(text::parse(&remarked), text::parse(TRIANGLE));
}

#[test]
fn what_is_wrong_is_said_with_its_line() {
    let line = "it is none of 'factor F', 'form new', 'bus KW', 'branch FIRST SECOND KVA in|out'";
    for (from, to, due) in [
        ("factor 1000", "factor 1001", "Line 1: '1001' is not a power factor from 1 to 1000."),
        ("factor 1000", "1000", &format!("Line 1: {line}.")),
        ("bus 30", "bus thirty", "Line 2: 'thirty' is not an injection in kW from -1000000 to 1000000."),
        (
            "bus 30",
            "bus 9223372036854775808",
            "Line 2: '9223372036854775808' is not an injection in kW from -1000000 to 1000000.",
        ),
        ("bus 30", "bus 31", "The injections of the buses sum to 1 kW, not to 0."),
        ("0 1 40 in", "0 1 4294967336 in", "Line 5: '4294967336' is not a rating in kVA from 0 to 1000000."),
        ("0 1 40 in", "0 -1 40 in", "Line 5: '-1' is not a bus from 0 to 127."),
        ("0 1 40 in", "0 1 40", &format!("Line 5: {line}.")),
        ("0 1 40 in", "0 1 40 40 in", &format!("Line 5: {line}.")),
        ("factor 1000", "form old", &format!("Line 1: {line}.")),
        ("branch 1 2", "form new\nbranch 1 2", "Line 7: 'form new' has to stand before the branches."),
        ("0 1 40 in", "0 1 40 on", "Line 5: 'on' is neither 'in' nor 'out'."),
        ("0 1 40 in", "1 1 40 in", "Line 5: both ends of the branch are bus 1."),
        ("1 2 30 in", "1 3 30 in", "Line 7: there is no bus 3, since the 3 buses are numbered from 0."),
        (TRIANGLE, "", "A book has 1 to 128 buses and up to 256 branches, this text 0 and 0."),
    ] {
        assert_eq!(text::parse(&TRIANGLE.replacen(from, to, 1)), Err(due.to_string()));
    }
}

/// The triangle in the new form, two of its second ratings above the first.
const TRIANGLE_NEW: &str =
    "factor 1000\nform new\nbus 30\nbus -10\nbus -20\nbranch 0 1 40 55 in\nbranch 0 2 40 40 in\nbranch 1 2 30 1000000 out\n";

#[test]
fn a_new_book_goes_both_ways() {
    let (words, book) = (made("new.txt"), made("new.book"));
    fs::write(&words, TRIANGLE_NEW).unwrap();
    assert!(run(&["book".as_ref(), &words, &book]).status.success());
    let bytes = fs::read(&book).unwrap();
    assert_eq!((bytes.len(), &bytes[..4]), (33, &[0x03, 0x01, 0xFD, 0x10][..]));
    let back = run(&["text".as_ref(), &book]);
    assert_eq!(String::from_utf8(back.stdout).unwrap(), TRIANGLE_NEW);
    // The line may stand anywhere before the branches.
    let later = TRIANGLE_NEW.replace("form new\n", "").replace("bus -20\n", "bus -20\n form new # both figures\n");
    assert_eq!(text::parse(&later), text::parse(TRIANGLE_NEW));
    for name in ["triangle-new", "second-new", "second-two", "largest-new"] {
        let again = run(&["text".as_ref(), &stored(&format!("{name}.book"))]);
        assert_eq!(again.stdout, fs::read(stored(&format!("{name}.txt"))).unwrap());
    }
}

#[test]
fn what_is_wrong_with_a_new_book_is_said_with_its_line() {
    let line = "it is none of 'factor F', 'form new', 'bus KW', 'branch FIRST SECOND KVA SECOND-KVA in|out'";
    for (from, to, due) in [
        ("40 55 in", "40 39 in", "Line 6: the second rating of 39 kVA is below the first of 40."),
        ("40 55 in", "40 1000001 in", "Line 6: '1000001' is not a second rating in kVA from 0 to 1000000."),
        ("40 55 in", "1000001 55 in", "Line 6: '1000001' is not a rating in kVA from 0 to 1000000."),
        ("40 55 in", "40 in", &format!("Line 6: {line}.")),
        ("40 55 in", "40 55 on", "Line 6: 'on' is neither 'in' nor 'out'."),
        ("form new\n", "", "Line 5: it is none of 'factor F', 'form new', 'bus KW', 'branch FIRST SECOND KVA in|out'."),
    ] {
        assert_eq!(text::parse(&TRIANGLE_NEW.replacen(from, to, 1)), Err(due.to_string()));
    }
}

#[test]
fn a_refused_book_has_no_text_and_its_place_is_said() {
    for (name, due) in [("kva-far", "refused 5 200 3\n"), ("minus-zero", "refused 4 1 2\n"), ("long-2", "refused 2\n")] {
        let ended = run(&["text".as_ref(), &stored(&format!("{name}.book"))]);
        assert_eq!((ended.status.code(), ended.stdout.len()), (Some(2), 0));
        assert_eq!(String::from_utf8(ended.stderr).unwrap(), due);
    }
}

#[test]
fn a_wrong_text_ends_with_2_and_makes_no_book() {
    let (words, book) = (made("wrong.txt"), made("wrong.book"));
    fs::write(&words, TRIANGLE.replace("40 in", "40 on")).unwrap();
    let ended = run(&["book".as_ref(), &words, &book]);
    assert_eq!((ended.status.code(), ended.stdout.len(), book.exists()), (Some(2), 0, false));
    assert_eq!(String::from_utf8(ended.stderr).unwrap(), "Line 5: 'on' is neither 'in' nor 'out'.\n");
}
