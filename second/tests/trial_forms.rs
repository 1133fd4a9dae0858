//! Books of the new form in a trial: the commands `X` and `L`, the shelf, what is demanded of a move, the kinds counted.

mod judged;

use judged::tally_of;
use second::books::named::{second_two, triangle};
use second::books::plain::{moved_up, with_seconds};
use second::definitions::book::{pack, Book};
use second::definitions::form::Form;
use second::definitions::switching::Way;
use second::judging::moved::promised;
use second::judging::tally::Tally;
use second::streams::make;
use second::streams::stored::{self, written, READ_WHOLE, WHOLE};
use second::trial::fixed::fixed;
use second::trial::reference::{output, output_with};
use second::trial::stream::{bytes, Command, BOOK};

fn move_to(form: Form, room: usize) -> Command {
    Command::Move { form, room }
}

fn book(book: &Book) -> Command {
    Command::Book(pack(book))
}

fn stream(commands: &[Command]) -> Vec<u8> {
    commands.iter().flat_map(bytes).collect()
}

fn hex(bytes: &[u8]) -> String {
    bytes.iter().map(|byte| format!("{byte:02x}")).collect()
}

#[test]
fn a_move_prints_its_answer_and_the_whole_shelf() {
    let (old, new) = (pack(&triangle(30)), pack(&moved_up(triangle(30))));
    let moves = [move_to(Form::New, 32), move_to(Form::New, 33), move_to(Form::Old, 25)];
    let commands = [&[book(&triangle(30))], &moves[..], &[Command::Spoil, move_to(Form::Old, 0), book(&second_two())]].concat();
    let printed = output(&[stream(&commands), stream(&[move_to(Form::Old, BOOK), move_to(Form::New, 42)])].concat());
    let shelf = |start: &[u8], rest: u8| format!("shelf {}", hex(&[start, &vec![rest; BOOK - start.len()]].concat()));
    let both = [&old[..], &new[25..]].concat();
    let due = [
        ("moved 8 0 0", shelf(&[], 0)),
        ("moved 0 0 0", shelf(&new, 0)),
        ("moved 0 0 0", shelf(&both, 0)),
        ("moved 1 0 0", shelf(&[], 170)),
        ("moved 18 0 0", shelf(&[], 170)),
        ("moved 0 0 0", shelf(&pack(&second_two()), 170)),
    ];
    let due: String = due.iter().map(|(answer, shelf)| format!("{answer}\n{shelf}\n")).collect();
    assert_eq!(printed, due);
    assert_eq!(bytes(&move_to(Form::New, 42)), b"L\x01\x00\x2a");
}

#[test]
fn x_writes_five_numbers_a_branch_and_w_four() {
    let write = |form, room| written(form, [4, 4, 1000, 4, 20, room]);
    assert_eq!(bytes(&write(Form::New, 42)), b"X\0\x04\0\x04\x03\xe8\0\x04\0\x14\0\x2a");
    assert_eq!(bytes(&write(Form::Old, 42))[0], b'W');
    let commands =
        [book(&second_two()), READ_WHOLE, Command::Book(vec![9; 50]), write(Form::New, 41), write(Form::New, 42), Command::Dump];
    let printed = output(&stream(&commands));
    let lines: Vec<&str> = printed.lines().filter(|line| line.starts_with("write") || line.starts_with("book")).collect();
    assert_eq!(lines[..2], ["write 8 0 0", "write 0 0 0"]);
    assert!(lines[2].starts_with(&format!("book 42 {}0909090909090909", hex(&pack(&second_two())))));
    // Read as four numbers a branch, the first branch's second kVA stands where its status should.
    assert!(output(&stream(&[book(&second_two()), READ_WHOLE, write(Form::Old, BOOK)])).ends_with("write 5 0 0 0 4\n"));
}

#[test]
fn r_reads_either_form() {
    let read = |form| {
        let printed = output(&stream(&[book(&Book { form, ..triangle(30) }), READ_WHOLE]));
        printed.lines().nth(2).unwrap().split(' ').skip(1).take(16).map(String::from).collect::<Vec<_>>().join(" ")
    };
    assert_eq!(read(Form::Old), "0 1 40 1 0 2 40 1 1 2 30 1 0 0 0 0");
    assert_eq!(read(Form::New), "0 1 40 40 1 0 2 40 40 1 1 2 30 30 1 0");
}

#[test]
fn a_move_changes_nothing_but_the_shelf_and_nothing_else_changes_that() {
    let (mut moves, mut others) = (0, 0);
    for seed in 1..=160 {
        output_with(&make::stream(seed), &mut |done| {
            let mut due = done.before.clone();
            match (done.command, done.command.answer_in(done.lines)) {
                (Command::Move { .. }, Some(0)) => {
                    due.shelf = done.after.shelf.clone();
                    moves += 1;
                }
                (Command::Move { .. }, _) => {}
                (Command::Spoil, _) => return assert_eq!(done.after.shelf, [170; BOOK]),
                _ => {
                    due = done.after.clone();
                    due.shelf = done.before.shelf.clone();
                    others += 1;
                }
            }
            assert!(due == *done.after);
        });
    }
    assert!(moves > 150 && others > 1000, "{moves} {others}");
}

#[test]
fn calls_keep_the_form_of_their_book() {
    let mut switched = 0;
    for seed in 1..=120 {
        output_with(&make::stream(seed), &mut |done| {
            let Command::Switch { way, branch, .. } = *done.command else { return };
            if done.command.answer_in(done.lines) != Some(0) || Form::of(done.before.bytes()) != Some(Form::New) {
                return;
            }
            let place = 32 + 21 * done.before.book[0] as usize + 55 * branch + 54;
            let mut due = done.before.book.clone();
            due[place / 8] ^= 1 << (7 - place % 8);
            assert!(due == done.after.book && (due[place / 8] >> (7 - place % 8) & 1 == 1) == (way == Way::Back));
            switched += 1;
        });
    }
    assert!(switched > 100, "{switched}");
}

#[test]
fn what_is_promised_of_a_move_is_held() {
    let lent = pack(&with_seconds(triangle(30), &[(2, 31)]));
    let equal = pack(&moved_up(triangle(30)));
    let old = pack(&triangle(30));
    let before = vec![7; BOOK];
    let shelf = |start: &[u8]| [start, &before[start.len()..]].concat();
    let fault = |from: &[u8], form, shelf: &[u8]| promised(from, form, &before, shelf).err().unwrap_or_default();
    assert_eq!(fault(&lent, Form::New, &shelf(&lent)), "");
    assert_eq!(fault(&old, Form::New, &shelf(&equal)), "");
    assert_eq!(fault(&equal, Form::Old, &shelf(&old)), "");
    let mut beyond = shelf(&old);
    beyond[25] = 0;
    assert!(fault(&equal, Form::Old, &beyond).contains("beyond"));
    assert!(fault(&lent, Form::New, &shelf(&equal)).contains("came back changed"));
    assert!(fault(&lent, Form::Old, &shelf(&old)).contains("second ratings"));
    assert!(fault(&old, Form::New, &shelf(&lent)).contains("second ratings"));
    assert!(fault(&equal, Form::Old, &shelf(&pack(&triangle(31)))).contains("says something else"));
    assert!(fault(&equal, Form::Old, &shelf(&equal[..25])).contains("refused with 1"));
    assert!(fault(&lent[..32], Form::New, &shelf(&equal)).contains("refused with 1"));
}

#[test]
fn calls_are_counted_by_form() {
    let tally = tally_of(&stream(&[
        book(&second_two()),
        READ_WHOLE,
        WHOLE,
        Command::Dump,
        move_to(Form::Old, 0),
        move_to(Form::New, BOOK),
        book(&triangle(30)),
        READ_WHOLE,
        move_to(Form::New, 33),
        Command::Book(vec![1, 2, 3]),
        move_to(Form::New, 33),
        book(&with_seconds(triangle(30), &[(1, 39)])),
        READ_WHOLE,
        written(Form::New, [3, 3, 1, 3, 14, 0]),
    ]));
    for kind in [
        "read accepted, new form",
        "read accepted, new form, ratings differ",
        "read accepted, old form",
        "screen accepted, new form, ratings differ",
        "moved refused 18, new form, its output too short as well",
        "moved accepted, new to new",
        "moved accepted, old to new",
        "moved accepted, into just enough room",
        "moved refused  1, no form",
        "read refused  5, new form",
        "write refused  8, new form, its source too short",
    ] {
        assert_eq!(tally.of(kind), 1, "{kind}\n{tally}");
    }
    assert_eq!(tally.of("moved refused 18, new form, the last branch alone"), 0);
}

/// Every refusal that a call of a book may be answered with, as it is counted for a form.
fn refusals(call: &str, numbers: &[usize], form: &str) -> Vec<String> {
    numbers.iter().map(|number| format!("{call} refused {number:>2}, {form} form")).collect()
}

/// What the stored stream and the random ones have to hold of the new form.
fn kinds() -> Vec<String> {
    let to_7 = [1, 2, 3, 4, 5, 6, 7];
    let mut kinds = [
        refusals("read", &[1, 2, 3, 4, 5, 6, 7, 8], "new"),
        refusals("write", &[2, 4, 5, 7, 8], "new"),
        refusals("moved", &[1, 2, 3, 4, 5, 6, 7, 8, 18], "new"),
        refusals("moved", &[8], "old"),
        refusals("screen", &[8, 12], "new"),
        refusals("out", &[8, 9, 10, 11, 12], "new"),
        refusals("back", &[8, 9, 17, 11], "new"),
        to_7.iter().map(|number| format!("refused {number:>2}")).collect(),
    ]
    .concat();
    let others = ["screen accepted", "out accepted", "back accepted", "read accepted", "write accepted"];
    kinds.extend(others.iter().flat_map(|call| [format!("{call}, new form"), format!("{call}, new form, ratings differ")]));
    kinds.extend(["old to new", "new to old", "new to new", "old to old"].map(|way| format!("moved accepted, {way}")));
    kinds.extend(
        ["the last branch alone", "branches out of service alone", "its output too short as well"]
            .map(|why| format!("moved refused 18, new form, {why}")),
    );
    kinds.extend(["its source too short", "its output too short"].map(|why| format!("write refused  8, new form, {why}")));
    kinds
}

#[test]
fn the_stored_stream_holds_every_kind_of_the_new_form() {
    let tally = tally_of(&stored::stream());
    for kind in &kinds() {
        assert!(tally.of(kind) > 0, "{kind}");
    }
    assert!(tally.of("screen accepted, with 128 buses and 256 branches") >= 3);
}

#[test]
fn random_streams_hold_every_kind_of_the_new_form() {
    let mut tally = Tally::default();
    (1..=540).for_each(|seed| tally.join(&tally_of(&make::stream(seed))));
    for kind in kinds() {
        assert!(tally.of(&kind) >= 2, "{kind}\n{tally}");
    }
    for way in ["old to new", "new to old"] {
        assert!(tally.of(&format!("moved accepted, {way}")) > 120, "{tally}");
    }
    for call in ["screen", "out", "back"] {
        assert!(tally.of(&format!("{call} accepted, new form, ratings differ")) > 100, "{tally}");
    }
}

#[test]
fn all_that_moves_and_writes_print_is_fixed() {
    let whole = stored::stream();
    let fixed = fixed(&whole);
    let printed = output(&whole);
    let of = |text: &str, word: &str| text.lines().filter(|line| line.starts_with(word)).map(String::from).collect::<Vec<_>>();
    for word in ["moved", "shelf", "write", "read", "branches", "book"] {
        assert_eq!(of(&fixed, word), of(&printed, word));
    }
}
