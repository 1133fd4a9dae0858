//! Branches that come back in a trial: the judge's demands and counts by small streams, and by many random ones.

mod judged;

use judged::tally_of;
use second::books::named::triangle;
use second::books::plain::with_out;
use second::definitions::book::{pack, Book};
use second::definitions::switching::Way;
use second::judging::judge::judge;
use second::judging::run::undone;
use second::judging::tally::Tally;
use second::streams::make;
use second::streams::stored::four;
use second::trial::reference::{output, output_with, step};
use second::trial::spaces::Spaces;
use second::trial::stream::{bytes, Command, FLOWS, TABLE};

const MIXED: &str = "back accepted, in a run mixed with outages, from a true table";
const PAIR: &str = "back accepted, out and back with nothing else between, all as it was";
const SCREEN: Command = Command::Screen { flow: FLOWS, table: TABLE };
const D: Command = Command::Dump;

fn switch(way: Way, branch: usize) -> Command {
    Command::Switch { way, flow: FLOWS, table: TABLE, branch }
}

fn out(branch: usize) -> Command {
    switch(Way::Out, branch)
}

fn back(branch: usize) -> Command {
    switch(Way::Back, branch)
}

/// A book screened, then these commands.
fn screened(book: &Book, commands: &[Command]) -> Vec<u8> {
    let start = [Command::Book(pack(book)), SCREEN, D];
    start.iter().chain(commands).flat_map(bytes).collect()
}

fn on_triangle(commands: &[Command]) -> Vec<u8> {
    screened(&triangle(30), commands)
}

/// What is counted of a good stream.
fn counted(commands: &[Command]) -> Tally {
    tally_of(&on_triangle(commands))
}

#[test]
fn a_return_is_answered_by_its_own_word() {
    let stream = on_triangle(&[back(0), back(3), out(0), D, back(0), D]);
    let printed = output(&stream);
    let answers: Vec<&str> = printed.lines().filter(|line| line.starts_with("back") || line.starts_with("out")).collect();
    assert_eq!(answers, ["back 17 0 0", "back 9 0 0", "out 0 0 0", "back 0 0 0"]);
    assert_eq!(output(b"K\0\0\0\0\0\0"), "back 1 0 0\n");
}

#[test]
fn an_accepted_return_must_be_followed_by_a_dump() {
    for rest in [&[back(0)][..], &[back(0), back(0), D]] {
        let stream = on_triangle(&[&[out(0), D], rest].concat());
        assert!(judge(&stream, &output(&stream)).1.unwrap_err().starts_with("not to be judged"));
    }
}

#[test]
fn out_and_back_counts_where_nothing_else_was_changed_between() {
    let of = |commands: &[Command]| {
        let tally = counted(commands);
        (tally.of("back accepted"), tally.of(MIXED), tally.of(PAIR))
    };
    assert_eq!(of(&[out(0), D, back(0), D]), (1, 1, 1));
    // Refused calls and bytes stored as they stood change nothing.
    assert_eq!(of(&[out(0), D, back(1), out(0), Command::Table(0, 0), D, back(0), D]), (1, 1, 1));
    assert_eq!(of(&[out(0), D, SCREEN, D, back(0), D]), (1, 0, 0));
    assert_eq!(of(&[out(0), D, back(0), D, out(2), D, back(2), D]), (2, 2, 2));
    // With an untrue table it is neither.
    assert_eq!(of(&[out(0), D, Command::Table(0, 1), back(0), D]), (1, 0, 0));
    assert_eq!(of(&[Command::Table(52, 2), out(0), D, back(0), D]), (1, 0, 0));
}

#[test]
fn a_run_of_returns_alone_is_not_mixed() {
    let book = with_out(with_out(four().0, 4), 5);
    let returns = [back(4), D, back(5), D];
    let mixed = |commands: &[Command]| tally_of(&screened(&book, commands)).of(MIXED);
    assert_eq!(mixed(&returns), 0);
    assert_eq!(mixed(&[&[out(2), D], &returns[..]].concat()), 2);
    assert_eq!(mixed(&[back(4), D, out(2), D, back(5), D]), 1);
}

#[test]
fn refusals_are_counted_by_how_the_table_stands() {
    let of = |number: usize, commands: &[Command]| {
        let tally = counted(commands);
        let standing = [
            "from a true table",
            "from a table true before the book, the flow or the percentage was changed",
            "from an untrue table",
        ];
        standing.map(|standing| tally.of(&format!("back refused {number:>2}, {standing}")))
    };
    assert_eq!(of(17, &[back(0)]), [1, 0, 0]);
    assert_eq!(of(17, &[Command::Flow(0, 99), back(0)]), [0, 1, 0]);
    assert_eq!(of(17, &[Command::Table(0, 2), back(0)]), [0, 0, 1]);
    // A byte put back makes the table true again, by judging it anew.
    assert_eq!(of(17, &[Command::Table(0, 2), Command::Table(0, 1), back(0)]), [1, 0, 0]);
    assert_eq!(of(1, &[Command::Book(vec![]), back(0)]), [0, 1, 0]);
    assert_eq!(of(11, &[out(0), D, Command::Flow(0, 1), back(0)]), [0, 1, 0]);
}

#[test]
fn undone_looks_at_the_book_and_at_verdicts_shortages_and_groups() {
    let mut start = Spaces::default();
    step(&mut start, &Command::Book(pack(&triangle(30))));
    step(&mut start, &SCREEN);
    let with = |change: &dyn Fn(&mut Spaces)| {
        let mut end = start.clone();
        change(&mut end);
        undone("out and back", &start, &end, 3)
    };
    assert_eq!(with(&|_| {}), Ok(()));
    assert_eq!(with(&|end| end.flow[0] += 1), Ok(()));
    assert_eq!(with(&|end| end.table[20] ^= 1), Ok(()));
    assert_eq!(with(&|end| end.table[156] ^= 1), Ok(()));
    for place in [0, 3, 19, 52, 123] {
        assert!(with(&|end| end.table[place] ^= 1).is_err(), "{place}");
    }
    assert!(with(&|end| end.book[24] ^= 1).is_err());
}

#[test]
fn random_streams_hold_returns_of_every_kind() {
    let mut tally = Tally::default();
    for seed in 1..=600 {
        let stream = make::stream(seed);
        let (counted, verdict) = judge(&stream, &output(&stream));
        assert_eq!(verdict, Ok(()), "seed {seed}");
        tally.join(&counted);
    }
    assert!(tally.of(MIXED) > 200 && tally.of(PAIR) > 50, "{tally}");
    for number in [1, 2, 3, 4, 5, 6, 7, 8, 9, 17, 11] {
        let untrue = tally.of(&format!("back refused {number:>2}, from an untrue table"));
        assert!(untrue >= 5 && tally.of(&format!("back refused {number:>2}")) - untrue >= 5, "{number}\n{tally}");
    }
}

#[test]
fn no_return_touches_what_it_may_not() {
    for seed in 1..=60 {
        output_with(&make::stream(seed), &mut |done| {
            let Command::Switch { way: Way::Back, branch, .. } = *done.command else { return };
            let mut due = done.before.clone();
            if done.lines[0] == "back 0 0 0" {
                due.book = done.after.book.clone();
                due.table = done.after.table.clone();
                let kept = (0..FLOWS).filter(|&k| k != branch && done.before.table[52 * k] == 1);
                assert!(kept.into_iter().all(|k| due.table[52 * k..52 * k + 52] == done.before.table[52 * k..52 * k + 52]));
            }
            assert!(due == *done.after);
        });
    }
}

#[test]
fn a_pair_that_does_not_end_as_it_began_is_a_fault() {
    let stream = on_triangle(&[out(0), D, back(0), D]);
    let kept = output_with(&stream, &mut |done| {
        if *done.command == back(0) {
            done.after.table[52..104].copy_from_slice(&done.before.table[52..104]);
        }
    });
    let fault = judge(&stream, &kept).1.unwrap_err();
    assert!(fault.contains("out and back, record 1 has another verdict, shortage or group"), "{fault}");
}
