//! Two limits a branch in a trial: what the stored stream and random ones hold, what is counted, and either form alike.

mod judged;
mod on_book;

use judged::tally_of;
use on_book::stream;
use second::books::named::triangle;
use second::books::plain::moved_up;
use second::books::random::Random;
use second::books::random_books::{planned, Plan};
use second::books::ratings::*;
use second::definitions::book::Book;
use second::definitions::percentage::NAMEPLATE;
use second::judging::tally::Tally;
use second::streams::make;
use second::streams::stored::{self, back, out, WHOLE};
use second::trial::reference::output;
use second::trial::stream::Command;

const D: Command = Command::Dump;
const CARRYING: &str = "out refused 12, from a true table, shown as carrying";
const SHORT: &str = "out refused 12, from a true table, shown as short";
const OTHER_GROUP: &str = "out refused 12, from a true table, shown as short, with another group";
const BY_LESS: &str = "out refused 12, from a true table, shown as short, by less";
const KEPT: &str = "out accepted, where limits differ, that moved flow within the recorded reroute";
const ELSEWHERE: &str = "out accepted, from a true table, that fell back to all branches";
const OUT_11: &str = "out refused 11, the flow fits by the second limits";
const BACK_11: &str = "back refused 11, the flow fits by the second limits";

/// The answers of a stream, in order.
fn answers(stream: &[u8]) -> Vec<String> {
    let calls = ["screen", "out", "back"];
    output(stream).lines().filter(|line| calls.iter().any(|call| line.starts_with(call))).map(String::from).collect()
}

#[test]
fn outages_are_answered_by_the_normal_limits() {
    let calls = [WHOLE, D, out(0), out(1), out(2), D, back(2), D];
    assert_eq!(
        answers(&stream(&triangle_two(), &calls)),
        ["screen 0 0 0", "out 12 10 1 0", "out 12 10 1 0", "out 0 0 0", "back 0 0 0"]
    );
    for (book, refused) in [(ring_two(), "out 12 20 1 0"), (ring_tied(), "out 12 10 1 0"), (ring_far(), "out 12 20 2 0 1")] {
        assert_eq!(answers(&stream(&book, &[WHOLE, D, out(0)])), ["screen 0 0 0", refused]);
    }
    assert_eq!(answers(&stream(&above(), &[WHOLE])), ["screen 12 10 1 0"]);
}

#[test]
fn outages_are_counted_by_what_a_true_table_showed() {
    let of = |book: &Book, commands: &[Command]| {
        let tally = tally_of(&stream(book, commands));
        [CARRYING, SHORT, OTHER_GROUP, BY_LESS].map(|kind| tally.of(kind))
    };
    assert_eq!(of(&triangle_two(), &[WHOLE, D, out(0), out(1)]), [2, 0, 0, 0]);
    assert_eq!(of(&ring_two(), &[WHOLE, D, out(0)]), [0, 1, 1, 1]);
    assert_eq!(of(&ring_tied(), &[WHOLE, D, out(0)]), [0, 1, 1, 0]);
    assert_eq!(of(&triangle(30), &[WHOLE, D, out(0), D, out(1)]), [0, 1, 0, 0]);
    // With an untrue table it is none of these.
    assert_eq!(of(&ring_two(), &[WHOLE, D, Command::Table(0, 1), out(0)]), [0; 4]);
}

/// What the stored stream and the random ones have to hold.
const KINDS: [&str; 11] = [
    CARRYING,
    SHORT,
    OTHER_GROUP,
    BY_LESS,
    KEPT,
    ELSEWHERE,
    OUT_11,
    BACK_11,
    "screen refused 12, the book fits by the second limits",
    "screen accepted, new form, ratings differ",
    "back accepted, new form, ratings differ",
];

#[test]
fn the_stored_stream_holds_every_kind_of_two_limits() {
    let tally = tally_of(&stored::stream());
    for kind in KINDS {
        assert!(tally.of(kind) > 0, "{kind}");
    }
}

#[test]
fn random_streams_hold_every_kind_of_two_limits() {
    let mut tally = Tally::default();
    (1..=400).for_each(|seed| tally.join(&tally_of(&make::stream(seed))));
    // A fiftieth of what 20,000 streams are asked for.
    let asked = [500, 0, 100, 0, 100, 100, 100, 100, 100, 5_000, 0].map(|number| number / 50);
    for (kind, asked) in KINDS.iter().zip(asked) {
        assert!(tally.of(kind) > asked, "{kind}\n{tally}");
    }
    assert!(tally.of("out accepted, new form, ratings differ") > 100, "{tally}");
}

#[test]
fn an_old_book_and_the_same_moved_up_are_screened_and_switched_alike() {
    let mut random = Random(41);
    for _ in 0..40 {
        let plan = Plan {
            factor: 950,
            largest: 20,
            zeros: 8,
            outs: 8,
            islands: 1,
            shape: random.below(5),
            share: 30,
            percentage: NAMEPLATE,
        };
        let (book, _) = planned(&mut random, &plan, 8, 14);
        let mut calls = vec![WHOLE, D];
        for _ in 0..8 {
            let branch = random.below(14);
            calls.extend([out(branch), D, back(random.below(14)), D]);
        }
        let printed = |book: &Book| {
            let text = output(&stream(book, &calls));
            text.lines().filter(|line| !line.starts_with("book")).map(String::from).collect::<Vec<_>>()
        };
        assert_eq!(printed(&book), printed(&moved_up(book)));
    }
}
