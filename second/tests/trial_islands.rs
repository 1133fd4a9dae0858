//! Branches that would island in a trial: that the judge wants byte 0 exactly so, what is counted, and what the streams hold.

mod judged;
mod on_book;

use judged::tally_of;
use on_book::stream;
use second::books::islands::*;
use second::books::named::{second_book, triangle};
use second::books::plain::with_out;
use second::definitions::book::Book;
use second::definitions::record::SIZE;
use second::judging::judge::judge;
use second::judging::tally::Tally;
use second::streams::make;
use second::streams::stored::{self, back, out, WHOLE};
use second::streams::stored_percentages::told;
use second::trial::reference::{output, output_with};
use second::trial::stream::Command;

const D: Command = Command::Dump;

/// Byte 0 of the first so many records, in every dump of a stream.
fn verdicts(stream: &[u8], count: usize) -> Vec<Vec<u8>> {
    let byte_0 = |line: &str| {
        let words: Vec<&str> = line.split(' ').collect();
        let number = (words[0] == "record").then(|| words[1].parse::<usize>().unwrap());
        number.filter(|number| *number < count).map(|_| u8::from_str_radix(&words[2][..2], 16).unwrap())
    };
    let all: Vec<u8> = output(stream).lines().filter_map(byte_0).collect();
    all.chunks(count).map(<[u8]>::to_vec).collect()
}

#[test]
fn verdicts_turn_by_an_outage_and_back_by_a_return() {
    let due = [[1, 2, 1], [3, 3, 0], [1, 2, 1]];
    assert_eq!(verdicts(&stream(&triangle(19), &[WHOLE, D, out(2), D, back(2), D]), 3), due);
    let due = [[2, 2, 1, 1], [3, 3, 0, 1], [3, 3, 0, 0], [2, 2, 1, 0], [2, 2, 1, 1]];
    let calls = [WHOLE, D, out(CLOSES), D, out(SPUR), D, back(CLOSES), D, back(SPUR), D];
    for book in [ring_zero(), ring_closed_by(1, 1, 999), ring_closed_by(0, 5, 1000)] {
        assert_eq!(verdicts(&stream(&book, &calls), 4), due);
    }
    let calls = [&[told(75)], &calls[..]].concat();
    assert_eq!(verdicts(&stream(&ring_closed_by(1, 1, 1000), &calls), 4), due);
    assert_eq!(verdicts(&stream(&second_book(25), &[WHOLE, D]), 4), [[2, 2, 2, 3]]);
}

/// What the judge says where byte 0 of a record is another after one command.
fn judged(book: &Book, commands: &[Command], at: &Command, branch: usize, byte_0: u8) -> Result<(), String> {
    let stream = stream(book, commands);
    let other = output_with(&stream, &mut |done| {
        if done.command == at {
            done.after.table[SIZE * branch] = byte_0;
        }
    });
    judge(&stream, &other).1
}

#[test]
fn the_judge_wants_2_or_3_exactly() {
    let calls = [WHOLE, D, out(CLOSES), D, back(CLOSES), D];
    for (at, due) in [(WHOLE, [2, 2, 1, 1]), (out(CLOSES), [3, 3, 0, 1]), (back(CLOSES), [2, 2, 1, 1])] {
        for (branch, due) in due.into_iter().enumerate() {
            for byte_0 in 0..=4 {
                let verdict = judged(&ring_zero(), &calls, &at, branch, byte_0);
                assert_eq!(verdict.is_ok(), byte_0 == due, "{at:?}, record {branch} with {byte_0}: {verdict:?}");
            }
        }
    }
}

#[test]
fn islanding_records_are_counted_by_call() {
    let tally = tally_of(&stream(&ring_zero(), &[WHOLE, D, out(CLOSES), D, out(SPUR), D, back(CLOSES), D]));
    for (kind, due) in [
        ("records: short", 2),
        ("records: islanding", 0),
        ("screen: short records that only a branch of limit 0 joins", 2),
        ("screen: short records of the whole flow, though joined", 2),
        ("screen: bridges without flow that carry", 1),
        ("out: records islanding, from a true table", 4),
        ("out: short records turned into islanding, from a true table", 2),
        ("out accepted, with short records turned into islanding, from a true table", 1),
        ("back: records islanding, from a true table", 0),
        ("back: islanding records turned into short, from a true table", 2),
        ("back: short records that only a branch of limit 0 joins, from a true table", 2),
        ("back accepted, with islanding records turned into short, from a true table", 1),
        ("back: short records turned into carrying", 0),
    ] {
        assert_eq!(tally.of(kind), due, "{kind}\n{tally}");
    }
    let tally = tally_of(&stream(&triangle(30), &[WHOLE, D, out(0), D, out(1), back(0), D]));
    for (kind, due) in [
        ("out: carrying records turned into islanding, from a true table", 2),
        ("out refused 12, from a true table, shown as short", 1),
        ("back: islanding records turned into carrying, from a true table", 2),
        ("back: short records turned into carrying", 2),
        ("out: short records turned into islanding, from a true table", 0),
    ] {
        assert_eq!(tally.of(kind), due, "{kind}\n{tally}");
    }
}

#[test]
fn a_limit_of_0_is_counted_where_it_alone_joins() {
    let only_0 = |book: &Book, percentage: u8| {
        let tally = tally_of(&stream(book, &[told(percentage), WHOLE, D]));
        tally.of("screen: short records that only a branch of limit 0 joins")
    };
    assert_eq!([ring_zero(), ring_closed_by(1, 1, 999)].map(|book| only_0(&book, 100)), [2, 2]);
    // With 5 kW for a short time there is room, and at 100 percent 1 kVA has 1 kW.
    assert_eq!(only_0(&ring_closed_by(0, 5, 1000), 100), 0);
    assert_eq!([75, 99, 100].map(|percentage| only_0(&ring_closed_by(1, 1, 1000), percentage)), [2, 2, 0]);
    assert_eq!(only_0(&with_out(ring_zero(), CLOSES), 100), 0);
    assert_eq!(only_0(&second_book(25), 100), 0);
}

#[test]
fn mistaken_verdicts_are_counted_apart_and_put_right() {
    let calls = [WHOLE, D, Command::Table(0, 3), out(SPUR), D, Command::Table(0, 3), Command::Table(SIZE, 3), back(SPUR), D];
    let stream = stream(&ring_zero(), &calls);
    assert_eq!(verdicts(&stream, 4)[1..], [[2, 2, 1, 0], [2, 2, 1, 1]]);
    let tally = tally_of(&stream);
    assert_eq!(tally.of("out: islanding records turned into short, from an untrue table"), 1);
    assert_eq!(tally.of("back: islanding records turned into short, from an untrue table"), 2);
    assert_eq!(tally.of("back: islanding records turned into short, from a true table"), 0);
}

/// What the stored stream and the random ones have to hold, and how often in 20,000 of these.
const KINDS: [(&str, usize); 18] = [
    ("screen: records islanding", 5_000),
    ("out: records islanding, from a true table", 5_000),
    ("back: records islanding, from a true table", 2_000),
    ("out: short records turned into islanding, from a true table", 2_000),
    ("out: carrying records turned into islanding, from a true table", 2_000),
    ("back: islanding records turned into short, from a true table", 2_000),
    ("back: islanding records turned into carrying, from a true table", 2_000),
    ("out accepted, with short records turned into islanding, from a true table", 1_000),
    ("back accepted, with islanding records turned into short, from a true table", 1_000),
    ("screen: short records that only a branch of limit 0 joins", 1_000),
    ("out: short records that only a branch of limit 0 joins, from a true table", 500),
    ("back: short records that only a branch of limit 0 joins, from a true table", 500),
    ("screen: short records of the whole flow, though joined", 1_000),
    ("screen: bridges without flow that carry", 2_000),
    ("out: short records turned into islanding, from an untrue table", 100),
    ("out: islanding records turned into short, from an untrue table", 100),
    ("back: short records turned into islanding, from an untrue table", 50),
    ("back: islanding records turned into short, from an untrue table", 50),
];

#[test]
fn the_stored_stream_holds_every_kind_of_islanding() {
    let tally = tally_of(&stored::stream());
    for (kind, _) in KINDS {
        assert!(tally.of(kind) > 0, "{kind}\n{tally}");
    }
}

#[test]
fn random_streams_hold_every_kind_of_islanding() {
    let mut tally = Tally::default();
    (1..=400).for_each(|seed| tally.join(&tally_of(&make::stream(seed))));
    for (kind, asked) in KINDS {
        assert!(tally.of(kind) > asked / 50, "{kind}\n{tally}");
    }
}
