//! What the stored stream and random ones hold of load that moves between buses, and what no move of them touches.

mod judged;
mod on_book;

use judged::tally_of;
use on_book::stream;
use second::books::named::triangle;
use second::books::plain::moved_up;
use second::definitions::book::Book;
use second::definitions::record::SIZE;
use second::judging::tally::Tally;
use second::streams::make;
use second::streams::stored::{self, back, four, load, out, WHOLE};
use second::trial::reference::{output, output_with};
use second::trial::stream::{commands, Command, FLOWS};

const D: Command = Command::Dump;
const MIXED: &str = "move accepted, in a run mixed with outages or returns, from a true table";
const PAIR: &str = "move accepted, there and back with nothing else between, all as it was";

#[test]
fn no_move_touches_what_it_may_not() {
    let mut accepted = 0;
    for seed in 1..=80 {
        output_with(&make::stream(seed), &mut |done| {
            let Command::Load { shift, .. } = *done.command else { return };
            let mut due = done.before.clone();
            if done.lines[0] == "move 0 0 0" {
                let book = shift.book(done.before.bytes());
                due.book[..book.len()].copy_from_slice(&book);
                (due.flow, due.table) = (done.after.flow.clone(), done.after.table.clone());
                let most = |k: &usize| (done.after.flow[*k] - done.before.flow[*k]).abs() <= shift.kw as i64;
                assert!((0..FLOWS).all(|k| most(&k)));
                accepted += 1;
            }
            assert!(due == *done.after);
        });
    }
    assert!(accepted > 50, "{accepted}");
}

/// What the stored stream has to hold, and the random ones so often in 20,000.
const KINDS: [(&str, usize); 40] = [
    ("move accepted", 20_000),
    ("move accepted, from a true table", 10_000),
    (MIXED, 8_000),
    ("back accepted, in a run mixed with moves of load, from a true table", 500),
    (PAIR, 3_000),
    ("move accepted, there and back with flow moved", 2_000),
    ("move accepted, of 0 kW", 1_000),
    ("move accepted, of 2,000,000 kW", 500),
    ("move accepted, that makes an injection 0", 1_000),
    ("move accepted, that takes an injection from 0", 500),
    ("move accepted, that turns an injection's sign", 2_000),
    ("move accepted, that takes an injection to an edge of its range", 500),
    ("move accepted, that changed flow", 10_000),
    ("move accepted, that changed flow, with records kept", 5_000),
    ("move accepted, old form", 5_000),
    ("move accepted, new form", 5_000),
    ("move accepted, new form, ratings differ", 2_000),
    ("move accepted, at 50 percent", 500),
    ("move accepted, at 51 to 74 or 76 to 99 percent", 2_000),
    ("move accepted, in a run under one percentage below 100", 2_000),
    ("move accepted, where limits differ", 2_000),
    ("move accepted, with branches out", 2_000),
    ("move accepted, from an untrue table", 1_000),
    ("move accepted, from an untrue table, with records kept", 500),
    ("move accepted, from an untrue table, with a record kept that names bits beyond the count", 100),
    ("move accepted, from an untrue table, with a record of byte 0 = 1 out of service", 100),
    ("move: records kept", 20_000),
    ("move: records on the shortlist", 20_000),
    ("move refused 19, both the same", 1_000),
    ("move refused 19, a bus at the count", 500),
    ("move refused 19, more kW than there can be", 500),
    ("move refused 19, the flow doesn't fit either", 200),
    ("move refused 20, of 2^32 - 1 kW", 500),
    ("move refused 20, though sums of 32 bits would be in range", 1_000),
    ("move refused 20, the flow doesn't fit either", 200),
    ("move refused 11, the changed book has an excess too", 500),
    ("move refused 12, between two islands", 500),
    ("move refused 12, the second limits would do", 100),
    ("move refused 21, hiding  1", 100),
    ("runs under one percentage below 100, with moves", 500),
];

/// What only the random ones have to hold.
const RANDOM: [(&str, usize); 18] = [
    ("move refused 19", 3_000),
    ("move refused 19, bus 65535", 300),
    ("move refused 20", 5_000),
    ("move refused 20, the rising injection alone", 300),
    ("move refused 20, the falling injection alone", 300),
    ("move refused 20, by 1 kW", 1_000),
    ("move refused 20, kW near 2^31", 300),
    ("move refused 20, of 2,000,000 kW", 500),
    ("move refused 11", 1_500),
    ("move refused 11, the flow fits by the second limits", 100),
    ("move refused 12", 2_000),
    ("move refused 12, by 1 kW", 500),
    ("move refused 21, hiding none", 200),
    ("move refused 21, hiding 19", 50),
    ("move refused 21, hiding 20", 100),
    ("move accepted, at 75 percent", 300),
    ("out accepted, in a run mixed with moves of load, from a true table", 1_000),
    ("runs under one percentage below 100, with all three", 100),
];

#[test]
fn the_stored_stream_holds_every_kind_of_move() {
    let tally = tally_of(&stored::stream());
    for (kind, _) in KINDS {
        assert!(tally.of(kind) > 0, "{kind}\n{tally}");
    }
}

#[test]
fn random_streams_hold_every_kind_of_move() {
    let mut tally = Tally::default();
    (1..=800).for_each(|seed| tally.join(&tally_of(&make::stream(seed))));
    for (kind, asked) in KINDS.into_iter().chain(RANDOM) {
        assert!(tally.of(kind) * 25 > asked, "{kind}\n{tally}");
    }
    for number in [1, 2, 3, 4, 5, 6, 7, 8, 19, 20, 11, 12] {
        let untrue = tally.of(&format!("move refused {number:>2}, from an untrue table"));
        assert!(untrue > 0 && tally.of(&format!("move refused {number:>2}")) > untrue, "{number}\n{tally}");
    }
}

#[test]
fn the_stored_stream_grew_by_27_dumps() {
    // The stream of then had 55,823 bytes, its last 3 a bad command.
    let whole = stored::stream();
    let added: Vec<Command> = commands(&whole[55_820..]).map_while(Result::ok).collect();
    let count = |wanted: &dyn Fn(&Command) -> bool| added.iter().filter(|command| wanted(command)).count();
    assert_eq!((count(&|command| command.call() == Some("move")), count(&|command| *command == D)), (23, 27));
}

#[test]
fn a_fresh_screen_in_the_stored_stream_agrees_with_the_run_before_it() {
    let (mut run, mut fresh) = (Vec::new(), Vec::new());
    output_with(&stored::stream(), &mut |done| {
        let shown = || done.after.table[..6 * SIZE].chunks(SIZE).flat_map(|bytes| bytes[..20].to_vec()).collect::<Vec<u8>>();
        if *done.command == load(2, 0, 25) {
            run = shown();
        } else if *done.command == WHOLE {
            fresh = shown();
        }
    });
    assert!(!run.is_empty() && run == fresh);
}

#[test]
fn an_old_book_and_the_same_moved_up_are_moved_alike() {
    let calls =
        [WHOLE, D, load(1, 0, 40), D, out(2), D, load(2, 3, 7), D, load(0, 1, 40), D, back(2), D, load(3, 0, 999), load(0, 0, 1)];
    let printed = |book: &Book| {
        let text = output(&stream(book, &calls));
        text.lines().filter(|line| !line.starts_with("book")).map(String::from).collect::<Vec<_>>()
    };
    for book in [four().0, triangle(30)] {
        assert_eq!(printed(&book), printed(&moved_up(book.clone())));
    }
}
