//! Load that moves between buses in a trial: the command `V`, the judge's demands and counts by small streams, what is fixed of it.

mod judged;
mod on_book;

use judged::tally_of;
use on_book::stream;
use second::books::loads::*;
use second::books::plain::with_out;
use second::definitions::book::Book;
use second::definitions::load::Shift;
use second::definitions::record::SIZE;
use second::judging::judge::judge;
use second::streams::stored::{back, four, load, out, WHOLE};
use second::streams::stored_percentages::told;
use second::trial::fixed::fixed;
use second::trial::reference::{output, output_with, Done};
use second::trial::stream::{bytes, commands, Command};

const D: Command = Command::Dump;
const MIXED: &str = "move accepted, in a run mixed with outages or returns, from a true table";
const PAIR: &str = "move accepted, there and back with nothing else between, all as it was";

/// The answers of a stream to moves of load, in order.
fn answers(stream: &[u8]) -> Vec<String> {
    output(stream).lines().filter(|line| line.starts_with("move ")).map(String::from).collect()
}

#[test]
fn v_comes_back_from_its_bytes_and_takes_any_buses_and_kw() {
    let due = Command::Load { flow: 256, table: 13_312, shift: Shift { up: 65_535, down: 258, kw: u32::MAX } };
    let bytes_due = b"V\x01\x00\x34\x00\xff\xff\x01\x02\xff\xff\xff\xff";
    assert_eq!((bytes(&due), commands(bytes_due).collect::<Vec<_>>()), (bytes_due.to_vec(), vec![Ok(due)]));
    assert_eq!(output(bytes_due), "move 1 0 0\n");
    assert_eq!(bytes(&load(1, 2, 0x0102_0304))[9..], [1, 2, 3, 4]);
}

#[test]
fn a_move_of_load_is_answered_by_its_own_word() {
    let calls =
        [WHOLE, D, load(0, 2, 5), load(0, 0, 5), load(4, 0, 5), load(0, 1, 2_000_000), load(0, 1, 3), D, load(1, 0, 3), D];
    let due = ["move 12 5 2 0 1", "move 19 0 0", "move 19 0 0", "move 20 0 0", "move 0 0 0", "move 0 0 0"];
    assert_eq!(answers(&stream(&parted(), &calls)), due);
    let unfit =
        [told(49), load(0, 0, 0), told(50), load(0, 1, 1), Command::Flow(0, 10), load(0, 1, 1), told(100), load(0, 1, 1), D];
    assert_eq!(answers(&stream(&tight(), &unfit)), ["move 21 0 0", "move 11 0 0", "move 11 0 0", "move 0 0 0"]);
}

#[test]
fn an_accepted_move_must_be_followed_by_a_dump() {
    for rest in [&[load(0, 1, 3)][..], &[load(0, 1, 3), load(1, 0, 3), D]] {
        let stream = stream(&parted(), &[&[WHOLE, D], rest].concat());
        assert!(judge(&stream, &output(&stream)).1.unwrap_err().starts_with("not to be judged"));
    }
}

#[test]
fn runs_mixed_with_outages_and_returns_are_counted() {
    let of = |commands: &[Command]| {
        let tally = tally_of(&stream(&with_out(four().0, 5), &[&[WHOLE, D], commands].concat()));
        let others = ["out", "back"].map(|call| format!("{call} accepted, in a run mixed with moves of load, from a true table"));
        [tally.of("move accepted"), tally.of(MIXED), tally.of(&others[0]), tally.of(&others[1])]
    };
    let moved = load(1, 0, 5);
    assert_eq!(of(&[moved.clone(), D]), [1, 0, 0, 0]);
    assert_eq!(of(&[out(2), D, moved.clone(), D, back(2), D, moved.clone(), D]), [2, 2, 0, 1]);
    assert_eq!(of(&[back(5), D, moved.clone(), D, out(2), D]), [1, 1, 1, 0]);
    // A new screen, another percentage or an untrue table begin another run.
    assert_eq!(of(&[out(2), D, WHOLE, D, moved.clone(), D]), [1, 0, 0, 0]);
    assert_eq!(of(&[out(2), D, told(99), moved.clone(), D]), [1, 0, 0, 0]);
    assert_eq!(of(&[out(2), D, Command::Table(0, 2), moved, D]), [1, 0, 0, 0]);
}

#[test]
fn there_and_back_counts_where_nothing_else_was_changed_between() {
    let of = |commands: &[Command]| tally_of(&stream(&four().0, &[&[WHOLE, D], commands].concat())).of(PAIR);
    let (there, again) = (load(1, 0, 40), load(0, 1, 40));
    assert_eq!(of(&[there.clone(), D, again.clone(), D]), 1);
    assert_eq!(of(&[there.clone(), D, load(9, 0, 1), told(49), again.clone(), told(100), again.clone(), D]), 1);
    assert_eq!(of(&[load(1, 2, 0), D, load(2, 1, 0), D]), 1);
    assert_eq!(of(&[there.clone(), D, load(0, 1, 39), D]), 0);
    assert_eq!(of(&[there.clone(), D, load(1, 0, 0), D, again.clone(), D]), 0);
    assert_eq!(of(&[there.clone(), D, WHOLE, D, again.clone(), D]), 0);
    assert_eq!(of(&[there.clone(), D, told(99), again.clone(), D]), 0);
    // Back again it is a pair too.
    assert_eq!(of(&[there.clone(), D, again, D, there, D]), 2);
}

#[test]
fn moves_are_counted_by_what_they_do() {
    let of = |book: &Book, calls: &[Command], kind: &str| tally_of(&stream(book, calls)).of(kind);
    let four = four().0;
    for (moved, kind, due) in [
        (load(1, 0, 10), "move accepted, that makes an injection 0", 1),
        (load(1, 0, 9), "move accepted, that makes an injection 0", 0),
        (load(1, 0, 40), "move accepted, that makes an injection 0", 1),
        (load(1, 0, 40), "move accepted, that turns an injection's sign", 1),
        (load(1, 0, 10), "move accepted, that turns an injection's sign", 0),
        (load(1, 0, 0), "move accepted, of 0 kW", 1),
        (load(1, 0, 0), "move accepted, that changed flow", 0),
        (load(1, 0, 1), "move accepted, that changed flow", 1),
    ] {
        assert_eq!(of(&four, &[WHOLE, D, moved.clone(), D], kind), due, "{moved:?} {kind}");
    }
    let far_moved = [told(50), WHOLE, D, load(0, 1, FAR), D, load(1, 0, FAR), D, load(0, 1, 1_000_000), D];
    for (kind, due) in [
        ("move accepted, of 2,000,000 kW", 2),
        ("move accepted, at 50 percent", 3),
        ("move accepted, new form", 3),
        ("move accepted, that makes an injection 0", 1),
        ("move accepted, that takes an injection to an edge of its range", 2),
        ("move: records kept", 3),
        ("move: records on the shortlist", 6),
        ("runs under one percentage below 100, with moves", 1),
    ] {
        assert_eq!(of(&far(), &far_moved, kind), due, "{kind}");
    }
}

#[test]
fn refusals_are_counted_by_what_makes_them_and_what_else_would() {
    let of = |book: &Book, commands: &[Command], kinds: &[&str]| -> Vec<usize> {
        let tally = tally_of(&stream(book, &[&[WHOLE, D], commands].concat()));
        kinds.iter().map(|kind| tally.of(&format!("move refused {kind}"))).collect()
    };
    let unfit = Command::Flow(0, 99);
    let four = four().0;
    let kinds_19 = ["19", "19, both the same", "19, a bus at the count", "19, bus 65535", "19, from a true table"];
    assert_eq!(of(&four, &[load(1, 1, 0), load(0, 4, 0), load(65_535, 0, 0), load(5, 5, 0)], &kinds_19), [4, 1, 1, 1, 4]);
    let kinds_20 =
        ["20", "20, the rising injection alone", "20, the falling injection alone", "20, by 1 kW", "20, of 2^32 - 1 kW"];
    let calls = [load(0, 1, 999_961), load(1, 3, 999_981), load(0, 1, u32::MAX), load(0, 1, 1_000_000)];
    assert_eq!(of(&four, &calls, &kinds_20), [4, 1, 1, 2, 1]);
    let wraps = ["20, though sums of 32 bits would be in range", "20, kW near 2^31", "20, the flow doesn't fit either"];
    assert_eq!(of(&four, &[load(0, 1, u32::MAX), unfit.clone(), load(0, 1, 1 << 31)], &wraps), [1, 1, 1]);
    let kinds_11 = ["11", "11, the changed book has an excess too"];
    assert_eq!(of(&four, &[unfit, load(0, 1, 1), load(0, 1, 500_000)], &kinds_11), [2, 1]);
    let kinds_12 = ["12", "12, between two islands", "12, by 1 kW", "12, the second limits would do"];
    assert_eq!(of(&parted(), &[load(0, 2, 5), load(0, 1, 11)], &kinds_12), [2, 1, 1, 0]);
    assert_eq!(of(&tight(), &[load(0, 1, 3)], &kinds_12), [1, 0, 1, 1]);
}

/// What the judge says where a program leaves something else after the first move of load in a stream.
fn fault(stream: &[u8], plant: impl Fn(&mut Done)) -> String {
    let mut planted = false;
    let other = output_with(stream, &mut |mut done| {
        if matches!(done.command, Command::Load { .. }) && !planted {
            plant(&mut done);
            planted = true;
        }
    });
    judge(stream, &other).1.unwrap_err()
}

#[test]
fn faults_are_named() {
    let calls = stream(&with_out(four().0, 5), &[WHOLE, D, load(1, 0, 5), D]);
    for place in [4, 40, 41, 2_099] {
        assert!(fault(&calls, |done| done.after.book[place] ^= 1).contains("the book as it must be now, 41 bytes"), "{place}");
    }
    assert!(fault(&calls, |done| done.after.flow[0] += 1).contains("the flow left does not fit the book with its load moved"));
    assert!(fault(&calls, |done| done.after.flow[6] += 1).contains("flow space beyond the branch count was written"));
    assert!(fault(&calls, |done| done.after.table[SIZE * 6] ^= 1).contains("table space beyond the branch count was written"));
    assert!(fault(&calls, |done| done.after.table[5 * SIZE] = 1).contains("record 5 should say Out"));
    // 10 kW more go round 0-1, 1-2, 2-0.
    let round = |done: &mut Done| [(0, 10), (2, 10), (1, -10)].iter().for_each(|&(k, kw)| done.after.flow[k] += kw);
    assert!(fault(&calls, round).contains("5 kW were moved, yet the flow of branch"));
    let ring = stream(&two_ways_and_ring(), &[WHOLE, D, load(0, 3, 5), D]);
    assert!(
        fault(&ring, |done| done.after.table[SIZE * 7 + 20] ^= 1).contains("record 7 is not to be written anew, yet it changed")
    );
    let kept = |done: &mut Done| done.after.table[..SIZE].copy_from_slice(&done.before.table[..SIZE]);
    assert!(
        fault(&stream(&far(), &[told(50), WHOLE, D, load(0, 1, FAR), D]), kept).contains("after the call, record 0 should say")
    );
}

#[test]
fn a_move_that_does_not_end_as_it_began_is_a_fault() {
    let calls = stream(&far(), &[told(50), WHOLE, D, load(0, 1, FAR), D, load(1, 0, FAR), D]);
    let kept = output_with(&calls, &mut |done| {
        if *done.command == load(1, 0, FAR) {
            done.after.table[..SIZE].copy_from_slice(&done.before.table[..SIZE]);
        }
    });
    let fault = judge(&calls, &kept).1.unwrap_err();
    assert!(fault.contains("there and back, record 0 has another verdict, shortage or group than before"), "{fault}");
}

#[test]
fn what_is_fixed_of_a_move() {
    let of = |commands: &[Command]| fixed(&stream(&two_ways_and_ring(), commands));
    let dump = |text: &str| text.lines().rev().take(257).map(String::from).collect::<Vec<_>>();
    // Nothing moved: all stays as it was. Something moved: every flow is open, and so is every reroute of a carrying branch.
    let screened = dump(&of(&[WHOLE, D]));
    assert_eq!(dump(&of(&[WHOLE, D, load(0, 3, 0), D])), screened);
    let moved = dump(&of(&[WHOLE, D, load(0, 3, 5), D]));
    assert!(moved[256].starts_with("flow ? ? ? ? ? ? ? ? 0 0") && moved[255].starts_with("record 0 01"));
    assert!(!of(&[WHOLE, D, load(0, 3, 5), D, load(3, 0, 5), D]).contains("hangs on a choice"));
    assert!(of(&[WHOLE, D, told(50), load(0, 3, 0), D]).contains("hangs on a choice"));
    // From a table not known to be true a record of byte 0 = 1 is kept or not by the flow; with nothing moved it is kept.
    let mut lent: Vec<Command> = TWO_WAYS_FLOW.iter().enumerate().map(|(k, kw)| Command::Flow(k, *kw as i32)).collect();
    lent.push(Command::Table(0, 1));
    let untrue = |kw: u32| of(&[&lent[..], &[load(0, 3, kw), D]].concat());
    assert!(untrue(0).contains(&format!(
        "\nrecord 0 01{}\nrecord 1 01{}??{}\n",
        "0".repeat(102),
        "0".repeat(38),
        "0".repeat(62)
    )));
    assert!(untrue(5).contains("\nrecord 0 ????"));
}
