//! Percentages of nameplate (document 02, W8): limits by hand, 21 before all others, small books by every group, and runs under one
//! percentage.

use second::books::percentages::*;
use second::books::plain::{plain, with_out};
use second::books::random::Random;
use second::books::random_books::served_with_flow;
use second::books::random_percentages::{in_range, just_enough, rounded_twice};
use second::books::random_ratings::heavy;
use second::books::ratings::pair;
use second::definitions::answer::Answer;
use second::definitions::book::{pack, unpack, with_status, Book};
use second::definitions::limits::limit_in_kw;
use second::definitions::network::{Excess, Network, Verdict};
use second::definitions::percentage::{Percentage, NAMEPLATE};
use second::definitions::record::{self, SIZE};
use second::definitions::switching::Lent;
use second::definitions::{comeback, cuts, groups, list, outage, screen, tables};
use second::streams::stored::damaged_books;
use second::streams::stored_forms::damaged_new_books;

fn limit(kva: u32, factor: u32, percentage: u8) -> i64 {
    limit_in_kw(kva, factor, Percentage(percentage))
}

fn excess(amount: i64, buses: &[usize]) -> Excess {
    Excess { amount, group: buses.iter().fold(0, |group, bus| group | 1 << bus) }
}

fn short(amount: i64, buses: &[usize]) -> Verdict {
    Verdict::Short(excess(amount, buses))
}

fn refused(amount: i64, buses: &[usize]) -> Answer {
    Answer::overloaded(excess(amount, buses))
}

/// What every branch shows at a percentage, by every group and by cuts; the base excess is 0.
fn shows(book: &Book, percentage: u8, due: &[Verdict]) {
    let network = Network::of(book, Percentage(percentage));
    assert_eq!(groups::base_excess(&network), excess(0, &[]));
    for (branch, verdict) in due.iter().enumerate() {
        assert_eq!(groups::verdict(&network, branch), *verdict, "{branch} at {percentage}");
        assert_eq!(cuts::verdict(&network, branch), *verdict, "{branch} at {percentage}");
    }
}

fn screened(book: &Book, percentage: u8) -> Answer {
    screen::screened(Percentage(percentage), &pack(book), 256, 13_312).err().unwrap_or(Answer::ACCEPTED)
}

#[test]
fn at_100_limits_are_those_of_document_01() {
    assert_eq!((limit(1, 999, 100), limit(1000, 999, 100)), (0, 999));
    let mut random = Random(51);
    for _ in 0..10_000 {
        let (kva, factor) = (random.below(1_000_001) as u32, 1 + random.below(1000) as u32);
        assert_eq!(limit(kva, factor, 100), kva as i64 * factor as i64 / 1000);
    }
    assert_eq!(limit(1_000_000, 1000, 100), 1_000_000);
}

#[test]
fn limits_are_rounded_down_once() {
    assert_eq!((limit(1003, 950, 80), rounded_twice(1003, 950, Percentage(80))), (762, 761));
    assert_eq!((limit(1004, 950, 80), rounded_twice(1004, 950, Percentage(80))), (763, 762));
    assert_eq!([50, 79, 80, 81, 99, 100].map(|percentage| limit(1003, 950, percentage)), [476, 752, 762, 771, 943, 952]);
    assert_eq!((limit(1, 1000, 99), limit(2, 1000, 50), limit(3, 1000, 50), limit(199, 1000, 50)), (0, 1, 1, 99));
    assert_eq!((limit(1_000_000, 1, 50), limit(199, 1, 50), limit(200_000, 1, 50)), (500, 0, 100));
}

#[test]
fn limits_grow_with_the_percentage_and_with_the_rating() {
    let mut random = Random(52);
    for _ in 0..3000 {
        let (kva, factor) = (random.below(1_000_000) as u32, 1 + random.below(1000) as u32);
        for percentage in 50..100 {
            assert!(limit(kva, factor, percentage) <= limit(kva, factor, percentage + 1));
            assert!(limit(kva, factor, percentage) <= limit(kva + 1, factor, percentage));
            // Rounding in between only ever takes away, and at most 1 kW.
            let twice = rounded_twice(kva, factor, Percentage(percentage));
            assert!((0..=1).contains(&(limit(kva, factor, percentage) - twice)));
        }
    }
}

#[test]
fn the_list_is_at_100() {
    assert_eq!(list::list(&pack(&summer(1, 952))), "2 1\n0 islands 952 1 0\n");
    assert_eq!(list::list(&pack(&summer(1, 953))), "refused 12 1 1 0\n");
    assert_eq!(list::list(&pack(&summer(2, 952))), "2 2\n0 carries\n1 carries\n");
}

#[test]
fn a_kw_decides_at_80_percent() {
    assert_eq!((screened(&summer(1, 762), 80), screened(&summer(1, 763), 80)), (Answer::ACCEPTED, refused(1, &[0])));
    assert_eq!((screened(&summer(1, 943), 99), screened(&summer(1, 944), 99)), (Answer::ACCEPTED, refused(1, &[0])));
    shows(&summer(2, 762), 80, &[Verdict::Carries; 2]);
    shows(&summer(2, 763), 80, &[short(1, &[0]); 2]);
    shows(&summer_two(1004, 763), 80, &[Verdict::Carries; 2]);
    shows(&summer_two(1004, 764), 80, &[short(1, &[0]); 2]);
}

#[test]
fn both_ratings_follow_the_percentage() {
    shows(&pair(), 100, &[Verdict::Carries; 2]);
    // Normal 16 and second 24; 15 and 22; then 14, of which 28 are too few.
    shows(&pair(), 80, &[short(6, &[0]); 2]);
    shows(&pair(), 75, &[short(8, &[0]); 2]);
    assert_eq!(screened(&pair(), 74), refused(2, &[0]));
    for percentage in 50..=100u8 {
        let [line, _] = &Network::of(&pair(), Percentage(percentage)).lines[..] else { panic!("two branches") };
        let due = (20 * percentage as i64 / 100, 30 * percentage as i64 / 100);
        assert_eq!((line.normal_limit, line.second_limit), due);
    }
}

/// What the three calls that take a percentage answer to a book, lent this much flow, table and branch.
fn answers(percentage: u8, book: &[u8], flow: &[i64], room: usize, branch: usize) -> [Answer; 3] {
    let (percentage, table) = (Percentage(percentage), vec![0; room]);
    let lent = Lent { percentage, book, flow, table: &table };
    let calls =
        [screen::screened(percentage, book, flow.len(), room), outage::allowed(&lent, branch), comeback::allowed(&lent, branch)];
    calls.map(|call| call.err().unwrap_or(Answer::ACCEPTED))
}

#[test]
fn percentages_50_to_100_are_taken_and_no_others() {
    let book = pack(&with_out(plain(&[0, 0], &[(0, 1, 5), (0, 1, 5)]), 1));
    for percentage in 0..=255u8 {
        let [screen, out, _] = answers(percentage, &book, &[0, 0], 104, 0);
        let [_, _, back] = answers(percentage, &book, &[0, 0], 104, 1);
        let due = if (50..=100).contains(&percentage) { Answer::ACCEPTED } else { Answer::refused(21) };
        assert_eq!([screen, out, back], [due; 3], "{percentage}");
    }
    assert_eq!(Answer::refused(21).to_string(), "21 0 0");
}

#[test]
fn a_percentage_out_of_range_comes_before_all_else() {
    let triangle = pack(&with_out(second::books::named::triangle(30), 0));
    for percentage in [0, 49, 101, 255] {
        for book in damaged_books().iter().chain(&damaged_new_books()) {
            assert_eq!(answers(percentage, book, &[], 0, 65_535), [Answer::refused(21); 3]);
        }
        // 8, 9, 10 and 17, 11, 12; and nothing wrong.
        for (flow, room, branch) in [
            (&[9, 9][..], 156, 3),
            (&[9, 9, 9], 155, 0),
            (&[9, 9, 9], 156, 3),
            (&[9, 9, 9], 156, 0),
            (&[9, 9, 9], 156, 1),
            (&[0, 30, -10], 156, 1),
            (&[0, 30, -10], 156, 0),
        ] {
            assert_eq!(answers(percentage, &triangle, flow, room, branch), [Answer::refused(21); 3]);
        }
    }
}

#[test]
fn in_range_the_refusals_are_as_ever() {
    for percentage in [50, 51, 99, 100] {
        for book in damaged_books().iter().chain(&damaged_new_books()) {
            let due = Answer::from(unpack(book).unwrap_err());
            assert_eq!(answers(percentage, book, &[], 0, 65_535), [due; 3]);
        }
        let book = pack(&with_out(second::books::named::triangle(30), 0));
        let numbers = |flow: &[i64], room, branch| answers(percentage, &book, flow, room, branch).map(|answer| answer.number);
        assert_eq!(numbers(&[9; 2], 156, 3), [8; 3]);
        assert_eq!(numbers(&[9; 3], 155, 3), [8; 3]);
        assert_eq!(numbers(&[9; 3], 156, 3)[1..], [9; 2]);
        assert_eq!(numbers(&[9; 3], 156, 0)[1..], [10, 11]);
        assert_eq!(numbers(&[9; 3], 156, 1)[1..], [11, 17]);
    }
}

#[test]
fn reading_takes_no_percentage() {
    // No function of the tables is given one, and what is read holds the nameplate.
    let book = tables::read(&pack(&summer(2, 953)), 2, 8).unwrap();
    assert_eq!(tables::numbers(&book), [0, 1, 1003, 1, 0, 1, 1003, 1]);
}

fn lent_stale<'a>(percentage: u8, book: &'a [u8], flow: &'a [i64], table: &'a [u8]) -> Lent<'a> {
    Lent { percentage: Percentage(percentage), book, flow, table }
}

#[test]
fn a_table_true_at_100_and_not_at_50_is_kept_by_the_outage_and_the_return() {
    let (book, flow, table) = (pack(&stale()), STALE_FLOW.map(i64::from), stale_table().concat());
    let at = |percentage| Network::of(&stale(), Percentage(percentage));
    assert!(screen::table_holds(&at(100), &flow, &table));
    assert!(at(50).fits(&flow) && !screen::table_holds(&at(50), &flow, &table));
    shows(&stale(), 50, &[short(5, &[0, 2]), short(5, &[0, 2]), Verdict::Carries]);
    shows(&with_out(stale(), 2), 50, &[short(5, &[0]), short(5, &[0]), Verdict::Out]);
    let lent = lent_stale(50, &book, &flow, &table);
    let network = outage::allowed(&lent, 2).unwrap();
    let (after, left) = outage::own_result(&network, &lent, 2);
    assert_eq!(after, flow);
    assert_eq!(left, [&table[..2 * SIZE], &[0; SIZE]].concat());
    assert!(outage::judge(&network, &lent, 2, &after, &left).faults.is_empty());
    // A program that writes the stale records anew, or the one of branch 2 otherwise, is told.
    let fresh = record::bytes(short(5, &[0]), &[]);
    for wrong in [[&fresh, &left[SIZE..2 * SIZE], &left[2 * SIZE..]].concat(), table.clone()] {
        assert!(!outage::judge(&network, &lent, 2, &after, &wrong).faults.is_empty());
    }
    let out = with_status(&book, 2, false);
    let lent = lent_stale(50, &out, &flow, &left);
    let network = comeback::allowed(&lent, 2).unwrap();
    assert_eq!(comeback::own_result(&network, &lent, 2), (flow.to_vec(), table.clone()));
    assert_eq!(outage::allowed(&lent_stale(50, &book, &flow, &table), 0).unwrap_err(), refused(5, &[0, 2]));
}

#[test]
fn a_flow_is_held_to_the_limits_at_the_percentage_of_the_call() {
    let (book, out) = (pack(&stale()), pack(&with_out(stale(), 2)));
    let numbers = |percentage, flow: &[i64]| {
        let number = |answer: Result<Network, Answer>| answer.err().map_or(0, |answer| answer.number);
        let table = [0; 3 * SIZE];
        let taken = number(outage::allowed(&lent_stale(percentage, &book, flow, &table), 2));
        (taken, number(comeback::allowed(&lent_stale(percentage, &out, flow, &table), 2)))
    };
    for (percentage, flow, due) in [
        (100, [9, 1, 0], (0, 0)),
        (90, [9, 1, 0], (0, 0)),
        (89, [9, 1, 0], (11, 11)),
        (50, [5, 5, 0], (0, 0)),
        (50, [6, 4, 0], (11, 11)),
        (49, [5, 5, 0], (21, 21)),
    ] {
        assert_eq!(numbers(percentage, &flow), due, "{percentage} {flow:?}");
    }
}

#[test]
fn both_methods_agree_at_every_percentage() {
    let mut random = Random(53);
    let (mut overloaded, mut shorts, mut carries) = (0, 0, 0);
    for round in 0..2500 {
        let percentage = in_range(&mut random);
        let (buses, count) = (2 + random.below(5), random.below(10));
        let book = match round % 3 {
            0 => served_with_flow(&mut random, percentage, buses, count).0,
            1 => heavy(&mut random, percentage, buses, count).0,
            _ => just_enough(&mut random, percentage),
        };
        let network = Network::of(&book, percentage);
        let excess = groups::base_excess(&network);
        assert_eq!(excess, cuts::base_excess(&network), "{book:?}");
        overloaded += (excess.amount > 0) as usize;
        assert!(excess.amount == 0 || round % 3 == 2);
        for branch in (0..network.lines.len()).filter(|_| excess.amount == 0) {
            let verdict = groups::verdict(&network, branch);
            assert_eq!(verdict, cuts::verdict(&network, branch), "branch {branch} of {book:?}");
            (shorts, carries) = (shorts + verdict.excess().is_some() as usize, carries + (verdict == Verdict::Carries) as usize);
        }
    }
    assert!(overloaded > 50 && shorts > 1000 && carries > 1000, "{overloaded} {shorts} {carries}");
}

/// Switches a branch of a book at a percentage by our own choices, where that is accepted.
fn switched(percentage: Percentage, held: &mut (Vec<u8>, Vec<i64>, Vec<u8>), branch: usize) -> bool {
    let served = unpack(&held.0).unwrap().branches[branch].served;
    let lent = Lent { percentage, book: &held.0, flow: &held.1, table: &held.2 };
    let left = match served {
        true => outage::allowed(&lent, branch).map(|network| outage::own_result(&network, &lent, branch)),
        false => comeback::allowed(&lent, branch).map(|network| comeback::own_result(&network, &lent, branch)),
    };
    let Ok((flow, table)) = left else { return false };
    *held = (with_status(&held.0, branch, !served), flow, table);
    true
}

#[test]
fn a_run_under_one_percentage_agrees_with_a_fresh_screen_at_it() {
    let mut random = Random(54);
    let (mut calls, mut otherwise) = (0, 0);
    for _ in 0..300 {
        let percentage = in_range(&mut random);
        let (buses, count) = (2 + random.below(5), 2 + random.below(9));
        let (book, flow) = served_with_flow(&mut random, percentage, buses, count);
        let mut held = (pack(&book), flow.clone(), screen::own_table(&Network::of(&book, percentage), &flow));
        for _ in 0..8 {
            if !switched(percentage, &mut held, random.below(count)) {
                continue;
            }
            let book = unpack(&held.0).unwrap();
            let network = Network::of(&book, percentage);
            assert!(screen::table_holds(&network, &held.1, &held.2));
            for branch in 0..count {
                let fresh = record::bytes(groups::verdict(&network, branch), &[]);
                assert_eq!(record::stretch(&held.2, branch)[..20], fresh[..20]);
            }
            calls += 1;
            otherwise += !screen::table_holds(&Network::of(&book, NAMEPLATE), &held.1, &held.2) as usize;
        }
    }
    assert!(calls > 1000 && otherwise > 50, "{calls} {otherwise}");
}
