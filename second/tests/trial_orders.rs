//! Two orders of the same switchings in a trial: the comparison by itself on logs made by hand that break each promise, which series
//! of a stream are compared, and what the tally says of them.

mod judged;
mod on_book;

use judged::tally_of;
use on_book::stream;
use second::books::orders::*;
use second::books::plain::with_out;
use second::definitions::book::{pack, Book};
use second::definitions::cuts;
use second::definitions::network::Network;
use second::definitions::percentage::{Percentage, NAMEPLATE};
use second::definitions::record::SIZE;
use second::definitions::screen;
use second::definitions::switching::Way::{self, Back, Out};
use second::judging::orders::{count, hold, Asked, Log, Standing};
use second::judging::tally::Tally;
use second::streams::stored::{back, load, out, WHOLE};
use second::streams::stored_percentages::told;
use second::trial::stream::Command;
use std::rc::Rc;

const D: Command = Command::Dump;

/// A book with a fitting flow and a true table.
fn standing(book: &Book) -> Standing {
    let network = Network::of(book, NAMEPLATE);
    let flow = cuts::fitting_flow(&network).unwrap();
    Standing { percentage: NAMEPLATE, book: pack(book), table: screen::own_table(&network, &flow), flow }
}

/// A log made by hand; no call of it is made.
fn log(start: &Standing, asked: &[(Way, usize, bool)], left: &Standing) -> Log {
    let asked = asked.iter().map(|&(way, branch, accepted)| Asked { way, branch, accepted }).collect();
    Log { start: Rc::new(start.clone()), midway: false, asked, left: Rc::new(left.clone()) }
}

/// The two orders of two outages that leave the book without both.
fn in_full() -> [Log; 2] {
    let (start, left) = (standing(&ways_round()), standing(&with_out(with_out(ways_round(), 0), 2)));
    let accepted = |branch| (Out, branch, true);
    [log(&start, &[accepted(0), accepted(2)], &left), log(&start, &[accepted(2), accepted(0)], &left)]
}

/// The same of two returns.
fn returns() -> [Log; 2] {
    let (start, left) = (standing(&with_out(with_out(ways_round(), 0), 2)), standing(&ways_round()));
    let accepted = |branch| (Back, branch, true);
    [log(&start, &[accepted(0), accepted(2)], &left), log(&start, &[accepted(2), accepted(0)], &left)]
}

/// The same of an outage and a return.
fn mixed() -> [Log; 2] {
    let (start, left) = (standing(&with_out(ways_round(), 2)), standing(&with_out(ways_round(), 0)));
    let (one, other) = ((Out, 0, true), (Back, 2, true));
    [log(&start, &[one, other], &left), log(&start, &[other, one], &left)]
}

/// What is said where the one log left or was answered something else; either of the two may be the one that did.
fn fault([mut one, other]: [Log; 2], change: impl FnOnce(&mut Log)) -> Result<(), String> {
    change(&mut one);
    let found = hold(&one, &other);
    assert_eq!(found.is_ok(), hold(&other, &one).is_ok());
    found
}

fn left(log: &mut Log) -> &mut Standing {
    Rc::make_mut(&mut log.left)
}

#[test]
fn good_orders_are_taken() {
    for [one, other] in [in_full(), returns(), mixed()] {
        assert!(one.another_order_of(&other));
        assert_eq!(hold(&one, &other), Ok(()));
    }
    let (start, first, then) = (standing(&feeders()), standing(&with_out(feeders(), 1)), standing(&with_out(feeders(), 2)));
    let refused =
        [log(&start, &[(Out, 1, true), (Out, 2, false)], &first), log(&start, &[(Out, 2, true), (Out, 1, false)], &then)];
    assert_eq!(fault(refused, |_| {}), Ok(()));
    let at_first =
        [log(&start, &[(Out, 0, false), (Out, 1, true)], &first), log(&start, &[(Out, 1, true), (Out, 0, false)], &first)];
    assert_eq!(fault(at_first, |_| {}), Ok(()));
}

#[test]
fn outages_in_full_in_one_order_alone_are_a_fault() {
    for place in [0, 1] {
        let found = fault(in_full(), |log| log.asked[place].accepted = false);
        assert!(found.unwrap_err().contains("accepted in full in one order and not in another"));
    }
}

#[test]
fn outages_in_full_though_something_is_short_without_all_are_a_fault() {
    let (start, left) = (standing(&feeders()), standing(&with_out(feeders(), 1)));
    let accepted = |branch| (Out, branch, true);
    let both = [log(&start, &[accepted(1), accepted(2)], &left), log(&start, &[accepted(2), accepted(1)], &left)];
    assert!(fault(both, |_| {}).unwrap_err().contains("accepted in full: true; without them 5 kW are short"));
}

#[test]
fn outages_refused_in_every_order_though_nothing_is_short_are_a_fault() {
    let [one, mut other] = in_full();
    other.asked[0].accepted = false;
    let found = fault([one, other], |log| log.asked[1].accepted = false);
    assert!(found.unwrap_err().contains("accepted in full: false; without them 0 kW are short"));
}

#[test]
fn a_refused_return_is_a_fault() {
    assert!(fault(returns(), |log| log.asked[1].accepted = false).unwrap_err().contains("not all accepted in every order"));
    let [one, mut other] = returns();
    other.asked[0].accepted = false;
    assert!(fault([one, other], |log| log.asked[0].accepted = false).is_err());
}

#[test]
fn an_outage_and_a_return_may_be_accepted_in_one_order_alone() {
    for place in [0, 1] {
        assert_eq!(fault(mixed(), |log| log.asked[place].accepted = false), Ok(()));
    }
}

#[test]
fn books_verdicts_shortages_and_groups_that_hang_on_the_order_are_faults() {
    for logs in [in_full, returns, mixed] {
        let book = fault(logs(), |log| left(log).book[9] ^= 1);
        assert!(book.unwrap_err().contains("the book left is another"));
        for byte in 0..20 {
            for branch in 0..7 {
                let found = fault(logs(), |log| left(log).table[SIZE * branch + byte] ^= 1);
                assert!(found.unwrap_err().contains(&format!("record {branch} has another verdict, shortage or group")));
            }
        }
    }
}

#[test]
fn flows_and_reroutes_may_hang_on_the_order() {
    for logs in [in_full, returns, mixed] {
        assert_eq!(fault(logs(), |log| left(log).flow[3] += 1), Ok(()));
        for byte in 20..SIZE {
            assert_eq!(fault(logs(), |log| left(log).table[SIZE * 3 + byte] ^= 1), Ok(()));
        }
    }
}

#[test]
fn only_the_same_switchings_from_the_same_book_and_percentage_are_compared() {
    let other = |change: &dyn Fn(&mut Log)| {
        let [mut one, other] = in_full();
        change(&mut one);
        [one.another_order_of(&other), other.another_order_of(&one)]
    };
    assert_eq!(other(&|_| {}), [true; 2]);
    assert_eq!(other(&|log| Rc::make_mut(&mut log.start).flow[0] += 1), [true; 2]);
    assert_eq!(other(&|log| log.asked[0].accepted = false), [true; 2]);
    assert_eq!(other(&|log| log.asked.swap(0, 1)), [false; 2]);
    assert_eq!(other(&|log| log.asked[0].branch = 1), [false; 2]);
    assert_eq!(other(&|log| log.asked[0].way = Back), [false; 2]);
    assert_eq!(other(&|log| log.asked.truncate(1)), [false; 2]);
    assert_eq!(other(&|log| log.asked.push(Asked { way: Out, branch: 1, accepted: true })), [false; 2]);
    assert_eq!(other(&|log| Rc::make_mut(&mut log.start).percentage = Percentage(99)), [false; 2]);
    assert_eq!(other(&|log| Rc::make_mut(&mut log.start).book[9] ^= 1), [false; 2]);
}

/// How often two orders of this list were told to be so.
fn told_of(tally: &Tally, list: &str, kinds: &[&str]) -> Vec<usize> {
    kinds.iter().map(|kind| tally.of(&format!("orders of {list}: {kind}"))).collect()
}

#[test]
fn what_came_of_two_orders_is_counted() {
    let full = "accepted in full both ways";
    let kinds = ["compared", full, &format!("{full}, flows left differ"), &format!("{full}, reroutes left differ")];
    let same = format!("{full}, flows and reroutes left the same");
    let of = |change: &dyn Fn(&mut Log)| {
        let ([mut one, other], mut tally) = (in_full(), Tally::default());
        change(&mut one);
        count(&mut tally, &one, &other);
        let more = [&same[..], "from another flow or table", "midway in a run", "above 64 buses", "below 100 percent"];
        told_of(&tally, "two outages", &[&kinds[..], &more].concat())
    };
    assert_eq!(of(&|_| {}), [1, 1, 0, 0, 1, 0, 0, 0, 0]);
    assert_eq!(of(&|log| left(log).flow[3] += 1), [1, 1, 1, 0, 0, 0, 0, 0, 0]);
    assert_eq!(of(&|log| left(log).table[SIZE * 3 + 20] ^= 1), [1, 1, 0, 1, 0, 0, 0, 0, 0]);
    assert_eq!(of(&|log| Rc::make_mut(&mut log.start).flow[3] += 1), [1, 1, 0, 0, 0, 1, 0, 0, 0]);
    assert_eq!(of(&|log| log.midway = true), [1, 1, 0, 0, 1, 0, 0, 0, 0]);
}

#[test]
fn series_of_a_stream_are_compared() {
    let not = "accepted in full neither way";
    let places = [
        "refused at the first call both ways",
        "refused at the second call both ways",
        "refused at the first call and at the second",
    ];
    let kinds: Vec<String> = places.iter().map(|place| format!("{not}, {place}")).collect();
    let kinds: Vec<&str> = ["compared", not].into_iter().chain(kinds.iter().map(String::as_str)).collect();
    let of = |calls: &[Command]| {
        let again = [Command::Book(pack(&feeders())), WHOLE, D];
        let calls: Vec<Command> = calls.split(|call| *call == WHOLE).flat_map(|series| [&again, series].concat()).collect();
        told_of(&tally_of(&stream(&feeders(), &calls)), "two outages", &kinds)
    };
    assert_eq!(of(&[out(1), D, out(2), WHOLE, out(2), D, out(1)]), [1, 1, 0, 1, 0]);
    assert_eq!(of(&[out(0), out(1), D, WHOLE, out(1), D, out(0)]), [1, 1, 0, 0, 1]);
    // In the same order, and of others.
    assert_eq!(of(&[out(1), D, out(2), WHOLE, out(1), D, out(2)]), [0; 5]);
    assert_eq!(of(&[out(1), D, out(2), WHOLE, out(2), D, out(0)]), [0; 5]);
    // Refused calls, numbers stored as they stand and a percentage told in the meantime are nothing between.
    let nothing = [out(9), out(1), Command::Book(pack(&with_out(feeders(), 1))), told(50), load(0, 0, 1), told(100)];
    assert_eq!(of(&[&[out(1), D], &nothing[..], &[out(2), WHOLE, out(2), D, out(1)]].concat()), [1, 1, 0, 1, 0]);
    // Anything else ends a series: a move of load, another flow, a table that isn't true.
    for else_between in [&[load(0, 1, 0), D][..], &[Command::Flow(0, 5)], &[Command::Table(2 * SIZE, 1)]] {
        assert_eq!(of(&[&[out(1), D], else_between, &[out(2), WHOLE, out(2), D, out(1)]].concat()), [0; 5]);
    }
    // Nor does one begin from such a table, though the first call puts this one right.
    let spoilt = Command::Table(2 * SIZE, 2);
    assert_eq!(of(&[spoilt.clone(), out(1), D, out(2), WHOLE, out(2), D, out(1)]), [0; 5]);
    assert_eq!(of(&[out(1), D, out(2), WHOLE, spoilt, out(2), D, out(1)]), [0; 5]);
}

#[test]
fn a_series_is_under_one_percentage() {
    // At 51 percent each limit is what it is at 50, and so the table stays true.
    let of = |between: &[Command]| {
        let again = [told(50), Command::Book(pack(&halved())), WHOLE, D];
        let calls = [&again, &[out(0), D][..], between, &[out(2)], &again, &[out(2), D, out(0)]].concat();
        told_of(&tally_of(&stream(&halved(), &calls)), "two outages", &["compared", "below 100 percent"])
    };
    assert_eq!(of(&[]), [1, 1]);
    assert_eq!(of(&[told(51), told(50)]), [1, 1]);
    assert_eq!(of(&[told(51)]), [0, 0]);
}

#[test]
fn longer_series_hold_shorter_ones() {
    let again = |calls: &[Command]| [&[Command::Book(pack(&ways_round())), WHOLE, D], calls].concat();
    let series = [&[out(0), D, out(2), D, out(3), D][..], &[out(2), D, out(0), D, out(3), D], &[out(2), D, out(3), D, out(0), D]];
    let tally = tally_of(&stream(&ways_round(), &series.map(again).concat()));
    let full = ["compared", "accepted in full both ways", "accepted in full both ways, flows left differ"];
    // The first two begin with 0 and 2, the last two go on from 2 with 0 and 3, midway in a run.
    assert_eq!(told_of(&tally, "two outages", &[&full[..], &["midway in a run"]].concat()), [2, 2, 1, 1]);
    assert_eq!(told_of(&tally, "three or more outages", &full[..2]), [3, 3]);
    // A branch that is switched once more ends a series.
    let twice = [&[out(0), D, back(0), D, out(2), D][..], &[out(2), D, out(0), D, back(0), D]];
    let tally = tally_of(&stream(&ways_round(), &twice.map(again).concat()));
    assert_eq!(told_of(&tally, "three or more outages and returns", &["compared"]), [0]);
}

#[test]
fn returns_and_mixed_orders_of_a_stream_are_compared() {
    let again = |calls: &[Command]| [&[Command::Book(pack(&one_outside())), WHOLE, D], calls].concat();
    let series = [&[out(0), back(2), D][..], &[back(2), D, out(0), D], &[back(2), D, out(3), D], &[out(3), D, back(2), D]];
    let tally = tally_of(&stream(&one_outside(), &series.map(again).concat()));
    let kinds = ["compared", "accepted in full both ways", "accepted in full one way alone", "accepted in full neither way"];
    assert_eq!(told_of(&tally, "an outage and a return", &kinds), [2, 1, 1, 0]);
    let taken_back = [WHOLE, D, out(0), D, out(2), D, back(0), D, back(2), D, out(0), D, out(2), D, back(2), D, back(0), D];
    let tally = tally_of(&stream(&ways_round(), &taken_back));
    assert_eq!(told_of(&tally, "two returns", &kinds), [1, 1, 0, 0]);
}
