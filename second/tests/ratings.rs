//! Two limits a branch (document 02, W2): small books by hand, by every group and every whole flow; what follows from a record
//! for an outage, on random books.

use second::books::named::{second_book, second_two, triangle};
use second::books::plain::{moved_up, with_out, with_seconds};
use second::books::random::Random;
use second::books::random_books::served;
use second::books::random_ratings::heavy;
use second::books::ratings::*;
use second::definitions::answer::Answer;
use second::definitions::book::{pack, Book};
use second::definitions::limits::Limits;
use second::definitions::network::{Excess, Network, Verdict};
use second::definitions::outage::{self, own_result};
use second::definitions::percentage::NAMEPLATE;
use second::definitions::record::{self, SIZE};
use second::definitions::switching::Lent;
use second::definitions::{comeback, cuts, groups, list, screen};
use second::judging::ratings::agrees;

fn excess(amount: i64, buses: &[usize]) -> Excess {
    Excess { amount, group: buses.iter().fold(0, |group, bus| group | 1 << bus) }
}

fn short(amount: i64, buses: &[usize]) -> Verdict {
    Verdict::Short(excess(amount, buses))
}

fn carries(named: &[usize]) -> [u8; SIZE] {
    record::bytes(Verdict::Carries, named)
}

/// What every branch shows, by every group and by cuts; the base excess is 0.
fn shows(book: &Book, due: &[Verdict]) {
    let network = Network::of(book, NAMEPLATE);
    assert_eq!(groups::base_excess(&network), excess(0, &[]));
    for (branch, verdict) in due.iter().enumerate() {
        assert_eq!(groups::verdict(&network, branch), *verdict, "{branch}");
        assert_eq!(cuts::verdict(&network, branch), *verdict, "{branch}");
    }
    assert_eq!(screen::verdicts(&network), due);
}

/// What taking a branch out is answered, with a flow and a table of our own; by every group too.
fn taken_out(book: &Book, branch: usize) -> Answer {
    let network = Network::of(book, NAMEPLATE);
    let flow = cuts::fitting_flow(&network).unwrap();
    let table = screen::own_table(&network, &flow);
    let due = groups::base_excess(&network.without(branch));
    let answer = outage::allowed(&Lent { percentage: NAMEPLATE, book: &pack(book), flow: &flow, table: &table }, branch).err();
    assert_eq!(answer, (due.amount > 0).then(|| Answer::overloaded(due)));
    answer.unwrap_or(Answer::ACCEPTED)
}

fn refused(amount: i64, buses: &[usize]) -> Answer {
    Answer::overloaded(excess(amount, buses))
}

/// Every whole flow of a book that fits by these limits, with one branch lost if there is one.
fn flows(book: &Book, limits: Limits, lost: Option<usize>) -> Vec<Vec<i64>> {
    let mut network = Network::of(book, NAMEPLATE);
    lost.iter().for_each(|&branch| network.lines[branch].served = false);
    let mut found: Vec<Vec<i64>> = vec![Vec::new()];
    for line in &network.lines {
        let most = if line.served { line.limit(limits) } else { 0 };
        found = found.into_iter().flat_map(|flow| (-most..=most).map(move |kw| [&flow[..], &[kw]].concat())).collect();
    }
    found.retain(|flow| network.fits_within(limits, flow));
    found
}

/// The reroutes that the record of a branch may have, over every flow that fits, by every whole flow without it.
fn reroutes(book: &Book, branch: usize) -> Vec<Vec<usize>> {
    let without = flows(book, Limits::Second, Some(branch));
    let mut found = Vec::new();
    for flow in flows(book, Limits::Normal, None) {
        let named = |other: &Vec<i64>| (0..flow.len()).filter(|&k| k != branch && other[k] != flow[k]).collect::<Vec<usize>>();
        found.extend(if flow[branch] == 0 { vec![Vec::new()] } else { without.iter().map(named).collect() });
    }
    found.sort();
    found.dedup();
    found
}

#[test]
fn a_branch_carries_for_a_short_time_and_is_refused_for_good() {
    shows(&pair(), &[Verdict::Carries; 2]);
    assert_eq!([0, 1].map(|branch| taken_out(&pair(), branch)), [refused(10, &[0]); 2]);
    assert_eq!([0, 1].map(|branch| reroutes(&pair(), branch)), [[[1]], [[0]]]);
    shows(&triangle_two(), &[Verdict::Carries; 3]);
    assert_eq!(
        [0, 1, 2].map(|branch| taken_out(&triangle_two(), branch)),
        [refused(10, &[0]), refused(10, &[0]), Answer::ACCEPTED]
    );
    assert_eq!([0, 1].map(|branch| reroutes(&triangle_two(), branch)), [[[1, 2]], [[0, 2]]]);
    assert_eq!(reroutes(&triangle_two(), 2), [vec![], vec![0, 1]]);
    assert_eq!(flows(&triangle_two(), Limits::Normal, Some(2)), [[10, 20, 0]]);
}

#[test]
fn a_refusal_has_another_group_than_the_record() {
    for (book, shown, given) in [
        (ring_two(), short(10, &[0, 1]), refused(20, &[0])),
        (ring_tied(), short(10, &[0, 1]), refused(10, &[0])),
        (ring_far(), short(10, &[0]), refused(20, &[0, 1])),
    ] {
        shows(&book, &[shown, Verdict::Carries, Verdict::Carries]);
        assert_eq!([0, 1, 2].map(|branch| taken_out(&book, branch)), [given, Answer::ACCEPTED, Answer::ACCEPTED]);
        assert!(flows(&book, Limits::Second, Some(0)).is_empty());
    }
}

/// The flows that may be left when branch 0 goes out, of all whole flows within the second limits: those that the judge finds
/// nothing wrong with, with a table of our own. The other branches have no flow.
fn may_be_left(book: &Book, flow: &[i64], reroute: &[usize]) -> Vec<Vec<i64>> {
    let (bytes, network) = (pack(book), Network::of(book, NAMEPLATE));
    let table: Vec<u8> = (0..flow.len()).flat_map(|k| carries(if k == 0 { reroute } else { &[] })).collect();
    assert!(screen::table_holds(&network, flow, &table));
    let lent = Lent { percentage: NAMEPLATE, book: &bytes, flow, table: &table };
    assert!(outage::allowed(&lent, 0).is_ok());
    let mut left = flows(book, Limits::Second, Some(0));
    left.retain(|after| {
        let table = screen::own_table(&network.without(0), after);
        let kept = outage::shortlist(&network, lent.table, 0, flow, after);
        let records = (0..flow.len()).map(|k| record::stretch(if kept[k] { &table } else { lent.table }, k));
        outage::judge(&network, &lent, 0, after, &records.collect::<Vec<_>>().concat()).faults.is_empty()
    });
    assert!(left.contains(&own_result(&network, &lent, 0).0));
    left
}

#[test]
fn the_flow_goes_elsewhere_where_the_recorded_reroute_is_above_a_normal_limit() {
    let six: Vec<Vec<i64>> = (0..=5).map(|kw| vec![0, kw, 10 - kw]).collect();
    assert_eq!(flows(&detour(), Limits::Normal, Some(0)), six);
    assert_eq!(may_be_left(&detour(), &[10, 0, 0], &[1]), six);
    assert_eq!(may_be_left(&detour(), &[10, 0, 0], &[1, 2]), six);
    assert_eq!(may_be_left(&detour(), &[10, 0, 0], &[2]), [[0, 0, 10]]);
    let six: Vec<Vec<i64>> = (0..=5).map(|kw| vec![0, kw, kw, 10 - kw, 10 - kw]).collect();
    assert_eq!(may_be_left(&detour_of_two(), &[10, 0, 0, 0, 0], &[1, 2]), six);
    assert_eq!(may_be_left(&detour_of_two(), &[10, 0, 0, 0, 0], &[3, 4]), [[0, 0, 0, 10, 10]]);
}

#[test]
fn the_flow_keeps_to_the_recorded_reroute_where_that_fits_the_normal_limits() {
    assert_eq!(may_be_left(&straight(), &[10, 0, 0], &[2]), [[0, 0, 10]]);
    assert_eq!(may_be_left(&straight(), &[10, 0, 0], &[1]), [[0, 10, 0]]);
    assert_eq!(may_be_left(&straight(), &[10, 0, 0], &[1, 2]).len(), 11);
}

#[test]
fn after_the_detour_the_records_are_by_the_second_limits() {
    let (book, flow) = (detour(), [10, 0, 0]);
    let (bytes, table) = (pack(&book), [carries(&[1]), carries(&[]), carries(&[])].concat());
    let lent = Lent { percentage: NAMEPLATE, book: &bytes, flow: &flow, table: &table };
    let network = Network::of(&book, NAMEPLATE);
    // With 10 kW on 2, branch 1 is untouched and keeps its record; 2 carries over 1, which has 10 for a short time.
    let due = [[0; SIZE], carries(&[]), carries(&[1])].concat();
    assert!(outage::judge(&network, &lent, 0, &[0, 0, 10], &due).faults.is_empty());
    let by_normal = [[0; SIZE], carries(&[]), record::bytes(short(5, &[0]), &[])].concat();
    assert!(!outage::judge(&network, &lent, 0, &[0, 0, 10], &by_normal).faults.is_empty());
    assert_eq!(taken_out(&with_out(book, 0), 2), refused(5, &[0]));
}

#[test]
fn a_flow_between_the_two_limits_does_not_fit() {
    let number = |way: fn(&Lent, usize) -> Result<Network, Answer>, book: &Book, flow: &[i64], branch: usize| {
        let lent = Lent { percentage: NAMEPLATE, book: &pack(book), flow, table: &[0; 200] };
        way(&lent, branch).err().map_or(0, |answer| answer.number)
    };
    let book = pair_and_feeder();
    for (flow, out, back) in [([25, 5, 0], 11, 11), ([30, 0, 0], 11, 11), ([21, 9, 0], 11, 11), ([20, 10, 0], 12, 0)] {
        assert!(Network::of(&book, NAMEPLATE).fits_within(Limits::Second, &flow));
        assert_eq!(number(outage::allowed, &book, &flow, 0), out, "{flow:?}");
        assert_eq!(number(comeback::allowed, &book, &flow, 2), back, "{flow:?}");
    }
    assert_eq!(number(outage::allowed, &above(), &[30], 0), 11);
}

#[test]
fn a_screen_keeps_to_the_normal_limits() {
    assert_eq!(list::list(&pack(&above())), "refused 12 10 1 0\n");
    assert_eq!(list::list(&pack(&with_seconds(second_book(15), &[(2, 25)]))), "refused 12 5 2 0 1\n");
}

#[test]
fn the_list_is_by_the_second_limits() {
    let lines = |book: &Book| list::list(&pack(book));
    assert_eq!(lines(&triangle_two()), "3 3\n0 carries\n1 carries\n2 carries\n");
    assert_eq!(lines(&ring_two()), "3 3\n0 short 10 2 0 1\n1 carries\n2 carries\n");
    assert_eq!(lines(&second_two()), "4 4\n0 carries\n1 short 35 2 0 1\n2 carries\n3 islands 20 3 0 1 2\n");
    assert_eq!(lines(&moved_up(second_book(25))), lines(&second_book(25)));
    // One branch's own second rating doesn't help it.
    assert_eq!(lines(&with_seconds(triangle(19), &[(1, 1_000_000)])), lines(&triangle(19)));
    assert_eq!(lines(&with_seconds(triangle(19), &[(2, 20)])), lines(&triangle(20)));
}

#[test]
fn each_limit_is_rounded_down_on_its_own() {
    shows(&rounded(1001), &[short(1, &[0]); 2]);
    shows(&rounded(1002), &[Verdict::Carries; 2]);
    for second_kva in [1001, 1002] {
        assert_eq!(taken_out(&rounded(second_kva), 0), refused(1, &[0]));
    }
}

#[test]
fn a_return_writes_its_records_by_the_second_limits() {
    let (book, flow) = (pair_and_feeder(), [20, 10, 0]);
    let lent = Lent { percentage: NAMEPLATE, book: &pack(&book), flow: &flow, table: &[2; 3 * SIZE] };
    let network = comeback::allowed(&lent, 2).unwrap();
    let (after, left) = comeback::own_result(&network, &lent, 2);
    assert_eq!(after, flow);
    assert_eq!((left[0], left[SIZE], &left[2 * SIZE..]), (1, 1, &carries(&[])[..]));
    let by_normal = record::bytes(short(5, &[0]), &[]);
    for (branch, named) in [(0, &[1][..]), (0, &[1, 2]), (1, &[0]), (1, &[0, 2])] {
        let with = |bytes: &[u8]| [&left[..SIZE * branch], bytes, &left[SIZE * (branch + 1)..]].concat();
        assert!(comeback::judge(&network, &lent, 2, &flow, &with(&carries(named))).faults.is_empty(), "{branch} {named:?}");
        assert!(!comeback::judge(&network, &lent, 2, &flow, &with(&by_normal)).faults.is_empty());
    }
    assert_eq!(taken_out(&all_in(&book), 0), refused(5, &[0]));
}

/// The same book with every branch in service.
fn all_in(book: &Book) -> Book {
    let mut book = book.clone();
    book.branches.iter_mut().for_each(|branch| branch.served = true);
    book
}

#[test]
fn what_a_record_shows_bounds_the_answer() {
    let mut random = Random(31);
    let (mut carrying, mut other, mut more, mut equal) = (0, 0, 0, 0);
    for round in 0..3000 {
        let buses = 2 + random.below(6);
        let count = buses + random.below(buses + 1);
        let book = if round % 4 == 0 { served(&mut random, buses, count) } else { heavy(&mut random, NAMEPLATE, buses, count).0 };
        let network = Network::of(&book, NAMEPLATE);
        for branch in (0..count).filter(|&branch| network.lines[branch].served) {
            let (shown, due) = (groups::verdict(&network, branch), groups::base_excess(&network.without(branch)));
            let answer = if due.amount > 0 { Answer::overloaded(due) } else { Answer::ACCEPTED };
            assert_eq!(agrees(&network, &record::bytes(shown, &[]), answer), Ok(()));
            match shown.excess() {
                Some(shown) => {
                    (other, more) = (other + (shown.group != due.group) as usize, more + (shown.amount < due.amount) as usize)
                }
                None => carrying += (due.amount > 0) as usize,
            }
            equal += !book.ratings_differ() as usize;
        }
    }
    assert!(carrying > 1000 && other > 150 && more > 400 && equal > 1000, "{carrying} {other} {more} {equal}");
}

#[test]
fn what_contradicts_a_true_record_is_told() {
    let says = |book: &Book, shown: Verdict, answer: Answer| {
        agrees(&Network::of(book, NAMEPLATE), &record::bytes(shown, &[]), answer).is_ok()
    };
    assert!(says(&ring_two(), short(10, &[0, 1]), refused(20, &[0])));
    assert!(!says(&ring_two(), short(10, &[0, 1]), refused(9, &[0])));
    assert!(!says(&ring_two(), short(10, &[0, 1]), Answer::ACCEPTED));
    assert!(says(&ring_two(), Verdict::Carries, refused(20, &[0])));
    assert!(!says(&triangle(30), Verdict::Carries, refused(20, &[0])));
    assert!(!says(&triangle(30), short(10, &[0, 1]), refused(10, &[0])));
    assert!(says(&triangle(30), short(10, &[0]), refused(10, &[0])));
}
