//! The systems of source document 001, as far as their numbers can be read (SOURCES.md).

use second::books::plain::with_out;
use second::books::random::Random;
use second::books::sources::*;
use second::definitions::book::{pack, Book};
use second::definitions::limits::Limits;
use second::definitions::network::{Excess, Network, Verdict};
use second::definitions::outage::{allowed, judge, own_result, shortlist};
use second::definitions::percentage::NAMEPLATE;
use second::definitions::record;
use second::definitions::reroutes::{exactly, Exactly};
use second::definitions::switching::Lent;
use second::definitions::{cuts, groups, screen};

/// A verdict by both methods; the document's buses count from 1.
fn verdict(book: &Book, branch: usize) -> Verdict {
    let network = Network::of(book, NAMEPLATE);
    assert_eq!(groups::base_excess(&network).amount, 0);
    assert_eq!(cuts::verdict(&network, branch), groups::verdict(&network, branch));
    cuts::verdict(&network, branch)
}

fn short_mw(mw: i64, buses_from_1: &[usize]) -> Verdict {
    Verdict::Short(Excess { amount: 1000 * mw, group: buses_from_1.iter().fold(0, |group, bus| group | 1 << (bus - 1)) })
}

/// R(S) - P(S) without a branch, in MW: the document's transfer margin of one cut-set.
fn margin(book: &Book, branch: usize, buses_from_1: &[usize]) -> i64 {
    let group = buses_from_1.iter().fold(0, |group, bus| group | 1 << (bus - 1));
    -groups::excess_of(&Network::of(book, NAMEPLATE), Limits::Normal, group, Some(branch)) / 1000
}

#[test]
fn five_bus_loss_of_3_4_is_short_30_mw_with_buses_4_and_5() {
    assert_eq!(verdict(&five_bus(), FIVE_3_4), short_mw(30, &[4, 5]));
}

#[test]
fn five_bus_margins_of_the_four_cut_sets() {
    let margins = [&[4, 5][..], &[4], &[1, 4, 5], &[1, 2, 4, 5]].map(|buses| margin(&five_bus(), FIVE_3_4, buses));
    assert_eq!(margins, [-30, 40, 0, 240]);
}

#[test]
fn five_bus_three_flows_fit_and_each_lets_3_5_be_rerouted() {
    let network = Network::of(&five_bus(), NAMEPLATE);
    for flow in FIVE_FLOWS {
        assert!(network.fits(&flow));
        assert_eq!(flow[6].abs() + flow[4].abs() + flow[1].abs(), 360_000);
    }
    // Section 2.6.1: the 150 MW of 5-3 go over 5-1-3.
    assert!(matches!(exactly(&network, &FIVE_FLOWS[1], FIVE_3_5, &[1, 2]), Exactly::Yes(_)));
    assert_eq!(verdict(&five_bus(), FIVE_3_5), Verdict::Carries);
}

#[test]
fn five_bus_after_the_loss_of_5_3_branch_4_3_is_short_210_mw() {
    assert_eq!(verdict(&with_out(five_bus(), FIVE_3_5), FIVE_3_4), short_mw(210, &[4, 5]));
}

#[test]
fn five_bus_after_the_redispatch_branch_4_3_carries_with_margin_0() {
    assert_eq!(verdict(&five_bus_moved(), FIVE_3_4), Verdict::Carries);
    assert_eq!(margin(&five_bus_moved(), FIVE_3_4, &[4, 5]), 0);
}

#[test]
fn five_bus_of_section_3_6_whatever_the_single_ratings() {
    for (rating_3_5, rating_1_3) in [(0, 400), (50, 300), (100, 250), (150, 270), (200, 220)] {
        let first = five_bus_of_cuts(&[363, -330, -264, 231, 0], rating_3_5, rating_1_3);
        assert_eq!(verdict(&first, FIVE_3_4), short_mw(31, &[4, 5]));
        let second = five_bus_of_cuts(&[297, -270, -216, 189, 0], rating_3_5, rating_1_3);
        assert_eq!(verdict(&second, FIVE_3_4), Verdict::Carries);
        let cuts = [&[4][..], &[4, 5], &[1, 4, 5], &[1, 2, 4, 5]];
        assert_eq!(cuts.map(|buses| margin(&first, FIVE_3_4, buses)), [250 - 231, 200 - 231, 820 - 594, 820 - 264]);
        assert_eq!(cuts.map(|buses| margin(&second, FIVE_3_4, buses)), [250 - 189, 200 - 189, 820 - 486, 820 - 216]);
    }
}

#[test]
fn ten_bus_loss_of_4_1_is_short_35_86_mw_for_every_split_of_the_sums() {
    let due = Verdict::Short(Excess { amount: 35_860, group: 1 << 3 | 1 << 4 | 1 << 5 | 1 << 9 });
    assert_eq!(verdict(&ten_bus(&TEN_SPLIT), TEN_1_4), due);
    let mut random = Random(10);
    let mut tried = 0;
    while tried < 200 {
        let give = [0, 1, 2].map(|_| random.between(0, 110_000));
        let take = [0, 1].map(|_| -random.between(0, 180_000));
        let through = [-random.between(0, 20_000), -random.between(0, 20_000)];
        let split = [
            take[0],
            take[1],
            -380_860 - take[0] - take[1],
            give[0],
            give[1],
            give[2],
            through[0],
            through[1],
            45_000 - through[0] - through[1],
            335_860 - give[0] - give[1] - give[2],
        ];
        if cuts::base_excess(&Network::of(&ten_bus(&split), NAMEPLATE)).amount == 0 {
            assert_eq!(verdict(&ten_bus(&split), TEN_1_4), due, "{split:?}");
            tried += 1;
        }
    }
}

#[test]
fn seven_bus_reroutes_of_table_2_3_make_a_true_table() {
    let network = Network::of(&seven_bus(), NAMEPLATE);
    let flow = seven_bus_flow();
    assert!(network.fits(&flow));
    for branch in 0..12 {
        assert_eq!(verdict(&seven_bus(), branch), Verdict::Carries);
        let bytes = record::bytes(Verdict::Carries, &seven_reroute(branch));
        assert_eq!(screen::record_holds(&mut cuts::Cutter::new(&network), &flow, branch, &bytes), Ok(true));
    }
}

#[test]
fn seven_bus_shortlist_for_the_loss_of_2_1() {
    let bytes = pack(&seven_bus());
    let flow = seven_bus_flow();
    let table: Vec<u8> = (0..12).flat_map(|branch| record::bytes(Verdict::Carries, &seven_reroute(branch))).collect();
    let lent = Lent { percentage: NAMEPLATE, book: &bytes, flow: &flow, table: &table };
    let network = allowed(&lent, SEVEN_2_1).unwrap();
    let (after, left) = own_result(&network, &lent, SEVEN_2_1);
    let moved: Vec<usize> = (0..12).filter(|&k| after[k] != flow[k]).collect();
    let mut due = vec![SEVEN_2_1, seven_branch(2, 3), seven_branch(3, 6), seven_branch(6, 1)];
    due.sort();
    assert_eq!(moved, due);
    let listed: Vec<usize> = (0..12).filter(|&k| shortlist(&network, &table, SEVEN_2_1, &flow, &after)[k]).collect();
    // The document's six, and the branch taken out itself.
    let mut due: Vec<usize> =
        [(1, 6), (3, 2), (3, 1), (3, 6), (4, 3), (4, 6), (2, 1)].map(|(one, other)| seven_branch(one, other)).to_vec();
    due.sort();
    assert_eq!(listed, due);
    assert!(judge(&network, &lent, SEVEN_2_1, &after, &left).faults.is_empty());
}
