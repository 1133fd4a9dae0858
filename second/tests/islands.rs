//! Branches that would island (document 02, W7): document 01's own books and small ones by hand, and on random books another
//! reading of what joins, the flow that such a branch carries, and runs of outages and returns.

use second::books::islands::*;
use second::books::named::{second_and_feeder, second_book, triangle};
use second::books::plain::{moved_up, plain, with_out};
use second::books::random::Random;
use second::books::random_books::{served, served_with_flow};
use second::books::random_islands::{tied, tied_counts};
use second::books::random_percentages::in_range;
use second::books::sources::{ten_bus, TEN_SPLIT};
use second::definitions::answer::Answer;
use second::definitions::book::{pack, unpack, with_status, Book};
use second::definitions::network::{Excess, Network, Verdict};
use second::definitions::percentage::{Percentage, NAMEPLATE};
use second::definitions::reach::{joined, joined_over};
use second::definitions::record::{self, SIZE};
use second::definitions::switching::Lent;
use second::definitions::{comeback, cuts, groups, list, outage, screen};
use second::judging::islands::{has_room, whole_flow};
use second::judging::ratings::agrees;

fn excess(amount: i64, buses: &[usize]) -> Excess {
    Excess { amount, group: buses.iter().fold(0, |group, bus| group | 1 << bus) }
}

fn short(amount: i64, buses: &[usize]) -> Verdict {
    Verdict::Short(excess(amount, buses))
}

fn islands(amount: i64, buses: &[usize]) -> Verdict {
    Verdict::Islands(excess(amount, buses))
}

/// What every branch shows at a percentage, by every group and by cuts; the base excess is 0.
fn shows_at(book: &Book, percentage: u8, due: &[Verdict]) {
    let network = Network::of(book, Percentage(percentage));
    assert_eq!(groups::base_excess(&network), excess(0, &[]));
    for (branch, verdict) in due.iter().enumerate() {
        assert_eq!(groups::verdict(&network, branch), *verdict, "{branch} at {percentage}");
        assert_eq!(cuts::Cutter::new(&network).verdict_afresh(branch), *verdict, "{branch} at {percentage}");
    }
    assert_eq!(screen::verdicts(&network), due);
}

fn shows(book: &Book, due: &[Verdict]) {
    shows_at(book, 100, due);
}

#[test]
fn a_path_is_of_other_branches_in_service() {
    let network = |book: &Book| Network::of(book, NAMEPLATE);
    let joins = |book: &Book| (0..book.branches.len()).map(|branch| joined(&network(book), branch)).collect::<Vec<_>>();
    assert_eq!(joins(&triangle(30)), [true; 3]);
    // Without branch 0 each of the other two would be on its own way only. The ends of branch 0 itself are joined by these.
    assert_eq!(joins(&with_out(triangle(30), 0)), [true, false, false]);
    assert_eq!(joins(&second_book(25)), [true, true, true, false]);
    assert_eq!(joins(&second_and_feeder()), [true; 5]);
    assert_eq!(joins(&with_out(second_and_feeder(), 4)), [true, true, true, false, true]);
    // Two side by side, one alone, and two islands.
    assert_eq!(joins(&side_by_side()), [true; 2]);
    assert_eq!(joins(&plain(&[0, 0], &[(0, 1, 9)])), [false]);
    assert_eq!(joins(&plain(&[0; 4], &[(0, 1, 9), (2, 3, 9), (3, 2, 9)])), [false, true, true]);
    // Against their directions, and over limits of 0.
    assert_eq!(joins(&plain(&[0; 3], &[(0, 1, 9), (2, 1, 0), (0, 2, 0)])), [true; 3]);
}

#[test]
fn the_second_book_and_the_triangle_of_document_01() {
    shows(&second_book(25), &[short(20, &[0]), short(35, &[0, 1]), short(20, &[0, 1]), islands(20, &[0, 1, 2])]);
    shows(&with_out(triangle(30), 0), &[Verdict::Out, islands(30, &[0]), islands(10, &[0, 2])]);
    shows(&triangle(30), &[Verdict::Carries; 3]);
    let due = "4 4\n0 short 20 1 0\n1 short 35 2 0 1\n2 short 20 2 0 1\n3 islands 20 3 0 1 2\n";
    assert_eq!(list::list(&pack(&second_book(25))), due);
    assert_eq!(list::list(&pack(&moved_up(second_book(25)))), due);
    assert_eq!(list::list(&pack(&with_out(triangle(30), 0))), "3 3\n0 out\n1 islands 30 1 0\n2 islands 10 2 0 2\n");
}

#[test]
fn a_record_of_an_islanding_branch_differs_in_byte_0_alone() {
    let [three, two] = [islands(20, &[0, 1, 2]), short(20, &[0, 1, 2])].map(|verdict| record::bytes(verdict, &[]));
    assert_eq!((three[0], two[0]), (3, 2));
    assert_eq!(three[1..], two[1..]);
    assert_eq!(three[..5], [3, 0, 0, 20, 0b1110_0000]);
    assert!(three[5..].iter().all(|&byte| byte == 0));
    assert!(record::is_short(&three) && record::is_short(&two));
    assert_eq!((record::shortage(&three), record::group(&three)), (20, 0b111));
    let others = [record::bytes(Verdict::Carries, &[3]), [0; SIZE], [4; SIZE], [255; SIZE]];
    assert!(others.iter().all(|bytes| !record::is_short(bytes)));
}

#[test]
fn a_branch_of_limit_0_joins_and_one_out_of_service_does_not() {
    shows(&ring_zero(), &[short(30, &[0]), short(10, &[0, 1]), Verdict::Carries, Verdict::Carries]);
    let out = with_out(ring_zero(), CLOSES);
    shows(&out, &[islands(30, &[0]), islands(10, &[0, 1]), Verdict::Out, Verdict::Carries]);
    assert_eq!(list::list(&pack(&ring_zero())), "4 4\n0 short 30 1 0\n1 short 10 2 0 1\n2 carries\n3 carries\n");
    assert_eq!(list::list(&pack(&out)), "4 4\n0 islands 30 1 0\n1 islands 10 2 0 1\n2 out\n3 carries\n");
    // 1 kVA at power factor 999 is 0 kW; 0 kVA with 5 for a short time gives 5 kW after a loss.
    shows(&ring_closed_by(1, 1, 999), &[short(30, &[0]), short(10, &[0, 1]), Verdict::Carries, Verdict::Carries]);
    shows(&ring_closed_by(0, 5, 1000), &[short(25, &[0]), short(5, &[0, 1]), Verdict::Carries, Verdict::Carries]);
    // With 30 kW for a short time nothing is short.
    shows(&ring_closed_by(0, 30, 1000), &[Verdict::Carries; 4]);
}

#[test]
fn a_branch_joins_whatever_the_percentage_makes_of_its_limit() {
    let ring = ring_closed_by(1, 1, 1000);
    shows_at(&ring, 100, &[short(29, &[0]), short(9, &[0, 1]), Verdict::Carries, Verdict::Carries]);
    for percentage in [75, 99] {
        shows_at(&ring, percentage, &[short(30, &[0]), short(10, &[0, 1]), Verdict::Carries, Verdict::Carries]);
    }
    let out = with_out(ring, CLOSES);
    for percentage in [75, 99, 100] {
        shows_at(&out, percentage, &[islands(30, &[0]), islands(10, &[0, 1]), Verdict::Out, Verdict::Carries]);
    }
}

#[test]
fn a_spur_without_flow_carries() {
    let spur = plain(&[0, 0], &[(0, 1, 9)]);
    shows(&spur, &[Verdict::Carries]);
    shows(&with_out(spur, 0), &[Verdict::Out]);
    shows(&plain(&[1, -1], &[(0, 1, 9)]), &[islands(1, &[0])]);
    shows(&plain(&[-1, 1], &[(0, 1, 9)]), &[islands(1, &[1])]);
    // A bridge between two parts that need nothing from each other.
    let parts = plain(&[5, -5, 7, -7], &[(0, 1, 9), (1, 2, 9), (2, 3, 9)]);
    shows(&parts, &[islands(5, &[0]), Verdict::Carries, islands(7, &[0, 1, 2])]);
}

#[test]
fn two_side_by_side_are_each_others_way_round() {
    shows(&side_by_side(), &[short(5, &[0]), Verdict::Carries]);
    shows(&with_out(side_by_side(), 1), &[islands(10, &[0]), Verdict::Out]);
    shows(&side_by_side_two(), &[Verdict::Carries; 2]);
    shows(&with_out(side_by_side_two(), 1), &[islands(10, &[0]), Verdict::Out]);
}

#[test]
fn the_radial_branches_of_the_ten_bus_system_island() {
    let network = Network::of(&ten_bus(&TEN_SPLIT), NAMEPLATE);
    // 5-6 and 5-10 lead to buses 5 and 10 alone; the others are on one of two rings.
    let radial: Vec<usize> = (0..11).filter(|&branch| !joined(&network, branch)).collect();
    assert_eq!(radial, [6, 7]);
    assert_eq!(cuts::verdict(&network, 6), islands(150_000, &[4, 9]));
    assert_eq!(cuts::verdict(&network, 7), islands(100_000, &[9]));
}

#[test]
fn a_path_may_be_as_long_as_128_buses_allow() {
    let up_to = |bus: usize| (0..=bus).collect::<Vec<_>>();
    let due = |verdict: fn(i64, &[usize]) -> Verdict, last| {
        (0..127).map(|branch| verdict(5, &up_to(branch))).chain([last]).collect::<Vec<_>>()
    };
    assert_eq!(screen::verdicts(&Network::of(&long_ring(), NAMEPLATE)), due(short, Verdict::Carries));
    assert_eq!(screen::verdicts(&Network::of(&with_out(long_ring(), LONG_CLOSES), NAMEPLATE)), due(islands, Verdict::Out));
}

/// What is lent at 100 percent.
fn lent<'a>(book: &'a [u8], flow: &'a [i64], table: &'a [u8]) -> Lent<'a> {
    Lent { percentage: NAMEPLATE, book, flow, table }
}

fn records(verdicts: &[Verdict]) -> Vec<u8> {
    verdicts.iter().flat_map(|verdict| record::bytes(*verdict, &[])).collect()
}

#[test]
fn an_outage_islands_and_a_return_joins_again() {
    let (bytes, flow) = (pack(&ring_zero()), [30, 10, 0, 0]);
    let before = records(&[short(30, &[0]), short(10, &[0, 1]), Verdict::Carries, Verdict::Carries]);
    let after = records(&[islands(30, &[0]), islands(10, &[0, 1]), Verdict::Out, Verdict::Carries]);
    let network = outage::allowed(&lent(&bytes, &flow, &before), CLOSES).unwrap();
    assert_eq!(outage::own_result(&network, &lent(&bytes, &flow, &before), CLOSES), (flow.to_vec(), after.clone()));
    let out = with_status(&bytes, CLOSES, false);
    let network = comeback::allowed(&lent(&out, &flow, &after), CLOSES).unwrap();
    assert_eq!(comeback::own_result(&network, &lent(&out, &flow, &after), CLOSES), (flow.to_vec(), before.clone()));
    // Nothing else is taken for right: 2 kept after the outage, 3 kept after the return, 3 for the spur.
    for branch in [0, 1, SPUR] {
        let wrong = |table: &[u8], byte_0: u8| {
            let mut table = table.to_vec();
            table[SIZE * branch] = byte_0;
            table
        };
        let outs = if branch == SPUR { wrong(&after, 3) } else { wrong(&after, 2) };
        let network = Network::of(&ring_zero(), NAMEPLATE);
        assert!(!outage::judge(&network, &lent(&bytes, &flow, &before), CLOSES, &flow, &outs).faults.is_empty());
        assert!(!comeback::judge(&network.without(CLOSES), &lent(&out, &flow, &after), CLOSES, &flow, &wrong(&before, 3))
            .faults
            .is_empty());
    }
}

#[test]
fn a_record_of_byte_0_3_is_written_anew_by_every_call() {
    let (bytes, flow) = (pack(&ring_zero()), [30, 10, 0, 0]);
    let table = [3; 4 * SIZE];
    let network = Network::of(&ring_zero(), NAMEPLATE);
    assert_eq!(outage::shortlist(&network, &table, SPUR, &flow, &flow), [true; 4]);
    assert_eq!(comeback::anew(&table, SPUR, 4), [true; 4]);
    let due = records(&[short(30, &[0]), short(10, &[0, 1]), Verdict::Carries, Verdict::Out]);
    assert_eq!(outage::own_result(&network, &lent(&bytes, &flow, &table), SPUR).1, due);
}

#[test]
fn an_islanding_branch_is_refused_with_what_its_record_shows() {
    let taken = |book: &Book, flow: &[i64], branch| {
        let table = screen::own_table(&Network::of(book, NAMEPLATE), flow);
        outage::allowed(&lent(&pack(book), flow, &table), branch).map(|_| ())
    };
    assert_eq!(taken(&second_book(25), &[20, 40, 20, 20], 3), Err(Answer::overloaded(excess(20, &[0, 1, 2]))));
    assert_eq!(taken(&with_out(triangle(30), 0), &[0, 30, -10], 1), Err(Answer::overloaded(excess(30, &[0]))));
    assert_eq!(taken(&ring_zero(), &[30, 10, 0, 0], SPUR), Ok(()));
}

#[test]
fn a_refusal_has_the_shortage_of_an_islanding_record_where_limits_differ_too() {
    let network = Network::of(&with_out(ring_closed_by(0, 5, 1000), CLOSES), NAMEPLATE);
    let mut differing = network.clone();
    differing.lines[1].second_limit += 7;
    let says = |network: &Network, shown: Verdict, answer: Excess| {
        agrees(network, &record::bytes(shown, &[]), Answer::overloaded(answer)).is_ok()
    };
    assert!(says(&network, islands(30, &[0]), excess(30, &[0])) && !says(&network, islands(30, &[0]), excess(30, &[0, 3])));
    assert!(says(&differing, islands(10, &[0, 1]), excess(10, &[0])));
    assert!(
        !says(&differing, islands(10, &[0, 1]), excess(11, &[0])) && !says(&differing, islands(10, &[0, 1]), excess(9, &[0]))
    );
    assert!(says(&differing, short(10, &[0, 1]), excess(11, &[0])));
}

#[test]
fn what_is_short_of_another_amount_than_its_flow_does_not_island() {
    let record = |byte_0: u8| {
        let mut bytes = record::bytes(short(20, &[0]), &[]);
        bytes[0] = byte_0;
        bytes
    };
    assert_eq!((whole_flow(0, 20, &record(3)), whole_flow(0, -20, &record(3))), (Ok(()), Ok(())));
    assert!(whole_flow(0, 19, &record(3)).is_err() && whole_flow(0, 0, &record(3)).is_err());
    assert_eq!(whole_flow(0, 19, &record(2)), Ok(()));
}

/// A random book of any kind with a flow that fits it at a percentage.
fn any_book(random: &mut Random, percentage: Percentage, round: usize) -> (Book, Vec<i64>) {
    if round.is_multiple_of(2) {
        let (buses, ties) = tied_counts(random);
        return tied(random, percentage, buses.min(10), ties);
    }
    let buses = 2 + random.below(7);
    let count = random.below(2 * buses);
    served_with_flow(random, percentage, buses, count)
}

#[test]
fn joined_is_what_islands_of_the_network_without_the_branch_say() {
    let mut random = Random(61);
    let (mut yes, mut no) = (0, 0);
    for round in 0..2000 {
        let network = Network::of(&any_book(&mut random, NAMEPLATE, round).0, NAMEPLATE);
        for (branch, line) in network.lines.iter().enumerate() {
            let island = network.without(branch).islands();
            assert_eq!(joined(&network, branch), island[line.first] == island[line.second]);
            (yes, no) = (yes + joined(&network, branch) as usize, no + !joined(&network, branch) as usize);
        }
    }
    assert!(yes > 3000 && no > 3000, "{yes} {no}");
}

#[test]
fn both_methods_agree_on_what_islands() {
    let mut random = Random(62);
    let (mut islanding, mut shorts, mut by_0, mut whole, mut idle) = (0, 0, 0, 0, 0);
    for round in 0..3000 {
        let percentage = in_range(&mut random);
        let (book, flow) = any_book(&mut random, percentage, round);
        let network = Network::of(&book, percentage);
        for branch in 0..network.lines.len() {
            let verdict = groups::verdict(&network, branch);
            assert_eq!(verdict, cuts::verdict(&network, branch), "branch {branch} of {book:?}");
            let kw = flow[branch].abs();
            match verdict {
                Verdict::Islands(excess) => {
                    // Short of its whole flow by whichever flow fits, and never with a flow of 0.
                    assert_eq!(excess.amount, kw);
                    assert_eq!(excess.amount, cuts::fitting_flow(&network).unwrap()[branch].abs());
                    islanding += 1;
                }
                Verdict::Short(excess) => {
                    (shorts, whole) = (shorts + 1, whole + (excess.amount == kw) as usize);
                    by_0 += !joined_over(&network, branch, has_room) as usize;
                }
                Verdict::Carries if !joined(&network, branch) => {
                    assert_eq!(kw, 0);
                    idle += 1;
                }
                _ => {}
            }
        }
    }
    let enough = islanding > 2000 && shorts > 2000 && by_0 > 500 && whole > 500 && idle > 500;
    assert!(enough, "{islanding} {shorts} {by_0} {whole} {idle}");
}

#[test]
fn runs_agree_with_a_fresh_screen_on_what_islands() {
    let mut random = Random(63);
    let (mut islanded, mut joined_again, mut calls) = (0, 0, 0);
    for round in 0..600 {
        let percentage = in_range(&mut random);
        let (book, flow) = any_book(&mut random, percentage, round);
        let count = book.branches.len();
        let mut held = (pack(&book), flow.clone(), screen::own_table(&Network::of(&book, percentage), &flow));
        let branches: Vec<usize> = (0..8.min(8 * count)).map(|_| random.below(count)).collect();
        for branch in branches {
            let served = unpack(&held.0).unwrap().branches[branch].served;
            let lent = Lent { percentage, book: &held.0, flow: &held.1, table: &held.2 };
            let left = match served {
                true => outage::allowed(&lent, branch).map(|network| outage::own_result(&network, &lent, branch)),
                false => comeback::allowed(&lent, branch).map(|network| comeback::own_result(&network, &lent, branch)),
            };
            let Ok((flow, table)) = left else { continue };
            let turned = |from: u8, to: u8| (0..count).filter(|k| (held.2[SIZE * k], table[SIZE * k]) == (from, to)).count();
            (islanded, joined_again) = (islanded + turned(2, 3), joined_again + turned(3, 2));
            // No outage joins, and no return islands.
            assert_eq!(if served { turned(3, 2) + turned(3, 1) } else { turned(2, 3) + turned(1, 3) }, 0);
            held = (with_status(&held.0, branch, !served), flow, table);
            let network = Network::of(&unpack(&held.0).unwrap(), percentage);
            for k in 0..count {
                assert_eq!(held.2[SIZE * k..SIZE * k + 20], record::bytes(groups::verdict(&network, k), &[])[..20]);
            }
            calls += 1;
        }
    }
    assert!(islanded > 100 && joined_again > 100 && calls > 1500, "{islanded} {joined_again} {calls}");
}

#[test]
fn large_books_island_as_their_islands_say() {
    let mut random = Random(64);
    let (mut islanding, mut shorts) = (0, 0);
    for round in 0..40 {
        let book = if round % 2 == 0 { served(&mut random, 128, 200) } else { tied(&mut random, NAMEPLATE, 128, 20).0 };
        let network = Network::of(&book, NAMEPLATE);
        for (branch, verdict) in
            screen::verdicts(&network).into_iter().enumerate().filter(|(_, verdict)| verdict.excess().is_some())
        {
            let (line, island) = (&network.lines[branch], network.without(branch).islands());
            assert_eq!(matches!(verdict, Verdict::Islands(_)), island[line.first] != island[line.second]);
            (islanding, shorts) = (islanding + matches!(verdict, Verdict::Islands(_)) as usize, shorts + 1);
        }
    }
    assert!(islanding > 300 && shorts > islanding + 300, "{islanding} {shorts}");
}
