//! Load moves between buses (document 02, W4): refusals in order, the book's bytes, and small cases by hand, there and back among them.

use second::books::loads::*;
use second::books::named::triangle;
use second::books::plain::{moved_up, plain, with_out};
use second::books::sources::{five_bus, five_bus_moved, FIVE_3_4, FIVE_FLOWS};
use second::definitions::answer::Answer;
use second::definitions::book::{pack, unpack, Book};
use second::definitions::load::{self, Shift};
use second::definitions::network::{Excess, Network, Verdict};
use second::definitions::percentage::{Percentage, NAMEPLATE};
use second::definitions::record::{self, SIZE};
use second::definitions::screen;
use second::definitions::switching::Lent;

const HALF: Percentage = Percentage(50);

fn shift(up: usize, down: usize, kw: u32) -> Shift {
    Shift { up, down, kw }
}

fn carries(named: &[usize]) -> [u8; SIZE] {
    record::bytes(Verdict::Carries, named)
}

/// The answer to a move of a book with a flow and a table of enough room.
fn answer(percentage: Percentage, book: &[u8], flow: &[i64], shift: Shift) -> Answer {
    let lent = Lent { percentage, book, flow, table: &vec![0; SIZE * flow.len()] };
    load::allowed(&lent, shift).err().unwrap_or(Answer::ACCEPTED)
}

/// What the judge says of a flow and a table that a move left.
fn faults(book: &Book, flow: &[i64], table: &[u8], shift: Shift, after: &[i64], left: &[u8]) -> Vec<String> {
    let bytes = pack(book);
    let lent = Lent { percentage: NAMEPLATE, book: &bytes, flow, table };
    load::judge(&load::allowed(&lent, shift).unwrap(), &lent, shift, after, left).faults
}

#[test]
fn refusals_come_in_order() {
    let (book, flow, unfit) = (pack(&triangle(30)), [10, 20, 0], [10, 20, 1]);
    let number = |percentage: u8, book: &[u8], flow: &[i64], shift| answer(Percentage(percentage), book, flow, shift).number;
    let (same, beyond) = (shift(1, 1, u32::MAX), shift(0, 1, u32::MAX));
    assert_eq!(number(49, &book[1..], &unfit[1..], same), 21);
    assert_eq!(number(50, &book[1..], &unfit[1..], same), 2);
    assert_eq!(number(50, &book, &unfit[1..], same), 8);
    for wrong in [same, shift(0, 3, u32::MAX), shift(3, 0, u32::MAX), shift(65_535, 0, 0), shift(3, 3, 0), shift(2, 2, 0)] {
        assert_eq!(number(50, &book, &unfit, wrong), 19, "{wrong:?}");
    }
    assert_eq!(number(50, &book, &unfit, beyond), 20);
    assert_eq!(number(100, &book, &unfit, shift(1, 2, 500_000)), 11);
    assert_eq!(number(50, &book, &[10, 20, 0], shift(1, 2, 500_000)), 12);
    // At 50 percent the limits are 20, 20 and 15.
    assert_eq!(number(50, &book, &flow, shift(0, 1, 0)), 0);
    assert_eq!(number(50, &book, &[9, 21, -1], shift(0, 1, 0)), 11);
}

#[test]
fn no_sum_wraps_and_the_edges_are_in_range() {
    let book = pack(&plain(&[999_990, -999_990, 0], &[(0, 1, 1_000_000), (0, 2, 1_000_000), (1, 2, 1_000_000)]));
    let number = |shift| answer(NAMEPLATE, &book, &[999_990, 0, 0], shift).number;
    assert_eq!([10, 11, 1 << 31, (1 << 31) - 1, u32::MAX].map(|kw| number(shift(0, 1, kw))), [0, 20, 20, 20, 20]);
    // Only bus 0 would leave its range, then only bus 1.
    assert_eq!([shift(0, 2, 10), shift(0, 2, 11), shift(2, 1, 10), shift(2, 1, 11)].map(number), [0, 20, 0, 20]);
    // 2^32 less 5: a sum of 32 bits would take 5 off bus 0 and add 5 to bus 1.
    assert_eq!(number(shift(0, 1, u32::MAX - 4)), 20);
    assert_eq!(number(shift(1, 0, 1_999_980)), 0);
    assert_eq!(number(shift(1, 0, 1_999_990)), 0);
    assert_eq!(number(shift(1, 0, 1_999_991)), 20);
}

/// The bits of a book with the fields of a bus given other values, the sign at 32 + 21 times its number and the size after it.
fn put(bits: &mut String, bus: usize, sign: usize, size: usize) {
    bits.replace_range(32 + 21 * bus..53 + 21 * bus, &format!("{sign}{size:020b}"));
}

#[test]
fn the_book_has_the_two_injections_rewritten_and_keeps_its_form() {
    let text = |bytes: &[u8]| bytes.iter().map(|byte| format!("{byte:08b}")).collect::<String>();
    for book in [pack(&triangle(30)), pack(&moved_up(triangle(30)))] {
        // 30, -10, -20 become 20, 0, -20 by the first move; 0 has the sign 0. Of each, what rises and what falls: sign and size.
        for (shift, up, down) in [
            (shift(1, 0, 10), (0, 0), (0, 20)),
            (shift(1, 2, 40), (0, 30), (1, 60)),
            (shift(2, 0, 30), (0, 10), (0, 0)),
            (shift(2, 0, 50), (0, 30), (1, 20)),
            (shift(0, 2, 999_970), (0, 1_000_000), (1, 999_990)),
            (shift(2, 1, 0), (1, 20), (1, 10)),
        ] {
            let mut due = text(&book);
            put(&mut due, shift.up, up.0, up.1);
            put(&mut due, shift.down, down.0, down.1);
            let left = shift.book(&book);
            assert_eq!(text(&left), due, "{shift:?}");
            assert_eq!(shift.turned().book(&left), book);
            assert_eq!(Network::of(&unpack(&left).unwrap(), NAMEPLATE).injections[shift.up] < 0, up.0 == 1);
        }
    }
}

#[test]
fn no_flow_of_the_triangle_changes_by_more_than_is_moved() {
    let (book, flow) = (triangle(30), [10, 20, 0]);
    let table = [carries(&[1, 2]), carries(&[0, 2]), carries(&[])].concat();
    // Of the 10 kW from bus 1 to bus 2, so many go over bus 0; more than 10 or fewer than 0 would go round the ring besides.
    let moved = shift(1, 2, 10);
    let changed = moved.changed(&Network::of(&book, NAMEPLATE));
    for over_0 in -8..=18 {
        let after = [10 - over_0, 20 + over_0, 10 - over_0];
        assert!(changed.fits(&after));
        let found = faults(&book, &flow, &table, moved, &after, &screen::own_table(&changed, &after));
        assert_eq!(found.is_empty(), (0..=10).contains(&over_0), "{over_0} {found:?}");
        assert!(found.iter().all(|fault| fault.starts_with("10 kW were moved, yet the flow of branch")), "{found:?}");
    }
    let same = faults(&book, &flow, &table, moved, &flow, &table);
    assert_eq!(same, ["the flow left does not fit the book with its load moved"]);
}

#[test]
fn moving_nothing_changes_no_flow_and_keeps_what_carries() {
    let (book, flow) = (with_out(triangle(30), 2), [10, 20, 0]);
    let mut odd = [0xEE; SIZE];
    odd[0] = 1;
    let table = [odd, [0; SIZE], odd].concat();
    let none = shift(0, 2, 0);
    let bytes = pack(&book);
    let lent = Lent { percentage: NAMEPLATE, book: &bytes, flow: &flow, table: &table };
    let (after, left) = load::own_result(&load::allowed(&lent, none).unwrap(), &lent, none);
    assert_eq!((after, none.book(&bytes)), (flow.to_vec(), bytes.clone()));
    let islands = record::bytes(Verdict::Islands(Excess { amount: 20, group: 0b11 }), &[]);
    assert_eq!(left, [odd, islands, [0; SIZE]].concat());
    assert_eq!(faults(&book, &flow, &table, none, &flow, &left), Vec::<String>::new());
    assert_eq!(faults(&book, &flow, &table, none, &flow, &table).len(), 2);
    assert_eq!(faults(&book, &flow, &table, none, &flow, &screen::own_table(&Network::of(&book, NAMEPLATE), &flow)).len(), 1);
    // With 1-2 in service 1 kW could go round; that is a change of 1 for a move of 0.
    let (ring, round) = (triangle(30), [11, 19, 1]);
    let table = screen::own_table(&Network::of(&ring, NAMEPLATE), &flow);
    let other = screen::own_table(&Network::of(&ring, NAMEPLATE), &round);
    assert_eq!(
        faults(&ring, &flow, &table, none, &round, &other),
        ["0 kW were moved, yet the flow of branch 0 went from 10 to 11"]
    );
}

#[test]
fn records_of_an_untouched_ring_are_kept() {
    let (book, flow) = (two_ways_and_ring(), TWO_WAYS_FLOW);
    let network = Network::of(&book, NAMEPLATE);
    assert!(network.fits(&flow));
    let mut table = screen::own_table(&network, &flow);
    assert_eq!(record::stretch(&table, 5), carries(&[6, 7]));
    // Bits beyond the count name no branch, touched or not.
    table[SIZE * 5 + 51] = 255;
    let (bytes, moved) = (pack(&book), shift(0, 3, 10));
    let lent = Lent { percentage: NAMEPLATE, book: &bytes, flow: &flow, table: &table };
    let (after, left) = load::own_result(&load::allowed(&lent, moved).unwrap(), &lent, moved);
    assert_eq!(after, [20, 20, 0, 0, 0, 4, 0, 0]);
    assert_eq!(left[2 * SIZE..], table[2 * SIZE..]);
    let listed = |table: &[u8], after: &[i64]| -> Vec<usize> {
        let listed = load::shortlist(&network, table, &flow, after);
        (0..listed.len()).filter(|&branch| listed[branch]).collect()
    };
    // The other way has no flow before and after, and its reroutes are empty; another choice touches it.
    assert_eq!(listed(&table, &after), [0, 1]);
    assert_eq!(listed(&table, &[15, 15, 5, 5, 0, 4, 0, 0]), [0, 1, 2, 3]);
    // The reroute of branch 0 names the other way.
    assert_eq!(listed(&table, &[10, 10, 10, 10, 0, 4, 0, 0]), [0, 1, 2, 3]);
    let mut names = table.clone();
    names[SIZE * 6..SIZE * 7].copy_from_slice(&carries(&[1]));
    assert_eq!(listed(&names, &after), [0, 1, 6]);
    names[SIZE * 4] = 3;
    assert_eq!(listed(&names, &after), [0, 1, 4, 6]);
}

#[test]
fn two_islands_and_tight_limits_are_refused_with_12() {
    let due = |amount, group| Answer::overloaded(Excess { amount, group });
    assert_eq!(answer(NAMEPLATE, &pack(&parted()), &[10, 10], shift(0, 2, 5)), due(5, 0b11));
    assert_eq!(answer(NAMEPLATE, &pack(&parted()), &[10, 10], shift(2, 0, 5)), due(5, 0b1100));
    assert_eq!(answer(NAMEPLATE, &pack(&parted()), &[10, 10], shift(2, 0, 0)), Answer::ACCEPTED);
    // Within an island each has 10 kW to spare.
    assert_eq!([10, 11].map(|kw| answer(NAMEPLATE, &pack(&parted()), &[10, 10], shift(0, 1, kw)).shortage), [0, 1]);
    assert_eq!(answer(NAMEPLATE, &pack(&tight()), &[10], shift(0, 1, 2)), Answer::ACCEPTED);
    assert_eq!(answer(NAMEPLATE, &pack(&tight()), &[10], shift(0, 1, 5)), due(3, 0b1));
    assert_eq!(answer(NAMEPLATE, &pack(&tight()), &[10], shift(1, 0, 22)), Answer::ACCEPTED);
    assert_eq!(answer(NAMEPLATE, &pack(&tight()), &[10], shift(1, 0, 23)), due(1, 0b10));
    // 12 kVA have 9 kW at 75 percent: the flow of 10 doesn't fit.
    assert_eq!(answer(Percentage(75), &pack(&tight()), &[10], shift(1, 0, 5)), Answer::refused(11));
}

#[test]
fn all_that_can_be_moved_is_moved_there_and_back() {
    let short = |group| record::bytes(Verdict::Short(Excess { amount: 500_000, group }), &[]);
    let book = pack(&far());
    let flow = [-500_000, -500_000, 0];
    let network = Network::of(&far(), HALF);
    let table = screen::own_table(&network, &flow);
    assert_eq!(table, [short(0b10), short(0b10), carries(&[])].concat());
    let there = shift(0, 1, FAR);
    let lent = Lent { percentage: HALF, book: &book, flow: &flow, table: &table };
    let (after, left) = load::own_result(&load::allowed(&lent, there).unwrap(), &lent, there);
    assert_eq!(after, [500_000, 500_000, 0]);
    assert_eq!(left, [short(0b101), short(0b101), carries(&[])].concat());
    let moved = there.book(&book);
    assert_eq!(unpack(&moved).unwrap().injections, [1_000_000, -1_000_000, 0]);
    let lent = Lent { percentage: HALF, book: &moved, flow: &after, table: &left };
    let back = there.turned();
    let (after, left) = load::own_result(&load::allowed(&lent, back).unwrap(), &lent, back);
    assert_eq!((back.book(&moved), after, left), (book, flow.to_vec(), table));
}

#[test]
fn section_4_5_1_moves_30_mw_and_the_loss_of_4_3_carries() {
    let (book, moved) = (pack(&five_bus()), shift(1, 3, 30_000));
    assert_eq!(moved.book(&book), pack(&five_bus_moved()));
    for flow in FIVE_FLOWS {
        let table = screen::own_table(&Network::of(&five_bus(), NAMEPLATE), &flow);
        assert_eq!(table[SIZE * FIVE_3_4], 2);
        let lent = Lent { percentage: NAMEPLATE, book: &book, flow: &flow, table: &table };
        let (_, left) = load::own_result(&load::allowed(&lent, moved).unwrap(), &lent, moved);
        assert_eq!(left[SIZE * FIVE_3_4], 1);
    }
}
