//! A branch comes back (document 02, W1): small cases by hand, out and back, runs mixed with outages on random books.

use second::books::named::{second_and_feeder, triangle};
use second::books::plain::with_out;
use second::books::random::Random;
use second::books::random_books::served;
use second::books::sources::{five_bus, FIVE_3_4, FIVE_3_5, FIVE_FLOWS};
use second::definitions::book::{pack, unpack, with_status, Book};
use second::definitions::network::{Excess, Network, Verdict};
use second::definitions::percentage::NAMEPLATE;
use second::definitions::record::{self, SIZE};
use second::definitions::switching::Lent;
use second::definitions::{comeback, cuts, groups, outage, screen};
use second::streams::stored::four;

fn short(amount: i64, buses: &[usize]) -> [u8; SIZE] {
    let group = buses.iter().fold(0, |group, bus| group | 1 << bus);
    record::bytes(Verdict::Short(Excess { amount, group }), &[])
}

fn islands(amount: i64, buses: &[usize]) -> [u8; SIZE] {
    let mut bytes = short(amount, buses);
    bytes[0] = 3;
    bytes
}

fn carries(named: &[usize]) -> [u8; SIZE] {
    record::bytes(Verdict::Carries, named)
}

/// The table that our own call leaves; the judge finds nothing wrong with it.
fn brought_back(book: &Book, flow: &[i64], table: &[u8], branch: usize) -> Vec<u8> {
    let bytes = pack(book);
    let lent = Lent { percentage: NAMEPLATE, book: &bytes, flow, table };
    let network = comeback::allowed(&lent, branch).unwrap();
    let (after, left) = comeback::own_result(&network, &lent, branch);
    assert_eq!(after, flow);
    assert_eq!(comeback::judge(&network, &lent, branch, &after, &left).faults, Vec::<String>::new());
    left
}

/// What the judge says of a table left by a return.
fn faults(book: &Book, flow: &[i64], lent: &[u8], branch: usize, left: &[u8]) -> usize {
    let bytes = pack(book);
    let lent = Lent { percentage: NAMEPLATE, book: &bytes, flow, table: lent };
    comeback::judge(&comeback::allowed(&lent, branch).unwrap(), &lent, branch, flow, left).faults.len()
}

#[test]
fn triangle_branch_0_out_and_back() {
    let (book, flow) = (triangle(30), [10, 20, 0]);
    let bytes = pack(&book);
    // Without 0-1 the 10 kW to bus 1 go over 0-2 and 1-2, without 0-2 the 20 go over the other two; 1-2 has no flow.
    let table = [carries(&[1, 2]), carries(&[0, 2]), carries(&[])].concat();
    let lent = Lent { percentage: NAMEPLATE, book: &bytes, flow: &flow, table: &table };
    let network = outage::allowed(&lent, 0).unwrap();
    let (after, left) = outage::own_result(&network, &lent, 0);
    assert_eq!(after, [0, 30, -10]);
    assert_eq!(left, [[0; SIZE], islands(30, &[0]), islands(10, &[0, 2])].concat());
    // Back: the flow stays on 0-2 and 1-2. Without 0-2 it is 30, 0, 20, without 1-2 it is 10, 20, 0, and no other fits.
    let back = brought_back(&with_out(book, 0), &after, &left, 0);
    assert_eq!(back, [carries(&[]), carries(&[0, 2]), carries(&[0, 1])].concat());
    assert_eq!(with_status(&with_status(&bytes, 0, false), 0, true), bytes);
}

#[test]
fn second_book_and_a_feeder_that_comes_back() {
    let (book, flow) = (with_out(second_and_feeder(), 4), [20, 40, 20, 20, 0]);
    let shorts = [short(20, &[0]), short(35, &[0, 1]), short(20, &[0, 1]), islands(20, &[0, 1, 2])];
    let table = [shorts.concat(), vec![0; SIZE]].concat();
    let left = brought_back(&book, &flow, &table, 4);
    assert_eq!(left[..2 * SIZE], [shorts[0], short(20, &[0])].concat());
    assert_eq!(left[4 * SIZE..], carries(&[]));
    // Without 1-2, 0-1 has 20 to 30 kW that go on over the feeder; without 2-3, the feeder has the 20 of bus 3.
    for third in [&[3, 4][..], &[0, 1, 3, 4]] {
        for fourth in [&[2, 4][..], &[0, 1, 4], &[0, 1, 2, 4]] {
            let other = [&left[..2 * SIZE], &carries(third), &carries(fourth), &carries(&[])].concat();
            assert_eq!(faults(&book, &flow, &table, 4, &other), 0);
        }
    }
    for wrong in [&[][..], &[3], &[4], &[1, 3, 4], &[2, 3, 4]] {
        let other = [&left[..2 * SIZE], &carries(wrong), &left[3 * SIZE..]].concat();
        assert_eq!(faults(&book, &flow, &table, 4, &other), 1, "{wrong:?}");
    }
    let kept = [&table[..4 * SIZE], &carries(&[])].concat();
    assert_eq!(faults(&book, &flow, &table, 4, &kept), 3);
}

#[test]
fn an_untrue_table_keeps_every_other_record_of_byte_0_1() {
    let book = with_out(with_out(four().0, 4), 5);
    let flow = [25, 15, -5, 20, 0, 0];
    let (mut odd, mut kept_out) = ([0xEE; SIZE], [0xEE; SIZE]);
    (odd[0], kept_out[0]) = (7, 1);
    let names_5 = carries(&[2, 5]);
    let table = [odd, names_5, [2; SIZE], [0; SIZE], kept_out, [255; SIZE]].concat();
    let left = brought_back(&book, &flow, &table, 5);
    assert_eq!(left[SIZE..2 * SIZE], names_5);
    assert_eq!(left[4 * SIZE..5 * SIZE], kept_out);
    assert_eq!(left[5 * SIZE..], carries(&[]));
    // Bus 3 has 1-3 and the 9 kW of the branch that came back.
    assert_eq!(left[3 * SIZE..4 * SIZE], short(11, &[0, 1, 2]));
    assert_eq!((left[0], left[2 * SIZE]), (1, 1));
    let with = |branch: usize, bytes: &[u8]| [&left[..SIZE * branch], bytes, &left[SIZE * (branch + 1)..]].concat();
    for (branch, bytes) in [(0, odd), (1, carries(&[2])), (3, [0; SIZE]), (4, [0; SIZE]), (5, [255; SIZE]), (5, [0; SIZE])] {
        assert_eq!(faults(&book, &flow, &table, 5, &with(branch, &bytes)), 1, "{branch}");
    }
}

#[test]
fn five_bus_branch_3_5_comes_back() {
    let out = with_out(five_bus(), FIVE_3_5);
    let table = screen::own_table(&Network::of(&out, NAMEPLATE), &FIVE_FLOWS[2]);
    assert_eq!(record::stretch(&table, FIVE_3_4), short(210_000, &[3, 4]));
    let left = brought_back(&out, &FIVE_FLOWS[2], &table, FIVE_3_5);
    assert_eq!(record::stretch(&left, FIVE_3_4), short(30_000, &[3, 4]));
    assert_eq!(record::stretch(&left, FIVE_3_5), carries(&[]));
}

/// A book with its flow and table, as a run of our own calls leaves them.
struct Held {
    book: Vec<u8>,
    flow: Vec<i64>,
    table: Vec<u8>,
}

impl Held {
    fn screened(book: &Book) -> Held {
        let network = Network::of(book, NAMEPLATE);
        let flow = cuts::fitting_flow(&network).unwrap();
        Held { book: pack(book), table: screen::own_table(&network, &flow), flow }
    }

    fn switch(&mut self, branch: usize) -> bool {
        let serves = !unpack(&self.book).unwrap().branches[branch].served;
        let lent = Lent { percentage: NAMEPLATE, book: &self.book, flow: &self.flow, table: &self.table };
        let left = match serves {
            true => comeback::allowed(&lent, branch).map(|network| comeback::own_result(&network, &lent, branch)),
            false => outage::allowed(&lent, branch).map(|network| outage::own_result(&network, &lent, branch)),
        };
        let Ok((flow, table)) = left else {
            return false;
        };
        assert!(!serves || flow == self.flow);
        *self = Held { book: with_status(&self.book, branch, serves), flow, table };
        true
    }

    /// Every record's verdict, shortage and group is that of a fresh screen by every group, and the table is true.
    fn agrees_with_a_fresh_screen(&self) {
        let network = Network::of(&unpack(&self.book).unwrap(), NAMEPLATE);
        assert!(screen::table_holds(&network, &self.flow, &self.table));
        for branch in 0..self.flow.len() {
            let fresh = record::bytes(groups::verdict(&network, branch), &[]);
            assert_eq!(record::stretch(&self.table, branch)[..20], fresh[..20]);
        }
    }

    /// All that document 01 fixes: the book, and bytes 0 to 19 of every record.
    fn fixed(&self) -> (Vec<u8>, Vec<u8>) {
        (self.book.clone(), self.table.chunks(SIZE).flat_map(|record| record[..20].to_vec()).collect())
    }
}

#[test]
fn any_mixture_of_outages_and_returns_agrees_with_a_fresh_screen() {
    let mut random = Random(7);
    let (mut outs, mut backs, mut pairs) = (0, 0, 0);
    for _ in 0..400 {
        let (buses, count) = (2 + random.below(6), 1 + random.below(12));
        let mut held = Held::screened(&served(&mut random, buses, count));
        for _ in 0..8 {
            let branch = random.below(count);
            let served = unpack(&held.book).unwrap().branches[branch].served;
            let start = held.fixed();
            if !held.switch(branch) {
                assert!(served, "a fitting flow lets every branch come back");
                continue;
            }
            held.agrees_with_a_fresh_screen();
            (outs, backs) = (outs + served as usize, backs + !served as usize);
            if served && random.once_in(2) {
                assert!(held.switch(branch));
                assert_eq!(held.fixed(), start);
                held.agrees_with_a_fresh_screen();
                pairs += 1;
            }
        }
    }
    assert!(outs > 800 && backs > 400 && pairs > 400, "{outs} {backs} {pairs}");
}
