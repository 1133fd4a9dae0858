//! Document 01's marked examples (a) to (l), its two books and its own numbers, by both methods.

use second::books::named::{largest, second_book, triangle};
use second::books::plain::{plain, with_out};
use second::definitions::answer::Answer;
use second::definitions::book::{pack, unpack, with_status, Book};
use second::definitions::form::Form;
use second::definitions::limits::limit_in_kw;
use second::definitions::meters::{advance, injections, Registers};
use second::definitions::network::{Excess, Network, Verdict};
use second::definitions::outage::{allowed, own_result};
use second::definitions::percentage::NAMEPLATE;
use second::definitions::switching::Lent;
use second::definitions::{cuts, groups, list, record, screen};

fn excess(amount: i64, buses: &[usize]) -> Excess {
    Excess { amount, group: buses.iter().fold(0, |group, bus| group | 1 << bus) }
}

fn short(amount: i64, buses: &[usize]) -> Verdict {
    Verdict::Short(excess(amount, buses))
}

fn islands(amount: i64, buses: &[usize]) -> Verdict {
    Verdict::Islands(excess(amount, buses))
}

fn shows(book: &Book, due: &[Verdict]) {
    let network = Network::of(&unpack(&pack(book)).unwrap(), NAMEPLATE);
    assert_eq!(groups::base_excess(&network), Excess { amount: 0, group: 0 });
    for (branch, verdict) in due.iter().enumerate() {
        assert_eq!(groups::verdict(&network, branch), *verdict);
        assert_eq!(cuts::verdict(&network, branch), *verdict);
    }
}

#[test]
fn the_triangle_has_the_papers_bytes() {
    let bytes = "03 01 FD 00 00 00 F4 00 02 A0 00 28 00 08 00 14 40 02 00 02 88 10 40 00 3D";
    let bytes: Vec<u8> = bytes.split(' ').map(|byte| u8::from_str_radix(byte, 16).unwrap()).collect();
    assert_eq!(pack(&triangle(30)), bytes);
    assert_eq!(unpack(&bytes).unwrap(), triangle(30));
}

#[test]
fn the_largest_old_book_has_1460_bytes() {
    assert_eq!(Form::Old.length(128, 256), 1460);
    assert_eq!(pack(&largest()).len(), 1460);
}

#[test]
fn limits_round_down() {
    assert_eq!((limit_in_kw(1, 999, NAMEPLATE), limit_in_kw(1000, 999, NAMEPLATE)), (0, 999));
}

#[test]
fn a_triangle_all_carry() {
    shows(&triangle(30), &[Verdict::Carries; 3]);
}

#[test]
fn b_triangle_with_branch_0_out() {
    let due = [Verdict::Out, islands(30, &[0]), islands(10, &[0, 2])];
    assert_eq!(list::list(&pack(&with_out(triangle(30), 0))), "3 3\n0 out\n1 islands 30 1 0\n2 islands 10 2 0 2\n");
    shows(&with_out(triangle(30), 0), &due);
    let bytes = pack(&triangle(30));
    let (flow, table) = fresh(&bytes);
    let lent = Lent { percentage: NAMEPLATE, book: &bytes, flow: &flow, table: &table };
    let network = allowed(&lent, 0).unwrap();
    let (after, left) = own_result(&network, &lent, 0);
    for (branch, verdict) in due.into_iter().enumerate().skip(1) {
        assert_eq!(record::stretch(&left, branch), record::bytes(verdict, &[]));
    }
    assert_eq!(left[..52], [0; 52]);
    assert!(network.without(0).fits(&after));
}

/// A flow and a true table of our own for a book that is not refused.
fn fresh(bytes: &[u8]) -> (Vec<i64>, Vec<u8>) {
    let network = screen::screened(NAMEPLATE, bytes, 256, 13312).unwrap();
    let flow = cuts::fitting_flow(&network).unwrap();
    let table = screen::own_table(&network, &flow);
    (flow, table)
}

#[test]
fn c_then_branch_1_is_refused() {
    let bytes = with_status(&pack(&triangle(30)), 0, false);
    assert_eq!(bytes, pack(&with_out(triangle(30), 0)));
    let (flow, table) = fresh(&bytes);
    let answer = allowed(&Lent { percentage: NAMEPLATE, book: &bytes, flow: &flow, table: &table }, 1).unwrap_err();
    assert_eq!(answer, Answer { number: 12, shortage: 30, group: 1, place: None });
}

#[test]
fn d_and_e_one_kw_decides() {
    shows(&triangle(20), &[Verdict::Carries; 2]);
    let network = Network::of(&triangle(19), NAMEPLATE);
    assert_eq!(groups::verdict(&network, 1), short(1, &[0, 1]));
    assert_eq!(cuts::verdict(&network, 1), short(1, &[0, 1]));
}

#[test]
fn f_to_i_the_second_book() {
    shows(&second_book(25), &[short(20, &[0]), short(35, &[0, 1]), short(20, &[0, 1]), islands(20, &[0, 1, 2])]);
    let due = "4 4\n0 short 20 1 0\n1 short 35 2 0 1\n2 short 20 2 0 1\n3 islands 20 3 0 1 2\n";
    assert_eq!(list::list(&pack(&second_book(25))), due);
}

#[test]
fn j_the_second_book_overloaded() {
    let network = Network::of(&second_book(15), NAMEPLATE);
    let due = Excess { amount: 5, group: 0b11 };
    assert_eq!((groups::base_excess(&network), cuts::base_excess(&network)), (due, due));
    assert_eq!(list::list(&pack(&second_book(15))), "refused 12 5 2 0 1\n");
}

#[test]
fn k_one_bus_and_no_branch() {
    let book = plain(&[0], &[]);
    shows(&book, &[]);
    assert_eq!(list::list(&pack(&book)), "1 0\n");
}

#[test]
fn l_the_two_register_examples() {
    assert_eq!(advance(4_294_967_290, 10), 16);
    let read = |start: u32, end: u32| {
        let registers =
            Registers { import_start: &[0, 0], import_end: &[0, 0], export_start: &[start, 5], export_end: &[end, 1] };
        injections(&registers, 1, 2)
    };
    assert_eq!(read(4_294_967_290, 10), Ok(vec![16, -16]));
    assert_eq!(read(10, 9), Err(15));
}

#[test]
fn a_tie_shows_the_smallest_group() {
    shows(&plain(&[5, 0, -5], &[(0, 2, 5), (0, 1, 3), (1, 2, 3)]), &[short(2, &[0])]);
}
