//! The order of switchings (document 02, W13) by the definitions alone: every order of lists of up to four on small random books, with
//! every group tried, and the books worked out by hand.

mod held;

use held::Held;
use second::books::orders::*;
use second::books::random::Random;
use second::books::random_books::served;
use second::books::random_orders::{bundled, meshed};
use second::books::random_ratings::heavy;
use second::definitions::answer::Answer;
use second::definitions::book::{pack, unpack, Book};
use second::definitions::network::{Excess, Network, Verdict};
use second::definitions::percentage::{Percentage, NAMEPLATE};
use second::definitions::record;
use second::definitions::{cuts, groups};

/// Every order of a list.
fn orders(list: &[usize]) -> Vec<Vec<usize>> {
    if list.is_empty() {
        return vec![Vec::new()];
    }
    let with = |first: usize| {
        let rest: Vec<usize> = list.iter().copied().filter(|&other| other != first).collect();
        orders(&rest).into_iter().map(move |order| [&[first], &order[..]].concat())
    };
    list.iter().flat_map(|&first| with(first)).collect()
}

/// A small book of any kind that isn't overloaded at a percentage.
fn any_book(random: &mut Random, percentage: Percentage) -> Book {
    loop {
        let (buses, count) = (2 + random.below(5), 2 + random.below(9));
        let book = match random.below(4) {
            0 => heavy(random, percentage, buses, count).0,
            1 => served(random, buses, count),
            2 => bundled(random, percentage),
            _ => meshed(random, percentage),
        };
        let small = book.injections.len() <= 8 && book.branches.len() <= 20;
        if small && cuts::base_excess(&Network::of(&book, percentage)).amount == 0 {
            return book;
        }
    }
}

/// A book screened and a few branches switched, and up to four branches in or out of service, or of either kind.
fn start(random: &mut Random, served: Option<bool>) -> (Held, Vec<usize>) {
    let percentage = *random.pick(&[NAMEPLATE, Percentage(50), Percentage(75)]);
    let book = any_book(random, percentage);
    let mut held = Held::screened(&book, percentage);
    for _ in 0..random.below(3) + 3 * (served != Some(true)) as usize {
        held.switch(random.below(book.branches.len()));
    }
    let wanted = |k: &usize| served.is_none_or(|served| held.network().lines[*k].served == served);
    let mut list: Vec<usize> = (0..book.branches.len()).filter(wanted).collect();
    random.shuffle(&mut list);
    list.truncate(*random.pick(&[2, 2, 3, 4]));
    (held, list)
}

/// What an order leaves, and what each call was answered.
fn switched(start: &Held, order: &[usize]) -> (Held, Vec<Answer>) {
    let mut held = start.clone();
    let answers = order.iter().map(|&branch| held.switch(branch)).collect();
    (held, answers)
}

fn in_full(answers: &[Answer]) -> bool {
    answers.iter().all(|answer| answer.accepted())
}

#[test]
fn outages_are_accepted_in_full_in_every_order_or_in_none() {
    let (mut random, mut full, mut not, mut places, mut flows) = (Random(13), 0, 0, 0, 0);
    for _ in 0..700 {
        let (start, list) = start(&mut random, Some(true));
        let without = list.iter().fold(start.network(), |network, &branch| network.without(branch));
        let spared = groups::base_excess(&without).amount == 0;
        let ends: Vec<(Held, Vec<Answer>)> = orders(&list).iter().map(|order| switched(&start, order)).collect();
        assert!(ends.iter().all(|(_, answers)| in_full(answers) == spared), "{list:?}");
        if spared {
            ends[0].0.agrees_with_a_fresh_screen();
            assert!(ends.iter().all(|(left, _)| left.fixed() == ends[0].0.fixed()));
            flows += ends.iter().any(|(left, _)| left.flow != ends[0].0.flow) as usize;
        } else {
            let place = |answers: &[Answer]| answers.iter().position(|answer| !answer.accepted());
            places += ends.iter().any(|(_, answers)| place(answers) != place(&ends[0].1)) as usize;
        }
        full += spared as usize;
        not += !spared as usize;
    }
    assert!(full > 200 && not > 200 && places > 100 && flows > 10, "{full} {not} {places} {flows}");
}

#[test]
fn returns_are_accepted_in_every_order_and_leave_the_same() {
    let (mut random, mut lists, mut longer) = (Random(14), 0, 0);
    for _ in 0..500 {
        let (start, list) = start(&mut random, Some(false));
        let ends: Vec<(Held, Vec<Answer>)> = orders(&list).iter().map(|order| switched(&start, order)).collect();
        assert!(ends.iter().all(|(left, answers)| in_full(answers) && left.flow == start.flow), "{list:?}");
        assert!(ends.iter().all(|(left, _)| left.fixed() == ends[0].0.fixed()));
        ends[0].0.agrees_with_a_fresh_screen();
        lists += (list.len() > 1) as usize;
        longer += (list.len() > 2) as usize;
    }
    assert!(lists > 100 && longer > 20, "{lists} {longer}");
}

#[test]
fn outages_and_returns_leave_the_same_in_all_orders_that_are_accepted_in_full() {
    let (mut random, mut all, mut some) = (Random(15), 0, 0);
    for _ in 0..700 {
        let (start, list) = start(&mut random, None);
        let outside = list.iter().filter(|&&branch| !start.network().lines[branch].served).count();
        if outside == 0 || outside == list.len() {
            continue;
        }
        let ends: Vec<(Held, Vec<Answer>)> = orders(&list).iter().map(|order| switched(&start, order)).collect();
        let full: Vec<&Held> = ends.iter().filter(|(_, answers)| in_full(answers)).map(|(left, _)| left).collect();
        assert!(full.iter().all(|left| left.fixed() == full[0].fixed()));
        all += (full.len() == ends.len()) as usize;
        some += (!full.is_empty() && full.len() < ends.len()) as usize;
    }
    assert!(all > 50 && some > 20, "{all} {some}");
}

#[test]
fn bundles_and_meshes_are_good_books_and_not_overloaded() {
    let mut random = Random(16);
    for _ in 0..300 {
        let percentage = *random.pick(&[NAMEPLATE, Percentage(50), Percentage(67)]);
        for book in [bundled(&mut random, percentage), meshed(&mut random, percentage)] {
            assert_eq!(unpack(&pack(&book)).as_ref(), Ok(&book));
            assert_eq!(cuts::base_excess(&Network::of(&book, percentage)).amount, 0);
        }
    }
}

/// What the orders of a book worked out by hand are answered: 0, or the shortage that 12 carries, always with bus 0.
fn answers(book: &Book, percentage: u8, order: &[usize]) -> Vec<i64> {
    let answers = switched(&Held::screened(book, Percentage(percentage)), order).1;
    assert!(answers.iter().all(|answer| answer.accepted() || (answer.number, answer.group) == (12, 1)));
    answers.iter().map(|answer| answer.shortage).collect()
}

#[test]
fn the_books_worked_out_by_hand_are_answered_so() {
    for (order, due) in [
        (&[0, 1][..], &[10, 0][..]),
        (&[1, 0], &[0, 20]),
        (&[1, 2], &[0, 5]),
        (&[2, 1], &[0, 5]),
        (&[0, 1, 2], &[10, 0, 5]),
        (&[2, 1, 0], &[0, 5, 20]),
    ] {
        assert_eq!(answers(&feeders(), 100, order), due, "{order:?}");
    }
    for (order, due) in
        [(&[0, 2][..], &[5, 0][..]), (&[2, 0], &[0, 0]), (&[3, 2], &[0, 0]), (&[2, 3], &[0, 0]), (&[3, 2, 0], &[0; 3])]
    {
        assert_eq!(answers(&one_outside(), 100, order), due, "{order:?}");
    }
    for order in [[0, 2], [2, 0]] {
        assert_eq!(answers(&halved(), 50, &order), [0, 10]);
        // At 100 percent one branch does.
        assert_eq!(answers(&halved(), 100, &order), [0, 0]);
        let (left, _) = switched(&Held::screened(&halved(), Percentage(50)), &order);
        assert_eq!(record::stretch(&left.table, order[1])[0], 1);
    }
}

#[test]
fn two_ways_round_are_taken_by_the_order_of_two_outages() {
    let start = Held::screened(&ways_round(), NAMEPLATE);
    assert_eq!(start.flow, [10, 0, 0, 0, 0, 0, 0]);
    let short = |amount, group| Verdict::Short(Excess { amount, group });
    let verdicts =
        [Verdict::Out, short(4, 0b1), Verdict::Out, Verdict::Carries, Verdict::Carries, short(4, 0b101), short(4, 0b10101)];
    for (order, flow) in [([0, 2], [0, 10, 0, 0, 0, 10, 10]), ([2, 0], [0, 4, 0, 6, 6, 4, 4])] {
        let (left, answers) = switched(&start, &order);
        assert_eq!((in_full(&answers), &left.flow[..]), (true, &flow[..]));
        let shown: Vec<u8> = verdicts.iter().flat_map(|&verdict| record::bytes(verdict, &[])[..20].to_vec()).collect();
        assert_eq!(left.fixed().1, shown);
    }
    let islands = |group| Verdict::Islands(Excess { amount: 10, group });
    let verdicts = [Verdict::Out, islands(0b1), Verdict::Out, Verdict::Out, Verdict::Carries, islands(0b101), islands(0b10101)];
    for order in orders(&[0, 2, 3]) {
        let (left, answers) = switched(&start, &order);
        assert!(in_full(&answers));
        let shown: Vec<u8> = verdicts.iter().flat_map(|&verdict| record::bytes(verdict, &[])[..20].to_vec()).collect();
        assert_eq!(left.fixed().1, shown);
    }
}
