//! Random books in which the order of switchings tells. Bundles: several branches side by side carry what goes from one bus to the
//! next, so much that one of them can be spared and two can't, or that the largest can't be spared by itself; and small branches
//! across. Meshes: few buses and many branches with room to spare, so that there are several ways round.

use crate::books::random::Random;
use crate::books::random_books::{counts, planned, Plan};
use crate::books::random_forms;
use crate::definitions::book::Book;
use crate::definitions::branch::Branch;
use crate::definitions::form::Form;
use crate::definitions::limits::limit_in_kw;
use crate::definitions::percentage::Percentage;

const MOST_BRANCHES: usize = 256;

/// A mesh that isn't overloaded at a percentage.
pub fn meshed(random: &mut Random, percentage: Percentage) -> Book {
    let plan = Plan {
        factor: *random.pick(&[1000, 1000, 999, 950]),
        largest: *random.pick(&[20, 1_000]),
        zeros: 1_000,
        outs: *random.pick(&[8, 10_000]),
        islands: 1,
        shape: *random.pick(&[2, 4]),
        share: *random.pick(&[10, 30, 60]),
        percentage,
    };
    let buses = if random.once_in(10) { counts(random).0.max(4) } else { 4 + random.below(7) };
    let count = 2 * buses + random.below(buses);
    let (mut book, _) = planned(random, &plan, buses, count.min(MOST_BRANCHES));
    random_forms::either(random, &mut book);
    book
}

/// Bundles that aren't overloaded at a percentage; few buses most often.
pub fn bundled(random: &mut Random, percentage: Percentage) -> Book {
    let buses = if random.once_in(8) { counts(random).0.max(2) } else { 2 + random.below(7) };
    let factor = *random.pick(&[1000, 1000, 999, 950]);
    let mut book = Book { form: Form::Old, factor, injections: vec![0; buses], branches: Vec::new() };
    let largest = *random.pick(&[6, 40, 1_000]);
    let widest = 3.min((MOST_BRANCHES - buses) / (buses - 1));
    for bus in 1..buses {
        let width = 1 + random.below(widest) + (bus < 3 && buses < 50) as usize;
        bundle(random, &mut book, percentage, bus, width, largest);
    }
    for _ in 0..random.below(1 + buses.min(MOST_BRANCHES - book.branches.len())) {
        let first = random.below(buses);
        let second = (first + 1 + random.below(buses - 1)) % buses;
        book.branches.push(Branch::rated(first, second, random.below(1 + largest / 2) as u32, !random.once_in(4)));
    }
    random.shuffle(&mut book.branches);
    random_forms::either(random, &mut book);
    book
}

/// Joins a bus to one before it by so many branches, and lets them carry a share of what they can.
fn bundle(random: &mut Random, book: &mut Book, percentage: Percentage, bus: usize, width: usize, largest: usize) {
    let other = random.below(bus);
    let mut limits = Vec::new();
    for _ in 0..width {
        let kva = (1 + largest / 2 + random.below(largest / 2)) as u32;
        book.branches.push(Branch::rated(bus, other, kva, true));
        limits.push(limit_in_kw(kva, book.factor, percentage));
    }
    limits.sort_unstable_by(|one, other| other.cmp(one));
    let without = |lost: usize| limits[lost.min(width)..].iter().sum::<i64>();
    let (least, most) = match random.below(4) {
        0 => (without(1), without(0)),
        1 => (0, without(2)),
        _ => (without(2) + 1, without(1)),
    };
    let kw = random.between(least.min(most), most);
    let kw = if random.once_in(2) { kw } else { -kw };
    book.injections[bus] += kw;
    book.injections[other] -= kw;
}
