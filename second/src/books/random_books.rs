//! Random books of either form: rings, trees, meshes, islands, parallel branches, limits of 0, branches out; most can be served.

use crate::books::random::Random;
use crate::books::random_forms;
use crate::definitions::book::Book;
use crate::definitions::branch::Branch;
use crate::definitions::form::{Form, LARGEST};
use crate::definitions::limits::limit_in_kw;
use crate::definitions::percentage::{Percentage, NAMEPLATE};

/// A book with these counts whose base excess is 0 at 100 percent.
pub fn served(random: &mut Random, buses: usize, count: usize) -> Book {
    served_with_flow(random, NAMEPLATE, buses, count).0
}

/// A book and a random flow that fits it at a percentage.
pub fn served_with_flow(random: &mut Random, percentage: Percentage, buses: usize, count: usize) -> (Book, Vec<i64>) {
    let plan = Plan { percentage, ..Plan::any(random) };
    let (mut book, flow) = planned(random, &plan, buses, count);
    random_forms::either(random, &mut book);
    (book, flow)
}

/// What a random book is made by.
pub struct Plan {
    pub factor: u32,
    /// Ratings are from half of this up to it, in kVA.
    pub largest: i64,
    /// One branch in so many has a rating of 0 or 1.
    pub zeros: usize,
    /// One branch in so many is out of service.
    pub outs: usize,
    pub islands: usize,
    pub shape: usize,
    /// The most of its limit that a branch carries, in hundredths.
    pub share: i64,
    /// The percentage at which its flow is to fit.
    pub percentage: Percentage,
}

impl Plan {
    fn any(random: &mut Random) -> Plan {
        Plan {
            factor: *random.pick(&[1000, 1000, 999, 950, 500, 1 + random.0 as u32 % 1000]),
            largest: *random.pick(&[1, 3, 20, 1_000, 100_000, LARGEST]),
            zeros: *random.pick(&[2, 8, 1000]),
            outs: *random.pick(&[4, 20, 10_000]),
            islands: *random.pick(&[1, 1, 1, 2, 3]),
            shape: random.below(5),
            share: *random.pick(&[10, 30, 60, 100]),
            percentage: NAMEPLATE,
        }
    }
}

/// An old book by a plan, and a random flow that fits it: the injections are what the flow leaves at each bus.
pub fn planned(random: &mut Random, plan: &Plan, buses: usize, count: usize) -> (Book, Vec<i64>) {
    let count = if buses == 1 { 0 } else { count };
    let largest = plan.largest;
    let branches: Vec<Branch> = (0..count)
        .map(|number| {
            let (first, second) = ends(random, buses, number, plan.shape, plan.islands);
            let zero = random.once_in(plan.zeros);
            let kva = if zero { random.below(2) as u32 } else { random.between(largest / 2, largest) as u32 };
            Branch::rated(first, second, kva, !random.once_in(plan.outs))
        })
        .collect();
    let (injections, flow) = injections(random, buses, &branches, plan);
    (Book { form: Form::Old, factor: plan.factor, injections, branches }, flow)
}

/// Two different buses of the same island, if the island has two.
fn ends(random: &mut Random, buses: usize, number: usize, shape: usize, islands: usize) -> (usize, usize) {
    let islands = if buses >= 2 * islands { islands } else { 1 };
    let island = number % islands;
    let size = (buses - island).div_ceil(islands);
    let place = number / islands;
    let (one, other) = match shape {
        0 if place < size => (place, (place + 1) % size),
        1 if place + 1 < size => (place + 1, random.below(place + 1)),
        2 => (place % size, (place + 1 + place / size) % size),
        3 => (random.below(size.min(3)), random.below(size.min(3))),
        _ => (random.below(size), random.below(size)),
    };
    let other = if one == other { (one + 1) % size } else { other };
    let (one, other) = if random.once_in(2) { (one, other) } else { (other, one) };
    (one * islands + island, other * islands + island)
}

fn injections(random: &mut Random, buses: usize, branches: &[Branch], plan: &Plan) -> (Vec<i64>, Vec<i64>) {
    let mut flow: Vec<i64> = branches
        .iter()
        .map(|branch| {
            let most = (limit_in_kw(branch.kva, plan.factor, plan.percentage) * plan.share + 99) / 100;
            if branch.served {
                random.between(-most, most)
            } else {
                0
            }
        })
        .collect();
    loop {
        let mut injections = vec![0; buses];
        for (branch, kw) in branches.iter().zip(&flow) {
            injections[branch.first] += kw;
            injections[branch.second] -= kw;
        }
        if injections.iter().all(|kw: &i64| kw.abs() <= LARGEST) {
            return (injections, flow);
        }
        flow.iter_mut().for_each(|kw| *kw /= 2);
    }
}

/// A book like the above whose injections are moved about, so that it may be overloaded.
pub fn strained(random: &mut Random, buses: usize, count: usize) -> Book {
    let mut book = served(random, buses, count);
    for _ in 0..1 + random.below(3) {
        let (one, other) = (random.below(buses), random.below(buses));
        let most = (LARGEST - book.injections[one]).min(LARGEST + book.injections[other]);
        let scale = *random.pick(&[1, 10, 1_000, LARGEST]);
        let moved = random.between(0, scale.min(most));
        book.injections[one] += moved;
        book.injections[other] -= moved;
    }
    book
}

/// Counts of every size: tiny ones often, the largest at times.
pub fn counts(random: &mut Random) -> (usize, usize) {
    let buses = match random.below(6) {
        0 => 1 + random.below(5),
        1 => 2 + random.below(11),
        2 => 13 + random.below(52),
        3 => 65 + random.below(64),
        4 => 128,
        _ => 1 + random.below(128),
    };
    let count = match random.below(6) {
        0 => random.below(257),
        1 => 256,
        2 => buses.saturating_sub(1),
        3 => buses,
        _ => buses + random.below(buses + 1),
    };
    (buses, count.min(256))
}
