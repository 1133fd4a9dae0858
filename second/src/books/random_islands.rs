//! Random books with branches that would island: trees whose branches carry all there is, some of them nothing, and ties that
//! close rings over them and have little to give, often 0 kW, or are out of service. So many branches are short with a way round,
//! and a tie taken out or brought back decides whether they island.

use crate::books::random::Random;
use crate::books::random_books::counts;
use crate::books::random_forms;
use crate::definitions::book::Book;
use crate::definitions::branch::Branch;
use crate::definitions::form::Form;
use crate::definitions::percentage::Percentage;

/// Numbers of buses and of ties: small ones most often, any at times.
pub fn tied_counts(random: &mut Random) -> (usize, usize) {
    let buses = if random.once_in(12) { counts(random).0.max(2) } else { 2 + random.below(9) };
    (buses, 1 + random.below(1 + buses / 3))
}

/// A book with so many buses and ties, and a flow that fits it at a percentage: the trees carry it, the ties nothing.
pub fn tied(random: &mut Random, percentage: Percentage, buses: usize, ties: usize) -> (Book, Vec<i64>) {
    let factor = *random.pick(&[1000, 1000, 999, 950]);
    let largest = *random.pick(&[2, 20, 1_000]);
    let mut lines = tree(random, percentage, buses, factor, largest);
    for _ in 0..ties {
        let tie = tie(random, &lines, buses, largest);
        lines.push((tie, 0));
    }
    random.shuffle(&mut lines);
    let mut injections = vec![0; buses];
    for (branch, kw) in &lines {
        injections[branch.first] += kw;
        injections[branch.second] -= kw;
    }
    let (branches, flow) = lines.into_iter().unzip();
    let mut book = Book { form: Form::Old, factor, injections, branches };
    random_forms::either(random, &mut book);
    (book, flow)
}

/// Each bus but the first hung on one before it, seldom on none; one branch in three has no flow, each has enough for its own and
/// at times more.
fn tree(random: &mut Random, percentage: Percentage, buses: usize, factor: u32, largest: i64) -> Vec<(Branch, i64)> {
    let chain = random.once_in(2);
    let mut lines = Vec::new();
    for bus in 1..buses {
        if random.once_in(16) {
            continue;
        }
        let other = if chain { bus - 1 } else { random.below(bus) };
        let kw = if random.once_in(3) { 0 } else { random.between(-largest, largest) };
        let limit = kw.abs() + if random.once_in(2) { 0 } else { random.between(0, largest) };
        let kva = (limit as u64 * 100_000).div_ceil(factor as u64 * percentage.0 as u64) as u32;
        let (first, second) = if random.once_in(2) { (bus, other) } else { (other, bus) };
        lines.push((Branch::rated(first, second, kva, true), kw));
    }
    lines
}

/// A tie between two buses, at times beside a branch of the tree: of 0 kVA, of 1, which may be 0 kW, of little or of enough.
fn tie(random: &mut Random, lines: &[(Branch, i64)], buses: usize, largest: i64) -> Branch {
    let first = random.below(buses);
    let mut ends = (first, (first + 1 + random.below(buses - 1)) % buses);
    if !lines.is_empty() && random.once_in(4) {
        let (beside, _) = random.pick(lines);
        ends = (beside.first, beside.second);
    }
    let (little, enough) = (random.between(0, largest) as u32, 2 * largest as u32);
    let kva = *random.pick(&[0, 0, 0, 1, 1, little, little, enough]);
    Branch::rated(ends.0, ends.1, kva, !random.once_in(4))
}
