//! Random books of the new form whose ratings differ tellingly: heavy branches that the others can hardly make up for within
//! the normal limits, and second limits that are loose, or loose but on one or two branches.

use crate::books::random::Random;
use crate::books::random_books::{counts, planned, Plan};
use crate::definitions::book::Book;
use crate::definitions::branch::Branch;
use crate::definitions::form::{Form, LARGEST};
use crate::definitions::percentage::Percentage;

/// Counts for such books: small ones most often, any at times.
pub fn heavy_counts(random: &mut Random) -> (usize, usize) {
    if random.once_in(4) {
        return counts(random);
    }
    let buses = 2 + random.below(11);
    let chords = if random.once_in(2) { random.below(2) } else { random.below(buses + 1) };
    (buses, buses + chords)
}

/// A book with these counts and a flow that fits it at a percentage.
pub fn heavy(random: &mut Random, percentage: Percentage, buses: usize, count: usize) -> (Book, Vec<i64>) {
    let plan = Plan {
        factor: *random.pick(&[1000, 1000, 999, 700]),
        largest: *random.pick(&[3, 20, 1_000, 100_000]),
        zeros: *random.pick(&[8, 1000]),
        outs: *random.pick(&[8, 10_000]),
        islands: 1,
        shape: *random.pick(&[0, 0, 2, 3, 4]),
        share: *random.pick(&[10, 30, 60]),
        percentage,
    };
    let (mut book, mut flow) = planned(random, &plan, buses, count);
    for _ in 0..1 + random.below(3) {
        burden(random, &mut book, &mut flow, &plan);
    }
    book.form = Form::New;
    loosen(random, &mut book);
    (book, flow)
}

/// A book like these whose normal limits may not do, since so much is moved from one bus to another; the second may.
pub fn overloaded(random: &mut Random, percentage: Percentage) -> Book {
    let (buses, count) = heavy_counts(random);
    let (mut book, _) = heavy(random, percentage, buses, count);
    let (one, other) = (random.below(buses), random.below(buses));
    let largest = book.branches.iter().map(|branch| branch.kva as i64).max().unwrap_or(0);
    let most = (LARGEST - book.injections[one]).min(LARGEST + book.injections[other]);
    let moved = random.between(0, most.min(2 * largest));
    book.injections[one] += moved;
    book.injections[other] -= moved;
    book
}

/// Gives a branch in service a larger flow, and a rating larger by as much: without it the others have that to carry.
fn burden(random: &mut Random, book: &mut Book, flow: &mut [i64], plan: &Plan) {
    if book.branches.is_empty() {
        return;
    }
    let number = random.below(book.branches.len());
    let more = random.between(1, 2 * plan.largest);
    let branch = &mut book.branches[number];
    let kva = branch.kva as u64 + (more as u64 * 100_000).div_ceil(book.factor as u64 * plan.percentage.0 as u64);
    let kw = if flow[number] < 0 { -more } else { more };
    let (first, second) = (book.injections[branch.first] + kw, book.injections[branch.second] - kw);
    if branch.served && kva as i64 <= LARGEST && first.abs() <= LARGEST && second.abs() <= LARGEST {
        (branch.kva, branch.second_kva) = (kva as u32, kva as u32);
        flow[number] += kw;
        book.injections[branch.first] = first;
        book.injections[branch.second] = second;
    }
}

/// The second ratings: far above the first on all branches, on all but one or two, on some; or each by an amount of its own.
fn loosen(random: &mut Random, book: &mut Book) {
    let plenty = |branch: &Branch| 10 * branch.kva + 10;
    let tight = [random.below(book.branches.len().max(1)), random.below(book.branches.len().max(1))];
    let way = random.below(6);
    for (number, branch) in book.branches.iter_mut().enumerate() {
        let second_kva = match way {
            0 => plenty(branch),
            1..=3 if tight.contains(&number) => branch.kva + random.below(1 + branch.kva as usize / 4) as u32,
            1..=3 => plenty(branch),
            4 => branch.kva + random.below(2 * branch.kva as usize + 2) as u32,
            _ => *random.pick(&[plenty(branch), branch.kva]),
        };
        branch.second_kva = second_kva.min(LARGEST as u32);
    }
}
