//! The systems of source document 001 as books in kW (SOURCES.md says where each number stands, and which are ours).

use crate::books::plain::plain;
use crate::definitions::book::Book;

/// MW figures and the document's bus numbers (from 1) as a book in kW with buses from 0.
fn from_mw(injections: &[i64], branches: &[(usize, usize, u32)]) -> Book {
    let injections: Vec<i64> = injections.iter().map(|mw| 1000 * mw).collect();
    let branches: Vec<_> = branches.iter().map(|&(first, second, mw)| (first - 1, second - 1, 1000 * mw)).collect();
    plain(&injections, &branches)
}

/// Branches of the 5-bus system in the order of Appendix A.
pub const FIVE_3_5: usize = 4;
pub const FIVE_3_4: usize = 6;
const FIVE_RATINGS: [(usize, usize, u32); 7] =
    [(1, 2, 210), (1, 5, 150), (1, 3, 150), (2, 3, 150), (3, 5, 180), (4, 5, 250), (3, 4, 250)];

pub fn five_bus() -> Book {
    from_mw(&[180, -300, -240, 210, 150], &FIVE_RATINGS)
}

/// Section 4.5.1: bus 4 generates 30 MW less and bus 2 takes 30 MW less.
pub fn five_bus_moved() -> Book {
    from_mw(&[180, -270, -240, 180, 150], &FIVE_RATINGS)
}

/// The three flows of Table 2.1 in kW, filled up by the balance at each bus.
pub const FIVE_FLOWS: [[i64; 7]; 3] = [
    [202_500, -75_000, 52_500, -97_500, -90_000, 15_000, -195_000],
    [180_000, 0, 0, -120_000, -150_000, 0, -210_000],
    [210_000, -150_000, 120_000, -90_000, 0, 0, -210_000],
];

/// Section 3.6.2: sums over cuts are given, not single ratings; 3-5 and 1-3 are ours to choose.
pub fn five_bus_of_cuts(injections: &[i64; 5], rating_3_5: u32, rating_1_3: u32) -> Book {
    let rest = 820 - rating_3_5 - rating_1_3;
    let ratings =
        [(1, 2, rest), (1, 5, 200 - rating_3_5), (1, 3, rating_1_3), (2, 3, rest), (3, 5, rating_3_5), (4, 5, 250), (3, 4, 300)];
    from_mw(injections, &ratings)
}

/// Its two cases, with one choice of the single ratings.
pub fn five_bus_of_cuts_short() -> Book {
    five_bus_of_cuts(&[363, -330, -264, 231, 0], 100, 250)
}

pub fn five_bus_of_cuts_carrying() -> Book {
    five_bus_of_cuts(&[297, -270, -216, 189, 0], 100, 250)
}

/// Branches of the 10-bus system in the order of Appendix B, each of 300 MVA.
pub const TEN_1_4: usize = 1;
const TEN: [(usize, usize); 11] = [(1, 3), (1, 4), (2, 3), (2, 9), (3, 9), (4, 6), (5, 6), (5, 10), (6, 7), (7, 8), (8, 9)];

/// One split of the three sums that can be read: buses 4, 5, 6, 10 give 335.86 MW, buses 1, 2, 3 take 380.86 MW.
pub const TEN_SPLIT: [i64; 10] = [-100_000, -212_150, -68_710, 150_000, 50_000, 35_860, 0, 0, 45_000, 100_000];

pub fn ten_bus(injections_in_kw: &[i64; 10]) -> Book {
    let branches: Vec<_> = TEN.iter().map(|&(first, second)| (first - 1, second - 1, 300_000)).collect();
    plain(injections_in_kw, &branches)
}

/// Branches of the 7-bus system in the order and direction of Table 2.3, with our flow and rating in MW
/// (30 on 1-6 and 100 on 3-1 are the document's).
pub const SEVEN_2_1: usize = 1;
const SEVEN: [(usize, usize, i64, u32); 12] = [
    (1, 6, 30, 100),
    (2, 1, 20, 50),
    (3, 2, 30, 60),
    (3, 1, 100, 120),
    (3, 6, 50, 90),
    (4, 3, 50, 110),
    (4, 6, 60, 90),
    (5, 6, 20, 60),
    (4, 5, 20, 60),
    (4, 7, 20, 40),
    (7, 6, 10, 30),
    (7, 5, 10, 30),
];

/// Table 2.3: for each branch its indirect paths, by the document's bus numbers.
const SEVEN_PATHS: [&[&[usize]]; 12] = [
    &[&[1, 3, 6]],
    &[&[2, 3, 6, 1]],
    &[&[3, 6, 1, 2]],
    &[&[3, 6, 1], &[3, 4, 6, 1], &[3, 4, 5, 6, 1]],
    &[&[3, 4, 6], &[3, 4, 5, 6]],
    &[&[4, 6, 3], &[4, 5, 6, 3]],
    &[&[4, 3, 6], &[4, 5, 6]],
    &[&[5, 4, 6]],
    &[&[4, 6, 5]],
    &[&[4, 5, 7]],
    &[&[7, 5, 6]],
    &[&[7, 4, 5]],
];

pub fn seven_bus() -> Book {
    let mut injections = [0; 7];
    for (first, second, mw, _) in SEVEN {
        injections[first - 1] += mw;
        injections[second - 1] -= mw;
    }
    from_mw(&injections, &SEVEN.map(|(first, second, _, rating)| (first, second, rating)))
}

pub fn seven_bus_flow() -> Vec<i64> {
    SEVEN.iter().map(|&(_, _, mw, _)| 1000 * mw).collect()
}

/// The branch between two of the document's buses in the 7-bus system.
pub fn seven_branch(one: usize, other: usize) -> usize {
    SEVEN
        .iter()
        .position(|&(first, second, _, _)| (first, second) == (one, other) || (second, first) == (one, other))
        .expect("a branch of Table 2.3")
}

/// The branches on the indirect paths of Table 2.3, in rising order.
pub fn seven_reroute(branch: usize) -> Vec<usize> {
    let steps = SEVEN_PATHS[branch].iter().flat_map(|path| path.windows(2));
    let mut named: Vec<usize> = steps.map(|step| seven_branch(step[0], step[1])).collect();
    named.sort();
    named.dedup();
    named
}
