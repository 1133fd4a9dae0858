//! Random books with injections at the edges of their range, so that as much can be moved as can be said, and not one kW more.

use crate::books::random::Random;
use crate::books::random_forms;
use crate::definitions::book::Book;
use crate::definitions::branch::Branch;
use crate::definitions::form::{Form, LARGEST};
use crate::definitions::percentage::Percentage;

/// The bus with the least injection that there can be, and the one with the largest.
pub const LEAST: usize = 0;
pub const LARGE: usize = 1;

/// A book that isn't overloaded at a percentage: a bundle of branches between the two buses carries all, and now and then a few kW
/// cross it the other way, so that the whole of 2,000,000 can't be moved where the bundle has just enough.
pub fn far(random: &mut Random, percentage: Percentage) -> Book {
    let factor = *random.pick(&[1000, 1000, 999, 950]);
    let kva_for = |kw: i64| (kw as u64 * 100_000).div_ceil(factor as u64 * percentage.0 as u64) as u32;
    let most = LARGEST as u64 * factor as u64 * percentage.0 as u64 / 100_000;
    let wide = (LARGEST as u64).div_ceil(most) as i64 + random.below(3) as i64;
    let mut branches: Vec<Branch> = (0..wide)
        .map(|_| {
            let more = if random.once_in(2) { 0 } else { random.below(200_000) as u32 };
            let kva = (kva_for((LARGEST + wide - 1) / wide) + more).min(LARGEST as u32);
            let (first, second) = if random.once_in(2) { (LEAST, LARGE) } else { (LARGE, LEAST) };
            Branch::rated(first, second, kva, true)
        })
        .collect();
    let mut injections = vec![-LARGEST, LARGEST];
    if random.once_in(2) {
        // These two hang on the ends of the bundle: what they carry crosses it from the least bus to the large one.
        let kw = random.between(0, 1_000);
        injections.extend([kw, -kw]);
        branches.push(Branch::rated(2, LEAST, kva_for(kw) + random.below(3) as u32, true));
        branches.push(Branch::rated(LARGE, 3, kva_for(kw), true));
    }
    if random.once_in(2) {
        let spur = injections.len();
        injections.push(0);
        branches.push(Branch::rated(random.below(2), spur, random.below(20) as u32, !random.once_in(4)));
    }
    let mut book = Book { form: Form::Old, factor, injections, branches };
    random_forms::either(random, &mut book);
    book
}
