//! Random percentages, and random books whose limits at a percentage are just enough or one kW short: how a limit is rounded, and
//! whether both ratings follow the percentage, then shows in an answer or a record.

use crate::books::random::Random;
use crate::definitions::book::Book;
use crate::definitions::branch::Branch;
use crate::definitions::form::Form;
use crate::definitions::limits::limit_in_kw;
use crate::definitions::percentage::{Percentage, NAMEPLATE};

/// The edges of the range, and of what a byte can say.
pub const EDGES: [u8; 8] = [0, 49, 50, 51, 99, 100, 101, 255];

/// One in range: any below 100, an edge often.
pub fn below_nameplate(random: &mut Random) -> Percentage {
    let any = 50 + random.below(50) as u8;
    Percentage(*random.pick(&[50, 51, 99, 75, 80, any, any, any]))
}

/// One in range, 100 often.
pub fn in_range(random: &mut Random) -> Percentage {
    if random.once_in(4) {
        NAMEPLATE
    } else {
        below_nameplate(random)
    }
}

/// One out of range: any, an edge often.
pub fn out_of_range(random: &mut Random) -> Percentage {
    let any: Vec<u8> = (0..50).chain(101..=255).collect();
    if random.once_in(5) {
        Percentage(*random.pick(&[0, 49, 101, 255]))
    } else {
        Percentage(*random.pick(&any))
    }
}

/// Any that a byte can say.
pub fn any(random: &mut Random) -> Percentage {
    if random.once_in(3) {
        Percentage(*random.pick(&EDGES))
    } else {
        Percentage(random.below(256) as u8)
    }
}

/// What a limit would be if kVA were first turned into kW at nameplate, rounded down, and that then brought to the percentage and
/// rounded down again.
pub fn rounded_twice(kva: u32, factor: u32, percentage: Percentage) -> i64 {
    limit_in_kw(kva, factor, NAMEPLATE) * percentage.0 as i64 / 100
}

/// A rating up to the largest for which rounding twice gives another limit, if a few tries find one.
fn telling(random: &mut Random, least: u32, largest: u32, factor: u32, percentage: Percentage) -> u32 {
    let tries: Vec<u32> = (0..20).map(|_| random.between(least as i64, largest as i64) as u32).collect();
    let tells = |kva: &&u32| rounded_twice(**kva, factor, percentage) != limit_in_kw(**kva, factor, percentage);
    *tries.iter().find(tells).unwrap_or(&tries[0])
}

/// What a few branches between the same two buses are just enough for: all of them by their normal limits, or by the second ones
/// without the first, where the normal limits of all do for that.
fn enough(random: &mut Random, bundle: &[Branch], factor: u32, percentage: Percentage) -> i64 {
    let normal: i64 = bundle.iter().map(|branch| limit_in_kw(branch.kva, factor, percentage)).sum();
    let second: i64 = bundle[1..].iter().map(|branch| limit_in_kw(branch.second_kva, factor, percentage)).sum();
    if random.once_in(3) {
        normal
    } else {
        normal.min(second)
    }
}

/// A chain of buses, each joined to the next by a few branches, with one load from end to end: just enough, or one kW more.
pub fn just_enough(random: &mut Random, percentage: Percentage) -> Book {
    let buses = 2 + random.below(3);
    let any_factor = 1 + random.below(999) as u32;
    let factor = *random.pick(&[950, 999, 873, any_factor]);
    let largest = *random.pick(&[9, 40, 1_003, 60_000]);
    let equal = random.once_in(3);
    let (mut branches, mut load) = (Vec::new(), i64::MAX);
    for bus in 0..buses - 1 {
        let mut bundle = Vec::new();
        for _ in 0..2 + random.below(3) {
            let kva = telling(random, 1, largest, factor, percentage);
            let second_kva = if equal { kva } else { telling(random, kva, largest + largest / 2, factor, percentage) };
            let (first, second) = if random.once_in(2) { (bus, bus + 1) } else { (bus + 1, bus) };
            bundle.push(Branch { first, second, kva, second_kva, served: true });
        }
        load = load.min(enough(random, &bundle, factor, percentage));
        branches.extend(bundle);
    }
    load += random.once_in(3) as i64;
    let mut injections = vec![0; buses];
    (injections[0], injections[buses - 1]) = (load, -load);
    let form = if equal && random.once_in(2) { Form::Old } else { Form::New };
    Book { form, factor, injections, branches }
}
