//! The judge tries itself: a good output is good, and every planted fault is found.

use crate::judging::faults::{Plant, FAULTS};
use crate::judging::faults_forms::FORM_FAULTS;
use crate::judging::faults_islands::ISLAND_FAULTS;
use crate::judging::faults_loads::LOAD_FAULTS;
use crate::judging::faults_loads_left::LOAD_LEFT_FAULTS;
use crate::judging::faults_orders::ORDER_FAULTS;
use crate::judging::faults_percentages::PERCENTAGE_FAULTS;
use crate::judging::faults_places::PLACE_FAULTS;
use crate::judging::faults_ratings::RATING_FAULTS;
use crate::judging::faults_returns::RETURN_FAULTS;
use crate::judging::judge::judge;
use crate::streams::{make, make_orders, stored};
use crate::trial::reference::{output, output_with};

const STREAMS: u64 = 60;
const ORDER_STREAMS: u64 = 40;
const PLANTED_EACH: usize = 12;

/// The output with one fault at the first place from `skip` on where it can be planted.
fn with_fault(stream: &[u8], plant: Plant, skip: usize) -> Option<String> {
    let (mut planted, mut place) = (false, 0);
    let changed = output_with(stream, &mut |mut done| {
        place += 1;
        if !planted && place > skip {
            planted = plant(&mut done);
        }
    });
    planted.then_some(changed)
}

/// How often a fault could be planted, at most once a stream, and how often it was found.
fn tried(streams: &[Vec<u8>], plant: Plant) -> (usize, usize) {
    let (mut planted, mut found) = (0, 0);
    for (place, stream) in streams.iter().enumerate() {
        if planted == PLANTED_EACH {
            break;
        }
        if let Some(changed) = with_fault(stream, plant, place % 7) {
            planted += 1;
            found += judge(stream, &changed).1.is_err() as usize;
        }
    }
    (planted, found)
}

/// Plants each fault in several streams, those of orders in streams of their own; true if every one was planted at least once and
/// always found.
pub fn selftest() -> bool {
    let any = streams(STREAMS, make::stream);
    let orders = streams(ORDER_STREAMS, make_orders::stream);
    let first = [FAULTS, RETURN_FAULTS, FORM_FAULTS, RATING_FAULTS, PLACE_FAULTS];
    let later = [PERCENTAGE_FAULTS, ISLAND_FAULTS, LOAD_FAULTS, LOAD_LEFT_FAULTS];
    let taken = good(&any) & good(&orders);
    taken & found(&any, &[&first[..], &later].concat()) & found(&orders, &[ORDER_FAULTS])
}

/// The stored stream and random ones, so many in all.
fn streams(count: u64, made: fn(u64) -> Vec<u8>) -> Vec<Vec<u8>> {
    std::iter::once(stored::stream()).chain((1..count).map(made)).collect()
}

/// Whether our own outputs are taken.
fn good(streams: &[Vec<u8>]) -> bool {
    let mut good = true;
    for (place, stream) in streams.iter().enumerate() {
        if let Err(fault) = judge(stream, &output(stream)).1 {
            println!("stream {place}: our own output is called wrong: {fault}");
            good = false;
        }
    }
    println!("{} good outputs taken", streams.len());
    good
}

/// Whether each of these faults was planted and found.
fn found(streams: &[Vec<u8>], lists: &[&[(&str, Plant)]]) -> bool {
    let faults: Vec<&(&str, Plant)> = lists.iter().copied().flatten().collect();
    let mut good = true;
    for ((name, _), (planted, found)) in faults.iter().zip(all_tried(streams, &faults)) {
        println!("{found:>3} of {planted:>3} found: {name}");
        good &= planted > 0 && found == planted;
    }
    good
}

/// The faults tried side by side on all cores, since each takes its time; the results are in their order.
fn all_tried(streams: &[Vec<u8>], faults: &[&(&str, Plant)]) -> Vec<(usize, usize)> {
    let cores = std::thread::available_parallelism().map_or(1, |cores| cores.get());
    let each = |part: &[&(&str, Plant)]| part.iter().map(|(_, plant)| tried(streams, *plant)).collect::<Vec<_>>();
    std::thread::scope(|scope| {
        let parts = faults.chunks(faults.len().div_ceil(cores));
        let under_way: Vec<_> = parts.map(|part| scope.spawn(move || each(part))).collect();
        under_way.into_iter().flat_map(|part| part.join().expect("no fault stops the judge")).collect()
    })
}
