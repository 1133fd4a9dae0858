//! Parts of random streams in which branches come back: runs mixed with outages, untrue tables, every refusal of the call.

use crate::definitions::record;
use crate::definitions::switching::Way;
use crate::streams::damage::{spoilt_book, Damage};
use crate::streams::under_way::Stream;
use crate::streams::{make_forms, make_tables};
use crate::trial::stream::{Command, FLOWS, TABLE};

/// Ways to spoil a book such that 1 to 7 are each met often.
pub const SPOILT: [Damage; 7] =
    [Damage::Cut, Damage::Buses, Damage::Fill, Damage::Bus, Damage::Branch, Damage::Tail, Damage::Sum];

/// A screen, then outages and returns in any order, at times a branch out and straight back, at times any branch at all;
/// the book as it stands then is moved at times.
pub fn mixed(stream: &mut Stream) {
    let count = stream.good_book();
    stream.screen(count);
    if !stream.random.once_in(4) {
        take_out(stream, count);
    }
    for _ in 0..5 + stream.random.below(5) {
        let any = stream.random.below(count + 2);
        match stream.random.below(10) {
            0 => stream.back(count, any),
            1..=3 => take_out(stream, count),
            4 => {
                let branch = stream.spare().unwrap_or(any);
                stream.out(count, branch);
                stream.back(count, branch);
            }
            _ => match stream.standing(false) {
                Some(branch) => stream.back(count, branch),
                None => take_out(stream, count),
            },
        }
        if stream.random.once_in(8) {
            make_forms::move_it(stream);
        }
        if stream.dumps_left == 0 {
            return;
        }
    }
}

pub fn take_out(stream: &mut Stream, count: usize) {
    if let Some(branch) = stream.spare() {
        stream.out(count, branch);
    }
}

/// A screen and an outage or two, then returns with the table spoilt between, at times an outage.
pub fn from_untrue(stream: &mut Stream) {
    let count = stream.good_book();
    stream.screen(count);
    for _ in 0..1 + stream.random.below(2) {
        take_out(stream, count);
    }
    for _ in 0..1 + stream.random.below(4) {
        if stream.random.once_in(4) {
            take_out(stream, count);
        }
        let Some(branch) = stream.standing(false) else { return };
        make_tables::spoil(stream, count, branch);
        oddities(stream, count, branch);
        stream.back(count, branch);
        if stream.dumps_left == 0 {
            return;
        }
    }
}

/// Records that a return keeps and an outage would not: byte 0 is 1 out of service, or the reroute names the returned branch.
fn oddities(stream: &mut Stream, count: usize, branch: usize) {
    if let Some(other) = stream.standing(false).filter(|_| stream.random.once_in(2)) {
        stream.add(Command::Table(record::SIZE * other, 1));
    }
    if stream.random.once_in(2) {
        let other = record::SIZE * stream.random.below(count);
        stream.add(Command::Table(other, 1));
        let place = other + 20 + branch / 8;
        let value = stream.spaces.table[place] | 1 << (7 - branch % 8);
        stream.add(Command::Table(place, value));
    }
}

/// A book that is screened, with branches taken out, and a table that is true of it or spoilt; how many branches it has.
pub fn true_or_spoilt(stream: &mut Stream) -> usize {
    let count = stream.good_book();
    stream.screen(count);
    take_out(stream, count);
    if count > 0 && stream.random.once_in(2) {
        let branch = stream.random.below(count);
        make_tables::spoil(stream, count, branch);
        stream.add(Command::Table(record::SIZE * branch + 1, 9));
    }
    count
}

/// Every refusal of the call, each with a table that is true as far as it can be and with one that isn't.
pub fn refused(stream: &mut Stream) {
    let count = true_or_spoilt(stream);
    short_or_no_branch(stream, count);
    unfit(stream, count);
    for damage in SPOILT {
        let bytes = spoilt_book(&mut stream.random, damage);
        stream.add(Command::Book(bytes));
        let branch = stream.random.below(300);
        stream.add(Command::Switch { way: Way::Back, flow: FLOWS, table: TABLE, branch });
        if stream.dumps_left == 0 {
            return;
        }
    }
}

/// 8, 9 and 17, with the flow as a call left it or as `unfit` did.
fn short_or_no_branch(stream: &mut Stream, count: usize) {
    let (flow, table) = (stream.less(count), stream.less(record::SIZE * count));
    let branch = stream.random.below(count + 2);
    stream.add(Command::Switch { way: Way::Back, flow, table: TABLE, branch });
    stream.add(Command::Switch { way: Way::Back, flow: FLOWS, table, branch });
    let beyond = *stream.random.pick(&[count, count + 1, 256, 65_535]);
    stream.back(count, beyond);
    if let Some(branch) = stream.standing(true) {
        stream.back(count, branch);
    }
}

/// One flow number is changed, that of a branch out of service among them: 11, and after that the refusals before it.
fn unfit(stream: &mut Stream, count: usize) {
    let Some(branch) = stream.standing(false) else { return };
    let changed = if stream.random.once_in(2) { branch } else { stream.random.below(count) };
    let value = *stream.random.pick(&[7_777_777, i32::MIN, i32::MAX, 1, -1, 0]);
    stream.add(Command::Flow(changed, value));
    stream.back(count, branch);
    if stream.random.once_in(3) {
        short_or_no_branch(stream, count);
    }
}
