//! Parts of random streams in which the cables are run at a percentage of nameplate: a percentage for each episode, changes of it
//! between calls, limits that are just enough, and percentages out of range with whatever else is wrong.

use crate::books::random_percentages::{self, any, below_nameplate, in_range};
use crate::books::random_ratings::heavy;
use crate::definitions::network::Network;
use crate::definitions::percentage::{Percentage, NAMEPLATE};
use crate::definitions::record;
use crate::definitions::screen;
use crate::definitions::switching::Way;
use crate::streams::damage::{self, spoilt_book, Damage};
use crate::streams::make_forms;
use crate::streams::make_loads::plausible;
use crate::streams::make_loads_refused::{any as any_shift, refused_one};
use crate::streams::stored::{back, lend, out, put_record, written, READ_WHOLE, WHOLE};
use crate::streams::under_way::Stream;
use crate::trial::stream::{Command, FLOWS, INJECTIONS, NUMBERS, TABLE};

/// The percentage of an episode: 100 most often, at times another in range, seldom any at all. It is told where it changes, and
/// at times where it doesn't.
pub fn of_episode(stream: &mut Stream) {
    let percentage = match stream.random.below(16) {
        0 => any(&mut stream.random),
        1..=4 => below_nameplate(&mut stream.random),
        _ => NAMEPLATE,
    };
    if percentage != stream.spaces.percentage || stream.random.once_in(16) {
        stream.percentage(percentage);
    }
}

/// A branch taken out that can be at the percentage, or any; or one brought back.
fn switch_one(stream: &mut Stream, count: usize) {
    let outside = stream.standing(false).filter(|_| stream.random.once_in(3));
    let any = stream.random.below(count + 1);
    match outside {
        Some(branch) => stream.back(count, branch),
        None => {
            let branch = stream.spare().unwrap_or(any);
            stream.out(count, branch);
        }
    }
}

/// A screen, then outages and returns with the percentage changed between: up, down, to where it was, at times out of range. Most
/// books aren't overloaded at any in range.
pub fn changed(stream: &mut Stream) {
    let start = in_range(&mut stream.random);
    let any_least = in_range(&mut stream.random);
    let least = *stream.random.pick(&[Percentage(50), Percentage(50), start, any_least]);
    let count = stream.good_book_at(least.min(start));
    stream.percentage(start);
    stream.screen(count);
    for _ in 0..4 + stream.random.below(5) {
        let other = in_range(&mut stream.random);
        let beyond = random_percentages::out_of_range(&mut stream.random);
        match stream.random.below(10) {
            0..=3 => stream.percentage(other),
            4 => stream.percentage(start),
            5 => stream.percentage(least),
            6 => stream.percentage(beyond),
            7 => stream.screen(count),
            _ => {}
        }
        switch_one(stream, count);
        if stream.dumps_left == 0 {
            return;
        }
    }
}

/// A small book with a flow that fits at a low percentage, and a table of our own that is true of it at a larger one; at the low
/// one, or between, the flow still fits, and the table may not be true.
pub fn lent_and_changed(stream: &mut Stream) {
    let any_low = below_nameplate(&mut stream.random);
    let low = *stream.random.pick(&[Percentage(50), any_low]);
    let high = in_range(&mut stream.random).max(low);
    let buses = 2 + stream.random.below(5);
    let count = buses + stream.random.below(buses + 1);
    let (mut book, flow) = heavy(&mut stream.random, low, buses, count);
    if stream.random.once_in(2) {
        book.branches.iter_mut().for_each(|branch| branch.second_kva = branch.kva);
    }
    let flow: Vec<i32> = flow.iter().map(|&kw| kw as i32).collect();
    lend(stream, &book, &flow);
    let table = screen::own_table(&Network::of(&book, high), &stream.spaces.flow[..count]);
    (0..count).for_each(|branch| put_record(stream, branch, record::stretch(&table, branch)));
    let between = Percentage(stream.random.between(low.0 as i64, high.0 as i64) as u8);
    for percentage in [low, between, high, low] {
        stream.percentage(percentage);
        for _ in 0..1 + stream.random.below(2) {
            switch_one(stream, count);
        }
        if stream.dumps_left == 0 {
            return;
        }
    }
}

/// Books whose limits are just enough at a percentage or one kW short, screened and switched at it; at times at 100 besides.
pub fn just_enough(stream: &mut Stream) {
    for _ in 0..3 {
        let percentage = below_nameplate(&mut stream.random);
        let book = random_percentages::just_enough(&mut stream.random, percentage);
        let count = book.branches.len();
        stream.book(&book);
        stream.percentage(percentage);
        stream.screen(count);
        for _ in 0..2 {
            let branch = stream.random.below(count);
            stream.out(count, branch);
            if let Some(branch) = stream.standing(false) {
                stream.back(count, branch);
            }
        }
        if stream.random.once_in(4) {
            stream.percentage(NAMEPLATE);
            stream.screen(count);
        }
        if stream.dumps_left == 0 {
            return;
        }
    }
}

/// A screen and an outage; then, under percentages out of range, every call that takes one with whatever else is wrong, and those
/// that take none. At times the percentage is told again that the table was left at, and the run goes on.
pub fn out_of_range(stream: &mut Stream) {
    let percentage = in_range(&mut stream.random);
    stream.percentage(percentage);
    let count = stream.good_book();
    stream.screen(count);
    if let Some(branch) = stream.spare() {
        stream.out(count, branch);
    }
    for _ in 0..4 {
        no_percentage_told(stream);
        hidden(stream, count);
    }
    no_percentage_told(stream);
    hidden_move(stream, count);
    untaken(stream);
    if stream.random.once_in(2) {
        stream.percentage(percentage);
        switch_one(stream, count);
    }
    for _ in 0..3 {
        let damage = *stream.random.pick(&Damage::ALL);
        let bytes = spoilt_book(&mut stream.random, damage);
        stream.add(Command::Book(bytes));
        let (branch, shift) = (stream.random.below(300), any_shift(&mut stream.random));
        for call in [WHOLE, out(branch), back(branch), Command::Load { flow: FLOWS, table: TABLE, shift }] {
            no_percentage_told(stream);
            stream.add(call);
        }
    }
    spoilt(stream);
}

fn no_percentage_told(stream: &mut Stream) {
    let percentage = random_percentages::out_of_range(&mut stream.random);
    stream.percentage(percentage);
}

/// Calls on a good book: such that could be accepted, with too little room, with no such branch, with one that already stands so,
/// with a flow that doesn't fit.
fn hidden(stream: &mut Stream, count: usize) {
    let way = *stream.random.pick(&[Way::Out, Way::Back]);
    let branch = stream.random.below(count + 2);
    match stream.random.below(6) {
        0 => {
            let (flow, table) = (stream.less(count), stream.less(record::SIZE * count));
            stream.add(Command::Screen { flow, table: TABLE });
            stream.add(Command::Switch { way, flow: FLOWS, table, branch });
        }
        1 => stream.switch(way, count, branch),
        2 | 3 => {
            // An outage of one that is out, a return of one that is in; or the other way about.
            for served in [true, false] {
                let Some(branch) = stream.standing(served) else { continue };
                stream.switch(way, count, branch);
            }
        }
        4 if count > 0 => {
            let standing = stream.spaces.flow[branch % count] as i32;
            stream.add(Command::Flow(branch % count, 7_777_777));
            stream.switch(way, count, branch);
            stream.add(Command::Flow(branch % count, standing));
        }
        _ => stream.screen(count),
    }
}

/// Moves of load on a good book: one that could be accepted, one that is refused anyway, one with too little room.
fn hidden_move(stream: &mut Stream, count: usize) {
    if let Some(shift) = plausible(stream) {
        stream.load(count, shift);
        let table = stream.less(record::SIZE * count);
        stream.add(Command::Load { flow: FLOWS, table, shift });
    }
    refused_one(stream, count);
}

/// Calls that take no percentage, on the book as it stands.
fn untaken(stream: &mut Stream) {
    let short = Command::Read { injections: 0, branches: 0 };
    let read = stream.random.pick(&[READ_WHOLE, short]).clone();
    stream.add(read);
    make_forms::move_it(stream);
    let Some(book) = stream.standing_book() else { return };
    let (buses, count, factor) = (book.injections.len(), book.branches.len(), book.factor as usize);
    let room = book.length_in(book.form) - stream.random.below(2);
    stream.add(written(book.form, [buses, count, factor, INJECTIONS, NUMBERS, room]));
    if stream.random.once_in(2) {
        damage::registers(stream);
    }
}

/// `P` leaves the percentage, so that a call after it is refused with 21 and not with 1.
fn spoilt(stream: &mut Stream) {
    if stream.random.once_in(2) {
        stream.add_all([Command::Spoil, WHOLE]);
    }
}
