//! Random trial streams with a seed: a few episodes each.

use crate::books::random_books::{counts, strained};
use crate::books::random_ratings;
use crate::definitions::record;
use crate::definitions::switching::Way;
use crate::streams::under_way::Stream;
use crate::streams::{damage, make_forms, make_islands, make_loads, make_loads_refused, make_percentages, make_places};
use crate::streams::{make_ratings, make_returns, make_tables, make_written};
use crate::trial::stream::{Command, FLOWS, INJECTIONS, NUMBERS, TABLE};

/// The random stream of a seed.
pub fn stream(seed: u64) -> Vec<u8> {
    let mut stream = Stream::new(seed);
    let episodes = 1 + stream.random.below(4);
    for _ in 0..episodes {
        if stream.random.once_in(3) {
            stream.add(Command::Spoil);
        }
        make_percentages::of_episode(&mut stream);
        episode(&mut stream);
        if stream.dumps_left == 0 {
            break;
        }
    }
    if stream.random.once_in(12) {
        damage::bad_command(&mut stream);
    }
    stream.bytes
}

/// One episode of any kind.
fn episode(stream: &mut Stream) {
    match stream.random.below(58) {
        0 => run(stream),
        1 | 2 => run_with_spoilt_table(stream),
        3 | 4 => make_tables::lent_flow(stream),
        5 => spoilt_flow(stream),
        6 => overloaded(stream),
        7 => damage::damaged(stream),
        8 => short_room(stream),
        9 => make_written::tables_to_book(stream),
        10 => damage::registers(stream),
        11..=15 => make_returns::mixed(stream),
        16 => make_returns::from_untrue(stream),
        17 | 18 => make_returns::refused(stream),
        19..=21 => make_forms::moves(stream),
        22 | 23 => make_forms::refused(stream),
        24 | 25 => make_ratings::switched(stream),
        26 => make_ratings::lent_true(stream),
        27 => make_ratings::between(stream),
        28 | 29 => make_places::lent(stream),
        30 | 31 => make_places::in_tables(stream),
        32..=34 => make_percentages::changed(stream),
        35 | 36 => make_percentages::lent_and_changed(stream),
        37 | 38 => make_percentages::just_enough(stream),
        39 | 40 => make_percentages::out_of_range(stream),
        41 | 42 => make_islands::switched(stream),
        43 => make_islands::screened(stream),
        44 => make_islands::mistaken(stream),
        45..=51 => make_loads::mixed(stream),
        52 => make_loads::from_untrue(stream),
        53 | 54 => make_loads_refused::refused(stream),
        55 | 56 => make_loads::edges(stream),
        _ => make_loads::changed(stream),
    }
}

/// A screen and a run of outages.
fn run(stream: &mut Stream) {
    let count = stream.good_book();
    stream.screen(count);
    for _ in 0..1 + stream.random.below(5) {
        let any = stream.random.below(count + 2);
        let branch = if stream.random.once_in(6) { any } else { stream.spare().unwrap_or(any) };
        stream.out(count, branch);
        if stream.dumps_left == 0 {
            return;
        }
    }
}

/// A screen, then outages with the table spoilt between.
fn run_with_spoilt_table(stream: &mut Stream) {
    let count = stream.good_book();
    stream.screen(count);
    for _ in 0..1 + stream.random.below(4) {
        let any = stream.random.once_in(4);
        let Some(branch) = (if any { stream.standing(true) } else { stream.spare() }) else { return };
        make_tables::spoil(stream, count, branch);
        stream.out(count, branch);
        if stream.dumps_left == 0 {
            return;
        }
    }
}

/// A screen, one flow number changed, outages that are refused.
fn spoilt_flow(stream: &mut Stream) {
    let count = stream.good_book();
    stream.screen(count);
    if count > 0 {
        let branch = stream.random.below(count);
        let value = *stream.random.pick(&[7_777_777, i32::MIN, i32::MAX, 1, -1, 0]);
        stream.add(Command::Flow(branch, value));
        for _ in 0..3 {
            let branch = stream.random.below(count);
            stream.out(count, branch);
        }
    }
}

/// Books that may be overloaded, and their outages.
fn overloaded(stream: &mut Stream) {
    let percentage = stream.good_percentage();
    for _ in 0..3 {
        let (buses, count) = counts(&mut stream.random);
        let rated = stream.random.once_in(2);
        let book = if rated {
            random_ratings::overloaded(&mut stream.random, percentage)
        } else {
            strained(&mut stream.random, buses, count)
        };
        stream.book(&book);
        stream.screen(book.branches.len());
        if stream.dumps_left == 0 {
            return;
        }
        for _ in 0..2 {
            let branch = stream.random.below(book.branches.len() + 1);
            stream.out(book.branches.len(), branch);
        }
    }
}

/// Lent space too short by little or much, for every call that is lent some.
fn short_room(stream: &mut Stream) {
    let count = stream.good_book();
    let Some(book) = stream.standing_book() else { return };
    let flow = stream.less(count);
    stream.add(Command::Screen { flow, table: TABLE });
    let table = stream.less(record::SIZE * count);
    stream.add(Command::Screen { flow: count, table });
    let branch = stream.random.below(count + 1);
    let out = |flow, table| Command::Switch { way: Way::Out, flow, table, branch };
    stream.add(out(flow, TABLE));
    stream.add(out(FLOWS, table));
    let injections = stream.less(book.injections.len());
    stream.add(Command::Read { injections, branches: NUMBERS });
    let branches = stream.less(book.form.numbers() * count);
    stream.add(Command::Read { injections: INJECTIONS, branches });
}
