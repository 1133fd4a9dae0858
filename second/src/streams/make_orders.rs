//! Random streams in which the same switchings are asked in several orders from the same start (document 02, W13): the book put in
//! place again with the calls of the run before, or every switching taken back.

use crate::books::random_orders;
use crate::books::random_percentages::below_nameplate;
use crate::definitions::percentage::NAMEPLATE;
use crate::definitions::switching::Way;
use crate::streams::make_loads::{any_book, bring_back, move_one};
use crate::streams::make_returns::take_out;
use crate::streams::order_lists::{list, outside, Switching, Wanted};
use crate::streams::under_way::Stream;
use crate::trial::stream::{commands, Command};

/// A stream has about so many dumps; a round begins only while this many are left.
const DUMPS: usize = 12;
const ROUND: usize = 6;

/// The random stream of a seed.
pub fn stream(seed: u64) -> Vec<u8> {
    let mut stream = Stream::new(seed);
    stream.dumps_left = DUMPS;
    while stream.dumps_left >= ROUND {
        round(&mut stream);
    }
    stream.bytes
}

/// One book, and a list of switchings in two orders or more.
fn round(stream: &mut Stream) {
    let below = below_nameplate(&mut stream.random);
    let percentage = if stream.random.once_in(3) { below } else { NAMEPLATE };
    stream.percentage(percentage);
    let wanted = Wanted::random(&mut stream.random);
    let count = book_for(stream, wanted);
    let length = if stream.random.once_in(4) { 3 + stream.random.below(3) } else { 2 };
    if wanted.returns() {
        put_out(stream, wanted, length);
    }
    let start = start(stream, count);
    let found = list(stream, wanted, length);
    let Some(mut asked) = found.or_else(|| list(stream, Wanted::Together, length)) else { return };
    let undone = stream.random.once_in(5);
    let orders = if asked.len() > 2 && stream.random.once_in(3) { 3 } else { 2 };
    for order in 0..orders {
        if order > 0 {
            reorder(stream, &mut asked);
        }
        if order > 0 && !undone {
            stream.add_all(start.clone());
        }
        let accepted = ask(stream, count, &asked);
        if undone {
            take_back(stream, count, &accepted);
        }
    }
}

/// A book in the book space, of a kind that often has what is wanted or of any kind; its number of branches.
fn book_for(stream: &mut Stream, wanted: Wanted) -> usize {
    let percentage = stream.good_percentage();
    let apt = !stream.random.once_in(4);
    let book = match wanted {
        Wanted::Apart | Wanted::After if apt => random_orders::bundled(&mut stream.random, percentage),
        Wanted::Hanging if apt => random_orders::meshed(&mut stream.random, percentage),
        _ => return any_book(stream),
    };
    stream.book(&book);
    book.branches.len()
}

/// The same book with some branches out of service besides.
fn put_out(stream: &mut Stream, wanted: Wanted, length: usize) {
    let branches = outside(stream, wanted, length);
    if let Some(mut book) = stream.standing_book() {
        branches.iter().for_each(|&branch| book.branches[branch].served = false);
        stream.book(&book);
    }
}

/// The book screened, at times with a few calls after that; all the commands that lead there.
fn start(stream: &mut Stream, count: usize) -> Vec<Command> {
    let book = Command::Book(stream.spaces.bytes().to_vec());
    let mark = stream.bytes.len();
    stream.screen(count);
    if stream.random.once_in(3) {
        for _ in 0..1 + stream.random.below(2) {
            match stream.random.below(4) {
                0 => take_out(stream, count),
                1 => bring_back(stream, count),
                _ => move_one(stream, count),
            }
        }
    }
    let since = commands(&stream.bytes[mark..]).map_while(Result::ok).filter(|command| *command != Command::Dump);
    std::iter::once(book).chain(since).collect()
}

/// Asks for a list in its order, at times with a refused call between; those that were accepted.
fn ask(stream: &mut Stream, count: usize, asked: &[Switching]) -> Vec<Switching> {
    let mut accepted = Vec::new();
    for &(way, branch) in asked {
        let before = stream.spaces.bytes().to_vec();
        stream.switch(way, count, branch);
        if stream.spaces.bytes() != before {
            accepted.push((way, branch));
        }
        if stream.random.once_in(12) {
            stream.out(count, count);
        }
    }
    accepted
}

/// Takes back what was accepted, the last first, so that the book is as it was.
fn take_back(stream: &mut Stream, count: usize, accepted: &[Switching]) {
    for &(way, branch) in accepted.iter().rev() {
        let other = if way == Way::Out { Way::Back } else { Way::Out };
        stream.switch(other, count, branch);
    }
}

/// Another order: the two the other way about, or any other.
fn reorder(stream: &mut Stream, asked: &mut [Switching]) {
    let before = asked.to_vec();
    while before == *asked {
        if asked.len() == 2 {
            asked.swap(0, 1);
        } else {
            stream.random.shuffle(asked);
        }
    }
}
