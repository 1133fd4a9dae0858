//! Parts of random streams that concern the table and the flow lent to an outage.

use crate::books::random_books::{counts, served_with_flow};
use crate::definitions::record;
use crate::streams::under_way::Stream;
use crate::trial::stream::Command;

const REROUTE: usize = 20;

fn byte(stream: &mut Stream, branch: usize, place: usize, value: u8) {
    stream.add(Command::Table(record::SIZE * branch + place, value));
}

/// Writes a reroute for a branch: empty, full, itself alone, bits beyond the count, or at random.
fn reroute(stream: &mut Stream, branch: usize, count: usize) {
    let way = stream.random.below(6);
    for place in 0..32 {
        let value = match way {
            0 | 1 => 0,
            2 => 255,
            3 => {
                if branch / 8 == place {
                    1 << (7 - branch % 8)
                } else {
                    0
                }
            }
            4 => {
                if place > count / 8 {
                    255
                } else {
                    stream.random.word() as u8 & stream.random.word() as u8
                }
            }
            _ => stream.random.word() as u8,
        };
        byte(stream, branch, REROUTE + place, value);
    }
}

/// Makes the table untrue: the reroute of the branch to be taken out, and some bytes elsewhere.
pub fn spoil(stream: &mut Stream, count: usize, branch: usize) {
    if !stream.random.once_in(5) {
        reroute(stream, branch, count);
    }
    if stream.random.once_in(3) {
        let value = stream.random.word() as u8 % 5;
        byte(stream, branch, 0, value);
    }
    for _ in 0..stream.random.below(4) {
        let other = stream.random.below(count);
        match stream.random.below(3) {
            0 => reroute(stream, other, count),
            1 => {
                let value = stream.random.word() as u8 % 4;
                byte(stream, other, 0, value);
            }
            _ => {
                let (place, value) = (stream.random.below(record::SIZE), stream.random.word() as u8);
                byte(stream, other, place, value);
            }
        }
    }
}

/// A fitting flow of our own choice is lent with a table that no screen made; then a run of outages.
pub fn lent_flow(stream: &mut Stream) {
    let count = lend_made_up(stream);
    for _ in 0..1 + stream.random.below(4) {
        let Some(branch) = stream.spare() else { return };
        if stream.random.once_in(3) {
            reroute(stream, branch, count);
        }
        stream.out(count, branch);
        if stream.dumps_left == 0 {
            return;
        }
    }
}

/// Puts a book in place, a fitting flow of our own choice and a table that no screen made; the number of branches.
pub fn lend_made_up(stream: &mut Stream) -> usize {
    let (buses, count) = counts(&mut stream.random);
    let percentage = stream.good_percentage();
    let (book, flow) = served_with_flow(&mut stream.random, percentage, buses, count);
    let count = book.branches.len();
    stream.book(&book);
    for (branch, kw) in flow.iter().enumerate() {
        stream.add(Command::Flow(branch, *kw as i32));
    }
    let (ones, named) = (1 + stream.random.below(3), stream.random.once_in(2));
    for branch in 0..count {
        if stream.random.below(4) < ones {
            byte(stream, branch, 0, 1);
        }
        if named && stream.random.once_in(6) {
            reroute(stream, branch, count);
        }
    }
    count
}
