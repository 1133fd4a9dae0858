//! The form of a random book, and the second ratings of a new one.

use crate::books::random::Random;
use crate::definitions::book::Book;
use crate::definitions::branch::Branch;
use crate::definitions::form::{Form, LARGEST};

/// Makes an old book new once in two times. The second ratings of a new one are equal to the first on every branch, so that
/// it moves down; or they differ on the last branch alone, on one alone, on one out of service alone, on some, or wherever
/// they can.
pub fn either(random: &mut Random, book: &mut Book) {
    if random.once_in(2) {
        return;
    }
    book.form = Form::New;
    let count = book.branches.len();
    if count == 0 {
        return;
    }
    let one = random.below(count);
    match random.below(7) {
        0 | 1 => {}
        2 => raise(random, &mut book.branches[count - 1]),
        3 => raise(random, &mut book.branches[one]),
        4 => {
            let without = book.branches.iter().position(|branch| !branch.served);
            raise(random, &mut book.branches[without.unwrap_or(one)]);
        }
        way => {
            let times = if way == 5 { 3 } else { 1 };
            for branch in &mut book.branches {
                if random.once_in(times) {
                    raise(random, branch);
                }
            }
        }
    }
}

/// A second rating above the first, where there is room for one: by one, to the very largest, by little, or by any amount.
fn raise(random: &mut Random, branch: &mut Branch) {
    let room = LARGEST as u32 - branch.kva;
    let more = match random.below(4) {
        0 => 1,
        1 => room,
        2 => 1 + random.below(1 + branch.kva as usize / 2) as u32,
        _ => random.below(room as usize + 1) as u32,
    };
    branch.second_kva = branch.kva + more.min(room);
}
