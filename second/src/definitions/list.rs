//! The list that `outages` prints for a book: a branch that would island by a word of its own (document 02, W7), and of a book
//! refused with 4 or 5 the place after the number (W6).

use crate::definitions::answer::counted;
use crate::definitions::network::{Excess, Network, Verdict};
use crate::definitions::percentage::NAMEPLATE;
use crate::definitions::place::printed;
use crate::definitions::screen;

/// The whole output for an input of any length.
pub fn list(bytes: &[u8]) -> String {
    match screen::screened(NAMEPLATE, bytes, usize::MAX, usize::MAX) {
        Err(answer) if answer.number == 12 => format!("refused 12 {}{}\n", answer.shortage, counted(answer.group)),
        Err(answer) => format!("refused {}{}\n", answer.number, printed(answer.place)),
        Ok(network) => accepted(&network),
    }
}

fn accepted(network: &Network) -> String {
    let mut text = format!("{} {}\n", network.buses(), network.lines.len());
    for (number, verdict) in screen::verdicts(network).into_iter().enumerate() {
        text += &match verdict {
            Verdict::Out => format!("{number} out\n"),
            Verdict::Carries => format!("{number} carries\n"),
            Verdict::Short(excess) => short(number, "short", excess),
            Verdict::Islands(excess) => short(number, "islands", excess),
        };
    }
    text
}

/// The line of a short branch, by the word for it.
fn short(number: usize, word: &str, excess: Excess) -> String {
    format!("{number} {word} {}{}\n", excess.amount, counted(excess.group))
}
