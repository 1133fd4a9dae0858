//! Small books worked out by hand at percentages of nameplate (document 02, W8): what each shows, and what a call answers.

use crate::books::plain::{plain, two_rated};
use crate::definitions::book::Book;
use crate::definitions::network::Verdict;
use crate::definitions::record::{self, SIZE};

/// So many branches of 1003 kVA at power factor 950, for so many kW. At 80 percent each has 762 kW: 1003 times 950 times 80 is
/// 76,228,000. Rounded at nameplate first, to 952, it would have 761.
pub fn summer(branches: usize, kw: i64) -> Book {
    Book { factor: 950, ..plain(&[kw, -kw], &vec![(0, 1, 1003); branches]) }
}

/// Two such branches with a second rating of their own. At 80 percent a second kVA of 1004 has 763 kW, where rounding at nameplate
/// first would give 762.
pub fn summer_two(second_kva: u32, kw: i64) -> Book {
    Book { factor: 950, ..two_rated(&[kw, -kw], &[(0, 1, 1003, second_kva), (0, 1, 1003, second_kva)]) }
}

/// Two branches of 10 kVA for 10 kW, and a spur with nothing at its end. With flow 5, 5, 0 and at 100 percent either branch makes
/// up for the loss of the other. At 50 the flow still fits, each limit being 5, and both are short 5 with buses 0 and 2.
pub fn stale() -> Book {
    plain(&[10, -10, 0], &[(0, 1, 10), (0, 1, 10), (0, 2, 10)])
}

pub const STALE_FLOW: [i32; 3] = [5, 5, 0];

/// The table that is true of it with that flow at 100 percent.
pub fn stale_table() -> [[u8; SIZE]; 3] {
    [&[1][..], &[0], &[]].map(|reroute| record::bytes(Verdict::Carries, reroute))
}
