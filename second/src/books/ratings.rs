//! Small books whose two ratings differ (document 02, W2), worked out by hand: what each shows, and what an outage answers.

use crate::books::plain::{two_rated, with_out};
use crate::definitions::book::Book;

/// Each branch makes up for the loss of the other by its second limit, and not for good: both carry, and taking either out
/// is refused with 12, 10 kW and bus 0.
pub fn pair() -> Book {
    two_rated(&[30, -30], &[(0, 1, 20, 30), (0, 1, 20, 30)])
}

/// The pair and a small feeder beside it, out of service. With the feeder back, 5 kW are short.
pub fn pair_and_feeder() -> Book {
    with_out(two_rated(&[30, -30], &[(0, 1, 20, 30), (0, 1, 20, 30), (0, 1, 5, 5)]), 2)
}

/// Document 01's triangle, its branches at bus 0 of 20 kVA and of 40 for a short time. All carry; 0-1 and 0-2 are refused
/// with 12, 10 kW and bus 0, and 1-2 can be taken out.
pub fn triangle_two() -> Book {
    two_rated(&[30, -10, -20], &[(0, 1, 20, 40), (0, 2, 20, 40), (1, 2, 30, 30)])
}

/// Three buses in a ring, 30 kW from bus 0 to bus 2. The ratings are those of 0-1, then those of 1-2.
fn ring(near: (u32, u32), far: (u32, u32)) -> Book {
    two_rated(&[30, 0, -30], &[(0, 2, 30, 30), (0, 1, near.0, near.1), (1, 2, far.0, far.1)])
}

/// Branch 0 is short 10 with buses 0 and 1, since 1-2 has 20; taking it out is refused with 20 and bus 0, since 0-1 has 10.
pub fn ring_two() -> Book {
    ring((10, 25), (20, 20))
}

/// Branch 0 is short 10 with buses 0 and 1. By the normal limits bus 0 alone reaches these 10 too, and is the smaller group.
pub fn ring_tied() -> Book {
    ring((20, 25), (20, 20))
}

/// Branch 0 is short 10 with bus 0; taking it out is refused with 20 and buses 0 and 1.
pub fn ring_far() -> Book {
    ring((20, 20), (10, 25))
}

/// With flow 10, 0, 0 the reroute of branch 0 may name branch 1 alone, by its second limit of 10. For good that has 5, so
/// that the outage is accepted and no flow within the normal limits keeps to this reroute.
pub fn detour() -> Book {
    two_rated(&[10, -10], &[(0, 1, 10, 10), (0, 1, 5, 10), (0, 1, 10, 10)])
}

/// The same over two routes of two branches each: the reroute of branch 0 may name 1 and 2.
pub fn detour_of_two() -> Book {
    two_rated(&[10, 0, 0, -10], &[(0, 3, 10, 10), (0, 1, 5, 10), (1, 3, 10, 10), (0, 2, 10, 10), (2, 3, 10, 10)])
}

/// With flow 10, 0, 0 and a reroute of branch 0 that names 2, all 10 kW go there, though 1 would have room.
pub fn straight() -> Book {
    two_rated(&[10, -10], &[(0, 1, 10, 10), (0, 1, 10, 10), (0, 1, 10, 20)])
}

/// One branch of 20 kVA, 30 for a short time, for 30 kW: refused with 12, 10 kW and bus 0.
pub fn above() -> Book {
    two_rated(&[30, -30], &[(0, 1, 20, 30)])
}

/// Two branches of 1000 kVA at power factor 999, so of 999 kW, for 1000 kW. A second kVA of 1001 gives 999 as well, so that
/// both are short 1; one of 1002 gives 1000.
pub fn rounded(second_kva: u32) -> Book {
    Book { factor: 999, ..two_rated(&[1000, -1000], &[(0, 1, 1000, second_kva), (0, 1, 1000, second_kva)]) }
}
