//! Small books worked out by hand for moving load between buses (document 02, W4): what each move answers and leaves.

use crate::books::plain::{plain, two_rated};
use crate::definitions::book::Book;
use crate::definitions::form::LARGEST;

/// Two islands of two buses each. With 5 kW more at bus 0 and 5 less at bus 2, nothing takes them from the one island to the other:
/// short 5 with buses 0 and 1.
pub fn parted() -> Book {
    plain(&[10, -10, 10, -10], &[(0, 1, 20), (2, 3, 20)])
}

/// One branch of 12 kVA, 30 for a short time, for 10 kW. With 5 kW more at bus 0 and 5 less at bus 1 it is short 3 with bus 0, though
/// the second limit would do.
pub fn tight() -> Book {
    two_rated(&[10, -10], &[(0, 1, 12, 30)])
}

/// The least injection and the largest, so that bus 0 can rise by 2,000,000 kW and bus 1 fall by as much. Two branches of 1,000,000
/// kVA join them, and bus 0 has a spur with nothing at its end. At 50 percent the two have just enough, so that each is short 500,000;
/// at 100 either would do alone.
pub fn far() -> Book {
    let wide = LARGEST as u32;
    two_rated(&[-LARGEST, LARGEST, 0], &[(0, 1, wide, wide), (0, 1, wide, wide), (0, 2, 10, 20)])
}

/// What can be moved there at most, from the least injection to the largest.
pub const FAR: u32 = 2_000_000;

/// Two ways of two branches each from bus 0 to bus 3, of 20 kW, and beside them a ring 4-5-6 of its own on a spur 0-4. 10 kW go from
/// bus 0 to bus 3, and 4 from bus 4 to bus 5. Load moved between buses 0 and 3 leaves the ring's flow as it is.
pub fn two_ways_and_ring() -> Book {
    let branches = [(0, 1, 20), (1, 3, 20), (0, 2, 20), (2, 3, 20), (0, 4, 9), (4, 5, 8), (5, 6, 8), (6, 4, 8)];
    plain(&[10, 0, 0, -10, 4, -4, 0], &branches)
}

/// A flow that fits it.
pub const TWO_WAYS_FLOW: [i64; 8] = [10, 10, 0, 0, 0, 4, 0, 0];
