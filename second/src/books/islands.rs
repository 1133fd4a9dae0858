//! Small books worked out by hand for branches that would island (document 02, W7): what each shows before and after a call.

use crate::books::plain::{plain, two_rated, with_seconds};
use crate::definitions::book::Book;

/// Three buses in a ring, which branch 2 closes, and a spur with nothing at its end. 30 kW enter at bus 0, 20 leave at bus 1 and
/// 10 at bus 2. The branch that closes the ring has 0 kVA, and joins: branch 0 is short 30 with bus 0, branch 1 is short 10 with
/// buses 0 and 1. With it out of service both would island, short of the same. The spur carries in either case.
pub fn ring_zero() -> Book {
    plain(&[30, -20, -10, 0], &[(0, 1, 40), (1, 2, 20), (2, 0, 0), (2, 3, 10)])
}

/// The same ring in the new form, with the ratings of the branch that closes it. With 1 kVA it has 0 kW at power factor 999, and
/// at 1000 from 50 to 99 percent. With 0 and 5 for a short time, branch 0 is short 25 and branch 1 is short 5.
pub fn ring_closed_by(kva: u32, second_kva: u32, factor: u32) -> Book {
    let mut ring = with_seconds(ring_zero(), &[(2, second_kva)]);
    (ring.branches[2].kva, ring.factor) = (kva, factor);
    ring
}

/// The branch that closes the ring, and the spur.
pub const CLOSES: usize = 2;
pub const SPUR: usize = 3;

/// Two branches side by side for 10 kW. The first is short 5 with bus 0, the second carries; without the second the first would
/// island, short 10 with bus 0.
pub fn side_by_side() -> Book {
    plain(&[10, -10], &[(0, 1, 10), (0, 1, 5)])
}

/// The same for a short time of 10: both carry, and without the second the first would island.
pub fn side_by_side_two() -> Book {
    two_rated(&[10, -10], &[(0, 1, 10, 10), (0, 1, 5, 10)])
}

/// 128 buses in a ring, 5 kW from one end to the other of all but the last branch, which closes it and has 0 kVA. Every other is
/// short 5 with all buses up to its own, and joined by a path of 127 branches; without the last, every other would island.
pub fn long_ring() -> Book {
    let mut injections = vec![0; 128];
    (injections[0], injections[127]) = (5, -5);
    let ring: Vec<(usize, usize, u32)> =
        (0..128).map(|bus| (bus, (bus + 1) % 128, if bus == LONG_CLOSES { 0 } else { 5 })).collect();
    plain(&injections, &ring)
}

/// The branch that closes the long ring.
pub const LONG_CLOSES: usize = 127;
