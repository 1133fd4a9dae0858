//! Small books worked out by hand for the order of switchings (document 02, W13): what each order answers and leaves.

use crate::books::plain::{plain, two_rated, with_out};
use crate::definitions::book::Book;

/// Three branches side by side, of 25, 10 and 10 kW for 30. Without branch 0 they are short 10, without 1 or 2 they do; without 1 and 2
/// they are short 5, without 0 and another 20. So 1 and 2 are refused at the second call in either order, and 0 and 1 at the
/// first or at the second.
pub fn feeders() -> Book {
    plain(&[30, -30], &[(0, 1, 25), (0, 1, 10), (0, 1, 10)])
}

/// 10 kW from bus 0 to bus 1: straight over branch 0; over bus 2 by 1 and 2, or from there over bus 4 by 5 and 6; or over bus 3 by 3
/// and 4, which take 6. Branches 0 and 2 can be spared in either order. Taken out first, 0 sends its flow over 1 and 2, and 2 then
/// over 5 and 6, so that these carry all 10; the other way about 0 sends 6 over 3 and 4 and 4 over 1, 5 and 6, since the shorter way
/// is taken first. Either way 1, 5 and 6 are short 4 then, and 3 and 4 carry. Without 3 besides, 1, 5 and 6 would island, short 10,
/// and 4 carries, a spur without flow.
pub fn ways_round() -> Book {
    let branches = [(0, 1, 10), (0, 2, 10), (2, 1, 10), (0, 3, 6), (3, 1, 6), (2, 4, 10), (4, 1, 10)];
    plain(&[10, -10, 0, 0, 0], &branches)
}

/// Branches of 20, 20 and 5 kW for 30, and one of 20 out of service. 3 can be spared before its return and after it; 0 after it
/// alone, since without it they are short 5.
pub fn one_outside() -> Book {
    with_out(plain(&[30, -30], &[(0, 1, 20), (0, 1, 20), (0, 1, 20), (0, 1, 5)]), 2)
}

/// At 50 percent three branches of 20, 20 and 10 kW for 30, and of 30, 30 and 20 for a short time. 0 and 2 can each be spared and not
/// together: short 10, though each is shown as carrying once the other is out.
pub fn halved() -> Book {
    two_rated(&[30, -30], &[(0, 1, 40, 60), (0, 1, 40, 60), (0, 1, 20, 40)])
}
