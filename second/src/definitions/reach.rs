//! Which branch would island (document 02, W7): one that is short and whose ends no path of other branches in service joins.
//!
//! A path asks for branches in service and for nothing else. Their limits play no part, so that one of limit 0 joins its ends;
//! neither does any flow. The lost branch is on none.

use crate::definitions::network::{Excess, Line, Network, Verdict};

/// Whether a path of other branches in service joins the two ends of a branch.
pub fn joined(network: &Network, branch: usize) -> bool {
    joined_over(network, branch, |line| line.served)
}

/// Whether a path of other branches that are all usable joins the two ends of a branch.
pub fn joined_over(network: &Network, branch: usize, usable: impl Fn(&Line) -> bool) -> bool {
    let mut above: Vec<usize> = (0..network.buses()).collect();
    for (_, line) in network.lines.iter().enumerate().filter(|(number, line)| *number != branch && usable(line)) {
        let (one, other) = (top(&mut above, line.first), top(&mut above, line.second));
        above[one] = other;
    }
    let lost = &network.lines[branch];
    top(&mut above, lost.first) == top(&mut above, lost.second)
}

/// The bus that stands for all that are joined to this one so far. What is passed on the way is hung higher, so that the next
/// way is shorter.
fn top(above: &mut [usize], mut bus: usize) -> usize {
    while above[bus] != bus {
        above[bus] = above[above[bus]];
        bus = above[bus];
    }
    bus
}

/// The verdict on a branch in service that is short of so much: "shortage and group as before".
pub fn short(network: &Network, branch: usize, excess: Excess) -> Verdict {
    if joined(network, branch) {
        Verdict::Short(excess)
    } else {
        Verdict::Islands(excess)
    }
}
