//! First method: every group tried in turn, so only for up to 12 buses.

use crate::definitions::limits::Limits;
use crate::definitions::network::{holds, Excess, Group, Line, Network, Verdict};

const MOST_BUSES: usize = 12;

/// P(S) - R(S) by these limits, leaving out branch `lost` if there is one.
pub fn excess_of(network: &Network, limits: Limits, group: Group, lost: Option<usize>) -> i64 {
    let surplus: i64 = network.injections.iter().enumerate().filter(|(bus, _)| holds(group, *bus)).map(|(_, kw)| kw).sum();
    let ratings: i64 = network
        .lines
        .iter()
        .enumerate()
        .filter(|(number, line)| Some(*number) != lost && line.served && holds(group, line.first) != holds(group, line.second))
        .map(|(_, line)| line.limit(limits))
        .sum();
    surplus - ratings
}

/// The largest excess over the groups that `counts`, and the group contained in every other that reaches it.
fn largest(network: &Network, limits: Limits, lost: Option<usize>, counts: impl Fn(Group) -> bool) -> Excess {
    assert!(network.buses() <= MOST_BUSES);
    let tried: Vec<(i64, Group)> = (0..1u128 << network.buses())
        .filter(|&group| counts(group))
        .map(|group| (excess_of(network, limits, group, lost), group))
        .collect();
    let amount = tried.iter().map(|pair| pair.0).max().expect("some group counts");
    let reaching = tried.iter().filter(|pair| pair.0 == amount).map(|pair| pair.1);
    let group = reaching.clone().fold(Group::MAX, |inner, group| inner & group);
    // Above 0 the smallest group must itself be one of those that reach the amount.
    assert!(amount <= 0 || reaching.clone().any(|reached| reached == group), "no smallest group");
    Excess { amount, group }
}

pub fn base_excess(network: &Network) -> Excess {
    largest(network, Limits::Normal, None, |_| true)
}

/// The verdict on a branch of a network whose base excess is 0.
pub fn verdict(network: &Network, branch: usize) -> Verdict {
    let line = &network.lines[branch];
    if !line.served {
        return Verdict::Out;
    }
    let parts = |group| holds(group, line.first) != holds(group, line.second);
    let excess = largest(network, Limits::Second, Some(branch), parts);
    if excess.amount <= 0 {
        Verdict::Carries
    } else if (0..1u128 << network.buses()).any(|group| parts(group) && untouched(network, group, branch)) {
        Verdict::Islands(excess)
    } else {
        Verdict::Short(excess)
    }
}

/// Whether no branch in service but the lost one has exactly one end in a group. Where such a group parts the ends of the lost
/// one, no path of others leads out of it, from the one to the other; and the buses that paths of others lead to from the one are
/// such a group, unless the other is among them.
fn untouched(network: &Network, group: Group, lost: usize) -> bool {
    let leaves = |line: &Line| line.served && holds(group, line.first) != holds(group, line.second);
    network.lines.iter().enumerate().all(|(number, line)| number == lost || !leaves(line))
}
