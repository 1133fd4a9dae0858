//! Flows of a network without one branch that differ from a present flow on named branches only.
//!
//! `confined`: the change d = g - f is 0 outside the lost branch and the named ones and takes f off the lost
//! branch. So |f| must be sent from the end where the flow entered to the other, over the named branches, within
//! their latent capacities by the limits asked for: one largest flow decides it, and it is whole since capacities are.
//!
//! `exactly`, by the second limits: besides, d must not be 0 on any named branch. Start from a confined flow and mend
//! each named branch that still has its old flow by a round trip through it over named branches:
//!  - if no round trip has room in either direction, every confined flow has the old value there (the difference
//!    of two whole flows is a sum of round trips that each have room): the answer is a sure no;
//!  - if one has room, move t kW along it, with t from 1 on such that no other branch comes back to its old value
//!    (each excludes at most one t); the branches with their old flow get strictly fewer;
//!  - if no t serves (very small latent capacities), signs are tried: a named branch must change by at least 1 up
//!    or at least 1 down. For given signs the bounds are whole, so a largest flow decides exactly; the signs are
//!    tried by halves, only for branches that a found flow left at 0. The number of tries is bounded; beyond it
//!    the answer is `Undecided`, which a judge counts and never takes for a fault.

use crate::definitions::limits::Limits;
use crate::definitions::maxflow::{Graph, PLENTY};
use crate::definitions::network::Network;
use std::collections::VecDeque;

const TRIES: usize = 4000;

#[derive(Clone, Debug, PartialEq, Eq)]
pub enum Exactly {
    Yes(Vec<i64>),
    No,
    Undecided,
}

/// A flow of the network without `branch` that fits by these limits, as `flow` does, and differs from it only there and on
/// named branches.
pub fn confined(network: &Network, limits: Limits, flow: &[i64], branch: usize, named: &[usize]) -> Option<Vec<i64>> {
    let limit = |number: usize| network.lines[number].limit(limits);
    let mut graph = Graph::new(network.buses());
    let usable = |&&number: &&usize| number != branch && network.lines[number].served;
    let mut arcs = Vec::new();
    for &number in named.iter().filter(usable) {
        let line = &network.lines[number];
        let arc = graph.join(line.first, line.second, limit(number) - flow[number], limit(number) + flow[number]);
        arcs.push((number, arc));
    }
    let line = &network.lines[branch];
    let (enters, leaves) = if flow[branch] >= 0 { (line.first, line.second) } else { (line.second, line.first) };
    let wanted = flow[branch].abs();
    if graph.largest(enters, leaves, wanted) < wanted {
        return None;
    }
    let mut changed = flow.to_vec();
    changed[branch] = 0;
    for (number, arc) in arcs {
        changed[number] = limit(number) - graph.room(arc);
    }
    Some(changed)
}

/// Whether some flow of the network without `branch`, within the second limits, differs from the fitting `flow` exactly on
/// the named branches, `branch` itself aside.
pub fn exactly(network: &Network, flow: &[i64], branch: usize, named: &[usize]) -> Exactly {
    if named.iter().any(|&number| number == branch || !network.lines[number].served) {
        return Exactly::No;
    }
    let Some(mut changed) = confined(network, Limits::Second, flow, branch, named) else {
        return Exactly::No;
    };
    while let Some(&same) = named.iter().find(|&&number| changed[number] == flow[number]) {
        match mend(network, flow, &mut changed, named, same) {
            Mended::Done => {}
            Mended::Never => return Exactly::No,
            Mended::Stuck => return by_signs(network, flow, branch, named),
        }
    }
    Exactly::Yes(changed)
}

enum Mended {
    Done,
    Never,
    Stuck,
}

/// Gives the branch `same` another flow by a round trip through it that brings no other back to its old flow.
fn mend(network: &Network, flow: &[i64], changed: &mut [i64], named: &[usize], same: usize) -> Mended {
    let mut room_somewhere = false;
    for ahead in [true, false] {
        let Some(trip) = round_trip(network, changed, named, same, ahead) else {
            continue;
        };
        room_somewhere = true;
        let most = trip.iter().map(|&(number, sign)| room(network, changed, number, sign)).min().unwrap();
        let serves = |t: &i64| trip.iter().all(|&(number, sign)| changed[number] + sign * t != flow[number]);
        if let Some(t) = (1..=most.min(trip.len() as i64 + 1)).find(serves) {
            trip.iter().for_each(|&(number, sign)| changed[number] += sign * t);
            return Mended::Done;
        }
    }
    if room_somewhere {
        Mended::Stuck
    } else {
        Mended::Never
    }
}

/// What a branch could carry more in a direction, by its second limit.
fn room(network: &Network, changed: &[i64], number: usize, sign: i64) -> i64 {
    network.lines[number].limit(Limits::Second) - sign * changed[number]
}

/// A round trip over named branches with room, through `same` in the given direction: branches and signs.
fn round_trip(network: &Network, changed: &[i64], named: &[usize], same: usize, ahead: bool) -> Option<Vec<(usize, i64)>> {
    let ends = |number: usize, sign: i64| {
        let line = &network.lines[number];
        if sign > 0 {
            (line.first, line.second)
        } else {
            (line.second, line.first)
        }
    };
    let room = |number: usize, sign: i64| room(network, changed, number, sign);
    let sign = if ahead { 1 } else { -1 };
    if room(same, sign) <= 0 {
        return None;
    }
    let (back_at, start) = ends(same, sign);
    let mut came: Vec<Option<(usize, i64)>> = vec![None; network.buses()];
    let mut queue = VecDeque::from([start]);
    while let Some(bus) = queue.pop_front() {
        for (&number, sign) in named.iter().flat_map(|number| [(number, 1), (number, -1)]) {
            let (from, to) = ends(number, sign);
            if number != same && from == bus && to != start && came[to].is_none() && room(number, sign) > 0 {
                came[to] = Some((number, sign));
                queue.push_back(to);
            }
        }
    }
    let mut trip = vec![(same, sign)];
    let mut bus = back_at;
    while bus != start {
        let (number, sign) = came[bus]?;
        trip.push((number, sign));
        bus = ends(number, sign).0;
    }
    Some(trip)
}

/// The exact decision: signs of change tried by halves, each try decided by a largest flow.
fn by_signs(network: &Network, flow: &[i64], branch: usize, named: &[usize]) -> Exactly {
    let limit = |number: usize| network.lines[number].limit(Limits::Second);
    let whole = |&number: &usize| (-limit(number) - flow[number], limit(number) - flow[number]);
    let mut open: Vec<Vec<(i64, i64)>> = vec![named.iter().map(whole).collect()];
    let mut tries = 0;
    while let Some(bounds) = open.pop() {
        tries += 1;
        if tries > TRIES {
            return Exactly::Undecided;
        }
        let Some(change) = bounded(network, flow, branch, named, &bounds) else {
            continue;
        };
        let Some(zero) = change.iter().position(|&kw| kw == 0) else {
            let mut changed = flow.to_vec();
            changed[branch] = 0;
            named.iter().zip(change).for_each(|(&number, kw)| changed[number] += kw);
            return Exactly::Yes(changed);
        };
        for half in [(bounds[zero].0, -1), (1, bounds[zero].1)] {
            let mut bounds = bounds.clone();
            bounds[zero] = half;
            open.push(bounds);
        }
    }
    Exactly::No
}

/// Changes of the named branches within bounds that make up for the loss of the branch's flow, if there are any.
fn bounded(network: &Network, flow: &[i64], branch: usize, named: &[usize], bounds: &[(i64, i64)]) -> Option<Vec<i64>> {
    if bounds.iter().any(|&(low, high)| low > high) {
        return None;
    }
    let (source, sink) = (network.buses(), network.buses() + 1);
    let mut graph = Graph::new(network.buses() + 2);
    let mut left = vec![0; network.buses()];
    left[network.lines[branch].first] += flow[branch];
    left[network.lines[branch].second] -= flow[branch];
    let mut arcs = Vec::new();
    for (&number, &(low, high)) in named.iter().zip(bounds) {
        let line = &network.lines[number];
        left[line.first] -= low;
        left[line.second] += low;
        arcs.push(graph.join(line.first, line.second, high - low, 0));
    }
    for (bus, &kw) in left.iter().enumerate() {
        if kw > 0 {
            graph.join(source, bus, kw, 0);
        } else {
            graph.join(bus, sink, -kw, 0);
        }
    }
    let wanted: i64 = left.iter().filter(|&&kw| kw > 0).sum();
    let sent = graph.largest(source, sink, PLENTY);
    (sent == wanted).then(|| arcs.iter().zip(bounds).map(|(&arc, &(_, high))| high - graph.room(arc)).collect())
}
