//! Second method, for any size: the largest excess as a smallest cut of a network with a source and a sink added.
//!
//! The source feeds each surplus bus by its injection, each deficit bus feeds the sink by its own. A cut whose
//! source side is S costs (sum of all surplus) - P(S) + R(S), so a smallest cut shows a largest P(S) - R(S), and
//! the smallest source side of a smallest cut is the smallest group. A bus is forced into or out of the group by
//! joining it to the source or the sink without limit.
//!
//! The base excess is by the normal limits, a verdict by the second ones. `verdict_afresh` finds it from nothing, for both
//! ways to part the two ends. `verdict` begins with the flow that the base excess left, which is within the second limits
//! too, and a largest flow may begin with any: without the branch, what it carried is turned back to the source at one end
//! and missed by the sink at the other. Where the branch carried nothing towards the outside, the sum of all surplus is
//! already sent, so that no excess above 0 is left that way. Whether a short branch islands no cut says, since limits have no
//! part in it; that is asked of `reach`.

use crate::definitions::limits::Limits;
use crate::definitions::maxflow::{Graph, PLENTY};
use crate::definitions::network::{Excess, Group, Line, Network, Verdict};
use crate::definitions::reach;

/// A network as a graph that many cuts are asked of; every bus is joined to source and sink, at times with no room.
pub struct Cutter<'a> {
    pub network: &'a Network,
    graph: Graph,
    /// The rooms by the normal limits, and what the second ones add to each.
    rooms: Vec<i64>,
    added: Vec<i64>,
    /// The rooms after the base excess was found; none before that.
    after_base: Option<Vec<i64>>,
    from_source: Vec<usize>,
    to_sink: Vec<usize>,
    arcs: Vec<usize>,
}

impl Cutter<'_> {
    pub fn new(network: &Network) -> Cutter<'_> {
        let (source, sink) = (network.buses(), network.buses() + 1);
        let mut graph = Graph::new(network.buses() + 2);
        let mut from_source = Vec::new();
        let mut to_sink = Vec::new();
        for (bus, &kw) in network.injections.iter().enumerate() {
            from_source.push(graph.join(source, bus, kw.max(0), 0));
            to_sink.push(graph.join(bus, sink, (-kw).max(0), 0));
        }
        let limit = |line: &Line, limits| if line.served { line.limit(limits) } else { 0 };
        let arc = |line: &Line| graph.join(line.first, line.second, limit(line, Limits::Normal), limit(line, Limits::Normal));
        let arcs: Vec<usize> = network.lines.iter().map(arc).collect();
        let rooms = graph.rooms();
        let mut added = vec![0; rooms.len()];
        for (&arc, line) in arcs.iter().zip(&network.lines) {
            added[arc] = limit(line, Limits::Second) - limit(line, Limits::Normal);
            added[arc ^ 1] = added[arc];
        }
        Cutter { network, graph, rooms, added, after_base: None, from_source, to_sink, arcs }
    }

    fn source(&self) -> usize {
        self.network.buses()
    }

    fn sink(&self) -> usize {
        self.network.buses() + 1
    }

    /// The smallest source side, once a largest flow was sent.
    fn group(&mut self) -> Group {
        let reached = self.graph.reached(self.source());
        (0..self.network.buses()).filter(|&bus| reached[bus]).fold(0, |group, bus| group | 1 << bus)
    }

    /// The largest excess of the graph as it stands now.
    fn excess(&mut self) -> Excess {
        let surplus: i64 = self.network.injections.iter().filter(|&&kw| kw > 0).sum();
        let sent = self.graph.largest(self.source(), self.sink(), PLENTY);
        Excess { amount: surplus - sent, group: self.group() }
    }

    pub fn base_excess(&mut self) -> Excess {
        self.graph.set_rooms(&self.rooms);
        let excess = self.excess();
        self.after_base = Some(self.graph.rooms());
        excess
    }

    /// These rooms, with what the second limits add to each.
    fn raised(&self, rooms: &[i64]) -> Vec<i64> {
        rooms.iter().zip(&self.added).map(|(room, more)| room + more).collect()
    }

    /// Takes a branch out of the graph and forces one end into the group, the other out of it.
    fn part(&mut self, branch: usize, inside: usize, outside: usize) {
        self.graph.set_room(self.arcs[branch], 0);
        self.graph.set_room(self.arcs[branch] ^ 1, 0);
        self.graph.set_room(self.from_source[inside], PLENTY);
        self.graph.set_room(self.to_sink[outside], PLENTY);
    }

    /// The largest excess without `branch`, by the second limits, over the groups that hold `inside` and not `outside`, its
    /// two ends.
    fn parted(&mut self, branch: usize, inside: usize, outside: usize) -> Excess {
        let raised = self.raised(&self.rooms);
        self.graph.set_rooms(&raised);
        self.part(branch, inside, outside);
        self.excess()
    }

    /// The verdict on a branch of a network whose base excess is 0.
    pub fn verdict_afresh(&mut self, branch: usize) -> Verdict {
        let line = &self.network.lines[branch];
        if !line.served {
            return Verdict::Out;
        }
        let one = self.parted(branch, line.first, line.second);
        let other = self.parted(branch, line.second, line.first);
        // Both above 0 would give their union or their common part an excess above 0 in the whole network.
        assert!(one.amount <= 0 || other.amount <= 0, "the base excess was not 0");
        let larger = if one.amount >= other.amount { one } else { other };
        if larger.amount > 0 {
            reach::short(self.network, branch, larger)
        } else {
            Verdict::Carries
        }
    }

    /// The same verdict, beginning with the flow of the base.
    pub fn verdict(&mut self, branch: usize) -> Verdict {
        let line = &self.network.lines[branch];
        if !line.served {
            return Verdict::Out;
        }
        if self.after_base.is_none() {
            assert_eq!(self.base_excess().amount, 0, "a verdict is for a network whose base excess is 0");
        }
        let after = self.after_base.as_ref().expect("the base excess was found");
        let carried = self.rooms[self.arcs[branch]] - after[self.arcs[branch]];
        let (inside, outside) = if carried >= 0 { (line.first, line.second) } else { (line.second, line.first) };
        let raised = self.raised(after);
        self.graph.set_rooms(&raised);
        self.part(branch, inside, outside);
        let lost = carried.abs();
        let placed = self.graph.largest(self.source(), self.sink(), lost);
        if placed == lost {
            return Verdict::Carries;
        }
        let excess = Excess { amount: lost - placed, group: self.group() };
        reach::short(self.network, branch, excess)
    }
}

pub fn base_excess(network: &Network) -> Excess {
    Cutter::new(network).base_excess()
}

pub fn verdict(network: &Network, branch: usize) -> Verdict {
    Cutter::new(network).verdict(branch)
}

/// A fitting flow, if there is one.
pub fn fitting_flow(network: &Network) -> Option<Vec<i64>> {
    let mut cutter = Cutter::new(network);
    let fits = cutter.base_excess().amount == 0;
    let kw = |arc: &usize| cutter.rooms[*arc] - cutter.graph.room(*arc);
    fits.then(|| cutter.arcs.iter().map(kw).collect())
}
