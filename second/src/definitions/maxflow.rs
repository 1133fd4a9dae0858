//! A largest flow between two nodes by level graphs (Dinic), and what can still be reached afterwards.

use std::collections::VecDeque;

/// More than any sum of injections and limits can be.
pub const PLENTY: i64 = 1 << 40;

struct Arc {
    to: usize,
    room: i64,
}

/// Arcs come in pairs: arc a and its opposite a ^ 1.
pub struct Graph {
    arcs: Vec<Arc>,
    at: Vec<Vec<usize>>,
    level: Vec<usize>,
    next: Vec<usize>,
}

impl Graph {
    pub fn new(nodes: usize) -> Graph {
        Graph { arcs: Vec::new(), at: vec![Vec::new(); nodes], level: Vec::new(), next: Vec::new() }
    }

    /// A pair of arcs with room `ahead` from `from` to `to` and `back` the other way; answers the first one's number.
    pub fn join(&mut self, from: usize, to: usize, ahead: i64, back: i64) -> usize {
        let number = self.arcs.len();
        self.arcs.push(Arc { to, room: ahead });
        self.arcs.push(Arc { to: from, room: back });
        self.at[from].push(number);
        self.at[to].push(number + 1);
        number
    }

    pub fn room(&self, arc: usize) -> i64 {
        self.arcs[arc].room
    }

    pub fn rooms(&self) -> Vec<i64> {
        self.arcs.iter().map(|arc| arc.room).collect()
    }

    pub fn set_rooms(&mut self, rooms: &[i64]) {
        self.arcs.iter_mut().zip(rooms).for_each(|(arc, &room)| arc.room = room);
    }

    pub fn set_room(&mut self, arc: usize, room: i64) {
        self.arcs[arc].room = room;
    }

    fn set_levels(&mut self, source: usize) {
        self.level = vec![usize::MAX; self.at.len()];
        self.level[source] = 0;
        let mut queue = VecDeque::from([source]);
        while let Some(node) = queue.pop_front() {
            for &arc in &self.at[node] {
                let Arc { to, room } = self.arcs[arc];
                if room > 0 && self.level[to] == usize::MAX {
                    self.level[to] = self.level[node] + 1;
                    queue.push_back(to);
                }
            }
        }
    }

    fn send(&mut self, node: usize, sink: usize, most: i64) -> i64 {
        if node == sink || most == 0 {
            return most;
        }
        let mut sent = 0;
        while self.next[node] < self.at[node].len() {
            let arc = self.at[node][self.next[node]];
            let Arc { to, room } = self.arcs[arc];
            if room > 0 && self.level[to] == self.level[node] + 1 {
                let moved = self.send(to, sink, room.min(most - sent));
                self.arcs[arc].room -= moved;
                self.arcs[arc ^ 1].room += moved;
                sent += moved;
                if sent == most {
                    return sent;
                }
            }
            self.next[node] += 1;
        }
        sent
    }

    /// Sends as much as possible, but no more than `most`.
    pub fn largest(&mut self, source: usize, sink: usize, most: i64) -> i64 {
        let mut sent = 0;
        loop {
            self.set_levels(source);
            if sent == most || self.level[sink] == usize::MAX {
                return sent;
            }
            self.next = vec![0; self.at.len()];
            sent += self.send(source, sink, most - sent);
        }
    }

    /// Whether each node can still be reached: after a largest flow, the smallest source side of a smallest cut.
    pub fn reached(&mut self, source: usize) -> Vec<bool> {
        self.set_levels(source);
        self.level.iter().map(|&level| level != usize::MAX).collect()
    }
}
