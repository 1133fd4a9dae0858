//! What a book means: branches with two limits in kW, which flow fits, and the words of a verdict.

use crate::definitions::book::Book;
use crate::definitions::branch::Branch;
use crate::definitions::limits::{limit_in_kw, Limits};
use crate::definitions::percentage::Percentage;

/// A group of buses: bus k is bit k.
pub type Group = u128;

#[derive(Clone, Debug)]
pub struct Line {
    pub first: usize,
    pub second: usize,
    pub normal_limit: i64,
    pub second_limit: i64,
    pub served: bool,
}

impl Line {
    pub fn limit(&self, which: Limits) -> i64 {
        match which {
            Limits::Normal => self.normal_limit,
            Limits::Second => self.second_limit,
        }
    }
}

#[derive(Clone, Debug)]
pub struct Network {
    pub injections: Vec<i64>,
    pub lines: Vec<Line>,
}

/// A largest P(S) - R(S) and the smallest group that reaches it.
#[derive(Clone, Copy, Debug, PartialEq, Eq)]
pub struct Excess {
    pub amount: i64,
    pub group: Group,
}

/// Of a short branch, `Short` says that other branches in service join its ends, and `Islands` that none do.
#[derive(Clone, Copy, Debug, PartialEq, Eq)]
pub enum Verdict {
    Out,
    Carries,
    Short(Excess),
    Islands(Excess),
}

impl Verdict {
    /// What a branch is short of, islanding or not; none where it isn't short.
    pub fn excess(self) -> Option<Excess> {
        match self {
            Verdict::Short(excess) | Verdict::Islands(excess) => Some(excess),
            Verdict::Out | Verdict::Carries => None,
        }
    }
}

pub fn members(group: Group) -> Vec<usize> {
    (0..128).filter(|&bus| group >> bus & 1 == 1).collect()
}

pub fn holds(group: Group, bus: usize) -> bool {
    group >> bus & 1 == 1
}

impl Network {
    /// The network of a book of either form at a percentage; in an old one the two limits of a branch are equal.
    pub fn of(book: &Book, percentage: Percentage) -> Network {
        let line = |branch: &Branch| Line {
            first: branch.first,
            second: branch.second,
            normal_limit: limit_in_kw(branch.kva, book.factor, percentage),
            second_limit: limit_in_kw(branch.second_kva, book.factor, percentage),
            served: branch.served,
        };
        Network { injections: book.injections.clone(), lines: book.branches.iter().map(line).collect() }
    }

    pub fn buses(&self) -> usize {
        self.injections.len()
    }

    /// The same network with one branch in service or out of it.
    pub fn with_status(&self, branch: usize, served: bool) -> Network {
        let mut changed = self.clone();
        changed.lines[branch].served = served;
        changed
    }

    /// The same network with one branch out of service.
    pub fn without(&self, branch: usize) -> Network {
        self.with_status(branch, false)
    }

    /// Whether a flow (a number a branch) fits.
    pub fn fits(&self, flow: &[i64]) -> bool {
        self.fits_within(Limits::Normal, flow)
    }

    /// Whether it would fit if these limits were the normal ones.
    pub fn fits_within(&self, limits: Limits, flow: &[i64]) -> bool {
        assert_eq!(flow.len(), self.lines.len());
        let mut left = self.injections.clone();
        for (line, &kw) in self.lines.iter().zip(flow) {
            let within = if line.served { kw.abs() <= line.limit(limits) } else { kw == 0 };
            if !within {
                return false;
            }
            left[line.first] -= kw;
            left[line.second] += kw;
        }
        left.iter().all(|&kw| kw == 0)
    }

    /// For each bus a number of its island; islands are joined by branches in service.
    pub fn islands(&self) -> Vec<usize> {
        let mut island: Vec<usize> = (0..self.buses()).collect();
        for _ in 0..self.buses() {
            for line in self.lines.iter().filter(|line| line.served) {
                let least = island[line.first].min(island[line.second]);
                island[line.first] = least;
                island[line.second] = least;
            }
        }
        island
    }
}
