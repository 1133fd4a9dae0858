//! How many answers of each kind were compared.

use crate::definitions::limits::Limits;
use crate::definitions::network::Network;
use crate::definitions::switching::Judged;
use crate::judging::percentages::Percentages;
use crate::judging::places::Places;
use std::collections::BTreeMap;

#[derive(Default)]
pub struct Tally {
    kinds: BTreeMap<String, usize>,
    pub percentages: Percentages,
    pub places: Places,
}

impl Tally {
    pub fn add(&mut self, kind: &str, number: usize) {
        *self.kinds.entry(kind.to_string()).or_default() += number;
    }

    pub fn count(&mut self, kind: &str) {
        self.add(kind, 1);
    }

    pub fn of(&self, kind: &str) -> usize {
        self.kinds.get(kind).copied().unwrap_or(0)
    }

    pub fn join(&mut self, other: &Tally) {
        other.kinds.iter().for_each(|(kind, &number)| self.add(kind, number));
        self.percentages.join(&other.percentages);
        self.places.join(&other.places);
    }

    /// Counts an accepted call by what its network is like.
    pub fn accepted(&mut self, call: &str, network: &Network) {
        self.count(&format!("{call} accepted"));
        let mut joined: Vec<(usize, usize)> =
            network.lines.iter().map(|line| (line.first.min(line.second), line.first.max(line.second))).collect();
        joined.sort();
        let kinds = [
            ("above 64 buses", network.buses() > 64),
            ("with 128 buses and 256 branches", network.buses() == 128 && joined.len() == 256),
            ("with islands", network.islands().iter().any(|&island| island != 0)),
            ("with parallel branches", joined.windows(2).any(|pair| pair[0] == pair[1])),
            ("with a limit of 0 in service", network.lines.iter().any(|line| line.served && line.limit(Limits::Normal) == 0)),
            ("with branches out", network.lines.iter().any(|line| !line.served)),
        ];
        self.kinds(call, &kinds);
    }

    /// Counts an accepted call under each kind that holds of it.
    pub fn kinds(&mut self, call: &str, kinds: &[(&str, bool)]) {
        for (kind, _) in kinds.iter().filter(|(_, holds)| *holds) {
            self.count(&format!("{call} accepted, {kind}"));
        }
    }

    /// Counts the records that a switching call wrote anew and those that it kept.
    pub fn records(&mut self, call: &str, anew: &str, judged: &Judged) {
        let written = judged.anew.iter().filter(|anew| **anew).count();
        self.add(&format!("{call}: records {anew}"), written);
        self.add(&format!("{call}: records kept"), judged.anew.len() - written);
        self.add(&format!("{call}: reroutes undecided"), judged.undecided);
    }
}

impl std::fmt::Display for Tally {
    fn fmt(&self, out: &mut std::fmt::Formatter) -> std::fmt::Result {
        self.kinds.iter().try_for_each(|(kind, number)| writeln!(out, "{number:>9}  {kind}"))?;
        self.percentages.fmt(out)?;
        self.places.fmt(out)
    }
}
