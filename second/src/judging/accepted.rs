//! What an accepted screen, outage or return left: judged by the definitions, and counted by kind. A move of load has a file of its
//! own beside it.

use crate::definitions::answer::Answer;
use crate::definitions::comeback;
use crate::definitions::cuts::Cutter;
use crate::definitions::network::Network;
use crate::definitions::outage;
use crate::definitions::record::{self, SIZE};
use crate::definitions::screen;
use crate::definitions::switching::{Judged, Way};
use crate::judging::islands;
use crate::judging::percentages;
use crate::judging::ratings;
use crate::judging::run::{self, Run};
use crate::judging::tally::Tally;
use crate::trial::spaces::Spaces;
use crate::trial::stream::Command;

/// An accepted switching call: the network before it, how much flow and table it was lent, and its branch.
pub struct Switch {
    pub way: Way,
    pub network: Network,
    pub flow: usize,
    pub table: usize,
    pub branch: usize,
}

/// An accepted call, the spaces before it and as it left them, and the run that it belongs to.
pub struct Call<'a> {
    pub command: &'a Command,
    pub before: &'a Spaces,
    pub left: &'a Spaces,
    pub run: &'a Run,
    pub tally: &'a mut Tally,
}

impl Call<'_> {
    pub fn judge_screen(&mut self, network: &Network) -> Result<(), String> {
        let count = network.lines.len();
        self.beyond_untouched(count)?;
        if !network.fits(&self.left.flow[..count]) {
            return Err("the flow left does not fit".into());
        }
        self.judge_records(network, 0..count)?;
        islands::written(self.tally, "screen", network, self.left, &vec![true; count], "")?;
        self.tally.accepted("screen", network);
        percentages::shown(self.tally, self.command, self.before, self.left, &vec![true; count]);
        Ok(())
    }

    /// Answers whether the table lent was true at the percentage of the call; if so, it was judged that it still is.
    pub fn judge_switch(&mut self, switch: &Switch) -> Result<bool, String> {
        let Switch { way, network, flow, table, branch } = switch;
        let count = network.lines.len();
        self.beyond_untouched(count)?;
        let start = self.run.before_undone(self.command, self.before.percentage);
        start.map_or(Ok(()), |start| run::undone("out and back", start, self.left, count))?;
        let lent = self.before.lent(*flow, *table);
        let judged = match way {
            Way::Out => outage::judge(network, &lent, *branch, &self.left.flow, &self.left.table),
            Way::Back => comeback::judge(network, &lent, *branch, &self.left.flow, &self.left.table),
        };
        if let Some(fault) = judged.faults.first() {
            return Err(fault.clone());
        }
        let changed = network.with_status(*branch, way.serves());
        let held = self.run.holds(network, self.before);
        match way {
            Way::Out => self.count_out(network, *branch, &judged, held)?,
            Way::Back => self.count_back(network, &changed, *branch, &judged, held),
        }
        self.judge_rest(network, &changed, &judged, held)?;
        Ok(held)
    }

    /// What is held and counted of every accepted outage, return and move of load: the network before it and after, and whether the
    /// table lent was true.
    pub fn judge_rest(&mut self, network: &Network, changed: &Network, judged: &Judged, held: bool) -> Result<(), String> {
        let (count, name) = (network.lines.len(), self.command.call().expect("a call"));
        percentages::changed(self.tally, self.run, self.command, network, self.before, held);
        percentages::shown(self.tally, self.command, self.before, self.left, &judged.anew);
        let standing = if held { ", from a true table" } else { ", from an untrue table" };
        islands::written(self.tally, name, changed, self.left, &judged.anew, standing)?;
        islands::turned(self.tally, name, self.before, self.left, count, standing);
        if held {
            // A true table stays true: the records kept are judged as well.
            self.judge_records(changed, (0..count).filter(|&k| !judged.anew[k]))?;
        }
        Ok(())
    }

    pub fn beyond_untouched(&self, count: usize) -> Result<(), String> {
        if self.before.flow[count..] != self.left.flow[count..] {
            return Err("flow space beyond the branch count was written".into());
        }
        if self.before.table[SIZE * count..] != self.left.table[SIZE * count..] {
            return Err("table space beyond the branch count was written".into());
        }
        Ok(())
    }

    fn judge_records(&mut self, network: &Network, branches: impl Iterator<Item = usize>) -> Result<(), String> {
        let flow = &self.left.flow[..network.lines.len()];
        let mut cutter = Cutter::new(network);
        for branch in branches {
            let bytes = record::stretch(&self.left.table, branch);
            let decided = screen::record_holds(&mut cutter, flow, branch, bytes)?;
            self.tally.count(match (bytes[0], decided) {
                (0, _) => "records: out of service",
                (1, true) => "records: carries",
                (1, false) => "records: carries, reroute undecided",
                (2, _) => "records: short",
                _ => "records: islanding",
            });
        }
        Ok(())
    }

    fn count_out(&mut self, network: &Network, branch: usize, judged: &Judged, held: bool) -> Result<(), String> {
        let count = network.lines.len();
        let own = record::stretch(&self.before.table, branch);
        let untrue = !held;
        if held {
            ratings::agrees(network, own, Answer::ACCEPTED)?;
            ratings::promised(network, judged.fell_back)?;
        }
        let (moved, differ) = (self.before.flow[branch] != 0, ratings::limits_differ(network));
        let beyond = (count..256).any(|k| record::names(own, k));
        self.tally.accepted("out", network);
        self.tally.kinds(
            "out",
            &[
                ("that moved flow", moved),
                ("that fell back to all branches", judged.fell_back),
                ("where limits differ", differ),
                ("where limits differ, that moved flow within the recorded reroute", differ && moved && !judged.fell_back),
                ("from a true table, that fell back to all branches", !untrue && judged.fell_back),
                ("from an untrue table", untrue),
                ("from an untrue table, its record names the branch itself", untrue && record::names(own, branch)),
                ("from an untrue table, its record names bits beyond the count", untrue && beyond),
                ("from an untrue table, with records kept", untrue && judged.anew.contains(&false)),
                ("from a true table", !untrue),
                ("in a run mixed with moves of load, from a true table", self.run.after_moves(self.before.percentage)),
            ],
        );
        self.tally.records("out", "on the shortlist", judged);
        Ok(())
    }

    fn count_back(&mut self, network: &Network, changed: &Network, branch: usize, judged: &Judged, held: bool) {
        let old = |k: usize| record::stretch(&self.before.table, k);
        let kept: Vec<usize> = (0..network.lines.len()).filter(|&k| !judged.anew[k]).collect();
        let turned = (0..network.lines.len()).filter(|&k| record::is_short(old(k)) && self.left.table[SIZE * k] == 1).count();
        let untrue = !held;
        let percentage = self.before.percentage;
        let kept_out = kept.iter().any(|&k| !network.lines[k].served);
        let kept_naming = kept.iter().any(|&k| record::names(old(k), branch));
        let filled = old(branch).iter().any(|&byte| byte != 0);
        let undone = self.run.before_undone(self.command, percentage).is_some();
        self.tally.accepted("back", changed);
        self.tally.kinds(
            "back",
            &[
                ("in a run mixed with outages, from a true table", self.run.after_outages(percentage)),
                ("in a run mixed with moves of load, from a true table", self.run.after_moves(percentage)),
                ("out and back with nothing else between, all as it was", undone),
                ("that turned short records into carrying", turned > 0),
                ("from an untrue table", untrue),
                ("from an untrue table, with a record of byte 0 = 1 kept out of service", untrue && kept_out),
                ("from an untrue table, with a record kept that names the returned branch", untrue && kept_naming),
                ("from an untrue table, its own record not all zeros", untrue && filled),
                ("from a true table", !untrue),
            ],
        );
        self.tally.add("back: short records turned into carrying", turned);
        self.tally.records("back", "written anew", judged);
    }
}
