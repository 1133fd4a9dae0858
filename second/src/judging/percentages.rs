//! Counts calls by the percentage that they were given: how often each, what 21 hid, runs below 100 percent, changes between calls,
//! and what would be otherwise if the limits were misread.

use crate::books::random_percentages::EDGES;
use crate::definitions::answer::Answer;
use crate::definitions::book;
use crate::definitions::comeback;
use crate::definitions::cuts::Cutter;
use crate::definitions::load;
use crate::definitions::network::Network;
use crate::definitions::outage;
use crate::definitions::percentage::{Percentage, NAMEPLATE};
use crate::definitions::record::{self, SIZE};
use crate::definitions::screen;
use crate::definitions::switching::{Lent, Way};
use crate::judging::misread::{self, Misreading};
use crate::judging::run::{Run, Since};
use crate::judging::tally::Tally;
use crate::trial::spaces::Spaces;
use crate::trial::stream::Command;
use std::fmt::{Display, Formatter, Result};

/// Above so many branches the verdicts of a misreading aren't looked for, since that takes its time.
const MOST_BRANCHES: usize = 24;

/// How many calls were given each percentage.
pub struct Percentages([usize; 256]);

impl Default for Percentages {
    fn default() -> Percentages {
        Percentages([0; 256])
    }
}

impl Percentages {
    fn count(&mut self, percentage: Percentage) {
        self.0[percentage.0 as usize] += 1;
    }

    pub fn of(&self, percentage: u8) -> usize {
        self.0[percentage as usize]
    }

    pub fn join(&mut self, other: &Percentages) {
        self.0.iter_mut().zip(&other.0).for_each(|(number, more)| *number += more);
    }

    /// The least number of calls that any percentage as wanted was given with, and the first such percentage.
    fn least(&self, wanted: impl Fn(Percentage) -> bool) -> (usize, u8) {
        let all = (0..=255).filter(|&percentage| wanted(Percentage(percentage)));
        all.map(|percentage| (self.of(percentage), percentage)).min().expect("some percentage is as wanted")
    }
}

/// Nothing where no call was given one; else the least of all, the least in range, and the edges.
impl Display for Percentages {
    fn fmt(&self, out: &mut Formatter) -> Result {
        if self.0.iter().all(|&number| number == 0) {
            return Ok(());
        }
        let (all, in_range) = (self.least(|_| true), self.least(Percentage::in_range));
        writeln!(out, "{:>9}  calls at {} percent, the least of 0 to 255", all.0, all.1)?;
        writeln!(out, "{:>9}  calls at {} percent, the least of 50 to 100", in_range.0, in_range.1)?;
        EDGES.into_iter().try_for_each(|edge| writeln!(out, "{:>9}  calls at {edge} percent", self.of(edge)))
    }
}

/// The range that a percentage is counted under.
fn range(percentage: Percentage) -> &'static str {
    match percentage {
        NAMEPLATE => "at 100 percent",
        _ if percentage.in_range() => "at 50 to 99 percent",
        _ => "at a percentage out of range",
    }
}

/// Counts a call by the percentage in force: one that takes it by its answer, another where that is out of range.
pub fn called(tally: &mut Tally, run: &Run, lent: &Spaces, command: &Command, answer: Answer) {
    let (Some(call), percentage) = (command.call(), lent.percentage) else { return };
    let accepted = if answer.accepted() { "accepted" } else { "refused" };
    if !command.takes_percentage() {
        if !percentage.in_range() {
            tally.count(&format!("{call} {accepted}, {}", range(percentage)));
        }
        return;
    }
    tally.percentages.count(percentage);
    tally.count(&format!("{call} {}", range(percentage)));
    if percentage != NAMEPLATE {
        tally.count(&format!("{call} {accepted}, {}", range(percentage)));
    }
    if answer.number == 21 {
        let hidden = hidden(command, lent).number;
        let hidden = if hidden == 0 { "none".into() } else { format!("{hidden:>2}") };
        tally.count(&format!("{call} refused 21, hiding {hidden}"));
    }
    if let (Some(change), 11 | 12) = (run.change(percentage), answer.number) {
        tally.count(&format!("{call} refused {}, after the percentage {change}", answer.number));
    }
    if [0, 11, 12].contains(&answer.number) && percentage != NAMEPLATE {
        misread_answers(tally, call, lent, command, answer);
    }
}

/// What a call would answer at 100 percent: where it is refused with 21, what that hides.
pub fn hidden(command: &Command, lent: &Spaces) -> Answer {
    let accepted = match *command {
        Command::Switch { way, flow, table, branch } => {
            let given = Lent { percentage: NAMEPLATE, ..lent.lent(flow, table) };
            match way {
                Way::Out => outage::allowed(&given, branch),
                Way::Back => comeback::allowed(&given, branch),
            }
        }
        Command::Load { flow, table, shift } => load::allowed(&Lent { percentage: NAMEPLATE, ..lent.lent(flow, table) }, shift),
        Command::Screen { flow, table } => screen::screened(NAMEPLATE, lent.bytes(), flow, table),
        _ => unreachable!("a call that takes a percentage"),
    };
    accepted.err().unwrap_or(Answer::ACCEPTED)
}

/// Counts the misreadings by which a call whose limits count would be answered otherwise.
fn misread_answers(tally: &mut Tally, call: &str, lent: &Spaces, command: &Command, answer: Answer) {
    let book = book::unpack(lent.bytes()).expect("a book whose limits count");
    for reading in Misreading::ALL {
        if misread::answer(command, &reading.network(&book, lent.percentage), lent) != answer {
            tally.count(&format!("{call} answered otherwise if {reading}"));
        }
    }
}

/// Counts the misreadings that accept the call too, and by which a record that it wrote anew would show another verdict, shortage
/// or group. The spaces are those before the call and as it left them.
pub fn shown(tally: &mut Tally, command: &Command, before: &Spaces, left: &Spaces, anew: &[bool]) {
    let (Some(call), true) = (command.call(), before.percentage != NAMEPLATE && anew.len() <= MOST_BRANCHES) else { return };
    let [lent, changed] = [before, left].map(|spaces| book::unpack(spaces.bytes()).expect("an accepted call's book"));
    for reading in Misreading::ALL.into_iter().filter(|reading| reading.shows()) {
        let accepted = misread::answer(command, &reading.network(&lent, before.percentage), before).accepted();
        let network = reading.network(&changed, before.percentage);
        if accepted && otherwise(&network, &left.table, anew).is_some() {
            tally.count(&format!("{call} shows otherwise if {reading}"));
        }
    }
}

/// The first record written anew whose verdict, shortage or group another network would show otherwise, and its bytes then but
/// for the reroute. The base excess of that network is 0.
pub fn otherwise(network: &Network, table: &[u8], anew: &[bool]) -> Option<(usize, [u8; SIZE])> {
    let mut cutter = Cutter::new(network);
    let written = (0..anew.len()).filter(|&k| anew[k]);
    let mut shown = written.map(|k| (k, record::bytes(cutter.verdict(k), &[])));
    shown.find(|(k, bytes)| bytes[..20] != record::stretch(table, *k)[..20])
}

/// Counts an accepted outage, return or move of load by the run that it belongs to and by a change of the percentage before it;
/// `held` says whether the table lent was true at its percentage.
pub fn changed(tally: &mut Tally, run: &Run, command: &Command, network: &Network, before: &Spaces, held: bool) {
    let (call, percentage) = (command.call().expect("a call"), before.percentage);
    let truth = if held { "the table still true" } else { "the table no longer true" };
    if let Some(change) = run.change(percentage) {
        tally.count(&format!("{call} accepted, after the percentage {change}, {truth}"));
    }
    if percentage == NAMEPLATE {
        return;
    }
    if !held && true_at_nameplate(network, before) {
        tally.count(&format!("{call} accepted, from a table true at 100 percent and not at its own"));
    }
    if let Some(since) = run.since_screen(percentage) {
        tally.count(&format!("{call} accepted, in a run under one percentage below 100"));
        for kind in comes_first(call, since) {
            tally.count(&format!("runs under one percentage below 100, with {kind}"));
        }
    }
}

/// What a run holds from now on and didn't before, where the call is the first of its kind in it.
fn comes_first(call: &str, since: Since) -> Vec<&'static str> {
    let Since { outages, returns, moves } = since;
    let (own, name, others) = match call {
        "out" => (outages, "outages", [returns, moves]),
        "back" => (returns, "returns", [outages, moves]),
        _ => (moves, "moves", [outages, returns]),
    };
    let both = name != "moves" && others[0] > 0;
    let kinds = [(name, true), ("both", both), ("all three", others.iter().all(|&other| other > 0))];
    kinds.into_iter().filter(|(_, holds)| own == 0 && *holds).map(|(kind, _)| kind).collect()
}

/// Whether the table lent is true of the book and the flow at 100 percent.
fn true_at_nameplate(network: &Network, lent: &Spaces) -> bool {
    let book = book::unpack(lent.bytes()).expect("an accepted call's book");
    let count = network.lines.len();
    screen::table_holds(&Network::of(&book, NAMEPLATE), &lent.flow[..count], &lent.table[..SIZE * count])
}
