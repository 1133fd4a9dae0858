//! Moves of load (document 02, W4): what an accepted one left is judged, and all are counted by what they are like.

use crate::definitions::answer::Answer;
use crate::definitions::book;
use crate::definitions::cuts;
use crate::definitions::form::LARGEST;
use crate::definitions::load::{self, Shift};
use crate::definitions::network::Network;
use crate::definitions::percentage::NAMEPLATE;
use crate::definitions::record;
use crate::definitions::switching::Judged;
use crate::judging::accepted::Call;
use crate::judging::ratings::{self, limits_differ, second_alone};
use crate::judging::run::{self, Run};
use crate::judging::tally::Tally;
use crate::trial::spaces::Spaces;

/// An accepted move of load: the network before it, how much flow and table it was lent, and what it moves.
pub struct Moved {
    pub network: Network,
    pub flow: usize,
    pub table: usize,
    pub shift: Shift,
}

impl Call<'_> {
    /// Answers whether the table lent was true at the percentage of the call; if so, it was judged that it still is.
    pub fn judge_load(&mut self, moved: &Moved) -> Result<bool, String> {
        let Moved { network, flow, table, shift } = moved;
        let count = network.lines.len();
        self.beyond_untouched(count)?;
        let start = self.run.before_undone(self.command, self.before.percentage);
        start.map_or(Ok(()), |start| run::undone("there and back", start, self.left, count))?;
        let judged = load::judge(network, &self.before.lent(*flow, *table), *shift, &self.left.flow, &self.left.table);
        if let Some(fault) = judged.faults.first() {
            return Err(fault.clone());
        }
        let held = self.run.holds(network, self.before);
        self.count_move(network, *shift, &judged, held);
        self.judge_rest(network, &shift.changed(network), &judged, held)?;
        Ok(held)
    }

    fn count_move(&mut self, network: &Network, shift: Shift, judged: &Judged, held: bool) {
        let percentage = self.before.percentage;
        let undone = self.run.before_undone(self.command, percentage).is_some();
        let moved = self.before.flow != self.left.flow;
        let kept = judged.anew.contains(&false);
        let old = |k: usize| record::stretch(&self.before.table, k);
        let outside_1 = (0..judged.anew.len()).any(|k| !network.lines[k].served && old(k)[0] == 1);
        let beyond =
            (0..judged.anew.len()).any(|k| !judged.anew[k] && (judged.anew.len()..256).any(|bit| record::names(old(k), bit)));
        self.tally.accepted("move", &shift.changed(network));
        self.tally.kinds("move", &shapes(&network.injections, shift));
        self.tally.kinds(
            "move",
            &[
                ("in a run mixed with outages or returns, from a true table", self.run.after_switching(percentage)),
                ("there and back with nothing else between, all as it was", undone),
                ("there and back with flow moved", undone && moved),
                ("that changed flow", moved),
                ("that changed flow, with records kept", moved && kept),
                ("where limits differ", limits_differ(network)),
                ("from a true table", held),
                ("from an untrue table", !held),
                ("from an untrue table, with records kept", !held && kept),
                ("from an untrue table, with a record kept that names bits beyond the count", !held && beyond),
                ("from an untrue table, with a record of byte 0 = 1 out of service", !held && outside_1),
                (&format!("at {} percent", percentage.0), [50, 75].contains(&percentage.0)),
                ("at 51 to 74 or 76 to 99 percent", percentage != NAMEPLATE && ![50, 75].contains(&percentage.0)),
            ],
        );
        self.tally.records("move", "on the shortlist", judged);
    }
}

/// What the two injections and the kW of a move are like.
fn shapes(before: &[i64], shift: Shift) -> [(&'static str, bool); 6] {
    let old = [before[shift.up], before[shift.down]];
    let new = shift.injections(before);
    [
        ("of 0 kW", shift.kw == 0),
        ("of 2,000,000 kW", shift.kw as i64 == 2 * LARGEST),
        ("that makes an injection 0", shift.kw > 0 && new.contains(&0)),
        ("that takes an injection from 0", shift.kw > 0 && old.contains(&0)),
        ("that turns an injection's sign", old.iter().zip(new).any(|(old, new)| old * new < 0)),
        ("that takes an injection to an edge of its range", shift.kw > 0 && new.iter().any(|kw| kw.abs() == LARGEST)),
    ]
}

/// Counts a refused move by how the table stood, and by what makes the refusal and what else would; the spaces are those it was lent.
pub fn refused(tally: &mut Tally, run: &Run, lent: &Spaces, shift: Shift, answer: Answer) {
    let kind = format!("move refused {:>2}", answer.number);
    tally.count(&format!("{kind}, {}", run.standing(lent)));
    for (why, _) in reasons(lent, shift, answer).into_iter().filter(|(_, holds)| *holds) {
        tally.count(&format!("{kind}, {why}"));
    }
    if answer.number == 11 {
        ratings::refused_11(tally, lent, "move");
    }
}

/// What a refusal from 19 on is counted by besides its number.
fn reasons(lent: &Spaces, shift: Shift, answer: Answer) -> Vec<(&'static str, bool)> {
    let Ok(book) = book::unpack(lent.bytes()) else { return Vec::new() };
    let (buses, before) = (book.injections.len(), &book.injections);
    if !lent.percentage.in_range() {
        return Vec::new();
    }
    let network = Network::of(&book, lent.percentage);
    let unfit = !network.fits(&lent.flow[..network.lines.len()]);
    match answer.number {
        19 => vec![
            ("both the same", shift.up == shift.down && shift.up < buses),
            ("a bus at the count", [shift.up, shift.down].contains(&buses)),
            ("bus 65535", [shift.up, shift.down].contains(&65_535)),
            ("more kW than there can be", shift.kw as i64 > 2 * LARGEST),
            ("the flow doesn't fit either", unfit),
        ],
        20 => beyond(before, shift).into_iter().chain([("the flow doesn't fit either", unfit)]).collect(),
        11 => vec![("the changed book has an excess too", cuts::base_excess(&shift.changed(&network)).amount > 0)],
        12 => too_much(&network, shift, answer),
        _ => Vec::new(),
    }
}

/// What takes an injection out of its range, and whether a sum of 32 bits would come back into it.
fn beyond(before: &[i64], shift: Shift) -> Vec<(&'static str, bool)> {
    let out = shift.injections(before).map(|kw| kw.abs() > LARGEST);
    let by_one = shift.injections(before).iter().any(|kw| kw.abs() == LARGEST + 1);
    vec![
        ("the rising injection alone", out == [true, false]),
        ("the falling injection alone", out == [false, true]),
        ("by 1 kW", by_one),
        ("of 2,000,000 kW", shift.kw as i64 == 2 * LARGEST),
        ("kW near 2^31", (shift.kw as i64 - (1 << 31)).abs() < 100),
        ("of 2^32 - 1 kW", shift.kw == u32::MAX),
        ("though sums of 32 bits would be in range", wrapped(before, shift).iter().all(|kw| kw.abs() <= LARGEST)),
    ]
}

/// The two injections as sums of 32 bits that wrap: what a wrong program would look at.
pub fn wrapped(before: &[i64], shift: Shift) -> [i64; 2] {
    let (up, down, kw) = (before[shift.up] as i32, before[shift.down] as i32, shift.kw as i32);
    [up.wrapping_add(kw) as i64, down.wrapping_sub(kw) as i64]
}

fn too_much(network: &Network, shift: Shift, answer: Answer) -> Vec<(&'static str, bool)> {
    let island = network.islands();
    vec![
        ("between two islands", island[shift.up] != island[shift.down]),
        ("by 1 kW", answer.shortage == 1),
        ("of 2,000,000 kW", shift.kw as i64 == 2 * LARGEST),
        ("the second limits would do", cuts::base_excess(&second_alone(&shift.changed(network))).amount == 0),
    ]
}
