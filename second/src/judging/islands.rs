//! Branches that would island (document 02, W7): each such record held to its branch's flow; and counts of them, of those that
//! could be mistaken for them, and of verdicts that a call turned.

use crate::definitions::network::{Line, Network};
use crate::definitions::reach::{joined, joined_over};
use crate::definitions::record;
use crate::judging::tally::Tally;
use crate::trial::spaces::Spaces;

/// What follows for an islanding branch: with no other way, it is short of all that it carries, whichever flow fits.
pub fn whole_flow(branch: usize, kw: i64, bytes: &[u8]) -> Result<(), String> {
    let shortage = record::shortage(bytes);
    if bytes[0] == 3 && shortage != kw.abs() {
        return Err(format!("record {branch} islands and is short {shortage}, though the branch carries {kw}"));
    }
    Ok(())
}

/// Whether a branch could carry anything after a loss.
pub fn has_room(line: &Line) -> bool {
    line.served && line.second_limit > 0
}

/// What a record is counted as: islanding, or one that a program with another reading of the path could take for such.
fn kinds(network: &Network, branch: usize, kw: i64, bytes: &[u8]) -> [(&'static str, bool); 4] {
    let whole = record::shortage(bytes) == kw.abs();
    [
        ("records islanding", bytes[0] == 3),
        ("short records that only a branch of limit 0 joins", bytes[0] == 2 && !joined_over(network, branch, has_room)),
        ("short records of the whole flow, though joined", bytes[0] == 2 && whole),
        ("bridges without flow that carry", bytes[0] == 1 && kw == 0 && !joined(network, branch)),
    ]
}

/// Holds the records that an accepted call wrote anew to their flow, and counts them; `standing` says how the table lent stood,
/// if one was.
pub fn written(
    tally: &mut Tally,
    call: &str,
    network: &Network,
    left: &Spaces,
    anew: &[bool],
    standing: &str,
) -> Result<(), String> {
    for branch in (0..network.lines.len()).filter(|&branch| anew[branch]) {
        let (kw, bytes) = (left.flow[branch], record::stretch(&left.table, branch));
        whole_flow(branch, kw, bytes)?;
        for (kind, _) in kinds(network, branch, kw, bytes).iter().filter(|(_, holds)| *holds) {
            tally.count(&format!("{call}: {kind}{standing}"));
        }
    }
    Ok(())
}

/// Verdicts before and after a switching call, and the words for such a turn.
const TURNS: [(u8, u8, &str); 4] = [
    (1, 3, "carrying records turned into islanding"),
    (2, 3, "short records turned into islanding"),
    (3, 2, "islanding records turned into short"),
    (3, 1, "islanding records turned into carrying"),
];

/// Counts the records whose verdict a switching call turned, and the calls that turned any.
pub fn turned(tally: &mut Tally, call: &str, before: &Spaces, left: &Spaces, count: usize, standing: &str) {
    let byte_0 = |spaces: &Spaces, branch: usize| record::stretch(&spaces.table, branch)[0];
    for (from, to, turn) in TURNS {
        let turned = (0..count).filter(|&branch| (byte_0(before, branch), byte_0(left, branch)) == (from, to)).count();
        if turned > 0 {
            tally.add(&format!("{call}: {turn}{standing}"), turned);
            tally.count(&format!("{call} accepted, with {turn}{standing}"));
        }
    }
}
