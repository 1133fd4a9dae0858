//! What a true table showed of a branch, held against the answer of its outage and counted; and what fits by the second limits
//! alone.

use crate::definitions::answer::Answer;
use crate::definitions::book;
use crate::definitions::cuts;
use crate::definitions::limits::Limits;
use crate::definitions::network::Network;
use crate::definitions::record;
use crate::judging::run::Run;
use crate::judging::tally::Tally;
use crate::trial::spaces::Spaces;

/// Whether the two limits of some branch in service differ.
pub fn limits_differ(network: &Network) -> bool {
    network.lines.iter().any(|line| line.served && line.normal_limit != line.second_limit)
}

/// The network with the second limits in the place of the normal ones.
pub fn second_alone(network: &Network) -> Network {
    let mut network = network.clone();
    network.lines.iter_mut().for_each(|line| line.normal_limit = line.second_limit);
    network
}

/// What follows for an outage, accepted or refused with 12, from what a true table showed: it is short of no less than shown,
/// so that it is accepted only where shown as carrying; of exactly that where it would island, since then it is its whole flow by
/// either limits; and of exactly that, with that group, where no two limits differ.
pub fn agrees(network: &Network, shown: &[u8], answer: Answer) -> Result<(), String> {
    let (shortage, group) = (record::shortage(shown), record::group(shown));
    let as_shown = (answer.shortage, answer.group) == (shortage, group);
    let more = shown[0] == 3 && answer.shortage > shortage;
    if answer.shortage < shortage || more || !as_shown && !limits_differ(network) {
        return Err(format!("the answer is {answer}, though a true table showed {shortage} kW short with group {group:b}"));
    }
    Ok(())
}

/// Where no two limits differ, a true table promises a flow that keeps to the recorded reroute.
pub fn promised(network: &Network, fell_back: bool) -> Result<(), String> {
    if fell_back && !limits_differ(network) {
        return Err("no fitting flow keeps to the reroute that a true table recorded".into());
    }
    Ok(())
}

/// The network of the book lent to a call that was refused with 11 or 12, at the percentage of the call.
fn lent_network(lent: &Spaces) -> Network {
    Network::of(&book::unpack(lent.bytes()).expect("a book that could be read"), lent.percentage)
}

/// Counts a screen refused with 12 whose book the second limits would do for.
pub fn screen_refused_12(tally: &mut Tally, lent: &Spaces) {
    if cuts::base_excess(&second_alone(&lent_network(lent))).amount == 0 {
        tally.count("screen refused 12, the book fits by the second limits");
    }
}

/// Counts a call refused with 11 whose flow the second limits would do for.
pub fn refused_11(tally: &mut Tally, lent: &Spaces, call: &str) {
    let network = lent_network(lent);
    if network.fits_within(Limits::Second, &lent.flow[..network.lines.len()]) {
        tally.count(&format!("{call} refused 11, the flow fits by the second limits"));
    }
}

/// Holds an outage refused with 12 against the table lent where that is true, and counts it by what was shown; the network is that
/// of the book lent, and the other whether the table was true.
pub fn refused_12(tally: &mut Tally, run: &Run, lent: &Spaces, branch: usize, answer: Answer) -> Result<(Network, bool), String> {
    let network = lent_network(lent);
    if !run.holds(&network, lent) {
        tally.count("out refused 12, from an untrue table");
        return Ok((network, false));
    }
    let shown = record::stretch(&lent.table, branch);
    agrees(&network, shown, answer)?;
    let short = record::is_short(shown);
    let kinds = [
        ("shown as carrying", !short),
        ("shown as short", short),
        ("shown as short, with another group", short && record::group(shown) != answer.group),
        ("shown as short, by less", short && record::shortage(shown) < answer.shortage),
    ];
    for (kind, _) in kinds.iter().filter(|(_, holds)| *holds) {
        tally.count(&format!("out refused 12, from a true table, {kind}"));
    }
    Ok((network, true))
}
