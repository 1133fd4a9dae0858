//! Lists of switchings of the book as it stands whose orders are worth asking for: spared together or not, one of them alone, or
//! only after a return.

use crate::books::random::Random;
use crate::definitions::cuts;
use crate::definitions::network::Network;
use crate::definitions::record;
use crate::definitions::switching::Way;
use crate::streams::under_way::Stream;
use crate::trial::reference;
use crate::trial::spaces::Spaces;
use crate::trial::stream::{Command, FLOWS, TABLE};

/// Which way, and which branch.
pub type Switching = (Way, usize);

/// So many branches are looked at, since each may take a cut of its own.
const TRIES: usize = 24;

/// Up to so many branches more is tried.
const SMALL: usize = 60;

/// What a list is to be like.
#[derive(Clone, Copy, Debug, PartialEq, Eq)]
pub enum Wanted {
    /// Outages that can be spared together.
    Together,
    /// The same, where the flow left hangs on the order.
    Hanging,
    /// Outages that can be spared one by one and not together.
    Apart,
    /// Outages of which one can't be spared by itself.
    OneNot,
    /// Outages none of which can be spared by itself.
    Neither,
    Returns,
    /// A return, and an outage that can be spared.
    Either,
    /// A return, and an outage that can be spared after it alone.
    After,
}

impl Wanted {
    pub fn random(random: &mut Random) -> Wanted {
        let (hanging, apart) = (Wanted::Hanging, Wanted::Apart);
        let outages =
            [Wanted::Together, hanging, hanging, hanging, apart, apart, Wanted::OneNot, Wanted::OneNot, Wanted::Neither];
        let others = [Wanted::Returns, Wanted::Either, Wanted::After];
        if random.once_in(3) {
            *random.pick(&others)
        } else {
            *random.pick(&outages)
        }
    }

    /// Whether it takes branches that are out of service.
    pub fn returns(self) -> bool {
        [Wanted::Returns, Wanted::Either, Wanted::After].contains(&self)
    }
}

/// Whether a network has no excess without these branches.
fn spared(network: &Network, branches: &[usize]) -> bool {
    let without = branches.iter().fold(network.clone(), |network, &branch| network.without(branch));
    cuts::base_excess(&without).amount == 0
}

/// Some branches of the book as it stands, in or out of service, in any order; mostly those with a flow first.
fn some(stream: &mut Stream, network: &Network, served: bool) -> Vec<usize> {
    let mut found: Vec<usize> = (0..network.lines.len()).filter(|&k| network.lines[k].served == served).collect();
    stream.random.shuffle(&mut found);
    if !stream.random.once_in(4) {
        found.sort_by_key(|&k| stream.spaces.flow[k] == 0);
    }
    found.truncate(TRIES);
    found
}

/// Branches that can be spared together, as many as that if so many are found.
fn together(network: &Network, from: &[usize], length: usize) -> Vec<usize> {
    from.iter().fold(Vec::new(), |found, &branch| {
        let longer = [&found[..], &[branch]].concat();
        if found.len() < length && spared(network, &longer) {
            longer
        } else {
            found
        }
    })
}

/// Two branches that can be spared together and that leave other flows in the other order, by our own choices. The second is one
/// that the first one's recorded reroute names.
fn hanging(spaces: &Spaces, network: &Network, from: &[usize]) -> Option<[usize; 2]> {
    let tries = if network.lines.len() <= SMALL { TRIES / 3 } else { 2 };
    let named = |branch: usize| record::named(record::stretch(&spaces.table, branch), network.lines.len());
    let pairs = from.iter().take(TRIES / 3).flat_map(|&one| named(one).into_iter().take(3).map(move |other| [one, other]));
    pairs
        .filter(|pair| spared(network, pair))
        .take(tries)
        .find(|&[one, other]| left(spaces, [one, other]) != left(spaces, [other, one]))
}

/// The flow that two outages leave.
fn left(spaces: &Spaces, pair: [usize; 2]) -> Vec<i64> {
    let mut spaces = spaces.clone();
    for branch in pair {
        reference::step(&mut spaces, &Command::Switch { way: Way::Out, flow: FLOWS, table: TABLE, branch });
    }
    spaces.flow
}

/// Two branches that can be spared one by one and not together.
fn apart(network: &Network, from: &[usize]) -> Option<[usize; 2]> {
    let single: Vec<usize> = from.iter().copied().filter(|&branch| spared(network, &[branch])).collect();
    let pair = |&one: &usize| single.iter().map(move |&other| [one, other]).find(|pair| one != pair[1] && !spared(network, pair));
    single.iter().take(4).find_map(pair)
}

/// A branch in service that can be spared after the return of another, and not before.
fn after(network: &Network, outside: &[usize], from: &[usize]) -> Option<[Switching; 2]> {
    outside.iter().take(3).find_map(|&back| {
        let with = network.with_status(back, true);
        let out = from.iter().find(|&&out| !spared(network, &[out]) && spared(&with, &[out]))?;
        Some([(Way::Out, *out), (Way::Back, back)])
    })
}

/// A list of the book as it stands that is as wanted, if one is found: two, or as many as that.
pub fn list(stream: &mut Stream, wanted: Wanted, length: usize) -> Option<Vec<Switching>> {
    let network = Network::of(&stream.standing_book()?, stream.spaces.percentage);
    let (inside, outside) = (some(stream, &network, true), some(stream, &network, false));
    let outs = |branches: &[usize]| branches.iter().map(|&branch| (Way::Out, branch)).collect::<Vec<_>>();
    let backs = |branches: &[usize]| branches.iter().map(|&branch| (Way::Back, branch)).collect::<Vec<_>>();
    let (spare, stuck): (Vec<usize>, Vec<usize>) = match wanted {
        Wanted::OneNot | Wanted::Neither => inside.iter().partition(|&&branch| spared(&network, &[branch])),
        _ => (Vec::new(), Vec::new()),
    };
    let mut found = match wanted {
        Wanted::Together => outs(&together(&network, &inside, length)),
        Wanted::Hanging => outs(&hanging(&stream.spaces, &network, &inside)?),
        Wanted::Apart => outs(&apart(&network, &inside)?),
        Wanted::OneNot => outs(&[*stuck.first()?, *spare.first()?]),
        Wanted::Neither => outs(&stuck[..stuck.len().min(2)]),
        Wanted::Returns => backs(&outside[..outside.len().min(length)]),
        Wanted::Either => [outs(&together(&network, &inside, 1)), backs(outside.get(..1)?)].concat(),
        Wanted::After => after(&network, &outside, &inside)?.to_vec(),
    };
    if wanted != Wanted::Returns {
        let others = outs(&inside).into_iter().filter(|other| !found.contains(other));
        let more: Vec<Switching> = others.take(length.saturating_sub(found.len())).collect();
        found.extend(more);
    }
    stream.random.shuffle(&mut found);
    (found.len() > 1).then_some(found)
}

/// Branches to be out of service in the book as it stands before a list with returns is asked for: they can be spared together, or
/// one of them is what another can be spared after.
pub fn outside(stream: &mut Stream, wanted: Wanted, length: usize) -> Vec<usize> {
    let Some(book) = stream.standing_book() else { return Vec::new() };
    let network = Network::of(&book, stream.spaces.percentage);
    let inside = some(stream, &network, true);
    match wanted {
        Wanted::After => apart(&network, &inside).map_or(Vec::new(), |pair| vec![pair[1]]),
        _ => together(&network, &inside, length),
    }
}
