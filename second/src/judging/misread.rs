//! Other readings of the limits at a percentage, each as a network, and what a call answers by one: what a wrong program would do.

use crate::books::random_percentages::rounded_twice;
use crate::definitions::answer::Answer;
use crate::definitions::book::Book;
use crate::definitions::cuts;
use crate::definitions::limits::limit_in_kw;
use crate::definitions::network::Network;
use crate::definitions::percentage::{Percentage, NAMEPLATE};
use crate::definitions::switching::Way;
use crate::trial::spaces::Spaces;
use crate::trial::stream::Command;

#[derive(Clone, Copy, Debug, PartialEq, Eq)]
pub enum Misreading {
    RoundedTwice,
    RoundedUp,
    FirstAlone,
    SecondAlone,
    Ignored,
}

impl Misreading {
    pub const ALL: [Misreading; 5] =
        [Misreading::RoundedTwice, Misreading::RoundedUp, Misreading::FirstAlone, Misreading::SecondAlone, Misreading::Ignored];

    /// Whether it gives other verdicts. With the percentage on the second rating alone these are the right ones, and can't be found
    /// by it, since a second limit may then be below the normal one.
    pub fn shows(self) -> bool {
        self != Misreading::SecondAlone
    }

    /// The network of a book at a percentage by this reading.
    pub fn network(self, book: &Book, percentage: Percentage) -> Network {
        let mut network = Network::of(book, percentage);
        let right = |kva: u32| limit_in_kw(kva, book.factor, percentage);
        let whole = |kva: u32| limit_in_kw(kva, book.factor, NAMEPLATE);
        let up = |kva: u32| (kva as u64 * book.factor as u64 * percentage.0 as u64).div_ceil(100_000) as i64;
        let twice = |kva: u32| rounded_twice(kva, book.factor, percentage);
        for (line, branch) in network.lines.iter_mut().zip(&book.branches) {
            let (first, second) = (branch.kva, branch.second_kva);
            (line.normal_limit, line.second_limit) = match self {
                Misreading::RoundedTwice => (twice(first), twice(second)),
                Misreading::RoundedUp => (up(first), up(second)),
                Misreading::FirstAlone => (right(first), whole(second)),
                Misreading::SecondAlone => (whole(first), right(second)),
                Misreading::Ignored => (whole(first), whole(second)),
            };
        }
        network
    }
}

impl std::fmt::Display for Misreading {
    fn fmt(&self, out: &mut std::fmt::Formatter) -> std::fmt::Result {
        out.write_str(match self {
            Misreading::RoundedTwice => "limits were rounded twice",
            Misreading::RoundedUp => "limits were rounded up",
            Misreading::FirstAlone => "the percentage were on the first rating alone",
            Misreading::SecondAlone => "the percentage were on the second rating alone",
            Misreading::Ignored => "the percentage were ignored",
        })
    }
}

/// What a call answers by a network where nothing is refused before its limits count: accepted, 11 or 12.
pub fn answer(command: &Command, network: &Network, lent: &Spaces) -> Answer {
    let excess = match *command {
        Command::Switch { .. } | Command::Load { .. } if !network.fits(&lent.flow[..network.lines.len()]) => {
            return Answer::refused(11);
        }
        Command::Switch { way: Way::Back, .. } => return Answer::ACCEPTED,
        Command::Switch { way: Way::Out, branch, .. } => cuts::base_excess(&network.without(branch)),
        Command::Load { shift, .. } => cuts::base_excess(&shift.changed(network)),
        _ => cuts::base_excess(network),
    };
    if excess.amount > 0 {
        Answer::overloaded(excess)
    } else {
        Answer::ACCEPTED
    }
}
