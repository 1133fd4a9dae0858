//! What a call answers: a number (0 accepted), for 12 the shortage and the group, and for 4 and 5 the place.

use crate::definitions::network::{members, Excess, Group};
use crate::definitions::place::{printed, Place, Refusal};

#[derive(Clone, Copy, Debug, PartialEq, Eq)]
pub struct Answer {
    pub number: u8,
    pub shortage: i64,
    pub group: Group,
    pub place: Option<Place>,
}

impl Answer {
    pub const ACCEPTED: Answer = Answer { number: 0, shortage: 0, group: 0, place: None };

    /// A refusal that carries nothing.
    pub fn refused(number: u8) -> Answer {
        Answer { number, ..Answer::ACCEPTED }
    }

    pub fn overloaded(excess: Excess) -> Answer {
        Answer { number: 12, shortage: excess.amount, group: excess.group, place: None }
    }

    pub fn accepted(&self) -> bool {
        self.number == 0
    }
}

/// Every call passes on the place of a book that is refused.
impl From<Refusal> for Answer {
    fn from(refusal: Refusal) -> Answer {
        Answer { place: refusal.place, ..Answer::refused(refusal.number) }
    }
}

/// The number, the shortage, the number of buses in the group, the buses in rising order, and where there is a place its item
/// and its field.
impl std::fmt::Display for Answer {
    fn fmt(&self, out: &mut std::fmt::Formatter) -> std::fmt::Result {
        write!(out, "{} {}{}{}", self.number, self.shortage, counted(self.group), printed(self.place))
    }
}

/// The number of buses in a group and these in rising order, each after a space.
pub fn counted(group: Group) -> String {
    let buses = members(group);
    let named: String = buses.iter().map(|bus| format!(" {bus}")).collect();
    format!(" {}{}", buses.len(), named)
}
