//! The percentage of nameplate that the cables are run at (document 02, W8). "The percentage is given with each call and isn't in
//! the book."

use crate::definitions::answer::Answer;

/// What a call is told, in range or not.
#[derive(Clone, Copy, Debug, PartialEq, Eq, PartialOrd, Ord)]
pub struct Percentage(pub u8);

/// "`outages` uses 100", which gives document 01's limits; so does a trial until it is told otherwise.
pub const NAMEPLATE: Percentage = Percentage(100);

impl Percentage {
    /// "At a stated percentage, 50 to 100, of nameplate."
    pub fn in_range(self) -> bool {
        (50..=100).contains(&self.0)
    }

    /// "21 (percentage out of range), before all others."
    pub fn tested(self) -> Result<(), Answer> {
        if self.in_range() {
            Ok(())
        } else {
            Err(Answer::refused(21))
        }
    }
}
