//! The two limits of a branch in kW (document 02, W2 and W8): how each comes from its kVA figure, and which of them counts where.

use crate::definitions::percentage::Percentage;

/// The normal limit comes from the first kVA figure, the second from the second.
///
/// A flow keeps to the normal limits: the one lent, else 11, and the one left, else 12, so that the base excess is by these.
/// The loss of a branch is judged by the second limits of the others, which these may carry until load is moved: so are its
/// verdict, its shortage, its group and its reroute.
#[derive(Clone, Copy, Debug, PartialEq, Eq)]
pub enum Limits {
    Normal,
    Second,
}

/// "kVA times power factor times percentage, divided by 100,000, rounded down once": the one step from kVA to kW, for both ratings.
/// At 100 it is document 01's step.
pub fn limit_in_kw(kva: u32, factor: u32, percentage: Percentage) -> i64 {
    kva as i64 * factor as i64 * percentage.0 as i64 / 100_000
}
