//! How far one time is from another, which filters, destination order,
//! autopurge and the deadline go by (request 7 of 02).

use crate::Misreading;
use crate::layout::Time;

/// What goes by a gap, the deadline aside.
#[derive(Debug, Clone, Copy, PartialEq, Eq, PartialOrd, Ord)]
pub enum Rule {
    Order,
    Filter,
    Purge,
}

/// Nanoseconds from one time to another; negative where that is the earlier.
pub fn gap(from: Time, to: Time) -> i64 {
    to.since_epoch() - from.since_epoch()
}

/// The same, as a misreading has it under a rule.
pub fn gap_as(misreading: Option<Misreading>, rule: Rule, from: Time, to: Time) -> i64 {
    let value = |time: Time| misreading.map_or(time.since_epoch(), |wrong| wrong.value(rule, time));
    value(to) - value(from)
}

/// What a purge counts of a gap: of a negative one 0. None where a misreading
/// never purges by it.
pub fn purge_gap(misreading: Option<Misreading>, gap: i64) -> Option<u64> {
    match (misreading, u64::try_from(gap)) {
        (_, Ok(gap)) => Some(gap),
        (Some(Misreading::NegativeGapBySize), Err(_)) => Some(gap.unsigned_abs()),
        (Some(Misreading::NegativeGapStays), Err(_)) => None,
        (_, Err(_)) => Some(0),
    }
}

impl Misreading {
    /// A time's nanoseconds under a rule.
    fn value(self, rule: Rule, time: Time) -> i64 {
        let clamped = match self {
            Self::Clamped => true,
            Self::FilterClamped => rule == Rule::Filter,
            Self::OrderClamped => rule == Rule::Order,
            Self::PurgeClamped => rule == Rule::Purge,
            _ => false,
        };
        if clamped {
            Time { seconds: time.seconds.max(0), ..time }.since_epoch()
        } else if self == Self::NanosecondsSubtracted && time.seconds < 0 {
            time.since_epoch() - 2 * i64::from(time.nanoseconds)
        } else {
            time.since_epoch()
        }
    }
}
