//! The fraction of a second that a stamp of RTPS carries, from nanoseconds and back.

use crate::{ffi, Refusal};

/// The remainder to pass to [`wire_nanos`] if it is not known, as for a stamp that came over the wire.
pub const REMAINDER_UNKNOWN: u32 = 999_999_999;

/// What [`wire_fraction`] makes: `fraction` × 10^9 + `remainder` is the nanoseconds × 2^32.
#[derive(Debug, Clone, Copy, PartialEq, Eq, Hash, PartialOrd, Ord, Default)]
pub struct WireFraction {
    /// The fraction of a second that a stamp has, in units of 2^-32 s.
    pub fraction: u32,
    /// The remainder of the division that gave the fraction, below 10^9. A stamp has no place for it. If you store
    /// the stamp, store the remainder with it.
    pub remainder: u32,
}

/// Makes the fraction of a second that a stamp of RTPS has: nanoseconds × 2^32 / 10^9, rounded down, and the
/// remainder of this division. The seconds of a stamp are not converted.
///
/// Refused as 4 if `nanosec` is 10^9 or more.
///
/// ```
/// use dcps::{wire_fraction, wire_nanos, Refusal, WireFraction};
///
/// let wire = wire_fraction(100_000_000)?;
/// assert_eq!(wire, WireFraction { fraction: 429_496_729, remainder: 600_000_000 });
/// assert_eq!(wire_nanos(wire.fraction, wire.remainder), 100_000_000);
///
/// assert_eq!(wire_fraction(1_000_000_000), Err(Refusal::Nanoseconds));
/// # Ok::<(), Refusal>(())
/// ```
pub fn wire_fraction(nanosec: u32) -> Result<WireFraction, Refusal> {
    Ok(ffi::wire_fraction(nanosec)?.wire)
}

/// Makes nanoseconds from a fraction of a second: (`fraction` × 10^9 + `remainder`) / 2^32, rounded down.
///
/// - With fraction and remainder from [`wire_fraction`], these are the nanoseconds that it was given.
/// - With [`REMAINDER_UNKNOWN`], they are the sender's nanoseconds, if the fraction is less than 1 away from
///   nanoseconds × 2^32 / 10^9. So it does not matter which way the sender rounded.
/// - With a remainder of 0 they can be 1 too low.
///
/// A stamp that means "invalid" or "infinite" has a fraction too: test for it first.
///
/// Nothing is refused. The result is below 10^9 if the remainder is, and never above 10^9.
///
/// ```
/// use dcps::{wire_nanos, REMAINDER_UNKNOWN};
///
/// // 100 ms is 429,496,729.6 units: two senders, one that rounds down and one that rounds up.
/// assert_eq!(wire_nanos(429_496_729, REMAINDER_UNKNOWN), 100_000_000);
/// assert_eq!(wire_nanos(429_496_730, REMAINDER_UNKNOWN), 100_000_000);
/// assert_eq!(wire_nanos(429_496_729, 0), 99_999_999);
///
/// assert_eq!(wire_nanos(u32::MAX, REMAINDER_UNKNOWN), 999_999_999);
/// ```
#[must_use]
pub fn wire_nanos(fraction: u32, remainder: u32) -> u32 {
    // Only an answer of another length is refused, and this one has the stated length.
    ffi::wire_nanos(fraction, remainder).map_or(0, |read| read.wire_nanos)
}
