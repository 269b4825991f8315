//! Request 4: nanoseconds as the 32-bit fraction of a second that an RTPS
//! stamp carries, with what that division leaves over, and back.

/// A second in nanoseconds: so many or more are refused.
pub const SECOND: u32 = 1_000_000_000;
/// A millisecond in nanoseconds.
pub const MILLISECOND: u32 = 1_000_000;
/// A second in units of the fraction.
const UNITS: u64 = 1 << 32;

/// The fraction, rounded down, and the remainder, or refusal 4. At whole
/// milliseconds too the remainder is that of n × 2^32 by 10^9.
pub fn wire_fraction(nanosec: u32) -> Result<(u32, u32), u8> {
    if nanosec >= SECOND {
        return Err(4);
    }
    let (units, second) = (u64::from(nanosec) * UNITS, u64::from(SECOND));
    Ok(((units / second) as u32, (units % second) as u32))
}

/// The nanoseconds, rounded down, of any fraction and remainder: of those that
/// a conversion gave, the nanoseconds that it was given.
pub fn wire_nanos(fraction: u32, remainder: u32) -> u32 {
    let units = u64::from(fraction) * u64::from(SECOND) + u64::from(remainder);
    (units / UNITS) as u32
}

/// Entry m of the table for whole milliseconds; m is below 1,000.
pub fn entry(m: u32) -> u32 {
    (u64::from(m) * UNITS / 1000) as u32
}
