//! Request 4's rule at its ends, with values worked out by hand.

use reading::wire_time::{MILLISECOND, SECOND, entry, wire_fraction, wire_nanos};

/// Nanoseconds, fraction and remainder: 2^32 is 4,294,967,296.
const BY_HAND: [(u32, u32, u32); 12] = [
    (0, 0, 0),
    (1, 4, 294_967_296),
    (2, 8, 589_934_592),
    (4, 17, 179_869_184),
    (5, 21, 474_836_480),
    (999, 4_290, 672_328_704),
    (999_999, 4_294_963, 1_032_704),
    (1_000_000, 4_294_967, 296_000_000),
    (1_000_001, 4_294_971, 590_967_296),
    (500_000_000, 2_147_483_648, 0),
    (999_000_000, 4_290_672_328, 704_000_000),
    (999_999_999, 4_294_967_291, 705_032_704),
];

#[test]
fn fractions_worked_out_by_hand() {
    for (nanosec, fraction, remainder) in BY_HAND {
        assert_eq!(wire_fraction(nanosec), Ok((fraction, remainder)), "{nanosec}");
        assert_eq!(wire_nanos(fraction, remainder), nanosec);
    }
}

#[test]
fn a_second_or_more_is_refused() {
    for nanosec in [SECOND, SECOND + 1, u32::MAX] {
        assert_eq!(wire_fraction(nanosec), Err(4), "{nanosec}");
    }
}

/// A remainder that is one short takes the nanoseconds one down, and one that
/// is too large adds to them; nothing is refused.
#[test]
fn pairs_that_no_conversion_gave() {
    assert_eq!(wire_nanos(4, 294_967_295), 0);
    assert_eq!(wire_nanos(4, 294_967_297), 1);
    assert_eq!(wire_nanos(4, 0), 0);
    assert_eq!(wire_nanos(0, u32::MAX), 0);
    assert_eq!(wire_nanos(1, u32::MAX), 1);
    assert_eq!(wire_nanos(u32::MAX, 0), 999_999_999);
    assert_eq!(wire_nanos(u32::MAX, 999_999_999), 999_999_999);
    assert_eq!(wire_nanos(u32::MAX, SECOND), SECOND);
    assert_eq!(wire_nanos(u32::MAX, u32::MAX), SECOND);
}

#[test]
fn entries_worked_out_by_hand() {
    assert_eq!(
        [0, 1, 2, 500, 999].map(entry),
        [0, 4_294_967, 8_589_934, 2_147_483_648, 4_290_672_328]
    );
}

/// The whole table agrees with the conversion. What the conversion leaves is
/// what the table's own division leaves, a million times.
#[test]
fn the_table_at_whole_milliseconds() {
    for m in 0..1000 {
        let left = ((u64::from(m) << 32) % 1000) as u32;
        assert_eq!(wire_fraction(m * MILLISECOND), Ok((entry(m), left * MILLISECOND)), "{m}");
    }
}

#[test]
fn the_first_and_the_last_million_are_recovered() {
    for nanosec in (0..1_000_000).chain(SECOND - 1_000_000..SECOND) {
        let back = wire_fraction(nanosec).map(|(fraction, rest)| wire_nanos(fraction, rest));
        assert_eq!(back, Ok(nanosec));
    }
}
