//! Fractions of a second from nanoseconds and back: which number it is, what is left over, what is refused.

use dcps::{wire_fraction, wire_nanos, Refusal, WireFraction, REMAINDER_UNKNOWN};

#[allow(dead_code)]
#[path = "../src/c.rs"]
mod c;

const BILLION: u32 = 1_000_000_000;
const MILLION: u32 = 1_000_000;

/// Both ends, the neighbours of each whole millisecond, and some between them.
fn nanoseconds() -> impl Iterator<Item = u32> {
    let near = (0..=1_000).flat_map(|m: u32| {
        let whole = m * MILLION;
        [whole.saturating_sub(1), whole, whole + 1, whole + 499_999, whole + 765_432]
    });
    near.filter(|nanosec| *nanosec < BILLION)
}

fn units(nanosec: u32) -> u64 {
    u64::from(nanosec) << 32
}

#[test]
fn rounded_down_with_its_remainder() {
    for nanosec in nanoseconds() {
        let wire = wire_fraction(nanosec).expect("below 10^9");
        let (fraction, remainder) = (u64::from(wire.fraction), u64::from(wire.remainder));
        assert!(remainder < 1_000_000_000, "{nanosec}: {wire:?}");
        assert_eq!(fraction * 1_000_000_000 + remainder, units(nanosec), "{nanosec}");
    }
}

/// The fractions are those of the division by 1,000; the remainders are not.
#[test]
fn whole_milliseconds() {
    for m in 0..1_000 {
        let wire = wire_fraction(m * MILLION).expect("below 10^9");
        assert_eq!(u64::from(wire.fraction), units(m) / 1_000, "{m}");
        assert_eq!(u64::from(wire.remainder), units(m) % 1_000 * 1_000_000, "{m}");
    }
}

#[test]
fn some_by_hand() {
    let said = [
        (0, 0, 0),
        (1, 4, 294_967_296),
        (999_999, 4_294_963, 1_032_704),
        (1_000_000, 4_294_967, 296_000_000),
        (500_000_000, 1 << 31, 0),
        (999_000_000, 4_290_672_328, 704_000_000),
        (999_999_999, 4_294_967_291, 705_032_704),
    ];
    for (nanosec, fraction, remainder) in said {
        assert_eq!(wire_fraction(nanosec), Ok(WireFraction { fraction, remainder }), "{nanosec}");
    }
}

#[test]
fn from_a_billion_on_refused() {
    for nanosec in [BILLION, BILLION + 1, 1_001 * MILLION, 1 << 31, u32::MAX] {
        assert_eq!(wire_fraction(nanosec), Err(Refusal::Nanoseconds), "{nanosec}");
    }
}

#[test]
fn recovered() {
    for nanosec in nanoseconds() {
        let wire = wire_fraction(nanosec).expect("below 10^9");
        assert_eq!(wire_nanos(wire.fraction, wire.remainder), nanosec);
    }
}

/// A stamp that came over the wire: its sender rounded down or up.
#[test]
fn recovered_without_the_remainder() {
    let mut dropped = 0;
    for nanosec in nanoseconds() {
        let down = (units(nanosec) / 1_000_000_000) as u32;
        let up = units(nanosec).div_ceil(1_000_000_000) as u32;
        assert_eq!(wire_nanos(down, REMAINDER_UNKNOWN), nanosec);
        assert_eq!(wire_nanos(up, REMAINDER_UNKNOWN), nanosec);
        dropped += u32::from(nanosec % MILLION == 0 && wire_nanos(down, 0) != nanosec);
    }
    // Of the whole milliseconds, those that are no multiple of 125: what docs/INTEGRATION.md says of a remainder of 0.
    assert_eq!(dropped, 992);
}

/// Each of these fractions with each of these remainders, also with those that no division by 10^9 leaves.
#[test]
fn any_fraction_and_remainder() {
    let fractions = [0, 1, 4, 5, 1 << 31, u32::MAX - 4, u32::MAX - 3, u32::MAX - 1, u32::MAX];
    let remainders =
        [0, 1, 294_967_296, 999_999_998, REMAINDER_UNKNOWN, BILLION, 1 << 31, u32::MAX];
    for fraction in fractions {
        for remainder in remainders {
            let sum = u128::from(fraction) * 1_000_000_000 + u128::from(remainder);
            let nanos = wire_nanos(fraction, remainder);
            assert_eq!(u128::from(nanos), sum >> 32, "{fraction}, {remainder}");
            assert!(nanos < BILLION || remainder >= BILLION, "{fraction}, {remainder}");
        }
    }
    assert_eq!(wire_nanos(u32::MAX, u32::MAX), BILLION);
    assert_eq!(wire_nanos(u32::MAX, REMAINDER_UNKNOWN), BILLION - 1);
}

/// The bytes of an answer that had 0xff in it: the number, the u32 at 4, the u64 at 8, zeros; and that one of another length
/// is refused as 1 before all else.
fn said(ask: impl Fn(*mut u8, usize) -> u32, number: u8, at_4: u32, at_8: u64) {
    let mut expected = [0xff; 32];
    expected[..24].fill(0);
    expected[0] = number;
    expected[4..8].copy_from_slice(&at_4.to_be_bytes());
    expected[8..16].copy_from_slice(&at_8.to_be_bytes());
    let answered = |length| {
        let mut answer = [0xff; 32];
        (ask(answer.as_mut_ptr(), length), answer)
    };
    assert_eq!(answered(24), (number.into(), expected));
    for length in [0, 1, 8, 23, 25, 32] {
        assert_eq!(answered(length), (1, [0xff; 32]), "{length}");
    }
}

#[test]
fn answers() {
    // SAFETY: `said` hands a pointer over that comes from a borrow of 32 bytes, and a length of 32 at most.
    let fraction =
        |nanosec| move |at, length| unsafe { c::dcps_wire_fraction(nanosec, at, length) };
    // SAFETY: as above.
    let nanos = |f, r| move |at, length| unsafe { c::dcps_wire_nanos(f, r, at, length) };
    said(fraction(1), 0, 4, 294_967_296);
    said(fraction(999_000_000), 0, 4_290_672_328, 704_000_000);
    said(fraction(BILLION), 4, 0, 0);
    said(fraction(u32::MAX), 4, 0, 0);
    said(nanos(4, 294_967_296), 0, 1, 0);
    said(nanos(u32::MAX, u32::MAX), 0, BILLION, 0);
}
