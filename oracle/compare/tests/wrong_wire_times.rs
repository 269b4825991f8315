//! Wrong wire times in place of the library's are caught, each by the first
//! conversion that it gets wrong.

mod over_bytes;

use compare::added::{Added, Told};
use compare::times::Conversion::{self, Fraction, Nanos};
use compare::times::as_told;
use over_bytes::{changed, shared, wrong};
use reading::wire_time::{MILLISECOND, SECOND, entry, wire_fraction, wire_nanos};

shared!(Conversion, [4]);

/// A fraction and a remainder, or nanoseconds and 0; or a refusal.
type Numbers = Result<(u32, u32), u8>;

/// The right answer with another fraction, or another remainder.
fn with_fraction(n: u32, other: impl Fn(u32, u32) -> u32) -> Numbers {
    wire_fraction(n).map(|(fraction, left)| (other(fraction, left), left))
}

fn with_remainder(n: u32, other: impl Fn(u32) -> u32) -> Numbers {
    wire_fraction(n).map(|(fraction, left)| (fraction, other(left)))
}

/// Another entry at whole milliseconds.
fn with_entry(n: u32, other: impl Fn(u32) -> u32) -> Numbers {
    let whole = n.is_multiple_of(MILLISECOND);
    with_fraction(n, |fraction, _| if whole { other(n / MILLISECOND) } else { fraction })
}

/// Entry `wrong` one too large.
fn one_entry_off(n: u32, wrong: u32) -> Numbers {
    with_entry(n, |m| entry(m) + u32::from(m == wrong))
}

/// Another remainder at whole milliseconds.
fn with_remainder_of_entry(n: u32, other: impl Fn(u32) -> u32) -> Numbers {
    let whole = n.is_multiple_of(MILLISECOND);
    with_remainder(n, |left| if whole { other(n / MILLISECOND) } else { left })
}

/// Multiplied by 2^32 / 10^9 to so many bits, rounded down, with so much added to
/// the last.
fn by_reciprocal(n: u32, bits: u32, added: u128) -> Numbers {
    let reciprocal = (1_u128 << (32 + bits)) / u128::from(SECOND) + added;
    with_fraction(n, |_, _| ((u128::from(n) * reciprocal) >> bits) as u32)
}

/// Refused where the test says so, else cut to 32 bits.
fn refused_where(n: u32, refused: bool) -> Numbers {
    let units = u64::from(n) << 32;
    let second = u64::from(SECOND);
    if refused { Err(4) } else { Ok(((units / second) as u32, (units % second) as u32)) }
}

type FractionRule = fn(u32) -> Numbers;

/// Wrong rules, each with the nanoseconds that catch it.
const WRONG_FRACTIONS: [(&str, FractionRule, u32); 21] = [
    ("rounded to the nearest", |n| with_fraction(n, |f, r| f + u32::from(r >= SECOND / 2)), 2),
    ("rounded up", |n| with_fraction(n, |f, r| f + u32::from(r > 0)), 1),
    ("a reciprocal too small", |n| by_reciprocal(n, 60, 0), 1_953_125),
    ("a reciprocal too large", |n| by_reciprocal(n, 49, 1), 444_070_603),
    (
        "one of the last off",
        |n| with_fraction(n, |f, _| f + u32::from(n == 999_876_543)),
        999_876_543,
    ),
    ("remainder by 2^32", |n| with_remainder(n, |_| n.wrapping_mul(SECOND)), 1),
    ("remainder in steps of 512", |n| with_remainder(n, |r| r >> 9), 1),
    (
        "the table's remainder",
        |n| with_remainder_of_entry(n, |m| ((u64::from(m) << 32) % 1000) as u32),
        1_000_000,
    ),
    ("no remainder beside an entry", |n| with_remainder_of_entry(n, |_| 0), 1_000_000),
    ("entry 0 off", |n| one_entry_off(n, 0), 0),
    ("entry 1 off", |n| one_entry_off(n, 1), 1_000_000),
    ("entry 500 off", |n| one_entry_off(n, 500), 500_000_000),
    ("entry 999 off", |n| one_entry_off(n, 999), 999_000_000),
    ("the entry behind", |n| with_entry(n, |m| entry(m + 1)), 0),
    ("the entry before", |n| with_entry(n, |m| entry(m.saturating_sub(1))), 1_000_000),
    ("10^9 taken", |n| refused_where(n, n > SECOND), SECOND),
    ("10^9 - 1 refused", |n| refused_where(n, n >= SECOND - 1), SECOND - 1),
    ("10^9 alone refused", |n| refused_where(n, n == SECOND), SECOND + 1),
    ("nothing refused", |n| refused_where(n, false), SECOND),
    ("refused as a signed number", |n| refused_where(n, n as i32 >= SECOND as i32), u32::MAX),
    ("refused as 5", |n| wire_fraction(n).map_err(|_| 5), SECOND),
];

#[test]
fn each_wrong_fraction_is_caught() {
    let rules = WRONG_FRACTIONS.map(|(what, rule, nanosec)| {
        let rule = move |asked: &Conversion| match *asked {
            Fraction(n) => as_told(rule(n)),
            Nanos(..) => asked.told(),
        };
        (what, rule, Fraction(nanosec))
    });
    wrong(rules, |first| first.asked);
}

/// The nanoseconds of fraction and remainder with so many units added.
fn with_units(fraction: u32, remainder: u32, added: u64) -> u32 {
    let units = u64::from(fraction) * u64::from(SECOND) + u64::from(remainder);
    ((units + added) >> 32) as u32
}

type NanosRule = fn(u32, u32) -> u32;

/// Wrong rules for the way back, each with the conversion that catches it:
/// nanoseconds that are not recovered, or a pair that no conversion gave.
const WRONG_NANOS: [(&str, NanosRule, Conversion); 8] = [
    ("remainder ignored", |f, _| wire_nanos(f, 0), Fraction(1)),
    ("the two exchanged", |f, r| wire_nanos(r, f), Fraction(1)),
    ("32 bits of the product", |f, r| with_units(0, r, f.wrapping_mul(SECOND).into()), Fraction(2)),
    ("rounded up", |f, r| with_units(f, r, (1 << 32) - 1), Nanos(0, 1)),
    ("rounded to the nearest", |f, r| with_units(f, r, 1 << 31), Nanos(0, u32::MAX)),
    ("rounded up from the last unit", |f, r| with_units(f, r, 1), Nanos(0, u32::MAX)),
    ("remainders cut", |f, r| wire_nanos(f, r.min(SECOND - 1)), Nanos(1, u32::MAX)),
    ("10^9 cut", |f, r| wire_nanos(f, r).min(SECOND - 1), Nanos(u32::MAX, SECOND)),
];

/// A rule for the way back alone.
fn back(rule: impl Fn(u32, u32) -> Numbers) -> impl Fn(&Conversion) -> Told {
    move |asked| match *asked {
        Fraction(_) => asked.told(),
        Nanos(fraction, remainder) => as_told(rule(fraction, remainder)),
    }
}

#[test]
fn each_wrong_way_back_is_caught() {
    let nanos = |rule: NanosRule| back(move |f, r| Ok((rule(f, r), 0)));
    wrong(WRONG_NANOS.map(|(what, rule, first)| (what, nanos(rule), first)), |first| first.asked);
    let refused = |f, r| if r < SECOND { Ok((wire_nanos(f, r), 0)) } else { Err(4) };
    wrong([("remainders refused", back(refused), Nanos(0, SECOND))], |first| first.asked);
}

type Change = fn(&mut [u8]);

/// Answers laid out in another way.
const WRONG_BYTES: [(&str, Change); 5] = [
    ("first number low byte first", |answer| answer[4..8].reverse()),
    ("remainder low byte first", |answer| answer[8..16].reverse()),
    ("remainder in 32 bits", |answer| answer[8..16].rotate_left(4)),
    ("4 bytes further", |answer| answer[4..].rotate_right(4)),
    ("4 bytes less far", |answer| answer.rotate_left(4)),
];

#[test]
fn each_wrong_layout_is_caught() {
    let rules = WRONG_BYTES.map(|(what, change)| {
        (what, move |asked: &Conversion| changed(asked, change), Fraction(1))
    });
    wrong(rules, |first| first.asked);
}
