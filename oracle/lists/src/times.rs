//! Nanoseconds to convert to the wire, and fractions with remainders to
//! convert back: those at the ends of request 4's rule, and others by chance.

use reading::wire_time::{MILLISECOND, SECOND, wire_fraction};

use crate::rng::Rng;

/// So many nanoseconds from each end of the second are all converted.
pub const WHOLE: u32 = 1_000_000;
/// 5^9: so many nanoseconds on, the fraction is 2^23 more and the remainder
/// the same. Below it the remainders are all the multiples of 512.
const PERIOD: u32 = 1_953_125;
/// The largest remainder.
pub const MOST_LEFT: u32 = SECOND - 512;

/// Fractions, and remainders, that a rule could get wrong.
pub const FRACTIONS: [u32; 4] = [0, 1, 1 << 31, u32::MAX];
pub const REMAINDERS: [u32; 5] = [0, 1, SECOND - 1, SECOND, u32::MAX];

/// Nanoseconds at the ends of the rule, rising: all whole milliseconds and all
/// that leave the least or the most over, each with its neighbours; the first
/// and the last few of the second, the first few refused and the largest.
pub fn points() -> Vec<u32> {
    let most_left = |n: &u32| wire_fraction(*n).is_ok_and(|(_, left)| left == MOST_LEFT);
    let first_most = (0..PERIOD).find(most_left).expect("every multiple of 512 is left over");
    let every = |step: u32, from: u32| (from..SECOND).step_by(step as usize);
    let wholes = every(MILLISECOND, 0).chain(every(PERIOD, 0)).chain(every(PERIOD, first_most));
    let around = wholes.flat_map(|n| n.saturating_sub(1)..=n + 1);
    let ends = (0..4).chain(SECOND - 3..SECOND + 4).chain([u32::MAX]);
    let mut all: Vec<u32> = ends.chain(around).collect();
    all.sort_unstable();
    all.dedup();
    all
}

/// The first and the last nanoseconds of the second, rising.
pub fn stretches() -> impl Iterator<Item = u32> {
    (0..WHOLE).chain(SECOND - WHOLE..SECOND)
}

/// Each of those fractions with each of those remainders.
pub fn pairs() -> impl Iterator<Item = (u32, u32)> {
    FRACTIONS.into_iter().flat_map(|fraction| REMAINDERS.map(|remainder| (fraction, remainder)))
}

/// Any nanoseconds, refused ones in one of eight.
pub fn any_nanoseconds(rng: &mut Rng) -> u32 {
    if rng.one_in(8) { any_from(rng, SECOND) } else { any_below_a_second(rng) }
}

/// Any fraction and remainder: both by chance, one of them at an end, or those
/// of a conversion with one less or one more left over.
pub fn any_pair(rng: &mut Rng) -> (u32, u32) {
    let (fraction, remainder) = (any_from(rng, 0), any_from(rng, 0));
    match rng.below(4) {
        0 => (fraction, remainder),
        1 => (rng.pick(&FRACTIONS), remainder),
        2 => (fraction, rng.pick(&REMAINDERS)),
        _ => {
            let (fraction, left) = wire_fraction(any_below_a_second(rng)).unwrap_or_default();
            (fraction, rng.pick(&[left.saturating_sub(1), left + 1]))
        }
    }
}

fn any_below_a_second(rng: &mut Rng) -> u32 {
    rng.below(SECOND as usize) as u32
}

/// Any number from that one on.
fn any_from(rng: &mut Rng, least: u32) -> u32 {
    least + (rng.number() % ((1 << 32) - u64::from(least))) as u32
}
