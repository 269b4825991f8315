//! What every comparison of wire times has.

use lists::times::{MOST_LEFT, pairs, points, stretches};
use reading::wire_time::{MILLISECOND, SECOND, wire_fraction};

#[test]
fn nanoseconds_at_every_end() {
    let all = points();
    assert!(all.is_sorted_by(|a, b| a < b));
    let has = |n: u32| all.binary_search(&n).is_ok();
    assert!((0..4).chain(999_999_997..SECOND).all(has));
    assert!((1..1000).map(|m| m * MILLISECOND).all(|n| has(n - 1) && has(n) && has(n + 1)));
    let refused = [SECOND, SECOND + 1, SECOND + 2, SECOND + 3, u32::MAX];
    assert_eq!(all[all.partition_point(|n| *n < SECOND)..], refused);
}

/// 512 nanoseconds of a second leave nothing over, and 512 the most; the
/// neighbours of each are there too.
#[test]
fn nanoseconds_of_the_least_and_the_largest_remainder() {
    let all = points();
    let has = |n: u32| all.binary_search(&n).is_ok();
    for remainder in [0, MOST_LEFT] {
        let leaves = |n: &u32| wire_fraction(*n).is_ok_and(|(_, left)| left == remainder);
        let found: Vec<u32> = all.iter().copied().filter(leaves).collect();
        assert_eq!(found.len(), 512);
        assert!(found.windows(2).all(|two| two[1] - two[0] == 1_953_125));
        assert!(found.iter().all(|n| has(n.saturating_sub(1)) && has(n + 1)));
    }
}

#[test]
fn the_first_and_the_last_million() {
    let all: Vec<u32> = stretches().collect();
    let (first, last) = all.split_at(1_000_000);
    assert!(first.iter().copied().eq(0..1_000_000));
    assert!(last.iter().copied().eq(999_000_000..1_000_000_000));
}

#[test]
fn each_fraction_with_each_remainder() {
    let all: Vec<_> = pairs().collect();
    assert_eq!(all.len(), 20);
    for remainder in [0, 1, 999_999_999, 1_000_000_000, u32::MAX] {
        for fraction in [0, 1, u32::MAX] {
            assert!(all.contains(&(fraction, remainder)), "{fraction} {remainder}");
        }
    }
}
