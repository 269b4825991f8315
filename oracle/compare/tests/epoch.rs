//! Many calls compare times in every sort, and the Rust judges in every way.

#[path = "over_bytes/calls.rs"]
mod over_bytes;

use compare::epoch_tally::MANY;
use compare::library::Lent;
use compare::list::Library;
use compare::{List, Tally};
use over_bytes::over_bytes;

/// The reading in the library's place; the reads are the library's alone.
#[test]
fn many_calls_meet_every_sort() {
    if !original::PRESENT {
        let ci = std::env::var("CI").is_ok_and(|ci| ci == "true");
        assert!(!ci, "no sources of ZeroDDS (set ZERO_DDS_SRC)");
        return;
    }
    let call = |lent: Lent<'_>| over_bytes(lent, None);
    let (mut tally, mut seeds) = (Tally::default(), 1..);
    while tally.calls < MANY {
        let seed = seeds.next().expect("no end");
        List::of_seed(seed, Library { call, reads: false }, &mut tally).expect("all agree");
    }
    println!("{tally}");
    let reads = ["filter read", "order read"].into_iter();
    let unread = reads.flat_map(|read| {
        ["as it stands", "later", "not"].map(|fate| format!("compares times {read}, {fate}"))
    });
    assert_eq!(tally.epoch.missing(), unread.collect::<Vec<_>>());
}
