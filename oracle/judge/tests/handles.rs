//! Section 1's handles against the Rust's, where it is at hand.

use lists::pools::HASHES_TO_ZERO;
use lists::rng::Rng;
use reading::handles::{allocate, of_guid};

#[test]
fn the_counter_wraps_and_skips_nil() {
    assert_eq!(allocate(0), (1, 2));
    assert_eq!(allocate(u64::MAX), (u64::MAX, 0));
    for next in [0, 1, 2, u64::MAX - 1, u64::MAX] {
        let (first, then) = allocate(next);
        let (second, last) = allocate(then);
        if let Some(rust) = original::two_handles(next) {
            assert_eq!(rust, (first, second, last));
        }
    }
}

#[test]
fn a_guid_gives_a_handle() {
    assert_eq!(of_guid(&HASHES_TO_ZERO), 1);
    let mut rng = Rng::new(1);
    let mut guids = vec![[0; 16], [0xff; 16], HASHES_TO_ZERO];
    guids.extend((0..1000).map(|_| {
        let mut guid = [0; 16];
        rng.fill(&mut guid);
        guid
    }));
    for guid in guids {
        if let Some(rust) = original::handle_of(guid) {
            assert_eq!(rust, of_guid(&guid));
        }
    }
}
