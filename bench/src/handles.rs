//! The test that handles are distinct, on full states with handles that make it
//! short and long.

use lists::fill::Filled;
use lists::rng::Rng;
use reading::State;
use reading::layout::LAST_NEXT_HANDLE;

use crate::mixes::{Mix, mix};
use crate::state::{Size, state};

/// Handles of this distance are the same modulo every lower power of two, so
/// modulo 1,024 too.
const CLASH: u64 = 1 << 20;

/// What handles are like, and the one at a place.
type Handles = (&'static str, fn(u64, &mut Rng) -> u64);

const HANDLES: [Handles; 4] = [
    ("1 and up", |place, _| place + 1),
    ("random", |_, rng| rng.number() % LAST_NEXT_HANDLE),
    ("equal modulo 1024", |place, _| (place + 1) * CLASH + 5),
    // the lowest is 0 in all digits up to the highest in which they differ
    ("2^32 and up by 1024", |place, _| (1 << 32) + place * 1024),
];

/// A take_status, which does little besides the test, on each; the second
/// reading in `State` has seen them well formed.
pub fn statuses(size: Size) -> Vec<Mix> {
    let status = |(name, handle)| {
        let mut start = state(size, size.instances);
        renumber(&mut start, handle);
        let (alive, change) = (start.head.alive, start.head.alive_change);
        mix(name, start, vec![Filled::code(39)], move |a| {
            a.number == 0 && a.alive == alive && a.alive_change == change
        })
    };
    HANDLES.into_iter().map(status).collect()
}

fn renumber(state: &mut State, handle: fn(u64, &mut Rng) -> u64) {
    let mut rng = Rng::new(2);
    for (place, instance) in (0..).zip(&mut state.instances) {
        instance.handle = handle(place, &mut rng);
    }
    let last = state.instances.iter().map(|i| i.handle).max();
    state.head.next_handle = last.map_or(1, |last| last + 1);
    assert!(state.well_formed());
}
