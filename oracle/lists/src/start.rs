//! States that a list starts from: fresh, or any well-formed one.

use reading::bytes::{Guid, Key};
use reading::layout::{Instance, Kind, Standing, Writer, WriterKind};
use reading::state::{Class, State, count};

use crate::pools::{Pools, Stretch};
use crate::rng::Rng;

/// How a list starts.
#[derive(Debug, Clone, Copy, PartialEq, Eq)]
pub enum Start {
    Fresh,
    /// A few records, any fields.
    Any,
    /// All places for instances taken, or all but one or two.
    FullInstances,
    /// Writer sets of 14 to 16 GUIDs.
    FullSets,
    /// 126 to 128 writer records.
    FullWriters,
    /// Lost with 250 to 256 GUIDs, and writers about to expire.
    NearlyFullLost,
    /// The next handle at its end.
    LastHandles,
}

const CHANGE_ENDS: [i64; 6] = [-(1 << 30), 1 - (1 << 30), -1, 0, (1 << 30) - 1, 1 << 30];

/// A well-formed state of the wanted sort, with so many places for instances.
pub fn state(rng: &mut Rng, pools: &Pools, places: u16, start: Start) -> State {
    let mut state = State::fresh(places);
    if start == Start::Fresh {
        return state;
    }
    let few = rng.below(6);
    let (instances, writers, lost) = match start {
        Start::FullInstances => (usize::from(places) - rng.pick(&[2, 1, 0, 0]), few, rng.below(3)),
        Start::FullWriters => (few, 126 + rng.below(3), rng.below(3)),
        Start::NearlyFullLost => (few, 4 + rng.below(6), 250 + rng.below(7)),
        Start::FullSets => (1 + few, rng.below(7), rng.below(4)),
        _ => (few, rng.below(7), rng.below(4)),
    };
    let wide = start == Start::FullInstances;
    for key in distinct(rng, instances, |rng| pools.key(rng, wide)) {
        let instance = instance(rng, pools, key, start);
        state.instances.push(instance);
    }
    for guid in distinct(rng, writers, |rng| pools.guid(rng, start == Start::FullWriters)) {
        state.writers.push(writer(rng, pools, guid));
    }
    state.lost = (0..lost).map(|_| pools.guid(rng, false)).collect();
    number_instances(rng, &mut state, start);
    settle_head(rng, pools, &mut state);
    debug_assert!(state.well_formed());
    state
}

/// `n` different values, rising; fewer where the pool has no more.
pub(crate) fn distinct(
    rng: &mut Rng,
    n: usize,
    draw: impl Fn(&mut Rng) -> [u8; 16],
) -> Vec<[u8; 16]> {
    let mut all = std::collections::BTreeSet::new();
    for _ in 0..8 * n {
        if all.len() < n {
            all.insert(draw(rng));
        }
    }
    all.into_iter().collect()
}

fn instance(rng: &mut Rng, pools: &Pools, key: Key, start: Start) -> Instance {
    let mut i = Instance::fresh(key, 0);
    i.kind = rng.pick(&[Kind::Alive, Kind::Alive, Kind::Disposed, Kind::NoWriters]);
    give_past(rng, &mut i, pools.stretch);
    i.owner = rng.one_in(2).then(|| (pools.guid(rng, false), pools.strength(rng)));
    // A full table stays lean, so that a recorded one is short.
    if start != Start::FullInstances || rng.one_in(16) {
        i.holder = rng.one_in(2).then(|| pools.holder(rng));
        i.writers = set(rng, pools, start == Start::FullSets);
    }
    i
}

/// View, generations, counters and times, whatever the kind: a revived instance
/// keeps the times of its end.
pub(crate) fn give_past(rng: &mut Rng, i: &mut Instance, stretch: Stretch) {
    i.view_new = rng.one_in(2);
    i.disposed_generations = generation(rng);
    i.no_writers_generations = generation(rng);
    i.writer_count = counter(rng);
    i.samples = counter(rng);
    for time in i.times_mut() {
        *time = rng.one_in(2).then(|| stretch.time(rng));
    }
}

fn set(rng: &mut Rng, pools: &Pools, full: bool) -> Vec<Guid> {
    let n = match rng.below(4) {
        _ if full => 15 + rng.below(2),
        0 => 14 + rng.below(3),
        1 => 0,
        _ => rng.below(4),
    };
    distinct(rng, n, |rng| pools.guid(rng, false))
}

fn generation(rng: &mut Rng) -> i32 {
    rng.pick(&[0, 0, 1, 7, i32::MAX - 1, i32::MAX])
}

fn counter(rng: &mut Rng) -> u32 {
    rng.pick(&[0, 0, 1, 2, 3, u32::MAX - 1, u32::MAX])
}

fn writer(rng: &mut Rng, pools: &Pools, guid: Guid) -> Writer {
    let standing = rng.pick(&[
        Standing::Unasserted,
        Standing::Alive,
        Standing::Alive,
        Standing::NotAlive,
        Standing::Departed,
    ]);
    if standing == Standing::Departed {
        return Writer::departed(guid);
    }
    Writer {
        guid,
        kind: rng.pick(&[WriterKind::Automatic, WriterKind::ByParticipant, WriterKind::ByTopic]),
        standing,
        lease: (!rng.one_in(4)).then(|| pools.lease(rng)),
        last_assertion: pools.clock(rng),
    }
}

/// Gives distinct handles, in no order of keys, and a next handle above them.
fn number_instances(rng: &mut Rng, state: &mut State, start: Start) {
    let n = state.instances.len() as u64;
    let last = 1u64 << 63;
    let base = match start {
        Start::LastHandles => rng.pick(&[last, last, last - 1, last - 2]) - n,
        Start::FullInstances if rng.one_in(4) => last - n,
        _ => rng.pick(&[1, 1, 2, 1000, last - 200 - n]),
    };
    let turn = rng.below(128) as u64;
    for (place, instance) in state.instances.iter_mut().enumerate() {
        instance.handle = base + (place as u64 + turn) % n;
    }
    state.head.next_handle = base + n;
    if start != Start::LastHandles && rng.one_in(3) {
        state.head.next_handle = (base + n + rng.below(5) as u64).min(last);
    }
}

/// Lets the head's counts be those of the records.
pub fn count_records(state: &mut State) {
    let head = &mut state.head;
    head.instances = state.instances.len() as u32;
    head.writer_records = state.writers.len() as u32;
    head.lost = state.lost.len() as u32;
    head.alive = count(&state.writers, Class::Alive);
    head.not_alive = count(&state.writers, Class::NotAlive);
}

fn settle_head(rng: &mut Rng, pools: &Pools, state: &mut State) {
    count_records(state);
    let head = &mut state.head;
    head.alive_change = (i64::from(head.alive) - rng.pick(&CHANGE_ENDS)) as i32;
    head.not_alive_change = (i64::from(head.not_alive) - rng.pick(&CHANGE_ENDS)) as i32;
    head.last_writer = rng.one_in(2).then(|| pools.guid(rng, false));
    head.changes = rng.pick(&[0, 5, u64::MAX - 1, u64::MAX]);
}
