//! The states that the lists start from.

use lists::rng::Rng;
use reading::State;
use reading::bytes::Guid;
use reading::layout::{
    HOLDER_PLACES, Instance, LARGE, LOST_BYTES, LOST_PLACES, SET_PLACES, SMALL, Standing, Time,
    WRITER_PLACES, WRITERS_BYTES, Writer, pens_bytes,
};

/// All instances saw their last sample at this time, in seconds.
pub const LAST: i32 = 100;
pub const LEASE: u64 = 10_000_000_000;
/// Writers stand a second apart by their last assertion.
pub const APART: u64 = 1_000_000_000;
/// What a full Lost leaves free, for a list's expiries.
pub const EXPIRIES: usize = 16;

/// How much is there.
#[derive(Clone, Copy)]
pub struct Size {
    pub name: &'static str,
    /// Instances that there are places for.
    pub places: u16,
    pub instances: usize,
    /// Writer records.
    pub writers: usize,
    /// Writers of a participant.
    pub participant: usize,
    /// Writers of an instance.
    pub set: usize,
    /// Bytes of an instance's holder.
    pub holder: usize,
    /// GUIDs in Lost.
    pub lost: usize,
}

impl Size {
    const fn of(name: &'static str, places: u16, records: usize) -> Self {
        Self {
            name,
            places,
            instances: records,
            writers: records,
            participant: 8,
            set: 2,
            holder: 24,
            lost: 0,
        }
    }

    /// Every table, set and holder as full as it can be.
    const fn full(name: &'static str, places: u16) -> Self {
        Self {
            name,
            places,
            instances: places as usize,
            writers: WRITER_PLACES,
            participant: 8,
            set: SET_PLACES,
            holder: HOLDER_PLACES,
            lost: LOST_PLACES - EXPIRIES,
        }
    }

    /// The bytes that a call is lent for it.
    pub fn lent(self) -> usize {
        pens_bytes(self.places) + WRITERS_BYTES + LOST_BYTES
    }
}

/// Those of the large console and of the bench-top one, each with the full one
/// last.
pub const SIZES: [&[Size]; 2] = [
    &[
        Size::of("0", LARGE, 0),
        Size::of("16", LARGE, 16),
        Size::of("128", LARGE, 128),
        Size::full("128, full", LARGE),
    ],
    &[Size::of("16", SMALL, 16), Size::of("32", SMALL, 32), Size::full("32, full", SMALL)],
];

/// The full ones.
pub fn full() -> [Size; 2] {
    SIZES.map(|sizes| sizes[sizes.len() - 1])
}

/// GUIDs that rise, of participants with so many writers each.
fn guid(place: usize, participant: usize) -> Guid {
    let [prefix, entity] = [place / participant, place % participant + 1].map(|n| n as u32);
    let mut guid = [0; 16];
    guid[..4].copy_from_slice(&prefix.to_be_bytes());
    guid[12..].copy_from_slice(&entity.to_be_bytes());
    guid
}

/// Alive instances with owner, holder, times and writers, and alive writers.
pub fn state(size: Size, instances: usize) -> State {
    let mut rng = Rng::new(1);
    let mut state = State::fresh(size.places);
    let guids: Vec<Guid> = (0..size.writers).map(|place| guid(place, size.participant)).collect();
    let mut keys: Vec<[u8; 16]> = (0..instances)
        .map(|_| {
            let mut key = [0; 16];
            rng.fill(&mut key);
            key
        })
        .collect();
    keys.sort_unstable();
    for (place, key) in keys.into_iter().enumerate() {
        state.instances.push(instance(size, place, key, &guids));
    }
    for (place, guid) in guids.iter().enumerate() {
        state.writers.push(Writer {
            guid: *guid,
            standing: Standing::Alive,
            lease: Some(LEASE),
            last_assertion: place as u64 * APART,
            ..Writer::default()
        });
    }
    state.lost = (0..size.lost).map(|place| guids[place % guids.len()]).collect();
    let head = &mut state.head;
    head.instances = instances as u32;
    head.writer_records = guids.len() as u32;
    head.lost = state.lost.len() as u32;
    head.alive = guids.len() as u32;
    head.alive_change = guids.len() as i32;
    head.last_writer = guids.last().copied();
    head.next_handle = instances as u64 + 1;
    head.changes = guids.len() as u64;
    assert!(state.well_formed());
    state
}

fn instance(size: Size, place: usize, key: [u8; 16], guids: &[Guid]) -> Instance {
    let mut instance = Instance::fresh(key, place as u64 + 1);
    let mut writers: Vec<Guid> = (0..size.set).map(|n| guids[(place + n) % guids.len()]).collect();
    writers.sort_unstable();
    let last = Some(Time { seconds: LAST, nanoseconds: 0 });
    instance.view_new = false;
    instance.samples = 1;
    instance.last_sample = last;
    instance.last_delivered = last;
    instance.last_filter = last;
    instance.owner = writers.first().map(|guid| (*guid, 1));
    instance.owner_at = last;
    instance.holder = Some(vec![0x77; size.holder]);
    instance.writers = writers;
    instance
}
