//! Tables of instances from a seed, each with GUIDs to look up in it: well
//! formed, damaged, or of another length. Keys and GUIDs share halves, handles
//! are in no order of keys, and some GUIDs are in the last instance's set alone.

use reading::State;
use reading::bytes::{Guid, Key, put};
use reading::layout::{FIGURES, Instance, Kind, LAST_NEXT_HANDLE, SET_PLACES, pens_bytes};

use crate::damage;
use crate::image::{Buffer, Edit, Image, Step};
use crate::pools::Stretch;
use crate::rng::Rng;
use crate::start::{distinct, give_past};

/// GUIDs that one table is asked for.
pub const ASKED: usize = 8;
/// A table is damaged, or of another length, one in so many times each.
const SPOILT_ONE_IN: usize = 16;
/// Halves of 8 bytes that a table's keys are made of: more than 128 pairs.
const HALVES: usize = 14;
/// Of these, the ones that its GUIDs are made of, so that a GUID may be a key.
const GUID_HALVES: usize = 6;
/// Halves that an order of signed numbers, or of fewer bits, gets wrong.
const ENDS: [u64; 6] = [0, 1, 1 << 32, (1 << 63) - 1, 1 << 63, u64::MAX];
/// The last instance is alive, and the only one with some GUID, in one of so many
/// tables: a search that ends before the last place shows.
const LONE_ONE_IN: usize = 2;

/// A table as lent, and the GUIDs that it is asked for.
pub struct LookupTable {
    pub pens: Vec<u8>,
    pub asked: Vec<Guid>,
}

impl LookupTable {
    /// Every second seed has 32 places, the others 128.
    pub fn of_seed(seed: u64) -> Self {
        let mut rng = Rng::new(seed);
        let places = FIGURES[(seed % 2) as usize];
        let halves = halves(&mut rng);
        let (of_guids, of_keys_alone) = halves.split_at(GUID_HALVES);
        let guids = guids(&mut rng, of_guids);
        let mut state = state(&mut rng, places, &halves, &guids);
        // None of the other GUIDs has a half that is of keys alone.
        let lone = joined(rng.pick(of_guids), rng.pick(of_keys_alone));
        if rng.one_in(LONE_ONE_IN) {
            give_last(&mut state.instances, lone);
        }
        let asked = |_| asked(&mut rng, &state.instances, &guids, lone);
        let asked = (0..ASKED).map(asked).collect();
        Self { pens: lent(&mut rng, &state), asked }
    }
}

/// Different ones: ends, any, and some one bit off another.
fn halves(rng: &mut Rng) -> Vec<u64> {
    let mut all: Vec<u64> = Vec::new();
    while all.len() < HALVES {
        let half = match (rng.below(3), rng.pick_some(&all)) {
            (0, _) => rng.pick(&ENDS),
            (1, Some(other)) => other ^ (1u64 << rng.below(64)),
            _ => rng.number(),
        };
        if !all.contains(&half) {
            all.push(half);
        }
    }
    all
}

fn joined(high: u64, low: u64) -> [u8; 16] {
    let mut name = [0; 16];
    put(&mut name, 0, &high.to_be_bytes());
    put(&mut name, 8, &low.to_be_bytes());
    name
}

/// All that the halves make, and zero, in no order.
fn guids(rng: &mut Rng, halves: &[u64]) -> Vec<Guid> {
    let pairs = halves.iter().flat_map(|high| halves.iter().map(|low| joined(*high, *low)));
    let mut all: Vec<Guid> = pairs.filter(|guid| *guid != [0; 16]).chain([[0; 16]]).collect();
    shuffle(rng, &mut all);
    all
}

fn shuffle<T>(rng: &mut Rng, all: &mut [T]) {
    for n in (1..all.len()).rev() {
        all.swap(n, rng.below(n + 1));
    }
}

fn state(rng: &mut Rng, places: u16, halves: &[u64], guids: &[Guid]) -> State {
    let mut state = State::fresh(places);
    let n = how_many(rng, usize::from(places));
    let keys = distinct(rng, n, |rng| joined(rng.pick(halves), rng.pick(halves)));
    let handles = handles(rng, keys.len());
    let alive = 1 + rng.below(7);
    for (key, handle) in keys.into_iter().zip(handles) {
        state.instances.push(instance(rng, guids, key, handle, alive));
    }
    state.head.next_handle = LAST_NEXT_HANDLE;
    state
}

/// None, few, any number, or all that there are places for.
fn how_many(rng: &mut Rng, places: usize) -> usize {
    match rng.below(8) {
        0 => rng.below(2),
        1 => places,
        2..5 => 2 + rng.below(7),
        _ => rng.below(places + 1),
    }
}

/// Different ones in no order, from either end on: one after the other, or so
/// far apart that only their first bytes differ.
fn handles(rng: &mut Rng, n: usize) -> Vec<u64> {
    let (step, from_the_end) = (rng.pick(&[1, 1 << 56]), rng.one_in(2));
    let risen = (0..n as u64).map(|place| 1 + place * step);
    let mut all: Vec<u64> =
        risen.map(|handle| if from_the_end { LAST_NEXT_HANDLE - handle } else { handle }).collect();
    shuffle(rng, &mut all);
    all
}

/// Alive in so many of eight, with the times of a dead one or not; owner and
/// holder may be a GUID that is not in the set.
fn instance(rng: &mut Rng, guids: &[Guid], key: Key, handle: u64, alive: usize) -> Instance {
    let mut i = Instance::fresh(key, handle);
    if rng.below(8) >= alive {
        i.kind = rng.pick(&[Kind::Disposed, Kind::NoWriters]);
    }
    give_past(rng, &mut i, Stretch::Any);
    i.owner = rng.one_in(2).then(|| (rng.pick(guids), 0));
    i.holder = rng.one_in(4).then(|| rng.pick(guids).to_vec());
    i.writers = set(rng, guids);
    i
}

/// Some GUIDs are in many sets, and some in few.
fn set(rng: &mut Rng, guids: &[Guid]) -> Vec<Guid> {
    let n = match rng.below(8) {
        0 => SET_PLACES - rng.below(2),
        1 => rng.below(SET_PLACES + 1),
        _ => rng.below(5),
    };
    distinct(rng, n, |rng| {
        let most = 1 + rng.below(guids.len());
        guids[rng.below(most)]
    })
}

/// Puts a GUID that is in no set into that of the last instance, in place of
/// another where it is full.
fn give_last(instances: &mut [Instance], guid: Guid) {
    if let Some(last) = instances.last_mut() {
        last.kind = Kind::Alive;
        last.writers.truncate(SET_PLACES - 1);
        last.writers.push(guid);
        last.writers.sort();
    }
}

/// Of a set or any other, zero, one byte off, or the last instance's alone.
fn asked(rng: &mut Rng, table: &[Instance], guids: &[Guid], lone: Guid) -> Guid {
    let mut guid = rng.pick(guids);
    match rng.below(8) {
        0 => guid = [0; 16],
        1 => guid[rng.below(16)] ^= 1 + rng.below(255) as u8,
        2..5 => {
            let set = rng.pick_some(table).map_or(&[][..], |i| &i.writers);
            guid = rng.pick_some(set).copied().unwrap_or(guid);
        }
        5 => guid = lone,
        _ => {}
    }
    guid
}

/// Mostly as it is.
fn lent(rng: &mut Rng, state: &State) -> Vec<u8> {
    let stated = pens_bytes(state.head.places);
    let mut pens = Image::of_state(state).pens;
    if rng.one_in(SPOILT_ONE_IN) {
        let Edit { offset, bytes, .. } = damage_to_pens(rng, state);
        put(&mut pens, offset, &bytes);
    }
    let odd = [0, 512, stated - 512, stated - 1, stated + 1, stated + 512, 32_768];
    pens.truncate(if rng.one_in(SPOILT_ONE_IN) { rng.pick(&odd) } else { stated });
    pens
}

/// Any, until it is damage to pens: there is always some to do.
fn damage_to_pens(rng: &mut Rng, state: &State) -> Edit {
    loop {
        let mut step = Step::of(state.head.places, Vec::new());
        damage::any(rng, state, &mut step);
        if let Some(edit) = step.damage.into_iter().find(|edit| edit.buffer == Buffer::Pens) {
            return edit;
        }
    }
}
