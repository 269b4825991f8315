//! Damage to head and buffers, each to one clause of well-formedness.

use reading::head::Head;
use reading::layout::{
    CLOCK_END, GUID_BYTES, HOLDER_PLACES, INSTANCE_BYTES, Instance, LAST_NEXT_HANDLE, LOST_BYTES,
    NANOSECONDS, SET_PLACES, WRITER_BYTES, WRITERS_BYTES, Writer, pens_bytes,
};
use reading::state::State;

use crate::image::{Buffer, Edit, Step};
use crate::rng::Rng;

/// Numbers of places that are neither console's.
pub const WRONG_FIGURES: [u16; 8] = [0, 1, 31, 33, 64, 127, 129, u16::MAX];

/// Where the six times of an instance stand.
const TIMES: [usize; 6] = [44, 52, 60, 68, 76, 84];

/// The clauses; each has one way, or a few, to be broken. Those of times are
/// asked of each of the six.
macro_rules! clauses {
    ($($clause:ident)*) => {
        #[derive(Debug, Clone, Copy, PartialEq, Eq)]
        pub enum Clause {
            $($clause,)*
            AbsentTime(usize),
            Nanoseconds(usize),
        }

        impl Clause {
            pub fn all() -> Vec<Self> {
                let mut all = vec![$(Self::$clause),*];
                all.extend((0..TIMES.len()).map(Self::AbsentTime));
                all.extend((0..TIMES.len()).map(Self::Nanoseconds));
                all
            }
        }
    };
}

clauses! {
    Places
    InstanceCount
    WriterCount
    LostCount
    AliveCount
    NotAliveCount
    AliveChange
    NotAliveChange
    NextHandle
    KeysRise
    HandleFromOne
    HandleBelowNext
    HandlesDistinct
    InstanceKind
    AbsentOwner
    AbsentHolder
    AbsentHolderLength
    HolderLength
    HolderTail
    SetSize
    SetRises
    SetTail
    DisposedGenerations
    NoWritersGenerations
    UnusedInstance
    GuidsRise
    WriterKind
    WriterLowBits
    WriterGap
    AbsentLease
    LeaseRange
    LastAssertionRange
    DepartedKind
    DepartedLease
    DepartedLastAssertion
    UnusedWriter
    UnusedLost
}

/// Damages a step in one clause that the state has something to damage for.
pub fn any(rng: &mut Rng, state: &State, step: &mut Step) {
    let all = Clause::all();
    for _ in 0..all.len() {
        let clause = rng.pick(&all);
        if one(rng, state, clause, step) {
            return;
        }
    }
}

/// Breaks one clause; no where the state has nothing to break it with.
pub fn one(rng: &mut Rng, state: &State, clause: Clause, step: &mut Step) -> bool {
    if let Some(head) = damaged_head(rng, state, clause) {
        step.damaged_head = Some(head);
        return true;
    }
    let edits = damaged_instances(rng, state, clause)
        .or_else(|| damaged_writers(rng, state, clause))
        .or_else(|| damaged_unused(rng, state, clause));
    step.damage.extend(edits.iter().flatten().cloned());
    edits.is_some()
}

/// The head with the counts of the records.
fn counted_head(state: &State) -> Head {
    Head {
        instances: state.instances.len() as u32,
        writer_records: state.writers.len() as u32,
        lost: state.lost.len() as u32,
        ..state.head
    }
}

/// Gives a step's head, damaged already or not, a number of places.
pub fn set_places(places: u16, state: &State, step: &mut Step) {
    let head = step.damaged_head.unwrap_or_else(|| counted_head(state));
    step.damaged_head = Some(Head { places, ..head });
}

fn damaged_head(rng: &mut Rng, state: &State, clause: Clause) -> Option<Head> {
    let mut head = counted_head(state);
    match clause {
        Clause::Places => head.places = rng.pick(&WRONG_FIGURES),
        Clause::InstanceCount => {
            let fewer = head.instances.saturating_sub(1);
            let beyond = u32::from(head.places) + 1;
            let others = [fewer, head.instances + 1, beyond, 129, u32::MAX];
            head.instances = rng.pick(&others[usize::from(state.instances.is_empty())..]);
        }
        // One more or fewer is no damage where that record is all zero: the
        // zero GUID, unasserted and automatic, is a writer like any other.
        Clause::WriterCount => {
            let zero = state.writers.last().is_none_or(|w| w.bytes() == [0; WRITER_BYTES]);
            let n = head.writer_records;
            let others = [n.saturating_sub(1), n + 1, 129, u32::MAX];
            head.writer_records = rng.pick(&others[if zero { 2 } else { 0 }..]);
        }
        // So is one more GUID in Lost, and one fewer where the last is zero.
        Clause::LostCount => {
            let zero = state.lost.last().is_none_or(|guid| *guid == [0; GUID_BYTES]);
            let others = [head.lost.saturating_sub(1), 257, u32::MAX];
            head.lost = rng.pick(&others[usize::from(zero)..]);
        }
        Clause::AliveCount => head.alive = off_by_one(rng, head.alive),
        Clause::NotAliveCount => head.not_alive = off_by_one(rng, head.not_alive),
        Clause::AliveChange => head.alive_change = beyond(rng, head.alive),
        Clause::NotAliveChange => head.not_alive_change = beyond(rng, head.not_alive),
        Clause::NextHandle => {
            head.next_handle = rng.pick(&[0, LAST_NEXT_HANDLE + 1, u64::MAX]);
        }
        _ => return None,
    }
    Some(head)
}

fn off_by_one(rng: &mut Rng, count: u32) -> u32 {
    if count > 0 && rng.one_in(2) { count - 1 } else { count + 1 }
}

/// A change that takes count minus change one beyond its span.
fn beyond(rng: &mut Rng, count: u32) -> i32 {
    let span = rng.pick(&[(1i64 << 30) + 1, -(1i64 << 30) - 1]);
    (i64::from(count) - span) as i32
}

fn edit(buffer: Buffer, offset: usize, bytes: &[u8]) -> Option<Vec<Edit>> {
    Some(vec![Edit { buffer, offset, bytes: bytes.to_vec() }])
}

fn some_byte(rng: &mut Rng) -> u8 {
    1 + rng.below(255) as u8
}

/// One byte, not zero, somewhere in a range of places.
fn stray(rng: &mut Rng, buffer: Buffer, from: usize, to: usize) -> Option<Vec<Edit>> {
    let offset = if rng.one_in(2) { from } else { from + rng.below(to - from) };
    edit(buffer, offset, &[some_byte(rng)])
}

/// The place and instance of one that `fits`.
fn some_instance<'a>(
    rng: &mut Rng,
    state: &'a State,
    fits: impl Fn(&Instance) -> bool,
) -> Option<(usize, &'a Instance)> {
    let all: Vec<_> = state.instances.iter().enumerate().filter(|(_, i)| fits(i)).collect();
    rng.pick_some(&all).copied()
}

fn damaged_instances(rng: &mut Rng, state: &State, clause: Clause) -> Option<Vec<Edit>> {
    let at = |place: usize, offset: usize| place * INSTANCE_BYTES + offset;
    let pens = Buffer::Pens;
    match clause {
        Clause::KeysRise => {
            let (place, before) = pair(rng, &state.instances)?;
            edit(pens, at(place, 0), &before.key)
        }
        Clause::HandleFromOne => {
            let (place, _) = some_instance(rng, state, |_| true)?;
            edit(pens, at(place, 16), &[0; 8])
        }
        Clause::HandleBelowNext => {
            let (place, _) = some_instance(rng, state, |_| true)?;
            let handle = rng.pick(&[state.head.next_handle, u64::MAX]);
            edit(pens, at(place, 16), &handle.to_be_bytes())
        }
        Clause::HandlesDistinct => {
            let (place, before) = pair(rng, &state.instances)?;
            edit(pens, at(place, 16), &before.handle.to_be_bytes())
        }
        Clause::InstanceKind => {
            let (place, i) = some_instance(rng, state, |_| true)?;
            edit(pens, at(place, 24), &[i.bytes()[24] | 0xc0])
        }
        Clause::AbsentTime(n) => {
            let (place, _) = some_instance(rng, state, |i| i.times()[n].is_none())?;
            stray(rng, pens, at(place, TIMES[n]), at(place, TIMES[n] + 8))
        }
        Clause::Nanoseconds(n) => {
            let (place, _) = some_instance(rng, state, |i| i.times()[n].is_some())?;
            let nanoseconds = rng.pick(&[NANOSECONDS, u32::MAX]);
            edit(pens, at(place, TIMES[n] + 4), &nanoseconds.to_be_bytes())
        }
        Clause::AbsentOwner => {
            let (place, _) = some_instance(rng, state, |i| i.owner.is_none())?;
            stray(rng, pens, at(place, 92), at(place, 112))
        }
        Clause::AbsentHolder => {
            let (place, _) = some_instance(rng, state, |i| i.holder.is_none())?;
            stray(rng, pens, at(place, 112), at(place, 112 + HOLDER_PLACES))
        }
        Clause::AbsentHolderLength => {
            let (place, _) = some_instance(rng, state, |i| i.holder.is_none())?;
            edit(pens, at(place, 26), &[0, 1])
        }
        Clause::HolderLength => {
            let (place, _) = some_instance(rng, state, |i| i.holder.is_some())?;
            let length: u16 = rng.pick(&[145, u16::MAX]);
            edit(pens, at(place, 26), &length.to_be_bytes())
        }
        Clause::HolderTail => {
            let length = |i: &Instance| i.holder.as_ref().map(Vec::len);
            let (place, i) =
                some_instance(rng, state, |i| length(i).is_some_and(|n| n < HOLDER_PLACES))?;
            stray(rng, pens, at(place, 112 + length(i)?), at(place, 112 + HOLDER_PLACES))
        }
        Clause::SetSize => {
            let (place, i) = some_instance(rng, state, |_| true)?;
            let size = rng.pick(&[17, 31]);
            edit(pens, at(place, 25), &[i.bytes()[25] & 0xe0 | size])
        }
        Clause::SetRises => {
            let (place, i) = some_instance(rng, state, |i| i.writers.len() > 1)?;
            let (n, before) = pair(rng, &i.writers)?;
            edit(pens, at(place, 256 + n * GUID_BYTES), before)
        }
        Clause::SetTail => {
            let (place, i) = some_instance(rng, state, |i| i.writers.len() < SET_PLACES)?;
            let from = at(place, 256 + i.writers.len() * GUID_BYTES);
            stray(rng, pens, from, at(place, INSTANCE_BYTES))
        }
        Clause::DisposedGenerations | Clause::NoWritersGenerations => {
            let offset = if clause == Clause::DisposedGenerations { 28 } else { 32 };
            let (place, _) = some_instance(rng, state, |_| true)?;
            edit(pens, at(place, offset), &rng.pick(&[-1, i32::MIN]).to_be_bytes())
        }
        _ => None,
    }
}

/// A place above 0, and the element before it.
fn pair<'a, T>(rng: &mut Rng, all: &'a [T]) -> Option<(usize, &'a T)> {
    if all.len() < 2 {
        return None;
    }
    let place = 1 + rng.below(all.len() - 1);
    Some((place, &all[place - 1]))
}

fn some_writer<'a>(
    rng: &mut Rng,
    state: &'a State,
    fits: impl Fn(&Writer) -> bool,
) -> Option<(usize, &'a Writer)> {
    let all: Vec<_> = state.writers.iter().enumerate().filter(|(_, w)| fits(w)).collect();
    rng.pick_some(&all).copied()
}

fn damaged_writers(rng: &mut Rng, state: &State, clause: Clause) -> Option<Vec<Edit>> {
    let at = |place: usize, offset: usize| place * WRITER_BYTES + offset;
    let writers = Buffer::Writers;
    let out_of_range = [CLOCK_END, u64::MAX];
    match clause {
        Clause::GuidsRise => {
            let (place, before) = pair(rng, &state.writers)?;
            edit(writers, at(place, 0), &before.guid)
        }
        Clause::WriterKind => {
            let (place, w) = some_writer(rng, state, Writer::tracked)?;
            edit(writers, at(place, 16), &[w.bytes()[16] | 0xc0])
        }
        Clause::WriterLowBits => {
            let (place, w) = some_writer(rng, state, |_| true)?;
            edit(writers, at(place, 16), &[w.bytes()[16] | rng.pick(&[1, 2, 4])])
        }
        Clause::WriterGap => {
            let (place, _) = some_writer(rng, state, |_| true)?;
            stray(rng, writers, at(place, 17), at(place, 24))
        }
        Clause::AbsentLease => {
            let (place, _) = some_writer(rng, state, |w| w.tracked() && w.lease.is_none())?;
            stray(rng, writers, at(place, 24), at(place, 32))
        }
        Clause::LeaseRange => {
            let (place, _) = some_writer(rng, state, |w| w.lease.is_some())?;
            edit(writers, at(place, 24), &rng.pick(&out_of_range).to_be_bytes())
        }
        Clause::LastAssertionRange => {
            let (place, _) = some_writer(rng, state, Writer::tracked)?;
            edit(writers, at(place, 32), &rng.pick(&out_of_range).to_be_bytes())
        }
        Clause::DepartedKind => {
            let (place, w) = some_writer(rng, state, |w| !w.tracked())?;
            edit(writers, at(place, 16), &[w.bytes()[16] | rng.pick(&[0x40, 0x80])])
        }
        Clause::DepartedLease => {
            let (place, w) = some_writer(rng, state, |w| !w.tracked())?;
            edit(writers, at(place, 16), &[w.bytes()[16] | 0x08])
        }
        Clause::DepartedLastAssertion => {
            let (place, _) = some_writer(rng, state, |w| !w.tracked())?;
            edit(writers, at(place, 32), &1u64.to_be_bytes())
        }
        _ => None,
    }
}

fn damaged_unused(rng: &mut Rng, state: &State, clause: Clause) -> Option<Vec<Edit>> {
    let (buffer, used, whole) = match clause {
        Clause::UnusedInstance => {
            let used = state.instances.len() * INSTANCE_BYTES;
            (Buffer::Pens, used, pens_bytes(state.head.places))
        }
        Clause::UnusedWriter => {
            (Buffer::Writers, state.writers.len() * WRITER_BYTES, WRITERS_BYTES)
        }
        Clause::UnusedLost => (Buffer::Lost, state.lost.len() * GUID_BYTES, LOST_BYTES),
        _ => return None,
    };
    if used == whole { None } else { stray(rng, buffer, used, whole) }
}
