//! The lists, one for each mix of calls.

use lists::fill::{BY_SOURCE, Filled, MANUAL, TIME1_PRESENT};
use reading::layout::Time;
use reading::{Answer, State};

use crate::state::{APART, EXPIRIES, LAST, LEASE, Size, state};

/// Calls of a list, about.
const CALLS: usize = 64;

/// A list, its start, and what each of its answers must be like.
pub struct Mix {
    pub name: &'static str,
    pub start: State,
    pub sheets: Vec<Vec<u8>>,
    pub expected: Box<dyn Fn(&Answer) -> bool>,
}

/// The mixes that a size has.
pub fn mixes(size: Size) -> Vec<Mix> {
    let mut all = Vec::new();
    if size.instances > 0 {
        all.push(admitted(size));
        all.push(filtered(size));
    }
    all.extend([expiries(size), registrations(size), assertions(size)]);
    all
}

pub fn at(seconds: i32) -> Time {
    Time { seconds, nanoseconds: 0 }
}

pub fn mix(
    name: &'static str,
    start: State,
    sheets: Vec<Filled>,
    expected: impl Fn(&Answer) -> bool + 'static,
) -> Mix {
    let sheets = sheets.into_iter().map(|sheet| sheet.0).collect();
    Mix { name, start, sheets, expected: Box::new(expected) }
}

/// Samples of an instance that is there, from its owner, by source order and
/// with a filter.
fn samples(state: &State, separation: u64) -> Vec<Filled> {
    (0..CALLS)
        .map(|n| {
            let instance = &state.instances[n * 37 % state.instances.len()];
            let (guid, strength) = instance.owner.unwrap_or_default();
            let time = at(LAST + 1 + n as i32);
            let holder = instance.holder.clone().unwrap_or_default();
            Filled::code(48)
                .key(instance.key)
                .guid(guid)
                .strength(strength)
                .time1(time)
                .time2(time)
                .a(separation)
                .limit(-1)
                .bits(BY_SOURCE)
                .holder(holder.len() as u16, &holder)
        })
        .collect()
}

fn admitted(size: Size) -> Mix {
    let start = state(size, size.instances);
    let sheets = samples(&start, 1);
    mix("admit on known instances", start, sheets, |a| a.number == 0 && a.outcome == 0)
}

fn filtered(size: Size) -> Mix {
    let start = state(size, size.instances);
    let sheets = samples(&start, 1_000_000_000_000);
    mix("admit stopped by the filter", start, sheets, |a| a.number == 0 && a.outcome == 2)
}

/// An expire by which nothing is due and a lapse by which one writer is, in
/// turn; without writers nothing ever is.
fn expiries(size: Size) -> Mix {
    let due = |n: usize| n as u64 * APART + LEASE;
    let sheets = (0..EXPIRIES)
        .flat_map(|n| {
            let lapse = Filled::code(49).a(due(n)).time1(at(LAST + 1)).bits(TIME1_PRESENT);
            [Filled::code(37).a(due(n) - 1), lapse]
        })
        .collect();
    mix("expire and lapse", state(size, size.instances), sheets, |a| a.number == 0)
}

/// A new instance that is disposed and purged again; a full table has one
/// place free for it.
fn registrations(size: Size) -> Mix {
    let start = state(size, size.instances.min(usize::from(size.places) - 1));
    let holder = [0x33; 24];
    let sheets = (0..CALLS / 3)
        .flat_map(|n| {
            let mut key = [n as u8 * 11; 16];
            key[15] = 1;
            let time = at(LAST + 1 + n as i32);
            let stamped = |code| Filled::code(code).time1(time).bits(TIME1_PRESENT);
            [
                stamped(1).key(key).holder(holder.len() as u16, &holder),
                stamped(3).handle(start.head.next_handle + n as u64),
                Filled::code(21).time2(time).a(0).b(u64::MAX),
            ]
        })
        .collect();
    mix("register, dispose and purge", start, sheets, |a| {
        a.number == 0 && (a.present || a.yes || a.count == 1)
    })
}

/// Assertions of a writer and of a participant in turn, by a clock that rises.
fn assertions(size: Size) -> Mix {
    let start = state(size, size.instances);
    let sheets = (0..CALLS)
        .map(|n| {
            let writer = start.writers.get(n * 37 % size.writers.max(1));
            let guid = writer.map_or([9; 16], |w| w.guid);
            let clock = 200 * APART + n as u64;
            if n % 2 == 0 {
                Filled::code(35).guid(guid).a(clock)
            } else {
                Filled::code(36).guid(guid).a(clock).bits(if n % 4 == 1 { MANUAL } else { 0 })
            }
        })
        .collect();
    mix("assertions", start, sheets, |a| a.number == 0)
}
