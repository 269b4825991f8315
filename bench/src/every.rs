//! The calls that concern every record of a full state, where a call takes
//! longest: each a list of one.

use lists::fill::{Filled, TIME1_PRESENT};
use reading::layout::{Kind, LOST_PLACES, Standing};
use reading::{Answer, State};

use crate::mixes::{Mix, at, mix};
use crate::state::{APART, LAST, LEASE, Size, state};

/// A clock by which every writer is due.
const ALL_DUE: u64 = 200 * APART + LEASE;

/// Whether a call did what its name says, by the states before and after it:
/// some answer nothing that tells.
type Done = fn(&State, &State) -> bool;

/// A call with its answer, and what it must have done.
pub struct Sweep {
    pub mix: Mix,
    pub done: Done,
}

/// Those of a full size.
pub fn sweeps(size: Size) -> Vec<Sweep> {
    let all = [expiries, losses, owners, purges, assertions];
    all.into_iter().flat_map(|some| some(size)).collect()
}

fn sweep(name: &'static str, start: State, sheet: Filled, answer: Answer, done: Done) -> Sweep {
    assert!(start.well_formed(), "{name}");
    Sweep { mix: mix(name, start, vec![sheet], move |a| *a == answer), done }
}

/// Whether the same records are there, and none is as it was.
fn changed<T: PartialEq, K: PartialEq>(before: &[T], after: &[T], key: fn(&T) -> K) -> bool {
    before.len() == after.len() && before.iter().zip(after).all(|(a, b)| key(a) == key(b) && a != b)
}

fn instances_changed(before: &State, after: &State) -> bool {
    changed(&before.instances, &after.instances, |i| i.key)
}

fn writers_changed(before: &State, after: &State) -> bool {
    changed(&before.writers, &after.writers, |w| w.guid)
}

/// Whether every writer is in Lost anew.
fn all_lost(before: &State, after: &State) -> bool {
    after.lost[before.lost.len()..].iter().eq(before.writers.iter().map(|w| &w.guid))
}

/// Every writer expires, so Lost has as many places free; where instances are
/// told of it none has a writer left, and its owner goes too.
fn expiries(size: Size) -> Vec<Sweep> {
    let start = |set| {
        let size = Size { set, lost: LOST_PLACES - size.writers, ..size };
        state(size, size.instances)
    };
    let lapse = || Filled::code(49).a(ALL_DUE).time1(at(LAST + 1)).bits(TIME1_PRESENT);
    let all = size.instances as u32;
    let lapsed = Answer { count: all, listed: all, ..Answer::yes(true) };
    let done: Done = |before, after| {
        instances_changed(before, after)
            && writers_changed(before, after)
            && all_lost(before, after)
            && after.instances.iter().all(|i| i.writers.is_empty() && i.owner.is_none())
    };
    let expire = Filled::code(37).a(ALL_DUE);
    vec![
        sweep("lapse of all writers", start(size.set), lapse(), lapsed, done),
        sweep("lapse of all writers, sets of 2", start(2), lapse(), lapsed, done),
        sweep(
            "expire of all writers",
            start(size.set),
            expire,
            Answer::yes(true),
            |before, after| {
                writers_changed(before, after)
                    && all_lost(before, after)
                    && before.instances == after.instances
            },
        ),
    ]
}

/// The loss of a writer that all instances have, and no other, and that owns
/// them: code 7 leaves the owner and the writer's record, 50 takes the record
/// out, and 51 lets the writer depart.
fn losses(size: Size) -> Vec<Sweep> {
    let mut start = state(size, size.instances);
    let guid = start.writers[size.writers / 2].guid;
    for instance in &mut start.instances {
        instance.writers = vec![guid];
        instance.owner = Some((guid, 1));
    }
    let all = size.instances as u32;
    let dropped = Answer { listed: all, ..Answer::default() };
    let left = Answer { count: all, listed: all, ..Answer::yes(true) };
    let drop: Done = |before, after| {
        emptied(before, after)
            && after.instances.iter().all(|i| i.owner.is_some())
            && before.writers == after.writers
    };
    let part: Done = |before, after| {
        emptied(before, after)
            && after.instances.iter().all(|i| i.owner.is_none())
            && before.writers.len() == after.writers.len() + 1
    };
    let depart: Done = |before, after| {
        emptied(before, after)
            && after.instances.iter().all(|i| i.owner.is_none())
            && after.writers.iter().filter(|w| w.standing == Standing::Departed).count() == 1
    };
    [
        (7, "drop_writer of the only writer", dropped, drop),
        (50, "part of the only writer", left, part),
        (51, "depart of the only writer", left, depart),
    ]
    .map(|(code, name, answer, done)| {
        let sheet = Filled::code(code).guid(guid).time1(at(LAST + 1)).bits(TIME1_PRESENT);
        sweep(name, start.clone(), sheet, answer, done)
    })
    .into()
}

/// Whether every instance lost its writers, and is without them.
fn emptied(before: &State, after: &State) -> bool {
    instances_changed(before, after)
        && after.instances.iter().all(|i| i.writers.is_empty() && i.kind == Kind::NoWriters)
}

/// One owner of all instances, or one participant whose entities own them.
fn owners(size: Size) -> Vec<Sweep> {
    let mut one = state(size, size.instances);
    let guid = one.writers[size.writers / 2].guid;
    one.instances.iter_mut().for_each(|i| i.owner = Some((guid, 1)));
    let mut many = one.clone();
    for (place, instance) in many.instances.iter_mut().enumerate() {
        let mut entity = guid;
        entity[12..].copy_from_slice(&(place as u32).to_be_bytes());
        instance.owner = Some((entity, 1));
    }
    let cleared = Answer::count(size.instances as u32);
    let stronger: Done = |before, after| {
        instances_changed(before, after)
            && after.instances.iter().all(|i| matches!(i.owner, Some((_, 2))))
    };
    let unowned: Done = |before, after| {
        instances_changed(before, after) && after.instances.iter().all(|i| i.owner.is_none())
    };
    [
        (17, "update_owner_strength of the owner of all", &one, Answer::default(), stronger),
        (18, "clear_owner_for_writer of the owner of all", &one, cleared, unowned),
        (19, "clear_owner_for_writer_prefix of the owner of all", &many, cleared, unowned),
    ]
    .map(|(code, name, start, answer, done)| {
        let sheet = Filled::code(code).guid(guid).strength(2);
        sweep(name, start.clone(), sheet, answer, done)
    })
    .into()
}

/// No instance is alive: disposed and without writers in turn.
fn purges(size: Size) -> Vec<Sweep> {
    let mut start = state(size, size.instances);
    for (place, instance) in start.instances.iter_mut().enumerate() {
        if place % 2 == 0 {
            instance.kind = Kind::Disposed;
            instance.disposed_at = Some(at(LAST));
        } else {
            instance.kind = Kind::NoWriters;
            instance.no_writers_at = Some(at(LAST));
        }
    }
    // A second passes, and the delay is one, or one and a nanosecond.
    let purge = |delay| Filled::code(21).time2(at(LAST + 1)).a(delay).b(delay);
    let all = Answer::count(size.instances as u32);
    vec![
        sweep(
            "autopurge, none alive and none due",
            start.clone(),
            purge(APART + 1),
            Answer::default(),
            |before, after| before == after,
        ),
        sweep("autopurge of all", start, purge(APART), all, |_, after| after.instances.is_empty()),
    ]
}

/// All writers are of the participant that is asserted: alive they have a new
/// last assertion, not alive they also revive.
fn assertions(size: Size) -> Vec<Sweep> {
    let size = Size { participant: size.writers, ..size };
    let alive = state(size, size.instances);
    let mut not_alive = alive.clone();
    not_alive.writers.iter_mut().for_each(|w| w.standing = Standing::NotAlive);
    let head = &mut not_alive.head;
    (head.alive, head.not_alive) = (head.not_alive, head.alive);
    (head.alive_change, head.not_alive_change) = (head.not_alive_change, head.alive_change);
    let guid = alive.writers[0].guid;
    let sheet = || Filled::code(36).guid(guid).a(200 * APART);
    let done: Done = |before, after| {
        writers_changed(before, after)
            && after.writers.iter().all(|w| w.standing == Standing::Alive)
    };
    vec![
        sweep("participant_asserted of all", alive, sheet(), Answer::yes(false), done),
        sweep("participant_asserted of all, revived", not_alive, sheet(), Answer::yes(true), done),
    ]
}
