//! Request 1 of 02 as lists: who owns an instance after its first sample.

use reading::bytes::{Guid, Key};
use reading::layout::Time;

use crate::bench::{KEY, OTHER_KEY, RIVAL, SECOND, WRITER, at};
use crate::fill::{DEADLINE_PRESENT, Filled, TIME1_PRESENT};

/// Below and above the other two in the order of GUIDs.
const LOWER: Guid = [2; 16];
const HIGHER: Guid = [5; 16];

/// The lists by name, each from the fresh state.
pub fn lists() -> Vec<(&'static str, Vec<Filled>)> {
    vec![
        ("first owner", first_owner()),
        ("first owner at", first_owner_at()),
        ("first owner kept", first_owner_kept()),
        ("first owner anew", first_owner_anew()),
        ("no first owner", no_first_owner()),
    ]
}

/// Further keys.
fn further(n: u8) -> Key {
    [0x30 + n; 16]
}

/// A call by key, GUID and strength, without a limit.
fn bid(code: u8, key: Key, guid: Guid, strength: i32) -> Filled {
    Filled::code(code).key(key).guid(guid).strength(strength).limit(-1)
}

/// Code 48.
fn admit(key: Key, guid: Guid, strength: i32) -> Filled {
    bid(48, key, guid, strength)
}

fn dispose(handle: u64) -> Filled {
    Filled::code(3).handle(handle).time1(at(0, 10)).bits(TIME1_PRESENT)
}

/// A first sample against weaker, equal and stronger ones of other writers;
/// the strength is signed.
fn first_owner() -> Vec<Filled> {
    vec![
        admit(KEY, WRITER, 5),
        admit(KEY, RIVAL, 1),
        admit(KEY, RIVAL, 5),
        admit(KEY, LOWER, 4),
        admit(KEY, LOWER, 5),
        admit(KEY, WRITER, 5),
        admit(OTHER_KEY, WRITER, -5),
        admit(OTHER_KEY, RIVAL, -6),
        admit(OTHER_KEY, RIVAL, -4),
        admit(further(0), WRITER, i32::MIN),
        admit(further(0), RIVAL, i32::MIN),
        admit(further(0), RIVAL, i32::MAX),
    ]
}

/// The deadline counts from the first sample's time 2. Its time 1 is far before
/// that, or far after: from there a deadline would be missed where this one is
/// not, or not where this one is.
fn first_owner_at() -> Vec<Filled> {
    let first = |key, time1, time2| admit(key, WRITER, 5).time1(time1).time2(time2);
    let weaker = |key, time2: Time, seconds: u64| {
        admit(key, RIVAL, 1).time2(time2).b(seconds * SECOND).bits(DEADLINE_PRESENT)
    };
    vec![
        first(KEY, at(0, 0), at(100, 0)),
        weaker(KEY, at(101, 0), 10),
        weaker(KEY, at(109, 999_999_999), 10),
        weaker(KEY, at(110, 0), 10),
        first(OTHER_KEY, at(100, 0), at(0, 0)),
        weaker(OTHER_KEY, at(101, 0), 10),
        first(further(0), at(5, 0), at(-2, 0)),
        weaker(further(0), at(-1, 0), 2),
        weaker(further(0), at(-1, 0), 1),
    ]
}

/// An instance that is there goes by code 16's rule, revived or not, and its
/// first owner is one for codes 17 to 20, 50 and 51.
fn first_owner_kept() -> Vec<Filled> {
    let mut list = vec![
        admit(KEY, WRITER, 5),
        dispose(1),
        admit(KEY, RIVAL, 1),
        admit(KEY, WRITER, 4),
        dispose(1),
        admit(KEY, RIVAL, 5),
        admit(OTHER_KEY, WRITER, 1),
        bid(17, OTHER_KEY, WRITER, 9),
        admit(OTHER_KEY, RIVAL, 8),
        bid(17, OTHER_KEY, WRITER, 7),
        admit(OTHER_KEY, RIVAL, 8),
    ];
    for (n, clearing) in (0..).zip([18, 19, 20, 50, 51]) {
        let key = further(n);
        list.push(admit(key, HIGHER, 5));
        list.push(admit(key, RIVAL, 1));
        list.push(bid(clearing, key, HIGHER, 0));
        list.push(admit(key, RIVAL, 1));
    }
    list
}

/// A purged instance starts again, and is its next first writer's.
fn first_owner_anew() -> Vec<Filled> {
    vec![
        admit(KEY, WRITER, 5),
        dispose(1),
        admit(KEY, RIVAL, 1),
        Filled::code(21).time2(at(0, 10)),
        admit(KEY, RIVAL, 1),
        admit(KEY, WRITER, 0),
    ]
}

/// Codes 1, 2, 8 and 9 start an instance without an owner, and code 16 on an
/// unknown key stores none: the least of strengths then takes it over.
fn no_first_owner() -> Vec<Filled> {
    let mut list = vec![bid(16, KEY, WRITER, 5), bid(10, KEY, WRITER, 5)];
    list.extend([admit(KEY, RIVAL, 1), admit(KEY, WRITER, 0)]);
    list.extend([16, 9, 10].map(|code| bid(code, OTHER_KEY, WRITER, 5)));
    list.push(admit(OTHER_KEY, RIVAL, i32::MIN));
    for (n, starting) in (0..).zip([9, 1, 2, 8]) {
        let key = further(n);
        list.push(bid(starting, key, WRITER, 5));
        list.push(bid(20, key, WRITER, 5));
        list.push(admit(key, RIVAL, i32::MIN));
        list.push(admit(key, HIGHER, i32::MIN));
    }
    list
}
