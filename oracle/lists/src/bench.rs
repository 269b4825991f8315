//! Section 10's lines and traps, each as a list of its own, the lists of 02's
//! requests, and lists of what seldom comes about by chance.

use reading::bytes::{Guid, Key};
use reading::layout::{Instance, NANOSECONDS, Time};
use reading::state::State;

use crate::before_epoch;
use crate::fill::{BY_SOURCE, DEADLINE_PRESENT, Filled, LEASE_PRESENT, TIME1_PRESENT};
use crate::first_owner;

pub(crate) const KEY: Key = [1; 16];
pub(crate) const OTHER_KEY: Key = [2; 16];
pub(crate) const WRITER: Guid = [3; 16];
pub(crate) const RIVAL: Guid = [4; 16];
pub(crate) const SECOND: u64 = NANOSECONDS as u64;
const BY_TOPIC: u8 = 2;

pub(crate) const fn at(seconds: i32, nanoseconds: u32) -> Time {
    Time { seconds, nanoseconds }
}

/// The lists by name, each from the fresh state.
pub fn lists() -> Vec<(&'static str, Vec<Filled>)> {
    let mut lists = vec![
        (
            "bench a",
            vec![sample(), delivered(at(5, 0)), filter(at(5, 999_999_999)), filter(at(4, 0))],
        ),
        ("bench a later", vec![sample(), delivered(at(5, 0)), filter(at(6, 0))]),
        ("bench b", vec![sample(), delivered(at(5, 0)), order(at(5, 0)), order(at(5, 1))]),
        ("bench c", vec![sample(), delivered(at(-3, 7)), order(at(-9, 8))]),
        ("bench d", bench_d()),
        ("bench f", bench_f()),
        ("bench g", bench_g()),
        ("bench h clock 0", bench_h(0)),
        ("bench h clock 1", bench_h(1)),
        ("bench i", bench_i(&[(14, 5), (15, 5)])),
        ("bench i delay 0", bench_i(&[(3, 0)])),
        ("trap revives", trap_revives()),
        ("trap view new", trap_view_new()),
        ("trap empties set", trap_empties_set()),
        ("lapses", lapses()),
        ("lapse order", lapse_order()),
        ("full set", full_set()),
    ];
    lists.extend(first_owner::lists());
    lists.extend(before_epoch::lists());
    lists
}

fn key(code: u8) -> Filled {
    Filled::code(code).key(KEY)
}

fn writer(code: u8) -> Filled {
    Filled::code(code).guid(WRITER)
}

/// Code 9, without a limit.
fn sample() -> Filled {
    key(9).limit(-1)
}

fn delivered(time: Time) -> Filled {
    key(11).time1(time)
}

/// Code 48 by its filter alone.
fn filter(time: Time) -> Filled {
    key(48).guid(WRITER).time2(time).a(SECOND).limit(-1)
}

/// Code 48 by destination order alone.
fn order(time: Time) -> Filled {
    key(48).guid(WRITER).time1(time).bits(BY_SOURCE).limit(-1)
}

fn bench_d() -> Vec<Filled> {
    let bid = |guid, strength, seconds| {
        key(16).guid(guid).strength(strength).time2(at(seconds, 0)).b(SECOND).bits(DEADLINE_PRESENT)
    };
    vec![sample(), bid(WRITER, 5, -2), bid(RIVAL, 1, -1), key(20).guid(RIVAL)]
}

fn bench_f() -> Vec<Filled> {
    let other = |code: u8, limit| Filled::code(code).key(OTHER_KEY).limit(limit);
    let known = |code: u8, limit| key(code).limit(limit);
    vec![
        known(2, 0),
        known(9, 0),
        known(48, 0),
        known(2, -1),
        known(2, 0),
        known(9, 0),
        known(48, 0),
        other(2, 0),
        other(9, 1),
        other(48, 1),
        other(48, -1),
    ]
}

/// A writer by topic with lease 10, asserted at 100 and expired at 110.
fn expired_at_110() -> Vec<Filled> {
    vec![
        writer(32).a(90).b(10).bits(LEASE_PRESENT | BY_TOPIC),
        writer(35).a(100),
        Filled::code(37).a(109),
        Filled::code(37).a(110),
    ]
}

fn bench_g() -> Vec<Filled> {
    let mut list = expired_at_110();
    list.extend([writer(35).a(100), Filled::code(39), writer(35).a(101), Filled::code(39)]);
    list
}

fn bench_h(clock: u64) -> Vec<Filled> {
    vec![writer(32).a(50), writer(34), writer(32).a(clock), Filled::code(39)]
}

/// Disposed at (0,10); then purges at a nanosecond with a delay.
fn bench_i(purges: &[(u32, u64)]) -> Vec<Filled> {
    let mut list = vec![sample(), Filled::code(3).handle(1).time1(at(0, 10)).bits(TIME1_PRESENT)];
    list.extend(
        purges.iter().map(|(now, delay)| Filled::code(21).time2(at(0, *now)).a(*delay).b(u64::MAX)),
    );
    list
}

/// An expired writer does not revive on its last assertion.
fn trap_revives() -> Vec<Filled> {
    let mut list = expired_at_110();
    list.extend([writer(35).a(100), Filled::code(36).guid(WRITER).a(100), Filled::code(39)]);
    list
}

/// Register, reviving, leaves the view as it was: code 10 answers it.
fn trap_view_new() -> Vec<Filled> {
    vec![
        key(1),
        Filled::code(13).handle(1),
        Filled::code(3).handle(1),
        key(1),
        key(10).guid(WRITER),
        Filled::code(3).handle(1),
        key(2).limit(-1),
        key(10).guid(WRITER),
    ]
}

/// Unregister leaves the writer set: code 1 revives, and code 7 still finds
/// the writer there.
fn trap_empties_set() -> Vec<Filled> {
    vec![
        key(1),
        Filled::code(6).handle(1).guid(WRITER),
        Filled::code(4).handle(1),
        key(1),
        writer(7),
    ]
}

/// Writers that match, own an instance by two samples and lapse; one instance
/// gets a second writer, of equal strength and lower GUID, which stays when the
/// first lapses.
fn lapses() -> Vec<Filled> {
    let mut list = Vec::new();
    for round in 0..12u8 {
        let clock = 100 * u64::from(round);
        let of = |code: u8| Filled::code(code).key([round % 4; 16]).guid([0x10 + round % 5; 16]);
        let sample = |seconds| of(48).time1(at(seconds, 0)).time2(at(seconds, 0)).limit(-1);
        list.push(of(32).a(clock).b(10).bits(LEASE_PRESENT));
        list.push(of(35).a(clock + 1));
        list.push(sample(i32::from(round) * 10));
        if round % 3 == 2 {
            let strength = if round == 2 { 0 } else { -1 };
            list.push(sample(i32::from(round) * 10 + 1).guid(RIVAL).strength(strength));
        }
        list.push(sample(i32::from(round) * 10 + 2).strength(1));
        list.push(Filled::code(49).a(clock + 10));
        list.push(Filled::code(49).a(clock + 11).time1(at(7, 0)).bits(TIME1_PRESENT));
    }
    list.extend([Filled::code(38), Filled::code(39)]);
    list
}

/// A state of so many places, with that many instances, whose keys rise from
/// 1 on as their handles do.
pub fn numbered(places: u16, instances: u8) -> State {
    let mut state = State::fresh(places);
    state.instances = (1..=instances).map(|n| Instance::fresh([n; 16], u64::from(n))).collect();
    state.head.instances = u32::from(instances);
    state.head.next_handle = u64::from(instances) + 1;
    state
}

/// The calls that start an instance, on key 0.
fn starting(limit: i32) -> [Filled; 5] {
    [1, 2, 8, 9, 48].map(|code| Filled::code(code).limit(limit))
}

/// Takes out the instance with a handle.
fn purged(handle: u64) -> [Filled; 2] {
    [Filled::code(3).handle(handle).bits(TIME1_PRESENT), Filled::code(21).b(u64::MAX)]
}

/// A full table whose next handle is the last, and the calls that would start
/// an instance: at their limit, without one, and after a place came free.
pub fn full_table(places: u16) -> (State, Vec<Filled>) {
    let mut state = numbered(places, places as u8);
    state.head.next_handle = 1 << 63;
    let full = i32::from(places);
    let mut list = Vec::new();
    list.extend(starting(-1));
    list.extend(starting(full));
    list.extend(starting(full + 1));
    list.push(key(2).limit(0));
    list.push(key(48).limit(0));
    list.extend(purged(5));
    list.extend(starting(-1));
    list.extend(starting(full - 1));
    list.extend(starting(full));
    (state, list)
}

/// The last two places are taken, then each that comes free again, by each of
/// the calls that start an instance.
pub fn last_places(places: u16) -> (State, Vec<Filled>) {
    let state = numbered(places, places as u8 - 2);
    let further = |n: u8| move |sheet: Filled| sheet.key([0xc0 + n; 16]);
    let mut list = Vec::new();
    list.extend([9, 48].map(|code| further(code)(Filled::code(code).limit(-1))));
    for (n, last) in (0..).zip(starting(-1)) {
        list.extend(starting(-1).map(further(n)));
        list.extend(starting(i32::from(places)).map(further(n)));
        list.push(further(n)(Filled::code(48).limit(0)));
        list.extend(purged(u64::from(n) + 1));
        list.push(further(n)(last));
    }
    (state, list)
}

/// Two writers lapse in one call; the lesser GUID holds the greater key, and
/// that has the lesser handle. Out is in the order of keys.
fn lapse_order() -> Vec<Filled> {
    let lapsing = |code: u8, guid: Guid| Filled::code(code).guid(guid);
    let mut list = Vec::new();
    for (key, guid) in [(OTHER_KEY, WRITER), (KEY, RIVAL)] {
        list.push(lapsing(32, guid).a(1).b(10).bits(LEASE_PRESENT));
        list.push(lapsing(48, guid).key(key).limit(-1));
    }
    list.push(Filled::code(49).a(11));
    list
}

/// A set of 16 writers: a 17th is refused before ownership is asked, whether
/// it is the stronger or the weaker; a weaker one of the set is not.
fn full_set() -> Vec<Filled> {
    let member = |n: u8| [0x20 + n; 16];
    let bid = |code: u8, guid: Guid, strength| key(code).guid(guid).strength(strength).limit(-1);
    let mut list = vec![sample(), bid(16, member(0), 1)];
    list.extend((0..16).map(|n| Filled::code(6).handle(1).guid(member(n))));
    list.push(Filled::code(6).handle(1).guid(member(15)));
    for code in [48, 10] {
        list.push(bid(code, member(16), 0));
        list.push(bid(code, member(16), 2));
        list.push(bid(code, member(3), 0));
    }
    list
}
