//! Request 7 of 02 as lists: filters, destination order and autopurge before
//! the epoch and across it.

use reading::bytes::Key;
use reading::layout::Time;

use crate::bench::{KEY, OTHER_KEY, SECOND, WRITER, at};
use crate::fill::{BY_SOURCE, Filled, TIME1_PRESENT};

const NEVER: u64 = u64::MAX;
/// The ends of the times that a sheet can have, and from one to the other.
const FIRST: Time = at(i32::MIN, 0);
const LAST: Time = at(i32::MAX, 999_999_999);
const WHOLE: u64 = (1 << 32) * SECOND - 1;

/// The lists by name, each from the fresh state.
pub fn lists() -> Vec<(&'static str, Vec<Filled>)> {
    vec![
        ("filter before", filter_before()),
        ("filter across", filter_across()),
        ("order before", order_before()),
        ("order across", order_across()),
        ("purge before", purge_before()),
        ("purge across", purge_across()),
        ("purge back", purge_back()),
        ("ends of time", ends_of_time()),
    ]
}

/// An instance whose last sample was delivered at a time.
fn delivered(time: Time) -> [Filled; 2] {
    [Filled::code(9).key(KEY).limit(-1), Filled::code(11).key(KEY).time1(time)]
}

/// Code 48 by its filter alone; what it admits is the last one from then on.
fn filter((time, separation): (Time, u64)) -> Filled {
    Filled::code(48).key(KEY).guid(WRITER).time2(time).a(separation).limit(-1)
}

/// Code 48 by destination order alone.
fn order(time: Time) -> Filled {
    Filled::code(48).key(KEY).guid(WRITER).time1(time).bits(BY_SOURCE).limit(-1)
}

fn filtered(last: Time, asked: &[(Time, u64)]) -> Vec<Filled> {
    delivered(last).into_iter().chain(asked.iter().copied().map(filter)).collect()
}

fn ordered(last: Time, asked: &[Time]) -> Vec<Filled> {
    delivered(last).into_iter().chain(asked.iter().copied().map(order)).collect()
}

/// Two instances that die at a time, one disposed and one without writers.
fn dead(handle: u64, time: Time) -> Vec<Filled> {
    let start = |key: Key| Filled::code(9).key(key).limit(-1);
    let end = |code: u8, handle| Filled::code(code).handle(handle).time1(time).bits(TIME1_PRESENT);
    vec![start(KEY), start(OTHER_KEY), end(3, handle), end(4, handle + 1)]
}

/// With the delay for disposed ones, and for those without writers.
fn purge(now: Time, disposed: u64, no_writers: u64) -> Filled {
    Filled::code(21).time2(now).a(disposed).b(no_writers)
}

/// Below the separation, at it, above it, and earlier than the last.
fn filter_before() -> Vec<Filled> {
    filtered(
        at(-5, 0),
        &[
            (at(-5, 999_999_999), SECOND),
            (at(-4, 0), SECOND),
            (at(-4, 0), SECOND),
            (at(-6, 0), SECOND),
            (at(-5, 1), SECOND),
            (at(-5, 2), 2),
            (at(-5, 3), 2),
            (at(-6, 999_999_999), NEVER),
            (at(-3, 0), SECOND),
        ],
    )
}

/// The last nanosecond before the epoch is one away from it.
fn filter_across() -> Vec<Filled> {
    filtered(
        at(-1, 999_999_999),
        &[
            (at(0, 0), 2),
            (at(0, 0), 1),
            (at(-1, 999_999_999), 2),
            (at(0, 999_999_998), SECOND),
            (at(0, 999_999_999), SECOND),
            (at(-3, 0), SECOND),
            (at(1, 999_999_999), 5 * SECOND),
            (at(2, 1), 5 * SECOND),
            (at(-3, 0), SECOND),
            (at(1, 0), 5 * SECOND),
            (at(3, 0), 5 * SECOND),
        ],
    )
}

fn order_before() -> Vec<Filled> {
    ordered(
        at(-5, 0),
        &[
            at(-6, 999_999_999),
            at(-5, 0),
            at(-5, 1),
            at(-5, 0),
            at(-4, 0),
            at(-5, 999_999_999),
            at(-3, 7),
            at(-9, 8),
        ],
    )
}

fn order_across() -> Vec<Filled> {
    let mut list = ordered(
        at(-1, 999_999_998),
        &[
            at(-1, 999_999_999),
            at(0, 0),
            at(-1, 999_999_999),
            at(0, 0),
            at(0, 1),
            at(-1, 2),
            at(1, 0),
        ],
    );
    list.extend(ordered(at(-3, 0), &[at(2, 0)]));
    list
}

/// Below, at and above the delay, of one kind after the other.
fn purge_before() -> Vec<Filled> {
    let mut list = dead(1, at(-10, 0));
    list.extend([
        purge(at(-10, 1), 5, 5),
        purge(at(-10, 4), 5, 5),
        purge(at(-10, 5), 5, NEVER),
        purge(at(-9, 0), NEVER, SECOND + 1),
        purge(at(-9, 0), NEVER, SECOND),
    ]);
    list.extend(dead(3, at(-2, 999_999_999)));
    list.extend([
        purge(at(-1, 0), 2, 2),
        purge(at(-1, 1), 3, 1),
        purge(at(-1, 1), NEVER, NEVER),
        purge(at(-1, 1), 2, NEVER),
    ]);
    list.extend(dead(5, at(-8, 0)));
    list.push(purge(at(-2, 0), SECOND, SECOND));
    list
}

/// And from the epoch itself on.
fn purge_across() -> Vec<Filled> {
    let mut list = dead(1, at(-1, 999_999_999));
    list.extend([purge(at(0, 0), 2, 2), purge(at(0, 0), 1, 2), purge(at(0, 0), NEVER, 1)]);
    list.extend(dead(3, at(-3, 0)));
    list.extend([
        purge(at(1, 999_999_999), 5 * SECOND, 5 * SECOND),
        purge(at(2, 0), 5 * SECOND + 1, 5 * SECOND),
        purge(at(2, 1), 5 * SECOND, NEVER),
    ]);
    list.extend(dead(5, at(-3, 0)));
    list.extend([at(1, 0), at(3, 0)].map(|now| purge(now, 5 * SECOND, 5 * SECOND)));
    list.extend(dead(7, at(0, 0)));
    list.extend([purge(at(0, 5), 4, 6), purge(at(0, 6), 6, 6)]);
    list
}

/// Now is before the instances died, which counts as 0: before the epoch,
/// across it and after it.
fn purge_back() -> Vec<Filled> {
    let mut list = Vec::new();
    let died = [(at(-1, 0), at(-2, 0)), (at(0, 0), at(-1, 999_999_999)), (at(5, 0), at(4, 0))];
    for (handle, (died, now)) in (1..).step_by(2).zip(died) {
        list.extend(dead(handle, died));
        list.extend([purge(now, 1, 1), purge(now, 0, 1), purge(now, NEVER, 0)]);
    }
    list
}

/// The longest gap that there is, forwards and back.
fn ends_of_time() -> Vec<Filled> {
    let mut list = filtered(FIRST, &[(LAST, NEVER), (LAST, WHOLE + 1), (LAST, WHOLE)]);
    list.extend([filter((FIRST, NEVER)), order(LAST), order(FIRST), order(LAST)]);
    list.extend(dead(1, FIRST));
    list.extend([purge(LAST, WHOLE + 1, 1 << 63), purge(LAST, WHOLE, WHOLE + 1)]);
    list.extend([purge(FIRST, 0, 1), purge(FIRST, 0, 0)]);
    list
}
