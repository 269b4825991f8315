//! Request 7: times before the epoch, with values worked out by hand.

use reading::bytes::put;
use reading::effects::{filter_admits, order_admits};
use reading::layout::{Instance, Kind, NANOSECONDS, Time};
use reading::{Answer, Head, Lent, State, call, reads};

const SECOND: u64 = NANOSECONDS as u64;
const NEVER: u64 = u64::MAX;
const KEY: [u8; 16] = [1; 16];
/// From the first nanosecond that a time can have to the last.
const WHOLE: u64 = 4_294_967_295_999_999_999;

const FIRST: Time = at(i32::MIN, 0);
const LAST: Time = at(i32::MAX, 999_999_999);

const fn at(seconds: i32, nanoseconds: u32) -> Time {
    Time { seconds, nanoseconds }
}

#[test]
fn nanoseconds_are_added_before_the_epoch_too() {
    for (time, value) in [
        (at(0, 0), 0),
        (at(0, 7), 7),
        (at(1, 0), 1_000_000_000),
        (at(-1, 999_999_999), -1),
        (at(-1, 0), -1_000_000_000),
        (at(-2, 999_999_999), -1_000_000_001),
        (at(-3, 7), -2_999_999_993),
        (at(-9, 8), -8_999_999_992),
        (FIRST, -2_147_483_648_000_000_000),
        (LAST, 2_147_483_647_999_999_999),
    ] {
        assert_eq!(time.since_epoch(), value, "{time:?}");
    }
}

/// Last, candidate, separation, and whether it is admitted.
const FILTERED: [(Time, Time, u64, bool); 18] = [
    (at(-5, 0), at(-6, 0), SECOND, true),
    (at(-5, 0), at(-6, 999_999_999), NEVER, true),
    (at(-5, 0), at(-5, 0), SECOND, false),
    (at(-5, 0), at(-5, 0), 0, true),
    (at(-5, 0), at(-5, 999_999_999), SECOND, false),
    (at(-5, 0), at(-4, 0), SECOND, true),
    (at(-5, 0), at(-4, 1), SECOND, true),
    (at(-2, 7), at(-1, 6), SECOND, false),
    (at(-2, 7), at(-1, 7), SECOND, true),
    (at(-1, 999_999_999), at(0, 0), 1, true),
    (at(-1, 999_999_999), at(0, 0), 2, false),
    (at(0, 0), at(-1, 999_999_999), 2, true),
    (at(-3, 0), at(2, 0), 5 * SECOND, true),
    (at(-3, 0), at(2, 0), 5 * SECOND + 1, false),
    (FIRST, LAST, WHOLE, true),
    (FIRST, LAST, WHOLE + 1, false),
    (FIRST, LAST, NEVER, false),
    (LAST, FIRST, NEVER, true),
];

/// Last, candidate, and whether it comes later.
const ORDERED: [(Time, Time, bool); 10] = [
    (at(-3, 7), at(-9, 8), false),
    (at(-9, 8), at(-3, 7), true),
    (at(-3, 7), at(-3, 7), false),
    (at(-3, 7), at(-3, 8), true),
    (at(-3, 7), at(-3, 6), false),
    (at(-1, 999_999_999), at(0, 0), true),
    (at(0, 0), at(-1, 999_999_999), false),
    (at(-2, 999_999_999), at(-1, 0), true),
    (FIRST, LAST, true),
    (LAST, FIRST, false),
];

/// A table with one instance of both last times.
fn pens(last: Time) -> Vec<u8> {
    let instance =
        Instance { last_delivered: Some(last), last_filter: Some(last), ..Instance::fresh(KEY, 1) };
    let mut pens = instance.bytes().to_vec();
    pens.resize(16_384, 0);
    pens
}

#[test]
fn filters() {
    for (last, time, separation, yes) in FILTERED {
        let what = format!("{last:?} {time:?} {separation}");
        assert_eq!(filter_admits(Some(last), time, separation, None), yes, "{what}");
        assert_eq!(
            reads::delivers_under_filter(&pens(last), &KEY, time, separation),
            Ok(yes),
            "{what}"
        );
    }
}

#[test]
fn destination_order() {
    for (last, time, later) in ORDERED {
        assert_eq!(order_admits(Some(last), time, true, None), later, "{last:?} {time:?}");
        assert_eq!(reads::delivers_under_order(&pens(last), &KEY, time, true), Ok(later));
        assert_eq!(reads::delivers_under_order(&pens(last), &KEY, time, false), Ok(true));
    }
}

/// When the instance died, now, the delay, and whether it is purged.
const PURGED: [(Time, Time, u64, bool); 16] = [
    (at(-10, 0), at(-10, 4), 5, false),
    (at(-10, 0), at(-10, 5), 5, true),
    (at(-10, 0), at(-10, 6), 5, true),
    (at(-10, 0), at(-9, 0), SECOND + 1, false),
    (at(-10, 0), at(-9, 0), SECOND, true),
    (at(-1, 999_999_999), at(0, 0), 2, false),
    (at(-1, 999_999_999), at(0, 0), 1, true),
    (at(-1, 0), at(-2, 0), 1, false),
    (at(-1, 0), at(-2, 0), 0, true),
    (at(0, 0), at(-1, 999_999_999), 1, false),
    (at(0, 0), at(-1, 999_999_999), 0, true),
    (at(0, 10), at(0, 3), 0, true),
    (at(0, 10), at(0, 3), 1, false),
    (FIRST, LAST, WHOLE, true),
    (FIRST, LAST, WHOLE + 1, false),
    (LAST, FIRST, NEVER, false),
];

/// One call on one instance: the answer, and pens after it.
fn asked(instance: Instance, sheet: &[u8]) -> (Answer, Vec<u8>) {
    let mut state = State::fresh(32);
    state.instances = vec![instance];
    state.head.next_handle = 2;
    let (mut head, mut pens) = (Head::fresh(32), vec![0; 16_384]);
    let (mut writers, mut lost, mut out) = ([0; 5120], [0; 4096], [0; 4096]);
    state.write(&mut head, &mut pens, &mut writers, &mut lost);
    let (writers, lost, out) = (&mut writers, &mut lost, &mut out);
    let answer = call(&mut head, sheet, Lent { pens: &mut pens, writers, lost, out });
    assert_eq!(answer.number, 0);
    (answer, pens)
}

/// Code 21 on one dead instance, with a delay of each kind; how many go.
fn purge(kind: Kind, died: Time, now: Time, delays: [u64; 2]) -> usize {
    let mut instance = Instance { kind, ..Instance::fresh(KEY, 1) };
    match kind {
        Kind::Disposed => instance.disposed_at = Some(died),
        _ => instance.no_writers_at = Some(died),
    }
    let mut sheet = [0; 256];
    put(&mut sheet, 48, &now.bytes());
    put(&mut sheet, 56, &delays[0].to_be_bytes());
    put(&mut sheet, 64, &delays[1].to_be_bytes());
    sheet[81] = 21;
    let (answer, pens) = asked(instance, &sheet);
    let left = reads::table(&pens).map(|all| all.len());
    assert_eq!(left, Ok(1 - answer.count as usize));
    answer.count as usize
}

#[test]
fn autopurge() {
    for (died, now, delay, yes) in PURGED {
        let what = format!("{died:?} {now:?} {delay}");
        assert_eq!(purge(Kind::Disposed, died, now, [delay, NEVER]), yes.into(), "{what}");
        assert_eq!(purge(Kind::NoWriters, died, now, [NEVER, delay]), yes.into(), "{what}");
    }
}

/// Code 48 by source time, on last delivered (-3,7) and last filter (-5,0), with
/// a separation of one second: the outcome, and last delivered after it.
fn admit(time1: Time, time2: Time) -> (u8, Option<Time>) {
    let instance = Instance {
        last_delivered: Some(at(-3, 7)),
        last_filter: Some(at(-5, 0)),
        ..Instance::fresh(KEY, 1)
    };
    let mut sheet = [0; 256];
    put(&mut sheet, 0, &KEY);
    put(&mut sheet, 40, &time1.bytes());
    put(&mut sheet, 48, &time2.bytes());
    put(&mut sheet, 56, &SECOND.to_be_bytes());
    (sheet[80], sheet[81]) = (4, 48);
    let (answer, pens) = asked(instance, &sheet);
    (answer.outcome, reads::last_delivered(&pens, &KEY).expect("well formed"))
}

/// Order turns away before the filter is asked.
#[test]
fn an_admit_goes_by_both() {
    let kept = Some(at(-3, 7));
    assert_eq!(admit(at(-9, 8), at(-4, 0)), (1, kept));
    assert_eq!(admit(at(-9, 8), at(-5, 1)), (1, kept));
    assert_eq!(admit(at(-3, 8), at(-5, 999_999_999)), (2, kept));
    assert_eq!(admit(at(-3, 8), at(-4, 0)), (0, Some(at(-3, 8))));
    assert_eq!(admit(at(0, 0), at(-6, 0)), (0, Some(at(0, 0))));
}
