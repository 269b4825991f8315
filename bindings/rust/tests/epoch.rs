//! Times before the epoch: the filters, the destination order, admit and autopurge go by seconds × 10^9 + nanoseconds,
//! with its sign. The answers are worked out here from that number.

use dcps::{Admission, InstanceTracker, Refusal, Sample, State, Time};

const KEY: [u8; 16] = [1; 16];
const WRITER: [u8; 16] = [9; 16];
const SECOND: u128 = 1_000_000_000;
const NEVER: u128 = u128::MAX;
/// Between the first time and the last.
const LARGEST_GAP: i128 = 4_294_967_295_999_999_999;

const fn at(sec: i32, nanosec: u32) -> Time {
    Time { sec, nanosec }
}

fn value(time: Time) -> i128 {
    i128::from(time.sec) * 1_000_000_000 + i128::from(time.nanosec)
}

/// Both ends, some seconds and single nanoseconds before the epoch, at it and after it.
const RISING: [Time; 13] = [
    at(i32::MIN, 0),
    at(i32::MIN, 1),
    at(-9, 8),
    at(-3, 7),
    at(-2, 999_999_999),
    at(-1, 0),
    at(-1, 500_000_000),
    at(-1, 999_999_999),
    at(0, 0),
    at(0, 1),
    at(0, 999_999_999),
    at(5, 0),
    at(i32::MAX, 999_999_999),
];

/// All pairs, with the gap from the first to the second.
fn pairs() -> impl Iterator<Item = (Time, Time, i128)> {
    let each = |last| RISING.map(move |next| (last, next, value(next) - value(last)));
    RISING.into_iter().flat_map(each)
}

/// Separations and delays: at the gap, one nanosecond below and above it, and others.
fn spans(gap: i128) -> impl Iterator<Item = u128> {
    let near = [gap - 1, gap, gap + 1].into_iter().filter_map(|span| span.try_into().ok());
    near.chain([0, 1, SECOND - 1, SECOND, LARGEST_GAP as u128, u64::MAX.into(), NEVER])
}

/// A state in which a sample of this time was delivered.
fn delivered(last: Time) -> Result<State, Refusal> {
    let mut state = State::new();
    assert!(state.admit(&Sample::new(KEY, WRITER, last))?.is_admitted());
    Ok(state)
}

#[test]
fn times_are_in_the_order_of_their_numbers() {
    for (last, next, gap) in pairs() {
        assert_eq!(next.cmp(&last), gap.cmp(&0), "{last:?}, {next:?}");
    }
    assert!(RISING.is_sorted());
    assert_eq!(value(RISING[12]) - value(RISING[0]), LARGEST_GAP);
    assert_eq!([value(at(-1, 999_999_999)), value(at(-1, 500_000_000))], [-1, -500_000_000]);
}

#[test]
fn the_two_reads() -> Result<(), Refusal> {
    for (last, next, gap) in pairs() {
        let state = delivered(last)?;
        let order = |by_source| state.should_deliver_under_destination_order(&KEY, next, by_source);
        assert_eq!((order(true)?, order(false)?), (gap > 0, true), "{last:?}, {next:?}");
        for span in spans(gap) {
            let far = gap < 0 || gap.unsigned_abs() >= span;
            let read = state.should_deliver_under_time_based_filter(&KEY, next, span)?;
            assert_eq!(read, far, "{last:?}, {next:?}, {span}");
        }
    }
    Ok(())
}

#[test]
fn admit() -> Result<(), Refusal> {
    for (last, next, gap) in pairs() {
        let state = delivered(last)?;
        for span in spans(gap) {
            for by_source_timestamp in [false, true] {
                let why = match gap < 0 || gap.unsigned_abs() >= span {
                    _ if by_source_timestamp && gap <= 0 => Some(Admission::DestinationOrder),
                    true => None,
                    false => Some(Admission::TimeBasedFilter),
                };
                let sample = Sample::new(KEY, WRITER, next);
                let sample = Sample { by_source_timestamp, min_separation_nanos: span, ..sample };
                let mut after = state.clone();
                let admission = after.admit(&sample)?;
                let turned = (!admission.is_admitted()).then_some(admission);
                assert_eq!(turned, why, "{last:?}, {sample:?}");
                let kept = after.get_by_keyhash(&KEY).and_then(|i| i.last_filter_ts);
                assert_eq!(kept, Some(if why.is_none() { next } else { last }));
            }
        }
    }
    Ok(())
}

/// The two times of a sample are judged apart: one before the epoch, the other after it.
#[test]
fn order_and_filter_on_either_side() -> Result<(), Refusal> {
    let mut state = State::new();
    let of = |order_ts, filter_ts| Sample {
        filter_ts,
        by_source_timestamp: true,
        min_separation_nanos: SECOND,
        ..Sample::new(KEY, WRITER, order_ts)
    };
    assert!(state.admit(&of(at(-3, 0), at(7, 0)))?.is_admitted());
    assert_eq!(state.admit(&of(at(-3, 0), at(8, 0)))?, Admission::DestinationOrder);
    assert_eq!(state.admit(&of(at(-2, 0), at(7, 5)))?, Admission::TimeBasedFilter);
    assert!(state.admit(&of(at(-2, 0), at(-5, 0)))?.is_admitted());
    assert_eq!(state.admit(&of(at(6, 0), at(-5, 999_999_999)))?, Admission::TimeBasedFilter);
    assert!(state.admit(&of(at(6, 0), at(-4, 0)))?.is_admitted());
    Ok(())
}

/// Disposed or left without writers at the first time, purged at the second: where that is earlier the gap counts as 0.
#[test]
fn autopurge() -> Result<(), Refusal> {
    for (ended, now, gap) in pairs() {
        let mut disposed = delivered(ended)?;
        let handle = disposed.lookup(&KEY).expect("it is known");
        disposed.dispose(handle, Some(ended))?;
        let mut left = delivered(ended)?;
        left.drop_writer(&WRITER, Some(ended))?;
        for delay in spans(gap) {
            // More than 64 bits have room for is never, and so is what they have room for at most.
            let due = delay < u64::MAX.into() && gap.max(0).unsigned_abs() >= delay;
            let purged = usize::from(due);
            assert_eq!(disposed.clone().autopurge(now, delay, NEVER)?, purged, "{delay}");
            assert_eq!(left.clone().autopurge(now, NEVER, delay)?, purged, "{delay}");
            assert_eq!(disposed.clone().autopurge(now, NEVER, delay)?, 0);
        }
    }
    Ok(())
}

/// The trackers with ZeroDDS's names answer as the state does, and not as ZeroDDS before the epoch.
#[test]
fn trackers() {
    let tracker = InstanceTracker::new();
    let handle = tracker.register(KEY, Vec::new(), None);
    tracker.record_delivery(&KEY, at(-3, 7));
    let order = |time| tracker.should_deliver_under_destination_order(&KEY, time, true);
    assert_eq!((order(at(-9, 8)), order(at(-3, 8)), order(at(0, 0))), (false, true, true));
    let filter = |time| tracker.should_deliver_under_time_based_filter(&KEY, time, SECOND);
    assert_eq!((filter(at(-9, 8)), filter(at(-2, 6)), filter(at(-2, 7))), (true, false, true));
    tracker.dispose(handle, Some(at(-3, 7)));
    assert_eq!(tracker.autopurge(at(-2, 6), SECOND, NEVER), 0);
    assert_eq!(tracker.autopurge(at(-2, 7), SECOND, NEVER), 1);
    assert_eq!(tracker.state().take_refusal(), None);
}
