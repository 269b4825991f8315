//! The trackers over one shared state: from several threads, with a shared allocator, and what a refusal becomes.

use dcps::{
    InstanceHandle, InstanceHandleAllocator, InstanceStateKind, InstanceTracker, LivelinessKind,
    LivelinessTracker, Places, Refusal, Sample, SharedState, State, Time,
};
use std::sync::Arc;
use std::time::Duration;

const BAD: Time = Time { sec: 0, nanosec: 1_000_000_000 };

#[test]
fn one_state_and_its_lock() {
    let shared = SharedState::new();
    std::thread::scope(|scope| {
        for thread in 0..4u8 {
            let (instances, liveliness) = (shared.instances(), shared.liveliness());
            scope.spawn(move || {
                for number in 0..32 {
                    let handle = instances.register([thread * 32 + number; 16], Vec::new(), None);
                    instances.note_writer(handle, [thread; 16]);
                }
                let lease = Some(Duration::from_secs(1));
                liveliness.matched([thread; 16], LivelinessKind::Automatic, lease, Duration::ZERO);
            });
        }
    });
    assert_eq!((shared.instances().len(), shared.liveliness().status().alive_count), (128, 4));
    let lapse = shared.lock().lapse(Duration::from_secs(1), None).expect("accepted");
    assert_eq!(lapse.writerless.len(), 128);
    let kinds = shared.instances().current_states(lapse.writerless);
    assert!(kinds.values().all(|(kind, _)| *kind == InstanceStateKind::NotAliveNoWriters));
}

/// A holder is asked for without the lock held: it may ask the tracker.
#[test]
fn a_holder_that_asks_the_tracker() {
    let tracker = InstanceTracker::new();
    let holder = || tracker.len().to_be_bytes().to_vec();
    let (handle, samples) =
        tracker.observe_admitted([1; 16], holder, Time::ZERO, 5).expect("there is room");
    assert_eq!((samples, tracker.get_key_holder(handle)), (1, Some(vec![0; 8])));
    let unasked = || -> Vec<u8> { panic!("not asked for") };
    assert!(tracker.observe_admitted([1; 16], unasked, Time::ZERO, 5).is_some());
    assert!(tracker.observe_admitted([2; 16], unasked, Time::ZERO, 1).is_none());
    assert_eq!(tracker.take_refusal(), None);
}

#[test]
fn an_allocator_of_two() {
    let allocator = Arc::new(InstanceHandleAllocator::starting_at(7));
    let [one, other] = [0, 1].map(|_| InstanceTracker::with_allocator(Arc::clone(&allocator)));
    let mut given = Vec::new();
    for key in 0..3 {
        given.push(one.register([key; 16], Vec::new(), None).as_raw());
        given.push(allocator.allocate().as_raw());
        given.push(other.observe_lifecycle([key; 16], None, None).as_raw());
        one.mark_view_new(&[key; 16]);
    }
    assert!(given.iter().copied().eq(7..16));
    // Behind 2^63 there is no handle for a state, and the allocator keeps its own.
    for next in [1 << 63, u64::MAX, 0] {
        let spent = Arc::new(InstanceHandleAllocator::starting_at(next));
        let tracker = InstanceTracker::with_allocator(Arc::clone(&spent));
        assert!(tracker.register([1; 16], Vec::new(), None).is_nil());
        assert_eq!(tracker.take_refusal(), Some(Refusal::HandlesSpent));
        assert_eq!(spent.next(), next);
    }
}

/// A full tracker of either size takes no handle from the allocator.
#[test]
fn as_many_as_places() {
    for places in Places::ALL {
        let allocator = Arc::new(InstanceHandleAllocator::new());
        let tracker = InstanceTracker::with_allocator_and_places(Arc::clone(&allocator), places);
        let count = places.count() as u8;
        let handles = (0..count).map(|key| tracker.register([key; 16], Vec::new(), None).as_raw());
        assert!(handles.eq(1..=count.into()));
        assert!(tracker.register([count; 16], Vec::new(), None).is_nil());
        assert_eq!(tracker.take_refusal(), Some(Refusal::InstancesFull));
        assert_eq!((tracker.len(), allocator.next()), (places.count(), u64::from(count) + 1));
        assert_eq!(tracker.shared().state().lock().places(), places);
    }
}

/// What a refused call answers.
#[test]
fn refusals() {
    let tracker = InstanceTracker::new();
    let known = tracker.register([1; 16], Vec::new(), None);
    let before = tracker.state().lock().clone();
    let refused = |answer: bool, refusal| {
        assert!(answer);
        assert_eq!(tracker.take_refusal(), Some(refusal));
        assert_eq!(tracker.take_refusal(), None);
        assert!(*tracker.state().lock() == before);
    };
    refused(tracker.register([2; 16], vec![0; 145], None).is_nil(), Refusal::HolderLength);
    refused(tracker.observe_lifecycle([2; 16], None, Some(BAD)).is_nil(), Refusal::Nanoseconds);
    refused(tracker.observe_admitted([2; 16], Vec::new, BAD, -1).is_none(), Refusal::Nanoseconds);
    refused(tracker.note_admitted(&[1; 16], BAD, BAD, [9; 16]).is_none(), Refusal::Nanoseconds);
    refused(!tracker.dispose(known, Some(BAD)), Refusal::Nanoseconds);
    refused(tracker.drop_writer(&[9; 16], Some(BAD)).is_empty(), Refusal::Nanoseconds);
    refused(tracker.autopurge(BAD, 0, 0) == 0, Refusal::Nanoseconds);
    let delivered = tracker.should_deliver_under_destination_order(&[1; 16], BAD, true);
    refused(!delivered, Refusal::Nanoseconds);
    let accepted = tracker.accept_under_exclusive_ownership(&[1; 16], [9; 16], 1, BAD, None);
    refused(!accepted, Refusal::Nanoseconds);
    refused(tracker.left_writerless(&[[9; 16]; 257], 3).is_empty(), Refusal::BufferLength);

    let writers = LivelinessTracker::new();
    assert_eq!(writers.expire(Duration::MAX), (false, None));
    assert_eq!(writers.take_refusal(), Some(Refusal::ClockOrLease));
    assert!(!writers.matched([1; 16], LivelinessKind::Automatic, None, Duration::MAX));
    assert_eq!(writers.take_refusal(), Some(Refusal::ClockOrLease));
}

#[test]
fn a_state_that_is_there_already() {
    let mut state = State::new();
    state.admit(&Sample::new([1; 16], [9; 16], Time::ZERO)).expect("there is room");
    let tracker = SharedState::from(state).instances();
    assert_eq!(tracker.ordered_handles(), [InstanceHandle::from_raw(1)]);
    assert_eq!(tracker.read_by_handle(InstanceHandle::from_raw(1), |i| i.writers.len()), Some(1));
    assert_eq!(tracker.shared().lookup(&[1; 16]), tracker.next_handle_after(InstanceHandle::NIL));
}
