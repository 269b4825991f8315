//! What the doc examples leave out: every refusal that a typed call can meet, values at and beyond what a
//! sheet has room for, and that a refused call leaves the state as it was.

use dcps::{
    Admission, InstanceHandle, InstanceStateKind, LivelinessChangedStatus, LivelinessKind, Refusal,
    Sample, State, Time, WriterLiveliness,
};
use std::time::Duration;

const BAD_TIME: Time = Time { sec: 0, nanosec: 1_000_000_000 };

fn at(sec: i32) -> Time {
    Time { sec, nanosec: 0 }
}

fn id(number: u16) -> [u8; 16] {
    let mut id = [0; 16];
    id[14..].copy_from_slice(&number.to_be_bytes());
    id
}

/// A call that must be refused, on a state that it must leave alone.
fn refused<T: std::fmt::Debug>(
    state: &mut State,
    refusal: Refusal,
    call: impl FnOnce(&mut State) -> Result<T, Refusal>,
) {
    let before = state.clone();
    assert_eq!(call(state).expect_err("refused"), refusal);
    assert!(*state == before && state.out() == before.out(), "{refusal} changed the state");
}

#[test]
fn refusals_of_the_caller() -> Result<(), Refusal> {
    let mut state = State::new();
    let handle = state.register(id(1), Vec::new(), None)?;
    refused(&mut state, Refusal::Nanoseconds, |s| s.dispose(handle, Some(BAD_TIME)));
    refused(&mut state, Refusal::Nanoseconds, |s| {
        s.admit(&Sample { filter_ts: BAD_TIME, ..Sample::new(id(1), id(9), at(0)) })
    });
    refused(&mut state, Refusal::ClockOrLease, |s| s.expire(Duration::from_nanos(1 << 62)));
    refused(&mut state, Refusal::ClockOrLease, |s| s.expire(Duration::MAX));
    refused(&mut state, Refusal::ClockOrLease, |s| {
        s.matched(id(9), LivelinessKind::Automatic, Some(Duration::MAX), Duration::ZERO)
    });
    for length in [145, 65_535, 65_536, 65_537] {
        refused(&mut state, Refusal::HolderLength, |s| s.register(id(2), vec![7; length], None));
    }
    refused(&mut state, Refusal::Acknowledged, |s| {
        let alive_count_change = i32::MAX;
        s.acknowledge(&LivelinessChangedStatus { alive_count_change, ..Default::default() })
    });
    refused(&mut state, Refusal::BufferLength, |s| s.left_writerless(&vec![id(9); 257], 3));
    assert_eq!(state.left_writerless(&vec![id(9); 256], 3), Ok(Vec::new()));
    Ok(())
}

#[test]
fn refusals_of_a_full_floor() -> Result<(), Refusal> {
    let mut state = State::new();
    for number in 0..128 {
        state.register(id(number), Vec::new(), None)?;
        state.matched(
            id(number),
            LivelinessKind::Automatic,
            Some(Duration::ZERO),
            Duration::ZERO,
        )?;
    }
    refused(&mut state, Refusal::InstancesFull, |s| s.register(id(128), Vec::new(), None));
    refused(&mut state, Refusal::WritersFull, |s| {
        s.matched(id(128), LivelinessKind::Automatic, None, Duration::ZERO)
    });
    assert_eq!(state.ensure_registered_limited(id(128), 128)?, None);
    for number in 0..16 {
        state.note_writer(InstanceHandle::from_raw(1), id(number))?;
    }
    refused(&mut state, Refusal::WriterSetFull, |s| {
        s.note_writer(InstanceHandle::from_raw(1), id(16))
    });
    for clock in 1..=2 {
        state.expire(Duration::from_nanos(clock))?;
        for number in 0..128 {
            state.writer_asserted(id(number), Duration::from_nanos(clock))?;
        }
    }
    refused(&mut state, Refusal::LostFull, |s| s.expire(Duration::from_nanos(3)));
    assert_eq!(state.take_lost()?.len(), 256);
    assert_eq!(state.walk().count(), 128);
    Ok(())
}

#[test]
fn delays_beyond_64_bits_are_never() -> Result<(), Refusal> {
    let mut state = State::new();
    let handle = state.register(id(1), Vec::new(), None)?;
    state.dispose(handle, Some(at(0)))?;
    for never in [u128::from(u64::MAX), 1 << 64, u128::MAX] {
        assert_eq!(state.autopurge(at(i32::MAX), never, never)?, 0);
    }
    state.record_delivery(&id(1), at(0))?;
    assert!(!state.should_deliver_under_time_based_filter(&id(1), at(i32::MAX), 1 << 64)?);
    Ok(())
}

#[test]
fn a_holder_is_asked_for_only_where_none_is_stored() -> Result<(), Refusal> {
    let mut state = State::new();
    state.observe_lifecycle(id(1), None, None)?;
    state.observe_admitted(id(1), || b"holder".to_vec(), at(1), -1)?;
    let (handle, samples) = state
        .observe_admitted(id(1), || -> Vec<u8> { panic!("one is stored") }, at(2), -1)?
        .expect("it is known");
    assert_eq!(samples, 3);
    assert_eq!(state.get_key_holder(handle), Some(b"holder".to_vec()));
    Ok(())
}

#[test]
fn every_field_of_an_instance() -> Result<(), Refusal> {
    let mut state = State::new();
    let sample = Sample {
        key_holder: &[5; 144],
        strength: -3,
        filter_ts: Time { sec: -2, nanosec: 7 },
        ..Sample::new(id(1), id(9), at(1))
    };
    let admission = state.admit(&sample)?;
    assert!(matches!(admission, Admission::Admitted { samples_in_cache: 1, view_new: true, .. }));
    let handle = state.lookup(&id(1)).expect("it is admitted");
    state.unregister_writer(handle, id(9), Some(at(4)))?;
    state.register(id(1), vec![6], Some(at(5)))?;
    state.dispose(handle, Some(at(6)))?;
    state.mark_view_seen(handle)?;
    let instance = state.get_by_keyhash(&id(1)).expect("it is there");
    assert_eq!(instance.handle, handle);
    assert_eq!(instance.kind, InstanceStateKind::NotAliveDisposed);
    assert_eq!((instance.disposed_generation_count, instance.no_writers_generation_count), (0, 1));
    assert_eq!((instance.writer_count, instance.samples_in_cache), (1, 1));
    assert_eq!(instance.last_sample_timestamp, Some(at(6)));
    assert_eq!(instance.last_delivered_ts, Some(at(1)));
    assert_eq!(instance.last_filter_ts, Some(sample.filter_ts));
    assert_eq!((instance.disposed_at, instance.no_writers_at), (Some(at(6)), Some(at(4))));
    assert_eq!(instance.current_owner, Some((id(9), -3)));
    assert_eq!(instance.owner_at, Some(sample.filter_ts));
    assert_eq!(instance.key_holder, Some(vec![6]));
    assert!(instance.writers.is_empty());
    assert!(!instance.reader_view_new);
    Ok(())
}

#[test]
fn every_field_of_a_writer() -> Result<(), Refusal> {
    let mut state = State::new();
    let kinds = [
        LivelinessKind::Automatic,
        LivelinessKind::ManualByParticipant,
        LivelinessKind::ManualByTopic,
    ];
    for (number, kind) in (1..).zip(kinds) {
        let mut guid = id(number);
        guid[0] = number as u8;
        let lease = (number > 1).then(|| Duration::from_nanos(5));
        state.matched(guid, kind, lease, Duration::from_nanos(10))?;
    }
    let writers: Vec<_> = state.writers().collect();
    assert_eq!(writers.iter().map(|w| w.kind).collect::<Vec<_>>(), kinds);
    assert_eq!(writers[0].state, WriterLiveliness::Alive);
    assert_eq!(writers[1].state, WriterLiveliness::Unasserted);
    assert_eq!((writers[0].lease, writers[1].lease), (None, Some(Duration::from_nanos(5))));
    assert!(writers.iter().all(|w| w.last_assert == Duration::from_nanos(10)));
    state.writer_asserted(writers[2].guid, Duration::from_nanos(11))?;
    assert_eq!(state.expire(Duration::from_nanos(15))?, (false, Some(Duration::from_nanos(16))));
    state.expire(Duration::from_nanos(16))?;
    assert!(state.has_lost_liveliness(writers[2].guid));
    Ok(())
}

#[test]
fn debug_shows_records() -> Result<(), Refusal> {
    let mut state = State::new();
    state.register(id(1), Vec::new(), None)?;
    let text = format!("{state:?}");
    assert!(text.contains("instance_count: 1") && text.contains("InstanceHandle(1)"), "{text}");
    assert!(text.len() < 2_000);
    Ok(())
}
