//! The writer of a sample that starts its instance owns it: by admit and by no other call.

use dcps::{Admission, Refusal, Sample, State, Time};

const KEY: [u8; 16] = [1; 16];
const FIRST: [u8; 16] = [7; 16];
/// At equal strength it would take over.
const LOWER: [u8; 16] = [5; 16];
const NEVER: u128 = u128::MAX;

/// A call that starts the instance.
type Start = fn(&mut State) -> Result<(), Refusal>;

fn at(sec: i32) -> Time {
    Time { sec, nanosec: 0 }
}

/// A sample of second 1 that is received in another.
fn sample(writer: [u8; 16], strength: i32, received: i32) -> Sample<'static> {
    Sample { strength, filter_ts: at(received), ..Sample::new(KEY, writer, at(1)) }
}

/// The owner with its strength, and when its last sample was accepted.
fn owner(state: &State) -> (Option<([u8; 16], i32)>, Option<Time>) {
    let instance = state.get_by_keyhash(&KEY).expect("it is known");
    (instance.current_owner, instance.owner_at)
}

fn admitted(state: &mut State, sample: &Sample<'_>) -> Result<(), Refusal> {
    let admission = state.admit(sample)?;
    assert!(admission.is_admitted(), "{admission:?}");
    Ok(())
}

/// A sample that leaves the state as it was.
fn turned_away(state: &mut State, sample: &Sample<'_>, why: Admission) -> Result<(), Refusal> {
    let before = state.clone();
    assert_eq!(state.admit(sample)?, why);
    assert!(*state == before, "{why:?} changed the state");
    Ok(())
}

#[test]
fn the_first_writer_owns() -> Result<(), Refusal> {
    let mut state = State::new();
    admitted(&mut state, &sample(FIRST, 5, 3))?;
    assert_eq!(owner(&state), (Some((FIRST, 5)), Some(at(3))));
    turned_away(&mut state, &sample(LOWER, 1, 4), Admission::ExclusiveOwnership)?;
    admitted(&mut state, &sample(LOWER, 6, 5))?;
    assert_eq!(owner(&state), (Some((LOWER, 6)), Some(at(5))));
    Ok(())
}

#[test]
fn at_any_strength_and_time() -> Result<(), Refusal> {
    for strength in [i32::MIN, -3, 0, i32::MAX] {
        let mut state = State::new();
        admitted(&mut state, &sample(FIRST, strength, -4))?;
        assert_eq!(owner(&state), (Some((FIRST, strength)), Some(at(-4))));
        if let Some(weaker) = strength.checked_sub(1) {
            turned_away(&mut state, &sample(LOWER, weaker, 2), Admission::ExclusiveOwnership)?;
        }
        // A deadline of 0 is missed by a first owner as by any.
        let late = Sample { deadline_nanos: Some(0), ..sample(LOWER, i32::MIN, 2) };
        admitted(&mut state, &late)?;
        assert_eq!(owner(&state), (Some((LOWER, i32::MIN)), Some(at(2))));
    }
    Ok(())
}

#[test]
fn no_other_call_gives_a_first_owner() -> Result<(), Refusal> {
    let mut state = State::new();
    assert!(state.accept_under_exclusive_ownership(&KEY, FIRST, 5, at(1), None)?);
    assert!(state == State::new(), "an unknown key stores nothing");
    let starts: [Start; 4] = [
        |s| s.register(KEY, Vec::new(), Some(at(1))).map(|_| ()),
        |s| s.ensure_registered_limited(KEY, -1).map(|_| ()),
        |s| s.observe_lifecycle(KEY, None, Some(at(1))).map(|_| ()),
        |s| s.observe_admitted(KEY, Vec::new, at(1), -1).map(|_| ()),
    ];
    for start in starts {
        let mut state = State::new();
        start(&mut state)?;
        state.note_admitted(&KEY, at(1), at(1), FIRST)?;
        assert_eq!(owner(&state), (None, None));
        // Known, and without an owner: the next sample's writer owns it, as by code 16.
        admitted(&mut state, &sample(LOWER, -1, 2))?;
        assert_eq!(owner(&state), (Some((LOWER, -1)), Some(at(2))));
    }
    Ok(())
}

#[test]
fn a_sample_that_starts_nothing_owns_nothing() -> Result<(), Refusal> {
    let mut state = State::new();
    let limited = Sample { max_instances: 0, ..sample(FIRST, 5, 1) };
    turned_away(&mut state, &limited, Admission::MaxInstances)?;
    assert!(state.is_empty());
    Ok(())
}

/// Code 16 goes by the owner that was cleared, and stores what it accepts, also where the instance comes back.
#[test]
fn a_known_instance_goes_by_code_16() -> Result<(), Refusal> {
    let mut state = State::new();
    admitted(&mut state, &sample(FIRST, 5, 1))?;
    state.part(FIRST, Some(at(2)))?;
    assert_eq!(owner(&state), (None, Some(at(1))));
    admitted(&mut state, &sample(LOWER, 1, 3))?;
    assert_eq!(owner(&state), (Some((LOWER, 1)), Some(at(3))));
    let handle = state.lookup(&KEY).expect("it is known");
    state.dispose(handle, Some(at(4)))?;
    turned_away(&mut state, &sample(FIRST, 0, 5), Admission::ExclusiveOwnership)?;
    Ok(())
}

#[test]
fn a_purged_key_starts_again() -> Result<(), Refusal> {
    let mut state = State::new();
    admitted(&mut state, &sample(FIRST, 5, 1))?;
    let first = state.lookup(&KEY).expect("it is known");
    state.dispose(first, Some(at(2)))?;
    assert_eq!(state.autopurge(at(2), 0, NEVER)?, 1);
    admitted(&mut state, &sample(LOWER, 1, 3))?;
    assert_ne!(state.lookup(&KEY), Some(first));
    assert_eq!(owner(&state), (Some((LOWER, 1)), Some(at(3))));
    turned_away(&mut state, &sample(FIRST, 0, 4), Admission::ExclusiveOwnership)?;
    Ok(())
}
