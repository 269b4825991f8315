//! The writer lookup: the first instance, in the order of the keys, that is alive and has the writer in its set; none
//! exactly where there is none.

use dcps::{
    InstanceHandle, InstanceStateKind, KeyHash, Lent, LivelinessKind, Places, Refusal, Sample,
    SharedState, Sheet, State, Time,
};
use std::time::Duration;

#[allow(dead_code)]
#[path = "../src/c.rs"]
mod c;

const WRITER: [u8; 16] = [9; 16];
const OTHER: [u8; 16] = [8; 16];
const SECOND: Duration = Duration::from_secs(1);

fn at(sec: i32) -> Time {
    Time { sec, nanosec: 0 }
}

fn key(number: u8) -> KeyHash {
    [number; 16]
}

/// The key of the instance that is named. Asked a second time, the answer is the same.
fn named(state: &State, writer: &[u8; 16]) -> Result<Option<KeyHash>, Refusal> {
    let handle = state.writer_lookup(writer)?;
    assert_eq!(state.writer_lookup(writer)?, handle);
    Ok(handle.and_then(|handle| state.key_hash_for_handle(handle)))
}

fn draw(state: &mut State, key: KeyHash, writer: [u8; 16]) -> Result<InstanceHandle, Refusal> {
    // Of equal strength the lower GUID would take over and the other be turned away; a deadline of 0 lets both in.
    let sample = Sample { deadline_nanos: Some(0), ..Sample::new(key, writer, at(1)) };
    assert!(state.admit(&sample)?.is_admitted());
    Ok(state.lookup(&key).expect("it is known"))
}

/// A state with these instances of the writer, started in this order.
fn drawn(places: Places, keys: &[KeyHash]) -> Result<State, Refusal> {
    let mut state = State::with_places(places);
    for key in keys {
        draw(&mut state, *key, WRITER)?;
    }
    Ok(state)
}

/// Rising: some differ in the lower half alone, some in the upper, some by what would be a sign.
fn rising() -> [KeyHash; 8] {
    let with = |place: usize, byte| {
        let mut id = [0; 16];
        id[place] = byte;
        id
    };
    let (low, high) = ([with(15, 1), with(8, 1), with(8, 0x80)], [with(7, 1), with(0, 0x7f)]);
    [[0; 16], low[0], low[1], low[2], high[0], high[1], with(0, 0x80), [0xff; 16]]
}

#[test]
fn the_lowest_key_and_not_the_lowest_handle() -> Result<(), Refusal> {
    for places in Places::ALL {
        let count = places.count() as u8;
        let mut state = State::with_places(places);
        for number in (0..count).rev() {
            let newest = draw(&mut state, key(number), WRITER)?;
            assert_eq!(named(&state, &WRITER)?, Some(key(number)));
            assert_eq!(newest.as_raw(), u64::from(count - number));
        }
        let rising: Vec<_> = (0..count).map(key).collect();
        assert_eq!(named(&drawn(places, &rising)?, &WRITER)?, Some(key(0)));
        assert_eq!(named(&drawn(places, &[key(2), key(1), key(3)])?, &WRITER)?, Some(key(1)));
    }
    Ok(())
}

#[test]
fn keys_and_guids_that_differ_in_one_half() -> Result<(), Refusal> {
    let ids = rising();
    for (place, lower) in ids.iter().enumerate() {
        for higher in &ids[place + 1..] {
            for started in [[*lower, *higher], [*higher, *lower]] {
                let state = drawn(Places::Small, &started)?;
                assert_eq!(named(&state, &WRITER)?, Some(*lower));
            }
            // The higher GUID has the lower key, and each finds its own.
            let mut state = State::with_places(Places::Small);
            draw(&mut state, key(1), *higher)?;
            assert_eq!(named(&state, lower)?, None);
            draw(&mut state, key(2), *lower)?;
            assert_eq!(named(&state, lower)?, Some(key(2)));
            assert_eq!(named(&state, higher)?, Some(key(1)));
        }
    }
    Ok(())
}

/// Two of those in front have the writer in their sets still, the third has lost it.
#[test]
fn dead_ones_in_front() -> Result<(), Refusal> {
    let mut state = drawn(Places::Large, &[key(4), key(3), key(2), key(1)])?;
    let [first, second, third] = [1, 2, 3].map(|n| state.lookup(&key(n)).expect("it is known"));
    state.dispose(first, None)?;
    state.unregister(second, None)?;
    state.unregister_writer(third, WRITER, None)?;
    let of = |handle| state.get_by_handle(handle).map(|i| (i.kind, i.writers.contains(&WRITER)));
    assert_eq!(of(first), Some((InstanceStateKind::NotAliveDisposed, true)));
    assert_eq!(of(second), Some((InstanceStateKind::NotAliveNoWriters, true)));
    assert_eq!(of(third), Some((InstanceStateKind::NotAliveNoWriters, false)));
    assert_eq!(named(&state, &WRITER)?, Some(key(4)));
    let fourth = state.lookup(&key(4)).expect("it is known");
    state.dispose(fourth, None)?;
    assert_eq!(named(&state, &WRITER)?, None);
    Ok(())
}

#[test]
fn it_moves_on_and_comes_back() -> Result<(), Refusal> {
    let mut state = drawn(Places::Small, &[key(2), key(1)])?;
    draw(&mut state, key(1), OTHER)?;
    let first = state.lookup(&key(1)).expect("it is known");
    state.dispose(first, None)?;
    assert_eq!([named(&state, &WRITER)?, named(&state, &OTHER)?], [Some(key(2)), None]);
    draw(&mut state, key(1), OTHER)?;
    // Alive again, and the writer never left its set.
    assert_eq!([named(&state, &WRITER)?, named(&state, &OTHER)?], [Some(key(1)); 2]);
    state.drop_writer(&WRITER, None)?;
    assert_eq!([named(&state, &WRITER)?, named(&state, &OTHER)?], [None, Some(key(1))]);
    draw(&mut state, key(2), WRITER)?;
    assert_eq!(named(&state, &WRITER)?, Some(key(2)));
    draw(&mut state, key(1), WRITER)?;
    assert_eq!(named(&state, &WRITER)?, Some(key(1)));
    Ok(())
}

/// Times, counts, views and owners, what becomes of those behind it, and a lower key of another writer.
#[test]
fn nothing_else_moves_it() -> Result<(), Refusal> {
    let mut state = drawn(Places::Large, &[key(4), key(3), key(2)])?;
    draw(&mut state, key(1), OTHER)?;
    let [second, third] = [2, 3].map(|n| state.lookup(&key(n)).expect("it is known"));
    let before = state.writer_lookup(&WRITER)?;
    assert_eq!(before, Some(second));
    for sheet in [
        Sheet::admit(&Sample::new(key(2), WRITER, at(2))),
        Sheet::record_delivery(&key(2), at(3)),
        Sheet::note_taken(second, 2),
        Sheet::mark_view_new(&key(2)),
        Sheet::update_owner_strength(&WRITER, 7),
        Sheet::clear_owner_for_writer(&WRITER),
        Sheet::note_writer(second, &OTHER),
        Sheet::dispose(third, Some(at(4))),
        Sheet::autopurge(at(5), 0, 0),
        Sheet::register(&key(5), b"behind", None),
        Sheet::register(&key(0), b"in front, without a writer", None),
        Sheet::drop_writer(&OTHER, None),
    ] {
        let pens = state.parts().1.to_vec();
        state.call(&sheet)?;
        assert_ne!(state.parts().1, pens, "{sheet:?}");
        assert_eq!(state.writer_lookup(&WRITER)?, before, "{sheet:?}");
    }
    assert_eq!(state.lookup(&key(3)), None);
    state.matched(WRITER, LivelinessKind::Automatic, None, Duration::ZERO)?;
    assert_eq!(state.writer_lookup(&WRITER)?, before);
    Ok(())
}

/// The writer has a lease of 1 s from 1 s on, and two instances that the other one writes as well.
fn leased() -> Result<State, Refusal> {
    let mut state = drawn(Places::Small, &[key(2), key(1)])?;
    draw(&mut state, key(1), OTHER)?;
    draw(&mut state, key(2), OTHER)?;
    state.matched(WRITER, LivelinessKind::Automatic, Some(SECOND), SECOND)?;
    Ok(state)
}

/// The call takes the writer out of every set, and so out of the answer: the instances stay alive by the other one.
fn takes_it_out(state: &State, sheet: &Sheet) -> Result<(), Refusal> {
    let mut state = state.clone();
    state.call(sheet)?;
    for instance in state.instances() {
        assert_eq!(instance.kind, InstanceStateKind::Alive, "{sheet:?}");
        assert_eq!(instance.writers, [OTHER], "{sheet:?}");
    }
    assert_eq!([named(&state, &WRITER)?, named(&state, &OTHER)?], [None, Some(key(1))]);
    Ok(())
}

/// Codes 33, 34 and 37 leave the sets. A later lapse takes out only whom it expires itself, so 7, 50 or 51 has to.
#[test]
fn lost_and_still_in_its_sets() -> Result<(), Refusal> {
    let (gone, lost) = (Sheet::unmatched(&WRITER), Sheet::lost_with_participant(&WRITER));
    for left in [gone, lost, Sheet::expire(2 * SECOND)] {
        let mut state = leased()?;
        let pens = state.parts().1.to_vec();
        for (sheet, moved) in [(left, true), (Sheet::lapse(3 * SECOND, None), false)] {
            assert_eq!(state.call(&sheet)?.yes, moved, "{sheet:?}");
            assert_eq!(state.parts().1, pens, "{sheet:?}");
            assert_eq!(named(&state, &WRITER)?, Some(key(1)), "{sheet:?}");
        }
        takes_it_out(&state, &Sheet::drop_writer(&WRITER, None))?;
        takes_it_out(&state, &Sheet::part(&WRITER, None))?;
        takes_it_out(&state, &Sheet::depart(&WRITER, None))?;
    }
    Ok(())
}

#[test]
fn out_of_every_set() -> Result<(), Refusal> {
    let state = leased()?;
    assert_eq!(named(&state, &WRITER)?, Some(key(1)));
    takes_it_out(&state, &Sheet::lapse(2 * SECOND, None))?;
    takes_it_out(&state, &Sheet::part(&WRITER, None))?;
    takes_it_out(&state, &Sheet::depart(&WRITER, None))?;
    Ok(())
}

/// Codes 6 and 10 put the writer into a set that does not count, until a sample of the other one revives the instance.
#[test]
fn noted_before_it_is_revived() -> Result<(), Refusal> {
    let mut disposed = drawn(Places::Small, &[key(2)])?;
    let first = draw(&mut disposed, key(1), OTHER)?;
    let mut left = disposed.clone();
    disposed.dispose(first, None)?;
    left.unregister_writer(first, OTHER, None)?;
    let admitted = Sheet::note_admitted(&key(1), at(2), at(2), &WRITER);
    for sheet in [Sheet::note_writer(first, &WRITER), admitted] {
        for ended in [&disposed, &left] {
            let mut state = ended.clone();
            state.call(&sheet)?;
            let instance = state.get_by_handle(first).expect("it is known");
            assert_ne!(instance.kind, InstanceStateKind::Alive);
            assert!(instance.writers.contains(&WRITER), "{sheet:?}");
            assert_eq!(named(&state, &WRITER)?, Some(key(2)), "{sheet:?}");
            draw(&mut state, key(1), OTHER)?;
            assert_eq!(named(&state, &WRITER)?, Some(key(1)), "{sheet:?}");
        }
    }
    Ok(())
}

/// A writer that is matched, or owns an instance without being in its set, writes none.
#[test]
fn a_writer_of_no_instance() -> Result<(), Refusal> {
    let mut state = State::new();
    assert_eq!(named(&state, &WRITER)?, None);
    state.matched(WRITER, LivelinessKind::Automatic, None, Duration::ZERO)?;
    state.register(key(1), Vec::new(), None)?;
    state.accept_under_exclusive_ownership(&key(1), WRITER, 5, at(1), None)?;
    assert_eq!(state.owner_of(&key(1)), Some(WRITER));
    assert_eq!(named(&state, &WRITER)?, None);
    draw(&mut state, key(1), OTHER)?;
    assert_eq!([named(&state, &WRITER)?, named(&state, &OTHER)?], [None, Some(key(1))]);
    Ok(())
}

/// The number and the answer, from pens alone.
fn asked(pens: &[u8], answer: &mut [u8]) -> u32 {
    let half = u64::from_be_bytes([9; 8]);
    let (p, a) = (pens.as_ptr(), answer.as_mut_ptr());
    // SAFETY: each pointer comes from a borrow of that many bytes, and the two do not overlap.
    unsafe { c::dcps_writer_lookup(p, pens.len(), half, half, a, answer.len()) }
}

/// Another length is 1, a table that is not well formed 3, whoever is asked for; the answer has the number and zeros.
#[test]
fn refused_as_1_and_3() -> Result<(), Refusal> {
    for places in Places::ALL {
        let state = drawn(places, &[key(2), key(1)])?;
        let pens = state.parts().1;
        let mut answer = [7; 24];
        assert_eq!(asked(pens, &mut answer), 0);
        assert_eq!((answer[2], answer[8..16].last()), (1, Some(&2)));
        for length in [0, 512, 16_383, 16_385, 65_535, 65_537] {
            let mut other = pens.to_vec();
            other.resize(length, 0);
            refused(&other, 1);
        }
        let mut damaged = pens.to_vec();
        damaged[512..528].copy_from_slice(&key(1));
        refused(&damaged, 3);
        let mut short = [7; 23];
        assert_eq!((asked(pens, &mut short), short), (1, [7; 23]));
    }
    Ok(())
}

fn refused(pens: &[u8], number: u8) {
    let (mut answer, mut expected) = ([7; 24], [0; 24]);
    expected[0] = number;
    assert_eq!((asked(pens, &mut answer), answer), (number.into(), expected));
}

/// Borrowed bytes are judged when a state is made of them, so that the lookup itself is not refused.
#[test]
fn borrowed_and_shared() -> Result<(), Refusal> {
    for places in Places::ALL {
        let owned = drawn(places, &[key(2), key(1)])?;
        let (head, pens, writers, lost) = owned.parts();
        let looked = |pens: &mut [u8]| {
            let (head, writers, lost) = (&mut { *head }, &mut { *writers }, &mut { *lost });
            let lent = Lent { head, pens, writers, lost, out: &mut [0; 4_096] };
            State::over(lent)?.writer_lookup(&WRITER)
        };
        assert_eq!(looked(&mut pens.to_vec())?, owned.lookup(&key(1)));
        assert_eq!(looked(&mut pens.to_vec()[512..]), Err(Refusal::BufferLength));
        let mut damaged = pens.to_vec();
        damaged[512..528].copy_from_slice(&key(1));
        assert_eq!(looked(&mut damaged), Err(Refusal::NotWellFormed));
        let shared = SharedState::from(owned.clone());
        // The tracker takes the lock as well.
        let looked = shared.lock().writer_lookup(&WRITER)?;
        assert_eq!(looked, shared.instances().lookup(&key(1)));
    }
    Ok(())
}
