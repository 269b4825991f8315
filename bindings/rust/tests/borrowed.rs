//! A state over borrowed buffers, of either size, by what the crate has without its features: no heap, no lock.

use dcps::{carry_head, InstanceStateKind, Lent, Places, Refusal, Sample, Sheet, State, Time};
use std::time::Duration;

struct Memory {
    head: [u8; 64],
    pens: [u8; 65_536],
    writers: [u8; 5_120],
    lost: [u8; 4_096],
    out: [u8; 4_096],
}

impl Memory {
    fn new() -> Self {
        Self {
            head: [1; 64],
            pens: [1; 65_536],
            writers: [1; 5_120],
            lost: [1; 4_096],
            out: [1; 4_096],
        }
    }

    fn lent(&mut self, places: Places) -> Lent<'_> {
        self.lent_bytes(places.pens_bytes())
    }

    fn lent_bytes(&mut self, length: usize) -> Lent<'_> {
        let Self { head, pens, writers, lost, out } = self;
        Lent { head, pens: &mut pens[..length], writers, lost, out }
    }
}

fn calls_and_lists(places: Places) -> Result<(), Refusal> {
    let mut memory = Memory::new();
    let mut state = State::fresh_over(memory.lent(places))?;
    assert_eq!((state.places(), state.head().places), (places, places));
    let (second, at) = (Duration::from_secs(1), |sec| Time { sec, nanosec: 0 });
    let kind = dcps::LivelinessKind::Automatic;
    assert!(state.matched([9; 16], kind, Some(second), second)?);
    for key in [2, 1] {
        let sample = Sample { key_holder: b"holder", ..Sample::new([key; 16], [9; 16], at(1)) };
        assert!(state.admit(&sample)?.is_admitted());
    }
    assert_eq!(state.list_left_writerless(&[[9; 16]], 3)?, 2);
    let answer = state.call(&Sheet::lapse(2 * second, Some(at(2))))?;
    assert!(answer.yes && answer.next_due.is_none());
    assert!(state.listed_handles(answer.listed).map(|h| h.as_raw()).eq([2, 1]));
    let listed = state.call(&Sheet::take_lost())?.listed;
    assert!(state.listed_guids(listed).eq(&[[9; 16]]));
    for instance in state.instances() {
        assert_eq!(instance.kind, InstanceStateKind::NotAliveNoWriters);
        assert_eq!((instance.key_holder, instance.writers), (Some(&b"holder"[..]), &[][..]));
    }
    // The bytes are the caller's: another state takes them up.
    let handle = state.call(&Sheet::register(&[3; 16], b"", None))?.handle;
    let again = State::over(memory.lent(places))?;
    assert_eq!((again.lookup(&[3; 16]), again.places()), (Some(handle), places));
    Ok(())
}

#[test]
fn of_either_size() {
    for places in Places::ALL {
        assert_eq!(calls_and_lists(places), Ok(()));
    }
}

#[test]
fn damage_is_refused() {
    for places in Places::ALL {
        let mut memory = Memory::new();
        let refused = |memory: &mut Memory| State::over(memory.lent(places)).err();
        assert_eq!(refused(&mut memory), Some(Refusal::NotWellFormed));
        assert!(State::fresh_over(memory.lent(places)).is_ok_and(|state| state.is_empty()));
        assert_eq!(refused(&mut memory), None);
        memory.pens[places.pens_bytes() - 1] = 1;
        assert_eq!(refused(&mut memory), Some(Refusal::NotWellFormed));
    }
}

/// Pens that are not the head's are refused as 1, a head with another number of places before that as 3.
#[test]
fn lengths() {
    let mut memory = Memory::new();
    for length in [0, 512, 16_383, 16_385, 32_768, 65_535] {
        let fresh = State::fresh_over(memory.lent_bytes(length));
        assert_eq!(fresh.err(), Some(Refusal::BufferLength), "{length}");
    }
    assert_eq!(memory.head, [1; 64]);
    for (own, other) in [(Places::Small, Places::Large), (Places::Large, Places::Small)] {
        memory = Memory::new();
        memory.pens.fill(0);
        assert!(State::fresh_over(memory.lent(own)).is_ok());
        assert_eq!(State::over(memory.lent(other)).err(), Some(Refusal::BufferLength));
        memory.head[31] += 1;
        assert_eq!(State::over(memory.lent(other)).err(), Some(Refusal::NotWellFormed));
        memory.head[31] -= 1;
        assert!(State::over(memory.lent(own)).is_ok());
    }
}

/// A head from before heads had the number of places goes with 65,536 bytes.
#[test]
fn a_head_from_before() {
    let mut memory = Memory::new();
    assert!(State::fresh_over(memory.lent(Places::Large)).is_ok());
    memory.head[30..32].fill(0);
    assert_eq!(State::over(memory.lent(Places::Large)).err(), Some(Refusal::NotWellFormed));
    assert!(carry_head(&mut memory.head) && !carry_head(&mut memory.head));
    assert_eq!(State::over(memory.lent(Places::Small)).err(), Some(Refusal::BufferLength));
    assert!(State::over(memory.lent(Places::Large)).is_ok());
}
