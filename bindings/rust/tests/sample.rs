//! The recorded lists (docs/evidence/LISTS.md) through `raw_call`: number, answer, head, buffers and Out are the recorded
//! ones. Calls with other lengths are left to program `replay`, as this crate cannot make them.

use dcps::{
    Answer, InstanceHandle, InstanceStateKind, LivelinessChangedStatus, Places, Refusal, State,
};

const SAMPLE: &[u8] = include_bytes!("../../../oracle/lists/sample.bin");

fn number<const N: usize>(b: &[u8], at: usize) -> u64 {
    b[at..at + N].iter().fold(0, |n, byte| n << 8 | u64::from(*byte))
}

fn signed(b: &[u8], at: usize) -> i32 {
    number::<4>(b, at) as u32 as i32
}

/// 64-bit FNV-1a.
fn digest(bytes: &[u8]) -> u64 {
    let fold = |h: u64, b: &u8| (h ^ u64::from(*b)).wrapping_mul(0x0100_0000_01b3);
    bytes.iter().fold(0xcbf2_9ce4_8422_2325, fold)
}

/// The answer of 72 recorded bytes.
fn answer(b: &[u8]) -> Answer {
    Answer {
        outcome: b[1],
        yes: b[2] == 1,
        present: b[3] == 1,
        view_new: b[4] == 1,
        kind: match b[5] {
            0 => InstanceStateKind::Alive,
            1 => InstanceStateKind::NotAliveDisposed,
            _ => InstanceStateKind::NotAliveNoWriters,
        },
        next_due: (b[6] == 1).then(|| number::<8>(b, 56)),
        handle: InstanceHandle::from_raw(number::<8>(b, 8)),
        samples: number::<4>(b, 16) as u32,
        disposed_generation_count: signed(b, 20),
        no_writers_generation_count: signed(b, 24),
        count: number::<4>(b, 28) as u32,
        listed: number::<4>(b, 32) as u32,
        status: LivelinessChangedStatus {
            alive_count: signed(b, 36),
            not_alive_count: signed(b, 40),
            alive_count_change: signed(b, 44),
            not_alive_count_change: signed(b, 48),
            last_publication_handle: InstanceHandle::from_raw(number::<8>(b, 64)),
        },
    }
}

/// Head and buffers of a list, which its records may also damage.
struct Bytes {
    head: [u8; 64],
    pens: Vec<u8>,
    writers: [u8; 5_120],
    lost: [u8; 4_096],
}

impl Bytes {
    fn of(state: &State) -> Self {
        let (head, pens, writers, lost) = state.parts();
        Self { head: *head, pens: pens.to_vec(), writers: *writers, lost: *lost }
    }

    fn buffer(&mut self, which: u8) -> &mut [u8] {
        match which {
            0 => &mut self.pens,
            1 => &mut self.writers,
            _ => &mut self.lost,
        }
    }

    /// The refusal, where they are damaged.
    fn state(&self) -> Result<State, Refusal> {
        State::from_parts(&self.head, &self.pens, &self.writers, &self.lost)
    }
}

/// What became of a recorded call.
#[derive(PartialEq, Eq)]
enum Tried {
    /// Made, and all of it is as recorded.
    Made,
    /// Not made: its state is damaged, and `from_parts` refuses it.
    Damaged,
    /// Not made: its lengths are others.
    OtherLengths,
}

/// Whether the lengths of sheet, Out, pens, writers and Lost are those of a state with so many places.
fn stated(places: Places, b: &[u8]) -> bool {
    let pens = places.pens_bytes() as u64;
    let [sheet, out, writers, lost] = [0, 2, 8, 10].map(|at| number::<2>(b, at));
    [sheet, out, number::<4>(b, 4), writers, lost] == [256, 4_096, pens, 5_120, 4_096]
}

fn call(list: &mut List, b: &[u8]) -> Tried {
    if !stated(list.places, b) {
        return Tried::OtherLengths;
    }
    let sheet: &[u8; 256] = b[184..440].try_into().expect("256 bytes");
    let recorded = Refusal::from_number(b[48]);
    let state = match &mut list.state {
        Ok(state) => state,
        Err(refusal) => {
            // Damaged, so there is no state to call. An unknown code is refused before that is looked at.
            let code = *refusal == Refusal::NotWellFormed && recorded == Some(Refusal::UnknownCode);
            assert!(code || recorded == Some(*refusal), "{refusal}, recorded {recorded:?}");
            return Tried::Damaged;
        }
    };
    let made = state.raw_call(sheet);
    assert_eq!(made, recorded.map_or_else(|| Ok(answer(&b[48..120])), Err));
    let (head, pens, writers, lost) = state.parts();
    assert_eq!(head[..], b[120..184]);
    let digests = [digest(pens), digest(writers), digest(lost)];
    assert_eq!(digests, [24, 32, 40].map(|at| number::<8>(b, at)));
    let listed = number::<2>(b, 14) as usize;
    assert_eq!(state.out()[..listed], b[440..440 + listed]);
    Tried::Made
}

/// What the records make of a list: its places, its bytes, and the state where they are not damaged.
struct List {
    places: Places,
    bytes: Bytes,
    state: Result<State, Refusal>,
}

impl List {
    fn fresh(places: Places) -> Self {
        let state = State::with_places(places);
        Self { places, bytes: Bytes::of(&state), state: Ok(state) }
    }

    /// Puts something into the bytes.
    fn put(&mut self, put: impl FnOnce(&mut Bytes)) {
        if let Ok(state) = &self.state {
            self.bytes = Bytes::of(state);
        }
        put(&mut self.bytes);
        self.state = self.bytes.state();
    }
}

#[test]
fn recorded_lists() {
    let mut list = List::fresh(Places::Large);
    let (mut at, mut tried, mut begun) = (0, Vec::new(), [0; 2]);
    while at < SAMPLE.len() {
        let length = number::<4>(SAMPLE, at + 4) as usize;
        let body = &SAMPLE[at + 8..at + 8 + length];
        match SAMPLE[at] {
            1 => assert_eq!(number::<4>(body, 0), 2, "the version"),
            2 => {
                let places = Places::from_count(number::<2>(body, 6) as usize);
                list = List::fresh(places.expect("32 or 128"));
                begun[list.places as usize] += 1;
            }
            3 => {
                let from = number::<4>(body, 4) as usize;
                let place = from..from + body.len() - 8;
                list.put(|bytes| bytes.buffer(body[0])[place].copy_from_slice(&body[8..]));
            }
            4 => list.put(|bytes| bytes.head.copy_from_slice(body)),
            5 => tried.push(call(&mut list, body)),
            _ => {}
        }
        at += 8 + length;
    }
    let count = |which: Tried| tried.iter().filter(|one| **one == which).count();
    let [made, damaged, other] = [Tried::Made, Tried::Damaged, Tried::OtherLengths].map(count);
    println!(
        "{made} calls as recorded; not made: {damaged} on damaged states, {other} of other lengths"
    );
    assert!(made > 3_000 && tried.len() as u64 == number::<4>(SAMPLE, 16));
    assert!(begun.iter().all(|lists| *lists > 10), "lists of 32 and of 128 places: {begun:?}");
}
