//! A save that is cut at any byte loads as the old state or the new one, never as anything else; a damaged slot is named and
//! the other one taken; none whole is an error. Of states of either size.

use dcps::keep::{area_bytes, slot_bytes, Area, KeepError, Keeper, Loaded, TooShort};
use dcps::{Places, Sample, State, Time};
use std::convert::Infallible;

/// Notes what is written, byte by byte, and writes nothing.
#[derive(Default)]
struct Journal {
    area: Vec<u8>,
    written: Vec<(usize, u8)>,
}

impl Area for &mut Journal {
    type Error = Infallible;

    fn read(&mut self, at: usize, bytes: &mut [u8]) -> Result<(), Infallible> {
        bytes.copy_from_slice(&self.area[at..at + bytes.len()]);
        Ok(())
    }

    fn write(&mut self, at: usize, bytes: &[u8]) -> Result<(), Infallible> {
        self.written.extend((at..).zip(bytes.iter().copied()));
        Ok(())
    }

    fn sync(&mut self) -> Result<(), Infallible> {
        Ok(())
    }
}

/// Three states, each a sample after the other.
fn states(places: Places) -> [State; 3] {
    let mut state = State::with_places(places);
    [4, 9, 1].map(|key| {
        let time = Time { sec: key.into(), nanosec: 0 };
        state.admit(&Sample::new([key; 16], [7; 16], time)).expect("there is room");
        state.clone()
    })
}

fn load(area: &mut [u8], state: &mut State) -> Result<Loaded, KeepError<TooShort>> {
    Keeper::new(area).load(state)
}

fn cut_at_every_byte(places: Places) {
    let ([first, second, third], slot) = (states(places), slot_bytes(places));
    let mut area = vec![0; area_bytes(places)];
    let mut keeper = Keeper::new(&mut area[..]);
    keeper.start(&first).expect("memory");
    keeper.save(&second).expect("memory");
    let mut journal = Journal { area: area.clone(), written: Vec::new() };
    let mut state = State::with_places(places);
    let mut cutting = Keeper::new(&mut journal);
    cutting.load(&mut state).expect("whole");
    cutting.save(&third).expect("nothing is written");
    assert_eq!(journal.written.len(), slot);
    for cut in 0..=slot {
        let loaded = load(&mut area, &mut state).expect("a slot is whole");
        let old = state == second && (loaded.slot, loaded.sequence) == (1, 2);
        let new = state == third && (loaded.slot, loaded.sequence) == (0, 3);
        assert!(old || new, "cut at {cut}");
        assert!(new || cut < slot && old);
        if let Some((at, byte)) = journal.written.get(cut) {
            area[*at] = *byte;
        }
    }
}

#[test]
fn a_cut_at_every_byte() {
    Places::ALL.into_iter().for_each(cut_at_every_byte);
}

fn damage(places: Places) {
    let ([first, second, _], slot) = (states(places), slot_bytes(places));
    let (mut area, mut state) = (vec![0; area_bytes(places)], State::with_places(places));
    assert_eq!(load(&mut area, &mut state), Err(KeepError::NoneWhole { damaged: [false; 2] }));
    let mut keeper = Keeper::new(&mut area[..]);
    keeper.start(&first).expect("memory");
    keeper.save(&second).expect("memory");
    // Byte 95 is the last of the head's number of places.
    for (at, damaged) in [(70, 0), (95, 0), (slot - 1, 0), (9, 0), (slot + 17, 1), (slot + 95, 1)] {
        for bit in 0..8 {
            area[at] ^= 1 << bit;
            let loaded = load(&mut area, &mut state).expect("the other is whole");
            assert_eq!((loaded.slot, loaded.damaged), (1 - damaged, Some(damaged)));
            assert!(state == [&second, &first][damaged].clone());
            area[at] ^= 1 << bit;
        }
    }
    area[70] ^= 1;
    area[slot + 70] ^= 1;
    let none = load(&mut area, &mut state).expect_err("neither is whole");
    assert_eq!(none, KeepError::NoneWhole { damaged: [true; 2] });
    assert!(none.to_string().starts_with("neither slot is whole"));
    assert!(state == State::with_places(places));
    let short = &mut area[..2 * slot - 1];
    assert_eq!(load(short, &mut state), Err(KeepError::Area(TooShort)));
    assert!(state == State::with_places(places));
    assert_eq!(Keeper::new(&mut [][..]).start(&state), Err(KeepError::Area(TooShort)));
}

#[test]
fn damage_is_named() {
    Places::ALL.into_iter().for_each(damage);
}

/// An area keeps states of one size; what one of the other size left in it is not loaded.
#[test]
fn of_one_size() {
    for (own, other) in SIZES {
        let ([first, second, third], [strange, ..]) = (states(own), states(other));
        let mut area = vec![0; area_bytes(Places::Large)];
        let mut keeper = Keeper::new(&mut area[..]);
        assert_eq!(keeper.places(), Ok(None));
        keeper.start(&first).expect("memory");
        keeper.save(&second).expect("memory");
        assert_eq!(keeper.places(), Ok(Some(own)));
        assert_eq!(keeper.save(&strange), Err(KeepError::OtherPlaces));
        let mut loaded = State::with_places(other);
        assert_eq!(keeper.load(&mut loaded), Err(KeepError::OtherPlaces));
        assert!(loaded == State::with_places(other));
        keeper.save(&third).expect("memory");
        // Given up for one of the other size, in which the slots of the first still lie; also where the new one is damaged.
        keeper.start(&strange).expect("memory");
        assert_eq!(keeper.places(), Ok(Some(other)));
        assert_eq!(load(&mut area, &mut State::with_places(own)), Err(KeepError::OtherPlaces));
        assert!(load(&mut area, &mut loaded).is_ok() && loaded == strange);
        area[FIGURE..][..2].fill(0);
        assert_eq!(Keeper::new(&mut area[..]).places(), Ok(None));
        for places in Places::ALL {
            let none = load(&mut area, &mut State::with_places(places));
            assert_eq!(none, Err(KeepError::NoneWhole { damaged: [true, false] }));
        }
    }
}

/// Where slot 0 has the head's number of places.
const FIGURE: usize = 64 + 30;
const SIZES: [(Places, Places); 2] =
    [(Places::Small, Places::Large), (Places::Large, Places::Small)];

/// The first two states in an area of its own length.
fn kept(places: Places) -> Vec<u8> {
    let ([first, second, _], mut area) = (states(places), vec![0; area_bytes(places)]);
    let mut keeper = Keeper::new(&mut area[..]);
    keeper.start(&first).expect("memory");
    keeper.save(&second).expect("memory");
    area
}

/// A new keeper that was refused a load of the other size refuses the save too, and the area is as it was.
#[test]
fn a_save_after_a_refused_load() {
    for (own, other) in SIZES {
        let (mut area, mut strange) = (kept(own), State::with_places(other));
        let before = area.clone();
        let mut keeper = Keeper::new(&mut area[..]);
        assert_eq!(keeper.load(&mut strange), Err(KeepError::OtherPlaces));
        assert_eq!(keeper.save(&strange), Err(KeepError::OtherPlaces));
        assert!(area == before);
    }
}

/// One damaged number of places in slot 0 costs that slot alone, and with both damaged nothing is told.
#[test]
fn damaged_places() {
    for (own, other) in SIZES {
        let ([_, second, _], mut state) = (states(own), State::with_places(own));
        for figure in [0, 32, 128, 33, 160, u16::MAX] {
            let mut area = kept(own);
            if usize::from(figure) == own.count() {
                continue;
            }
            area[FIGURE..][..2].copy_from_slice(&figure.to_be_bytes());
            assert_eq!(Keeper::new(&mut area[..]).places(), Ok(Some(own)));
            let loaded = load(&mut area, &mut state).expect("slot 1 is whole");
            assert!((loaded.slot, loaded.damaged) == (1, Some(0)) && state == second);
            let refused = load(&mut area, &mut State::with_places(other));
            assert_eq!(refused, Err(KeepError::OtherPlaces));
            area[slot_bytes(own) + 5_000] ^= 1;
            assert_eq!(Keeper::new(&mut area[..]).places(), Ok(None));
            let none = load(&mut area, &mut state);
            assert_eq!(none, Err(KeepError::NoneWhole { damaged: [true; 2] }));
        }
    }
}

/// An area that is too short for two slots is not started, and stays as it was.
#[test]
fn too_short_to_start() {
    let mut area = kept(Places::Small);
    let before = area.clone();
    assert_eq!(Keeper::new(&mut area[..]).start(&State::new()), Err(KeepError::Area(TooShort)));
    assert!(area == before);
}

/// The checksum of a slot: of its sequence number and its state.
fn sum(slot: &[u8]) -> u64 {
    let (words, _) = slot.as_chunks::<8>();
    words[1..2].iter().chain(&words[8..]).fold(0, |sum: u64, word| {
        let mixed = (sum ^ u64::from_be_bytes(*word)).wrapping_mul(0x9e37_79b9_7f4a_7c15);
        mixed ^ mixed >> 32
    })
}

/// An area from before heads had the number of places loads, and what is saved next has it.
#[test]
fn a_head_from_before() {
    let [first, second, third] = states(Places::Large);
    let mut area = vec![0; area_bytes(Places::Large)];
    let mut keeper = Keeper::new(&mut area[..]);
    keeper.start(&first).expect("memory");
    keeper.save(&second).expect("memory");
    for slot in area.chunks_exact_mut(slot_bytes(Places::Large)) {
        slot[94..96].fill(0);
        let sum = sum(slot);
        slot[16..24].copy_from_slice(&sum.to_be_bytes());
    }
    let mut state = State::new();
    let mut keeper = Keeper::new(&mut area[..]);
    assert_eq!(keeper.places(), Ok(Some(Places::Large)));
    let small = keeper.load(&mut State::with_places(Places::Small));
    assert_eq!(small, Err(KeepError::OtherPlaces));
    let loaded = keeper.load(&mut state).expect("whole");
    assert_eq!((loaded.sequence, loaded.damaged), (2, None));
    assert!(state == second);
    keeper.save(&third).expect("memory");
    assert!(load(&mut area, &mut state).is_ok() && state == third);
    // The other slot is still from before.
    area[70] ^= 1;
    assert_eq!(load(&mut area, &mut state).map(|loaded| loaded.damaged), Ok(Some(0)));
    assert!(state == second);
}

#[test]
fn a_file() -> Result<(), Box<dyn std::error::Error>> {
    for places in Places::ALL {
        let [first, second, _] = states(places);
        let path = std::path::Path::new(env!("CARGO_TARGET_TMPDIR")).join("kept.bin");
        let _ = std::fs::remove_file(&path);
        let open = || {
            let mut options = std::fs::OpenOptions::new();
            options.read(true).write(true).create(true).truncate(false).open(&path)
        };
        let mut keeper = Keeper::new(open()?);
        keeper.start(&first)?;
        keeper.save(&second)?;
        let mut keeper = Keeper::new(open()?);
        let mut state = State::with_places(keeper.places()?.unwrap_or_default());
        let loaded = keeper.load(&mut state)?;
        assert!(state == second && loaded.sequence == 2);
    }
    Ok(())
}
