//! Persists a state, so that it outlives the process: two slots, each with a sequence number and a checksum.
//!
//! A call is not atomic. If a process ends in the middle of a call, the bytes may be well formed and still wrong.
//! Here the calls are made on a state in memory. After the answer, [`Keeper::save`] writes the state to the older
//! slot: first the state's bytes, then, when they are synced, the slot's header. If the process ends during that, the
//! other slot is whole. So [`Keeper::load`] gives the state of the last save that ended, or of the one that was cut
//! off, and never anything else.
//!
//! The area has the layout of examples/c/dcps_keep.h. It keeps states of one size; [`Keeper::places`] tells which,
//! from any whole slot, and [`Keeper::start`] can change it. The checksum finds a write that was cut off, not one
//! that was forged.
//!
#![cfg_attr(feature = "alloc", doc = "```")]
#![cfg_attr(not(feature = "alloc"), doc = "```ignore")]
//! use dcps::keep::{KeepError, Keeper, AREA_BYTES};
//! use dcps::State;
//!
//! let mut area = vec![0; AREA_BYTES];
//! let mut keeper = Keeper::new(&mut area[..]);
//! let mut state = State::new();
//! match keeper.load(&mut state) {
//!     Ok(_) => {}
//!     // Nothing was kept.
//!     Err(KeepError::NoneWhole { damaged: [false, false] }) => keeper.start(&state)?,
//!     // `keeper.places()` tells how many; the area stays as it is.
//!     Err(KeepError::OtherPlaces) => return Err(KeepError::OtherPlaces),
//!     Err(error) => return Err(error),
//! }
//! state.register([1; 16], b"serial 1", None).expect("there is room");
//! keeper.save(&state)?;
//!
//! let mut again = State::new();
//! let loaded = Keeper::new(&mut area[..]).load(&mut again)?;
//! assert_eq!((again, loaded.sequence, loaded.damaged), (state, 2, None));
//! # Ok::<(), KeepError<dcps::keep::TooShort>>(())
//! ```

use crate::layout::{put, u64_at, HEAD_BYTES, LOST_BYTES, WRITERS_BYTES};
use crate::state::{Buffers, Seen};
use crate::{carry_head, InstanceHandle, Places, State};
use core::fmt;

const HEADER_BYTES: usize = 64;
const MAGIC: &[u8; 8] = b"dcpskeep";

/// The length of a slot, with 128 places.
pub const SLOT_BYTES: usize = slot_bytes(Places::Large);
/// The length of an area, with 128 places.
pub const AREA_BYTES: usize = area_bytes(Places::Large);

/// The length of a slot, with this number of places.
#[must_use]
pub const fn slot_bytes(places: Places) -> usize {
    HEADER_BYTES + HEAD_BYTES + places.pens_bytes() + WRITERS_BYTES + LOST_BYTES
}

/// The length of an area, with this number of places.
#[must_use]
pub const fn area_bytes(places: Places) -> usize {
    2 * slot_bytes(places)
}

/// What an area is stored in.
pub trait Area {
    /// Why it could not be read, written or synced.
    type Error;
    /// Reads bytes. Bytes that were never written are zeros. Beyond the end of the area, where a state of the larger
    /// size is looked for, it gives an error or zeros.
    fn read(&mut self, at: usize, bytes: &mut [u8]) -> Result<(), Self::Error>;
    /// Writes bytes.
    fn write(&mut self, at: usize, bytes: &[u8]) -> Result<(), Self::Error>;
    /// Returns when what was written will survive.
    fn sync(&mut self) -> Result<(), Self::Error>;
}

/// An area in memory that is shorter than [`area_bytes`].
#[derive(Debug, Clone, Copy, PartialEq, Eq)]
pub struct TooShort;

impl fmt::Display for TooShort {
    fn fmt(&self, f: &mut fmt::Formatter<'_>) -> fmt::Result {
        f.write_str("the area is too short for two slots")
    }
}

impl core::error::Error for TooShort {}

/// Memory that is shared, mapped or battery-backed. If it needs more than a store to be safe, the caller has to sync
/// it.
impl Area for &mut [u8] {
    type Error = TooShort;

    fn read(&mut self, at: usize, bytes: &mut [u8]) -> Result<(), TooShort> {
        bytes.copy_from_slice(self.get(at..at + bytes.len()).ok_or(TooShort)?);
        Ok(())
    }

    fn write(&mut self, at: usize, bytes: &[u8]) -> Result<(), TooShort> {
        self.get_mut(at..at + bytes.len()).ok_or(TooShort)?.copy_from_slice(bytes);
        Ok(())
    }

    fn sync(&mut self) -> Result<(), TooShort> {
        core::sync::atomic::fence(core::sync::atomic::Ordering::SeqCst);
        Ok(())
    }
}

/// A file that is open for reading and writing.
#[cfg(feature = "std")]
impl Area for std::fs::File {
    type Error = std::io::Error;

    fn read(&mut self, at: usize, bytes: &mut [u8]) -> Result<(), Self::Error> {
        use std::io::{Read, Seek, SeekFrom};
        self.seek(SeekFrom::Start(at as u64))?;
        let mut done = 0;
        while done < bytes.len() {
            match Read::read(self, &mut bytes[done..])? {
                0 => break,
                more => done += more,
            }
        }
        bytes[done..].fill(0);
        Ok(())
    }

    fn write(&mut self, at: usize, bytes: &[u8]) -> Result<(), Self::Error> {
        use std::io::{Seek, SeekFrom, Write};
        self.seek(SeekFrom::Start(at as u64))?;
        self.write_all(bytes)
    }

    fn sync(&mut self) -> Result<(), Self::Error> {
        self.sync_all()
    }
}

/// What was loaded.
#[derive(Debug, Clone, Copy, PartialEq, Eq)]
pub struct Loaded {
    /// The slot, 0 or 1.
    pub slot: usize,
    /// The number of its save, from 1.
    pub sequence: u64,
    /// The other slot, if it is damaged. A slot that was never written is not damaged.
    pub damaged: Option<usize>,
}

/// Why a state was not loaded or saved.
#[derive(Debug, Clone, Copy, PartialEq, Eq)]
pub enum KeepError<E> {
    /// Neither slot is whole.
    NoneWhole {
        /// Which slots are damaged. A slot that was never written is not damaged.
        damaged: [bool; 2],
    },
    /// The area keeps states with another number of places.
    OtherPlaces,
    /// The area could not be read, written or synced.
    Area(E),
}

impl<E> From<E> for KeepError<E> {
    fn from(error: E) -> Self {
        Self::Area(error)
    }
}

impl<E: fmt::Display> fmt::Display for KeepError<E> {
    fn fmt(&self, f: &mut fmt::Formatter<'_>) -> fmt::Result {
        match self {
            Self::NoneWhole { .. } => {
                f.write_str("neither slot is whole: start from a fresh state or from a copy")
            }
            Self::OtherPlaces => f.write_str("the area keeps states of another number of places"),
            Self::Area(error) => error.fmt(f),
        }
    }
}

impl<E: fmt::Debug + fmt::Display> core::error::Error for KeepError<E> {}

/// An area, and which of its slots is the newest whole one.
#[derive(Debug)]
pub struct Keeper<A> {
    area: A,
    places: Option<Places>,
    slot: usize,
    sequence: u64,
}

enum Slot {
    Whole(u64),
    Empty,
    Damaged,
}

impl<A: Area> Keeper<A> {
    /// Of an area. Load it or start it next.
    pub fn new(area: A) -> Self {
        Self { area, places: None, slot: 1, sequence: 0 }
    }

    /// The number of places of the states that the area keeps, which a state needs to load one; `None` if no slot is
    /// whole.
    pub fn places(&mut self) -> Result<Option<Places>, A::Error> {
        self.area.read(0, &mut [0; HEADER_BYTES])?;
        Ok(self.kept())
    }

    /// By slot 0; if that is not whole, by slot 1 of either size.
    fn kept(&mut self) -> Option<Places> {
        if let Some(places) = self.told(0) {
            return Some(places);
        }
        let slot_1 = |places: &Places| self.told(slot_bytes(*places)) == Some(*places);
        Places::ALL.into_iter().find(slot_1)
    }

    /// The number of places of the slot that begins here, by its own head, after [`carry_head`]. It counts only if
    /// the slot is whole at that length: one damaged bit can make 32 to 0, and `carry_head` makes 128 of 0. A slot
    /// that cannot be read, as one beyond the end of the area, gives `None`.
    fn told(&mut self, begin: usize) -> Option<Places> {
        let (mut header, mut head) = ([0; HEADER_BYTES], [0; HEAD_BYTES]);
        self.area.read(begin, &mut header).ok()?;
        self.area.read(begin + HEADER_BYTES, &mut head).ok()?;
        carry_head(&mut head);
        let places = Places::of_head(&head)?;
        let sum = self.sum_at(begin, marked(&header)?, places).ok()?;
        (sum == u64_at(&header, 16)).then_some(places)
    }

    /// The checksum of a slot, if there is no state to read it into.
    fn sum_at(&mut self, begin: usize, sequence: u64, places: Places) -> Result<u64, A::Error> {
        let (mut at, end) = (begin + HEADER_BYTES, begin + slot_bytes(places));
        let (mut some, mut sum) = ([0; 512], folded(0, &sequence.to_be_bytes()));
        while at < end {
            let length = some.len().min(end - at);
            self.area.read(at, &mut some[..length])?;
            sum = folded(sum, &some[..length]);
            at += length;
        }
        Ok(sum)
    }

    /// Writes the state to the older slot. On an error the newest whole slot stays, and you can save again. The state
    /// has to have as many places as the one that was loaded or started with.
    pub fn save<B: Buffers>(&mut self, state: &State<B>) -> Result<(), KeepError<A::Error>> {
        let (slot, sequence, seen) = (1 - self.slot, self.sequence + 1, state.seen());
        let places = state.places();
        if self.places.is_some_and(|kept| kept != places) {
            return Err(KeepError::OtherPlaces);
        }
        let begin = slot * slot_bytes(places);
        let mut at = begin + HEADER_BYTES;
        for part in parts(&seen) {
            self.area.write(at, part)?;
            at += part.len();
        }
        self.area.sync()?;
        let mut header = [0; HEADER_BYTES];
        put(&mut header, 0, MAGIC);
        put(&mut header, 8, &sequence.to_be_bytes());
        put(&mut header, 16, &sum(sequence, &seen).to_be_bytes());
        self.area.write(begin, &header)?;
        self.area.sync()?;
        (self.places, self.slot, self.sequence) = (Some(places), slot, sequence);
        Ok(())
    }

    /// Starts a new area, or gives up what an area keeps, whatever its number of places: no slot of either size stays
    /// whole. Then it saves the state.
    pub fn start<B: Buffers>(&mut self, state: &State<B>) -> Result<(), KeepError<A::Error>> {
        // An area that is too short is left as it is.
        self.area.read(area_bytes(state.places()) - 1, &mut [0])?;
        for places in Places::ALL {
            // One that cannot be read, as behind the end of the area, cannot be loaded either.
            let mut header = [0; HEADER_BYTES];
            let read = self.area.read(slot_bytes(places), &mut header);
            if read.is_ok() && header != [0; HEADER_BYTES] {
                self.area.write(slot_bytes(places), &[0; HEADER_BYTES])?;
            }
        }
        self.area.write(0, &[0; HEADER_BYTES])?;
        self.area.sync()?;
        (self.places, self.slot, self.sequence) = (None, 1, 0);
        self.save(state)
    }

    /// Loads the newest slot that is whole: its checksum fits, and the library accepts its state. A head that version
    /// 0.2 or an earlier one stored is converted ([`carry_head`]). On an error the state is a fresh one.
    pub fn load<B: Buffers>(
        &mut self,
        state: &mut State<B>,
    ) -> Result<Loaded, KeepError<A::Error>> {
        let loaded = self.load_newest(state);
        if loaded.is_err() {
            state.make_fresh();
        }
        loaded
    }

    fn load_newest<B: Buffers>(
        &mut self,
        state: &mut State<B>,
    ) -> Result<Loaded, KeepError<A::Error>> {
        let kept = self.kept();
        if kept.is_some_and(|kept| kept != state.places()) {
            // So that a save of this size is refused too.
            self.places = kept;
            return Err(KeepError::OtherPlaces);
        }
        let slots = [self.try_slot(0, state)?, self.try_slot(1, state)?];
        let sequence = |slot: &Slot| if let Slot::Whole(number) = slot { *number } else { 0 };
        let [first, second] = [sequence(&slots[0]), sequence(&slots[1])];
        let damaged = slots.map(|slot| matches!(slot, Slot::Damaged));
        let slot = usize::from(second > first);
        // Slot 1 was read last; slot 0 is read once more where it is the newest.
        if first.max(second) == 0
            || slot == 0 && !matches!(self.try_slot(0, state)?, Slot::Whole(_))
        {
            return Err(KeepError::NoneWhole { damaged });
        }
        (self.places, self.slot, self.sequence) = (Some(state.places()), slot, first.max(second));
        let damaged = damaged[1 - slot].then_some(1 - slot);
        Ok(Loaded { slot, sequence: self.sequence, damaged })
    }

    fn try_slot<B: Buffers>(
        &mut self,
        slot: usize,
        state: &mut State<B>,
    ) -> Result<Slot, A::Error> {
        let begin = slot * slot_bytes(state.places());
        let mut header = [0; HEADER_BYTES];
        self.area.read(begin, &mut header)?;
        if header == [0; HEADER_BYTES] {
            return Ok(Slot::Empty);
        }
        let Some(sequence) = marked(&header) else {
            return Ok(Slot::Damaged);
        };
        let mut at = begin + HEADER_BYTES;
        let lent = state.lent();
        for part in
            [&mut lent.head[..], &mut lent.pens[..], &mut lent.writers[..], &mut lent.lost[..]]
        {
            self.area.read(at, part)?;
            at += part.len();
        }
        let fits = u64_at(&header, 16) == sum(sequence, &state.seen());
        carry_head(state.lent().head);
        let whole = fits && state.mark_view_seen(InstanceHandle::NIL).is_ok();
        Ok(if whole { Slot::Whole(sequence) } else { Slot::Damaged })
    }

    /// The area.
    pub fn into_area(self) -> A {
        self.area
    }
}

fn parts<'a>(seen: &Seen<'a>) -> [&'a [u8]; 4] {
    [seen.head, seen.pens, seen.writers, seen.lost]
}

/// The sequence number of a header that has the form which a save writes, whatever its checksum is.
fn marked(header: &[u8; HEADER_BYTES]) -> Option<u64> {
    let sequence = u64_at(header, 8);
    let zeros = header[24..].iter().all(|byte| *byte == 0);
    (header[..8] == MAGIC[..] && sequence != 0 && zeros).then_some(sequence)
}

/// Over the sequence number and the state, so that a slot with the number of another one is not whole.
fn sum(sequence: u64, seen: &Seen<'_>) -> u64 {
    parts(seen).into_iter().fold(folded(0, &sequence.to_be_bytes()), folded)
}

fn folded(sum: u64, bytes: &[u8]) -> u64 {
    bytes.as_chunks().0.iter().fold(sum, |sum, word| {
        let mixed = (sum ^ u64::from_be_bytes(*word)).wrapping_mul(0x9e37_79b9_7f4a_7c15);
        mixed ^ mixed >> 32
    })
}
