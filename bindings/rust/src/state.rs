//! The state of both trackers: head and buffers, owned or borrowed.

use crate::ffi;
use crate::layout::{array_at, guids, handles, i32_at, u32_at, u64_at, ANSWER_BYTES, GUID_BYTES};
use crate::{Answer, InstanceHandle, Places, Refusal, Sheet};
use core::fmt;
#[cfg(feature = "alloc")]
use {
    crate::layout::{HEAD_BYTES, LOST_BYTES, OUT_BYTES, WRITERS_BYTES},
    crate::Vec,
    alloc::boxed::Box,
};

/// The instances and the writers of one reader.
///
/// Calls take `&mut self`; ZeroDDS has a lock inside. To share a state, put it behind a lock, as
/// [`InstanceTracker`](crate::InstanceTracker) does. A refused call leaves the state as it was.
///
/// It has places for 128 instances or for 32 ([`Places`]). It owns its bytes, on the heap ([`State::new`],
/// [`State::with_places`]), or borrows them ([`State::fresh_over`], [`State::over`]).
///
/// ```
/// use dcps::{InstanceStateKind, State, Time};
///
/// let mut state = State::new();
/// let handle = state.register(*b"pen-01          ", Vec::new(), None)?;
/// state.note_writer(handle, [1; 16])?;
/// state.drop_writer(&[1; 16], Some(Time { sec: 9, nanosec: 0 }))?;
/// let pen = state.get_by_handle(handle).expect("it is registered");
/// assert_eq!(pen.kind, InstanceStateKind::NotAliveNoWriters);
/// # Ok::<(), dcps::Refusal>(())
/// ```
#[cfg(feature = "alloc")]
#[derive(Clone)]
pub struct State<B = Owned> {
    buffers: B,
}

/// The instances and the writers of one reader, over borrowed bytes ([`State::fresh_over`], [`State::over`]).
#[cfg(not(feature = "alloc"))]
pub struct State<B> {
    buffers: B,
}

/// The borrowed bytes of a state, and out. Out is not part of the state: it has the list of the latest call that had
/// one.
///
/// ```
/// use dcps::{Lent, Places, Sheet, State};
///
/// let (mut head, mut pens, mut writers) = ([0; 64], [0; 16_384], [0; 5_120]);
/// let (mut lost, mut out) = ([0; 4_096], [0; 4_096]);
/// let (writers, lost, out) = (&mut writers, &mut lost, &mut out);
/// // Pens of 65,536 bytes would be places for 128 instances.
/// let mut state = State::fresh_over(Lent { head: &mut head, pens: &mut pens, writers, lost, out })?;
/// state.call(&Sheet::register(&[1; 16], b"serial 1", None))?;
/// assert_eq!((state.len(), state.places()), (1, Places::Small));
/// # Ok::<(), dcps::Refusal>(())
/// ```
#[derive(Debug)]
pub struct Lent<'a> {
    /// The head: counts, next handle, number of places.
    pub head: &'a mut [u8; 64],
    /// The instances' records: 16,384 bytes or 65,536.
    pub pens: &'a mut [u8],
    /// The writers' records.
    pub writers: &'a mut [u8; 5_120],
    /// The writers that expired and were not taken yet.
    pub lost: &'a mut [u8; 4_096],
    /// Where lists go.
    pub out: &'a mut [u8; 4_096],
}

/// The same, to read only.
#[derive(Debug, Clone, Copy)]
pub struct Seen<'a> {
    /// The head.
    pub head: &'a [u8; 64],
    /// The instances' records: 16,384 bytes or 65,536.
    pub pens: &'a [u8],
    /// The writers' records.
    pub writers: &'a [u8; 5_120],
    /// The writers that expired and were not taken yet.
    pub lost: &'a [u8; 4_096],
    /// The list of the latest call that had one.
    pub out: &'a [u8; 4_096],
}

/// What a [`State`] keeps its bytes in: [`Owned`] or [`Lent`].
pub trait Buffers: sealed::Sealed {
    /// The bytes, for a call.
    fn lent(&mut self) -> Lent<'_>;
    /// The bytes, for a read.
    fn seen(&self) -> Seen<'_>;
}

mod sealed {
    pub trait Sealed {}
    impl Sealed for super::Lent<'_> {}
    #[cfg(feature = "alloc")]
    impl Sealed for super::Owned {}
}

impl Buffers for Lent<'_> {
    fn lent(&mut self) -> Lent<'_> {
        let Lent { head, pens, writers, lost, out } = self;
        Lent { head, pens, writers, lost, out }
    }

    fn seen(&self) -> Seen<'_> {
        let Lent { head, pens, writers, lost, out } = self;
        Seen { head, pens, writers, lost, out }
    }
}

/// Bytes on the heap that a [`State`] owns: 78,912, or 29,760 with 32 places.
#[cfg(feature = "alloc")]
#[derive(Clone)]
pub struct Owned {
    pens: Box<[u8]>,
    others: Box<Others>,
}

/// The buffers whose length is always the same.
#[cfg(feature = "alloc")]
#[derive(Clone)]
struct Others {
    head: [u8; HEAD_BYTES],
    writers: [u8; WRITERS_BYTES],
    lost: [u8; LOST_BYTES],
    out: [u8; OUT_BYTES],
}

#[cfg(feature = "alloc")]
impl Owned {
    fn new(pens: Box<[u8]>) -> Self {
        let others = Others {
            head: [0; HEAD_BYTES],
            writers: [0; WRITERS_BYTES],
            lost: [0; LOST_BYTES],
            out: [0; OUT_BYTES],
        };
        Self { pens, others: Box::new(others) }
    }
}

#[cfg(feature = "alloc")]
impl Buffers for Owned {
    fn lent(&mut self) -> Lent<'_> {
        let Others { head, writers, lost, out } = &mut *self.others;
        Lent { head, pens: &mut self.pens, writers, lost, out }
    }

    fn seen(&self) -> Seen<'_> {
        let Others { head, writers, lost, out } = &*self.others;
        Seen { head, pens: &self.pens, writers, lost, out }
    }
}

/// The values in the head.
#[derive(Debug, Clone, Copy, PartialEq, Eq)]
#[non_exhaustive]
pub struct Head {
    /// Instances in the table.
    pub instance_count: u32,
    /// Writers with a record, departed ones included.
    pub writer_count: u32,
    /// Entries of lost.
    pub lost_count: u32,
    /// Writers that are alive.
    pub alive: u32,
    /// Writers that are not alive, departed ones included.
    pub not_alive: u32,
    /// How much `alive` has changed since it was acknowledged.
    pub alive_change: i32,
    /// How much `not_alive` has changed since it was acknowledged.
    pub not_alive_change: i32,
    /// The handle that the next new instance gets.
    pub next_handle: InstanceHandle,
    /// How often a writer moved between alive, not alive and neither, modulo 2^64.
    pub changes: u64,
    /// The writer that moved last.
    pub last_writer: Option<[u8; 16]>,
    /// The number of places for instances.
    pub places: Places,
}

#[cfg(feature = "alloc")]
impl State {
    /// A fresh state: no instances, no writers, next handle 1, places for 128 instances.
    ///
    /// ```
    /// let state = dcps::State::new();
    /// assert!(state.is_empty());
    /// assert_eq!(state.head().next_handle.as_raw(), 1);
    /// ```
    #[must_use]
    pub fn new() -> Self {
        Self::with_places(Places::Large)
    }

    /// A fresh state with this number of places for instances.
    ///
    /// ```
    /// use dcps::{Places, State};
    /// let state = State::with_places(Places::Small);
    /// assert_eq!((state.places().count(), state.parts().1.len()), (32, 16_384));
    /// ```
    #[must_use]
    pub fn with_places(places: Places) -> Self {
        let pens = alloc::vec![0; places.pens_bytes()];
        let mut state = Self { buffers: Owned::new(pens.into_boxed_slice()) };
        state.make_fresh();
        state
    }

    /// The state that these bytes hold, as [`Self::parts`] gave them. Refused as 3 if they are not well formed, and
    /// as 1 if the length of pens does not fit the head's number of places.
    ///
    /// A head that version 0.2 or an earlier one stored is refused as 3: call [`carry_head`](crate::carry_head)
    /// first.
    ///
    /// ```
    /// use dcps::{Refusal, State};
    ///
    /// let mut state = State::new();
    /// state.register([5; 16], Vec::new(), None)?;
    /// let (head, pens, writers, lost) = state.parts();
    /// let again = State::from_parts(head, pens, writers, lost)?;
    /// assert_eq!(again, state);
    /// assert_eq!(State::from_parts(&[0; 64], pens, writers, lost), Err(Refusal::NotWellFormed));
    /// # Ok::<(), dcps::Refusal>(())
    /// ```
    pub fn from_parts(
        head: &[u8; 64],
        pens: &[u8],
        writers: &[u8; 5_120],
        lost: &[u8; 4_096],
    ) -> Result<Self, Refusal> {
        let mut buffers = Owned::new(pens.into());
        let lent = buffers.lent();
        *lent.head = *head;
        *lent.writers = *writers;
        *lent.lost = *lost;
        Self { buffers }.judged()
    }
}

impl<'a> State<Lent<'a>> {
    /// Makes a fresh state in borrowed bytes, whatever they hold. The length of pens decides how many places it has;
    /// refused as 1 if it is neither that of 32 places nor that of 128.
    pub fn fresh_over(mut lent: Lent<'a>) -> Result<Self, Refusal> {
        match refusal(ffi::fresh(lent.lent())) {
            None => Ok(Self { buffers: lent }),
            Some(refusal) => Err(refusal),
        }
    }

    /// The state that borrowed bytes hold. Refused as 3 if they are not well formed, and as 1 if the length of pens
    /// does not fit the head's number of places.
    ///
    /// A call is not atomic. If a process ends in the middle of a call, the bytes may be well formed and still wrong.
    /// If you persist a state, use [`keep`](crate::keep).
    pub fn over(lent: Lent<'a>) -> Result<Self, Refusal> {
        Self { buffers: lent }.judged()
    }
}

impl<B: Buffers> State<B> {
    /// Every call tests the whole state, and this one changes nothing, because nil names no instance.
    fn judged(mut self) -> Result<Self, Refusal> {
        self.mark_view_seen(InstanceHandle::NIL)?;
        Ok(self)
    }

    /// The bytes of the head, the instances, the writers and lost, as include/dcps.h describes them.
    ///
    /// ```
    /// let state = dcps::State::new();
    /// let (head, pens, _, _) = state.parts();
    /// assert_eq!(head[39], 1);
    /// assert!(pens.iter().all(|byte| *byte == 0));
    /// ```
    #[must_use]
    pub fn parts(&self) -> (&[u8; 64], &[u8], &[u8; 5_120], &[u8; 4_096]) {
        let seen = self.seen();
        (seen.head, seen.pens, seen.writers, seen.lost)
    }

    /// Out: at its front is the list of the latest call that had one.
    ///
    /// ```
    /// let mut state = dcps::State::new();
    /// let handle = state.register([1; 16], Vec::new(), None)?;
    /// state.note_writer(handle, [2; 16])?;
    /// state.drop_writer(&[2; 16], None)?;
    /// assert_eq!(state.out()[..8], handle.as_raw().to_be_bytes());
    /// # Ok::<(), dcps::Refusal>(())
    /// ```
    #[must_use]
    pub fn out(&self) -> &[u8; 4_096] {
        self.seen().out
    }

    /// The number of places for instances.
    #[must_use]
    pub fn places(&self) -> Places {
        // The library took head and pens, so pens have one of two lengths.
        let small = self.seen().pens.len() == Places::Small.pens_bytes();
        if small {
            Places::Small
        } else {
            Places::Large
        }
    }

    /// The values in the head.
    ///
    /// ```
    /// let mut state = dcps::State::new();
    /// state.register([1; 16], Vec::new(), None)?;
    /// assert_eq!(state.head().instance_count, 1);
    /// # Ok::<(), dcps::Refusal>(())
    /// ```
    #[must_use]
    pub fn head(&self) -> Head {
        let b = &self.seen().head[..];
        Head {
            instance_count: u32_at(b, 0),
            writer_count: u32_at(b, 4),
            lost_count: u32_at(b, 8),
            alive: u32_at(b, 12),
            not_alive: u32_at(b, 16),
            alive_change: i32_at(b, 20),
            not_alive_change: i32_at(b, 24),
            next_handle: InstanceHandle::from_raw(u64_at(b, 32)),
            changes: u64_at(b, 40),
            last_writer: (b[29] != 0).then(|| array_at(b, 48)),
            places: self.places(),
        }
    }

    /// Makes it a fresh state with the same number of places.
    pub(crate) fn make_fresh(&mut self) {
        let number = ffi::fresh(self.buffers.lent());
        debug_assert_eq!(number, 0, "only lengths are refused");
    }

    /// Makes any call, by its sheet. Its list is in [`Self::out`].
    ///
    /// ```
    /// use dcps::{Sheet, State};
    ///
    /// let mut state = State::new();
    /// let handle = state.call(&Sheet::register(&[1; 16], b"", None))?.handle;
    /// state.call(&Sheet::note_writer(handle, &[2; 16]))?;
    /// let answer = state.call(&Sheet::part(&[2; 16], None))?;
    /// assert!(state.listed_handles(answer.listed).eq([handle]));
    /// # Ok::<(), dcps::Refusal>(())
    /// ```
    pub fn call(&mut self, sheet: &Sheet) -> Result<Answer, Refusal> {
        let (number, answer) = ffi::call(self.buffers.lent(), sheet.bytes());
        accepted(number, &answer)
    }

    /// Makes any call, by the 256 bytes of its sheet.
    ///
    /// ```
    /// use dcps::{Refusal, State};
    ///
    /// let mut state = State::new();
    /// let mut sheet = [0; 256];
    /// sheet[..6].copy_from_slice(b"pen-01");
    /// sheet[81] = 1; // register
    /// assert_eq!(state.raw_call(&sheet)?.handle.as_raw(), 1);
    /// sheet[81] = 22; // no call
    /// assert_eq!(state.raw_call(&sheet), Err(Refusal::UnknownCode));
    /// # Ok::<(), dcps::Refusal>(())
    /// ```
    pub fn raw_call(&mut self, sheet: &[u8; 256]) -> Result<Answer, Refusal> {
        self.call(&Sheet::from(*sheet))
    }

    /// The first handles of out; `listed` is that of the answer.
    pub fn listed_handles(&self, listed: u32) -> impl Iterator<Item = InstanceHandle> + '_ {
        handles(self.seen().out, listed)
    }

    /// The first GUIDs of out; `listed` is that of the answer.
    pub fn listed_guids(&self, listed: u32) -> core::slice::Iter<'_, [u8; GUID_BYTES]> {
        guids(self.seen().out, listed as usize).iter()
    }

    pub(crate) fn seen(&self) -> Seen<'_> {
        self.buffers.seen()
    }

    /// For the crate's own writes of the state: the next handle of a shared allocator, a loaded slot.
    #[allow(dead_code)]
    pub(crate) fn lent(&mut self) -> Lent<'_> {
        self.buffers.lent()
    }
}

/// The answer of a call, or its refusal.
pub(crate) fn accepted(number: u32, answer: &[u8; ANSWER_BYTES]) -> Result<Answer, Refusal> {
    match refusal(number) {
        None => Ok(Answer::from_bytes(answer)),
        Some(refusal) => Err(refusal),
    }
}

/// The refusal of a number that the library returned.
pub(crate) fn refusal(number: u32) -> Option<Refusal> {
    Refusal::from_number(u8::try_from(number).unwrap_or(u8::MAX))
}

#[cfg(feature = "alloc")]
impl Default for State {
    fn default() -> Self {
        Self::new()
    }
}

/// Out is not part of the state, so it is not compared.
impl<B: Buffers, C: Buffers> PartialEq<State<C>> for State<B> {
    fn eq(&self, other: &State<C>) -> bool {
        self.parts() == other.parts()
    }
}

impl<B: Buffers> Eq for State<B> {}

/// Shows the records, not the bytes.
impl<B: Buffers> fmt::Debug for State<B> {
    fn fmt(&self, f: &mut fmt::Formatter<'_>) -> fmt::Result {
        let mut text = f.debug_struct("State");
        text.field("head", &self.head());
        #[cfg(feature = "alloc")]
        text.field("instances", &self.instances().collect::<Vec<_>>())
            .field("writers", &self.writers().collect::<Vec<_>>())
            .field("lost", &self.lost());
        text.finish_non_exhaustive()
    }
}

/// The version of the library: major, minor, patch.
///
/// ```
/// assert_eq!(dcps::version(), (0, 3, 0));
/// ```
#[must_use]
pub fn version() -> (u32, u32, u32) {
    let number = ffi::version();
    (number >> 16, number >> 8 & 0xff, number & 0xff)
}
