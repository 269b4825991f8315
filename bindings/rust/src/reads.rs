//! The reads, which change nothing.
//!
//! Derives from instance_tracker.rs and liveliness_tracker.rs of ZeroDDS.
//! Copyright 2026 ZeroDDS Contributors. SPDX-License-Identifier: Apache-2.0. Changed: written anew, each read
//! the library's, and refusals answered.

use crate::ffi::{self, halves};
use crate::sheet::delay;
use crate::state::{accepted, Buffers};
#[cfg(feature = "alloc")]
use crate::{
    layout::{handles, OUT_BYTES},
    Vec,
};
use crate::{InstanceHandle, KeyHash, LivelinessChangedStatus, Refusal, State, Time};

/// The handles of a state in the order of their keys, of [`State::walk`].
#[derive(Debug, Clone)]
pub struct Walker<'a> {
    pens: &'a [u8],
    position: usize,
}

impl Iterator for Walker<'_> {
    type Item = InstanceHandle;

    fn next(&mut self) -> Option<InstanceHandle> {
        let read = ffi::handle_at_position(self.pens, self.position);
        let handle = read.ok()?.found()?;
        self.position += 1;
        Some(handle)
    }
}

/// Reads.
impl<B: Buffers> State<B> {
    /// Whether the time-based filter (DDS 1.4, 2.2.3.12) lets a sample in: if it is earlier than the last one, or at
    /// least the separation after it, or if there is no last one. [`Time`]s before the epoch count as any other.
    ///
    /// Refused as 4.
    ///
    /// ```
    /// use dcps::{State, Time};
    ///
    /// let mut state = State::new();
    /// state.register([1; 16], Vec::new(), None)?;
    /// let second = 1_000_000_000;
    /// let at = |state: &State, sec, nanosec| {
    ///     state.should_deliver_under_time_based_filter(&[1; 16], Time { sec, nanosec }, second)
    /// };
    /// state.record_delivery(&[1; 16], Time { sec: 5, nanosec: 0 })?;
    /// assert!(at(&state, 4, 0)? && !at(&state, 5, 999_999_999)? && at(&state, 6, 0)?);
    ///
    /// // Half a second before the epoch.
    /// state.record_delivery(&[1; 16], Time { sec: -1, nanosec: 500_000_000 })?;
    /// assert!(at(&state, -1, 0)? && !at(&state, 0, 499_999_999)? && at(&state, 0, 500_000_000)?);
    /// # Ok::<(), dcps::Refusal>(())
    /// ```
    pub fn should_deliver_under_time_based_filter(
        &self,
        keyhash: &KeyHash,
        sample_ts: Time,
        min_separation_nanos: u128,
    ) -> Result<bool, Refusal> {
        let separation = delay(min_separation_nanos);
        let ((high, low), Time { sec, nanosec }) = (halves(keyhash), sample_ts);
        Ok(ffi::filter(self.seen().pens, high, low, sec, nanosec, separation)?.yes)
    }

    /// Whether the destination order (DDS 1.4, 2.2.3.17) lets a sample in: by source, if it is later than the last
    /// one, or if there is no last one; by reception, always. [`Time`]s before the epoch count as any other.
    ///
    /// Refused as 4.
    ///
    /// ```
    /// use dcps::{State, Time};
    ///
    /// let mut state = State::new();
    /// state.register([1; 16], Vec::new(), None)?;
    /// let last = Time { sec: -3, nanosec: 7 };
    /// state.record_delivery(&[1; 16], last)?;
    /// assert!(!state.should_deliver_under_destination_order(&[1; 16], last, true)?);
    /// assert!(state.should_deliver_under_destination_order(&[1; 16], last, false)?);
    /// // Six seconds earlier, and one nanosecond later.
    /// let (early, late) = (Time { sec: -9, nanosec: 8 }, Time { sec: -3, nanosec: 8 });
    /// assert!(!state.should_deliver_under_destination_order(&[1; 16], early, true)?);
    /// assert!(state.should_deliver_under_destination_order(&[1; 16], late, true)?);
    /// # Ok::<(), dcps::Refusal>(())
    /// ```
    pub fn should_deliver_under_destination_order(
        &self,
        keyhash: &KeyHash,
        source_ts: Time,
        by_source_timestamp: bool,
    ) -> Result<bool, Refusal> {
        let ((high, low), Time { sec, nanosec }) = (halves(keyhash), source_ts);
        let by_source = u8::from(by_source_timestamp);
        Ok(ffi::order(self.seen().pens, high, low, sec, nanosec, by_source)?.yes)
    }

    /// The time of an instance's last delivered sample.
    ///
    /// ```
    /// use dcps::{State, Time};
    ///
    /// let mut state = State::new();
    /// state.register([1; 16], Vec::new(), None)?;
    /// assert_eq!(state.last_delivered_ts(&[1; 16])?, None);
    /// state.record_delivery(&[1; 16], Time { sec: 5, nanosec: 0 })?;
    /// assert_eq!(state.last_delivered_ts(&[1; 16])?, Some(Time { sec: 5, nanosec: 0 }));
    /// # Ok::<(), dcps::Refusal>(())
    /// ```
    pub fn last_delivered_ts(&self, keyhash: &KeyHash) -> Result<Option<Time>, Refusal> {
        let (high, low) = halves(keyhash);
        let read = ffi::last_delivered_ts(self.seen().pens, high, low)?;
        Ok(read.present.then_some(read.time))
    }

    /// Whether there is an alive instance that has writers now, and would have none without these writers. Only
    /// instances of a view state in the mask count.
    ///
    /// Refused as 1 for more than 256 writers.
    ///
    /// ```
    /// use dcps::view_state_mask::{NEW, NOT_NEW};
    ///
    /// let mut state = dcps::State::new();
    /// let handle = state.register([1; 16], Vec::new(), None)?;
    /// state.note_writer(handle, [9; 16])?;
    /// assert!(state.would_leave_writerless(&[[9; 16]], NEW)?);
    /// assert!(!state.would_leave_writerless(&[[9; 16]], NOT_NEW)?);
    /// # Ok::<(), dcps::Refusal>(())
    /// ```
    pub fn would_leave_writerless(
        &self,
        gone: &[[u8; 16]],
        view_states: u32,
    ) -> Result<bool, Refusal> {
        Ok(ffi::would_leave_writerless(self.seen().pens, gone.as_flattened(), view_states)?.yes)
    }

    /// The handles of those instances, in the order of their keys.
    ///
    /// Refused as 1 for more than 256 writers.
    ///
    /// ```
    /// use dcps::view_state_mask::{NEW, NOT_NEW};
    ///
    /// let mut state = dcps::State::new();
    /// let handle = state.register([1; 16], Vec::new(), None)?;
    /// state.note_writer(handle, [9; 16])?;
    /// assert_eq!(state.left_writerless(&[[9; 16], [8; 16]], NEW | NOT_NEW)?, [handle]);
    /// # Ok::<(), dcps::Refusal>(())
    /// ```
    #[cfg(feature = "alloc")]
    pub fn left_writerless(
        &self,
        gone: &[[u8; 16]],
        view_states: u32,
    ) -> Result<Vec<InstanceHandle>, Refusal> {
        let mut out = [0; OUT_BYTES];
        let read =
            ffi::left_writerless(self.seen().pens, gone.as_flattened(), view_states, &mut out)?;
        Ok(handles(&out, read.listed).collect())
    }

    /// The same, written to the front of out: how many. [`State::listed_handles`] reads them.
    ///
    /// Refused as 1 for more than 256 writers.
    pub fn list_left_writerless(
        &mut self,
        gone: &[[u8; 16]],
        view_states: u32,
    ) -> Result<u32, Refusal> {
        let lent = self.lent();
        let read = ffi::left_writerless(lent.pens, gone.as_flattened(), view_states, lent.out)?;
        Ok(read.listed)
    }

    /// The handle that comes after another in the order of the keys. After nil comes the first one. After the last
    /// one and after an unknown one comes `None`.
    ///
    /// ```
    /// use dcps::HANDLE_NIL;
    ///
    /// let mut state = dcps::State::new();
    /// let handle = state.register([1; 16], Vec::new(), None)?;
    /// assert_eq!(state.next_handle_after(HANDLE_NIL)?, Some(handle));
    /// assert_eq!(state.next_handle_after(handle)?, None);
    /// # Ok::<(), dcps::Refusal>(())
    /// ```
    pub fn next_handle_after(
        &self,
        previous: InstanceHandle,
    ) -> Result<Option<InstanceHandle>, Refusal> {
        Ok(ffi::next_handle_after(self.seen().pens, previous.as_raw())?.found())
    }

    /// All handles, in the order of their keys.
    ///
    /// ```
    /// let mut state = dcps::State::new();
    /// let second = state.register([2; 16], Vec::new(), None)?;
    /// let first = state.register([1; 16], Vec::new(), None)?;
    /// assert_eq!(state.walk().collect::<Vec<_>>(), [first, second]);
    /// # Ok::<(), dcps::Refusal>(())
    /// ```
    #[must_use]
    pub fn walk(&self) -> Walker<'_> {
        Walker { pens: self.seen().pens, position: 0 }
    }

    /// The bytes that an instance's key was made from: the stored ones, or if there are none, `offered`.
    ///
    /// ```
    /// let mut state = dcps::State::new();
    /// assert_eq!(state.holder_in_force(&[1; 16], b"offered"), b"offered");
    /// state.register([1; 16], b"serial 1".to_vec(), None)?;
    /// assert_eq!(state.holder_in_force(&[1; 16], b"offered"), b"serial 1");
    /// # Ok::<(), dcps::Refusal>(())
    /// ```
    #[must_use]
    pub fn holder_in_force<'a>(&'a self, keyhash: &KeyHash, offered: &'a [u8]) -> &'a [u8] {
        let pens = self.seen().pens;
        let (high, low) = halves(keyhash);
        let stored = ffi::holder_in_force(pens, high, low).ok().and_then(|read| read.stored);
        stored.map_or(offered, |(at, length)| &pens[at..at + length])
    }

    /// The first instance, in the order of the keys, that is alive and has the writer in its set. `None` if there is
    /// no such instance.
    ///
    /// The first one has the lowest key, compared as bytes, and need not have the lowest handle. An instance that is
    /// not alive never counts, even if the writer is still in its set. The same bytes give the same answer. Changes
    /// of times, counts, view and owners do not change the answer, and neither does anything that happens to the
    /// instances after it.
    ///
    /// ```
    /// let mut state = dcps::State::new();
    /// assert_eq!(state.writer_lookup(&[9; 16])?, None);
    /// let second = state.register([2; 16], Vec::new(), None)?;
    /// let first = state.register([1; 16], Vec::new(), None)?;
    /// state.note_writer(second, [9; 16])?;
    /// state.note_writer(first, [9; 16])?;
    /// assert!(second < first, "the lowest key has not the lowest handle");
    /// assert_eq!(state.writer_lookup(&[9; 16])?, Some(first));
    /// // Disposed, it still has the writer in its set, and does not count.
    /// state.dispose(first, None)?;
    /// assert_eq!(state.writer_lookup(&[9; 16])?, Some(second));
    /// # Ok::<(), dcps::Refusal>(())
    /// ```
    pub fn writer_lookup(&self, writer: &[u8; 16]) -> Result<Option<InstanceHandle>, Refusal> {
        let (high, low) = halves(writer);
        Ok(ffi::writer_lookup(self.seen().pens, high, low)?.found())
    }

    /// The status. Its changes stay pending.
    ///
    /// ```
    /// use dcps::{LivelinessKind, State};
    /// use std::time::Duration;
    ///
    /// let mut state = State::new();
    /// state.matched([1; 16], LivelinessKind::Automatic, None, Duration::ZERO)?;
    /// assert_eq!(state.status()?.alive_count_change, 1);
    /// assert_eq!(state.status()?.alive_count_change, 1);
    /// # Ok::<(), dcps::Refusal>(())
    /// ```
    pub fn status(&self) -> Result<LivelinessChangedStatus, Refusal> {
        let (number, answer) = ffi::status(self.seen().head);
        Ok(accepted(number, &answer)?.status)
    }

    /// How often a writer moved between alive, not alive and neither, modulo 2^64.
    ///
    /// ```
    /// use dcps::{LivelinessKind, State};
    /// use std::time::Duration;
    ///
    /// let mut state = State::new();
    /// state.matched([1; 16], LivelinessKind::Automatic, None, Duration::ZERO)?;
    /// state.unmatched([1; 16])?;
    /// assert_eq!(state.changes()?, 2);
    /// # Ok::<(), dcps::Refusal>(())
    /// ```
    pub fn changes(&self) -> Result<u64, Refusal> {
        Ok(ffi::changes(self.seen().head)?.changes)
    }
}
