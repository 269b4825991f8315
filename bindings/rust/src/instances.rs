//! The calls on instances: codes 1 to 21.
//!
//! Derives from instance_tracker.rs of ZeroDDS.
//! Copyright 2026 ZeroDDS Contributors. SPDX-License-Identifier: Apache-2.0. Changed: written anew, each call
//! by a sheet to the library, and refusals answered.

use crate::state::Buffers;
use crate::{InstanceHandle, InstanceStateKind, KeyHash, Refusal, Sheet, State, Time};
#[cfg(feature = "alloc")]
use alloc::vec::Vec;

/// Calls on the instances.
impl<B: Buffers> State<B> {
    /// Registers an instance: starts it, or revives it if it is not alive. Its `writer_count` goes up by 1, and its
    /// holder is replaced (DDS 1.4, 2.2.2.4.2.5). A revived instance does not become new to the reader.
    ///
    /// Refused as 4, 6, 9 or 13.
    ///
    /// ```
    /// let mut state = dcps::State::new();
    /// let handle = state.register([1; 16], b"serial 1".to_vec(), None)?;
    /// assert_eq!(state.register([1; 16], b"serial 1".to_vec(), None)?, handle);
    /// assert_eq!(state.get_by_handle(handle).map(|i| i.writer_count), Some(2));
    /// # Ok::<(), dcps::Refusal>(())
    /// ```
    pub fn register(
        &mut self,
        keyhash: KeyHash,
        key_holder: impl AsRef<[u8]>,
        timestamp: Option<Time>,
    ) -> Result<InstanceHandle, Refusal> {
        Ok(self.call(&Sheet::register(&keyhash, key_holder.as_ref(), timestamp))?.handle)
    }

    /// Starts an instance, or revives it if it is not alive. A `writer_count` of 0 becomes 1. `None` if the instance
    /// is new and there are already as many as the limit. A negative limit means no limit.
    ///
    /// Refused as 9 or 13.
    ///
    /// ```
    /// let mut state = dcps::State::new();
    /// assert_eq!(state.ensure_registered_limited([1; 16], 0)?, None);
    /// assert!(state.ensure_registered_limited([1; 16], -1)?.is_some());
    /// # Ok::<(), dcps::Refusal>(())
    /// ```
    pub fn ensure_registered_limited(
        &mut self,
        keyhash: KeyHash,
        max_instances: i32,
    ) -> Result<Option<InstanceHandle>, Refusal> {
        Ok(self.call(&Sheet::ensure_registered_limited(&keyhash, max_instances))?.found())
    }

    /// Disposes an instance (DDS 1.4, 2.2.2.4.2.10). `false` if the handle is unknown.
    ///
    /// Refused as 4.
    ///
    /// ```
    /// use dcps::{InstanceStateKind, State, Time};
    ///
    /// let mut state = State::new();
    /// let handle = state.register([1; 16], Vec::new(), None)?;
    /// assert!(state.dispose(handle, Some(Time { sec: 4, nanosec: 0 }))?);
    /// let kind = state.get_by_handle(handle).map(|i| i.kind);
    /// assert_eq!(kind, Some(InstanceStateKind::NotAliveDisposed));
    /// # Ok::<(), dcps::Refusal>(())
    /// ```
    pub fn dispose(
        &mut self,
        handle: InstanceHandle,
        timestamp: Option<Time>,
    ) -> Result<bool, Refusal> {
        Ok(self.call(&Sheet::dispose(handle, timestamp))?.yes)
    }

    /// Takes 1 off `writer_count`. If it is then 0, an instance that is not disposed becomes one without writers (DDS
    /// 1.4, 2.2.2.4.2.7). The set of writers stays. `false` if the handle is unknown.
    ///
    /// Refused as 4.
    ///
    /// ```
    /// use dcps::{InstanceStateKind, State};
    ///
    /// let mut state = State::new();
    /// let handle = state.register([1; 16], Vec::new(), None)?;
    /// assert!(state.unregister(handle, None)?);
    /// let kind = state.get_by_handle(handle).map(|i| i.kind);
    /// assert_eq!(kind, Some(InstanceStateKind::NotAliveNoWriters));
    /// # Ok::<(), dcps::Refusal>(())
    /// ```
    pub fn unregister(
        &mut self,
        handle: InstanceHandle,
        timestamp: Option<Time>,
    ) -> Result<bool, Refusal> {
        Ok(self.call(&Sheet::unregister(handle, timestamp))?.yes)
    }

    /// A writer unregistered an instance: it leaves the instance's set. If the instance is alive and its set is then
    /// empty, it becomes one without writers. `false` if the handle is unknown.
    ///
    /// Refused as 4.
    ///
    /// ```
    /// use dcps::{InstanceStateKind, State};
    ///
    /// let mut state = State::new();
    /// let handle = state.register([1; 16], Vec::new(), None)?;
    /// state.note_writer(handle, [9; 16])?;
    /// assert!(state.unregister_writer(handle, [9; 16], None)?);
    /// let kind = state.get_by_handle(handle).map(|i| i.kind);
    /// assert_eq!(kind, Some(InstanceStateKind::NotAliveNoWriters));
    /// # Ok::<(), dcps::Refusal>(())
    /// ```
    pub fn unregister_writer(
        &mut self,
        handle: InstanceHandle,
        writer: [u8; 16],
        timestamp: Option<Time>,
    ) -> Result<bool, Refusal> {
        Ok(self.call(&Sheet::unregister_writer(handle, &writer, timestamp))?.yes)
    }

    /// A writer writes an instance: it joins the instance's set. This revives nothing.
    ///
    /// Refused as 10.
    ///
    /// ```
    /// let mut state = dcps::State::new();
    /// let handle = state.register([1; 16], Vec::new(), None)?;
    /// state.note_writer(handle, [9; 16])?;
    /// assert!(state.get_by_handle(handle).is_some_and(|i| i.writers.contains(&[9; 16])));
    /// # Ok::<(), dcps::Refusal>(())
    /// ```
    pub fn note_writer(&mut self, handle: InstanceHandle, writer: [u8; 16]) -> Result<(), Refusal> {
        self.call(&Sheet::note_writer(handle, &writer))?;
        Ok(())
    }

    /// A writer is gone: it leaves the sets of all instances. An alive instance whose last writer it was becomes one
    /// without writers, at `timestamp`. The handles of these instances, in the order of their keys.
    ///
    /// Refused as 4.
    ///
    /// ```
    /// let mut state = dcps::State::new();
    /// let handle = state.register([1; 16], Vec::new(), None)?;
    /// state.note_writer(handle, [9; 16])?;
    /// assert_eq!(state.drop_writer(&[9; 16], None)?, [handle]);
    /// # Ok::<(), dcps::Refusal>(())
    /// ```
    #[cfg(feature = "alloc")]
    pub fn drop_writer(
        &mut self,
        writer: &[u8; 16],
        timestamp: Option<Time>,
    ) -> Result<Vec<InstanceHandle>, Refusal> {
        let answer = self.call(&Sheet::drop_writer(writer, timestamp))?;
        Ok(self.listed_handles(answer.listed).collect())
    }

    /// A dispose or unregister marker came: starts the instance if the key is unknown, and counts 1 sample. This
    /// revives nothing.
    ///
    /// Refused as 4, 6, 9 or 13.
    ///
    /// ```
    /// let mut state = dcps::State::new();
    /// let handle = state.observe_lifecycle([1; 16], None, None)?;
    /// assert_eq!(state.get_by_handle(handle).map(|i| i.samples_in_cache), Some(1));
    /// # Ok::<(), dcps::Refusal>(())
    /// ```
    pub fn observe_lifecycle(
        &mut self,
        keyhash: KeyHash,
        key_holder: Option<&[u8]>,
        timestamp: Option<Time>,
    ) -> Result<InstanceHandle, Refusal> {
        Ok(self.call(&Sheet::observe_lifecycle(&keyhash, key_holder, timestamp))?.handle)
    }

    /// A sample came: starts the instance, or revives it, and counts the sample. The handle and the number of
    /// samples, or `None` if the instance is new and there are already as many as the limit. `key_holder` is called
    /// only if no holder is stored.
    ///
    /// Refused as 4, 6, 9 or 13.
    ///
    /// ```
    /// use dcps::{State, Time};
    ///
    /// let mut state = State::new();
    /// let holder = || b"serial 1".to_vec();
    /// let (handle, samples) = state.observe_admitted([1; 16], holder, Time::ZERO, -1)?.expect("no limit");
    /// assert_eq!((handle.as_raw(), samples), (1, 1));
    /// assert_eq!(state.observe_admitted([2; 16], Vec::new, Time::ZERO, 1)?, None);
    /// # Ok::<(), dcps::Refusal>(())
    /// ```
    pub fn observe_admitted<H: AsRef<[u8]>>(
        &mut self,
        keyhash: KeyHash,
        key_holder: impl FnOnce() -> H,
        timestamp: Time,
        max_instances: i32,
    ) -> Result<Option<(InstanceHandle, u32)>, Refusal> {
        let stored = self.instance_of_key(&keyhash).is_some_and(|i| i.key_holder.is_some());
        let holder = (!stored).then(key_holder);
        let holder = holder.as_ref().map_or(&[][..], |holder| holder.as_ref());
        let answer =
            self.call(&Sheet::observe_admitted(&keyhash, holder, timestamp, max_instances))?;
        Ok(answer.found().map(|handle| (handle, answer.samples)))
    }

    /// A sample was admitted: its times become the last ones of the destination order and of the filter, and its
    /// writer joins the set. Whether the instance is new to the reader, its kind, and its two generation counts;
    /// `None` if the key is unknown.
    ///
    /// Refused as 4 or 10.
    ///
    /// ```
    /// use dcps::{InstanceStateKind, State, Time};
    ///
    /// let mut state = State::new();
    /// state.register([1; 16], Vec::new(), None)?;
    /// let noted = state.note_admitted(&[1; 16], Time::ZERO, Time::ZERO, [9; 16])?;
    /// assert_eq!(noted, Some((true, InstanceStateKind::Alive, 0, 0)));
    /// # Ok::<(), dcps::Refusal>(())
    /// ```
    pub fn note_admitted(
        &mut self,
        keyhash: &KeyHash,
        order_ts: Time,
        filter_ts: Time,
        writer: [u8; 16],
    ) -> Result<Option<(bool, InstanceStateKind, i32, i32)>, Refusal> {
        let a = self.call(&Sheet::note_admitted(keyhash, order_ts, filter_ts, &writer))?;
        let state =
            (a.view_new, a.kind, a.disposed_generation_count, a.no_writers_generation_count);
        Ok(a.present.then_some(state))
    }

    /// A sample was delivered: its time becomes the last one of the destination order and of the filter.
    ///
    /// Refused as 4.
    ///
    /// ```
    /// use dcps::{State, Time};
    ///
    /// let mut state = State::new();
    /// let handle = state.register([1; 16], Vec::new(), None)?;
    /// let time = Time { sec: 5, nanosec: 0 };
    /// state.record_delivery(&[1; 16], time)?;
    /// assert_eq!(state.get_by_handle(handle).and_then(|i| i.last_filter_ts), Some(time));
    /// # Ok::<(), dcps::Refusal>(())
    /// ```
    pub fn record_delivery(&mut self, keyhash: &KeyHash, sample_ts: Time) -> Result<(), Refusal> {
        self.call(&Sheet::record_delivery(keyhash, sample_ts))?;
        Ok(())
    }

    /// Samples of an instance were taken: `n` samples fewer, but not below 0. The instance is no longer new to the
    /// reader.
    ///
    /// ```
    /// let mut state = dcps::State::new();
    /// let handle = state.observe_lifecycle([1; 16], None, None)?;
    /// state.note_taken(handle, 1)?;
    /// let instance = state.get_by_handle(handle).expect("it is there");
    /// assert_eq!((instance.samples_in_cache, instance.reader_view_new), (0, false));
    /// # Ok::<(), dcps::Refusal>(())
    /// ```
    pub fn note_taken(&mut self, handle: InstanceHandle, n: u32) -> Result<(), Refusal> {
        self.call(&Sheet::note_taken(handle, n))?;
        Ok(())
    }

    /// An instance was seen: it is no longer new to the reader.
    ///
    /// ```
    /// let mut state = dcps::State::new();
    /// let handle = state.register([1; 16], Vec::new(), None)?;
    /// state.mark_view_seen(handle)?;
    /// assert_eq!(state.get_by_handle(handle).map(|i| i.reader_view_new), Some(false));
    /// # Ok::<(), dcps::Refusal>(())
    /// ```
    pub fn mark_view_seen(&mut self, handle: InstanceHandle) -> Result<(), Refusal> {
        self.call(&Sheet::mark_view_seen(handle))?;
        Ok(())
    }

    /// Makes an instance new to the reader again. `false` if the key is unknown.
    ///
    /// ```
    /// let mut state = dcps::State::new();
    /// assert!(!state.mark_view_new(&[1; 16])?);
    /// state.register([1; 16], Vec::new(), None)?;
    /// assert!(state.mark_view_new(&[1; 16])?);
    /// # Ok::<(), dcps::Refusal>(())
    /// ```
    pub fn mark_view_new(&mut self, keyhash: &KeyHash) -> Result<bool, Refusal> {
        Ok(self.call(&Sheet::mark_view_new(keyhash))?.yes)
    }

    /// `n` samples of an instance fewer, but not below 0.
    ///
    /// ```
    /// let mut state = dcps::State::new();
    /// let handle = state.observe_lifecycle([1; 16], None, None)?;
    /// state.drain_samples(handle, 5)?;
    /// assert_eq!(state.get_by_handle(handle).map(|i| i.samples_in_cache), Some(0));
    /// # Ok::<(), dcps::Refusal>(())
    /// ```
    pub fn drain_samples(&mut self, handle: InstanceHandle, n: u32) -> Result<(), Refusal> {
        self.call(&Sheet::drain_samples(handle, n))?;
        Ok(())
    }

    /// Whether a writer may write an instance under exclusive ownership (DDS 1.4, 2.2.3.9.2). If so, it owns the
    /// instance from `now` on. For an unknown key the answer is yes, and nothing is stored: only [`State::admit`]
    /// gives a new instance an owner.
    ///
    /// Refused as 4.
    ///
    /// ```
    /// use dcps::{State, Time};
    ///
    /// let mut state = State::new();
    /// state.register([1; 16], Vec::new(), None)?;
    /// let at = |sec| Time { sec, nanosec: 0 };
    /// assert!(state.accept_under_exclusive_ownership(&[1; 16], [8; 16], 5, at(0), None)?);
    /// assert!(!state.accept_under_exclusive_ownership(&[1; 16], [9; 16], 4, at(1), None)?);
    /// // The owner missed a deadline of 2 s.
    /// let deadline = Some(2_000_000_000);
    /// assert!(state.accept_under_exclusive_ownership(&[1; 16], [9; 16], 4, at(2), deadline)?);
    /// # Ok::<(), dcps::Refusal>(())
    /// ```
    pub fn accept_under_exclusive_ownership(
        &mut self,
        keyhash: &KeyHash,
        writer_guid: [u8; 16],
        writer_strength: i32,
        now: Time,
        deadline_nanos: Option<u128>,
    ) -> Result<bool, Refusal> {
        let sheet = Sheet::accept_under_exclusive_ownership(
            keyhash,
            &writer_guid,
            writer_strength,
            now,
            deadline_nanos,
        );
        Ok(self.call(&sheet)?.yes)
    }

    /// [`State::accept_under_exclusive_ownership`] with second 0 as now, and without a deadline.
    ///
    /// ```
    /// let mut state = dcps::State::new();
    /// state.register([1; 16], Vec::new(), None)?;
    /// assert!(state.should_accept_sample_under_exclusive_ownership(&[1; 16], [9; 16], 5)?);
    /// // At equal strength the lower GUID takes over.
    /// assert!(state.should_accept_sample_under_exclusive_ownership(&[1; 16], [8; 16], 5)?);
    /// # Ok::<(), dcps::Refusal>(())
    /// ```
    pub fn should_accept_sample_under_exclusive_ownership(
        &mut self,
        keyhash: &KeyHash,
        writer_guid: [u8; 16],
        writer_strength: i32,
    ) -> Result<bool, Refusal> {
        self.accept_under_exclusive_ownership(
            keyhash,
            writer_guid,
            writer_strength,
            Time::ZERO,
            None,
        )
    }

    /// A writer announced its strength: sets the owner's strength in every instance that the writer owns.
    ///
    /// ```
    /// let mut state = dcps::State::new();
    /// let handle = state.register([1; 16], Vec::new(), None)?;
    /// state.should_accept_sample_under_exclusive_ownership(&[1; 16], [9; 16], 5)?;
    /// state.update_owner_strength([9; 16], 2)?;
    /// assert_eq!(state.get_by_handle(handle).and_then(|i| i.current_owner), Some(([9; 16], 2)));
    /// # Ok::<(), dcps::Refusal>(())
    /// ```
    pub fn update_owner_strength(
        &mut self,
        writer: [u8; 16],
        strength: i32,
    ) -> Result<(), Refusal> {
        self.call(&Sheet::update_owner_strength(&writer, strength))?;
        Ok(())
    }

    /// Every instance that the writer owns loses its owner. How many these were.
    ///
    /// ```
    /// let mut state = dcps::State::new();
    /// state.register([1; 16], Vec::new(), None)?;
    /// state.should_accept_sample_under_exclusive_ownership(&[1; 16], [9; 16], 5)?;
    /// assert_eq!(state.clear_owner_for_writer([9; 16])?, 1);
    /// # Ok::<(), dcps::Refusal>(())
    /// ```
    pub fn clear_owner_for_writer(&mut self, writer_guid: [u8; 16]) -> Result<usize, Refusal> {
        Ok(self.call(&Sheet::clear_owner_for_writer(&writer_guid))?.count as usize)
    }

    /// Every instance whose owner belongs to the participant loses its owner. How many these were.
    ///
    /// ```
    /// let mut state = dcps::State::new();
    /// state.register([1; 16], Vec::new(), None)?;
    /// state.should_accept_sample_under_exclusive_ownership(&[1; 16], [9; 16], 5)?;
    /// assert_eq!(state.clear_owner_for_writer_prefix([9; 12])?, 1);
    /// # Ok::<(), dcps::Refusal>(())
    /// ```
    pub fn clear_owner_for_writer_prefix(&mut self, prefix: [u8; 12]) -> Result<usize, Refusal> {
        Ok(self.call(&Sheet::clear_owner_for_writer_prefix(prefix))?.count as usize)
    }

    /// If the writer owns the instance, the instance loses its owner. Whether the writer owned it.
    ///
    /// ```
    /// let mut state = dcps::State::new();
    /// state.register([1; 16], Vec::new(), None)?;
    /// state.should_accept_sample_under_exclusive_ownership(&[1; 16], [9; 16], 5)?;
    /// assert!(!state.release_owner_of(&[1; 16], [8; 16])?);
    /// assert!(state.release_owner_of(&[1; 16], [9; 16])?);
    /// # Ok::<(), dcps::Refusal>(())
    /// ```
    pub fn release_owner_of(
        &mut self,
        keyhash: &KeyHash,
        writer: [u8; 16],
    ) -> Result<bool, Refusal> {
        Ok(self.call(&Sheet::release_owner_of(keyhash, &writer))?.yes)
    }

    /// Removes instances that were disposed, or without writers, for their delay or longer (DDS 1.4, 2.2.3.22). How
    /// many these were. A delay of `u128::MAX` removes nothing. If `now` is earlier than the instance's time, the gap
    /// counts as 0: a delay of 0 removes the instance, and no other delay does. [`Time`]s before the epoch count as
    /// any other.
    ///
    /// Refused as 4.
    ///
    /// ```
    /// use dcps::{State, Time};
    ///
    /// let mut state = State::new();
    /// let handle = state.register([1; 16], Vec::new(), None)?;
    /// let nanosecond = |nanosec| Time { sec: 0, nanosec };
    /// state.dispose(handle, Some(nanosecond(10)))?;
    /// assert_eq!(state.autopurge(nanosecond(14), 5, u128::MAX)?, 0);
    /// assert_eq!(state.autopurge(nanosecond(15), 5, u128::MAX)?, 1);
    ///
    /// // Disposed one nanosecond before the epoch.
    /// let handle = state.register([2; 16], Vec::new(), None)?;
    /// state.dispose(handle, Some(Time { sec: -1, nanosec: 999_999_999 }))?;
    /// let earlier = Time { sec: -8, nanosec: 0 };
    /// assert_eq!(state.autopurge(earlier, 1, u128::MAX)?, 0);
    /// assert_eq!(state.autopurge(nanosecond(1), 3, u128::MAX)?, 0);
    /// assert_eq!(state.autopurge(nanosecond(1), 2, u128::MAX)?, 1);
    /// # Ok::<(), dcps::Refusal>(())
    /// ```
    pub fn autopurge(
        &mut self,
        now: Time,
        autopurge_disposed_delay_nanos: u128,
        autopurge_nowriter_delay_nanos: u128,
    ) -> Result<usize, Refusal> {
        let sheet =
            Sheet::autopurge(now, autopurge_disposed_delay_nanos, autopurge_nowriter_delay_nanos);
        Ok(self.call(&sheet)?.count as usize)
    }
}
