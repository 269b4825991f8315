//! The two trackers with ZeroDDS's names, arguments and results, over a shared state behind a lock.
//!
//! Names, arguments and results from instance_tracker.rs, liveliness_tracker.rs and instance_handle.rs of ZeroDDS.
//! Copyright 2026 ZeroDDS Contributors. SPDX-License-Identifier: Apache-2.0. Changed: written anew, over [`State`].

use crate::{
    Answer, InstanceHandle, InstanceState, InstanceStateKind, KeyHash, LivelinessChangedStatus,
    LivelinessKind, Places, Refusal, Sheet, State, Time,
};
use std::collections::BTreeMap;
use std::sync::{Arc, Mutex, MutexGuard};
use std::time::Duration;

/// The highest next handle of a state: with it, a new instance is refused as 13.
const LAST_NEXT: u64 = 1 << 63;

fn locked<T>(mutex: &Mutex<T>) -> MutexGuard<'_, T> {
    // A call that is refused or panics in its holder leaves what it locked as it was.
    mutex.lock().unwrap_or_else(|e| e.into_inner())
}

/// Handles that several trackers share.
///
/// ```
/// use dcps::{InstanceHandleAllocator, InstanceTracker};
/// use std::sync::Arc;
///
/// let allocator = Arc::new(InstanceHandleAllocator::new());
/// let (one, other) = (
///     InstanceTracker::with_allocator(Arc::clone(&allocator)),
///     InstanceTracker::with_allocator(Arc::clone(&allocator)),
/// );
/// assert_eq!(one.register([1; 16], Vec::new(), None).as_raw(), 1);
/// assert_eq!(other.register([1; 16], Vec::new(), None).as_raw(), 2);
/// assert_eq!(allocator.allocate().as_raw(), 3);
/// ```
#[derive(Debug)]
pub struct InstanceHandleAllocator {
    next: Mutex<u64>,
}

impl InstanceHandleAllocator {
    /// The first handle is 1.
    #[must_use]
    pub const fn new() -> Self {
        Self::starting_at(1)
    }

    /// The first handle is this one; 0 is skipped.
    #[must_use]
    pub const fn starting_at(next: u64) -> Self {
        Self { next: Mutex::new(next) }
    }

    /// The handle that [`Self::allocate`] gives next.
    #[must_use]
    pub fn next(&self) -> u64 {
        *locked(&self.next)
    }

    /// Gives the next handle.
    #[must_use]
    pub fn allocate(&self) -> InstanceHandle {
        let mut next = locked(&self.next);
        let handle = (*next).max(1);
        *next = handle.wrapping_add(1);
        InstanceHandle::from_raw(handle)
    }
}

impl Default for InstanceHandleAllocator {
    fn default() -> Self {
        Self::new()
    }
}

/// A state behind a lock. Any number of trackers can share it.
///
/// ```
/// use dcps::{LivelinessKind, Sample, SharedState, Time};
/// use std::time::Duration;
///
/// let shared = SharedState::new();
/// let (instances, liveliness) = (shared.instances(), shared.liveliness());
/// let second = Duration::from_secs(1);
/// liveliness.matched([9; 16], LivelinessKind::Automatic, Some(second), second);
/// // The joined calls are those of the state.
/// shared.lock().admit(&Sample::new([1; 16], [9; 16], Time::ZERO))?;
/// shared.lock().lapse(2 * second, None)?;
/// assert_eq!(instances.get_by_keyhash(&[1; 16]).map(|i| i.writers.len()), Some(0));
/// # Ok::<(), dcps::Refusal>(())
/// ```
#[derive(Debug, Clone, Default)]
pub struct SharedState(Arc<Shared>);

#[derive(Debug, Default)]
struct Shared {
    state: Mutex<State>,
    refused: Mutex<Option<Refusal>>,
    allocator: Option<Arc<InstanceHandleAllocator>>,
}

impl SharedState {
    /// A fresh state, with places for 128 instances.
    #[must_use]
    pub fn new() -> Self {
        Self::default()
    }

    /// A fresh state with this number of places for instances.
    ///
    /// ```
    /// use dcps::{Places, Refusal, SharedState};
    ///
    /// let instances = SharedState::with_places(Places::Small).instances();
    /// let handles: Vec<_> = (0..33).map(|key| instances.register([key; 16], Vec::new(), None)).collect();
    /// assert!(!handles[31].is_nil() && handles[32].is_nil());
    /// assert_eq!(instances.take_refusal(), Some(Refusal::InstancesFull));
    /// ```
    #[must_use]
    pub fn with_places(places: Places) -> Self {
        State::with_places(places).into()
    }

    fn of(state: State, allocator: Option<Arc<InstanceHandleAllocator>>) -> Self {
        Self(Arc::new(Shared { state: state.into(), refused: Mutex::default(), allocator }))
    }

    /// The state, locked: for the joined calls, for its bytes, and for calls whose refusal you want to see.
    pub fn lock(&self) -> MutexGuard<'_, State> {
        locked(&self.0.state)
    }

    /// The tracker of its instances.
    #[must_use]
    pub fn instances(&self) -> InstanceTracker {
        InstanceTracker { shared: self.clone() }
    }

    /// The tracker of its writers.
    #[must_use]
    pub fn liveliness(&self) -> LivelinessTracker {
        LivelinessTracker { shared: self.clone() }
    }

    /// Why the latest refused call of a tracker of this state was refused. It is told once: then `None`, until the
    /// next refused call.
    pub fn take_refusal(&self) -> Option<Refusal> {
        locked(&self.0.refused).take()
    }

    /// The answer; if the call is refused, `None`, and the refusal is noted.
    fn accepted<T>(&self, result: Result<T, Refusal>) -> Option<T> {
        result.map_err(|refusal| *locked(&self.0.refused) = Some(refusal)).ok()
    }

    fn call(&self, sheet: &Sheet) -> Option<Answer> {
        self.accepted(self.lock().call(sheet))
    }

    /// A call that may start an instance. If an allocator is shared, the handle is the allocator's next.
    fn starting<T>(&self, call: impl FnOnce(&mut State) -> Result<T, Refusal>) -> Option<T> {
        let Some(allocator) = &self.0.allocator else {
            return self.accepted(call(&mut self.lock()));
        };
        let mut next = locked(&allocator.next);
        let mut state = self.lock();
        let own = state.head().next_handle.as_raw();
        // Behind the last handle the allocator starts anew, and a state does not.
        let drawn = if *next == 0 { LAST_NEXT } else { (*next).clamp(own, LAST_NEXT) };
        state.lent().head[32..40].copy_from_slice(&drawn.to_be_bytes());
        let result = call(&mut state);
        let left = state.head().next_handle.as_raw();
        if left != drawn {
            *next = left;
        }
        self.accepted(result)
    }
}

impl From<State> for SharedState {
    fn from(state: State) -> Self {
        Self::of(state, None)
    }
}

/// ZeroDDS's `InstanceTracker`. Times before the epoch count as [`Time`] says; ZeroDDS takes some of them as if they
/// were in the epoch's first second.
///
/// A refused call changes nothing and answers as for an unknown instance: [`InstanceHandle::NIL`], `None`, `false`, 0
/// or an empty list. [`Self::take_refusal`] then says why. A sample that is refused is not accepted and not
/// delivered.
///
/// ```
/// use dcps::{InstanceTracker, Refusal, Time};
///
/// let tracker = InstanceTracker::new();
/// let handle = tracker.register([1; 16], Vec::new(), None);
/// assert!(tracker.dispose(handle, Some(Time { sec: 4, nanosec: 0 })));
/// assert!(tracker.register([2; 16], vec![0; 145], None).is_nil());
/// assert_eq!(tracker.take_refusal(), Some(Refusal::HolderLength));
/// ```
#[derive(Debug, Default)]
pub struct InstanceTracker {
    shared: SharedState,
}

/// Making one.
impl InstanceTracker {
    /// A tracker with a state of its own, with places for 128 instances. [`SharedState::with_places`] has others.
    #[must_use]
    pub fn new() -> Self {
        Self::default()
    }

    /// A tracker that takes its handles from an allocator.
    #[must_use]
    pub fn with_allocator(allocator: Arc<InstanceHandleAllocator>) -> Self {
        Self::with_allocator_and_places(allocator, Places::Large)
    }

    /// The same, with this number of places for instances.
    #[must_use]
    pub fn with_allocator_and_places(
        allocator: Arc<InstanceHandleAllocator>,
        places: Places,
    ) -> Self {
        Self { shared: SharedState::of(State::with_places(places), Some(allocator)) }
    }

    /// A second tracker of the same instances.
    #[must_use]
    pub fn shared(&self) -> Self {
        self.shared.instances()
    }

    /// The state below it.
    #[must_use]
    pub fn state(&self) -> &SharedState {
        &self.shared
    }

    /// Why the latest refused call of a tracker of this state was refused.
    pub fn take_refusal(&self) -> Option<Refusal> {
        self.shared.take_refusal()
    }

    fn read<T>(&self, read: impl FnOnce(&State) -> Result<T, Refusal>) -> Option<T> {
        self.shared.accepted(read(&self.shared.lock()))
    }

    fn said(&self, sheet: &Sheet) -> bool {
        self.shared.call(sheet).is_some_and(|answer| answer.yes)
    }

    fn counted(&self, sheet: &Sheet) -> usize {
        self.shared.call(sheet).map_or(0, |answer| answer.count as usize)
    }
}

/// Calls, as those of [`State`] that have their names.
impl InstanceTracker {
    /// As [`State::register`].
    pub fn register(
        &self,
        keyhash: KeyHash,
        key_holder: Vec<u8>,
        timestamp: Option<Time>,
    ) -> InstanceHandle {
        self.shared.starting(|s| s.register(keyhash, key_holder, timestamp)).unwrap_or_default()
    }

    /// As [`State::ensure_registered_limited`].
    pub fn ensure_registered_limited(
        &self,
        keyhash: KeyHash,
        max_instances: i32,
    ) -> Option<InstanceHandle> {
        self.shared.starting(|s| s.ensure_registered_limited(keyhash, max_instances)).flatten()
    }

    /// As [`State::dispose`].
    pub fn dispose(&self, handle: InstanceHandle, timestamp: Option<Time>) -> bool {
        self.said(&Sheet::dispose(handle, timestamp))
    }

    /// As [`State::unregister`].
    pub fn unregister(&self, handle: InstanceHandle, timestamp: Option<Time>) -> bool {
        self.said(&Sheet::unregister(handle, timestamp))
    }

    /// As [`State::unregister_writer`].
    pub fn unregister_writer(
        &self,
        handle: InstanceHandle,
        writer: [u8; 16],
        timestamp: Option<Time>,
    ) -> bool {
        self.said(&Sheet::unregister_writer(handle, &writer, timestamp))
    }

    /// As [`State::note_writer`].
    pub fn note_writer(&self, handle: InstanceHandle, writer: [u8; 16]) {
        self.shared.call(&Sheet::note_writer(handle, &writer));
    }

    /// As [`State::drop_writer`].
    pub fn drop_writer(&self, writer: &[u8; 16], timestamp: Option<Time>) -> Vec<InstanceHandle> {
        let dropped = self.shared.lock().drop_writer(writer, timestamp);
        self.shared.accepted(dropped).unwrap_or_default()
    }

    /// As [`State::observe_lifecycle`].
    pub fn observe_lifecycle(
        &self,
        keyhash: KeyHash,
        key_holder: Option<Vec<u8>>,
        timestamp: Option<Time>,
    ) -> InstanceHandle {
        let observed =
            |s: &mut State| s.observe_lifecycle(keyhash, key_holder.as_deref(), timestamp);
        self.shared.starting(observed).unwrap_or_default()
    }

    /// As [`State::observe_admitted`]. The holder is asked for without the lock held, and only for an instance that
    /// has none stored and is known or has room.
    pub fn observe_admitted(
        &self,
        keyhash: KeyHash,
        key_holder: impl FnOnce() -> Vec<u8>,
        timestamp: Time,
        max_instances: i32,
    ) -> Option<(InstanceHandle, u32)> {
        let (known, stored, count) = {
            let state = self.shared.lock();
            let known = state.instance_of_key(&keyhash);
            (known.is_some(), known.is_some_and(|i| i.key_holder.is_some()), state.len())
        };
        if !known && usize::try_from(max_instances).is_ok_and(|limit| count >= limit) {
            return None;
        }
        let holder = if stored { Vec::new() } else { key_holder() };
        let observed =
            |s: &mut State| s.observe_admitted(keyhash, || holder, timestamp, max_instances);
        self.shared.starting(observed).flatten()
    }

    /// As [`State::note_admitted`].
    pub fn note_admitted(
        &self,
        keyhash: &KeyHash,
        order_ts: Time,
        filter_ts: Time,
        writer: [u8; 16],
    ) -> Option<(bool, InstanceStateKind, i32, i32)> {
        let noted = self.shared.lock().note_admitted(keyhash, order_ts, filter_ts, writer);
        self.shared.accepted(noted).flatten()
    }

    /// As [`State::record_delivery`].
    pub fn record_delivery(&self, keyhash: &KeyHash, sample_ts: Time) {
        self.shared.call(&Sheet::record_delivery(keyhash, sample_ts));
    }

    /// As [`State::note_taken`].
    pub fn note_taken(&self, handle: InstanceHandle, n: u32) {
        self.shared.call(&Sheet::note_taken(handle, n));
    }

    /// As [`State::mark_view_seen`].
    pub fn mark_view_seen(&self, handle: InstanceHandle) {
        self.shared.call(&Sheet::mark_view_seen(handle));
    }

    /// As [`State::mark_view_new`].
    pub fn mark_view_new(&self, keyhash: &KeyHash) -> bool {
        self.said(&Sheet::mark_view_new(keyhash))
    }

    /// As [`State::drain_samples`].
    pub fn drain_samples(&self, handle: InstanceHandle, n: u32) {
        self.shared.call(&Sheet::drain_samples(handle, n));
    }

    /// As [`State::accept_under_exclusive_ownership`].
    pub fn accept_under_exclusive_ownership(
        &self,
        keyhash: &KeyHash,
        writer_guid: [u8; 16],
        writer_strength: i32,
        now: Time,
        deadline_nanos: Option<u128>,
    ) -> bool {
        self.said(&Sheet::accept_under_exclusive_ownership(
            keyhash,
            &writer_guid,
            writer_strength,
            now,
            deadline_nanos,
        ))
    }

    /// As [`State::should_accept_sample_under_exclusive_ownership`].
    pub fn should_accept_sample_under_exclusive_ownership(
        &self,
        keyhash: &KeyHash,
        writer_guid: [u8; 16],
        writer_strength: i32,
    ) -> bool {
        let (now, deadline) = (Time::ZERO, None);
        self.accept_under_exclusive_ownership(keyhash, writer_guid, writer_strength, now, deadline)
    }

    /// As [`State::update_owner_strength`].
    pub fn update_owner_strength(&self, writer: [u8; 16], strength: i32) {
        self.shared.call(&Sheet::update_owner_strength(&writer, strength));
    }

    /// As [`State::clear_owner_for_writer`].
    pub fn clear_owner_for_writer(&self, writer_guid: [u8; 16]) -> usize {
        self.counted(&Sheet::clear_owner_for_writer(&writer_guid))
    }

    /// As [`State::clear_owner_for_writer_prefix`].
    pub fn clear_owner_for_writer_prefix(&self, prefix: [u8; 12]) -> usize {
        self.counted(&Sheet::clear_owner_for_writer_prefix(prefix))
    }

    /// As [`State::release_owner_of`].
    pub fn release_owner_of(&self, keyhash: &KeyHash, writer: [u8; 16]) -> bool {
        self.said(&Sheet::release_owner_of(keyhash, &writer))
    }

    /// As [`State::autopurge`].
    pub fn autopurge(
        &self,
        now: Time,
        autopurge_disposed_delay_nanos: u128,
        autopurge_nowriter_delay_nanos: u128,
    ) -> usize {
        self.counted(&Sheet::autopurge(
            now,
            autopurge_disposed_delay_nanos,
            autopurge_nowriter_delay_nanos,
        ))
    }
}

/// Reads, as those of [`State`] that have their names.
impl InstanceTracker {
    /// As [`State::should_deliver_under_time_based_filter`].
    #[must_use]
    pub fn should_deliver_under_time_based_filter(
        &self,
        keyhash: &KeyHash,
        sample_ts: Time,
        min_separation_nanos: u128,
    ) -> bool {
        self.read(|s| {
            s.should_deliver_under_time_based_filter(keyhash, sample_ts, min_separation_nanos)
        })
        .unwrap_or_default()
    }

    /// As [`State::should_deliver_under_destination_order`].
    #[must_use]
    pub fn should_deliver_under_destination_order(
        &self,
        keyhash: &KeyHash,
        source_ts: Time,
        by_source_timestamp: bool,
    ) -> bool {
        self.read(|s| {
            s.should_deliver_under_destination_order(keyhash, source_ts, by_source_timestamp)
        })
        .unwrap_or_default()
    }

    /// As [`State::last_delivered_ts`].
    #[must_use]
    pub fn last_delivered_ts(&self, keyhash: &KeyHash) -> Option<Time> {
        self.read(|s| s.last_delivered_ts(keyhash)).flatten()
    }

    /// As [`State::would_leave_writerless`].
    pub fn would_leave_writerless(&self, gone: &[[u8; 16]], view_states: u32) -> bool {
        self.read(|s| s.would_leave_writerless(gone, view_states)).unwrap_or_default()
    }

    /// As [`State::left_writerless`].
    pub fn left_writerless(&self, gone: &[[u8; 16]], view_states: u32) -> Vec<InstanceHandle> {
        self.read(|s| s.left_writerless(gone, view_states)).unwrap_or_default()
    }

    /// As [`State::next_handle_after`].
    #[must_use]
    pub fn next_handle_after(&self, previous: InstanceHandle) -> Option<InstanceHandle> {
        self.read(|s| s.next_handle_after(previous)).flatten()
    }

    /// As [`State::lookup`].
    #[must_use]
    pub fn lookup(&self, keyhash: &KeyHash) -> Option<InstanceHandle> {
        self.shared.lock().lookup(keyhash)
    }

    /// What `read` makes of the instance of a handle, under the lock.
    pub fn read_by_handle<R>(
        &self,
        handle: InstanceHandle,
        read: impl FnOnce(&InstanceState) -> R,
    ) -> Option<R> {
        self.shared.lock().get_by_handle(handle).as_ref().map(read)
    }

    /// As [`State::get_by_handle`].
    #[must_use]
    pub fn get_by_handle(&self, handle: InstanceHandle) -> Option<InstanceState> {
        self.shared.lock().get_by_handle(handle)
    }

    /// The kind of each known instance, and whether it is new to the reader.
    #[must_use]
    pub fn current_states(
        &self,
        handles: impl IntoIterator<Item = InstanceHandle>,
    ) -> BTreeMap<InstanceHandle, (InstanceStateKind, bool)> {
        let state = self.shared.lock();
        let known = handles.into_iter().filter_map(|handle| state.instance_of_handle(handle));
        known.map(|i| (i.handle, (i.kind, i.reader_view_new))).collect()
    }

    /// As [`State::get_by_keyhash`].
    #[must_use]
    pub fn get_by_keyhash(&self, keyhash: &KeyHash) -> Option<InstanceState> {
        self.shared.lock().get_by_keyhash(keyhash)
    }

    /// As [`State::handle_and_kind`].
    #[must_use]
    pub fn handle_and_kind(
        &self,
        keyhash: &KeyHash,
    ) -> Option<(InstanceHandle, InstanceStateKind)> {
        self.shared.lock().handle_and_kind(keyhash)
    }

    /// As [`State::key_hash_for_handle`].
    #[must_use]
    pub fn key_hash_for_handle(&self, handle: InstanceHandle) -> Option<KeyHash> {
        self.shared.lock().key_hash_for_handle(handle)
    }

    /// As [`State::get_key_holder`].
    #[must_use]
    pub fn get_key_holder(&self, handle: InstanceHandle) -> Option<Vec<u8>> {
        self.shared.lock().get_key_holder(handle)
    }

    /// As [`State::owner_of`].
    #[must_use]
    pub fn owner_of(&self, keyhash: &KeyHash) -> Option<[u8; 16]> {
        self.shared.lock().owner_of(keyhash)
    }

    /// As [`State::ordered_handles`].
    #[must_use]
    pub fn ordered_handles(&self) -> Vec<InstanceHandle> {
        self.shared.lock().ordered_handles()
    }

    /// As [`State::len`].
    #[must_use]
    pub fn len(&self) -> usize {
        self.shared.lock().len()
    }

    /// As [`State::is_empty`].
    #[must_use]
    pub fn is_empty(&self) -> bool {
        self.len() == 0
    }
}

/// ZeroDDS's `LivelinessTracker`.
///
/// A refused call changes nothing and answers `false`, `None` or an empty list. [`Self::take_refusal`] then says why.
///
/// ```
/// use dcps::{LivelinessKind, LivelinessTracker};
/// use std::time::Duration;
///
/// let tracker = LivelinessTracker::new();
/// let second = Duration::from_secs(1);
/// assert!(tracker.matched([9; 16], LivelinessKind::Automatic, Some(second), second));
/// assert_eq!(tracker.expire(2 * second), (true, None));
/// assert_eq!(tracker.take_lost(), [[9; 16]]);
/// ```
#[derive(Debug, Default)]
pub struct LivelinessTracker {
    shared: SharedState,
}

impl LivelinessTracker {
    /// A tracker with a state of its own.
    #[must_use]
    pub fn new() -> Self {
        Self::default()
    }

    /// The state below it.
    #[must_use]
    pub fn state(&self) -> &SharedState {
        &self.shared
    }

    /// Why the latest refused call of a tracker of this state was refused.
    pub fn take_refusal(&self) -> Option<Refusal> {
        self.shared.take_refusal()
    }

    fn moved(&self, sheet: &Sheet) -> bool {
        self.shared.call(sheet).is_some_and(|answer| answer.yes)
    }

    /// As [`State::matched`].
    pub fn matched(
        &self,
        writer: [u8; 16],
        kind: LivelinessKind,
        lease: Option<Duration>,
        now: Duration,
    ) -> bool {
        self.moved(&Sheet::matched(&writer, kind, lease, now))
    }

    /// As [`State::unmatched`].
    pub fn unmatched(&self, writer: [u8; 16]) -> bool {
        self.moved(&Sheet::unmatched(&writer))
    }

    /// As [`State::lost_with_participant`].
    pub fn lost_with_participant(&self, writer: [u8; 16]) -> bool {
        self.moved(&Sheet::lost_with_participant(&writer))
    }

    /// As [`State::writer_asserted`].
    pub fn writer_asserted(&self, writer: [u8; 16], now: Duration) -> bool {
        self.moved(&Sheet::writer_asserted(&writer, now))
    }

    /// As [`State::participant_asserted`].
    pub fn participant_asserted(&self, prefix: [u8; 12], manual: bool, now: Duration) -> bool {
        self.moved(&Sheet::participant_asserted(prefix, manual, now))
    }

    /// As [`State::expire`]. It is refused if lost has no room for all that expire: call [`Self::take_lost`] first.
    pub fn expire(&self, now: Duration) -> (bool, Option<Duration>) {
        let expired = self.shared.lock().expire(now);
        self.shared.accepted(expired).unwrap_or_default()
    }

    /// As [`State::take_lost`].
    pub fn take_lost(&self) -> Vec<[u8; 16]> {
        let lost = self.shared.lock().take_lost();
        self.shared.accepted(lost).unwrap_or_default()
    }

    /// As [`State::status`].
    #[must_use]
    pub fn status(&self) -> LivelinessChangedStatus {
        let status = self.shared.lock().status();
        self.shared.accepted(status).unwrap_or_default()
    }

    /// As [`State::take_status`].
    pub fn take_status(&self) -> LivelinessChangedStatus {
        let status = self.shared.lock().take_status();
        self.shared.accepted(status).unwrap_or_default()
    }

    /// As [`State::acknowledge`].
    pub fn acknowledge(&self, reported: &LivelinessChangedStatus) {
        self.shared.call(&Sheet::acknowledge(reported));
    }

    /// As [`State::matched_writers_of`].
    #[must_use]
    pub fn matched_writers_of(&self, prefix: [u8; 12]) -> Vec<[u8; 16]> {
        self.shared.lock().matched_writers_of(prefix)
    }

    /// As [`State::changes`].
    #[must_use]
    pub fn changes(&self) -> u64 {
        let changes = self.shared.lock().changes();
        self.shared.accepted(changes).unwrap_or_default()
    }

    /// As [`State::has_lost_liveliness`].
    #[must_use]
    pub fn has_lost_liveliness(&self, writer: [u8; 16]) -> bool {
        self.shared.lock().has_lost_liveliness(writer)
    }

    /// As [`State::any_alive`].
    #[must_use]
    pub fn any_alive(&self) -> bool {
        self.shared.lock().any_alive()
    }
}
