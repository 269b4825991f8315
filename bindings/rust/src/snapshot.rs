//! The records of the state as plain structs, for display. They are decoded here, in Rust, and the library's proof
//! does not cover that.
//!
//! Names from instance_tracker.rs and liveliness_tracker.rs of ZeroDDS.
//! Copyright 2026 ZeroDDS Contributors. SPDX-License-Identifier: Apache-2.0. Changed: written anew, over bytes.

use crate::layout::{
    array_at, guids, i32_at, u16_at, u32_at, u64_at, HOLDER_PLACES, INSTANCE_BYTES, SET_PLACES,
    WRITER_BYTES,
};
use crate::state::Buffers;
use crate::{InstanceHandle, InstanceStateKind, KeyHash, LivelinessKind, State, Time};
use core::time::Duration;
#[cfg(feature = "alloc")]
use {crate::Vec, alloc::collections::BTreeSet};

/// An instance as in its record. Holder and writers are borrowed from there.
#[derive(Debug, Clone, Copy, PartialEq, Eq)]
#[non_exhaustive]
pub struct Instance<'a> {
    /// The key that names it.
    pub keyhash: KeyHash,
    /// Its handle.
    pub handle: InstanceHandle,
    /// Its kind.
    pub kind: InstanceStateKind,
    /// How often it came back after a dispose.
    pub disposed_generation_count: i32,
    /// How often it came back after its last writer left.
    pub no_writers_generation_count: i32,
    /// Registrations less unregistrations; independent of `writers`.
    pub writer_count: u32,
    /// The time of the latest sample or marker with a time.
    pub last_sample_timestamp: Option<Time>,
    /// What the destination order compares with.
    pub last_delivered_ts: Option<Time>,
    /// What the time-based filter compares with.
    pub last_filter_ts: Option<Time>,
    /// When it was disposed. It stays when the instance is revived.
    pub disposed_at: Option<Time>,
    /// When its last writer left. It stays when the instance is revived.
    pub no_writers_at: Option<Time>,
    /// The writer that owns it, and that writer's strength.
    pub current_owner: Option<([u8; 16], i32)>,
    /// When the owner's last sample was accepted.
    pub owner_at: Option<Time>,
    /// The holder: the serialized key.
    pub key_holder: Option<&'a [u8]>,
    /// The writers in its set, rising.
    pub writers: &'a [[u8; 16]],
    /// Whether it is new to the reader.
    pub reader_view_new: bool,
    /// How many of its samples are not taken yet.
    pub samples_in_cache: u32,
}

/// An instance as in its record, with the fields that ZeroDDS has.
#[cfg(feature = "alloc")]
#[derive(Debug, Clone, PartialEq, Eq)]
pub struct InstanceState {
    /// Its handle.
    pub handle: InstanceHandle,
    /// Its kind.
    pub kind: InstanceStateKind,
    /// How often it came back after a dispose.
    pub disposed_generation_count: i32,
    /// How often it came back after its last writer left.
    pub no_writers_generation_count: i32,
    /// Registrations less unregistrations; independent of `writers`.
    pub writer_count: u32,
    /// The time of the latest sample or marker with a time.
    pub last_sample_timestamp: Option<Time>,
    /// What the destination order compares with.
    pub last_delivered_ts: Option<Time>,
    /// What the time-based filter compares with.
    pub last_filter_ts: Option<Time>,
    /// When it was disposed. It stays when the instance is revived.
    pub disposed_at: Option<Time>,
    /// When its last writer left. It stays when the instance is revived.
    pub no_writers_at: Option<Time>,
    /// The writer that owns it, and that writer's strength.
    pub current_owner: Option<([u8; 16], i32)>,
    /// When the owner's last sample was accepted.
    pub owner_at: Option<Time>,
    /// The holder: the serialized key.
    pub key_holder: Option<Vec<u8>>,
    /// The writers in its set.
    pub writers: BTreeSet<[u8; 16]>,
    /// Whether it is new to the reader.
    pub reader_view_new: bool,
    /// How many of its samples are not taken yet.
    pub samples_in_cache: u32,
}

/// Whether a writer is alive.
#[derive(Debug, Clone, Copy, PartialEq, Eq, Hash)]
pub enum WriterLiveliness {
    /// Matched, and not asserted yet.
    Unasserted,
    /// Asserted, and no [`State::expire`] or [`State::lapse`] has found its lease run out since.
    Alive,
    /// Its lease ran out; or it was departed, is matched again, and is not asserted since.
    NotAlive,
    /// Lost with its participant, and not matched since.
    Departed,
}

/// A writer as in its record.
#[derive(Debug, Clone, Copy, PartialEq, Eq)]
#[non_exhaustive]
pub struct WriterState {
    /// Its GUID.
    pub guid: [u8; 16],
    /// Whether it is alive.
    pub state: WriterLiveliness,
    /// What asserts it; automatic if it is departed.
    pub kind: LivelinessKind,
    /// Its lease; `None` is infinite.
    pub lease: Option<Duration>,
    /// When it was asserted last. Before the first assertion: when it was matched, or 0 if it was departed then.
    pub last_assert: Duration,
}

/// The presence bits of the six times, in their order from byte 44.
const TIME_BITS: [u16; 6] = [12, 11, 10, 9, 8, 6];
const OWNER_BIT: u16 = 7;
const HOLDER_BIT: u16 = 5;

impl<'a> Instance<'a> {
    fn of(b: &'a [u8]) -> Self {
        let flags = u16_at(b, 24);
        let bit = |bit: u16| flags >> bit & 1 == 1;
        let time = |place: usize| {
            let at = 44 + 8 * place;
            bit(TIME_BITS[place]).then(|| Time { sec: i32_at(b, at), nanosec: u32_at(b, at + 4) })
        };
        let holder = usize::from(u16_at(b, 26)).min(HOLDER_PLACES);
        let set = usize::from(flags & 0x1f).min(SET_PLACES);
        Self {
            keyhash: array_at(b, 0),
            handle: InstanceHandle::from_raw(u64_at(b, 16)),
            kind: InstanceStateKind::from_bits((flags >> 14) as u8),
            disposed_generation_count: i32_at(b, 28),
            no_writers_generation_count: i32_at(b, 32),
            writer_count: u32_at(b, 36),
            last_sample_timestamp: time(0),
            last_delivered_ts: time(1),
            last_filter_ts: time(2),
            disposed_at: time(3),
            no_writers_at: time(4),
            current_owner: bit(OWNER_BIT).then(|| (array_at(b, 92), i32_at(b, 108))),
            owner_at: time(5),
            key_holder: bit(HOLDER_BIT).then(|| &b[112..112 + holder]),
            writers: guids(&b[256..], set),
            reader_view_new: bit(13),
            samples_in_cache: u32_at(b, 40),
        }
    }
}

#[cfg(feature = "alloc")]
impl From<Instance<'_>> for InstanceState {
    fn from(i: Instance<'_>) -> Self {
        Self {
            handle: i.handle,
            kind: i.kind,
            disposed_generation_count: i.disposed_generation_count,
            no_writers_generation_count: i.no_writers_generation_count,
            writer_count: i.writer_count,
            last_sample_timestamp: i.last_sample_timestamp,
            last_delivered_ts: i.last_delivered_ts,
            last_filter_ts: i.last_filter_ts,
            disposed_at: i.disposed_at,
            no_writers_at: i.no_writers_at,
            current_owner: i.current_owner,
            owner_at: i.owner_at,
            key_holder: i.key_holder.map(<[u8]>::to_vec),
            writers: i.writers.iter().copied().collect(),
            reader_view_new: i.reader_view_new,
            samples_in_cache: i.samples_in_cache,
        }
    }
}

impl WriterState {
    fn of(b: &[u8]) -> Self {
        let byte = b[16];
        Self {
            guid: array_at(b, 0),
            state: match byte >> 4 & 3 {
                0 => WriterLiveliness::Unasserted,
                1 => WriterLiveliness::Alive,
                2 => WriterLiveliness::NotAlive,
                _ => WriterLiveliness::Departed,
            },
            kind: LivelinessKind::from_bits(byte >> 6),
            lease: (byte >> 3 & 1 == 1).then(|| Duration::from_nanos(u64_at(b, 24))),
            last_assert: Duration::from_nanos(u64_at(b, 32)),
        }
    }
}

/// The records, decoded in Rust.
impl<B: Buffers> State<B> {
    fn records(&self) -> impl Iterator<Item = &[u8]> {
        let used = self.head().instance_count as usize;
        self.seen().pens.chunks_exact(INSTANCE_BYTES).take(used)
    }

    fn record_of_key(&self, keyhash: &KeyHash) -> Option<&[u8]> {
        self.records().find(|record| record[..16] == keyhash[..])
    }

    fn record_of_handle(&self, handle: InstanceHandle) -> Option<&[u8]> {
        self.records().find(|record| u64_at(record, 16) == handle.as_raw())
    }

    /// The instances, in the order of their keys.
    ///
    /// ```
    /// let mut state = dcps::State::new();
    /// state.register([2; 16], Vec::new(), None)?;
    /// state.register([1; 16], Vec::new(), None)?;
    /// let keys: Vec<_> = state.instances().map(|instance| instance.keyhash).collect();
    /// assert_eq!(keys, [[1; 16], [2; 16]]);
    /// # Ok::<(), dcps::Refusal>(())
    /// ```
    pub fn instances(&self) -> impl Iterator<Item = Instance<'_>> + '_ {
        self.records().map(Instance::of)
    }

    /// The instance of a key, without a copy.
    pub fn instance_of_key(&self, keyhash: &KeyHash) -> Option<Instance<'_>> {
        self.record_of_key(keyhash).map(Instance::of)
    }

    /// The instance of a handle, without a copy.
    pub fn instance_of_handle(&self, handle: InstanceHandle) -> Option<Instance<'_>> {
        self.record_of_handle(handle).map(Instance::of)
    }

    /// The writers, in the order of their GUIDs, departed ones included.
    ///
    /// ```
    /// use dcps::{LivelinessKind, State, WriterLiveliness};
    /// use std::time::Duration;
    ///
    /// let mut state = State::new();
    /// state.matched([1; 16], LivelinessKind::ManualByTopic, None, Duration::from_secs(3))?;
    /// let writer = state.writers().next().expect("it is matched");
    /// assert_eq!(writer.state, WriterLiveliness::Unasserted);
    /// assert_eq!(writer.last_assert, Duration::from_secs(3));
    /// # Ok::<(), dcps::Refusal>(())
    /// ```
    pub fn writers(&self) -> impl Iterator<Item = WriterState> + '_ {
        let used = self.head().writer_count as usize;
        self.seen().writers.chunks_exact(WRITER_BYTES).take(used).map(WriterState::of)
    }

    /// The writers that expired since the last [`State::take_lost`], in the order of expiry. They stay in lost.
    ///
    /// ```
    /// use dcps::{LivelinessKind, State};
    /// use std::time::Duration;
    ///
    /// let mut state = State::new();
    /// let second = Duration::from_secs(1);
    /// state.matched([1; 16], LivelinessKind::Automatic, Some(second), second)?;
    /// state.expire(2 * second)?;
    /// assert_eq!(state.lost(), [[1; 16]]);
    /// # Ok::<(), dcps::Refusal>(())
    /// ```
    #[cfg(feature = "alloc")]
    #[must_use]
    pub fn lost(&self) -> Vec<[u8; 16]> {
        guids(self.seen().lost, self.head().lost_count as usize).to_vec()
    }

    /// The instance of a key.
    ///
    /// ```
    /// let mut state = dcps::State::new();
    /// state.register([1; 16], b"serial 1".to_vec(), None)?;
    /// let instance = state.get_by_keyhash(&[1; 16]).expect("it is registered");
    /// assert_eq!(instance.key_holder.as_deref(), Some(&b"serial 1"[..]));
    /// # Ok::<(), dcps::Refusal>(())
    /// ```
    #[cfg(feature = "alloc")]
    #[must_use]
    pub fn get_by_keyhash(&self, keyhash: &KeyHash) -> Option<InstanceState> {
        self.instance_of_key(keyhash).map(Into::into)
    }

    /// The instance of a handle.
    ///
    /// ```
    /// let mut state = dcps::State::new();
    /// let handle = state.register([1; 16], Vec::new(), None)?;
    /// assert_eq!(state.get_by_handle(handle).map(|i| i.handle), Some(handle));
    /// # Ok::<(), dcps::Refusal>(())
    /// ```
    #[cfg(feature = "alloc")]
    #[must_use]
    pub fn get_by_handle(&self, handle: InstanceHandle) -> Option<InstanceState> {
        self.instance_of_handle(handle).map(Into::into)
    }

    /// The handle of a key.
    ///
    /// ```
    /// let mut state = dcps::State::new();
    /// assert_eq!(state.lookup(&[1; 16]), None);
    /// let handle = state.register([1; 16], Vec::new(), None)?;
    /// assert_eq!(state.lookup(&[1; 16]), Some(handle));
    /// # Ok::<(), dcps::Refusal>(())
    /// ```
    #[must_use]
    pub fn lookup(&self, keyhash: &KeyHash) -> Option<InstanceHandle> {
        self.record_of_key(keyhash).map(|record| InstanceHandle::from_raw(u64_at(record, 16)))
    }

    /// The key of a handle.
    ///
    /// ```
    /// let mut state = dcps::State::new();
    /// let handle = state.register([1; 16], Vec::new(), None)?;
    /// assert_eq!(state.key_hash_for_handle(handle), Some([1; 16]));
    /// # Ok::<(), dcps::Refusal>(())
    /// ```
    #[must_use]
    pub fn key_hash_for_handle(&self, handle: InstanceHandle) -> Option<KeyHash> {
        self.record_of_handle(handle).map(|record| array_at(record, 0))
    }

    /// The handle of a key, and the instance's kind.
    ///
    /// ```
    /// use dcps::{InstanceStateKind, State};
    ///
    /// let mut state = State::new();
    /// let handle = state.register([1; 16], Vec::new(), None)?;
    /// assert_eq!(state.handle_and_kind(&[1; 16]), Some((handle, InstanceStateKind::Alive)));
    /// # Ok::<(), dcps::Refusal>(())
    /// ```
    #[must_use]
    pub fn handle_and_kind(
        &self,
        keyhash: &KeyHash,
    ) -> Option<(InstanceHandle, InstanceStateKind)> {
        self.instance_of_key(keyhash).map(|instance| (instance.handle, instance.kind))
    }

    /// The holder of a handle, if one is stored.
    ///
    /// ```
    /// let mut state = dcps::State::new();
    /// let handle = state.register([1; 16], b"serial 1".to_vec(), None)?;
    /// assert_eq!(state.get_key_holder(handle), Some(b"serial 1".to_vec()));
    /// # Ok::<(), dcps::Refusal>(())
    /// ```
    #[cfg(feature = "alloc")]
    #[must_use]
    pub fn get_key_holder(&self, handle: InstanceHandle) -> Option<Vec<u8>> {
        self.instance_of_handle(handle)?.key_holder.map(<[u8]>::to_vec)
    }

    /// The writer that owns the instance of a key.
    ///
    /// ```
    /// let mut state = dcps::State::new();
    /// state.register([1; 16], Vec::new(), None)?;
    /// state.should_accept_sample_under_exclusive_ownership(&[1; 16], [7; 16], 5)?;
    /// assert_eq!(state.owner_of(&[1; 16]), Some([7; 16]));
    /// # Ok::<(), dcps::Refusal>(())
    /// ```
    #[must_use]
    pub fn owner_of(&self, keyhash: &KeyHash) -> Option<[u8; 16]> {
        let instance = self.instance_of_key(keyhash)?;
        instance.current_owner.map(|(writer, _)| writer)
    }

    /// The handles of the instances, in the order of their keys.
    ///
    /// ```
    /// let mut state = dcps::State::new();
    /// let second = state.register([2; 16], Vec::new(), None)?;
    /// let first = state.register([1; 16], Vec::new(), None)?;
    /// assert_eq!(state.ordered_handles(), [first, second]);
    /// # Ok::<(), dcps::Refusal>(())
    /// ```
    #[cfg(feature = "alloc")]
    #[must_use]
    pub fn ordered_handles(&self) -> Vec<InstanceHandle> {
        self.records().map(|record| InstanceHandle::from_raw(u64_at(record, 16))).collect()
    }

    /// How many instances there are.
    ///
    /// ```
    /// let mut state = dcps::State::new();
    /// state.register([1; 16], Vec::new(), None)?;
    /// assert_eq!(state.len(), 1);
    /// # Ok::<(), dcps::Refusal>(())
    /// ```
    #[must_use]
    pub fn len(&self) -> usize {
        self.head().instance_count as usize
    }

    /// Whether there is no instance.
    ///
    /// ```
    /// assert!(dcps::State::new().is_empty());
    /// ```
    #[must_use]
    pub fn is_empty(&self) -> bool {
        self.len() == 0
    }

    /// The matched writers of a participant.
    ///
    /// ```
    /// use dcps::{LivelinessKind, State};
    /// use std::time::Duration;
    ///
    /// let mut state = State::new();
    /// state.matched([3; 16], LivelinessKind::Automatic, None, Duration::ZERO)?;
    /// assert_eq!(state.matched_writers_of([3; 12]), [[3; 16]]);
    /// # Ok::<(), dcps::Refusal>(())
    /// ```
    #[cfg(feature = "alloc")]
    #[must_use]
    pub fn matched_writers_of(&self, prefix: [u8; 12]) -> Vec<[u8; 16]> {
        let matched =
            |w: &WriterState| w.state != WriterLiveliness::Departed && w.guid[..12] == prefix[..];
        self.writers().filter(matched).map(|w| w.guid).collect()
    }

    /// Whether a writer is matched and not alive.
    ///
    /// ```
    /// use dcps::{LivelinessKind, State};
    /// use std::time::Duration;
    ///
    /// let mut state = State::new();
    /// let second = Duration::from_secs(1);
    /// state.matched([3; 16], LivelinessKind::Automatic, Some(second), second)?;
    /// assert!(!state.has_lost_liveliness([3; 16]));
    /// state.expire(2 * second)?;
    /// assert!(state.has_lost_liveliness([3; 16]));
    /// # Ok::<(), dcps::Refusal>(())
    /// ```
    #[must_use]
    pub fn has_lost_liveliness(&self, writer: [u8; 16]) -> bool {
        self.writers().any(|w| w.guid == writer && w.state == WriterLiveliness::NotAlive)
    }

    /// Whether a writer is alive.
    ///
    /// ```
    /// use dcps::{LivelinessKind, State};
    /// use std::time::Duration;
    ///
    /// let mut state = State::new();
    /// assert!(!state.any_alive());
    /// state.matched([3; 16], LivelinessKind::Automatic, None, Duration::ZERO)?;
    /// assert!(state.any_alive());
    /// # Ok::<(), dcps::Refusal>(())
    /// ```
    #[must_use]
    pub fn any_alive(&self) -> bool {
        self.head().alive > 0
    }
}
