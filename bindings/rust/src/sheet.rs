//! The 256 bytes that tell the library which call to make, and with what.

use crate::layout::{put, GUID_BYTES, HOLDER_PLACES, SHEET_BYTES};
use crate::{InstanceHandle, KeyHash, LivelinessChangedStatus, LivelinessKind, Sample, Time};
use core::time::Duration;

const TIME1: u8 = 0x80;
const DEADLINE: u8 = 0x40;
const LEASE: u8 = 0x20;
const HOLDER: u8 = 0x10;
const MANUAL: u8 = 0x08;
const BY_SOURCE: u8 = 0x04;

const BITS: usize = 80;
const CODE: usize = 81;

/// A call and its arguments, for [`State::call`](crate::State::call): the 256 bytes that include/dcps.h describes.
/// There is one function for each code. The method of [`State`](crate::State) with the same name says what the call
/// does.
///
/// ```
/// use dcps::{Sheet, State};
///
/// let mut state = State::new();
/// let answer = state.call(&Sheet::register(&[1; 16], b"serial 1", None))?;
/// assert_eq!(answer.found().map(|handle| handle.as_raw()), Some(1));
/// # Ok::<(), dcps::Refusal>(())
/// ```
#[derive(Debug, Clone, Copy, PartialEq, Eq)]
pub struct Sheet([u8; SHEET_BYTES]);

/// The calls.
impl Sheet {
    /// Its bytes.
    #[must_use]
    pub const fn bytes(&self) -> &[u8; 256] {
        &self.0
    }

    /// Code 1.
    #[must_use]
    pub fn register(keyhash: &KeyHash, key_holder: &[u8], timestamp: Option<Time>) -> Self {
        Self::of(1).key(keyhash).holder(key_holder).optional_time1(timestamp)
    }

    /// Code 2.
    #[must_use]
    pub fn ensure_registered_limited(keyhash: &KeyHash, max_instances: i32) -> Self {
        Self::of(2).key(keyhash).limit(max_instances)
    }

    /// Code 3.
    #[must_use]
    pub fn dispose(handle: InstanceHandle, timestamp: Option<Time>) -> Self {
        Self::of(3).handle(handle).optional_time1(timestamp)
    }

    /// Code 4.
    #[must_use]
    pub fn unregister(handle: InstanceHandle, timestamp: Option<Time>) -> Self {
        Self::of(4).handle(handle).optional_time1(timestamp)
    }

    /// Code 5.
    #[must_use]
    pub fn unregister_writer(
        handle: InstanceHandle,
        writer: &[u8; 16],
        timestamp: Option<Time>,
    ) -> Self {
        Self::of(5).handle(handle).guid(writer).optional_time1(timestamp)
    }

    /// Code 6.
    #[must_use]
    pub fn note_writer(handle: InstanceHandle, writer: &[u8; 16]) -> Self {
        Self::of(6).handle(handle).guid(writer)
    }

    /// Code 7. The instances are listed: [`State::listed_handles`](crate::State::listed_handles).
    #[must_use]
    pub fn drop_writer(writer: &[u8; 16], timestamp: Option<Time>) -> Self {
        Self::of(7).guid(writer).optional_time1(timestamp)
    }

    /// Code 8.
    #[must_use]
    pub fn observe_lifecycle(
        keyhash: &KeyHash,
        key_holder: Option<&[u8]>,
        timestamp: Option<Time>,
    ) -> Self {
        Self::of(8).key(keyhash).optional_holder(key_holder).optional_time1(timestamp)
    }

    /// Code 9.
    #[must_use]
    pub fn observe_admitted(
        keyhash: &KeyHash,
        key_holder: &[u8],
        timestamp: Time,
        max_instances: i32,
    ) -> Self {
        Self::of(9).key(keyhash).holder(key_holder).time1(timestamp).limit(max_instances)
    }

    /// Code 10.
    #[must_use]
    pub fn note_admitted(
        keyhash: &KeyHash,
        order_ts: Time,
        filter_ts: Time,
        writer: &[u8; 16],
    ) -> Self {
        Self::of(10).key(keyhash).time1(order_ts).time2(filter_ts).guid(writer)
    }

    /// Code 11.
    #[must_use]
    pub fn record_delivery(keyhash: &KeyHash, sample_ts: Time) -> Self {
        Self::of(11).key(keyhash).time1(sample_ts)
    }

    /// Code 12.
    #[must_use]
    pub fn note_taken(handle: InstanceHandle, n: u32) -> Self {
        Self::of(12).handle(handle).n(n)
    }

    /// Code 13.
    #[must_use]
    pub fn mark_view_seen(handle: InstanceHandle) -> Self {
        Self::of(13).handle(handle)
    }

    /// Code 14.
    #[must_use]
    pub fn mark_view_new(keyhash: &KeyHash) -> Self {
        Self::of(14).key(keyhash)
    }

    /// Code 15.
    #[must_use]
    pub fn drain_samples(handle: InstanceHandle, n: u32) -> Self {
        Self::of(15).handle(handle).n(n)
    }

    /// Code 16.
    #[must_use]
    pub fn accept_under_exclusive_ownership(
        keyhash: &KeyHash,
        writer_guid: &[u8; 16],
        writer_strength: i32,
        now: Time,
        deadline_nanos: Option<u128>,
    ) -> Self {
        let sheet = Self::of(16).key(keyhash).guid(writer_guid).strength(writer_strength);
        sheet.time2(now).deadline(deadline_nanos)
    }

    /// Code 17.
    #[must_use]
    pub fn update_owner_strength(writer: &[u8; 16], strength: i32) -> Self {
        Self::of(17).guid(writer).strength(strength)
    }

    /// Code 18.
    #[must_use]
    pub fn clear_owner_for_writer(writer_guid: &[u8; 16]) -> Self {
        Self::of(18).guid(writer_guid)
    }

    /// Code 19.
    #[must_use]
    pub fn clear_owner_for_writer_prefix(prefix: [u8; 12]) -> Self {
        Self::of(19).prefix(prefix)
    }

    /// Code 20.
    #[must_use]
    pub fn release_owner_of(keyhash: &KeyHash, writer: &[u8; 16]) -> Self {
        Self::of(20).key(keyhash).guid(writer)
    }

    /// Code 21.
    #[must_use]
    pub fn autopurge(now: Time, disposed_delay_nanos: u128, nowriter_delay_nanos: u128) -> Self {
        Self::of(21).time2(now).a(delay(disposed_delay_nanos)).b(delay(nowriter_delay_nanos))
    }

    /// Code 32.
    #[must_use]
    pub fn matched(
        writer: &[u8; 16],
        kind: LivelinessKind,
        lease: Option<Duration>,
        now: Duration,
    ) -> Self {
        Self::of(32).guid(writer).kind(kind).lease(lease).clock(now)
    }

    /// Code 33.
    #[must_use]
    pub fn unmatched(writer: &[u8; 16]) -> Self {
        Self::of(33).guid(writer)
    }

    /// Code 34.
    #[must_use]
    pub fn lost_with_participant(writer: &[u8; 16]) -> Self {
        Self::of(34).guid(writer)
    }

    /// Code 35.
    #[must_use]
    pub fn writer_asserted(writer: &[u8; 16], now: Duration) -> Self {
        Self::of(35).guid(writer).clock(now)
    }

    /// Code 36.
    #[must_use]
    pub fn participant_asserted(prefix: [u8; 12], manual: bool, now: Duration) -> Self {
        Self::of(36).prefix(prefix).manual(manual).clock(now)
    }

    /// Code 37.
    #[must_use]
    pub fn expire(now: Duration) -> Self {
        Self::of(37).clock(now)
    }

    /// Code 38. The writers are listed: [`State::listed_guids`](crate::State::listed_guids).
    #[must_use]
    pub fn take_lost() -> Self {
        Self::of(38)
    }

    /// Code 39.
    #[must_use]
    pub fn take_status() -> Self {
        Self::of(39)
    }

    /// Code 40.
    #[must_use]
    pub fn acknowledge(reported: &LivelinessChangedStatus) -> Self {
        Self::of(40).limit(reported.alive_count_change).strength(reported.not_alive_count_change)
    }

    /// Code 48.
    #[must_use]
    pub fn admit(sample: &Sample<'_>) -> Self {
        Self::of(48)
            .key(&sample.keyhash)
            .holder(sample.key_holder)
            .guid(&sample.writer)
            .strength(sample.strength)
            .time1(sample.order_ts)
            .time2(sample.filter_ts)
            .by_source(sample.by_source_timestamp)
            .a(delay(sample.min_separation_nanos))
            .deadline(sample.deadline_nanos)
            .limit(sample.max_instances)
    }

    /// Code 49. The instances are listed, as by code 7.
    #[must_use]
    pub fn lapse(now: Duration, timestamp: Option<Time>) -> Self {
        Self::of(49).clock(now).optional_time1(timestamp)
    }

    /// Code 50. The instances are listed, as by code 7.
    #[must_use]
    pub fn part(writer: &[u8; 16], timestamp: Option<Time>) -> Self {
        Self::of(50).guid(writer).optional_time1(timestamp)
    }

    /// Code 51. The instances are listed, as by code 7.
    #[must_use]
    pub fn depart(writer: &[u8; 16], timestamp: Option<Time>) -> Self {
        Self::of(51).guid(writer).optional_time1(timestamp)
    }
}

/// The bytes of any sheet, even of one with an unknown code.
impl From<[u8; 256]> for Sheet {
    fn from(bytes: [u8; 256]) -> Self {
        Self(bytes)
    }
}

/// The fields.
impl Sheet {
    fn of(code: u8) -> Self {
        let mut bytes = [0; SHEET_BYTES];
        bytes[CODE] = code;
        Self(bytes)
    }

    fn with(mut self, at: usize, bytes: &[u8]) -> Self {
        put(&mut self.0, at, bytes);
        self
    }

    fn bit(mut self, bit: u8, set: bool) -> Self {
        if set {
            self.0[BITS] |= bit;
        }
        self
    }

    fn time(self, at: usize, time: Time) -> Self {
        self.with(at, &time.sec.to_be_bytes()).with(at + 4, &time.nanosec.to_be_bytes())
    }

    fn key(self, key: &KeyHash) -> Self {
        self.with(0, key)
    }

    fn guid(self, guid: &[u8; GUID_BYTES]) -> Self {
        self.with(16, guid)
    }

    fn prefix(self, prefix: [u8; 12]) -> Self {
        self.with(16, &prefix)
    }

    fn handle(self, handle: InstanceHandle) -> Self {
        self.with(32, &handle.as_raw().to_be_bytes())
    }

    /// Time 1 of a call that always uses it.
    fn time1(self, time: Time) -> Self {
        self.time(40, time)
    }

    /// Time 1 of a call where it is optional.
    fn optional_time1(self, time: Option<Time>) -> Self {
        match time {
            Some(time) => self.time1(time).bit(TIME1, true),
            None => self,
        }
    }

    fn time2(self, time: Time) -> Self {
        self.time(48, time)
    }

    fn a(self, a: u64) -> Self {
        self.with(56, &a.to_be_bytes())
    }

    fn b(self, b: u64) -> Self {
        self.with(64, &b.to_be_bytes())
    }

    fn clock(self, clock: Duration) -> Self {
        self.a(nanos(clock))
    }

    fn lease(self, lease: Option<Duration>) -> Self {
        match lease {
            Some(lease) => self.b(nanos(lease)).bit(LEASE, true),
            None => self,
        }
    }

    fn deadline(self, deadline: Option<u128>) -> Self {
        match deadline {
            Some(deadline) => self.b(delay(deadline)).bit(DEADLINE, true),
            None => self,
        }
    }

    /// The limit, or the first acknowledged change.
    fn limit(self, limit: i32) -> Self {
        self.with(72, &limit.to_be_bytes())
    }

    /// The strength, or the second acknowledged change.
    fn strength(self, strength: i32) -> Self {
        self.with(76, &strength.to_be_bytes())
    }

    fn n(self, n: u32) -> Self {
        self.with(76, &n.to_be_bytes())
    }

    fn manual(self, manual: bool) -> Self {
        self.bit(MANUAL, manual)
    }

    fn by_source(self, by_source: bool) -> Self {
        self.bit(BY_SOURCE, by_source)
    }

    fn kind(self, kind: LivelinessKind) -> Self {
        self.bit(kind.bits(), true)
    }

    /// The holder of a call that always uses it. If it is too long, only its length is written, and the call is
    /// refused as 6.
    fn holder(self, holder: &[u8]) -> Self {
        let length = u16::try_from(holder.len()).unwrap_or(u16::MAX);
        let kept = if holder.len() <= HOLDER_PLACES { holder } else { &[] };
        self.with(82, &length.to_be_bytes()).with(84, kept)
    }

    /// The holder of a call where it is optional.
    fn optional_holder(self, holder: Option<&[u8]>) -> Self {
        match holder {
            Some(holder) => self.holder(holder).bit(HOLDER, true),
            None => self,
        }
    }
}

/// A clock or lease in nanoseconds. One that needs more than 64 bits becomes one that is refused.
pub(crate) fn nanos(duration: Duration) -> u64 {
    u64::try_from(duration.as_nanos()).unwrap_or(u64::MAX)
}

/// A delay in 64 bits. No two times are 2^64 - 1 nanoseconds apart, so no longer delay ever runs out either.
pub(crate) fn delay(nanos: u128) -> u64 {
    u64::try_from(nanos).unwrap_or(u64::MAX)
}
