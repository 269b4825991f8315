//! The types of arguments and answers.
//!
//! Names and fields from instance_tracker.rs, liveliness_tracker.rs and instance_handle.rs of ZeroDDS.
//! Copyright 2026 ZeroDDS Contributors. SPDX-License-Identifier: Apache-2.0. Changed: written anew.

use core::fmt;

/// The 16 bytes that name an instance (DDSI-RTPS KeyHash). [`key_hash`](crate::key_hash()) makes them from a
/// serialized key.
pub type KeyHash = [u8; 16];

/// Bits of a mask of view states.
///
/// ```
/// use dcps::view_state_mask::{NEW, NOT_NEW};
/// assert_eq!((NEW, NOT_NEW), (1, 2));
/// ```
pub mod view_state_mask {
    /// Instances that the reader has not seen since they came, or since they came back.
    pub const NEW: u32 = 1;
    /// The others.
    pub const NOT_NEW: u32 = 2;
}

/// A time of DDS: seconds, and nanoseconds below 10^9, from any epoch. Its value is seconds × 10^9 + nanoseconds.
/// Calls and reads compare times by this value, and so does the order of times here.
///
/// A time before the epoch is negative: the seconds are rounded down, and the nanoseconds are added to them. So half
/// a second before the epoch is second -1 and 500,000,000 nanoseconds.
///
/// ```
/// use dcps::Time;
///
/// // Of a clock that counts nanoseconds.
/// let time = |nanos: i64| Time {
///     sec: nanos.div_euclid(1_000_000_000) as i32,
///     nanosec: nanos.rem_euclid(1_000_000_000) as u32,
/// };
/// assert_eq!(time(-500_000_000), Time { sec: -1, nanosec: 500_000_000 });
/// assert_eq!(time(-1), Time { sec: -1, nanosec: 999_999_999 });
/// assert!(time(-500_000_000) < time(-1) && time(-1) < Time::ZERO && Time::ZERO < time(1));
/// ```
#[derive(Debug, Clone, Copy, PartialEq, Eq, Hash, PartialOrd, Ord, Default)]
pub struct Time {
    /// Seconds, rounded down: negative before the epoch.
    pub sec: i32,
    /// Nanoseconds below 10^9; a call that uses more is refused as 4. [`wire_nanos`](crate::wire_nanos) makes them
    /// from the fraction of a stamp that came over the wire.
    pub nanosec: u32,
}

impl Time {
    /// Second 0.
    pub const ZERO: Self = Self { sec: 0, nanosec: 0 };
}

/// The handle of an instance (DDS 1.4, 2.3.3); 0 is nil.
#[derive(Debug, Clone, Copy, PartialEq, Eq, Hash, PartialOrd, Ord, Default)]
pub struct InstanceHandle(u64);

/// The handle that is no instance's.
pub const HANDLE_NIL: InstanceHandle = InstanceHandle::NIL;

impl InstanceHandle {
    /// The handle that is no instance's.
    pub const NIL: Self = Self(0);

    /// The handle of a number.
    ///
    /// ```
    /// assert_eq!(dcps::InstanceHandle::from_raw(7).as_raw(), 7);
    /// ```
    #[must_use]
    pub const fn from_raw(raw: u64) -> Self {
        Self(raw)
    }

    /// Its number.
    ///
    /// ```
    /// assert_eq!(dcps::HANDLE_NIL.as_raw(), 0);
    /// ```
    #[must_use]
    pub const fn as_raw(&self) -> u64 {
        self.0
    }

    /// Whether it is nil.
    ///
    /// ```
    /// assert!(dcps::InstanceHandle::NIL.is_nil());
    /// ```
    #[must_use]
    pub const fn is_nil(&self) -> bool {
        self.0 == 0
    }

    /// The handle by which a status names a writer: 64-bit FNV-1a of its GUID, or 1 if that is 0.
    ///
    /// ```
    /// use dcps::{InstanceHandle, LivelinessKind, State};
    /// use std::time::Duration;
    ///
    /// let mut state = State::new();
    /// state.matched([7; 16], LivelinessKind::Automatic, None, Duration::ZERO)?;
    /// let status = state.take_status()?;
    /// assert_eq!(status.last_publication_handle, InstanceHandle::from_guid([7; 16]));
    /// # Ok::<(), dcps::Refusal>(())
    /// ```
    #[must_use]
    pub fn from_guid(guid: [u8; 16]) -> Self {
        let fold = |h: u64, b: u8| (h ^ u64::from(b)).wrapping_mul(0x0100_0000_01b3);
        Self(guid.into_iter().fold(0xcbf2_9ce4_8422_2325, fold).max(1))
    }
}

impl fmt::Display for InstanceHandle {
    fn fmt(&self, f: &mut fmt::Formatter<'_>) -> fmt::Result {
        if self.is_nil() {
            f.write_str("HANDLE_NIL")
        } else {
            write!(f, "InstanceHandle({:#x})", self.0)
        }
    }
}

/// The kind of an instance (DDS 1.4, 2.2.2.5.1.3).
#[derive(Debug, Clone, Copy, PartialEq, Eq, Hash, Default)]
pub enum InstanceStateKind {
    /// It has a writer, or none has left it yet.
    #[default]
    Alive,
    /// A writer disposed it.
    NotAliveDisposed,
    /// Its last writer left it.
    NotAliveNoWriters,
}

impl InstanceStateKind {
    pub(crate) fn from_bits(bits: u8) -> Self {
        match bits & 3 {
            0 => Self::Alive,
            1 => Self::NotAliveDisposed,
            _ => Self::NotAliveNoWriters,
        }
    }
}

/// What asserts a writer's liveliness (DDS 1.4, 2.2.3.11).
#[derive(Debug, Clone, Copy, PartialEq, Eq, Hash, Default)]
pub enum LivelinessKind {
    /// Any sign of its participant.
    #[default]
    Automatic,
    /// A manual assertion of its participant, or of any writer of its participant.
    ManualByParticipant,
    /// Only its own assertions.
    ManualByTopic,
}

impl LivelinessKind {
    pub(crate) fn bits(self) -> u8 {
        match self {
            Self::Automatic => 0,
            Self::ManualByParticipant => 1,
            Self::ManualByTopic => 2,
        }
    }

    pub(crate) fn from_bits(bits: u8) -> Self {
        match bits & 3 {
            0 => Self::Automatic,
            1 => Self::ManualByParticipant,
            _ => Self::ManualByTopic,
        }
    }
}

/// The liveliness status of a reader (DDS 1.4, 2.2.4.1).
#[derive(Debug, Clone, Copy, PartialEq, Eq, Hash, Default)]
pub struct LivelinessChangedStatus {
    /// Writers that are alive.
    pub alive_count: i32,
    /// Writers that were alive and are not any more, departed ones included.
    pub not_alive_count: i32,
    /// How much `alive_count` has changed since it was acknowledged.
    pub alive_count_change: i32,
    /// How much `not_alive_count` has changed since it was acknowledged.
    pub not_alive_count_change: i32,
    /// The writer that changed one of them last, or nil.
    pub last_publication_handle: InstanceHandle,
}
