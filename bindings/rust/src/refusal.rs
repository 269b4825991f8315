//! Why a call is refused.

use core::error::Error;
use core::fmt;

/// Why a call was refused. A refused call leaves the state as it was.
///
/// The numbers and words are those of the scope document's section 8, and of the requests that came after it. If
/// several apply, the lowest number is returned, with two exceptions: 15 comes before 14, and 3 for the head's number
/// of places comes before 1.
///
/// ```
/// use dcps::{LivelinessKind, Refusal, State};
/// use std::time::Duration;
///
/// let mut state = State::new();
/// let century = Duration::from_secs(100 * 365 * 24 * 3600);
/// let late = state.matched([1; 16], LivelinessKind::Automatic, None, 2 * century);
/// assert_eq!(late, Err(Refusal::ClockOrLease));
/// assert_eq!(Refusal::ClockOrLease.number(), 5);
/// assert_eq!(Refusal::ClockOrLease.to_string(), "refused as 5: clock or lease of 2^62 or more");
/// ```
#[derive(Debug, Clone, Copy, PartialEq, Eq, Hash)]
#[non_exhaustive]
pub enum Refusal {
    /// 1: a buffer length other than stated. It is met where a state is made of bytes, if the length of pens does not
    /// fit the head's number of places ([`State::fresh_over`](crate::State::fresh_over): if it is neither of the two
    /// lengths); and in reads that take a list of GUIDs.
    BufferLength,
    /// 2: unknown code. Only [`State::raw_call`](crate::State::raw_call) can meet it.
    UnknownCode,
    /// 3: not well formed, or a head whose number of places is neither 32 nor 128. Only
    /// [`State::from_parts`](crate::State::from_parts) and [`State::over`](crate::State::over) can meet it.
    NotWellFormed,
    /// 4: nanoseconds of 10^9 or more, in a used time or in [`wire_fraction`](crate::wire_fraction).
    Nanoseconds,
    /// 5: used clock or lease of 2^62 nanoseconds or more.
    ClockOrLease,
    /// 6: used holder above 144 bytes.
    HolderLength,
    /// 7: kind 3 in matched. Only [`State::raw_call`](crate::State::raw_call) can meet it.
    Kind,
    /// 8: acknowledge taking count minus change beyond ±2^30.
    Acknowledged,
    /// 9: new instance, all places taken: 32 or 128 are there, as the state has [`Places`](crate::Places).
    InstancesFull,
    /// 10: new writer, 16 in that instance's set.
    WriterSetFull,
    /// 11: new GUID, 128 writer records.
    WritersFull,
    /// 12: expiries beyond 256 in Lost.
    LostFull,
    /// 13: new instance, next handle 2^63.
    HandlesSpent,
    /// 14: serialized key longer than the largest size stated for its type. Only
    /// [`key_hash`](crate::key_hash()) can meet it.
    KeyLength,
    /// 15: stated largest size above 4,096. Only [`key_hash`](crate::key_hash()) can meet it.
    LargestSize,
    /// A number that this crate does not know, of a library newer than it.
    Other(u8),
}

impl Refusal {
    /// The refusal of a number; none for 0, which is an accepted call's.
    ///
    /// ```
    /// use dcps::Refusal;
    /// assert_eq!(Refusal::from_number(9), Some(Refusal::InstancesFull));
    /// assert_eq!(Refusal::from_number(0), None);
    /// ```
    #[must_use]
    pub const fn from_number(number: u8) -> Option<Self> {
        Some(match number {
            0 => return None,
            1 => Self::BufferLength,
            2 => Self::UnknownCode,
            3 => Self::NotWellFormed,
            4 => Self::Nanoseconds,
            5 => Self::ClockOrLease,
            6 => Self::HolderLength,
            7 => Self::Kind,
            8 => Self::Acknowledged,
            9 => Self::InstancesFull,
            10 => Self::WriterSetFull,
            11 => Self::WritersFull,
            12 => Self::LostFull,
            13 => Self::HandlesSpent,
            14 => Self::KeyLength,
            15 => Self::LargestSize,
            other => Self::Other(other),
        })
    }

    /// The number that the scope document gives it.
    ///
    /// ```
    /// for number in 1..=15 {
    ///     assert_eq!(dcps::Refusal::from_number(number).map(|r| r.number()), Some(number));
    /// }
    /// ```
    #[must_use]
    pub const fn number(self) -> u8 {
        match self {
            Self::BufferLength => 1,
            Self::UnknownCode => 2,
            Self::NotWellFormed => 3,
            Self::Nanoseconds => 4,
            Self::ClockOrLease => 5,
            Self::HolderLength => 6,
            Self::Kind => 7,
            Self::Acknowledged => 8,
            Self::InstancesFull => 9,
            Self::WriterSetFull => 10,
            Self::WritersFull => 11,
            Self::LostFull => 12,
            Self::HandlesSpent => 13,
            Self::KeyLength => 14,
            Self::LargestSize => 15,
            Self::Other(number) => number,
        }
    }

    const fn words(self) -> &'static str {
        match self {
            Self::BufferLength => "a buffer length other than stated",
            Self::UnknownCode => "unknown code",
            Self::NotWellFormed => "not well formed",
            Self::Nanoseconds => "nanoseconds of 10^9 or more",
            Self::ClockOrLease => "clock or lease of 2^62 or more",
            Self::HolderLength => "holder above 144",
            Self::Kind => "kind 3 in matched",
            Self::Acknowledged => "acknowledge taking count minus change beyond ±2^30",
            Self::InstancesFull => "new instance, all places taken",
            Self::WriterSetFull => "new writer, 16 in that instance's set",
            Self::WritersFull => "new GUID, 128 writer records",
            Self::LostFull => "expiries beyond 256 in Lost",
            Self::HandlesSpent => "new instance, next handle 2^63",
            Self::KeyLength => "serialized key longer than its stated largest size",
            Self::LargestSize => "stated largest size above 4,096",
            Self::Other(_) => "a number unknown here",
        }
    }
}

impl fmt::Display for Refusal {
    fn fmt(&self, f: &mut fmt::Formatter<'_>) -> fmt::Result {
        write!(f, "refused as {}: {}", self.number(), self.words())
    }
}

impl Error for Refusal {}
