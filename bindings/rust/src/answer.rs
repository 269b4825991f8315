//! The answer of a call, from its 72 bytes.

use crate::layout::{i32_at, u32_at, u64_at, ANSWER_BYTES};
use crate::{InstanceHandle, InstanceStateKind, LivelinessChangedStatus};

/// The answer of [`State::raw_call`](crate::State::raw_call). A field that the call does not answer is 0.
///
/// ```
/// let mut sheet = [0; 256];
/// sheet[81] = 1; // register, of key 0
/// let answer = dcps::State::new().raw_call(&sheet)?;
/// assert_eq!((answer.present, answer.handle.as_raw()), (true, 1));
/// # Ok::<(), dcps::Refusal>(())
/// ```
#[derive(Debug, Clone, Copy, PartialEq, Eq, Default)]
pub struct Answer {
    /// Of admit: 0 admitted, 1 order, 2 filter, 3 limit, 4 ownership.
    pub outcome: u8,
    /// The yes or no of a call that answers one.
    pub yes: bool,
    /// Whether there is a handle, or for code 10 an instance.
    pub present: bool,
    /// Whether the instance is new to the reader.
    pub view_new: bool,
    /// The instance's kind.
    pub kind: InstanceStateKind,
    /// When the next lease runs out, in nanoseconds.
    pub next_due: Option<u64>,
    /// The instance's handle.
    pub handle: InstanceHandle,
    /// Its samples.
    pub samples: u32,
    /// How often it came back after a dispose.
    pub disposed_generation_count: i32,
    /// How often it came back after its last writer left.
    pub no_writers_generation_count: i32,
    /// Owners cleared, or instances purged.
    pub count: u32,
    /// Entries written to out.
    pub listed: u32,
    /// The status, of code 39; zeros for other codes.
    pub status: LivelinessChangedStatus,
}

impl Answer {
    /// The answer from the 72 bytes that include/dcps.h describes, if the call was accepted.
    #[must_use]
    pub fn from_bytes(b: &[u8; ANSWER_BYTES]) -> Self {
        Self {
            outcome: b[1],
            yes: b[2] != 0,
            present: b[3] != 0,
            view_new: b[4] != 0,
            kind: InstanceStateKind::from_bits(b[5]),
            next_due: (b[6] != 0).then(|| u64_at(b, 56)),
            handle: InstanceHandle::from_raw(u64_at(b, 8)),
            samples: u32_at(b, 16),
            disposed_generation_count: i32_at(b, 20),
            no_writers_generation_count: i32_at(b, 24),
            count: u32_at(b, 28),
            listed: u32_at(b, 32),
            status: LivelinessChangedStatus {
                alive_count: i32_at(b, 36),
                not_alive_count: i32_at(b, 40),
                alive_count_change: i32_at(b, 44),
                not_alive_count_change: i32_at(b, 48),
                last_publication_handle: InstanceHandle::from_raw(u64_at(b, 64)),
            },
        }
    }

    /// The handle, where there is one.
    ///
    /// ```
    /// assert_eq!(dcps::Answer::default().found(), None);
    /// ```
    #[must_use]
    pub fn found(&self) -> Option<InstanceHandle> {
        self.present.then_some(self.handle)
    }
}
