//! The number of places for instances: in the head, and by the length of pens.

use crate::layout::{put, u16_at, INSTANCE_BYTES};

/// Where in the head the number is.
const HEAD_PLACES: usize = 30;

/// How many instances a state has places for. The number is set when the state is made, and no call changes it.
///
/// ```
/// use dcps::{Places, Refusal, State};
///
/// let mut state = State::with_places(Places::Small);
/// for key in 0..32 {
///     state.register([key; 16], Vec::new(), None)?;
/// }
/// assert_eq!(state.register([32; 16], Vec::new(), None), Err(Refusal::InstancesFull));
/// assert_eq!(State::new().places(), Places::Large);
/// # Ok::<(), Refusal>(())
/// ```
#[derive(Debug, Clone, Copy, PartialEq, Eq, PartialOrd, Ord, Hash, Default)]
pub enum Places {
    /// 32, in 16,384 bytes of pens: a bench-top console.
    Small,
    /// 128, in 65,536 bytes of pens.
    #[default]
    Large,
}

impl Places {
    /// Both, the smaller first.
    pub const ALL: [Self; 2] = [Self::Small, Self::Large];

    /// The number, 32 or 128.
    #[must_use]
    pub const fn count(self) -> usize {
        match self {
            Self::Small => 32,
            Self::Large => 128,
        }
    }

    /// The length of pens, 16,384 or 65,536 bytes.
    #[must_use]
    pub const fn pens_bytes(self) -> usize {
        self.count() * INSTANCE_BYTES
    }

    /// The one with this number; `None` if it is neither 32 nor 128.
    ///
    /// ```
    /// use dcps::Places;
    /// assert_eq!(Places::from_count(32), Some(Places::Small));
    /// assert_eq!(Places::from_count(33), None);
    /// ```
    #[must_use]
    pub const fn from_count(count: usize) -> Option<Self> {
        match count {
            32 => Some(Self::Small),
            128 => Some(Self::Large),
            _ => None,
        }
    }

    /// The one of a head; `None` if its number is neither 32 nor 128, as in a head that version 0.2 or an earlier one
    /// stored ([`carry_head`]).
    #[must_use]
    pub fn of_head(head: &[u8; 64]) -> Option<Self> {
        Self::from_count(u16_at(head, HEAD_PLACES).into())
    }
}

/// Converts a head that version 0.2 or an earlier one stored. Such a head has 0 as its number of places; it gets 128,
/// because its pens have 65,536 bytes. Whether it was such a head; any other stays as it is.
///
/// ```
/// use dcps::{carry_head, Places, Refusal, State};
///
/// let state = State::new();
/// let (head, pens, writers, lost) = state.parts();
/// let mut kept = *head;
/// kept[30..32].fill(0); // as it was before
/// assert_eq!(State::from_parts(&kept, pens, writers, lost), Err(Refusal::NotWellFormed));
/// assert!(carry_head(&mut kept));
/// assert_eq!(State::from_parts(&kept, pens, writers, lost)?.places(), Places::Large);
/// assert!(!carry_head(&mut kept));
/// # Ok::<(), Refusal>(())
/// ```
pub fn carry_head(head: &mut [u8; 64]) -> bool {
    let before = u16_at(head, HEAD_PLACES) == 0;
    if before {
        put(head, HEAD_PLACES, &(Places::Large.count() as u16).to_be_bytes());
    }
    before
}
