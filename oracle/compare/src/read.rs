//! A read of instances, which is lent pens alone: by the reading and by the
//! library.

use reading::bytes::{Guid, Key, put, u64_at};
use reading::layout::{INSTANCE_BYTES, Time};
use reading::reads;

use crate::guarded::Guarded;
use crate::library;
use crate::run::{Parting, same_bytes};

pub const READ_BYTES: usize = 24;
/// What every byte of an answer and of Out is before a read.
pub const FILL: u8 = 0xc3;
/// Where the holder stands in an instance's record.
const HOLDER_AT: usize = 112;

/// What is asked, but for the pens.
#[derive(Debug, Clone, PartialEq, Eq)]
pub enum Read {
    Filter {
        key: Key,
        time: Time,
        separation: u64,
    },
    Order {
        key: Key,
        time: Time,
        by_source: u8,
    },
    LastDelivered {
        key: Key,
    },
    NextHandle {
        previous: u64,
    },
    HandleAt {
        position: usize,
    },
    Holder {
        key: Key,
    },
    Lookup {
        guid: Guid,
    },
    WouldLeave {
        gone: Vec<u8>,
        views: u32,
    },
    /// With an Out of that length.
    Left {
        gone: Vec<u8>,
        views: u32,
        out: usize,
    },
}

/// A read's answer; what it does not answer is 0.
#[derive(Default)]
pub struct Told {
    pub yes: bool,
    pub present: bool,
    pub stored: bool,
    /// Or a stored holder's length.
    pub listed: u32,
    /// Or changes, or a stored holder's offset.
    pub handle: u64,
    pub time: Time,
}

impl Told {
    fn yes(yes: bool) -> Self {
        Self { yes, ..Self::default() }
    }

    fn handle(handle: Option<u64>) -> Self {
        Self { present: handle.is_some(), handle: handle.unwrap_or(0), ..Self::default() }
    }

    fn time(time: Option<Time>) -> Self {
        Self { present: time.is_some(), time: time.unwrap_or_default(), ..Self::default() }
    }
}

pub fn laid_out(told: &Result<Told, u8>) -> [u8; READ_BYTES] {
    let mut bytes = [0; READ_BYTES];
    match told {
        Err(number) => bytes[0] = *number,
        Ok(told) => {
            bytes[1] = u8::from(told.yes);
            bytes[2] = u8::from(told.present);
            bytes[3] = u8::from(told.stored);
            put(&mut bytes, 4, &told.listed.to_be_bytes());
            put(&mut bytes, 8, &told.handle.to_be_bytes());
            put(&mut bytes, 16, &told.time.bytes());
        }
    }
    bytes
}

impl Read {
    pub fn name(&self) -> &'static str {
        match self {
            Self::Filter { .. } => "filter",
            Self::Order { .. } => "order",
            Self::LastDelivered { .. } => "last delivered",
            Self::NextHandle { .. } => "next handle",
            Self::HandleAt { .. } => "handle at a position",
            Self::Holder { .. } => "holder in force",
            Self::Lookup { .. } => "writer lookup",
            Self::WouldLeave { .. } => "would leave writerless",
            Self::Left { .. } => "left writerless",
        }
    }

    fn out_length(&self) -> usize {
        if let Self::Left { out, .. } = self { *out } else { 0 }
    }

    /// By the reading.
    pub fn told(&self, pens: &[u8], out: &mut [u8]) -> Result<Told, u8> {
        match self {
            Self::Filter { key, time, separation } => {
                reads::delivers_under_filter(pens, key, *time, *separation).map(Told::yes)
            }
            Self::Order { key, time, by_source } => {
                reads::delivers_under_order(pens, key, *time, *by_source != 0).map(Told::yes)
            }
            Self::LastDelivered { key } => reads::last_delivered(pens, key).map(Told::time),
            Self::NextHandle { previous } => {
                reads::next_handle_after(pens, *previous).map(Told::handle)
            }
            Self::HandleAt { position } => {
                reads::table(pens).map(|all| Told::handle(all.get(*position).map(|i| i.handle)))
            }
            Self::Holder { key } => Ok(stored_holder(pens, key)),
            Self::Lookup { guid } => reads::instance_of_writer(pens, guid).map(Told::handle),
            Self::WouldLeave { gone, views } => {
                reads::would_leave_writerless(pens, gone, *views).map(Told::yes)
            }
            Self::Left { gone, views, .. } => {
                let listed = reads::left_writerless(pens, gone, *views, out);
                listed.map(|n| Told { listed: n as u32, ..Told::default() })
            }
        }
    }

    /// The key or the GUID that it is asked by, as two numbers.
    fn halves(&self) -> (u64, u64) {
        let name = match self {
            Self::Filter { key, .. }
            | Self::Order { key, .. }
            | Self::LastDelivered { key }
            | Self::Holder { key } => key,
            Self::Lookup { guid } => guid,
            _ => &[0; 16],
        };
        (u64_at(name, 0), u64_at(name, 8))
    }

    /// By the library.
    pub fn ask(&self, pens: &[u8], out: &mut [u8], answer: &mut [u8]) -> u32 {
        let (high, low) = self.halves();
        match self {
            Self::Filter { time, separation, .. } => {
                let (sec, nanosec) = (time.seconds, time.nanoseconds);
                library::delivers_under_filter(pens, high, low, sec, nanosec, *separation, answer)
            }
            Self::Order { time, by_source, .. } => {
                let (sec, nanosec) = (time.seconds, time.nanoseconds);
                library::delivers_under_order(pens, high, low, sec, nanosec, *by_source, answer)
            }
            Self::LastDelivered { .. } => library::last_delivered(pens, high, low, answer),
            Self::NextHandle { previous } => library::next_handle_after(pens, *previous, answer),
            Self::HandleAt { position } => library::handle_at_position(pens, *position, answer),
            Self::Holder { .. } => library::holder_in_force(pens, high, low, answer),
            Self::Lookup { .. } => library::writer_lookup(pens, high, low, answer),
            Self::WouldLeave { gone, views } => {
                library::would_leave_writerless(pens, gone, *views, answer)
            }
            Self::Left { gone, views, .. } => {
                library::left_writerless(pens, gone, *views, out, answer)
            }
        }
    }

    /// Asks both, with an answer of that length; the number that they agree on.
    /// Where the answer's own length is wrong nothing at all is written.
    pub fn same(
        &self,
        pens: &[u8],
        answer_length: usize,
        library: impl FnOnce(&Self, &[u8], &mut [u8], &mut [u8]) -> u32,
    ) -> Result<u8, Parting> {
        let length = self.out_length();
        let (mut expected_out, mut out) = (vec![FILL; length], Guarded::filled(FILL, length));
        let mut answer = Guarded::filled(FILL, answer_length);
        let number = library(self, pens, out.lent(), answer.lent());
        let fits = answer_length == READ_BYTES;
        let told = if fits { self.told(pens, &mut expected_out) } else { Err(1) };
        let expected = laid_out(&told);
        same_answer(self.name(), &expected, number, &answer)?;
        out.same("Out of left writerless", &expected_out)?;
        Ok(expected[0])
    }
}

/// Where the holder of a key stands; never refused.
fn stored_holder(pens: &[u8], key: &Key) -> Told {
    let table = reads::table(pens).unwrap_or_default();
    let stored = table.iter().position(|i| i.key == *key && i.holder.is_some());
    let at = stored.map_or(0, |place| place * INSTANCE_BYTES + HOLDER_AT);
    let held = reads::holder_in_force(pens, key, &[]);
    debug_assert_eq!(held, pens[at..at + held.len()]);
    Told {
        stored: stored.is_some(),
        listed: held.len() as u32,
        handle: at as u64,
        ..Told::default()
    }
}

/// The expected number, and an answer of the stated length as expected; one of
/// another length is left alone.
pub fn same_answer(
    what: &str,
    expected: &[u8],
    number: u32,
    answer: &Guarded,
) -> Result<(), Parting> {
    let whole = u32::from(expected[0]).to_be_bytes();
    same_bytes(&format!("number of {what}"), &whole, &number.to_be_bytes())?;
    let length = answer.bytes().len();
    let fits = length == expected.len();
    if fits { answer.same(what, expected) } else { answer.same(what, &vec![FILL; length]) }
}
