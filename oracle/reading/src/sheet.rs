//! Section 2's call sheet, and which of its fields each call uses.

use crate::bytes::{Guid, Key, Prefix, array_at, i32_at, u16_at, u32_at, u64_at};
use crate::layout::{CLOCK_END, HOLDER_PLACES, Time};

pub const SHEET_BYTES: usize = 256;

/// A sheet of 256 bytes.
#[derive(Clone, Copy)]
pub struct Sheet<'a>(&'a [u8]);

impl<'a> Sheet<'a> {
    /// None where the length is another.
    pub fn of(bytes: &'a [u8]) -> Option<Self> {
        (bytes.len() == SHEET_BYTES).then_some(Self(bytes))
    }

    pub fn key(self) -> Key {
        array_at(self.0, 0)
    }
    pub fn guid(self) -> Guid {
        array_at(self.0, 16)
    }
    pub fn prefix(self) -> Prefix {
        array_at(self.0, 16)
    }
    pub fn handle(self) -> u64 {
        u64_at(self.0, 32)
    }
    pub fn time1(self) -> Time {
        Time::at(self.0, 40)
    }
    pub fn time2(self) -> Time {
        Time::at(self.0, 48)
    }
    /// Separation, disposed delay or clock.
    pub fn a(self) -> u64 {
        u64_at(self.0, 56)
    }
    /// Deadline, no-writer delay or lease.
    pub fn b(self) -> u64 {
        u64_at(self.0, 64)
    }
    pub fn limit(self) -> i32 {
        i32_at(self.0, 72)
    }
    pub fn first_change(self) -> i32 {
        i32_at(self.0, 72)
    }
    pub fn strength(self) -> i32 {
        i32_at(self.0, 76)
    }
    pub fn second_change(self) -> i32 {
        i32_at(self.0, 76)
    }
    pub fn n(self) -> u32 {
        u32_at(self.0, 76)
    }
    fn bit(self, bit: u8) -> bool {
        self.0[80] >> bit & 1 == 1
    }
    pub fn manual(self) -> bool {
        self.bit(3)
    }
    pub fn by_source(self) -> bool {
        self.bit(2)
    }
    pub fn kind_bits(self) -> u8 {
        self.0[80] & 3
    }
    pub fn code(self) -> u8 {
        self.0[81]
    }
    pub fn holder_length(self) -> usize {
        usize::from(u16_at(self.0, 82))
    }
    /// The holder of a length that refusal 6 lets through.
    pub fn holder(self) -> &'a [u8] {
        &self.0[84..84 + self.holder_length()]
    }

    /// Time 1 where the Rust takes an `Option`.
    pub fn optional_time1(self) -> Option<Time> {
        self.bit(7).then(|| self.time1())
    }
    pub fn optional_deadline(self) -> Option<u64> {
        self.bit(6).then(|| self.b())
    }
    pub fn optional_lease(self) -> Option<u64> {
        self.bit(5).then(|| self.b())
    }
    pub fn optional_holder(self) -> Option<&'a [u8]> {
        self.bit(4).then(|| self.holder())
    }

    /// Refusals 4 to 7, which the sheet alone decides.
    pub fn refusal(self) -> Option<u8> {
        let uses = Uses::of(self.code());
        let late = |time: Time| !time.in_range();
        let used = |taken: Taken, bit: u8| match taken {
            Taken::No => false,
            Taken::Always => true,
            Taken::IfPresent => self.bit(bit),
        };
        if used(uses.time1, 7) && late(self.time1()) || uses.time2 && late(self.time2()) {
            Some(4)
        } else if uses.clock && self.a() >= CLOCK_END
            || used(uses.lease, 5) && self.b() >= CLOCK_END
        {
            Some(5)
        } else if used(uses.holder, 4) && self.holder_length() > HOLDER_PLACES {
            Some(6)
        } else if self.code() == 32 && self.kind_bits() == 3 {
            Some(7)
        } else {
            None
        }
    }
}

/// Whether a call takes a field, and whether by its presence bit.
#[derive(Clone, Copy, PartialEq, Eq)]
pub enum Taken {
    No,
    Always,
    IfPresent,
}

/// The fields of a code that a refusal looks at.
#[derive(Clone, Copy)]
pub struct Uses {
    pub time1: Taken,
    pub time2: bool,
    pub clock: bool,
    pub lease: Taken,
    pub holder: Taken,
}

impl Uses {
    pub fn of(code: u8) -> Self {
        Self {
            time1: match code {
                1 | 3 | 4 | 5 | 7 | 8 | 49 | 50 | 51 => Taken::IfPresent,
                9 | 10 | 11 | 48 => Taken::Always,
                _ => Taken::No,
            },
            time2: matches!(code, 10 | 16 | 21 | 48),
            clock: matches!(code, 32 | 35 | 36 | 37 | 49),
            lease: if code == 32 { Taken::IfPresent } else { Taken::No },
            holder: match code {
                8 => Taken::IfPresent,
                1 | 9 | 48 => Taken::Always,
                _ => Taken::No,
            },
        }
    }
}

/// Codes of calls on instances, on the liveliness tracker, and joined.
pub fn known_code(code: u8) -> bool {
    matches!(code, 1..=21 | 32..=40 | 48..=51)
}
