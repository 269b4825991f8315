//! Filling call sheets field by field.

use reading::bytes::{Guid, Key, put};
use reading::layout::Time;
use reading::sheet::SHEET_BYTES;

/// A sheet under construction.
#[derive(Debug, Clone)]
pub struct Filled(pub Vec<u8>);

pub const TIME1_PRESENT: u8 = 0x80;
pub const DEADLINE_PRESENT: u8 = 0x40;
pub const LEASE_PRESENT: u8 = 0x20;
pub const HOLDER_PRESENT: u8 = 0x10;
pub const MANUAL: u8 = 0x08;
pub const BY_SOURCE: u8 = 0x04;

impl Filled {
    /// A sheet of zeros with a code.
    pub fn code(code: u8) -> Self {
        let mut sheet = vec![0; SHEET_BYTES];
        sheet[81] = code;
        Self(sheet)
    }

    fn put(mut self, at: usize, bytes: &[u8]) -> Self {
        put(&mut self.0, at, bytes);
        self
    }
    pub fn key(self, key: Key) -> Self {
        self.put(0, &key)
    }
    pub fn guid(self, guid: Guid) -> Self {
        self.put(16, &guid)
    }
    pub fn handle(self, handle: u64) -> Self {
        self.put(32, &handle.to_be_bytes())
    }
    pub fn time1(self, time: Time) -> Self {
        self.put(40, &time.bytes())
    }
    pub fn time2(self, time: Time) -> Self {
        self.put(48, &time.bytes())
    }
    pub fn a(self, a: u64) -> Self {
        self.put(56, &a.to_be_bytes())
    }
    pub fn b(self, b: u64) -> Self {
        self.put(64, &b.to_be_bytes())
    }
    /// Limit or first acknowledged change.
    pub fn limit(self, limit: i32) -> Self {
        self.put(72, &limit.to_be_bytes())
    }
    /// Strength or second acknowledged change.
    pub fn strength(self, strength: i32) -> Self {
        self.put(76, &strength.to_be_bytes())
    }
    pub fn n(self, n: u32) -> Self {
        self.put(76, &n.to_be_bytes())
    }
    pub fn bits(mut self, bits: u8) -> Self {
        self.0[80] |= bits;
        self
    }
    /// The stated length, and as many of the bytes as there is room for.
    pub fn holder(self, length: u16, bytes: &[u8]) -> Self {
        let room = bytes.len().min(SHEET_BYTES - 84);
        self.put(82, &length.to_be_bytes()).put(84, &bytes[..room])
    }
}

/// Whether a call, with these bits, takes the byte at an offset below 84.
pub fn takes(code: u8, bits: u8, offset: usize) -> bool {
    let bit = |mask: u8| bits & mask != 0;
    match offset {
        0..16 => matches!(code, 1 | 2 | 8..=11 | 14 | 16 | 20 | 48),
        16..28 => matches!(code, 5..=7 | 10 | 16..=20 | 32..=36 | 48 | 50 | 51),
        28..32 => matches!(code, 5..=7 | 10 | 16..=18 | 20 | 32..=35 | 48 | 50 | 51),
        32..40 => matches!(code, 3..=6 | 12 | 13 | 15),
        40..48 => match code {
            9..=11 | 48 => true,
            1 | 3..=5 | 7 | 8 | 49..=51 => bit(TIME1_PRESENT),
            _ => false,
        },
        48..56 => matches!(code, 10 | 16 | 21 | 48),
        56..64 => matches!(code, 21 | 32 | 35..=37 | 48 | 49),
        64..72 => match code {
            21 => true,
            16 | 48 => bit(DEADLINE_PRESENT),
            32 => bit(LEASE_PRESENT),
            _ => false,
        },
        72..76 => matches!(code, 2 | 9 | 40 | 48),
        76..80 => matches!(code, 12 | 15 | 16 | 17 | 40 | 48),
        80 | 81 => true,
        _ => takes_holder(code, bits),
    }
}

/// The times that a call takes, of a sheet of 256 bytes.
pub fn times_taken(sheet: &[u8]) -> impl Iterator<Item = Time> {
    let (bits, code) = (sheet[80], sheet[81]);
    [40, 48].into_iter().filter(move |at| takes(code, bits, *at)).map(|at| Time::at(sheet, at))
}

/// Whether a call, with these bits, takes the holder.
pub fn takes_holder(code: u8, bits: u8) -> bool {
    matches!(code, 1 | 9 | 48) || code == 8 && bits & HOLDER_PRESENT != 0
}
