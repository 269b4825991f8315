//! Bytes lent to the library with others behind them that it may not touch.

use crate::run::{Parting, same_bytes};

const GUARD: [u8; 64] = [0x5a; 64];

pub struct Guarded {
    bytes: Vec<u8>,
    length: usize,
}

impl Guarded {
    pub fn of(lent: &[u8]) -> Self {
        Self { bytes: [lent, &GUARD].concat(), length: lent.len() }
    }

    /// So many bytes, each of that value.
    pub fn filled(fill: u8, length: usize) -> Self {
        Self::of(&vec![fill; length])
    }

    pub fn lent(&mut self) -> &mut [u8] {
        &mut self.bytes[..self.length]
    }

    /// The bytes as they were lent, or as they came back.
    pub fn bytes(&self) -> &[u8] {
        &self.bytes[..self.length]
    }

    /// Compares what came back, and that nothing was written behind it.
    pub fn same(&self, what: &str, expected: &[u8]) -> Result<(), Parting> {
        same_bytes(what, expected, self.bytes())?;
        same_bytes(&format!("behind {what}"), &GUARD, &self.bytes[self.length..])
    }
}
