//! The head, by value, and the 64 bytes it has in recorded lists.

use crate::bytes::{Guid, array_at, i32_at, put, u16_at, u32_at, u64_at};

pub const HEAD_BYTES: usize = 64;

#[derive(Debug, Clone, Copy, PartialEq, Eq)]
pub struct Head {
    pub instances: u32,
    pub writer_records: u32,
    pub lost: u32,
    pub alive: u32,
    pub not_alive: u32,
    pub alive_change: i32,
    pub not_alive_change: i32,
    pub last_writer: Option<Guid>,
    /// The number of places for instances, set when the state is fresh.
    pub places: u16,
    pub next_handle: u64,
    pub changes: u64,
}

impl Head {
    pub fn fresh(places: u16) -> Self {
        Self {
            instances: 0,
            writer_records: 0,
            lost: 0,
            alive: 0,
            not_alive: 0,
            alive_change: 0,
            not_alive_change: 0,
            last_writer: None,
            places,
            next_handle: 1,
            changes: 0,
        }
    }

    pub fn bytes(&self) -> [u8; HEAD_BYTES] {
        let mut b = [0; HEAD_BYTES];
        put(&mut b, 0, &self.instances.to_be_bytes());
        put(&mut b, 4, &self.writer_records.to_be_bytes());
        put(&mut b, 8, &self.lost.to_be_bytes());
        put(&mut b, 12, &self.alive.to_be_bytes());
        put(&mut b, 16, &self.not_alive.to_be_bytes());
        put(&mut b, 20, &self.alive_change.to_be_bytes());
        put(&mut b, 24, &self.not_alive_change.to_be_bytes());
        put(&mut b, 28, &u16::from(self.last_writer.is_some()).to_be_bytes());
        put(&mut b, 30, &self.places.to_be_bytes());
        put(&mut b, 32, &self.next_handle.to_be_bytes());
        put(&mut b, 40, &self.changes.to_be_bytes());
        put(&mut b, 48, &self.last_writer.unwrap_or([0; 16]));
        b
    }

    pub fn of_bytes(b: &[u8]) -> Self {
        Self {
            instances: u32_at(b, 0),
            writer_records: u32_at(b, 4),
            lost: u32_at(b, 8),
            alive: u32_at(b, 12),
            not_alive: u32_at(b, 16),
            alive_change: i32_at(b, 20),
            not_alive_change: i32_at(b, 24),
            last_writer: (u16_at(b, 28) != 0).then(|| array_at(b, 48)),
            places: u16_at(b, 30),
            next_handle: u64_at(b, 32),
            changes: u64_at(b, 40),
        }
    }
}
