//! The answer of a call, and the 72 bytes it has in recorded lists.

use crate::bytes::{i32_at, put, u32_at, u64_at};

pub const ANSWER_BYTES: usize = 72;

/// Fields a call does not answer are 0; of a refusal, all but the number.
#[derive(Debug, Clone, Copy, PartialEq, Eq, Default)]
pub struct Answer {
    /// 0 for an accepted call, else the refusal.
    pub number: u8,
    /// Of code 48.
    pub outcome: u8,
    pub yes: bool,
    /// Whether there is a handle, or for code 10 the instance's state.
    pub present: bool,
    pub view_new: bool,
    pub kind: u8,
    pub next_due_present: bool,
    pub handle: u64,
    pub samples: u32,
    pub disposed_generations: u32,
    pub no_writers_generations: u32,
    /// Owners cleared, or instances purged.
    pub count: u32,
    /// Entries written to Out.
    pub listed: u32,
    pub alive: u32,
    pub not_alive: u32,
    pub alive_change: i32,
    pub not_alive_change: i32,
    pub next_due: u64,
    pub last_publication_handle: u64,
}

impl Answer {
    pub fn refused(number: u8) -> Self {
        Self { number, ..Self::default() }
    }

    pub fn yes(yes: bool) -> Self {
        Self { yes, ..Self::default() }
    }

    pub fn handle(handle: u64) -> Self {
        Self { present: true, handle, ..Self::default() }
    }

    pub fn count(count: u32) -> Self {
        Self { count, ..Self::default() }
    }

    pub fn outcome(outcome: u8) -> Self {
        Self { outcome, ..Self::default() }
    }

    pub fn bytes(&self) -> [u8; ANSWER_BYTES] {
        let mut b = [0; ANSWER_BYTES];
        b[0] = self.number;
        b[1] = self.outcome;
        b[2] = u8::from(self.yes);
        b[3] = u8::from(self.present);
        b[4] = u8::from(self.view_new);
        b[5] = self.kind;
        b[6] = u8::from(self.next_due_present);
        put(&mut b, 8, &self.handle.to_be_bytes());
        put(&mut b, 16, &self.samples.to_be_bytes());
        put(&mut b, 20, &self.disposed_generations.to_be_bytes());
        put(&mut b, 24, &self.no_writers_generations.to_be_bytes());
        put(&mut b, 28, &self.count.to_be_bytes());
        put(&mut b, 32, &self.listed.to_be_bytes());
        put(&mut b, 36, &self.alive.to_be_bytes());
        put(&mut b, 40, &self.not_alive.to_be_bytes());
        put(&mut b, 44, &self.alive_change.to_be_bytes());
        put(&mut b, 48, &self.not_alive_change.to_be_bytes());
        put(&mut b, 56, &self.next_due.to_be_bytes());
        put(&mut b, 64, &self.last_publication_handle.to_be_bytes());
        b
    }

    pub fn of_bytes(b: &[u8]) -> Self {
        Self {
            number: b[0],
            outcome: b[1],
            yes: b[2] != 0,
            present: b[3] != 0,
            view_new: b[4] != 0,
            kind: b[5],
            next_due_present: b[6] != 0,
            handle: u64_at(b, 8),
            samples: u32_at(b, 16),
            disposed_generations: u32_at(b, 20),
            no_writers_generations: u32_at(b, 24),
            count: u32_at(b, 28),
            listed: u32_at(b, 32),
            alive: u32_at(b, 36),
            not_alive: u32_at(b, 40),
            alive_change: i32_at(b, 44),
            not_alive_change: i32_at(b, 48),
            next_due: u64_at(b, 56),
            last_publication_handle: u64_at(b, 64),
        }
    }
}
