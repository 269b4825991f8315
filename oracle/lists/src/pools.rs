//! The small pools a list draws from, so that its calls meet.

use reading::bytes::{Guid, Key};
use reading::layout::{CLOCK_END, NANOSECONDS, Time};

use crate::rng::Rng;

/// A GUID whose 64-bit FNV-1a is 0, so that its handle is the replacement 1.
pub const HASHES_TO_ZERO: Guid =
    [0xd5, 0x6b, 0xb9, 0x53, 0x42, 0x87, 0x08, 0x36, 0, 0, 0, 0, 0, 0, 0, 0];

/// The stretch that a list's times are of.
#[derive(Debug, Clone, Copy, PartialEq, Eq)]
pub enum Stretch {
    Before,
    /// Both sides of the epoch.
    Around,
    After,
    /// Both sides, up to the ends of all times.
    Any,
}

/// Times before the epoch are 2^30 seconds from it at most, but for lists of
/// any time, and so are those after it in lists of both sides: that is as far
/// as the Rust judges them.
const FAR: i32 = 1 << 30;

impl Stretch {
    /// One of these by list, so that few lists have times that the Rust does not
    /// judge. A little more than half of what is drawn is before the epoch: a
    /// delay after such a time may be past it, and half of what calls take stays.
    const DRAWN: [Self; 10] = [
        Self::Before,
        Self::Before,
        Self::Before,
        Self::Around,
        Self::Around,
        Self::Around,
        Self::After,
        Self::After,
        Self::After,
        Self::Any,
    ];

    /// A time near the epoch or, less often, at an end of the stretch.
    pub fn time(self, rng: &mut Rng) -> Time {
        let seconds = match (self, rng.below(12)) {
            (Self::Before | Self::Around, 0) => -FAR,
            (Self::Before, _) => -1 - rng.below(8) as i32,
            (Self::Around, 1) => FAR - 1,
            // The two seconds at the epoch above all: they cross it by little.
            (Self::Around, 2..8) => rng.pick(&[-1, -1, -1, -2, -4]),
            (Self::Around, _) => rng.pick(&[0, 0, 0, 1, 3]),
            (Self::After | Self::Any, 0) => i32::MAX,
            (Self::Any, 1) => i32::MIN,
            (Self::Any, 2) => i32::MIN + 1,
            (Self::Any, 3..7) => -1 - rng.below(9) as i32,
            (Self::After | Self::Any, _) => rng.below(8) as i32,
        };
        let last = NANOSECONDS - 1;
        let nanoseconds = match (self, seconds) {
            (Self::Around, 0) => rng.pick(&[0, 0, 0, 0, 1, 8, last]),
            (Self::Around | Self::Before, -1) => rng.pick(&[0, 7, last - 1, last, last, last]),
            _ => rng.pick(&[0, 0, 1, 7, 8, 10, 14, 15, last]),
        };
        Time { seconds, nanoseconds }
    }
}

pub struct Pools {
    keys: Vec<Key>,
    guids: Vec<Guid>,
    key_base: Key,
    prefixes: Vec<[u8; 12]>,
    /// Around which the list's clocks stand.
    pub clock: u64,
    pub stretch: Stretch,
}

impl Pools {
    /// Pools with up to so many GUIDs.
    pub fn new(rng: &mut Rng, guids: usize) -> Self {
        let mut key_base = [0; 16];
        if rng.one_in(2) {
            rng.fill(&mut key_base);
        }
        let prefixes = prefixes(rng);
        let mut pools = Self {
            keys: Vec::new(),
            guids: Vec::new(),
            key_base,
            prefixes,
            clock: rng.pick(&[1, 100, 1000, 1 << 40, CLOCK_END - 100]),
            stretch: rng.pick(&Stretch::DRAWN),
        };
        let keys = 1 + rng.below(9);
        for _ in 0..keys {
            let key = pools.any_key(rng);
            pools.keys.push(key);
        }
        for _ in 0..guids {
            let guid = pools.any_guid(rng);
            pools.guids.push(guid);
        }
        pools
    }

    /// A key of the pool, or of more than a table holds.
    pub fn key(&self, rng: &mut Rng, wide: bool) -> Key {
        if wide { self.any_key(rng) } else { rng.pick(&self.keys) }
    }

    pub fn guid(&self, rng: &mut Rng, wide: bool) -> Guid {
        if wide { self.any_guid(rng) } else { rng.pick(&self.guids) }
    }

    /// Keys differ in one byte, the first or the last.
    pub fn any_key(&self, rng: &mut Rng) -> Key {
        let mut key = self.key_base;
        match rng.below(12) {
            0 => [0; 16],
            1 => [0xff; 16],
            2..6 => {
                key[0] = rng.below(256) as u8;
                key
            }
            _ => {
                key[15] = rng.below(256) as u8;
                key
            }
        }
    }

    /// GUIDs of few participants, so that many share a prefix.
    pub fn any_guid(&self, rng: &mut Rng) -> Guid {
        match rng.below(40) {
            0 => [0; 16],
            1 => [0xff; 16],
            2 => HASHES_TO_ZERO,
            _ => {
                let mut guid = [0; 16];
                guid[..12].copy_from_slice(&rng.pick(&self.prefixes));
                guid[13] = rng.below(8) as u8;
                guid[14] = rng.below(8) as u8;
                guid[15] = rng.pick(&[0, 2, 3, 0xff]);
                guid
            }
        }
    }

    pub fn time(&self, rng: &mut Rng) -> Time {
        self.stretch.time(rng)
    }

    pub fn clock(&self, rng: &mut Rng) -> u64 {
        match rng.below(30) {
            0 => rng.pick(&[0, 1, CLOCK_END - 1]),
            _ => self.clock + rng.below(30) as u64,
        }
    }

    pub fn lease(&self, rng: &mut Rng) -> u64 {
        rng.pick(&[0, 1, 5, 5, 10, 10, 20, 20, CLOCK_END - 1])
    }

    pub fn strength(&self, rng: &mut Rng) -> i32 {
        rng.pick(&[i32::MIN, -1, 0, 0, 1, 1, 2, i32::MAX])
    }

    /// A holder of a length that there are places for.
    pub fn holder(&self, rng: &mut Rng) -> Vec<u8> {
        let length = rng.pick(&[0, 1, 4, 16, 24, 143, 144]);
        let mut holder = vec![0; length];
        rng.fill(&mut holder);
        holder
    }
}

/// Up to four prefixes that share all but one byte, the first or the last.
fn prefixes(rng: &mut Rng) -> Vec<[u8; 12]> {
    let mut base = [0; 12];
    if rng.one_in(2) {
        rng.fill(&mut base);
    }
    let at = rng.pick(&[0, 11]);
    (0..1 + rng.below(4))
        .map(|n| {
            let mut prefix = base;
            prefix[at] = prefix[at].wrapping_add(n as u8);
            prefix
        })
        .collect()
}
