//! Section 2's records: an instance in 512 bytes, a writer in 40.
//!
//! Decoding is strict: a record that does not come out again byte for byte is
//! not well formed, which is how absent fields and unused bytes are held to zero.

use crate::bytes::{Guid, Key, array_at, i32_at, put, u16_at, u32_at, u64_at};

pub const INSTANCE_BYTES: usize = 512;
pub const WRITER_BYTES: usize = 40;
pub const GUID_BYTES: usize = 16;
/// Instances that there are places for: on the bench-top console, and on the
/// large one.
pub const SMALL: u16 = 32;
pub const LARGE: u16 = 128;
pub const FIGURES: [u16; 2] = [SMALL, LARGE];
/// Writer records that there are places for, on either.
pub const WRITER_PLACES: usize = 128;
/// GUIDs that one instance's writer set has places for.
pub const SET_PLACES: usize = 16;
/// GUIDs that Lost has places for.
pub const LOST_PLACES: usize = 256;
pub const HOLDER_PLACES: usize = 144;
pub const WRITERS_BYTES: usize = WRITER_PLACES * WRITER_BYTES;
pub const LOST_BYTES: usize = LOST_PLACES * GUID_BYTES;
pub const OUT_BYTES: usize = 4096;
/// Clocks and leases stay below this.
pub const CLOCK_END: u64 = 1 << 62;
/// The last value the next handle may have.
pub const LAST_NEXT_HANDLE: u64 = 1 << 63;
pub const NANOSECONDS: u32 = 1_000_000_000;

/// The length of pens with so many places.
pub const fn pens_bytes(places: u16) -> usize {
    places as usize * INSTANCE_BYTES
}

/// The number of places that a length of pens has, where it has one.
pub fn places_of(length: usize) -> Option<u16> {
    FIGURES.into_iter().find(|places| pens_bytes(*places) == length)
}

/// Whether a head may have that number of places.
pub fn is_figure(places: u16) -> bool {
    FIGURES.contains(&places)
}

#[derive(Debug, Clone, Copy, PartialEq, Eq, Default)]
pub struct Time {
    pub seconds: i32,
    pub nanoseconds: u32,
}

impl Time {
    pub fn at(b: &[u8], at: usize) -> Self {
        Self { seconds: i32_at(b, at), nanoseconds: u32_at(b, at + 4) }
    }

    pub fn bytes(self) -> [u8; 8] {
        let mut b = [0; 8];
        put(&mut b, 0, &self.seconds.to_be_bytes());
        put(&mut b, 4, &self.nanoseconds.to_be_bytes());
        b
    }

    pub fn in_range(self) -> bool {
        self.nanoseconds < NANOSECONDS
    }

    /// Nanoseconds since the epoch, negative before it; those of the second are
    /// added there too. Filters, destination order, autopurge and the deadline
    /// go by it (request 7 of 02).
    pub fn since_epoch(self) -> i64 {
        i64::from(self.seconds) * i64::from(NANOSECONDS) + i64::from(self.nanoseconds)
    }
}

#[derive(Debug, Clone, Copy, PartialEq, Eq, Default)]
pub enum Kind {
    #[default]
    Alive,
    Disposed,
    NoWriters,
}

impl Kind {
    fn from_bits(bits: u16) -> Option<Self> {
        match bits {
            0 => Some(Self::Alive),
            1 => Some(Self::Disposed),
            2 => Some(Self::NoWriters),
            _ => None,
        }
    }
}

#[derive(Debug, Clone, PartialEq, Eq, Default)]
pub struct Instance {
    pub key: Key,
    pub handle: u64,
    pub kind: Kind,
    pub view_new: bool,
    pub disposed_generations: i32,
    pub no_writers_generations: i32,
    pub writer_count: u32,
    pub samples: u32,
    pub last_sample: Option<Time>,
    pub last_delivered: Option<Time>,
    pub last_filter: Option<Time>,
    pub disposed_at: Option<Time>,
    pub no_writers_at: Option<Time>,
    pub owner: Option<(Guid, i32)>,
    pub owner_at: Option<Time>,
    pub holder: Option<Vec<u8>>,
    /// Strictly rising.
    pub writers: Vec<Guid>,
}

/// Where the six times stand, and the flag bit of each.
const TIMES: [(usize, u16); 6] = [(44, 12), (52, 11), (60, 10), (68, 9), (76, 8), (84, 6)];
const OWNER_BIT: u16 = 7;
const HOLDER_BIT: u16 = 5;

impl Instance {
    /// A new instance, alive and not seen yet.
    pub fn fresh(key: Key, handle: u64) -> Self {
        Self { key, handle, view_new: true, ..Self::default() }
    }

    /// In the order of their places.
    pub fn times(&self) -> [Option<Time>; 6] {
        [
            self.last_sample,
            self.last_delivered,
            self.last_filter,
            self.disposed_at,
            self.no_writers_at,
            self.owner_at,
        ]
    }

    /// The same, to be changed.
    pub fn times_mut(&mut self) -> [&mut Option<Time>; 6] {
        [
            &mut self.last_sample,
            &mut self.last_delivered,
            &mut self.last_filter,
            &mut self.disposed_at,
            &mut self.no_writers_at,
            &mut self.owner_at,
        ]
    }

    fn flags(&self) -> u16 {
        let mut flags = (self.kind as u16) << 14
            | u16::from(self.view_new) << 13
            | u16::from(self.owner.is_some()) << OWNER_BIT
            | u16::from(self.holder.is_some()) << HOLDER_BIT
            | self.writers.len() as u16;
        for (time, (_, bit)) in self.times().iter().zip(TIMES) {
            flags |= u16::from(time.is_some()) << bit;
        }
        flags
    }

    pub fn bytes(&self) -> [u8; INSTANCE_BYTES] {
        let mut b = [0; INSTANCE_BYTES];
        put(&mut b, 0, &self.key);
        put(&mut b, 16, &self.handle.to_be_bytes());
        put(&mut b, 24, &self.flags().to_be_bytes());
        put(&mut b, 28, &self.disposed_generations.to_be_bytes());
        put(&mut b, 32, &self.no_writers_generations.to_be_bytes());
        put(&mut b, 36, &self.writer_count.to_be_bytes());
        put(&mut b, 40, &self.samples.to_be_bytes());
        for (time, (at, _)) in self.times().iter().zip(TIMES) {
            put(&mut b, at, &time.map_or([0; 8], Time::bytes));
        }
        if let Some((guid, strength)) = self.owner {
            put(&mut b, 92, &guid);
            put(&mut b, 108, &strength.to_be_bytes());
        }
        if let Some(holder) = &self.holder {
            put(&mut b, 26, &(holder.len() as u16).to_be_bytes());
            put(&mut b, 112, holder);
        }
        for (place, guid) in self.writers.iter().enumerate() {
            put(&mut b, 256 + place * GUID_BYTES, guid);
        }
        b
    }

    /// The instance of a well-formed record, its handle aside.
    pub fn of_record(b: &[u8]) -> Option<Self> {
        let flags = u16_at(b, 24);
        let has = |bit: u16| flags >> bit & 1 == 1;
        let size = usize::from(flags & 31);
        let holder_length = usize::from(u16_at(b, 26));
        if size > SET_PLACES || holder_length > HOLDER_PLACES {
            return None;
        }
        let [last_sample, last_delivered, last_filter, disposed_at, no_writers_at, owner_at] =
            TIMES.map(|(at, bit)| has(bit).then(|| Time::at(b, at)));
        let instance = Self {
            key: array_at(b, 0),
            handle: u64_at(b, 16),
            kind: Kind::from_bits(flags >> 14)?,
            view_new: has(13),
            disposed_generations: i32_at(b, 28),
            no_writers_generations: i32_at(b, 32),
            writer_count: u32_at(b, 36),
            samples: u32_at(b, 40),
            last_sample,
            last_delivered,
            last_filter,
            disposed_at,
            no_writers_at,
            owner: has(OWNER_BIT).then(|| (array_at(b, 92), i32_at(b, 108))),
            owner_at,
            holder: has(HOLDER_BIT).then(|| b[112..112 + holder_length].to_vec()),
            writers: (0..size).map(|place| array_at(b, 256 + place * GUID_BYTES)).collect(),
        };
        (instance.in_range() && instance.bytes() == b).then_some(instance)
    }

    fn in_range(&self) -> bool {
        self.disposed_generations >= 0
            && self.no_writers_generations >= 0
            && self.times().iter().flatten().all(|time| time.in_range())
            && strictly_rising(&self.writers, |guid| *guid)
    }
}

#[derive(Debug, Clone, Copy, PartialEq, Eq, Default)]
pub enum WriterKind {
    #[default]
    Automatic,
    ByParticipant,
    ByTopic,
}

impl WriterKind {
    pub fn from_bits(bits: u8) -> Option<Self> {
        match bits {
            0 => Some(Self::Automatic),
            1 => Some(Self::ByParticipant),
            2 => Some(Self::ByTopic),
            _ => None,
        }
    }
}

#[derive(Debug, Clone, Copy, PartialEq, Eq, Default)]
pub enum Standing {
    #[default]
    Unasserted,
    Alive,
    NotAlive,
    Departed,
}

impl Standing {
    fn from_bits(bits: u8) -> Self {
        [Self::Unasserted, Self::Alive, Self::NotAlive, Self::Departed][usize::from(bits & 3)]
    }
}

#[derive(Debug, Clone, Copy, PartialEq, Eq, Default)]
pub struct Writer {
    pub guid: Guid,
    pub kind: WriterKind,
    pub standing: Standing,
    pub lease: Option<u64>,
    pub last_assertion: u64,
}

impl Writer {
    /// A writer lost with its participant: GUID and standing alone.
    pub fn departed(guid: Guid) -> Self {
        Self { guid, standing: Standing::Departed, ..Self::default() }
    }

    pub fn tracked(&self) -> bool {
        self.standing != Standing::Departed
    }

    /// When an alive writer with a lease is due; both stay below 2^62.
    pub fn due(&self) -> Option<u64> {
        let lease = self.lease?;
        (self.standing == Standing::Alive).then_some(self.last_assertion + lease)
    }

    pub fn bytes(&self) -> [u8; WRITER_BYTES] {
        let mut b = [0; WRITER_BYTES];
        put(&mut b, 0, &self.guid);
        b[16] = (self.kind as u8) << 6
            | (self.standing as u8) << 4
            | u8::from(self.lease.is_some()) << 3;
        put(&mut b, 24, &self.lease.unwrap_or(0).to_be_bytes());
        put(&mut b, 32, &self.last_assertion.to_be_bytes());
        b
    }

    /// The writer of a well-formed record.
    pub fn of_record(b: &[u8]) -> Option<Self> {
        let writer = Self {
            guid: array_at(b, 0),
            kind: WriterKind::from_bits(b[16] >> 6)?,
            standing: Standing::from_bits(b[16] >> 4),
            lease: (b[16] >> 3 & 1 == 1).then(|| u64_at(b, 24)),
            last_assertion: u64_at(b, 32),
        };
        let departed = !writer.tracked() && writer != Self::departed(writer.guid);
        let in_range = writer.lease.unwrap_or(0) < CLOCK_END && writer.last_assertion < CLOCK_END;
        (!departed && in_range && writer.bytes() == b).then_some(writer)
    }
}

/// Whether each element's key is above the one before it.
pub fn strictly_rising<T, K: Ord>(all: &[T], key: impl Fn(&T) -> K) -> bool {
    all.windows(2).all(|pair| key(&pair[0]) < key(&pair[1]))
}
