//! Head and buffers as one state, and what makes them well formed (section 2).

use crate::Misreading;
use crate::bytes::{Guid, Key, all_zero};
use crate::head::Head;
use crate::layout::{
    GUID_BYTES, INSTANCE_BYTES, Instance, LAST_NEXT_HANDLE, LOST_PLACES, Standing, WRITER_BYTES,
    WRITER_PLACES, Writer, is_figure, strictly_rising,
};

/// Count minus change stays within this on both sides of 0.
const CHANGE_SPAN: i64 = 1 << 30;

/// A well-formed head with the records it counts.
#[derive(Debug, Clone, PartialEq, Eq)]
pub struct State {
    pub head: Head,
    pub instances: Vec<Instance>,
    pub writers: Vec<Writer>,
    pub lost: Vec<Guid>,
    /// Wrong on purpose in one place, for the tests of the comparison.
    pub misreading: Option<Misreading>,
}

impl State {
    pub fn fresh(places: u16) -> Self {
        Self {
            head: Head::fresh(places),
            instances: Vec::new(),
            writers: Vec::new(),
            lost: Vec::new(),
            misreading: None,
        }
    }

    /// Whether nothing has happened yet.
    pub fn is_fresh(&self) -> bool {
        *self == Self::fresh(self.head.places)
    }

    /// None where head and buffers are not well formed. The buffers have
    /// their lengths.
    pub fn read(head: &Head, pens: &[u8], writers: &[u8], lost: &[u8]) -> Option<Self> {
        if !is_figure(head.places) {
            return None;
        }
        let places = usize::from(head.places);
        let state = Self {
            head: *head,
            instances: records(pens, INSTANCE_BYTES, head.instances, places, Instance::of_record)?,
            writers: records(
                writers,
                WRITER_BYTES,
                head.writer_records,
                WRITER_PLACES,
                Writer::of_record,
            )?,
            lost: records(lost, GUID_BYTES, head.lost, LOST_PLACES, |b| b.try_into().ok())?,
            misreading: None,
        };
        state.well_formed().then_some(state)
    }

    /// The clauses beyond those of single records and unused bytes.
    pub fn well_formed(&self) -> bool {
        let head = &self.head;
        is_figure(head.places)
            && strictly_rising(&self.instances, |i| i.key)
            && strictly_rising(&self.writers, |w| w.guid)
            && (1..=LAST_NEXT_HANDLE).contains(&head.next_handle)
            && handles_fit(&self.instances, head.next_handle)
            && head.alive == count(&self.writers, Class::Alive)
            && head.not_alive == count(&self.writers, Class::NotAlive)
            && within_span(head.alive, i64::from(head.alive_change))
            && within_span(head.not_alive, i64::from(head.not_alive_change))
    }

    /// Lays the state out in the buffers, whose unused bytes become zero.
    pub fn write(&self, head: &mut Head, pens: &mut [u8], writers: &mut [u8], lost: &mut [u8]) {
        *head = self.head;
        head.instances = self.instances.len() as u32;
        head.writer_records = self.writers.len() as u32;
        head.lost = self.lost.len() as u32;
        lay_out(pens, INSTANCE_BYTES, &self.instances, |i, b| b.copy_from_slice(&i.bytes()));
        lay_out(writers, WRITER_BYTES, &self.writers, |w, b| b.copy_from_slice(&w.bytes()));
        lay_out(lost, GUID_BYTES, &self.lost, |g, b| b.copy_from_slice(g));
    }

    /// The place of a key, or the place to insert it.
    pub fn place(&self, key: &Key) -> Result<usize, usize> {
        self.instances.binary_search_by(|i| i.key.cmp(key))
    }

    pub fn find(&self, key: &Key) -> Option<&Instance> {
        self.place(key).ok().map(|place| &self.instances[place])
    }

    pub fn instance(&mut self, key: &Key) -> Option<&mut Instance> {
        let place = self.place(key).ok()?;
        Some(&mut self.instances[place])
    }

    pub fn by_handle(&mut self, handle: u64) -> Option<&mut Instance> {
        self.instances.iter_mut().find(|i| i.handle == handle)
    }

    pub fn misreads(&self, which: Misreading) -> bool {
        self.misreading == Some(which)
    }
}

/// The first `count` records, the rest of the buffer being zero.
fn records<T>(
    buffer: &[u8],
    size: usize,
    count: u32,
    places: usize,
    decode: impl Fn(&[u8]) -> Option<T>,
) -> Option<Vec<T>> {
    let count = usize::try_from(count).ok().filter(|count| *count <= places)?;
    let (used, unused) = buffer.split_at(count * size);
    if !all_zero(unused) {
        return None;
    }
    used.chunks(size).map(decode).collect()
}

fn lay_out<T>(buffer: &mut [u8], size: usize, all: &[T], put: impl Fn(&T, &mut [u8])) {
    let (used, unused) = buffer.split_at_mut(all.len() * size);
    for (record, bytes) in all.iter().zip(used.chunks_mut(size)) {
        put(record, bytes);
    }
    unused.fill(0);
}

/// No two handles alike, none nil, and all below the next one.
fn handles_fit(instances: &[Instance], next: u64) -> bool {
    let mut handles: Vec<u64> = instances.iter().map(|i| i.handle).collect();
    handles.sort_unstable();
    strictly_rising(&handles, |h| *h) && handles.iter().all(|h| (1..next).contains(h))
}

/// Whether a count less its change stays in range.
pub fn within_span(count: u32, change: i64) -> bool {
    (-CHANGE_SPAN..=CHANGE_SPAN).contains(&(i64::from(count) - change))
}

/// What a writer counts as.
#[derive(Debug, Clone, Copy, PartialEq, Eq)]
pub enum Class {
    Alive,
    NotAlive,
    Neither,
}

pub fn class(writer: &Writer) -> Class {
    match writer.standing {
        Standing::Alive => Class::Alive,
        Standing::NotAlive | Standing::Departed => Class::NotAlive,
        Standing::Unasserted => Class::Neither,
    }
}

pub fn count(writers: &[Writer], which: Class) -> u32 {
    writers.iter().filter(|w| class(w) == which).count() as u32
}
