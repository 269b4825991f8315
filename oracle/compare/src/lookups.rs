//! A writer's instance looked up, by the library and the reading.

use std::fmt;
use std::rc::Rc;

use lists::LookupTable;
use lists::rng::Rng;
use reading::bytes::{Guid, all_zero, put, u64_at};
use reading::layout::{INSTANCE_BYTES, Instance, SMALL, pens_bytes};
use reading::reads;

use crate::added::{Added, Answered, Case, Library, Told};
use crate::case::{Field, hex, write_fields};
use crate::counts::{Fates, Table};
use crate::library;
use crate::lookup_tally::{Met, lookup_sorts};
use crate::run::Parting;

/// Pens as lent, and the instances that the reading finds there, or its
/// refusal.
pub struct LentPens {
    pub bytes: Vec<u8>,
    pub instances: Result<Vec<Instance>, u8>,
}

#[derive(Clone)]
pub struct Lookup {
    /// Shared by the lookups of one table.
    pub pens: Rc<LentPens>,
    pub guid: Guid,
    /// Asked twice in a row.
    pub again: bool,
}

pub type LookupCase = Case<Lookup>;

/// Where an answer tells whether there is an instance, and its handle.
const PRESENT_AT: usize = 2;
const HANDLE_AT: usize = 8;

/// A handle, or none, as it is answered.
pub fn as_told(found: Result<Option<u64>, u8>) -> Told {
    found.map(|found| {
        let handle = found.unwrap_or(0).to_be_bytes();
        Answered::of(&[(PRESENT_AT, &[found.is_some().into()]), (HANDLE_AT, &handle)])
    })
}

impl Added for Lookup {
    const NAME: &'static str = "lookups";
    const FATES: Fates = &["found", "none", "1", "3"];
    type Met = Met;

    /// Of the GUIDs that a table is asked for, one is asked for again.
    fn of_seed(seed: u64) -> (Vec<Self>, Rng) {
        let LookupTable { pens, asked } = LookupTable::of_seed(seed);
        let (pens, mut rng) = (Rc::new(LentPens::of(pens)), Rng::new(!seed));
        let again = rng.below(asked.len());
        let lookup = |(n, guid)| Self { pens: Rc::clone(&pens), guid, again: n == again };
        (asked.into_iter().enumerate().map(lookup).collect(), rng)
    }

    fn lent(&self) -> Vec<&[u8]> {
        vec![&self.pens.bytes]
    }

    fn told(&self) -> Told {
        as_told(reads::instance_of_writer(&self.pens.bytes, &self.guid))
    }

    fn ask(&self, lent: &mut [&mut [u8]], answer: &mut [u8]) -> u32 {
        library::writer_lookup(lent[0], u64_at(&self.guid, 0), u64_at(&self.guid, 8), answer)
    }

    fn further(
        case: &LookupCase,
        told: &Told,
        library: &mut Library<'_, Self>,
    ) -> Result<(), Parting> {
        if case.asked.again { case.same(told, library) } else { Ok(()) }
    }

    fn fate(&self, told: &Answered) -> usize {
        usize::from(told.bytes[PRESENT_AT] == 0)
    }

    fn met(&self, told: &Told) -> Met {
        Met::of(self, told)
    }

    fn sorts() -> Vec<Table<Case<Met>>> {
        lookup_sorts()
    }

    /// Asked once, then by the table.
    fn smaller(&self) -> impl Iterator<Item = Self> {
        let once = self.again.then(|| Self { again: false, ..self.clone() });
        let tables = self.pens.smaller();
        let tables = tables.map(|pens| Self { pens: Rc::new(pens), ..self.clone() });
        once.into_iter().chain(tables)
    }

    fn shown(&self) -> String {
        let times = if self.again { "twice" } else { "once" };
        format!("{}asked {times} for {}", self.pens, hex(&self.guid))
    }
}

impl LentPens {
    pub fn of(bytes: Vec<u8>) -> Self {
        let instances = reads::table(&bytes);
        Self { bytes, instances }
    }

    /// The records, up to the first of zeros.
    fn records(&self) -> impl Iterator<Item = &[u8]> {
        self.bytes.chunks_exact(INSTANCE_BYTES).take_while(|record| !all_zero(record))
    }

    /// Without one record; those behind it move up.
    fn without(&self, place: usize) -> Self {
        let (from, mut bytes) = (place * INSTANCE_BYTES, self.bytes.clone());
        bytes.drain(from..from + INSTANCE_BYTES);
        bytes.resize(self.bytes.len(), 0);
        Self::of(bytes)
    }

    /// With another record in a place.
    fn with(&self, place: usize, instance: &Instance) -> Self {
        let mut bytes = self.bytes.clone();
        put(&mut bytes, place * INSTANCE_BYTES, &instance.bytes());
        Self::of(bytes)
    }

    /// With 32 places, where all records are in front.
    fn of_small_size(&self) -> Option<Self> {
        let (front, behind) = self.bytes.split_at_checked(pens_bytes(SMALL))?;
        (!behind.is_empty() && all_zero(behind)).then(|| Self::of(front.to_vec()))
    }

    /// Smaller tables: of fewer places, with an instance less, with a plainer
    /// one.
    fn smaller(&self) -> impl Iterator<Item = Self> {
        let fewer = (0..self.records().count()).rev().map(|place| self.without(place));
        let plainer = self.records().enumerate().flat_map(move |(place, record)| {
            plainer(record).into_iter().map(move |instance| self.with(place, &instance))
        });
        self.of_small_size().into_iter().chain(fewer).chain(plainer)
    }
}

/// What an instance may do without.
const LESS: [fn(&mut Instance); 12] = [
    |i| i.owner = None,
    |i| i.holder = None,
    |i| i.disposed_generations = 0,
    |i| i.no_writers_generations = 0,
    |i| i.writer_count = 0,
    |i| i.samples = 0,
    |i| i.last_sample = None,
    |i| i.last_delivered = None,
    |i| i.last_filter = None,
    |i| i.disposed_at = None,
    |i| i.no_writers_at = None,
    |i| i.owner_at = None,
];

/// A fresh one of its kind and set, which most often does; then with one field,
/// or one GUID, less.
fn plainer(record: &[u8]) -> Vec<Instance> {
    let Some(instance) = Instance::of_record(record) else { return Vec::new() };
    let Instance { key, handle, kind, writers, .. } = &instance;
    let fresh = Instance::fresh(*key, *handle);
    let fresh = Instance { kind: *kind, writers: writers.clone(), ..fresh };
    let field_less = LESS.iter().map(|less| {
        let mut i = instance.clone();
        less(&mut i);
        i
    });
    let guid_less = (0..writers.len()).map(|n| {
        let writers = [&writers[..n], &writers[n + 1..]].concat();
        Instance { writers, ..instance.clone() }
    });
    let all = [fresh].into_iter().chain(field_less).chain(guid_less);
    all.filter(|plainer| *plainer != instance).collect()
}

/// The fields of a record between its handle and its set.
const FIELDS: [Field; 14] = [
    ("flags", 24, 26),
    ("holder length", 26, 28),
    ("disposed generations", 28, 32),
    ("no writers generations", 32, 36),
    ("writer count", 36, 40),
    ("samples", 40, 44),
    ("last sample", 44, 52),
    ("last delivered", 52, 60),
    ("last filter", 60, 68),
    ("disposed at", 68, 76),
    ("no writers at", 76, 84),
    ("owner at", 84, 92),
    ("owner", 92, 112),
    ("holder", 112, 256),
];

impl fmt::Display for LentPens {
    fn fmt(&self, f: &mut fmt::Formatter<'_>) -> fmt::Result {
        writeln!(f, "pens of {} bytes", self.bytes.len())?;
        for record in self.records() {
            let Some(i) = Instance::of_record(record) else {
                writeln!(f, "record {}", hex(record))?;
                continue;
            };
            let writers: Vec<String> = i.writers.iter().map(|guid| hex(guid)).collect();
            write!(f, "key {}, handle {}, {:?}", hex(&i.key), i.handle, i.kind)?;
            write_fields(f, &FIELDS, record)?;
            writeln!(f, ", writers {}", writers.join(" "))?;
        }
        Ok(())
    }
}
