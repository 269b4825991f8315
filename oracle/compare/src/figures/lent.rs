//! What is lent a head alone, pens alone, or makes the fresh state: each number
//! of places and each length of pens.

use lists::{Image, bench};
use reading::Head;
use reading::head::HEAD_BYTES;
use reading::layout::{
    FIGURES, GUID_BYTES, LARGE, LOST_BYTES, OUT_BYTES, Time, WRITERS_BYTES, places_of,
};

use crate::counts::{Counts, Fates, Row, Table, refused};
use crate::figures::{PENS, Request, around, figures};
use crate::fresh::same_fresh;
use crate::guarded::Guarded;
use crate::head_read::HeadRead;
use crate::read::{READ_BYTES, Read};
use crate::run::Parting;

/// What becomes of a read.
const FATES: Fates = &["told", "1", "3"];

/// The place in `FATES`.
fn fate(number: u8) -> Result<usize, Parting> {
    if number == 0 { Ok(0) } else { refused(FATES, number) }
}

/// Status or changes.
#[derive(Debug, Clone, PartialEq, Eq)]
pub struct HeadCase {
    pub read: HeadRead,
    pub figure: u16,
    pub instances: u32,
    /// The lengths of head and answer.
    pub head: usize,
    pub answer: usize,
    pub laid: bool,
}

/// Numbers of instances that a head counts.
const COUNTED: [u32; 6] = [0, 31, 32, 33, 128, 129];

pub fn heads() -> Vec<HeadCase> {
    let mut all = Vec::new();
    for read in HeadRead::ALL {
        for figure in figures() {
            for instances in COUNTED {
                for head in around(HEAD_BYTES) {
                    let lent = |answer| {
                        [true, false].map(|laid| HeadCase {
                            read,
                            figure,
                            instances,
                            head,
                            answer,
                            laid,
                        })
                    };
                    all.extend(around(read.stated()).into_iter().flat_map(lent));
                }
            }
        }
    }
    all
}

impl HeadCase {
    fn bytes(&self) -> Vec<u8> {
        let fresh = Head::fresh(self.figure);
        let next_handle = u64::from(self.instances) + 1;
        let head = Head { instances: self.instances, next_handle, changes: 7, ..fresh };
        let mut bytes = head.bytes().to_vec();
        if !self.laid {
            bytes[29] = 2;
        }
        bytes.resize(self.head, 0);
        bytes
    }

    pub fn compared(&self, library: &mut impl FnMut(Request<'_>) -> u32) -> Result<usize, Parting> {
        let ask = |read, head: &[u8], answer: &mut [u8]| library(Request::Head(read, head, answer));
        fate(self.read.same(&self.bytes(), self.answer, ask)?)
    }
}

pub type HeadTally = Counts<HeadCase>;

pub fn head_tally() -> HeadTally {
    type Sort = Row<HeadCase>;
    let answers = [
        Sort::of("shorter", |case| case.answer < case.read.stated()),
        Sort::of("as stated", |case| case.answer == case.read.stated()),
    ];
    let tables = vec![
        Table::by("read", HeadRead::ALL.map(HeadRead::name), |case: &HeadCase| case.read.name()),
        Table::by("places in the head", figures(), |case: &HeadCase| case.figure),
        Table::by("instances", COUNTED, |case: &HeadCase| case.instances),
        Table::by("length of the head", around(HEAD_BYTES), |case: &HeadCase| case.head),
        Table::of("head", [Sort::of("laid out", |case| case.laid)]).and("presence 2"),
        Table::of("answer", answers).and("longer"),
        Table::all(),
    ];
    Counts::new(FATES, tables)
}

/// The lengths of head, pens, writers and Lost.
#[derive(Debug, Clone, Copy, PartialEq, Eq)]
pub struct FreshCase(pub [usize; 4]);

pub fn fresh() -> Vec<FreshCase> {
    let mut all = Vec::new();
    for head in around(HEAD_BYTES) {
        for pens in PENS {
            for writers in around(WRITERS_BYTES) {
                all.extend(around(LOST_BYTES).map(|lost| FreshCase([head, pens, writers, lost])));
            }
        }
    }
    all
}

impl FreshCase {
    pub fn compared(&self, library: &mut impl FnMut(Request<'_>) -> u32) -> Result<usize, Parting> {
        let refused = same_fresh(self.0, |lent| library(Request::Fresh(lent)))?;
        let places = places_of(self.0[1]).filter(|_| refused == 0);
        Ok(FIGURES.iter().position(|figure| Some(*figure) == places).unwrap_or(FIGURES.len()))
    }
}

pub type FreshTally = Counts<FreshCase>;

/// By the number of places that the state has, or the refusal.
pub fn fresh_tally() -> FreshTally {
    let of = |name, which: usize, lengths: &[usize]| {
        Table::by(name, lengths.to_vec(), move |case: &FreshCase| case.0[which])
    };
    let tables = vec![
        of("length of the head", 0, &around(HEAD_BYTES)),
        of("length of pens", 1, &PENS),
        of("of writers", 2, &around(WRITERS_BYTES)),
        of("of Lost", 3, &around(LOST_BYTES)),
        Table::all(),
    ];
    Counts::new(&["32 places", "128 places", "1"], tables)
}

/// A read of instances.
#[derive(Debug, Clone, PartialEq, Eq)]
pub struct TableCase {
    pub read: Read,
    /// Before the table was cut off.
    pub instances: u8,
    /// Whether the last byte lent is one that no record has.
    pub stray: bool,
    /// The lengths of pens and answer.
    pub pens: usize,
    pub answer: usize,
}

/// Instances in a table, about the two numbers of places.
const TABLES: [u8; 7] = [0, 1, 31, 32, 33, 127, 128];
/// Instances that are asked for.
const ASKED: [u8; 4] = [1, 32, 33, 128];

pub fn tables() -> Vec<TableCase> {
    let mut all = Vec::new();
    for read in reads() {
        for instances in TABLES {
            for pens in PENS {
                for answer in around(READ_BYTES) {
                    let lent =
                        |stray| TableCase { read: read.clone(), instances, stray, pens, answer };
                    all.extend([false, true].map(lent));
                }
            }
        }
    }
    all
}

/// Every read: of each instance asked for, and of all.
fn reads() -> Vec<Read> {
    let time = Time { seconds: 1, nanoseconds: 0 };
    let of_key = |n: u8| {
        let key = [n; 16];
        let place = usize::from(n);
        [
            Read::Filter { key, time, separation: 1 },
            Read::Order { key, time, by_source: 1 },
            Read::LastDelivered { key },
            Read::NextHandle { previous: u64::from(n) - 1 },
            Read::HandleAt { position: place - 1 },
            Read::Holder { key },
            Read::Lookup { guid: key },
            Read::WouldLeave { gone: key.to_vec(), views: 3 },
        ]
    };
    let gone: Vec<u8> = (1..=128).flat_map(|n| [n; GUID_BYTES]).collect();
    let last = [
        Read::NextHandle { previous: 128 },
        Read::HandleAt { position: 128 },
        Read::Left { gone, views: 3, out: OUT_BYTES },
    ];
    ASKED.into_iter().flat_map(of_key).chain(last).collect()
}

impl TableCase {
    /// Each instance has a holder, a last time of both sorts and one writer.
    fn lent(&self) -> Vec<u8> {
        let mut state = bench::numbered(LARGE, self.instances);
        for i in &mut state.instances {
            let time = Some(Time { seconds: 1, nanoseconds: 0 });
            (i.last_delivered, i.last_filter) = (time, time);
            i.holder = Some(i.key[..5].to_vec());
            i.writers = vec![i.key];
        }
        let mut pens = Image::of_state(&state).pens;
        pens.truncate(self.pens);
        if let Some(last) = pens.last_mut().filter(|_| self.stray) {
            *last = 1;
        }
        pens
    }

    /// Behind the pens stand bytes that are not lent.
    pub fn compared(&self, library: &mut impl FnMut(Request<'_>) -> u32) -> Result<usize, Parting> {
        let pens = Guarded::of(&self.lent());
        let ask = |read: &Read, pens: &[u8], out: &mut [u8], answer: &mut [u8]| {
            library(Request::Table { read, pens, out, answer })
        };
        fate(self.read.same(pens.bytes(), self.answer, ask)?)
    }
}

pub type TableTally = Counts<TableCase>;

pub fn table_tally() -> TableTally {
    let mut names: Vec<&str> = reads().iter().map(Read::name).collect();
    names.sort_unstable();
    names.dedup();
    let zeros = Row::of("zeros", |case: &TableCase| !case.stray);
    let tables = vec![
        Table::by("read", names, |case: &TableCase| case.read.name()),
        Table::by("instances", TABLES, |case: &TableCase| case.instances),
        Table::by("length of pens", PENS, |case: &TableCase| case.pens),
        Table::of("behind the records", [zeros]).and("a stray byte"),
        Table::by("answer", around(READ_BYTES), |case: &TableCase| case.answer),
        Table::all(),
    ];
    Counts::new(FATES, tables)
}
