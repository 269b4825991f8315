//! Recorded lists as bytes; docs/evidence/LISTS.md describes the format.
//!
//! Every record is 8 bytes of type and length and then that many bytes, all
//! fields of fixed size, most significant byte first, so that a reader needs
//! one buffer and no memory of its own.

use reading::answer::ANSWER_BYTES;
use reading::bytes::{array_at, fnv1a, put, u16_at, u32_at, u64_at};
use reading::head::HEAD_BYTES;
use reading::layout::{GUID_BYTES, INSTANCE_BYTES, WRITER_BYTES, is_figure};
use reading::{Answer, Head};

use crate::image::{
    Buffer, Edit, Image, LOST_MOST, Lengths, PENS_MOST, SHEET_MOST, Step, WRITERS_MOST,
};

pub const VERSION: u32 = 2;
const RECORD_HEAD: usize = 8;
/// What a call record has before its sheet.
const CALL_FIELDS: usize = 48 + ANSWER_BYTES + HEAD_BYTES;

const BEGIN: u8 = 1;
const LIST: u8 = 2;
const PUT: u8 = 3;
const HEAD: u8 = 4;
const CALL: u8 = 5;
const EXPECT: u8 = 6;
const END: u8 = 7;

/// Calls that a list has, as bits.
pub const INSTANCE_CALLS: u8 = 1;
pub const LIVELINESS_CALLS: u8 = 2;
pub const JOINED_CALLS: u8 = 4;

/// What starts a list.
#[derive(Debug, Clone, PartialEq, Eq)]
pub struct Title {
    pub number: u32,
    pub calls: u8,
    /// For instances: its head becomes fresh with that number.
    pub places: u16,
    pub seed: u64,
    pub name: [u8; 16],
}

/// The digests of the four buffers as lent, after the call.
#[derive(Debug, Clone, Copy, PartialEq, Eq)]
pub struct Digests {
    pub out: u64,
    pub pens: u64,
    pub writers: u64,
    pub lost: u64,
}

impl Digests {
    pub fn of(image: &Image, lengths: &Lengths, out: &[u8]) -> Self {
        Self {
            out: fnv1a(out),
            pens: fnv1a(&image.pens[..lengths.pens]),
            writers: fnv1a(&image.writers[..lengths.writers]),
            lost: fnv1a(&image.lost[..lengths.lost]),
        }
    }
}

/// A call with what it must give.
#[derive(Debug, Clone, PartialEq, Eq)]
pub struct Recorded {
    pub sheet: Vec<u8>,
    pub lengths: Lengths,
    pub fill: u8,
    pub written: Vec<u8>,
    pub digests: Digests,
    pub answer: Answer,
    pub head: Head,
}

#[derive(Debug, Clone, PartialEq, Eq)]
pub enum Record {
    Begin { version: u32, lists: u32, calls: u32 },
    List(Title),
    Put(Edit),
    Head(Head),
    Call(Box<Recorded>),
    Expect(Edit),
    End,
}

impl Record {
    fn kind(&self) -> u8 {
        match self {
            Self::Begin { .. } => BEGIN,
            Self::List(_) => LIST,
            Self::Put(_) => PUT,
            Self::Head(_) => HEAD,
            Self::Call(_) => CALL,
            Self::Expect(_) => EXPECT,
            Self::End => END,
        }
    }

    fn body(&self) -> Vec<u8> {
        match self {
            Self::Begin { version, lists, calls } => {
                [version, lists, calls, &0].iter().flat_map(|n| n.to_be_bytes()).collect()
            }
            Self::List(title) => title_bytes(title),
            Self::Put(edit) | Self::Expect(edit) => edit_bytes(edit),
            Self::Head(head) => head.bytes().to_vec(),
            Self::Call(call) => call_bytes(call),
            Self::End => Vec::new(),
        }
    }

    pub fn bytes(&self) -> Vec<u8> {
        let body = self.body();
        let mut bytes = vec![self.kind(), 0, 0, 0];
        bytes.extend((body.len() as u32).to_be_bytes());
        bytes.extend(body);
        bytes
    }
}

fn title_bytes(title: &Title) -> Vec<u8> {
    let mut b = vec![0; 32];
    put(&mut b, 0, &title.number.to_be_bytes());
    b[4] = title.calls;
    put(&mut b, 6, &title.places.to_be_bytes());
    put(&mut b, 8, &title.seed.to_be_bytes());
    put(&mut b, 16, &title.name);
    b
}

fn edit_bytes(edit: &Edit) -> Vec<u8> {
    let mut b = vec![edit.buffer as u8, 0, 0, 0];
    b.extend((edit.offset as u32).to_be_bytes());
    b.extend(&edit.bytes);
    b
}

fn call_bytes(call: &Recorded) -> Vec<u8> {
    let mut b = vec![0; CALL_FIELDS];
    let l = &call.lengths;
    put(&mut b, 0, &(call.sheet.len() as u16).to_be_bytes());
    put(&mut b, 2, &(l.out as u16).to_be_bytes());
    put(&mut b, 4, &(l.pens as u32).to_be_bytes());
    put(&mut b, 8, &(l.writers as u16).to_be_bytes());
    put(&mut b, 10, &(l.lost as u16).to_be_bytes());
    b[12] = call.fill;
    put(&mut b, 14, &(call.written.len() as u16).to_be_bytes());
    let d = &call.digests;
    for (n, digest) in [d.out, d.pens, d.writers, d.lost].iter().enumerate() {
        put(&mut b, 16 + 8 * n, &digest.to_be_bytes());
    }
    put(&mut b, 48, &call.answer.bytes());
    put(&mut b, 48 + ANSWER_BYTES, &call.head.bytes());
    b.extend(&call.sheet);
    b.extend(&call.written);
    b
}

/// The records of a file, in order; none past one that is damaged.
pub fn records(file: &[u8]) -> Option<Vec<Record>> {
    let mut all = Vec::new();
    let mut rest = file;
    while !rest.is_empty() {
        if rest.len() < RECORD_HEAD {
            return None;
        }
        let length = u32_at(rest, 4) as usize;
        let body = rest.get(RECORD_HEAD..RECORD_HEAD + length)?;
        all.push(record(rest[0], body)?);
        rest = &rest[RECORD_HEAD + length..];
    }
    Some(all)
}

fn record(kind: u8, b: &[u8]) -> Option<Record> {
    Some(match kind {
        BEGIN if b.len() == 16 && u32_at(b, 0) == VERSION => {
            Record::Begin { version: VERSION, lists: u32_at(b, 4), calls: u32_at(b, 8) }
        }
        LIST if b.len() == 32 && is_figure(u16_at(b, 6)) => Record::List(Title {
            number: u32_at(b, 0),
            calls: b[4],
            places: u16_at(b, 6),
            seed: u64_at(b, 8),
            name: array_at(b, 16),
        }),
        PUT => Record::Put(edit(b)?),
        HEAD if b.len() == HEAD_BYTES => Record::Head(Head::of_bytes(b)),
        CALL => Record::Call(Box::new(call(b)?)),
        EXPECT => Record::Expect(edit(b)?),
        END if b.is_empty() => Record::End,
        _ => return None,
    })
}

fn edit(b: &[u8]) -> Option<Edit> {
    if b.len() < 8 {
        return None;
    }
    let (buffer, most) =
        *[(Buffer::Pens, PENS_MOST), (Buffer::Writers, WRITERS_MOST), (Buffer::Lost, LOST_MOST)]
            .get(usize::from(b[0]))?;
    let (offset, bytes) = (u32_at(b, 4) as usize, b[8..].to_vec());
    (offset + bytes.len() <= most).then_some(Edit { buffer, offset, bytes })
}

fn call(b: &[u8]) -> Option<Recorded> {
    if b.len() < CALL_FIELDS {
        return None;
    }
    let (sheet, written) = (usize::from(u16_at(b, 0)), usize::from(u16_at(b, 14)));
    let lengths = Lengths {
        out: usize::from(u16_at(b, 2)),
        pens: u32_at(b, 4) as usize,
        writers: usize::from(u16_at(b, 8)),
        lost: usize::from(u16_at(b, 10)),
    };
    if b.len() != CALL_FIELDS + sheet + written || sheet > SHEET_MOST || !lengths.in_range() {
        return None;
    }
    Some(Recorded {
        sheet: b[CALL_FIELDS..CALL_FIELDS + sheet].to_vec(),
        lengths,
        fill: b[12],
        written: b[CALL_FIELDS + sheet..].to_vec(),
        digests: Digests {
            out: u64_at(b, 16),
            pens: u64_at(b, 24),
            writers: u64_at(b, 32),
            lost: u64_at(b, 40),
        },
        answer: Answer::of_bytes(&b[48..48 + ANSWER_BYTES]),
        head: Head::of_bytes(&b[48 + ANSWER_BYTES..CALL_FIELDS]),
    })
}

impl Recorded {
    /// The step that this call was; damage stands in records of its own.
    pub fn step(&self) -> Step {
        let (sheet, lengths, fill) = (self.sheet.clone(), self.lengths, self.fill);
        Step { sheet, lengths, fill, damaged_head: None, damage: Vec::new() }
    }
}

/// The used records of an image, each without the zeros that it ends in.
pub fn used(image: &Image) -> Vec<Edit> {
    let head = &image.head;
    let parts = [
        (Buffer::Pens, &image.pens, head.instances, INSTANCE_BYTES),
        (Buffer::Writers, &image.writers, head.writer_records, WRITER_BYTES),
        (Buffer::Lost, &image.lost, head.lost, GUID_BYTES),
    ];
    let mut edits = Vec::new();
    for (buffer, bytes, count, size) in parts {
        for place in 0..count as usize {
            let record = &bytes[place * size..(place + 1) * size];
            let end = record.iter().rposition(|byte| *byte != 0).map_or(1, |last| last + 1);
            edits.push(Edit { buffer, offset: place * size, bytes: record[..end].to_vec() });
        }
    }
    edits
}
