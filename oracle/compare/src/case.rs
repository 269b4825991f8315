//! A call as the C boundary is lent it: a step of a list, and what only bytes
//! can have wrong.

use std::fmt;

use lists::Step;
use lists::damage::WRONG_FIGURES;
use lists::image::Lengths;
use lists::rng::Rng;
use reading::answer::ANSWER_BYTES;
use reading::bytes::{put, u16_at};
use reading::head::HEAD_BYTES;
use reading::layout::{FIGURES, is_figure, pens_bytes};
use reading::{Head, Sheet};

/// Where a head has its number of places.
pub const PLACES_AT: usize = 30;

/// A step, with faults of the boundary's own.
#[derive(Debug, Clone, PartialEq, Eq)]
pub struct Case {
    pub step: Step,
    pub faults: Vec<Fault>,
}

#[derive(Debug, Clone, Copy, PartialEq, Eq)]
pub enum Fault {
    HeadLength(usize),
    AnswerLength(usize),
    /// A byte of the head as lent.
    HeadByte(usize, u8),
    /// The number of places that the head as lent has.
    Places(u16),
}

impl Fault {
    /// One that a head can have.
    pub fn any(rng: &mut Rng, head: &Head) -> Self {
        let byte = 1 + rng.below(255) as u8;
        let guid = 48 + rng.below(16);
        match (rng.below(7), head.last_writer) {
            (0, _) => Self::HeadLength(rng.pick(&[0, 1, HEAD_BYTES - 1, HEAD_BYTES + 1, 128])),
            (1, _) => {
                Self::AnswerLength(rng.pick(&[0, 1, 24, ANSWER_BYTES - 1, ANSWER_BYTES + 1, 144]))
            }
            (2, _) => Self::HeadByte(28, byte),
            (3, _) => Self::HeadByte(29, byte.max(2)),
            (4, _) if rng.one_in(4) => Self::Places(rng.pick(&FIGURES)),
            (4, _) => Self::Places(rng.pick(&WRONG_FIGURES)),
            (_, None) => Self::HeadByte(guid, byte),
            (_, Some(_)) => Self::HeadByte(29, 0),
        }
    }

    /// Whether it makes lengths other than stated, or bytes that are no
    /// head's: a last writer of zeros that is then absent is one still.
    pub fn spoils(self, head: &Head, lengths: &Lengths) -> bool {
        match self {
            Self::HeadByte(at, byte) => {
                let mut bytes = head.bytes();
                bytes[at] = byte;
                !is_head(&bytes)
            }
            Self::Places(places) => !is_figure(places) || lengths.pens != pens_bytes(places),
            _ => true,
        }
    }
}

impl Case {
    /// The head's bytes as lent.
    pub fn head_bytes(&self, head: &Head) -> Vec<u8> {
        let mut bytes = head.bytes().to_vec();
        for fault in &self.faults {
            match *fault {
                Fault::HeadLength(length) => bytes.resize(length, 0),
                Fault::HeadByte(at, byte) => bytes[at] = byte,
                Fault::Places(places) => put(&mut bytes, PLACES_AT, &places.to_be_bytes()),
                Fault::AnswerLength(_) => {}
            }
        }
        bytes
    }

    pub fn answer_length(&self) -> usize {
        let length = |fault: &Fault| match *fault {
            Fault::AnswerLength(length) => Some(length),
            _ => None,
        };
        self.faults.iter().find_map(length).unwrap_or(ANSWER_BYTES)
    }

    /// Whether something is lent that a call must refuse.
    pub fn spoilt(&self) -> bool {
        !self.faults.is_empty() || self.step.damages()
    }

    /// Tells it, as a call of a list with so many places.
    pub fn write(&self, f: &mut fmt::Formatter<'_>, places: u16) -> fmt::Result {
        let Step { sheet: bytes, lengths, damaged_head, damage, .. } = &self.step;
        match Sheet::of(bytes) {
            Some(sheet) => write_sheet(f, sheet, bytes)?,
            None => write!(f, "sheet of {} bytes {}", bytes.len(), hex(bytes))?,
        }
        if *lengths != Lengths::stated(places) {
            write!(f, ", {lengths:?}")?;
        }
        if let Some(head) = damaged_head {
            write!(f, ", head {head:?}")?;
        }
        for edit in damage {
            write!(f, ", {:?} at {} {}", edit.buffer, edit.offset, hex(&edit.bytes))?;
        }
        self.faults.iter().try_for_each(|fault| write!(f, ", {fault:?}"))
    }
}

/// What bytes lent as a head meet before anything else that is lent is looked
/// at: 1 for their length, as they then have no number of places, and 3 for
/// that number.
pub fn first_refusal(head: &[u8]) -> Option<u8> {
    if head.len() != HEAD_BYTES {
        Some(1)
    } else if !is_figure(u16_at(head, PLACES_AT)) {
        Some(3)
    } else {
        None
    }
}

/// Whether 64 bytes are a head's, of whatever number of places.
pub fn is_head(bytes: &[u8]) -> bool {
    let present = u16_at(bytes, 28);
    let absent_is_zero = present == 1 || bytes[48..64] == [0; 16];
    present <= 1 && absent_is_zero
}

fn write_sheet(f: &mut fmt::Formatter<'_>, sheet: Sheet<'_>, bytes: &[u8]) -> fmt::Result {
    write!(f, "code {}", sheet.code())?;
    write_fields(f, &FIELDS, bytes)
}

/// A field of a layout: its name, and where its bytes begin and end.
pub type Field = (&'static str, usize, usize);

/// The fields that are not zero.
pub fn write_fields(f: &mut fmt::Formatter<'_>, fields: &[Field], bytes: &[u8]) -> fmt::Result {
    for &(name, from, to) in fields {
        if bytes[from..to].iter().any(|byte| *byte != 0) {
            write!(f, ", {name} {}", hex(&bytes[from..to]))?;
        }
    }
    Ok(())
}

/// The fields of a sheet but for the code.
pub const FIELDS: [Field; 12] = [
    ("key", 0, 16),
    ("GUID", 16, 32),
    ("handle", 32, 40),
    ("time 1", 40, 48),
    ("time 2", 48, 56),
    ("A", 56, 64),
    ("B", 64, 72),
    ("limit", 72, 76),
    ("strength", 76, 80),
    ("bits", 80, 81),
    ("holder length", 82, 84),
    ("holder", 84, 256),
];

/// Hexadecimal, without the zeros at the end.
pub fn hex(bytes: &[u8]) -> String {
    let end = bytes.iter().rposition(|byte| *byte != 0).map_or(0, |last| last + 1);
    let digits: String = bytes[..end].iter().map(|byte| format!("{byte:02x}")).collect();
    if end < bytes.len() { format!("{digits}..") } else { digits }
}
