//! What lists meet of the number of places for instances, counted.

use std::fmt;

use reading::layout::{LARGE, SMALL, is_figure, pens_bytes, places_of};
use reading::sheet::{SHEET_BYTES, known_code};
use reading::{Answer, Head};

use crate::image::Lengths;

/// A call as it was lent, and its answer.
#[derive(Clone, Copy)]
pub struct Met<'a> {
    pub head: &'a Head,
    pub lengths: &'a Lengths,
    pub sheet: &'a [u8],
    pub answer: &'a Answer,
}

type Sort = (&'static str, fn(Met<'_>) -> bool);

/// What is counted, each by name; one call may be of several.
const SORTS: [Sort; 16] = [
    ("accepted with 32 places", |m| m.answered(SMALL, 0)),
    ("accepted with 128 places", |m| m.answered(LARGE, 0)),
    ("refused as 9 with 32 places", |m| m.answered(SMALL, 9)),
    ("refused as 9 with 128 places", |m| m.answered(LARGE, 9)),
    ("none at a limit with 32 places taken", |m| m.none_at_limit(SMALL)),
    ("none at a limit with 128 places taken", |m| m.none_at_limit(LARGE)),
    ("outcome 3 with 32 places taken", |m| m.full(SMALL) && m.answer.outcome == 3),
    ("outcome 3 with 128 places taken", |m| m.full(LARGE) && m.answer.outcome == 3),
    ("65,536 bytes refused with 32 places", |m| m.lent_as(SMALL, LARGE)),
    ("16,384 bytes refused with 128 places", |m| m.lent_as(LARGE, SMALL)),
    ("33 instances refused with 32 places", |m| m.beyond(SMALL)),
    ("129 instances refused with 128 places", |m| m.beyond(LARGE)),
    ("another number of places refused", |m| m.other_figure()),
    ("the same with pens of just that many", |m| m.other_figure() && m.fits_pens()),
    ("the same beside another length", |m| m.other_figure() && m.odd_length()),
    ("the same beside an unknown code", |m| m.other_figure() && m.unknown_code()),
];

impl Met<'_> {
    fn answered(self, places: u16, number: u8) -> bool {
        self.head.places == places && self.answer.number == number
    }

    /// Accepted on a table without a free place.
    fn full(self, places: u16) -> bool {
        self.answered(places, 0) && self.head.instances == u32::from(places)
    }

    fn none_at_limit(self, places: u16) -> bool {
        let limited = matches!(self.sheet.get(81), Some(2 | 9));
        self.full(places) && limited && !self.answer.present
    }

    /// Refused for pens of the other number of places.
    fn lent_as(self, places: u16, other: u16) -> bool {
        self.answered(places, 1) && self.lengths.pens == pens_bytes(other)
    }

    fn beyond(self, places: u16) -> bool {
        self.answered(places, 3) && self.head.instances == u32::from(places) + 1
    }

    fn other_figure(self) -> bool {
        !is_figure(self.head.places) && self.answer.number == 3
    }

    fn fits_pens(self) -> bool {
        self.lengths.pens == pens_bytes(self.head.places)
    }

    /// One that is stated for neither number of places.
    fn odd_length(self) -> bool {
        let stated = places_of(self.lengths.pens).map(Lengths::stated);
        stated != Some(*self.lengths) || self.sheet.len() != SHEET_BYTES
    }

    fn unknown_code(self) -> bool {
        self.sheet.get(81).is_some_and(|code| !known_code(*code))
    }
}

/// How often each sort was met.
#[derive(Debug, Clone, Copy, Default)]
pub struct Figures([u64; SORTS.len()]);

impl Figures {
    pub fn see(&mut self, met: Met<'_>) {
        for (count, (_, is)) in self.0.iter_mut().zip(SORTS) {
            *count += u64::from(is(met));
        }
    }

    /// By name.
    pub fn counts(&self) -> impl Iterator<Item = (&'static str, u64)> {
        SORTS.iter().map(|(name, _)| *name).zip(self.0)
    }
}

impl fmt::Display for Figures {
    fn fmt(&self, f: &mut fmt::Formatter<'_>) -> fmt::Result {
        let lines: Vec<String> =
            self.counts().map(|(name, count)| format!("{name}: {count}")).collect();
        write!(f, "{}", lines.join("\n"))
    }
}
