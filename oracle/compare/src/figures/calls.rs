//! Calls: each number of places with each length of pens and with each other
//! fault; and tables with the last place free, full, and of one too many.

use lists::fill::Filled;
use lists::image::Lengths;
use lists::start::count_records;
use lists::{Step, bench};
use reading::State;
use reading::answer::ANSWER_BYTES;
use reading::head::HEAD_BYTES;
use reading::layout::{FIGURES, LARGE, Writer, is_figure, pens_bytes};
use reading::sheet::{SHEET_BYTES, known_code};

use crate::case::{Case, Fault};
use crate::counts::{Counts, Fates, Row, Table, refused};
use crate::figures::{PENS, Request, around, figures};
use crate::run::{Parting, Run};

/// Calls that write to pens, to writers, and to Lost and Out, and an unknown
/// code.
const CODES: [u8; 4] = [9, 32, 38, 22];
/// Calls that start an instance.
const STARTING: [u8; 5] = [1, 2, 8, 9, 48];
/// Neither is that of an instance or a writer there.
const KEY: [u8; 16] = [0xf0; 16];
const GUID: [u8; 16] = [0xf1; 16];

/// A buffer that is one byte short.
#[derive(Debug, Clone, Copy, PartialEq, Eq)]
pub enum Short {
    None,
    Writers,
    Lost,
    Out,
}

impl Short {
    const ALL: [Self; 4] = [Self::None, Self::Writers, Self::Lost, Self::Out];
}

#[derive(Debug, Clone, Copy, PartialEq, Eq)]
pub struct CallCase {
    pub figure: u16,
    pub instances: u16,
    /// The length of pens.
    pub pens: usize,
    pub code: u8,
    pub limit: i32,
    /// The lengths of sheet, answer and head.
    pub sheet: usize,
    pub answer: usize,
    pub head: usize,
    /// Whether the head is one, but for its number of places; else its
    /// presence of a last writer is 2.
    pub laid: bool,
    pub short: Short,
}

pub fn all() -> Vec<CallCase> {
    [every_fault(), every_head(), every_table()].concat()
}

/// Each number of places and length of pens, with each code and other length,
/// on a table of one instance.
fn every_length() -> impl Iterator<Item = CallCase> {
    let pens = |figure| PENS.map(|pens| CallCase { pens, ..CallCase::of(figure) });
    let codes = |case| CODES.map(|code| CallCase { code, ..case });
    let sheets = |case| around(SHEET_BYTES).map(|sheet| CallCase { sheet, ..case });
    let answers = |case| around(ANSWER_BYTES).map(|answer| CallCase { answer, ..case });
    let all = figures().into_iter().flat_map(pens);
    all.flat_map(codes).flat_map(sheets).flat_map(answers)
}

fn every_fault() -> Vec<CallCase> {
    let shorts = |case| Short::ALL.map(|short| CallCase { short, ..case });
    let heads = |case| [true, false].map(|laid| CallCase { laid, ..case });
    every_length().flat_map(shorts).flat_map(heads).collect()
}

/// Heads of another length.
fn every_head() -> Vec<CallCase> {
    let heads = |case| [HEAD_BYTES - 1, HEAD_BYTES + 1].map(|head| CallCase { head, ..case });
    every_length().flat_map(heads).collect()
}

/// At either number of places, without a limit and at one.
fn every_table() -> Vec<CallCase> {
    let counts = |figure| {
        [figure - 1, figure, figure + 1]
            .map(|instances| CallCase { instances, ..CallCase::of(figure) })
    };
    let codes = |case| STARTING.map(|code| CallCase { code, ..case });
    let limits =
        |case: CallCase| [-1, i32::from(case.instances)].map(|limit| CallCase { limit, ..case });
    FIGURES.into_iter().flat_map(counts).flat_map(codes).flat_map(limits).collect()
}

impl CallCase {
    /// Without a fault but that of its number of places.
    fn of(figure: u16) -> Self {
        Self {
            figure,
            instances: 1,
            pens: pens_bytes(figure),
            code: CODES[0],
            limit: -1,
            sheet: SHEET_BYTES,
            answer: ANSWER_BYTES,
            head: HEAD_BYTES,
            laid: true,
            short: Short::None,
        }
    }

    /// Of the large console where the number is neither's.
    fn places(&self) -> u16 {
        if is_figure(self.figure) { self.figure } else { LARGE }
    }

    fn start(&self) -> State {
        let mut state = bench::numbered(self.places(), self.instances as u8);
        state.writers = vec![Writer { guid: [1; 16], ..Writer::default() }];
        state.lost = vec![[2; 16]];
        count_records(&mut state);
        state
    }

    fn case(&self) -> Case {
        let mut sheet = Filled::code(self.code).key(KEY).guid(GUID).limit(self.limit).0;
        sheet.resize(self.sheet, 0);
        let less = |buffer| usize::from(self.short == buffer);
        let stated = Lengths::stated(self.places());
        let lengths = Lengths {
            pens: self.pens,
            writers: stated.writers - less(Short::Writers),
            lost: stated.lost - less(Short::Lost),
            out: stated.out - less(Short::Out),
        };
        let faults = [
            (!is_figure(self.figure)).then_some(Fault::Places(self.figure)),
            (self.answer != ANSWER_BYTES).then_some(Fault::AnswerLength(self.answer)),
            (!self.laid).then_some(Fault::HeadByte(29, 2)),
            (self.head != HEAD_BYTES).then_some(Fault::HeadLength(self.head)),
        ];
        let step = Step { lengths, ..Step::of(self.places(), sheet) };
        Case { step, faults: faults.into_iter().flatten().collect() }
    }

    /// Asks the library and the reading, and the Rust where it is at hand; the
    /// place in `FATES`.
    pub fn compared(&self, library: &mut impl FnMut(Request<'_>) -> u32) -> Result<usize, Parting> {
        let mut run = Run::of(&self.start(), |lent| library(Request::Call(lent)));
        let number = run.call(&self.case())?.number;
        if number == 0 { Ok(0) } else { refused(FATES, number) }
    }
}

const FATES: Fates = &["accepted", "1", "2", "3", "9"];

pub type CallTally = Counts<CallCase>;
type Sort = Row<CallCase>;

pub fn tally() -> CallTally {
    let known = [1, 2, 8, 9, 32, 38, 48];
    let shorts = Short::ALL.map(|n| Sort::of(format!("{n:?}"), move |case| case.short == n));
    let tables = vec![
        Table::by("places in the head", figures(), |case: &CallCase| case.figure),
        Table::by("length of pens", PENS, |case: &CallCase| case.pens),
        Table::by("code", known, |case: &CallCase| case.code).and("unknown"),
        Table::by("sheet", around(SHEET_BYTES), |case: &CallCase| case.sheet),
        Table::by("answer", around(ANSWER_BYTES), |case: &CallCase| case.answer),
        Table::by("length of the head", around(HEAD_BYTES), |case: &CallCase| case.head),
        Table::of("head", [Sort::of("laid out", |case| case.laid)]).and("presence 2"),
        Table::of("one byte short", shorts),
        Table::of("instances", instances()).and("one too many"),
        Table::of("other places beside", beside()),
        Table::all(),
    ];
    Counts::new(FATES, tables)
}

fn instances() -> [Sort; 3] {
    [
        Sort::of("one", |case| case.instances == 1),
        Sort::of("a place free", |case| case.instances < case.figure),
        Sort::of("full", |case| case.instances == case.figure),
    ]
}

/// What else is wrong where the number of places is neither console's.
fn beside() -> Vec<Sort> {
    let other = |name, and: fn(&CallCase) -> bool| {
        Sort::of(name, move |case: &CallCase| !is_figure(case.figure) && and(case))
    };
    vec![
        other("head", |case| case.head != HEAD_BYTES),
        other("answer", |case| case.answer != ANSWER_BYTES),
        other("sheet", |case| case.sheet != SHEET_BYTES),
        other("a short buffer", |case| case.short != Short::None),
        other("unknown code", |case| !known_code(case.code)),
        other("presence 2", |case| !case.laid),
        other("nothing, pens fit", |case| case.pens == pens_bytes(case.figure)),
        other("pens", |_| true),
    ]
}
