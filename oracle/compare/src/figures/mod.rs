//! Every number of places with every length of pens, in all that is lent a head
//! or pens; nothing here is by chance.

pub mod calls;
pub mod lent;

use std::fmt;

use lists::damage::WRONG_FIGURES;
use reading::layout::FIGURES;

use crate::counts::Counts;
use crate::head_read::HeadRead;
use crate::library::{self, Lent};
use crate::read::Read;
use crate::run::Parting;
use calls::{CallCase, CallTally};
use lent::{FreshCase, FreshTally, HeadCase, HeadTally, TableCase, TableTally};

/// Lengths of pens: the two stated ones, those with just as many places as a
/// wrong number up to 129 says, and one byte off.
pub const PENS: [usize; 13] = [
    0, 512, 15_872, 16_383, 16_384, 16_385, 16_896, 32_768, 65_024, 65_535, 65_536, 65_537, 66_048,
];

/// Each number of places, right or wrong, rising.
pub fn figures() -> Vec<u16> {
    let mut all = [&FIGURES[..], &WRONG_FIGURES].concat();
    all.sort_unstable();
    all
}

/// One byte less than stated, as stated, one more.
pub fn around(stated: usize) -> [usize; 3] {
    [stated - 1, stated, stated + 1]
}

/// What a library is asked for.
pub enum Request<'a> {
    Call(Lent<'a>),
    Head(HeadRead, &'a [u8], &'a mut [u8]),
    /// Head, pens, writers and Lost.
    Fresh([&'a mut [u8]; 4]),
    Table {
        read: &'a Read,
        pens: &'a [u8],
        out: &'a mut [u8],
        answer: &'a mut [u8],
    },
}

/// By the static library.
pub fn linked(request: Request<'_>) -> u32 {
    match request {
        Request::Call(lent) => library::call(lent),
        Request::Head(read, head, answer) => read.ask(head, answer),
        Request::Fresh([head, pens, writers, lost]) => library::fresh(head, pens, writers, lost),
        Request::Table { read, pens, out, answer } => read.ask(pens, out, answer),
    }
}

/// A case of one of the four sorts.
#[derive(Debug, Clone, PartialEq, Eq)]
pub enum FigureCase {
    Call(CallCase),
    Head(HeadCase),
    Fresh(FreshCase),
    Table(TableCase),
}

/// The cases of each sort, counted.
pub struct FigureTally {
    calls: CallTally,
    heads: HeadTally,
    fresh: FreshTally,
    tables: TableTally,
}

/// Compares all cases, counting them; the first that parts comes back.
pub fn compare_figures(
    mut library: impl FnMut(Request<'_>) -> u32,
) -> Result<FigureTally, Box<(FigureCase, Parting)>> {
    let mut tally = FigureTally {
        calls: calls::tally(),
        heads: lent::head_tally(),
        fresh: lent::fresh_tally(),
        tables: lent::table_tally(),
    };
    for case in calls::all() {
        let fate = case.compared(&mut library).map_err(parted(FigureCase::Call, &case))?;
        tally.calls.see(&case, fate);
    }
    for case in lent::heads() {
        let fate = case.compared(&mut library).map_err(parted(FigureCase::Head, &case))?;
        tally.heads.see(&case, fate);
    }
    for case in lent::fresh() {
        let fate = case.compared(&mut library).map_err(parted(FigureCase::Fresh, &case))?;
        tally.fresh.see(&case, fate);
    }
    for case in lent::tables() {
        let fate = case.compared(&mut library).map_err(parted(FigureCase::Table, &case))?;
        tally.tables.see(&case, fate);
    }
    Ok(tally)
}

fn parted<C: Clone>(
    of: fn(C) -> FigureCase,
    case: &C,
) -> impl FnOnce(Parting) -> Box<(FigureCase, Parting)> {
    move |parting| Box::new((of(case.clone()), parting))
}

impl FigureTally {
    pub fn cases(&self) -> u64 {
        self.calls.cases + self.heads.cases + self.fresh.cases + self.tables.cases
    }

    /// The sorts, and the fates, that no case had.
    pub fn missing(&self) -> Vec<String> {
        [
            missing("calls", &self.calls),
            missing("heads", &self.heads),
            missing("fresh", &self.fresh),
            missing("tables", &self.tables),
        ]
        .concat()
    }
}

fn missing<C>(what: &str, counts: &Counts<C>) -> Vec<String> {
    counts.missing().iter().map(|sort| format!("{what}: {sort}")).collect()
}

impl fmt::Display for FigureTally {
    fn fmt(&self, f: &mut fmt::Formatter<'_>) -> fmt::Result {
        writeln!(f, "calls\n{}", self.calls)?;
        writeln!(f, "status and changes, lent a head\n{}", self.heads)?;
        writeln!(f, "fresh\n{}", self.fresh)?;
        write!(f, "reads of instances, lent pens\n{}", self.tables)
    }
}
