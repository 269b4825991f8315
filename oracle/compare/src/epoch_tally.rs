//! What compared times, on both sides of the epoch, by how the Rust judged it
//! (request 7 of 02).

use std::fmt;

use judge::Way;
use lists::Comparison;
use lists::comparisons::Sort;
use lists::fill::times_taken;
use reading::gaps::Rule;
use reading::{Answer, Sheet};

use crate::counts::{Counts, Fates, Table};

/// So many calls are to meet every sort.
pub const MANY: u64 = 100_000;

/// How the Rust judged: as a call or read stands, given every time 2^30 seconds
/// later, or not.
const FATES: Fates = &["as it stands", "later", "not"];

/// What compares times.
#[derive(Debug, Clone, Copy, PartialEq, Eq)]
pub enum Asked {
    Code(u8),
    Filter,
    Order,
}

pub struct EpochTally {
    asked: Counts<Asked>,
    compared: Counts<Comparison>,
    accepted: u64,
    judged: u64,
    /// That accepted calls take, and those before the epoch.
    times: u64,
    before: u64,
}

impl Default for EpochTally {
    fn default() -> Self {
        let asked = [Asked::Code(48), Asked::Code(21), Asked::Filter, Asked::Order];
        let tables = vec![Table::by("compares times", asked, |asked: &Asked| *asked)];
        Self {
            asked: Counts::new(FATES, tables),
            compared: Counts::new(FATES, sorts()),
            accepted: 0,
            judged: 0,
            times: 0,
            before: 0,
        }
    }
}

/// A table for each rule.
fn sorts() -> Vec<Table<Comparison>> {
    let table = |(rule, name)| {
        let sorts = Sort::all().into_iter().filter(move |sort| sort.rule == rule);
        Table::by(name, sorts, Comparison::sort)
    };
    [(Rule::Order, "order"), (Rule::Filter, "filter"), (Rule::Purge, "autopurge")]
        .into_iter()
        .map(table)
        .collect()
}

impl EpochTally {
    /// A call, with what it compared, and how the Rust judged it.
    pub fn call(&mut self, sheet: &[u8], compared: &[Comparison], answer: &Answer, way: Way) {
        let Some(code) = Sheet::of(sheet).map(Sheet::code).filter(|_| answer.number == 0) else {
            return;
        };
        self.accepted += 1;
        self.judged += u64::from(way != Way::Alone);
        for time in times_taken(sheet) {
            self.times += 1;
            self.before += u64::from(time.seconds < 0);
        }
        self.see(Asked::Code(code), compared, way);
    }

    /// A read of a filter.
    pub fn read(&mut self, asked: Asked, compared: Option<Comparison>, way: Way) {
        self.see(asked, compared.as_slice(), way);
    }

    fn see(&mut self, asked: Asked, compared: &[Comparison], way: Way) {
        let fate = match way {
            Way::Untimed => return,
            Way::AsItStands => 0,
            Way::Later => 1,
            Way::Alone => 2,
        };
        self.asked.see(&asked, fate);
        compared.iter().for_each(|c| self.compared.see(c, fate));
    }

    /// What did not occur: of each code and read any fate, of comparisons a
    /// sort, as most sorts cannot have all fates.
    pub fn missing(&self) -> Vec<String> {
        [self.asked.missing_by_row(), self.compared.missing()].concat()
    }
}

impl fmt::Display for Asked {
    fn fmt(&self, f: &mut fmt::Formatter<'_>) -> fmt::Result {
        match self {
            Self::Code(code) => write!(f, "code {code}"),
            Self::Filter => write!(f, "filter read"),
            Self::Order => write!(f, "order read"),
        }
    }
}

impl fmt::Display for EpochTally {
    fn fmt(&self, f: &mut fmt::Formatter<'_>) -> fmt::Result {
        let share = |n: u64, of: u64| 100.0 * n as f64 / of.max(1) as f64;
        let Self { accepted, judged, times, before, .. } = *self;
        let (of_calls, of_times) = (share(judged, accepted), share(before, times));
        writeln!(f, "accepted calls that the Rust judged: {judged} of {accepted}, {of_calls:.2}%")?;
        writeln!(f, "times that they take before the epoch: {before} of {times}, {of_times:.2}%")?;
        write!(f, "{}{}", self.asked, self.compared)
    }
}
