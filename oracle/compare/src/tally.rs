//! What was run, counted by code and by number.

use std::fmt;

use lists::figures::Met;
use lists::generate::CODES;
use lists::image::Lengths;
use lists::{Figures, FirstOwners, Step};
use reading::head::HEAD_BYTES;
use reading::layout::SMALL;
use reading::sheet::{SHEET_BYTES, known_code};
use reading::{Answer, Head, State};

use crate::case::Case;
use crate::epoch_tally::EpochTally;

/// Accepted, and refusals 1 to 13.
const NUMBERS: usize = 14;

pub struct Tally {
    pub lists: u64,
    /// Lists with 32 places for instances, and their calls.
    pub small_lists: u64,
    pub small_calls: u64,
    /// Of the list that runs.
    places: u16,
    pub stored_starts: u64,
    pub calls: u64,
    /// States on which the reads were compared, and the reads.
    pub read: u64,
    pub reads: u64,
    pub damaged: u64,
    pub boundary_faults: u64,
    pub odd_lengths: u64,
    codes: Vec<[u64; NUMBERS]>,
    /// Sheets too short to have a code.
    no_code: [u64; NUMBERS],
    outcomes: [u64; 5],
    first_owners: FirstOwners,
    figures: Figures,
    pub epoch: EpochTally,
}

impl Default for Tally {
    fn default() -> Self {
        Self {
            lists: 0,
            small_lists: 0,
            small_calls: 0,
            places: 0,
            stored_starts: 0,
            calls: 0,
            read: 0,
            reads: 0,
            damaged: 0,
            boundary_faults: 0,
            odd_lengths: 0,
            codes: vec![[0; NUMBERS]; 256],
            no_code: [0; NUMBERS],
            outcomes: [0; 5],
            first_owners: FirstOwners::default(),
            figures: Figures::default(),
            epoch: EpochTally::default(),
        }
    }
}

impl Tally {
    pub fn list(&mut self, start: &State) {
        self.lists += 1;
        self.places = start.head.places;
        self.small_lists += u64::from(self.places == SMALL);
        self.stored_starts += u64::from(!start.is_fresh());
        self.first_owners.begin();
    }

    /// A call, with the head before it, but for a fault of the boundary's own.
    pub fn call(&mut self, case: &Case, head: &Head, answer: &Answer) {
        self.calls += 1;
        self.small_calls += u64::from(self.places == SMALL);
        self.see_faults(case, head, answer);
        let row = match case.step.code() {
            Some(code) => &mut self.codes[usize::from(code)],
            None => &mut self.no_code,
        };
        row[usize::from(answer.number)] += 1;
        if case.step.code() == Some(48) && answer.number == 0 {
            self.outcomes[usize::from(answer.outcome)] += 1;
        }
        self.first_owners.see(&case.step.sheet, answer, head.next_handle);
    }

    fn see_faults(&mut self, case: &Case, head: &Head, answer: &Answer) {
        let Step { sheet, lengths, .. } = &case.step;
        self.damaged += u64::from(case.step.damages());
        self.boundary_faults += u64::from(!case.faults.is_empty());
        let odd = *lengths != Lengths::stated(self.places) || sheet.len() != SHEET_BYTES;
        self.odd_lengths += u64::from(odd);
        let lent = case.head_bytes(head);
        if lent.len() == HEAD_BYTES {
            self.figures.see(Met { head: &Head::of_bytes(&lent), lengths, sheet, answer });
        }
    }

    /// How often each number was answered.
    pub fn numbers(&self) -> [u64; NUMBERS] {
        sum(self.codes.iter().chain([&self.no_code]))
    }
}

fn sum<'a>(rows: impl Iterator<Item = &'a [u64; NUMBERS]>) -> [u64; NUMBERS] {
    rows.fold([0; NUMBERS], |mut sum, row| {
        sum.iter_mut().zip(row).for_each(|(s, n)| *s += n);
        sum
    })
}

impl fmt::Display for Tally {
    fn fmt(&self, f: &mut fmt::Formatter<'_>) -> fmt::Result {
        writeln!(
            f,
            "{} calls of {} lists, {} of them from a state other than fresh",
            self.calls, self.lists, self.stored_starts
        )?;
        writeln!(f, "{} calls of {} lists with 32 places", self.small_calls, self.small_lists)?;
        writeln!(
            f,
            "{} calls on damaged states, {} with another length of sheet or buffer, {} with a fault in head or answer",
            self.damaged, self.odd_lengths, self.boundary_faults
        )?;
        writeln!(f, "{} reads on {} states", self.reads, self.read)?;
        write!(f, "{:>7}{:>9}", "code", "accepted")?;
        (1..NUMBERS).try_for_each(|number| write!(f, "{number:>8}"))?;
        writeln!(f)?;
        for code in CODES {
            row(f, &code.to_string(), &self.codes[usize::from(code)])?;
        }
        let unknown = (0..=255).filter(|c| !known_code(*c)).map(|c| &self.codes[usize::from(c)]);
        row(f, "unknown", &sum(unknown))?;
        row(f, "none", &self.no_code)?;
        row(f, "all", &self.numbers())?;
        write!(f, "outcomes of code 48:")?;
        for (outcome, n) in self.outcomes.iter().enumerate() {
            write!(f, "  {outcome}: {n}")?;
        }
        write!(f, "\n{}\n{}\n{}", self.first_owners, self.figures, self.epoch)
    }
}

fn row(f: &mut fmt::Formatter<'_>, name: &str, numbers: &[u64; NUMBERS]) -> fmt::Result {
    write!(f, "{name:>7}{:>9}", numbers[0])?;
    numbers[1..].iter().try_for_each(|n| write!(f, "{n:>8}"))?;
    writeln!(f)
}
