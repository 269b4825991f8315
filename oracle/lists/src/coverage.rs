//! What recorded lists cover, counted.

use std::fmt;

use reading::layout::{LARGE, SMALL};
use reading::{Answer, Head};

use crate::figures::{Figures, Met};
use crate::format::{Record, Recorded};
use crate::generate::CODES;
use crate::owners::FirstOwners;

/// Each code is to be accepted so often,
const ACCEPTED_LEAST: u32 = 50;
/// and each refusal, outcome, yes, no and none met so often.
const MET_LEAST: u32 = 10;
/// Each late refusal, and each of a used field, so often for each code.
const PAIR_LEAST: u32 = 2;

/// The accepted calls of one code, and its answers both ways.
#[derive(Debug, Clone, Copy, Default)]
struct Code {
    accepted: u32,
    refused: u32,
    /// By number.
    refusals: [u32; 14],
    yes: u32,
    present: u32,
    next_due: u32,
    listed: u32,
    counted: u32,
}

/// Counts over recorded lists.
#[derive(Debug, Clone)]
pub struct Coverage {
    codes: [Code; 256],
    refusals: [u32; 14],
    outcomes: [u32; 5],
    first_owners: FirstOwners,
    figures: Figures,
    pub lists: u32,
    /// Lists with 32 places for instances.
    pub small_lists: u32,
    pub calls: u32,
    /// Lists that do not start fresh.
    pub stored_starts: u32,
    pub full_records: u32,
}

impl Default for Coverage {
    fn default() -> Self {
        Self {
            codes: [Code::default(); 256],
            refusals: [0; 14],
            outcomes: [0; 5],
            first_owners: FirstOwners::default(),
            figures: Figures::default(),
            lists: 0,
            small_lists: 0,
            calls: 0,
            stored_starts: 0,
            full_records: 0,
        }
    }
}

impl Coverage {
    pub fn of(records: &[Record]) -> Self {
        let mut coverage = Self::default();
        let mut at_start = false;
        let mut head = Head::fresh(LARGE);
        for record in records {
            match record {
                Record::List(title) => {
                    coverage.lists += 1;
                    coverage.small_lists += u32::from(title.places == SMALL);
                    coverage.first_owners.begin();
                    at_start = true;
                    head = Head::fresh(title.places);
                }
                Record::Head(given) => {
                    coverage.stored_starts += u32::from(at_start);
                    at_start = false;
                    head = *given;
                }
                Record::Call(call) => {
                    at_start = false;
                    coverage.recorded(call, &head);
                    head = call.head;
                }
                Record::Expect(_) => coverage.full_records += 1,
                _ => {}
            }
        }
        coverage
    }

    /// A recorded call, and the head that it was lent.
    fn recorded(&mut self, call: &Recorded, head: &Head) {
        let Recorded { sheet, lengths, answer, .. } = call;
        self.call(sheet.get(81).copied(), answer);
        self.first_owners.see(sheet, answer, head.next_handle);
        self.figures.see(Met { head, lengths, sheet, answer });
    }

    /// Whether a call like this is still met too seldom in some respect.
    pub fn wants(&self, code: Option<u8>, answer: &Answer) -> bool {
        let number = usize::from(answer.number);
        let Some(code) = code else { return self.refusals[number] < MET_LEAST };
        let c = &self.codes[usize::from(code)];
        if number != 0 {
            let pair = refused_pairs().contains(&(code, number));
            return self.refusals[number] < MET_LEAST || pair && c.refusals[number] < PAIR_LEAST;
        }
        let mut with = self.clone();
        with.call(Some(code), answer);
        let after = &with.codes[usize::from(code)];
        let both = columns(code, c).into_iter().zip(columns(code, after));
        c.accepted < ACCEPTED_LEAST
            || code == 48 && self.outcomes[usize::from(answer.outcome)] < MET_LEAST
            || both.into_iter().any(|((_, n), (_, m))| match (n, m) {
                (Some(n), Some(m)) if m > n => n < MET_LEAST,
                (Some(n), Some(_)) => c.accepted - n < MET_LEAST,
                _ => false,
            })
    }

    pub fn call(&mut self, code: Option<u8>, answer: &Answer) {
        self.calls += 1;
        if let Some(refusals) = self.refusals.get_mut(usize::from(answer.number)) {
            *refusals += 1;
        }
        let Some(code) = code else { return };
        let counts = &mut self.codes[usize::from(code)];
        if answer.number != 0 {
            counts.refused += 1;
            counts.refusals[usize::from(answer.number)] += 1;
            return;
        }
        counts.accepted += 1;
        counts.yes += u32::from(answer.yes);
        counts.present += u32::from(answer.present);
        counts.next_due += u32::from(answer.next_due_present);
        counts.listed += u32::from(answer.listed > 0);
        counts.counted += u32::from(answer.count > 0);
        if code == 48 {
            self.outcomes[usize::from(answer.outcome)] += 1;
        }
    }

    /// Each number of places, and how many lists have it.
    fn lists_by_places(&self) -> [(u16, u32); 2] {
        [(SMALL, self.small_lists), (LARGE, self.lists - self.small_lists)]
    }

    /// What is met less often than it is to be.
    pub fn missing(&self) -> Vec<String> {
        let mut missing = Vec::new();
        let mut least = |what: String, n: u32, least: u32| {
            if n < least {
                missing.push(format!("{what}: {n} of {least}"));
            }
        };
        for code in CODES {
            let c = &self.codes[usize::from(code)];
            least(format!("code {code} accepted"), c.accepted, ACCEPTED_LEAST);
            for (column, met) in columns(code, c) {
                if let Some(met) = met {
                    least(format!("code {code} {column}"), met, MET_LEAST);
                    least(format!("code {code} not {column}"), c.accepted - met, MET_LEAST);
                }
            }
        }
        for (number, n) in self.refusals.iter().enumerate().skip(1) {
            least(format!("refusal {number}"), *n, MET_LEAST);
        }
        for (code, number) in refused_pairs() {
            let n = self.codes[usize::from(code)].refusals[number];
            least(format!("code {code} refused as {number}"), n, PAIR_LEAST);
        }
        for (outcome, n) in self.outcomes.iter().enumerate() {
            least(format!("outcome {outcome}"), *n, MET_LEAST);
        }
        for (what, n) in self.first_owners.counts() {
            least(what.into(), n, MET_LEAST);
        }
        for (what, n) in self.figures.counts() {
            least(what.into(), n as u32, MET_LEAST);
        }
        for (places, n) in self.lists_by_places() {
            least(format!("lists with {places} places"), n, self.lists / 2);
        }
        missing
    }
}

/// The codes that can meet refusals 3 to 13, each with its number.
fn refused_pairs() -> Vec<(u8, usize)> {
    let of = |number: usize, codes: &[u8]| codes.iter().map(|c| (*c, number)).collect::<Vec<_>>();
    [
        of(3, &CODES),
        of(4, &[1, 3, 4, 5, 7, 8, 9, 10, 11, 16, 21, 48, 49, 50, 51]),
        of(5, &[32, 35, 36, 37, 49]),
        of(6, &[1, 8, 9, 48]),
        of(7, &[32]),
        of(8, &[40]),
        of(9, &[1, 2, 8, 9, 48]),
        of(10, &[6, 10, 48]),
        of(11, &[32]),
        of(12, &[37, 49]),
        of(13, &[1, 2, 8, 9, 48]),
    ]
    .concat()
}

/// How often a code's answer was yes, present and so on; none where the code
/// has no such answer, or only one.
fn columns(code: u8, c: &Code) -> [(&'static str, Option<u32>); 5] {
    let when = |has: bool, n: u32| has.then_some(n);
    [
        ("yes", when(matches!(code, 3..=5 | 14 | 16 | 20 | 32..=37 | 49..=51), c.yes)),
        ("present", when(matches!(code, 2 | 9 | 10 | 48), c.present)),
        ("next due", when(matches!(code, 37 | 49), c.next_due)),
        ("listed", when(matches!(code, 7 | 38 | 49..=51), c.listed)),
        ("counted", when(matches!(code, 18 | 19 | 21 | 49..=51), c.counted)),
    ]
}

impl fmt::Display for Coverage {
    fn fmt(&self, f: &mut fmt::Formatter<'_>) -> fmt::Result {
        writeln!(
            f,
            "{} lists ({} from a stored state), {} calls, {} records in full",
            self.lists, self.stored_starts, self.calls, self.full_records
        )?;
        let [(small, n), (large, m)] = self.lists_by_places();
        writeln!(f, "lists with {small} places: {n}, with {large}: {m}")?;
        writeln!(
            f,
            "code accepted refused     yes/no  present/none  next due/none  listed/empty  counted/0"
        )?;
        for code in CODES {
            let c = &self.codes[usize::from(code)];
            write!(f, "{code:>4} {:>8} {:>7}", c.accepted, c.refused)?;
            for ((_, met), width) in columns(code, c).iter().zip([11, 14, 15, 14, 11]) {
                let both = met.map_or(String::new(), |met| format!("{met}/{}", c.accepted - met));
                write!(f, "{both:>width$}")?;
            }
            writeln!(f)?;
        }
        write!(f, "refusals")?;
        for (number, n) in self.refusals.iter().enumerate().skip(1) {
            write!(f, "  {number}: {n}")?;
        }
        write!(f, "\noutcomes")?;
        for (outcome, n) in self.outcomes.iter().enumerate() {
            write!(f, "  {outcome}: {n}")?;
        }
        writeln!(f, "\n{}\n{}", self.first_owners, self.figures)
    }
}
