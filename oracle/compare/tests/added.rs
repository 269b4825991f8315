//! The comparison of a function that writes to what it is lent, and that tests
//! one thing before the answer's length.

mod over_bytes;

use compare::added::{Added, Answered, Case, Told};
use compare::counts::{Fates, Table};
use lists::rng::Rng;
use over_bytes::{right, shared, smallest, wrong};

/// Bytes that are doubled; the first is refused as 9 where that would be cut.
#[derive(Clone)]
struct Doubled([u8; 4]);

impl Added for Doubled {
    const NAME: &'static str = "doubles";
    const FATES: Fates = &["doubled", "9", "1"];
    type Met = ();

    fn of_seed(seed: u64) -> (Vec<Self>, Rng) {
        let mut rng = Rng::new(seed);
        (vec![Self((rng.number() as u32).to_be_bytes())], rng)
    }

    fn lent(&self) -> Vec<&[u8]> {
        vec![&[7], &self.0]
    }

    fn told(&self) -> Told {
        let doubled = self.0.map(|byte| byte.wrapping_mul(2)).to_vec();
        let answered = || Answered { written: Some(doubled), ..Answered::of(&[(4, &self.0)]) };
        (self.0[0] < 128).then(answered).ok_or(9)
    }

    fn unanswered(&self) -> u8 {
        self.told().err().unwrap_or(1)
    }

    fn ask(&self, _: &mut [&mut [u8]], _: &mut [u8]) -> u32 {
        unreachable!("it is in no library")
    }

    fn fate(&self, _: &Answered) -> usize {
        0
    }

    fn met(&self, _: &Told) {}

    fn sorts() -> Vec<Table<Case<()>>> {
        Vec::new()
    }

    fn shown(&self) -> String {
        format!("{:?}", self.0)
    }
}

shared!(Doubled, [9], lent);

#[test]
fn what_is_not_written_or_not_as_told_is_caught() {
    for written in [None, Some(vec![0; 4])] {
        let rule = move |asked: &Doubled| {
            asked.told().map(|told| Answered { written: written.clone(), ..told })
        };
        wrong([("not doubled", rule, true)], |case| case.told().is_ok());
    }
}

#[test]
fn the_length_tested_first_is_caught() {
    let first = smallest(|asked: &Doubled, lent, answer| match answer.len() {
        24 => right(asked, lent, answer),
        _ => 1,
    });
    assert!(first.told() == Err(9) && first.answer_length != 24, "{first}");
}
