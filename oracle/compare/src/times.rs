//! Conversions to wire time and back, by the library and the reading.

use lists::rng::Rng;
use lists::times::{
    FRACTIONS, MOST_LEFT, REMAINDERS, WHOLE, any_nanoseconds, any_pair, pairs, points, stretches,
};
use reading::bytes::{u32_at, u64_at};
use reading::wire_time::{MILLISECOND, SECOND, wire_fraction, wire_nanos};

use crate::added::{Added, Answered, Case, Library, Told};
use crate::counts::{Fates, Row, Table};
use crate::library;
use crate::run::Parting;

/// Where an answer has the fraction or the nanoseconds, and the remainder.
const FIRST_AT: usize = 4;
const REMAINDER_AT: usize = 8;

#[derive(Debug, Clone, Copy, PartialEq, Eq)]
pub enum Conversion {
    /// Of nanoseconds.
    Fraction(u32),
    /// Of a fraction and a remainder.
    Nanos(u32, u32),
}

/// A fraction and a remainder, or nanoseconds and 0, as they are answered.
pub fn as_told(numbers: Result<(u32, u32), u8>) -> Told {
    let answered = |(first, remainder): (u32, u32)| {
        let remainder = u64::from(remainder).to_be_bytes();
        Answered::of(&[(FIRST_AT, &first.to_be_bytes()), (REMAINDER_AT, &remainder)])
    };
    numbers.map(answered)
}

impl Added for Conversion {
    const NAME: &'static str = "times";
    /// Nanoseconds that came back from what they were converted to, those told
    /// of a pair, or a refusal.
    const FATES: Fates = &["recovered", "told", "4", "1"];
    const WAYS: u64 = 2;
    type Met = Self;

    /// The ends of the rule, and the first and the last million nanoseconds.
    fn always() -> impl Iterator<Item = Self> {
        let ends = points().into_iter().map(Self::Fraction);
        let pairs = pairs().map(|(fraction, remainder)| Self::Nanos(fraction, remainder));
        ends.chain(pairs).chain(stretches().map(Self::Fraction))
    }

    fn of_seed(seed: u64) -> (Vec<Self>, Rng) {
        let mut rng = Rng::new(seed);
        let nanosec = any_nanoseconds(&mut rng);
        let (fraction, remainder) = any_pair(&mut rng);
        (vec![Self::Fraction(nanosec), Self::Nanos(fraction, remainder)], rng)
    }

    fn told(&self) -> Told {
        as_told(match *self {
            Self::Fraction(nanosec) => wire_fraction(nanosec),
            Self::Nanos(fraction, remainder) => Ok((wire_nanos(fraction, remainder), 0)),
        })
    }

    fn ask(&self, _: &mut [&mut [u8]], answer: &mut [u8]) -> u32 {
        match *self {
            Self::Fraction(nanosec) => library::wire_fraction(nanosec, answer),
            Self::Nanos(fraction, remainder) => library::wire_nanos(fraction, remainder, answer),
        }
    }

    /// Fraction and remainder, handed back to the library, give the nanoseconds
    /// they were made from.
    fn further(
        case: &Case<Self>,
        told: &Told,
        library: &mut Library<'_, Self>,
    ) -> Result<(), Parting> {
        let (Self::Fraction(nanosec), Ok(Answered { bytes, .. })) = (case.asked, told) else {
            return Ok(());
        };
        let (fraction, remainder) = (u32_at(bytes, FIRST_AT), u64_at(bytes, REMAINDER_AT) as u32);
        Case::of(Self::Nanos(fraction, remainder)).same(&as_told(Ok((nanosec, 0))), library)
    }

    fn fate(&self, _: &Answered) -> usize {
        usize::from(matches!(self, Self::Nanos(..)))
    }

    fn met(&self, _: &Told) -> Self {
        *self
    }

    fn sorts() -> Vec<Table<Case<Self>>> {
        let fractions = FRACTIONS.map(|n| of_pair(n, move |fraction, _| fraction == n));
        let remainders = REMAINDERS.map(|n| of_pair(n, move |_, remainder| remainder == n));
        let other_pair = || [of_pair("other", |_, _| true)];
        vec![
            Table::of("nanoseconds", whole_stretches()),
            Table::of("to a millisecond", to_a_millisecond()),
            Table::of("left over", left_over()),
            Table::of("fraction given", fractions.into_iter().chain(other_pair())),
            Table::of("remainder given", remainders.into_iter().chain(other_pair())),
            Table::of("to a nanosecond", to_a_nanosecond()),
        ]
    }

    fn shown(&self) -> String {
        match self {
            Self::Fraction(nanosec) => format!("{nanosec} nanoseconds"),
            Self::Nanos(fraction, remainder) => {
                format!("fraction {fraction}, remainder {remainder}")
            }
        }
    }
}

type Sort = Row<Case<Conversion>>;

fn of_nanoseconds(name: impl ToString, takes: impl Fn(u32) -> bool + 'static) -> Sort {
    Row::of(name, move |case: &Case<_>| matches!(case.asked, Conversion::Fraction(n) if takes(n)))
}

fn of_pair(name: impl ToString, takes: impl Fn(u32, u32) -> bool + 'static) -> Sort {
    Row::of(
        name,
        move |case: &Case<_>| matches!(case.asked, Conversion::Nanos(f, r) if takes(f, r)),
    )
}

fn whole_stretches() -> Vec<Sort> {
    let below = [
        of_nanoseconds(format!("the first {WHOLE}"), |n| n < WHOLE),
        of_nanoseconds("between", |n| n < SECOND - WHOLE),
        of_nanoseconds(format!("the last {WHOLE}"), |n| n < SECOND),
    ];
    let refused = (SECOND..SECOND + 4).chain([u32::MAX]);
    let refused = refused.map(|n| of_nanoseconds(n, move |given| given == n));
    below.into_iter().chain(refused).chain([of_nanoseconds("other", |_| true)]).collect()
}

fn to_a_millisecond() -> Vec<Sort> {
    vec![
        of_nanoseconds("whole", |n| n.is_multiple_of(MILLISECOND)),
        of_nanoseconds("one more", |n| n % MILLISECOND == 1),
        of_nanoseconds("one less", |n| n % MILLISECOND == MILLISECOND - 1),
        of_nanoseconds("other", |_| true),
    ]
}

/// The remainder of what is not refused.
fn left_over() -> Vec<Sort> {
    let left = |n, wanted| wire_fraction(n).is_ok_and(|(_, left)| left == wanted);
    vec![
        of_nanoseconds("0", move |n| left(n, 0)),
        of_nanoseconds(MOST_LEFT, move |n| left(n, MOST_LEFT)),
        of_nanoseconds("other", |n| n < SECOND),
    ]
}

/// Fraction and remainder together, in 2^32 to the nanosecond.
fn to_a_nanosecond() -> Vec<Sort> {
    let over = |f, r| (u64::from(f) * u64::from(SECOND) + u64::from(r)) as u32;
    vec![
        of_pair("whole", move |f, r| over(f, r) == 0),
        of_pair("one more", move |f, r| over(f, r) == 1),
        of_pair("one less", move |f, r| over(f, r) == u32::MAX),
        of_pair("other", |_, _| true),
    ]
}
