//! Functions that answer 24 bytes, each compared by itself: the library beside
//! the reading, case by case.

use std::fmt;
use std::iter;

use lists::rng::Rng;
use reading::bytes::put;

use crate::counts::{Counts, Fates, Table, refused};
use crate::guarded::Guarded;
use crate::read::{FILL, READ_BYTES, same_answer};
use crate::run::Parting;

/// Lengths of an answer other than the stated one, lent one in so many times.
const ODD_ANSWERS: [usize; 6] = [0, 1, 8, 23, 25, 72];
const ODD_ONE_IN: usize = 16;

/// What is answered, and what is written to the last of the bytes lent.
#[derive(Debug, Clone, PartialEq, Eq)]
pub struct Answered {
    pub bytes: [u8; READ_BYTES],
    pub written: Option<Vec<u8>>,
}

/// That, or the number of a refusal.
pub type Told = Result<Answered, u8>;

/// A library is given what is asked, the bytes lent with it, and the answer.
pub type Library<'a, A> = dyn FnMut(&A, &mut [&mut [u8]], &mut [u8]) -> u32 + 'a;

/// What such a function is asked for.
pub trait Added: Clone + 'static {
    /// Of a run, and of its cases.
    const NAME: &'static str;
    /// What becomes of a case: what it is told, or a refusal by its number.
    const FATES: Fates;
    /// Cases by chance for each that a run is asked for.
    const WAYS: u64 = 1;
    /// Whether the Rust is asked too: a run without it is skipped.
    const JUDGED: bool = false;
    /// What cases are sorted by.
    type Met: 'static;

    /// The cases of every run, which come first.
    fn always() -> impl Iterator<Item = Self> {
        iter::empty()
    }

    /// The cases of a seed, and the chance that goes on behind them.
    fn of_seed(seed: u64) -> (Vec<Self>, Rng);

    /// The bytes lent beside the answer.
    fn lent(&self) -> Vec<&[u8]> {
        Vec::new()
    }

    /// By the reading, into an answer of the stated length.
    fn told(&self) -> Told;

    /// The number of the refusal where the answer has another length.
    fn unanswered(&self) -> u8 {
        1
    }

    /// By the static library.
    fn ask(&self, lent: &mut [&mut [u8]], answer: &mut [u8]) -> u32;

    /// What else is to hold of a case on which both agree.
    fn further(_: &Case<Self>, _: &Told, _: &mut Library<'_, Self>) -> Result<(), Parting> {
        Ok(())
    }

    /// The place in `FATES` of what is told.
    fn fate(&self, told: &Answered) -> usize;

    fn met(&self, told: &Told) -> Self::Met;

    fn sorts() -> Vec<Table<Case<Self::Met>>>;

    /// Smaller ones, tried in that order.
    fn smaller(&self) -> impl Iterator<Item = Self> {
        iter::empty()
    }

    /// In words.
    fn shown(&self) -> String;
}

/// What is asked, or what it is sorted by, with the length of its answer.
#[derive(Debug, Clone, Copy, PartialEq, Eq)]
pub struct Case<T> {
    pub asked: T,
    pub answer_length: usize,
}

/// A case that parts, and its seed.
#[derive(Debug)]
pub struct Parted<A> {
    pub seed: Option<u64>,
    pub case: Case<A>,
    pub parting: Parting,
}

impl Answered {
    /// Fields, each from an offset on; zeros elsewhere.
    pub fn of(fields: &[(usize, &[u8])]) -> Self {
        let mut bytes = [0; READ_BYTES];
        fields.iter().for_each(|(at, field)| put(&mut bytes, *at, field));
        Self { bytes, written: None }
    }
}

/// The bytes of an answer.
pub fn laid_out(told: &Told) -> [u8; READ_BYTES] {
    let refusal = |number| Answered::of(&[(0, &[number])]).bytes;
    told.as_ref().map_or_else(|number| refusal(*number), |told| told.bytes)
}

impl<A: Added> Case<A> {
    /// With an answer of the stated length.
    pub fn of(asked: A) -> Self {
        Self { asked, answer_length: READ_BYTES }
    }

    fn of_seed(seed: u64) -> impl Iterator<Item = Self> {
        let (all, mut rng) = A::of_seed(seed);
        all.into_iter().map(move |asked| {
            let odd = rng.one_in(ODD_ONE_IN);
            let answer_length = if odd { rng.pick(&ODD_ANSWERS) } else { READ_BYTES };
            Self { asked, answer_length }
        })
    }

    /// By the reading.
    pub fn told(&self) -> Told {
        let fits = self.answer_length == READ_BYTES;
        if fits { self.asked.told() } else { Err(self.asked.unanswered()) }
    }

    /// Asks the library, which is to tell the same; of the bytes lent, and of
    /// those behind them and behind the answer, no other may change.
    pub fn same(&self, told: &Told, library: &mut Library<'_, A>) -> Result<(), Parting> {
        let lent = self.asked.lent();
        let mut theirs: Vec<Guarded> = lent.iter().map(|bytes| Guarded::of(bytes)).collect();
        let mut answer = Guarded::filled(FILL, self.answer_length);
        let mut buffers: Vec<&mut [u8]> = theirs.iter_mut().map(Guarded::lent).collect();
        let number = library(&self.asked, &mut buffers, answer.lent());
        let expected = laid_out(told);
        same_answer(A::NAME, &expected, number, &answer)?;
        let written = told.as_ref().ok().and_then(|told| told.written.as_deref());
        for (n, theirs) in theirs.iter().enumerate() {
            let written = written.filter(|_| n + 1 == lent.len());
            theirs.same("what is lent", written.unwrap_or(lent[n]))?;
        }
        Ok(())
    }

    /// Asks both; what they agree on.
    pub fn compared(&self, library: &mut Library<'_, A>) -> Result<Told, Parting> {
        let told = self.told();
        self.same(&told, library)?;
        A::further(self, &told, library)?;
        Ok(told)
    }

    fn count(&self, told: &Told, counts: &mut Counts<Case<A::Met>>) -> Result<(), Parting> {
        let fate = match told {
            Ok(told) => self.asked.fate(told),
            Err(number) => refused(A::FATES, *number)?,
        };
        let met = Case { asked: self.asked.met(told), answer_length: self.answer_length };
        counts.see(&met, fate);
        Ok(())
    }

    /// By the answer, then by what is asked.
    fn smaller(&self) -> impl Iterator<Item = Self> {
        let plain = (self.answer_length != READ_BYTES).then(|| Self::of(self.asked.clone()));
        let others = self.asked.smaller().map(|asked| Self { asked, ..*self });
        plain.into_iter().chain(others)
    }

    /// A small case, by steps that each still fail.
    pub fn shrunk(&self, mut fails: impl FnMut(&Self) -> bool) -> Self {
        let mut small = self.clone();
        loop {
            let Some(smaller) = small.smaller().find(|case| fails(case)) else { return small };
            small = smaller;
        }
    }
}

/// Those of every run, and that many of seeds, each with its seed.
pub fn cases<A: Added>(first: u64, count: u64) -> impl Iterator<Item = (Option<u64>, Case<A>)> {
    let seeds = (0..).map(move |n| first.wrapping_add(n));
    let chance = seeds.flat_map(|seed| Case::of_seed(seed).map(move |case| (Some(seed), case)));
    let always = A::always().map(|asked| (None, Case::of(asked)));
    always.chain(chance.take((count * A::WAYS) as usize))
}

/// Compares cases, counting them; the first that parts comes back.
pub fn compare_added<A: Added>(
    cases: impl Iterator<Item = (Option<u64>, Case<A>)>,
    library: &mut Library<'_, A>,
) -> Result<Counts<Case<A::Met>>, Parted<A>> {
    let mut counts = Counts::new(A::FATES, tables::<A>());
    for (seed, case) in cases {
        let counted = case.compared(library).and_then(|told| case.count(&told, &mut counts));
        if let Err(parting) = counted {
            return Err(Parted { seed, case, parting });
        }
    }
    Ok(counts)
}

fn tables<A: Added>() -> Vec<Table<Case<A::Met>>> {
    let lengths = iter::once(READ_BYTES).chain(ODD_ANSWERS);
    let answers = Table::by("answer", lengths, |case: &Case<A::Met>| case.answer_length);
    A::sorts().into_iter().chain([answers, Table::all()]).collect()
}

/// A run in words. It fails where a case parts, and where it met none of some
/// sort.
pub fn report<A: Added>(
    first: u64,
    count: u64,
    library: &mut Library<'_, A>,
) -> Result<String, String> {
    let counts =
        compare_added(cases::<A>(first, count), library).map_err(|parted| parted.shown(library))?;
    let (name, missing) = (A::NAME, counts.missing().join(", "));
    if missing.is_empty() {
        Ok(format!("{counts}from seed {first}: {} {name}, 0 disagreements", counts.cases))
    } else {
        Err(format!("{counts}too few {name}, none of: {missing}"))
    }
}

impl<A: Added> Parted<A> {
    /// With the case made small.
    fn shown(&self, library: &mut Library<'_, A>) -> String {
        let Self { seed, case, parting } = self;
        let seed = seed.map(|seed| format!("seed {seed}: ")).unwrap_or_default();
        let small = case.shrunk(|case| case.compared(library).is_err());
        let smallest = small.compared(library).err();
        let smallest = smallest.as_ref().unwrap_or(parting);
        format!("{seed}{parting:?}\nthe smallest found: {small}: {smallest:?}")
    }
}

impl<A: Added> fmt::Display for Case<A> {
    fn fmt(&self, f: &mut fmt::Formatter<'_>) -> fmt::Result {
        write!(f, "{}, answer of {} bytes", self.asked.shown(), self.answer_length)
    }
}

/// A run from a seed on, so many, by the static library.
pub type Run = fn(u64, u64) -> Result<String, String>;

/// Its name, whether the Rust is asked too, and the run.
pub const fn named<A: Added>() -> (&'static str, bool, Run) {
    (A::NAME, A::JUDGED, |first, count| report::<A>(first, count, &mut A::ask))
}
