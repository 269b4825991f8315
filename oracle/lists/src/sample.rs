//! The sample that the repository keeps: section 10's lists and those of 02's
//! requests, lists that break each clause of well-formedness, and generated
//! lists of every sort. Half of each have 32 places for instances.

use std::iter::repeat_n;

use reading::layout::FIGURES;
use reading::state::State;

use crate::bench;
use crate::coverage::Coverage;
use crate::damage::{self, Clause};
use crate::fill::Filled;
use crate::generate::{CODES, Calls, Generator, Rates};
use crate::hostile;
use crate::image::{Image, Step};
use crate::record::{Recorder, Witness};
use crate::rng::Rng;
use crate::start::Start;

/// Calls of a generated list.
const LENGTH: usize = 44;
/// Steps drawn, every other time, to find one that the sample is short of.
const DRAWS: usize = 16;

/// Generated lists: which calls, which start, and how many, an even number.
const PLAN: [(Calls, Start, usize); 18] = [
    (Calls::Instance, Start::Fresh, 8),
    (Calls::Instance, Start::Any, 6),
    (Calls::Instance, Start::FullInstances, 2),
    (Calls::Instance, Start::FullSets, 4),
    (Calls::Instance, Start::LastHandles, 2),
    (Calls::Liveliness, Start::Fresh, 6),
    (Calls::Liveliness, Start::Any, 4),
    (Calls::Liveliness, Start::FullWriters, 2),
    (Calls::Liveliness, Start::NearlyFullLost, 2),
    (Calls::Joined, Start::Fresh, 8),
    (Calls::Joined, Start::FullSets, 2),
    (Calls::Joined, Start::NearlyFullLost, 2),
    (Calls::All, Start::Fresh, 6),
    (Calls::All, Start::Any, 6),
    (Calls::All, Start::FullInstances, 2),
    (Calls::All, Start::FullSets, 2),
    (Calls::All, Start::NearlyFullLost, 2),
    (Calls::All, Start::LastHandles, 2),
];

/// How often each clause is broken; most can be in two or three ways.
const DAMAGES: usize = 3;

/// Refused calls stand closer in the sample than in the long runs.
const RATES: Rates =
    Rates { unknown_code: 60, odd_length: 50, damage: 60, figure: 120, hostile_field: 16 };

/// Records the sample of a seed.
pub fn make(seed: u64, witness: &mut dyn Witness) -> Result<Vec<u8>, String> {
    let mut recorder = Recorder::default();
    for (name, start, sheets) in written() {
        let of = |sheet: Filled| Step::of(start.head.places, sheet.0);
        let mut steps = sheets.into_iter().map(of);
        recorder.list(name, 0, &start, |_, _| steps.next(), witness)?;
    }
    for places in FIGURES {
        damaged(&mut recorder, places, seed, witness)?;
    }
    let mut rng = Rng::new(seed);
    let planned = PLAN.into_iter().flat_map(|(calls, start, many)| repeat_n((calls, start), many));
    for ((calls, start), places) in planned.zip(FIGURES.into_iter().cycle()) {
        generated(&mut recorder, rng.number(), places, calls, start, witness)?;
    }
    for places in FIGURES {
        let mut steps = hostile::several_faults(places).into_iter();
        let start = State::fresh(places);
        recorder.list("several faults", 0, &start, |_, _| steps.next(), witness)?;
        let (start, steps) = hostile::one_too_many(places);
        let mut steps = steps.into_iter();
        recorder.list("one too many", 0, &start, |_, _| steps.next(), witness)?;
    }
    Ok(recorder.bytes())
}

/// The lists that no seed makes, each with its start.
fn written() -> Vec<(&'static str, State, Vec<Filled>)> {
    let lists = bench::lists().into_iter().zip(FIGURES.into_iter().cycle());
    let mut all: Vec<_> =
        lists.map(|((name, sheets), places)| (name, State::fresh(places), sheets)).collect();
    for places in FIGURES {
        let (start, sheets) = bench::full_table(places);
        all.push(("full table", start, sheets));
        let (start, sheets) = bench::last_places(places);
        all.push(("last places", start, sheets));
    }
    for (places, sheets) in hostile::sheets() {
        all.push(("hostile fields", State::fresh(places), sheets));
    }
    all
}

fn generated(
    recorder: &mut Recorder,
    seed: u64,
    places: u16,
    calls: Calls,
    start: Start,
    witness: &mut dyn Witness,
) -> Result<(), String> {
    let (mut generator, state) = Generator::of(seed, places, calls, start);
    generator.rates = RATES;
    let name = match calls {
        Calls::Instance => "instance calls",
        Calls::Liveliness => "liveliness calls",
        Calls::Joined => "joined calls",
        Calls::All => "all calls",
    };
    let mut left = LENGTH;
    let next = |state: &State, covered: &Coverage| {
        left = left.checked_sub(1)?;
        Some(wanted(&mut generator, state, covered, if left.is_multiple_of(2) { DRAWS } else { 1 }))
    };
    recorder.list(name, seed, &state, next, witness)
}

/// The first of some steps that the sample is still short of, or the last.
fn wanted(generator: &mut Generator, state: &State, covered: &Coverage, draws: usize) -> Step {
    let image = Image::of_state(state);
    for _ in 1..draws {
        let step = generator.next(state);
        let (answer, _) = image.clone().step(&step, reading::call);
        if covered.wants(step.code(), &answer) {
            return step;
        }
    }
    generator.next(state)
}

/// A list that damages each clause, from a state that has what each
/// needs.
fn damaged(
    recorder: &mut Recorder,
    places: u16,
    seed: u64,
    witness: &mut dyn Witness,
) -> Result<(), String> {
    let (state, seed) = rich_state(places, seed);
    let (mut generator, _) = Generator::of(seed, places, Calls::All, Start::Any);
    generator.rates = Rates { hostile_field: RATES.hostile_field, ..Rates::NO_FAULTS };
    let mut rng = Rng::new(seed);
    let mut clauses = (0..DAMAGES).flat_map(|_| Clause::all());
    let mut codes = CODES.iter().cycle();
    let next = |state: &State, _: &Coverage| {
        let clause = clauses.next()?;
        let mut step = generator.next(state);
        step.sheet[81] = *codes.next()?;
        damage::one(&mut rng, state, clause, &mut step);
        Some(step)
    };
    recorder.list("damage", seed, &state, next, witness)
}

/// The first state, from a seed on, that every clause can be broken in.
fn rich_state(places: u16, seed: u64) -> (State, u64) {
    let mut seed = seed;
    loop {
        let (_, state) = Generator::of(seed, places, Calls::All, Start::Any);
        let mut rng = Rng::new(seed);
        let mut step = Step::of(places, Vec::new());
        let breaks = |clause: &Clause| damage::one(&mut rng, &state, *clause, &mut step);
        if Clause::all().iter().all(breaks) {
            return (state, seed);
        }
        seed = seed.wrapping_add(1);
    }
}
