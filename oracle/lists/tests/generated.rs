//! Generated lists reach what seldom comes about by chance.

use std::collections::BTreeMap;

use lists::comparisons::Sort;
use lists::figures::Met;
use lists::fill::times_taken;
use lists::{Comparison, Figures, FirstOwners, Generator, Image, Step, first_owner};
use reading::layout::{FIGURES, SMALL};
use reading::{Sheet, State};

const LISTS: u64 = 1_000;
/// Each is met so often.
const LEAST: u32 = 50;

fn follow(owners: &mut FirstOwners, start: State, mut next: impl FnMut(&State) -> Option<Step>) {
    let mut state = start;
    let mut image = Image::of_state(&state);
    owners.begin();
    while let Some(step) = next(&state) {
        let (answer, _) = image.step(&step, reading::call);
        owners.see(&step.sheet, &answer, state.head.next_handle);
        state = image.state().expect("well formed");
    }
}

#[test]
fn admits_start_instances_and_meet_their_first_owners() {
    let mut owners = FirstOwners::default();
    for seed in 1..=LISTS {
        let (mut generator, start) = Generator::new(seed);
        let mut left = generator.length();
        follow(&mut owners, start, |state| {
            left = left.checked_sub(1)?;
            Some(generator.next(state))
        });
    }
    assert!(owners.counts().iter().all(|(_, n)| *n >= LEAST), "{owners}");
}

/// The lists of request 1, list by list: admits that start an instance, and
/// outcomes 4 before another call has set its owner.
#[test]
fn first_owners_are_counted() {
    let lists = first_owner::lists().into_iter().zip(FIGURES.into_iter().cycle());
    let counted = lists.map(|((name, sheets), places)| {
        let mut owners = FirstOwners::default();
        let mut steps = sheets.into_iter().map(|sheet| Step::of(places, sheet.0));
        follow(&mut owners, State::fresh(places), |_| steps.next());
        (name, owners.counts().map(|(_, n)| n))
    });
    let expected = [
        ("first owner", [3, 5]),
        ("first owner at", [3, 3]),
        ("first owner kept", [7, 7]),
        ("first owner anew", [2, 2]),
        ("no first owner", [1, 1]),
    ];
    assert_eq!(counted.collect::<Vec<_>>(), expected);
}

/// Half of the lists have 32 places, and among them and among the others each
/// sort of what the number of places decides is met.
#[test]
fn either_number_of_places_is_met() {
    let mut figures = Figures::default();
    let mut small = 0;
    for seed in 1..=LISTS {
        let (mut generator, mut state) = Generator::new(seed);
        small += u64::from(state.head.places == SMALL);
        let mut image = Image::of_state(&state);
        for _ in 0..generator.length() {
            let step = generator.next(&state);
            let head = step.damaged_head.unwrap_or(image.head);
            let (answer, _) = image.step(&step, reading::call);
            let (lengths, sheet) = (&step.lengths, &step.sheet);
            figures.see(Met { head: &head, lengths, sheet, answer: &answer });
            assert_eq!(image.head.places, state.head.places);
            state = image.state().expect("well formed");
        }
    }
    assert_eq!(small, LISTS / 2);
    let missing: Vec<_> = figures.counts().filter(|(_, n)| *n == 0).collect();
    assert!(missing.is_empty(), "{missing:?}");
}

/// Half of the times that accepted calls take are before the epoch, and times
/// are compared in every sort.
#[test]
fn times_on_both_sides_of_the_epoch_are_compared() {
    let (mut times, mut before) = (0u64, 0u64);
    let mut sorts: BTreeMap<Sort, u32> = Sort::all().into_iter().map(|sort| (sort, 0)).collect();
    for seed in 1..=LISTS {
        let (mut generator, mut state) = Generator::new(seed);
        let mut image = Image::of_state(&state);
        for _ in 0..generator.length() {
            let step = generator.next(&state);
            let (answer, _) = image.step(&step, reading::call);
            if let Some(sheet) = Sheet::of(&step.sheet).filter(|_| answer.number == 0) {
                times += times_taken(&step.sheet).count() as u64;
                before += times_taken(&step.sheet).filter(|time| time.seconds < 0).count() as u64;
                for comparison in Comparison::made(&state, sheet, &answer) {
                    *sorts.entry(comparison.sort()).or_default() += 1;
                }
            }
            state = image.state().expect("well formed");
        }
    }
    assert!((45..=55).contains(&(100 * before / times)), "{before} of {times}");
    let named: Vec<String> = sorts.iter().map(|(s, n)| format!("{:?} {s}: {n}", s.rule)).collect();
    assert_eq!(sorts.len(), Sort::all().len(), "{named:?}");
    assert!(sorts.values().all(|n| *n > 0), "{named:?}");
}
