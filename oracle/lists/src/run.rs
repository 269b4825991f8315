//! Generated lists through the reading and through another implementation.

use reading::{Answer, Head, Lent};

use crate::generate::Generator;
use crate::image::{Image, Step};

/// Where the other implementation first differs.
#[derive(Debug, Clone, PartialEq, Eq)]
pub struct Parting {
    pub seed: u64,
    pub call: usize,
    pub code: Option<u8>,
    pub what: &'static str,
}

/// Runs the lists of `seeds` until `calls` calls are done; each side has an
/// image of its own. Gives the number of calls.
pub fn against_the_reading(
    seeds: impl Iterator<Item = u64>,
    calls: u64,
    mut call: impl FnMut(&mut Head, &[u8], Lent<'_>) -> Answer,
) -> Result<u64, Parting> {
    let mut done = 0;
    for seed in seeds {
        if done >= calls {
            break;
        }
        done += one_list(seed, &mut call)?;
    }
    Ok(done)
}

fn one_list(
    seed: u64,
    call: &mut impl FnMut(&mut Head, &[u8], Lent<'_>) -> Answer,
) -> Result<u64, Parting> {
    let (mut generator, mut state) = Generator::new(seed);
    let mut ours = Image::of_state(&state);
    let mut theirs = ours.clone();
    let length = generator.length();
    for number in 0..length {
        let step = generator.next(&state);
        if let Some(what) = one_call(&mut ours, &mut theirs, &step, call) {
            return Err(Parting { seed, call: number, code: step.code(), what });
        }
        state = ours.state().unwrap_or(state);
    }
    Ok(length as u64)
}

/// What differs after a call, damage and its undoing included.
fn one_call(
    ours: &mut Image,
    theirs: &mut Image,
    step: &Step,
    call: &mut impl FnMut(&mut Head, &[u8], Lent<'_>) -> Answer,
) -> Option<&'static str> {
    let (answer, out) = ours.step(step, reading::call);
    let (their_answer, their_out) = theirs.step(step, call);
    let checks = [
        ("answer", answer == their_answer),
        ("Out", out == their_out),
        ("head", ours.head == theirs.head),
        ("pens", ours.pens == theirs.pens),
        ("writers", ours.writers == theirs.writers),
        ("Lost", ours.lost == theirs.lost),
    ];
    checks.iter().find(|(_, agrees)| !agrees).map(|(what, _)| *what)
}
