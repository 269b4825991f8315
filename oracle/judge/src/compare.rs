//! One list through the reading and, where it is at hand, the Rust.

use lists::damage::Clause;
use lists::record::Witness;
use lists::rng::Rng;
use lists::{FirstOwners, Generator, Image, Step};
use original::Original;
use reading::accounts::{Accounts, Fed};
use reading::layout::{LARGE, LOST_BYTES, SMALL, WRITERS_BYTES};
use reading::{Answer, Misreading, Sheet, State, call_as};

use crate::reads::same_reads;
use crate::ways::{Way, Ways, call_later};

/// The reads are compared after one in so many calls.
const READS_ONE_IN: usize = 24;

/// What was run.
#[derive(Debug, Default, Clone)]
pub struct Tally {
    pub lists: u64,
    /// Lists with 32 places for instances.
    pub small_lists: u64,
    pub calls: u64,
    pub accepted: u64,
    /// Refusals 9 to 13. The Rust's own result had no place either, but for
    /// code 48, where the driver looks ahead as section 5 says.
    pub without_place: u64,
    /// States on which section 7's reads were compared.
    pub read: u64,
    /// Lists from the fresh state, along which section 6's accounts were kept.
    pub from_fresh: u64,
    pub first_owners: FirstOwners,
    /// Accepted calls, and reads of the filters, by how the Rust judged them.
    pub judged: Ways,
    pub filters: Ways,
}

/// Where two readings part.
#[derive(Debug)]
pub struct Disagreement {
    pub seed: u64,
    pub call: usize,
    pub code: Option<u8>,
    pub what: String,
}

/// The Rust beside a recording, where it is at hand.
pub struct RustBeside {
    rust: Option<Original>,
    scratch: Image,
    /// The accepted calls.
    pub judged: Ways,
}

impl Default for RustBeside {
    fn default() -> Self {
        Self { rust: None, scratch: Image::fresh(LARGE), judged: Ways::default() }
    }
}

impl Witness for RustBeside {
    fn start(&mut self, state: &State) -> Result<(), String> {
        self.rust = Original::at(state);
        Ok(())
    }

    fn call(
        &mut self,
        before: &State,
        step: &Step,
        answer: &Answer,
        out: &[u8],
        after: &Image,
    ) -> Result<(), String> {
        let Some(rust) = &mut self.rust else { return Ok(()) };
        let way = judged(rust, before, step, answer, out, after)?;
        if answer.number == 0 {
            self.judged.see(way);
        }
        same_state(rust, after, &mut self.scratch)
    }
}

/// Runs the lists of `seeds` until `calls` calls are done.
pub fn against_the_rust(
    seeds: impl Iterator<Item = u64>,
    calls: u64,
    misreading: Option<Misreading>,
) -> Result<Tally, Disagreement> {
    let mut tally = Tally::default();
    let mut scratch = Image::fresh(LARGE);
    for seed in seeds {
        if tally.calls >= calls {
            break;
        }
        one_list(seed, misreading, &mut tally, &mut scratch)?;
    }
    Ok(tally)
}

fn one_list(
    seed: u64,
    misreading: Option<Misreading>,
    tally: &mut Tally,
    scratch: &mut Image,
) -> Result<(), Disagreement> {
    let (mut generator, start) = Generator::new(seed);
    let mut run = Run::of(start, seed);
    tally.lists += 1;
    tally.small_lists += u64::from(run.state.head.places == SMALL);
    tally.from_fresh += u64::from(run.accounts.is_some());
    tally.first_owners.begin();
    for call in 0..generator.length() {
        let step = generator.next(&run.state);
        run.call(&step, misreading, tally, scratch).map_err(|what| Disagreement {
            seed,
            call,
            code: step.code(),
            what,
        })?;
    }
    Ok(())
}

/// One list as it runs: the reading's image and state, the Rust where it is at
/// hand, and the accounts where the list starts fresh.
struct Run {
    image: Image,
    state: State,
    rust: Option<Original>,
    accounts: Option<Accounts>,
    rng: Rng,
}

impl Run {
    fn of(start: State, seed: u64) -> Self {
        Self {
            image: Image::of_state(&start),
            rust: Original::at(&start),
            accounts: start.is_fresh().then(Accounts::default),
            state: start,
            rng: Rng::new(seed),
        }
    }

    fn call(
        &mut self,
        step: &Step,
        misreading: Option<Misreading>,
        tally: &mut Tally,
        scratch: &mut Image,
    ) -> Result<(), String> {
        let (answer, out) =
            self.image.step(step, |head, sheet, lent| call_as(head, sheet, lent, misreading));
        tally.calls += 1;
        tally.accepted += u64::from(answer.number == 0);
        tally.first_owners.see(&step.sheet, &answer, self.state.head.next_handle);
        if step.damages() && !matches!(answer.number, 1..=3) {
            return Err(format!("damage {:?} met {}", step.damage, answer.number));
        }
        if let Some(rust) = &mut self.rust {
            let way = judged(rust, &self.state, step, &answer, &out, &self.image)?;
            same_state(rust, &self.image, scratch)?;
            tally.without_place += u64::from(answer.number >= 9);
            if answer.number == 0 {
                tally.judged.see(way);
            }
        }
        self.state = self.image.state().ok_or("not well formed after it")?;
        self.same_accounts(step, &answer)?;
        self.same_reads(step, tally)
    }

    fn same_accounts(&mut self, step: &Step, answer: &Answer) -> Result<(), String> {
        let Some(accounts) = &mut self.accounts else { return Ok(()) };
        accounts.feed(&step.sheet, Fed::of(answer));
        let told = accounts.state(self.state.head.places);
        if told == self.state {
            Ok(())
        } else {
            Err(format!("the accounts have {told:?}, the reading {:?}", self.state))
        }
    }

    /// Now and then.
    fn same_reads(&mut self, step: &Step, tally: &mut Tally) -> Result<(), String> {
        let (Some(rust), Some(sheet)) = (&self.rust, Sheet::of(&step.sheet)) else {
            return Ok(());
        };
        if !self.rng.one_in(READS_ONE_IN) {
            return Ok(());
        }
        tally.read += 1;
        let ways = same_reads(rust, &self.image, &self.state, sheet, &mut self.rng)?;
        ways.into_iter().flatten().for_each(|way| tally.filters.see(way));
        Ok(())
    }
}

/// Runs the Rust for an accepted call and compares answer and Out; for one
/// refused as 9 to 13, sees that the Rust's result has no place. Where it does
/// not judge a call, it is set to what the reading left.
pub fn judged(
    rust: &mut Original,
    before: &State,
    step: &Step,
    answer: &Answer,
    out: &[u8],
    after: &Image,
) -> Result<Way, String> {
    let mut expected_out = vec![step.fill; step.lengths.out];
    if (1..=8).contains(&answer.number) {
        same("Out of a refused call", &expected_out.as_slice(), &out)?;
        return Ok(Way::Untimed);
    }
    let sheet = Sheet::of(&step.sheet).ok_or("a sheet of another length was accepted")?;
    let way = Way::of_call(before, sheet);
    let turn = match way {
        Way::Untimed | Way::AsItStands => rust.call(sheet),
        Way::Later => call_later(rust, before, &step.sheet).ok_or("the Rust is gone")?,
        Way::Alone => {
            let left = after.state().ok_or("not well formed after it")?;
            *rust = Original::at(&left).ok_or("the Rust is gone")?;
            return Ok(way);
        }
    };
    let expected = match turn {
        Ok((answer, listed)) => {
            expected_out[..listed.len()].copy_from_slice(&listed);
            answer
        }
        Err(number) => {
            *rust = Original::at(before).ok_or("the Rust is gone")?;
            Answer::refused(number)
        }
    };
    same("answer", &expected, answer)?;
    same("Out", &expected_out.as_slice(), &out)?;
    Ok(way)
}

fn same<T: PartialEq + std::fmt::Debug>(what: &str, rust: &T, reading: &T) -> Result<(), String> {
    if rust == reading {
        Ok(())
    } else {
        Err(format!("{what}: the Rust has {rust:?}, the reading {reading:?}"))
    }
}

/// Lays the Rust's state out and compares head and all buffers.
pub fn same_state(rust: &Original, image: &Image, scratch: &mut Image) -> Result<(), String> {
    let state = rust.state();
    state.write(
        &mut scratch.head,
        &mut scratch.pens,
        &mut scratch.writers[..WRITERS_BYTES],
        &mut scratch.lost[..LOST_BYTES],
    );
    same("head", &scratch.head, &image.head)?;
    if scratch.pens != image.pens || scratch.writers != image.writers || scratch.lost != image.lost
    {
        let seen = image.state();
        return Err(format!("buffers: the Rust has {state:?}, the reading {seen:?}"));
    }
    if !rust.maps_agree() {
        return Err("the Rust's map from handles is not the inverse of its map from keys".into());
    }
    Ok(())
}

/// Runs lists through the reading alone and counts how often each clause was
/// damaged on a state that had something to damage for it.
pub fn reading_alone(seeds: impl Iterator<Item = u64>) -> Result<Vec<(Clause, u64)>, String> {
    let mut counts: Vec<(Clause, u64)> = Clause::all().into_iter().map(|c| (c, 0)).collect();
    for seed in seeds {
        let mut rng = Rng::new(seed);
        let (_, state) = Generator::new(seed);
        let mut image = Image::of_state(&state);
        for (clause, count) in &mut counts {
            let code = lists::fill::Filled::code(39);
            let mut step = Step::of(state.head.places, code.0);
            if lists::damage::one(&mut rng, &state, *clause, &mut step) {
                let (answer, _) = image.step(&step, reading::call);
                if answer != Answer::refused(3) {
                    return Err(format!("seed {seed}: damage to {clause:?} met {answer:?}"));
                }
                *count += 1;
            }
        }
    }
    Ok(counts)
}
