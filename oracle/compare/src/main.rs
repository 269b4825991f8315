//! Compares that many calls of generated lists, that many cases of a function
//! that answers 24 bytes, from a seed on; or every number of places for
//! instances.

use std::env;
use std::process::ExitCode;
use std::time::Instant;

use compare::added::{Run, named};
use compare::epoch_tally::MANY;
use compare::figures::{compare_figures, linked};
use compare::list::Library;
use compare::lookups::Lookup;
use compare::run::Parting;
use compare::shrink::shrink;
use compare::times::Conversion;
use compare::{List, Tally, library};
use lists::SerializedKey;

/// KeyHashes, wire times and lookups of a writer's instance.
const ADDED: [(&str, bool, Run); 3] =
    [named::<SerializedKey>(), named::<Conversion>(), named::<Lookup>()];

/// A line of progress after so many calls.
const PROGRESS: u64 = 1_000_000;

/// What is compared; from a seed on, and how many.
enum Job {
    Calls(u64, u64),
    /// Whether the Rust is asked too, and by which run.
    Added(bool, Run, u64, u64),
    Figures,
}

impl Job {
    fn of(words: &[&str]) -> Option<Self> {
        let number = |word: &str| word.parse().ok();
        Some(match *words {
            ["figures"] => Self::Figures,
            [seed, calls] => Self::Calls(number(seed)?, number(calls)?),
            [name, seed, count] => {
                let (_, judged, run) = ADDED.into_iter().find(|added| added.0 == name)?;
                Self::Added(judged, run, number(seed)?, number(count)?)
            }
            _ => return None,
        })
    }
}

fn usage() -> String {
    let names = ADDED.map(|added| added.0).join(", ");
    format!(
        "compare SEED CALLS       compare that many calls with the static library
compare NAME SEED COUNT  compare that many cases of one function with it: {names}
compare figures          compare every number of places with every length"
    )
}

fn main() -> ExitCode {
    let words: Vec<String> = env::args().skip(1).collect();
    let words: Vec<&str> = words.iter().map(String::as_str).collect();
    let Some(job) = Job::of(&words) else {
        eprintln!("{}", usage());
        return ExitCode::FAILURE;
    };
    if !library::PRESENT {
        return skipped("no libdcps_c.a (make lib, or set DCPS_LIB_DIR)");
    }
    match job {
        // Of the places the sources judge the calls where they are at hand.
        Job::Figures => said(figures_compared()),
        Job::Added(judged, run, seed, count) if original::PRESENT || !judged => {
            said(run(seed, count))
        }
        Job::Calls(seed, calls) if original::PRESENT => compared(seed, calls),
        _ => skipped("no sources of ZeroDDS (set ZERO_DDS_SRC)"),
    }
}

/// With CI=true what is missing is a failure.
fn skipped(why: &str) -> ExitCode {
    println!("SKIPPED: {why}");
    if env::var("CI").is_ok_and(|ci| ci == "true") { ExitCode::FAILURE } else { ExitCode::SUCCESS }
}

fn said(run: Result<String, String>) -> ExitCode {
    let (text, code) = match run {
        Ok(text) => (text, ExitCode::SUCCESS),
        Err(text) => (text, ExitCode::FAILURE),
    };
    println!("{text}");
    code
}

/// A sort that no case had fails here too.
fn figures_compared() -> Result<String, String> {
    let tally =
        compare_figures(linked).map_err(|parted| format!("{:?}: {:?}", parted.0, parted.1))?;
    let missing = tally.missing();
    if missing.is_empty() {
        Ok(format!("{tally}{} cases, 0 disagreements", tally.cases()))
    } else {
        Err(format!("{tally}none of: {}", missing.join(", ")))
    }
}

fn compared(first: u64, calls: u64) -> ExitCode {
    let begun = Instant::now();
    let (mut tally, mut seed) = (Tally::default(), first);
    while tally.calls < calls {
        let before = tally.calls / PROGRESS;
        let library = Library { call: library::call, reads: true };
        if let Err(parted) = List::of_seed(seed, library, &mut tally) {
            report(seed, &parted.0, &parted.1);
            return ExitCode::FAILURE;
        }
        if tally.calls / PROGRESS > before {
            eprintln!("{} calls, {:.0?}", tally.calls, begun.elapsed());
        }
        seed = seed.wrapping_add(1);
    }
    print!("{tally}");
    let missing = tally.epoch.missing();
    if calls >= MANY && !missing.is_empty() {
        println!("none of: {}", missing.join(", "));
        return ExitCode::FAILURE;
    }
    println!("seeds {first} to {}: {} calls, 0 disagreements", seed.wrapping_sub(1), tally.calls);
    ExitCode::SUCCESS
}

/// The failing list made small; one that fails in a read is told as it is.
fn report(seed: u64, list: &List, parting: &Parting) {
    println!("seed {seed}, call {}: {parting:?}", list.cases.len());
    if list.parts(library::call).is_none() {
        println!("in a read after the last call of the list\n{list}");
        return;
    }
    let small = shrink(list, |list| list.parts(library::call).is_some());
    print!("{small}");
    if let Some((number, what)) = small.parts(library::call) {
        println!("call {} parts: {what}", number + 1);
    }
}
