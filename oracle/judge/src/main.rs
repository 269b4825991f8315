//! Makes, replays and counts recorded lists, and runs long comparisons.

use std::process::ExitCode;
use std::{env, fs};

use judge::short::{all_sheets, every_list};
use judge::{RustBeside, against_the_rust};
use lists::format::{Record, records};
use lists::{Coverage, replay, sample};

const USAGE: &str = "judge make SEED FILE     record the sample of a seed
judge table FILE         count what recorded lists cover
judge replay FILE        replay recorded lists against the reading
judge compare SEED CALLS compare that many calls with the Rust, from a seed on
judge short LENGTH       compare all lists of that length over a few sheets";

fn main() -> ExitCode {
    let arguments: Vec<String> = env::args().skip(1).collect();
    let words: Vec<&str> = arguments.iter().map(String::as_str).collect();
    let done = match words.as_slice() {
        ["make", seed, file] => number(seed).and_then(|seed| make(seed, file)),
        ["table", file] => read(file).and_then(|records| table(&records)),
        ["replay", file] => read(file).and_then(|records| replayed(&records)),
        ["compare", seed, calls] => number(seed).and_then(|seed| compare(seed, number(calls)?)),
        ["short", length] => number(length).and_then(short),
        _ => Err(USAGE.into()),
    };
    match done {
        Ok(()) => ExitCode::SUCCESS,
        Err(what) => {
            eprintln!("{what}");
            ExitCode::FAILURE
        }
    }
}

fn number(word: &str) -> Result<u64, String> {
    word.parse().map_err(|_| format!("no number: {word}"))
}

fn read(file: &str) -> Result<Vec<Record>, String> {
    let bytes = fs::read(file).map_err(|e| format!("{file}: {e}"))?;
    records(&bytes).ok_or_else(|| format!("{file}: not a file of recorded lists"))
}

fn make(seed: u64, file: &str) -> Result<(), String> {
    let mut beside = RustBeside::default();
    let bytes = sample::make(seed, &mut beside)?;
    fs::write(file, &bytes).map_err(|e| format!("{file}: {e}"))?;
    if original::PRESENT {
        println!("accepted calls that the Rust judged: {}", beside.judged);
    }
    let judged =
        if original::PRESENT { "compared with the Rust" } else { "NOT compared with the Rust" };
    println!("{} bytes, {judged}", bytes.len());
    Ok(())
}

fn table(records: &[Record]) -> Result<(), String> {
    let coverage = Coverage::of(records);
    print!("{coverage}");
    let missing = coverage.missing();
    if missing.is_empty() {
        println!("all there");
        Ok(())
    } else {
        Err(missing.join("\n"))
    }
}

fn replayed(records: &[Record]) -> Result<(), String> {
    let (calls, differences) = replay::replay(records, reading::call);
    for d in &differences {
        println!("list {}, call {}, code {:?}: {}", d.list, d.call, d.code, d.what);
    }
    println!("{calls} calls, {} disagreements", differences.len());
    if differences.is_empty() { Ok(()) } else { Err("the replay differs".into()) }
}

fn short(length: u64) -> Result<(), String> {
    if !original::PRESENT {
        return Err(format!("no sources of ZeroDDS in {}", original::DIRECTORY));
    }
    for (what, sheets) in all_sheets() {
        let calls = every_list(&sheets, length as usize)?;
        println!("all lists of {length} {what} agree: {calls} calls");
    }
    Ok(())
}

fn compare(seed: u64, calls: u64) -> Result<(), String> {
    if !original::PRESENT {
        return Err(format!("no sources of ZeroDDS in {}", original::DIRECTORY));
    }
    let tally = against_the_rust(seed.., calls, None).map_err(|d| format!("{d:#?}"))?;
    println!("{tally:?}");
    Ok(())
}
