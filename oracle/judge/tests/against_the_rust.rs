//! All short lists over a few sheets and a million calls of generated lists,
//! the reading of 01 against the Rust; and each deliberate misreading caught. Without a harness, so that what was run, or skipped, is
//! always said.

use std::process::ExitCode;
use std::time::Instant;

use judge::against_the_rust;
use judge::short::{all_sheets, every_list};
use reading::Misreading;

const CALLS: u64 = 1_000_000;
/// Calls of a short list.
const SHORT: usize = 3;

fn main() -> ExitCode {
    if !original::PRESENT {
        println!(
            "SKIPPED: the comparison with the Rust. No sources of ZeroDDS in {} (set ZERO_DDS_SRC).",
            original::DIRECTORY
        );
        return ExitCode::SUCCESS;
    }
    for (what, sheets) in all_sheets() {
        match every_list(&sheets, SHORT) {
            Ok(calls) => println!("all lists of {SHORT} {what} agree: {calls} calls"),
            Err(what) => {
                println!("the reading and the Rust differ: {what}");
                return ExitCode::FAILURE;
            }
        }
    }
    let begun = Instant::now();
    match against_the_rust(1.., CALLS, None) {
        Ok(tally) => {
            println!("the reading and the Rust agree: {tally:?}, {:?}", begun.elapsed());
            for ways in [tally.judged, tally.filters] {
                let (judged, timed) = ways.judged_of_timed();
                if judged < timed / 10 * 9 || ways.later == 0 || ways.alone == 0 {
                    println!("of {timed} that compare times the Rust judged {judged}");
                    return ExitCode::FAILURE;
                }
            }
        }
        Err(disagreement) => {
            println!("the reading and the Rust differ: {disagreement:#?}");
            return ExitCode::FAILURE;
        }
    }
    for misreading in Misreading::ALL {
        match against_the_rust(1.., CALLS, Some(misreading)) {
            Ok(_) => {
                println!("NOT CAUGHT: {misreading:?}");
                return ExitCode::FAILURE;
            }
            Err(d) => println!("caught: {misreading:?} at list {}, call {}", d.seed, d.call),
        }
    }
    ExitCode::SUCCESS
}
