//! Times the same lists through the original Rust trackers and through the
//! static library, on states with places for 128 instances and for 32, and one
//! pass over the lent bytes as the floor; then each call by itself, the calls
//! that concern every record and handles that clash; then keys through the
//! library and through a plain MD5 in Rust, and stamps beside plain arithmetic.
//!
//! With the argument `exact` each time has behind it, in brackets, what it was
//! rounded from: `side-by-side` makes ratios of that.

mod buffers;
mod calls;
mod every;
mod floor;
mod handles;
mod keys;
mod md5;
mod mixes;
mod reads;
mod stamps;
mod state;

use std::hint::black_box;
use std::time::Instant;

use buffers::Buffers;
use compare::library;
use every::Sweep;
use mixes::{Mix, mixes};
use original::Original;
use reading::{Answer, Sheet, State};
use state::{SIZES, Size, full, state};

/// Each list is run so often; the median counts.
const ROUNDS: usize = 301;

/// `main` has looked for it.
const THERE: &str = "the Rust, whose sources are there";

fn main() {
    if !library::PRESENT {
        println!("SKIPPED: no libdcps_c.a (make lib, or set DCPS_LIB_DIR)");
        return;
    }
    if !original::PRESENT {
        println!("SKIPPED: no sources of ZeroDDS (set ZERO_DDS_SRC)");
        return;
    }
    let floors = floor::floors();
    mixes_head("mix");
    for (sizes, floor) in SIZES.iter().zip(floors) {
        for size in *sizes {
            for mix in mixes(*size) {
                agree(&mix);
                row(mix.name, *size, timed(&mix), floor);
            }
            row("reads", *size, timed_reads(&state(*size, size.instances)), floor);
        }
    }
    each_call(floors);
    each_sweep(floors);
    each_handles(floors);
    keys::each_key();
    stamps::each_conversion();
}

/// The calls that concern every record, on the full states.
fn each_sweep(floors: [f64; 2]) {
    mixes_head("call on every record");
    for (size, floor) in full().into_iter().zip(floors) {
        for Sweep { mix, done } in every::sweeps(size) {
            assert!(done(&mix.start, &agree(&mix)), "{}", mix.name);
            row(mix.name, size, timed(&mix), floor);
        }
    }
}

/// The library's time for each call by itself, on the full states.
fn each_call(floors: [f64; 2]) {
    on_full("call", floors, full().map(|size| calls::calls(&state(size, size.instances))));
}

/// The library's time for take_status, by the handles of the full states.
fn each_handles(floors: [f64; 2]) {
    on_full("take_status, handles", floors, full().map(handles::statuses));
}

/// A table of what the library takes on the full states for lists of one call,
/// each row timed as it is printed.
fn on_full(what: &str, floors: [f64; 2], [large, small]: [Vec<Mix>; 2]) {
    let [a, b] = full().map(|size| size.name);
    println!("\n| {what} | on {a}, ns | library / floor | on {b}, ns | library / floor |");
    println!("|---|---|---|---|---|");
    for (large, small) in large.iter().zip(&small) {
        let [a, b] = [large, small].map(timed_call);
        let [by_a, by_b] = [a / floors[0], b / floors[1]];
        println!("| {} | {} | {by_a:.1} | {} | {by_b:.1} |", large.name, ns(a, 0), ns(b, 0));
    }
}

/// Nanoseconds of the library for a list of one call, on which both sides agree.
fn timed_call(mix: &Mix) -> f64 {
    agree(mix);
    let rounds = (0..ROUNDS).map(|_| {
        let mut buffers = Buffers::of(&mix.start);
        each(1, || {
            black_box(buffers.call(black_box(&mix.sheets[0])));
        })
    });
    median(rounds.collect())
}

/// The head of a table whose rows `row` prints.
fn mixes_head(what: &str) {
    println!(
        "\n| {what} | places | instances | Rust, ns | library, ns | library / Rust | library / floor |"
    );
    println!("|---|---|---|---|---|---|---|");
}

fn row(name: &str, size: Size, (rust, library): (f64, f64), floor: f64) {
    let (by_rust, by_floor) = (library / rust, library / floor);
    println!(
        "| {name} | {} | {} | {} | {} | {by_rust:.1} | {by_floor:.1} |",
        size.places,
        size.name,
        ns(rust, 0),
        ns(library, 0)
    );
}

/// A time as a cell of a table, with so many digits behind the point.
fn ns(time: f64, digits: usize) -> String {
    let exact = std::env::args().any(|word| word == "exact");
    let exact = if exact { format!(" ({time})") } else { String::new() };
    format!("{time:.digits$}{exact}")
}

fn median(mut all: Vec<f64>) -> f64 {
    all.sort_by(f64::total_cmp);
    all[all.len() / 2]
}

/// Nanoseconds of a run of `work`, which is `calls` calls.
fn each(calls: usize, work: impl FnOnce()) -> f64 {
    let begun = Instant::now();
    work();
    begun.elapsed().as_nanos() as f64 / calls as f64
}

fn sheet_of(bytes: &[u8]) -> Sheet<'_> {
    Sheet::of(bytes).expect("sheets of 256 bytes")
}

/// Nanoseconds a call of the Rust and of the library.
fn timed(mix: &Mix) -> (f64, f64) {
    let (mut rusts, mut libraries) = (Vec::new(), Vec::new());
    for _ in 0..ROUNDS {
        let mut rust = Original::at(&mix.start);
        let rust = rust.as_mut().expect(THERE);
        rusts.push(each(mix.sheets.len(), || {
            for sheet in &mix.sheets {
                black_box(rust.turn(sheet_of(black_box(sheet))));
            }
        }));
        let mut buffers = Buffers::of(&mix.start);
        libraries.push(each(mix.sheets.len(), || {
            for sheet in &mix.sheets {
                black_box(buffers.call(black_box(sheet)));
            }
        }));
    }
    (median(rusts), median(libraries))
}

/// Both sides give the same answers, and the ones that the mix is about, and
/// list the same; what they leave is the same state, which this answers.
fn agree(mix: &Mix) -> State {
    let (mut rust, mut buffers) = (Original::at(&mix.start), Buffers::of(&mix.start));
    let rust = rust.as_mut().expect(THERE);
    for (n, sheet) in mix.sheets.iter().enumerate() {
        buffers.call(sheet);
        let answer = Answer::of_bytes(&buffers.answer);
        let (of_rust, listed) = rust.turn(sheet_of(sheet));
        assert_eq!(of_rust, answer, "{}, call {n}", mix.name);
        assert_eq!(listed, buffers.out[..listed.len()], "{}, call {n}", mix.name);
        assert!((mix.expected)(&answer), "{}, call {n}: {answer:?}", mix.name);
    }
    let left = rust.state();
    assert_eq!(buffers.state().as_ref(), Some(&left), "{}", mix.name);
    left
}

fn timed_reads(state: &State) -> (f64, f64) {
    let (rust, mut buffers) = (Original::at(state), Buffers::of(state));
    let rust = rust.as_ref().expect(THERE);
    let asked = reads::questions(state);
    let pens = &buffers.image.pens[..buffers.pens];
    let (head, out) = (&buffers.head, &mut buffers.out);
    for q in &asked {
        assert_eq!(reads::of_rust(rust, q), reads::of_library(head, pens, out, q), "reads");
    }
    let calls = asked.len() * reads::READS;
    let (mut rusts, mut libraries) = (Vec::new(), Vec::new());
    for _ in 0..ROUNDS {
        rusts.push(each(calls, || {
            for q in &asked {
                black_box(reads::of_rust(rust, black_box(q)));
            }
        }));
        libraries.push(each(calls, || {
            for q in &asked {
                black_box(reads::of_library(head, pens, out, black_box(q)));
            }
        }));
    }
    (median(rusts), median(libraries))
}
