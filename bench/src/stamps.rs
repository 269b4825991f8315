//! Nanoseconds to the fraction of a stamp and back, each of both sides.

use std::fmt::Debug;
use std::hint::black_box;

use compare::library;
use compare::read::READ_BYTES;
use reading::bytes::array_at;
use reading::wire_time::{MILLISECOND, SECOND};

use crate::{ROUNDS, each, median, ns};

/// Stamps in a round, one in each millisecond.
const STAMPS: u32 = 1_000;

/// A fraction of a second and its remainder.
type Fraction = (u32, u32);

pub fn each_conversion() {
    println!("\n| to | stamps | Rust, ns | library, ns | library / Rust |");
    println!("|---|---|---|---|---|");
    for (name, behind) in [("whole milliseconds", 0), ("others", 123_457)] {
        let nanos: Vec<u32> = (0..STAMPS).map(|m| m * MILLISECOND + behind).collect();
        let fractions: Vec<Fraction> = nanos.iter().map(|n| rust_fraction(*n)).collect();
        row("the fraction", name, timed(&nanos, rust_fraction, library_fraction));
        row("nanoseconds", name, timed(&fractions, rust_nanos, library_nanos));
    }
}

fn row(to: &str, name: &str, (rust, library): (f64, f64)) {
    println!("| {to} | {name} | {} | {} | {:.1} |", ns(rust, 1), ns(library, 1), library / rust);
}

/// Nanoseconds a stamp of the Rust and of the library, which give the same. The
/// Rust is inlined, as a maker would have it.
fn timed<I: Copy + Debug, O: PartialEq + Debug>(
    stamps: &[I],
    of_rust: impl Fn(I) -> O,
    of_library: impl Fn(I) -> O,
) -> (f64, f64) {
    for stamp in stamps {
        assert_eq!(of_rust(*stamp), of_library(*stamp), "{stamp:?}");
    }
    let rounds = (0..ROUNDS).map(|_| (round(stamps, &of_rust), round(stamps, &of_library)));
    let (rusts, libraries) = rounds.unzip();
    (median(rusts), median(libraries))
}

fn round<I: Copy, O>(stamps: &[I], convert: impl Fn(I) -> O) -> f64 {
    each(stamps.len(), || {
        for stamp in stamps {
            black_box(convert(black_box(*stamp)));
        }
    })
}

fn rust_fraction(nanosec: u32) -> Fraction {
    let (units, second) = (u64::from(nanosec) << 32, u64::from(SECOND));
    ((units / second) as u32, (units % second) as u32)
}

fn rust_nanos((fraction, remainder): Fraction) -> u32 {
    ((u64::from(fraction) * u64::from(SECOND) + u64::from(remainder)) >> 32) as u32
}

fn library_fraction(nanosec: u32) -> Fraction {
    let mut answer = [0; READ_BYTES];
    library::wire_fraction(nanosec, &mut answer);
    (number(&answer, 4), number(&answer, 12))
}

fn library_nanos((fraction, remainder): Fraction) -> u32 {
    let mut answer = [0; READ_BYTES];
    library::wire_nanos(fraction, remainder, &mut answer);
    number(&answer, 4)
}

fn number(answer: &[u8; READ_BYTES], at: usize) -> u32 {
    u32::from_be_bytes(array_at(answer, at))
}
