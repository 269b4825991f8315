//! Keys from serialized ones, each of both sides.

use std::hint::black_box;

use compare::library;
use reading::bytes::Key;

use crate::md5::md5;
use crate::{ROUNDS, each, median, ns};

/// Keys in a round.
const CALLS: usize = 64;
const READ_BYTES: usize = 24;

/// Bytes of the key, and the stated largest size: one padded, the others hashed.
const KEYS: [(usize, u64); 4] = [(8, 16), (8, 4_096), (64, 4_096), (4_096, 4_096)];

pub fn each_key() {
    println!("\n| key, bytes | stated | Rust, ns | library, ns | library / Rust |");
    println!("|---|---|---|---|---|");
    for (length, largest) in KEYS {
        let key: Vec<u8> = (0..length).map(|place| place as u8).collect();
        assert_eq!(of_rust(&key, largest), of_library(&key, largest), "{length}, {largest}");
        let (rust, library) = timed(&key, largest);
        let by_rust = library / rust;
        println!("| {length} | {largest} | {} | {} | {by_rust:.1} |", ns(rust, 1), ns(library, 1));
    }
}

/// Nanoseconds a key of the Rust and of the library.
fn timed(key: &[u8], largest: u64) -> (f64, f64) {
    let round = |key_hash: fn(&[u8], u64) -> Key| {
        each(CALLS, || {
            for _ in 0..CALLS {
                black_box(key_hash(black_box(key), black_box(largest)));
            }
        })
    };
    let (rusts, libraries) = (0..ROUNDS).map(|_| (round(of_rust), round(of_library))).unzip();
    (median(rusts), median(libraries))
}

fn of_rust(key: &[u8], largest: u64) -> Key {
    if largest > 16 {
        return md5(key);
    }
    let mut padded = [0; 16];
    padded[..key.len()].copy_from_slice(key);
    padded
}

fn of_library(key: &[u8], largest: u64) -> Key {
    let mut answer = [0; READ_BYTES];
    library::key_hash(key, largest, &mut answer);
    let mut made = [0; 16];
    made.copy_from_slice(&answer[8..]);
    made
}
