//! One pass over the lent bytes: less than that no library can take that looks
//! at what it is lent.

use std::hint::black_box;

use crate::state::SIZES;
use crate::{ROUNDS, each, median, ns};

/// Bytes that a turn of the floor's loop takes: a shorter loop takes twice as
/// long where the linker happens to put it across a line of the cache.
const TURN: usize = 128;

/// Bytes that a turn of the unrolled loop takes: so many that the loads bound
/// it, and not the loop. It divides what is lent, with either number of places.
const UNROLLED: usize = 8 * TURN;

/// The floor of either number of places, printed beside the unrolled pass. The
/// goals are counted against the first.
pub fn floors() -> [f64; 2] {
    println!("| places | bytes | floor, ns | unrolled, ns |");
    println!("|---|---|---|---|");
    SIZES.map(|sizes| {
        let (places, lent) = (sizes[0].places, sizes[0].lent());
        let [floor, unrolled] = [floor(lent), unrolled(lent)];
        println!("| {places} | {lent} | {} | {} |", ns(floor, 0), ns(unrolled, 0));
        floor
    })
}

/// One pass that every byte has a say in, and that compiles to vector code.
fn floor(lent: usize) -> f64 {
    let bytes = vec![0u8; lent];
    let pass = || {
        let mut all = [0; TURN];
        let (turns, _) = black_box(&bytes).as_chunks::<TURN>();
        for turn in turns {
            all.iter_mut().zip(turn).for_each(|(all, byte)| *all |= byte);
        }
        black_box(all);
    };
    median((0..ROUNDS).map(|_| each(1, pass)).collect())
}

/// The same pass, unrolled: 64 loads a turn, where the floor has 8. On x86-64 it
/// takes as long, since it is the loads, of 16 bytes each, that bound either:
/// with wider ones (`-C target-cpu=native`) both are shorter, and alike again.
fn unrolled(lent: usize) -> f64 {
    let bytes = vec![0u8; lent];
    let pass = || {
        let mut all = [0; TURN];
        let (turns, rest) = black_box(&bytes).as_chunks::<UNROLLED>();
        assert!(rest.is_empty());
        for turn in turns {
            for part in turn.as_chunks::<TURN>().0 {
                all.iter_mut().zip(part).for_each(|(all, byte)| *all |= byte);
            }
        }
        black_box(all);
    };
    median((0..ROUNDS).map(|_| each(1, pass)).collect())
}
