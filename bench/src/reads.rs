//! The reads, each of both sides.

use std::hint::black_box;

use compare::library;
use original::Original;
use reading::State;
use reading::bytes::{Guid, Key, u64_at};
use reading::layout::{OUT_BYTES, Time};

use crate::state::LAST;

const READ_BYTES: usize = 24;
const STATUS_BYTES: usize = 72;
const ALL_VIEWS: u32 = 3;
const NOW: Time = Time { seconds: LAST + 1, nanoseconds: 0 };
const SEPARATION: u64 = 1;

/// What one round of the eight reads asks for.
pub struct Questions {
    key: Key,
    handle: u64,
    gone: Vec<Guid>,
    list: Vec<u8>,
}

/// Reads in a round.
pub const READS: usize = 8;

/// About some of the instances, or about unknown ones.
pub fn questions(state: &State) -> Vec<Questions> {
    (0..8)
        .map(|n| {
            let instance = state.instances.get(n * 37 % state.instances.len().max(1));
            let gone: Vec<Guid> = instance.map_or(Vec::new(), |i| i.writers.clone());
            Questions {
                key: instance.map_or([5; 16], |i| i.key),
                handle: instance.map_or(5, |i| i.handle),
                list: gone.concat(),
                gone,
            }
        })
        .collect()
}

/// The Rust's answers in a few numbers.
pub fn of_rust(rust: &Original, q: &Questions) -> [u64; READS] {
    [
        u64::from(rust.delivers_under_filter(&q.key, NOW, SEPARATION)),
        u64::from(rust.delivers_under_order(&q.key, NOW, true)),
        rust.last_delivered(&q.key).map_or(0, |time| time.seconds as u64),
        rust.next_handle_after(q.handle).unwrap_or(0),
        u64::from(rust.would_leave_writerless(&q.gone, ALL_VIEWS)),
        black_box(rust.left_writerless(&q.gone, ALL_VIEWS)).len() as u64,
        u64::from(rust.status().alive),
        rust.changes(),
    ]
}

/// The library's, in the same numbers.
pub fn of_library(head: &[u8], pens: &[u8], out: &mut [u8], q: &Questions) -> [u64; READS] {
    debug_assert!(out.len() == OUT_BYTES);
    let (high, low) = (u64_at(&q.key, 0), u64_at(&q.key, 8));
    let (sec, nanosec) = (NOW.seconds, NOW.nanoseconds);
    let mut a = [[0u8; READ_BYTES]; 7];
    let mut status = [0; STATUS_BYTES];
    library::delivers_under_filter(pens, high, low, sec, nanosec, SEPARATION, &mut a[0]);
    library::delivers_under_order(pens, high, low, sec, nanosec, 1, &mut a[1]);
    library::last_delivered(pens, high, low, &mut a[2]);
    library::next_handle_after(pens, q.handle, &mut a[3]);
    library::would_leave_writerless(pens, &q.list, ALL_VIEWS, &mut a[4]);
    library::left_writerless(pens, &q.list, ALL_VIEWS, out, &mut a[5]);
    library::status(head, &mut status);
    library::changes(head, &mut a[6]);
    [
        u64::from(a[0][1]),
        u64::from(a[1][1]),
        u64_at(&a[2], 16) >> 32,
        u64_at(&a[3], 8),
        u64::from(a[4][1]),
        u64_at(&a[5], 0) & 0xffff_ffff,
        u64_at(&status, 32) & 0xffff_ffff,
        u64_at(&a[6], 8),
    ]
}
