//! A large day by a seed: 128 instances, 20 writers and 30,000 calls, with a trouble of each kind among much that is quiet.

use std::fmt::Write;

pub const CALLS: usize = 30_000;
pub const WRITERS: u32 = 20;
pub const PENS: u32 = 128;

const MINUTE: u32 = 60;
const HOUR: u32 = 60 * MINUTE;
const STARTS: u32 = 6 * HOUR;
const ENDS: u32 = 23 * HOUR;

/// Writers in trouble, by their numbers.
const SHORT_LEASE: u32 = 0;
const NARROW_LEASE: u32 = 1;
const AT_LUNCH: u32 = 2;
const RESTARTED: u32 = 3;
const GONE: u32 = 4;
const LOST_OWNER: u32 = 5;
const TURNED_AWAY: u32 = 6;
const DISPOSED: u32 = 7;

struct Random(u64);

impl Random {
    fn below(&mut self, end: u32) -> u32 {
        self.0 = self.0.wrapping_mul(6_364_136_223_846_793_005).wrapping_add(1);
        (self.0 >> 33) as u32 % end
    }
}

fn writer(number: u32) -> String {
    format!("plotter-{:02}/c1", number + 1)
}

fn hour(at: u32) -> String {
    format!("{:02}:{:02}:{:02}", at / HOUR, at / MINUTE % 60, at % 60)
}

fn lease(number: u32) -> &'static str {
    match number {
        SHORT_LEASE => "5m",
        NARROW_LEASE => "10m",
        _ => "30m",
    }
}

/// The pens of a writer; the last pen of all is registered and never drawn.
fn pens(number: u32) -> impl Iterator<Item = String> {
    (1..PENS).filter(move |pen| pen % WRITERS == number).map(|pen| format!("pen-{pen:03}"))
}

/// Whether a writer is away at a time.
fn away(number: u32, at: u32) -> bool {
    match number {
        AT_LUNCH => (12 * HOUR..13 * HOUR).contains(&at),
        RESTARTED => (14 * HOUR..14 * HOUR + 20 * MINUTE).contains(&at),
        GONE => at >= 17 * HOUR,
        LOST_OWNER => at >= 15 * HOUR,
        _ => false,
    }
}

/// What a writer draws at a time, and what is taken of it.
fn drawn(calls: &mut Vec<(u32, String)>, number: u32, at: u32) {
    let (name, time) = (writer(number), hour(at));
    calls.push((at, format!("assert {name} at {time}")));
    let strength = if number == LOST_OWNER { 5 } else { 2 };
    let shared = if number == TURNED_AWAY { LOST_OWNER } else { number };
    let own = pens(number).map(|pen| (pen, true));
    // Of what it shares it is turned away while the owner is there.
    let others = pens(shared).filter(|_| shared != number).map(|pen| (pen, at >= 16 * HOUR));
    for (pen, taken) in own.chain(others) {
        calls.push((at, format!("admit {pen} from {name} at {time} strength {strength}")));
        if taken {
            calls.push((at, format!("note_taken {pen} samples 1")));
        }
    }
}

/// Calls that are not of a round.
fn once(calls: &mut Vec<(u32, String)>) {
    for number in 0..WRITERS {
        let line = format!("match {} kind automatic lease {}", writer(number), lease(number));
        calls.push((STARTS, format!("{line} at {}", hour(STARTS))));
        if number == RESTARTED {
            let back = 14 * HOUR + 20 * MINUTE;
            calls.push((back, format!("{line} at {}", hour(back))));
        }
    }
    calls.push((STARTS, format!("register pen-{PENS:03} at {}", hour(STARTS))));
    for (number, at) in [(RESTARTED, 14 * HOUR), (GONE, 17 * HOUR)] {
        calls.push((at, format!("depart {} at {}", writer(number), hour(at))));
    }
    // Its writer is among the writers of a disposed pen, so it is shown abandoned and not ordered.
    for (pen, at) in pens(DISPOSED).zip([9 * HOUR, 11 * HOUR, 16 * HOUR]) {
        calls.push((at, format!("dispose {pen} at {}", hour(at))));
    }
}

/// The day's file.
pub fn day(seed: u64) -> String {
    let mut random = Random(seed);
    let mut calls = Vec::new();
    once(&mut calls);
    for number in 0..WRITERS {
        // The owner comes first, or the other one would be the owner.
        let late = if number == TURNED_AWAY { 10 * MINUTE } else { 0 };
        let mut at = STARTS + late + random.below(5 * MINUTE);
        while at < ENDS {
            if !away(number, at) {
                drawn(&mut calls, number, at);
            }
            at += 8 * MINUTE + random.below(3 * MINUTE);
        }
    }
    for at in (STARTS..ENDS).step_by(MINUTE as usize).skip(1) {
        calls.push((at, format!("lapse at {}", hour(at))));
    }
    calls.sort_by_key(|(at, _)| *at);
    assert!(calls.len() >= CALLS, "{} calls", calls.len());
    calls.iter().take(CALLS).fold(String::new(), |mut day, (_, call)| {
        let _ = writeln!(day, "{call}");
        day
    })
}
