//! All short lists over a few sheets, from the fresh state.

use lists::fill::{
    BY_SOURCE, DEADLINE_PRESENT, Filled, HOLDER_PRESENT, LEASE_PRESENT, MANUAL, TIME1_PRESENT,
};
use lists::{Image, Step};
use original::Original;
use reading::bytes::{Guid, Key};
use reading::layout::{FIGURES, NANOSECONDS, Time};
use reading::state::State;

use crate::compare::{judged, same_state};

const KEYS: [Key; 2] = [[1; 16], [2; 16]];
/// The first two are of one participant.
const WRITERS: [Guid; 3] = [guid(5, 1), guid(5, 2), guid(6, 1)];

const fn guid(participant: u8, entity: u8) -> Guid {
    let mut guid = [participant; 16];
    guid[15] = entity;
    guid
}

/// A nanosecond of the sheets, from 1 to 9.
type Clock = fn(u32) -> Time;

fn after_epoch(nanoseconds: u32) -> Time {
    Time { seconds: 0, nanoseconds }
}

/// Nanosecond 5 is the epoch.
fn across_epoch(nanoseconds: u32) -> Time {
    match nanoseconds.checked_sub(5) {
        Some(nanoseconds) => after_epoch(nanoseconds),
        None => Time { seconds: -1, nanoseconds: NANOSECONDS + nanoseconds - 5 },
    }
}

/// The kinds of sheets by name.
pub fn all_sheets() -> [(&'static str, Vec<Filled>); 5] {
    [
        ("instance calls", instance_sheets(after_epoch)),
        ("liveliness calls", liveliness_sheets()),
        ("joined calls", joined_sheets(after_epoch)),
        ("instance calls across the epoch", instance_sheets(across_epoch)),
        ("joined calls across the epoch", joined_sheets(across_epoch)),
    ]
}

/// Sheets of instance calls on two keys, two handles and two writers.
fn instance_sheets(at: Clock) -> Vec<Filled> {
    let f = Filled::code;
    let mut all = vec![f(12).handle(1).n(1), f(13).handle(1), f(15).handle(1).n(2)];
    for key in KEYS {
        all.push(f(1).key(key).time1(at(3)).bits(TIME1_PRESENT).holder(1, &[7]));
        all.push(f(2).key(key).limit(1));
        all.push(f(9).key(key).limit(-1).time1(at(2)));
    }
    for guid in &WRITERS[..2] {
        all.push(f(5).handle(1).guid(*guid).time1(at(5)).bits(TIME1_PRESENT));
        all.push(f(6).handle(1).guid(*guid));
        all.push(f(7).guid(*guid));
        all.push(f(16).key(KEYS[0]).guid(*guid).time2(at(4)));
        all.push(f(20).key(KEYS[0]).guid(*guid));
    }
    all.extend([
        f(3).handle(1).time1(at(4)).bits(TIME1_PRESENT),
        f(3).handle(2),
        f(4).handle(1),
        f(8).key(KEYS[0]).bits(HOLDER_PRESENT).holder(2, &[8, 9]),
        f(8).key(KEYS[1]),
        f(10).key(KEYS[0]).guid(WRITERS[0]).time1(at(6)).time2(at(7)),
        f(11).key(KEYS[0]).time1(at(5)),
        f(14).key(KEYS[0]),
        f(16).key(KEYS[0]).guid(WRITERS[0]).strength(1).time2(at(9)).b(5).bits(DEADLINE_PRESENT),
        f(17).guid(WRITERS[1]).strength(2),
        f(18).guid(WRITERS[0]),
        f(19).guid(WRITERS[2]),
        f(19).guid(WRITERS[1]),
        f(21).time2(at(9)).a(5).b(4),
    ]);
    all
}

/// Sheets of liveliness calls on three writers, two of one participant.
fn liveliness_sheets() -> Vec<Filled> {
    let f = Filled::code;
    let mut all = vec![f(33), f(34), f(35).a(2), f(35).a(4)];
    all = all.into_iter().map(|sheet| sheet.guid(WRITERS[0])).collect();
    for kind in 0..3 {
        for clock in [0, 2] {
            let matched = f(32).guid(WRITERS[0]).a(clock).b(2).bits(kind);
            all.push(matched.clone());
            all.push(matched.bits(LEASE_PRESENT));
        }
    }
    all.extend([
        f(32).guid(WRITERS[1]).a(3).b(1).bits(LEASE_PRESENT),
        f(32).guid(WRITERS[2]).a(0).bits(1),
        f(35).guid(WRITERS[1]).a(2),
        f(36).guid(WRITERS[1]).a(2),
        f(36).guid(WRITERS[1]).a(4).bits(MANUAL),
        f(37).a(2),
        f(37).a(4),
        f(38),
        f(39),
        f(40).limit(1).strength(-1),
    ]);
    all
}

/// Sheets around the joined calls.
fn joined_sheets(at: Clock) -> Vec<Filled> {
    let f = Filled::code;
    let mut all = Vec::new();
    for guid in &WRITERS[..2] {
        all.push(f(32).guid(*guid).a(1).b(2).bits(LEASE_PRESENT));
        all.push(f(50).guid(*guid));
        all.push(f(51).guid(*guid).time1(at(9)).bits(TIME1_PRESENT));
        for key in KEYS {
            let admit = f(48).key(key).guid(*guid).limit(-1);
            all.push(admit.clone().time1(at(1)).time2(at(1)).strength(1));
            all.push(admit.time1(at(2)).time2(at(3)).a(2).bits(BY_SOURCE));
        }
    }
    all.extend([
        f(48).key(KEYS[0]).guid(WRITERS[0]).limit(0),
        f(48)
            .key(KEYS[0])
            .guid(WRITERS[1])
            .limit(-1)
            .strength(-1)
            .time1(at(9))
            .time2(at(9))
            .b(7)
            .bits(DEADLINE_PRESENT),
        f(9).key(KEYS[0]).limit(-1),
        f(20).key(KEYS[0]).guid(WRITERS[0]),
        f(21).time2(at(9)),
        f(35).guid(WRITERS[0]).a(3),
        f(49).a(3),
        f(49).a(5).time1(at(8)).bits(TIME1_PRESENT),
        f(3).handle(1),
        f(38),
    ]);
    all
}

/// Runs every list of up to `length` of the sheets, with each number of places;
/// gives the calls made.
pub fn every_list(sheets: &[Filled], length: usize) -> Result<u64, String> {
    let mut calls = 0;
    for places in FIGURES {
        let of = |sheet: &Filled| Step::of(places, sheet.0.clone());
        let steps: Vec<Step> = sheets.iter().map(of).collect();
        let (start, mut scratch) = (State::fresh(places), Image::fresh(places));
        explore(&steps, &start, length, &mut scratch, &mut calls)?;
    }
    Ok(calls)
}

fn explore(
    steps: &[Step],
    state: &State,
    left: usize,
    scratch: &mut Image,
    calls: &mut u64,
) -> Result<(), String> {
    if left == 0 {
        return Ok(());
    }
    for step in steps {
        let mut image = Image::of_state(state);
        let (answer, out) = image.step(step, reading::call);
        *calls += 1;
        if let Some(mut rust) = Original::at(state) {
            judged(&mut rust, state, step, &answer, &out, &image)
                .and_then(|_| same_state(&rust, &image, scratch))
                .map_err(|what| format!("code {:?} on {state:?}: {what}", step.code()))?;
        }
        let after = image.state().ok_or("a call left its state not well formed")?;
        explore(steps, &after, left - 1, scratch, calls)?;
    }
    Ok(())
}
