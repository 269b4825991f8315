//! A failing list made small: fewer calls, an emptier start, plainer sheets.

use lists::image::Lengths;
use lists::start::count_records;
use reading::State;
use reading::bytes::u64_at;

use crate::case::{Case, FIELDS};
use crate::list::List;

/// The smallest list, by steps that each still fail.
pub fn shrink(list: &List, mut fails: impl FnMut(&List) -> bool) -> List {
    let mut small = list.clone();
    loop {
        let before = small.clone();
        small = fewer_calls(small, &mut fails);
        small = emptier_start(small, &mut fails);
        small = plainer_calls(small, &mut fails);
        if small == before {
            return small;
        }
    }
}

fn tried(list: List, candidate: List, fails: &mut impl FnMut(&List) -> bool) -> (List, bool) {
    let smaller = candidate != list && candidate.start.well_formed() && fails(&candidate);
    if smaller { (candidate, true) } else { (list, false) }
}

/// Takes out runs of calls, half of them first and single ones last.
fn fewer_calls(mut list: List, fails: &mut impl FnMut(&List) -> bool) -> List {
    let mut run = list.cases.len().div_ceil(2);
    while run > 0 {
        let mut from = 0;
        while from < list.cases.len() {
            let mut candidate = list.clone();
            candidate.cases.drain(from..(from + run).min(list.cases.len()));
            let mut lowered = candidate.clone();
            lowered.cases[from..].iter_mut().for_each(lower_handle);
            let mut taken;
            (list, taken) = tried(list, candidate, fails);
            if !taken {
                (list, taken) = tried(list, lowered, fails);
            }
            from += if taken { 0 } else { run };
        }
        run /= 2;
    }
    list
}

/// One less, as the handle is where one instance fewer started before.
fn lower_handle(case: &mut Case) {
    if let Some(handle) = case.step.sheet.get_mut(32..40) {
        let lower = u64_at(handle, 0).saturating_sub(1);
        handle.copy_from_slice(&lower.to_be_bytes());
    }
}

/// Takes out records of the start, and then what else its head has.
fn emptier_start(mut list: List, fails: &mut impl FnMut(&List) -> bool) -> List {
    let fresh = List { start: State::fresh(list.start.head.places), ..list.clone() };
    (list, _) = tried(list, fresh, fails);
    let removals: [fn(&mut State, usize) -> bool; 3] = [
        |state, at| removed(&mut state.instances, at),
        |state, at| removed(&mut state.writers, at),
        |state, at| removed(&mut state.lost, at),
    ];
    for remove in removals {
        let mut at = 0;
        loop {
            let mut candidate = list.clone();
            if !remove(&mut candidate.start, at) {
                break;
            }
            count_records(&mut candidate.start);
            let taken;
            (list, taken) = tried(list, candidate, fails);
            at += usize::from(!taken);
        }
    }
    list
}

/// Takes one element out; no where there is none at that place.
fn removed<T>(all: &mut Vec<T>, at: usize) -> bool {
    let there = at < all.len();
    if there {
        all.remove(at);
    }
    there
}

fn plainer_calls(mut list: List, fails: &mut impl FnMut(&List) -> bool) -> List {
    let stated = Lengths::stated(list.start.head.places);
    for number in 0..list.cases.len() {
        for plainer in plainer(&list.cases[number], stated) {
            let mut candidate = list.clone();
            plainer(&mut candidate.cases[number]);
            (list, _) = tried(list, candidate, fails);
        }
    }
    list
}

type Change = Box<dyn Fn(&mut Case)>;

/// Ways to make a case plainer, in a list with those lengths.
fn plainer(case: &Case, stated: Lengths) -> Vec<Change> {
    let mut all: Vec<Change> = vec![
        Box::new(|case| case.faults.clear()),
        Box::new(|case| case.step.damaged_head = None),
        Box::new(|case| case.step.damage.clear()),
        Box::new(move |case| case.step.lengths = stated),
        Box::new(|case| case.step.fill = 0),
    ];
    for at in 0..case.faults.len() {
        all.push(Box::new(move |case| {
            removed(&mut case.faults, at);
        }));
    }
    let length = case.step.sheet.len();
    for (_, from, to) in FIELDS {
        all.push(Box::new(move |case| case.step.sheet[from.min(length)..to.min(length)].fill(0)));
    }
    for bit in 0..8 {
        all.push(Box::new(move |case| {
            case.step.sheet.get_mut(80).into_iter().for_each(|bits| *bits &= !(1 << bit));
        }));
    }
    for at in 0..length {
        if case.step.sheet[at] != 0 && at != 81 {
            all.push(Box::new(move |case| case.step.sheet[at] = 0));
        }
    }
    all
}
