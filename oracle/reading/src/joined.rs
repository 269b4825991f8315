//! Codes 48 to 51: the joined calls of section 5, admit with request 1 of 02.

use crate::Misreading;
use crate::answer::Answer;
use crate::bytes::Guid;
use crate::effects::{self, filter_admits, order_admits, set_full};
use crate::instances::{
    Turn, accept, at_limit, clear_owner, drop_writer, listing, no_room, note_admitted,
    observe_admitted,
};
use crate::layout::Kind;
use crate::liveliness::{expire, lost_with_participant, unmatched};
use crate::sheet::Sheet;
use crate::state::State;

pub fn call(state: &mut State, sheet: Sheet<'_>) -> Turn {
    let guid = sheet.guid();
    match sheet.code() {
        48 => admit(state, sheet),
        49 => {
            let (answer, expired) = expire(state, sheet.a())?;
            let whole = state.misreads(Misreading::LapseDropsAllLost);
            let gone = if whole { state.lost.clone() } else { expired };
            Ok(without(state, sheet, answer, &gone))
        }
        50 => {
            let answer = unmatched(state, &guid);
            Ok(without(state, sheet, answer, &[guid]))
        }
        _ => {
            let answer = lost_with_participant(state, &guid);
            Ok(without(state, sheet, answer, &[guid]))
        }
    }
}

fn admit(state: &mut State, sheet: Sheet<'_>) -> Turn {
    let outcome = |n| Ok((Answer::outcome(n), Vec::new()));
    let known = state.instance(&sheet.key()).map(|i| i.clone());
    let (delivered, filtered) =
        known.as_ref().map_or((None, None), |i| (i.last_delivered, i.last_filter));
    if !order_admits(delivered, sheet.time1(), sheet.by_source(), state.misreading) {
        return outcome(1);
    }
    if !filter_admits(filtered, sheet.time2(), sheet.a(), state.misreading) {
        return outcome(2);
    }
    if at_limit(state, sheet) {
        return outcome(3);
    }
    if let Some(number) = no_room(state, &sheet.key()) {
        return Err(number);
    }
    if known.as_ref().is_some_and(|i| set_full(i, &sheet.guid())) {
        return Err(10);
    }
    let revives = known.as_ref().is_some_and(|i| i.kind != Kind::Alive);
    let unasked = revives && state.misreads(Misreading::RevivedHandedOver);
    if !unasked && !accept(state, sheet) {
        return outcome(4);
    }
    let observed = observe_admitted(state, sheet)?;
    let noted = note_admitted(state, sheet)?;
    if known.is_none() || unasked {
        own_started(state, sheet);
    }
    let answer = Answer { handle: observed.handle, samples: observed.samples, ..noted };
    Ok((answer, Vec::new()))
}

/// The instance that an admit started gets its writer, strength and time 2 as
/// owner and owner_at.
fn own_started(state: &mut State, sheet: Sheet<'_>) {
    let unowned = state.misreads(Misreading::FirstSampleUnowned);
    let at_sample = state.misreads(Misreading::FirstOwnerAtSampleTime);
    let Some(instance) = state.instance(&sheet.key()).filter(|_| !unowned) else { return };
    effects::own(instance, sheet);
    if at_sample {
        instance.owner_at = Some(sheet.time1());
    }
}

/// Codes 7 and 18 for each writer gone, with the writerless in key order.
fn without(
    state: &mut State,
    sheet: Sheet<'_>,
    answer: Answer,
    gone: &[Guid],
) -> (Answer, Vec<u8>) {
    let mut writerless = Vec::new();
    let mut cleared = 0;
    for guid in gone {
        writerless.extend(drop_writer(state, guid, sheet.optional_time1()));
        cleared += clear_owner(state, |owner| owner == guid);
    }
    let in_key_order: Vec<u64> =
        state.instances.iter().map(|i| i.handle).filter(|h| writerless.contains(h)).collect();
    listing(Answer { count: cleared, ..answer }, &in_key_order)
}
