//! Codes 1 to 21: which instances a call reaches, its late refusals and its
//! answer (sections 3 and 8).
//!
//! The calls are those of ZeroDDS's instance_tracker.rs.

use crate::Misreading;
use crate::answer::Answer;
use crate::bytes::{Guid, Key, prefix_of};
use crate::effects;
use crate::handles;
use crate::layout::{Instance, LAST_NEXT_HANDLE, SMALL, Time};
use crate::sheet::Sheet;
use crate::state::State;

/// What an accepted call answers and Out lists, or its refusal.
pub type Turn = Result<(Answer, Vec<u8>), u8>;

pub fn call(state: &mut State, sheet: Sheet<'_>) -> Turn {
    let guid = sheet.guid();
    let answer = match sheet.code() {
        1 => register(state, sheet)?,
        2 => ensure_registered_limited(state, sheet)?,
        3 => on_handle(state, sheet, effects::dispose),
        4 => unregister(state, sheet),
        5 => on_handle(state, sheet, effects::unregister_writer),
        6 => note_writer(state, sheet)?,
        7 => {
            let handles = drop_writer(state, &guid, sheet.optional_time1());
            return Ok(listing(Answer::default(), &handles));
        }
        8 => observe_lifecycle(state, sheet)?,
        9 => observe_admitted(state, sheet)?,
        10 => note_admitted(state, sheet)?,
        11 => unanswered(on_key(state, sheet, effects::record_delivery)),
        12 => unanswered(on_handle(state, sheet, effects::note_taken)),
        13 => unanswered(on_handle(state, sheet, effects::mark_view_seen)),
        14 => on_key(state, sheet, |i, _| i.view_new = true),
        15 => unanswered(on_handle(state, sheet, effects::drain_samples)),
        16 => Answer::yes(accept(state, sheet)),
        17 => update_owner_strength(state, sheet),
        18 => Answer::count(clear_owner(state, |owner| *owner == guid)),
        19 => Answer::count(clear_owner(state, |owner| prefix_of(owner) == sheet.prefix())),
        20 => release_owner_of(state, sheet),
        _ => autopurge(state, sheet),
    };
    Ok((answer, Vec::new()))
}

/// Handles as Out lists them, and their number.
pub fn listing(answer: Answer, handles: &[u64]) -> (Answer, Vec<u8>) {
    let out = handles.iter().flat_map(|h| h.to_be_bytes()).collect();
    (Answer { listed: handles.len() as u32, ..answer }, out)
}

/// The answer of a call of the Rust that answers nothing.
fn unanswered(_: Answer) -> Answer {
    Answer::default()
}

/// Acts on the instance with the sheet's handle; says whether there is one.
fn on_handle(
    state: &mut State,
    sheet: Sheet<'_>,
    act: impl Fn(&mut Instance, Sheet<'_>),
) -> Answer {
    let found = state.by_handle(sheet.handle());
    Answer::yes(found.map(|i| act(i, sheet)).is_some())
}

/// Acts on the instance with the sheet's key; says whether there is one.
fn on_key(state: &mut State, sheet: Sheet<'_>, act: impl Fn(&mut Instance, Sheet<'_>)) -> Answer {
    let found = state.instance(&sheet.key());
    Answer::yes(found.map(|i| act(i, sheet)).is_some())
}

/// Refusals 9 and 13, for a key that is not there.
pub fn no_room(state: &State, key: &Key) -> Option<u8> {
    let misread = state.misreads(Misreading::NineAtThirtyTwo);
    let places = if misread { SMALL } else { state.head.places };
    if state.place(key).is_ok() {
        None
    } else if state.instances.len() >= usize::from(places) {
        Some(9)
    } else if state.head.next_handle == LAST_NEXT_HANDLE {
        Some(13)
    } else {
        None
    }
}

/// Whether a key that is not there meets the sheet's limit; a negative one is
/// none.
pub fn at_limit(state: &State, sheet: Sheet<'_>) -> bool {
    let limit = usize::try_from(sheet.limit());
    state.place(&sheet.key()).is_err() && limit.is_ok_and(|limit| state.instances.len() >= limit)
}

/// The instance of a key, started with the next handle where there is none.
fn start(state: &mut State, key: Key) -> Result<&mut Instance, u8> {
    if let Some(number) = no_room(state, &key) {
        return Err(number);
    }
    let place = match state.place(&key) {
        Ok(place) => place,
        Err(place) => {
            let (handle, next) = handles::allocate(state.head.next_handle);
            state.instances.insert(place, Instance::fresh(key, handle));
            state.head.next_handle = next;
            place
        }
    };
    Ok(&mut state.instances[place])
}

fn register(state: &mut State, sheet: Sheet<'_>) -> Result<Answer, u8> {
    let wrongly_new = state.misreads(Misreading::RegisterSetsViewNew);
    let instance = start(state, sheet.key())?;
    let revived = effects::register(instance, sheet);
    instance.view_new |= wrongly_new && revived;
    Ok(Answer::handle(instance.handle))
}

fn ensure_registered_limited(state: &mut State, sheet: Sheet<'_>) -> Result<Answer, u8> {
    if at_limit(state, sheet) {
        return Ok(Answer::default());
    }
    let instance = start(state, sheet.key())?;
    effects::ensure_registered(instance);
    Ok(Answer::handle(instance.handle))
}

fn unregister(state: &mut State, sheet: Sheet<'_>) -> Answer {
    let wrongly_empty = state.misreads(Misreading::UnregisterEmptiesWriters);
    on_handle(state, sheet, |i, sheet| {
        effects::unregister(i, sheet);
        if wrongly_empty {
            i.writers.clear();
        }
    })
}

fn note_writer(state: &mut State, sheet: Sheet<'_>) -> Result<Answer, u8> {
    let guid = sheet.guid();
    match state.by_handle(sheet.handle()) {
        Some(i) if effects::set_full(i, &guid) => return Err(10),
        Some(i) => effects::note_writer(i, guid),
        None => {}
    }
    Ok(Answer::default())
}

/// Takes a writer out of every set; the handles of the instances it turned.
pub fn drop_writer(state: &mut State, guid: &Guid, time: Option<Time>) -> Vec<u64> {
    let turned = |i: &mut Instance| effects::drop_writer(i, guid, time).then_some(i.handle);
    state.instances.iter_mut().filter_map(turned).collect()
}

fn observe_lifecycle(state: &mut State, sheet: Sheet<'_>) -> Result<Answer, u8> {
    let instance = start(state, sheet.key())?;
    effects::observe_lifecycle(instance, sheet);
    Ok(Answer::handle(instance.handle))
}

pub fn observe_admitted(state: &mut State, sheet: Sheet<'_>) -> Result<Answer, u8> {
    if at_limit(state, sheet) {
        return Ok(Answer::default());
    }
    let unknown = state.place(&sheet.key()).is_err();
    let wrongly_owned = unknown && state.misreads(Misreading::ObservedOwns);
    let instance = start(state, sheet.key())?;
    effects::observe_admitted(instance, sheet);
    if wrongly_owned {
        effects::own(instance, sheet);
    }
    Ok(Answer { samples: instance.samples, ..Answer::handle(instance.handle) })
}

pub fn note_admitted(state: &mut State, sheet: Sheet<'_>) -> Result<Answer, u8> {
    let Some(instance) = state.instance(&sheet.key()) else {
        return Ok(Answer::default());
    };
    if effects::set_full(instance, &sheet.guid()) {
        return Err(10);
    }
    effects::note_admitted(instance, sheet);
    Ok(Answer {
        present: true,
        view_new: instance.view_new,
        kind: instance.kind as u8,
        disposed_generations: instance.disposed_generations as u32,
        no_writers_generations: instance.no_writers_generations as u32,
        ..Answer::default()
    })
}

/// Code 16; an unknown key says yes and stores nothing.
pub fn accept(state: &mut State, sheet: Sheet<'_>) -> bool {
    let tie_to_higher = state.misreads(Misreading::TieToHigherGuid);
    let found = state.instance(&sheet.key());
    found.is_none_or(|i| effects::accept(i, sheet, tie_to_higher))
}

fn update_owner_strength(state: &mut State, sheet: Sheet<'_>) -> Answer {
    state.instances.iter_mut().for_each(|i| effects::update_owner_strength(i, sheet));
    Answer::default()
}

/// Clears the owners that `which` names, in every instance; their number.
pub fn clear_owner(state: &mut State, which: impl Fn(&Guid) -> bool) -> u32 {
    state.instances.iter_mut().map(|i| u32::from(effects::clear_owner(i, &which))).sum()
}

fn release_owner_of(state: &mut State, sheet: Sheet<'_>) -> Answer {
    let found = state.instance(&sheet.key());
    Answer::yes(found.is_some_and(|i| effects::clear_owner(i, |owner| *owner == sheet.guid())))
}

fn autopurge(state: &mut State, sheet: Sheet<'_>) -> Answer {
    let (before, misreading) = (state.instances.len(), state.misreading);
    state.instances.retain(|i| !effects::purges(i, sheet, misreading));
    Answer::count((before - state.instances.len()) as u32)
}
