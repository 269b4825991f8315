//! Codes 32 to 40: the liveliness calls of section 4.
//!
//! The calls are those of ZeroDDS's liveliness_tracker.rs. The rules are read
//! from section 6: each call is a step of every writer's account, and counts,
//! changes and last writer follow from the classes before and after.

use crate::Misreading;
use crate::answer::Answer;
use crate::bytes::{Guid, Prefix, prefix_of};
use crate::handles;
use crate::head::Head;
use crate::instances::Turn;
use crate::layout::{LOST_PLACES, Standing, WRITER_PLACES, Writer, WriterKind};
use crate::sheet::Sheet;
use crate::state::{Class, State, class, count, within_span};

pub fn call(state: &mut State, sheet: Sheet<'_>) -> Turn {
    let answer = match sheet.code() {
        32 => matched(state, sheet)?,
        33 => unmatched(state, &sheet.guid()),
        34 => lost_with_participant(state, &sheet.guid()),
        35 => asserted(state, sheet.prefix(), true, Some(sheet.guid()), sheet.a()),
        36 => asserted(state, sheet.prefix(), sheet.manual(), None, sheet.a()),
        37 => expire(state, sheet.a())?.0,
        38 => return Ok(take_lost(state)),
        39 => take_status(state),
        _ => acknowledge(state, i64::from(sheet.first_change()), i64::from(sheet.second_change())),
    };
    Ok((answer, Vec::new()))
}

/// Steps the accounts and settles counts, changes and last writer; answers
/// whether a writer changed class.
fn step(state: &mut State, act: impl FnOnce(&mut Vec<Writer>)) -> Answer {
    let before = state.writers.clone();
    act(&mut state.writers);
    let changed = changed_class(&before, &state.writers);
    let head = &mut state.head;
    let (alive, not_alive) = (head.alive, head.not_alive);
    head.alive = count(&state.writers, Class::Alive);
    head.not_alive = count(&state.writers, Class::NotAlive);
    head.alive_change += head.alive as i32 - alive as i32;
    head.not_alive_change += head.not_alive as i32 - not_alive as i32;
    head.last_writer = changed.iter().max().copied().or(head.last_writer);
    head.changes = head.changes.wrapping_add(changed.len() as u64);
    Answer::yes(!changed.is_empty())
}

fn class_of(writers: &[Writer], guid: &Guid) -> Class {
    place(writers, guid).map_or(Class::Neither, |at| class(&writers[at]))
}

/// The GUIDs whose class differs between two sets of accounts.
fn changed_class(before: &[Writer], after: &[Writer]) -> Vec<Guid> {
    let gone = before.iter().filter(|w| place(after, &w.guid).is_err());
    let mut changed: Vec<Guid> =
        gone.filter(|w| class(w) != Class::Neither).map(|w| w.guid).collect();
    let moved = after.iter().filter(|w| class(w) != class_of(before, &w.guid));
    changed.extend(moved.map(|w| w.guid));
    changed
}

fn place(writers: &[Writer], guid: &Guid) -> Result<usize, usize> {
    writers.binary_search_by(|w| w.guid.cmp(guid))
}

fn matched(state: &mut State, sheet: Sheet<'_>) -> Result<Answer, u8> {
    // Kind 3 is refusal 7, met before.
    let kind = WriterKind::from_bits(sheet.kind_bits()).unwrap_or_default();
    let (guid, lease, clock) = (sheet.guid(), sheet.optional_lease(), sheet.a());
    let place = place(&state.writers, &guid);
    if place.is_err() && state.writers.len() == WRITER_PLACES {
        return Err(11);
    }
    let twisted = state.misreads(Misreading::RevivesOnLastAssertion);
    Ok(step(state, |writers| {
        let was_tracked = place.is_ok_and(|at| writers[at].tracked());
        match place {
            Err(at) => writers.insert(
                at,
                Writer { guid, kind, lease, standing: Standing::Unasserted, last_assertion: clock },
            ),
            Ok(at) if was_tracked => {
                writers[at].kind = kind;
                writers[at].lease = lease;
            }
            Ok(at) => {
                writers[at] =
                    Writer { guid, kind, lease, standing: Standing::NotAlive, last_assertion: 0 };
            }
        }
        if kind == WriterKind::Automatic && !was_tracked {
            assert_all(writers, prefix_of(&guid), false, Some(guid), clock, twisted);
        }
    }))
}

pub fn unmatched(state: &mut State, guid: &Guid) -> Answer {
    step(state, |writers| writers.retain(|w| w.guid != *guid || !w.tracked()))
}

pub fn lost_with_participant(state: &mut State, guid: &Guid) -> Answer {
    step(state, |writers| {
        let Ok(at) = place(writers, guid) else { return };
        match writers[at].standing {
            Standing::Unasserted => {
                writers.remove(at);
            }
            _ => writers[at] = Writer::departed(*guid),
        }
    })
}

fn asserted(
    state: &mut State,
    prefix: Prefix,
    manual: bool,
    named: Option<Guid>,
    clock: u64,
) -> Answer {
    let twisted = state.misreads(Misreading::RevivesOnLastAssertion);
    step(state, |writers| assert_all(writers, prefix, manual, named, clock, twisted))
}

/// One assertion, on each writer that it covers.
fn assert_all(
    writers: &mut [Writer],
    prefix: Prefix,
    manual: bool,
    named: Option<Guid>,
    clock: u64,
    revives_on_last: bool,
) {
    for writer in writers.iter_mut().filter(|w| w.tracked()) {
        let of_participant = prefix_of(&writer.guid) == prefix;
        let by_kind = match writer.kind {
            WriterKind::Automatic => of_participant,
            WriterKind::ByParticipant => of_participant && manual,
            WriterKind::ByTopic => false,
        };
        let covered = by_kind || named == Some(writer.guid);
        let fresh = clock > writer.last_assertion
            || clock == writer.last_assertion
                && (writer.standing != Standing::NotAlive || revives_on_last);
        if covered && fresh {
            writer.standing = Standing::Alive;
            writer.last_assertion = clock;
        }
    }
}

/// The answer and the writers that this call expired, rising.
pub fn expire(state: &mut State, clock: u64) -> Result<(Answer, Vec<Guid>), u8> {
    let late = |w: &Writer| w.due().is_some_and(|due| clock >= due);
    let expired: Vec<Guid> = state.writers.iter().filter(|w| late(w)).map(|w| w.guid).collect();
    if state.lost.len() + expired.len() > LOST_PLACES {
        return Err(12);
    }
    let answer = step(state, |writers| {
        for writer in writers.iter_mut().filter(|w| late(w)) {
            writer.standing = Standing::NotAlive;
        }
    });
    state.lost.extend(&expired);
    let next = state.writers.iter().filter_map(Writer::due).min();
    let answer = Answer { next_due_present: next.is_some(), next_due: next.unwrap_or(0), ..answer };
    Ok((answer, expired))
}

fn take_lost(state: &mut State) -> (Answer, Vec<u8>) {
    let lost = std::mem::take(&mut state.lost);
    (Answer { listed: lost.len() as u32, ..Answer::default() }, lost.concat())
}

/// The liveliness status; nil stands for no last writer.
pub fn status(head: &Head) -> Answer {
    Answer {
        alive: head.alive,
        not_alive: head.not_alive,
        alive_change: head.alive_change,
        not_alive_change: head.not_alive_change,
        last_publication_handle: head.last_writer.map_or(0, |guid| handles::of_guid(&guid)),
        ..Answer::default()
    }
}

fn take_status(state: &mut State) -> Answer {
    let answer = status(&state.head);
    state.head.alive_change = 0;
    state.head.not_alive_change = 0;
    answer
}

/// Refusal 8 looked at the sums already.
fn acknowledge(state: &mut State, alive: i64, not_alive: i64) -> Answer {
    let head = &mut state.head;
    head.alive_change = (i64::from(head.alive_change) - alive) as i32;
    head.not_alive_change = (i64::from(head.not_alive_change) - not_alive) as i32;
    Answer::default()
}

/// Refusal 8.
pub fn acknowledges_too_much(state: &State, sheet: Sheet<'_>) -> bool {
    let head = &state.head;
    let alive = i64::from(head.alive_change) - i64::from(sheet.first_change());
    let not_alive = i64::from(head.not_alive_change) - i64::from(sheet.second_change());
    !within_span(head.alive, alive) || !within_span(head.not_alive, not_alive)
}
