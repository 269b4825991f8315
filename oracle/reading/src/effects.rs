//! What the instance calls do to one instance (section 3).
//!
//! Derives from ZeroDDS's instance_tracker.rs as section 3 states its rules.

use crate::Misreading;
use crate::bytes::Guid;
use crate::gaps::{Rule, gap, gap_as, purge_gap};
use crate::layout::{Instance, Kind, SET_PLACES, Time};
use crate::sheet::Sheet;

/// Delay or deadline that stands for never.
const NEVER: u64 = u64::MAX;

/// A given time replaces the one there.
fn set(field: &mut Option<Time>, given: Option<Time>) {
    if given.is_some() {
        *field = given;
    }
}

/// Alive again, with one more of the matching generation; whether it was not.
fn revive(i: &mut Instance) -> bool {
    match i.kind {
        Kind::Alive => return false,
        Kind::Disposed => i.disposed_generations = i.disposed_generations.saturating_add(1),
        Kind::NoWriters => i.no_writers_generations = i.no_writers_generations.saturating_add(1),
    }
    i.kind = Kind::Alive;
    true
}

fn revive_as_new(i: &mut Instance) {
    if revive(i) {
        i.view_new = true;
    }
}

/// Code 1; the view stays as it was. Whether it revived the instance.
pub fn register(i: &mut Instance, sheet: Sheet<'_>) -> bool {
    i.holder = Some(sheet.holder().to_vec());
    i.writer_count = i.writer_count.saturating_add(1);
    set(&mut i.last_sample, sheet.optional_time1());
    revive(i)
}

/// Code 2.
pub fn ensure_registered(i: &mut Instance) {
    revive_as_new(i);
    i.writer_count = i.writer_count.max(1);
}

/// Code 3.
pub fn dispose(i: &mut Instance, sheet: Sheet<'_>) {
    i.kind = Kind::Disposed;
    set(&mut i.last_sample, sheet.optional_time1());
    set(&mut i.disposed_at, sheet.optional_time1());
}

/// Code 4.
pub fn unregister(i: &mut Instance, sheet: Sheet<'_>) {
    i.writer_count = i.writer_count.saturating_sub(1);
    if i.writer_count == 0 && i.kind != Kind::Disposed {
        i.kind = Kind::NoWriters;
        set(&mut i.no_writers_at, sheet.optional_time1());
    }
    set(&mut i.last_sample, sheet.optional_time1());
}

/// Code 5.
pub fn unregister_writer(i: &mut Instance, sheet: Sheet<'_>) {
    i.writers.retain(|guid| *guid != sheet.guid());
    if i.writers.is_empty() && i.kind == Kind::Alive {
        i.kind = Kind::NoWriters;
        set(&mut i.no_writers_at, sheet.optional_time1());
    }
    set(&mut i.last_sample, sheet.optional_time1());
}

/// Refusal 10.
pub fn set_full(i: &Instance, guid: &Guid) -> bool {
    i.writers.len() == SET_PLACES && i.writers.binary_search(guid).is_err()
}

/// Code 6.
pub fn note_writer(i: &mut Instance, guid: Guid) {
    if let Err(place) = i.writers.binary_search(&guid) {
        i.writers.insert(place, guid);
    }
}

/// Code 7; whether it turned the instance, an alive one that it took the last
/// writer from.
pub fn drop_writer(i: &mut Instance, guid: &Guid, time: Option<Time>) -> bool {
    let Ok(place) = i.writers.binary_search(guid) else { return false };
    i.writers.remove(place);
    let turned = i.writers.is_empty() && i.kind == Kind::Alive;
    if turned {
        i.kind = Kind::NoWriters;
        set(&mut i.no_writers_at, time);
        set(&mut i.last_sample, time);
    }
    turned
}

/// Code 8; revives nothing.
pub fn observe_lifecycle(i: &mut Instance, sheet: Sheet<'_>) {
    if let Some(holder) = sheet.optional_holder() {
        i.holder = Some(holder.to_vec());
    }
    set(&mut i.last_sample, sheet.optional_time1());
    i.samples = i.samples.saturating_add(1);
}

/// Code 9; a holder that is there stays.
pub fn observe_admitted(i: &mut Instance, sheet: Sheet<'_>) {
    revive_as_new(i);
    if i.holder.is_none() {
        i.holder = Some(sheet.holder().to_vec());
    }
    i.last_sample = Some(sheet.time1());
    i.samples = i.samples.saturating_add(1);
}

/// Code 10.
pub fn note_admitted(i: &mut Instance, sheet: Sheet<'_>) {
    note_writer(i, sheet.guid());
    i.last_delivered = Some(sheet.time1());
    i.last_filter = Some(sheet.time2());
}

/// Code 11.
pub fn record_delivery(i: &mut Instance, sheet: Sheet<'_>) {
    i.last_delivered = Some(sheet.time1());
    i.last_filter = Some(sheet.time1());
}

/// Code 12.
pub fn note_taken(i: &mut Instance, sheet: Sheet<'_>) {
    mark_view_seen(i, sheet);
    drain_samples(i, sheet);
}

/// Code 13.
pub fn mark_view_seen(i: &mut Instance, _: Sheet<'_>) {
    i.view_new = false;
}

/// Code 15.
pub fn drain_samples(i: &mut Instance, sheet: Sheet<'_>) {
    i.samples = i.samples.saturating_sub(sheet.n());
}

/// Code 16; whether the writer now owns the instance. A tie goes to the lower
/// GUID, or to the higher one where that is asked for.
pub fn accept(i: &mut Instance, sheet: Sheet<'_>, tie_to_higher: bool) -> bool {
    let yes = takes_over(i, sheet, tie_to_higher);
    if yes {
        own(i, sheet);
    }
    yes
}

/// The writer owns the instance, from time 2 on.
pub fn own(i: &mut Instance, sheet: Sheet<'_>) {
    i.owner = Some((sheet.guid(), sheet.strength()));
    i.owner_at = Some(sheet.time2());
}

fn takes_over(i: &Instance, sheet: Sheet<'_>, tie_to_higher: bool) -> bool {
    let Some((owner, strength)) = i.owner else { return true };
    let wins_tie = if tie_to_higher { sheet.guid() > owner } else { sheet.guid() < owner };
    owner == sheet.guid()
        || missed_deadline(i, sheet)
        || sheet.strength() > strength
        || sheet.strength() == strength && wins_tie
}

fn missed_deadline(i: &Instance, sheet: Sheet<'_>) -> bool {
    let (Some(deadline), Some(at)) = (sheet.optional_deadline(), i.owner_at) else {
        return false;
    };
    deadline != NEVER && reaches(gap(at, sheet.time2()), deadline)
}

/// Code 17.
pub fn update_owner_strength(i: &mut Instance, sheet: Sheet<'_>) {
    if let Some((owner, strength)) = i.owner.as_mut()
        && *owner == sheet.guid()
    {
        *strength = sheet.strength();
    }
}

/// Codes 18 to 20: clears an owner that `which` names; owner_at stays.
pub fn clear_owner(i: &mut Instance, which: impl Fn(&Guid) -> bool) -> bool {
    let owned = i.owner.is_some_and(|(owner, _)| which(&owner));
    if owned {
        i.owner = None;
    }
    owned
}

/// Whether a gap is not negative and as long as a delay.
fn reaches(gap: i64, delay: u64) -> bool {
    u64::try_from(gap).is_ok_and(|gap| gap >= delay)
}

/// Code 21; whether the instance goes, as a misreading has it where one is
/// asked for.
pub fn purges(i: &Instance, sheet: Sheet<'_>, misreading: Option<Misreading>) -> bool {
    let (at, delay) = match i.kind {
        Kind::Alive => return false,
        Kind::Disposed => (i.disposed_at, sheet.a()),
        Kind::NoWriters => (i.no_writers_at, sheet.b()),
    };
    let Some(at) = at else { return false };
    let only_later = misreading == Some(Misreading::PurgeOnlyAfterDelay);
    let gap = gap_as(misreading, Rule::Purge, at, sheet.time2());
    let counted = purge_gap(misreading, gap).filter(|gap| !(only_later && *gap == delay));
    delay != NEVER && counted.is_some_and(|gap| gap >= delay)
}

/// Time-based filter: a sample from before the last passes, a later one by its
/// distance. No distance is 2^64-1.
pub fn filter_admits(
    last: Option<Time>,
    time: Time,
    separation: u64,
    misreading: Option<Misreading>,
) -> bool {
    let Some(last) = last else { return true };
    let gap = gap_as(misreading, Rule::Filter, last, time);
    gap < 0 || reaches(gap, separation)
}

/// Destination order, asked only by source time: after the last one.
pub fn order_admits(
    last: Option<Time>,
    time: Time,
    by_source: bool,
    misreading: Option<Misreading>,
) -> bool {
    !by_source || last.is_none_or(|last| gap_as(misreading, Rule::Order, last, time) > 0)
}
