//! Section 7's reads. Those of instances are lent the table and no head: it
//! has either length, and its used records are the ones before the first whose
//! handle is 0.

use crate::Answer;
use crate::bytes::{Guid, Key, array_at};
use crate::effects::{filter_admits, order_admits};
use crate::head::Head;
use crate::layout::{
    GUID_BYTES, INSTANCE_BYTES, Instance, Kind, LAST_NEXT_HANDLE, LOST_BYTES, LOST_PLACES,
    OUT_BYTES, Time, WRITER_PLACES, WRITERS_BYTES, is_figure, places_of,
};
use crate::liveliness;
use crate::state::{State, within_span};

/// Bits of a mask of view states.
pub const VIEW_NEW: u32 = 1;
pub const VIEW_NOT_NEW: u32 = 2;

/// The instances of a table, or refusal 1 or 3.
pub fn table(pens: &[u8]) -> Result<Vec<Instance>, u8> {
    let places = places_of(pens.len()).ok_or(1)?;
    let used = |record: &&[u8]| record[16..24] != [0; 8];
    let head = Head {
        instances: pens.chunks(INSTANCE_BYTES).take_while(used).count() as u32,
        next_handle: LAST_NEXT_HANDLE,
        ..Head::fresh(places)
    };
    let state = State::read(&head, pens, &[0; WRITERS_BYTES], &[0; LOST_BYTES]).ok_or(3)?;
    Ok(state.instances)
}

fn find<'a>(table: &'a [Instance], key: &Key) -> Option<&'a Instance> {
    table.iter().find(|i| i.key == *key)
}

/// A table, and a time that meets refusal 4 after it.
fn table_and_time(pens: &[u8], time: Time) -> Result<Vec<Instance>, u8> {
    let table = table(pens)?;
    if time.in_range() { Ok(table) } else { Err(4) }
}

pub fn delivers_under_filter(
    pens: &[u8],
    key: &Key,
    time: Time,
    separation: u64,
) -> Result<bool, u8> {
    let table = table_and_time(pens, time)?;
    Ok(filter_admits(find(&table, key).and_then(|i| i.last_filter), time, separation, None))
}

pub fn delivers_under_order(
    pens: &[u8],
    key: &Key,
    time: Time,
    by_source: bool,
) -> Result<bool, u8> {
    let table = table_and_time(pens, time)?;
    Ok(order_admits(find(&table, key).and_then(|i| i.last_delivered), time, by_source, None))
}

pub fn last_delivered(pens: &[u8], key: &Key) -> Result<Option<Time>, u8> {
    Ok(find(&table(pens)?, key).and_then(|i| i.last_delivered))
}

/// The GUIDs of a list, or refusal 1.
fn guids(list: &[u8]) -> Result<Vec<Guid>, u8> {
    if !list.len().is_multiple_of(GUID_BYTES) || list.len() > LOST_PLACES * GUID_BYTES {
        return Err(1);
    }
    Ok(list.chunks(GUID_BYTES).map(|guid| array_at(guid, 0)).collect())
}

/// The handles of the alive instances, of a view in the mask, all of whose
/// writers are in the list; at least one writer.
fn writerless(pens: &[u8], list: &[u8], views: u32) -> Result<Vec<u64>, u8> {
    let gone = guids(list)?;
    let table = table(pens)?;
    let left = |i: &&Instance| {
        let view = if i.view_new { VIEW_NEW } else { VIEW_NOT_NEW };
        i.kind == Kind::Alive
            && views & view != 0
            && !i.writers.is_empty()
            && i.writers.iter().all(|guid| gone.contains(guid))
    };
    Ok(table.iter().filter(left).map(|i| i.handle).collect())
}

/// Lists handles in Out; their number.
pub fn left_writerless(pens: &[u8], list: &[u8], views: u32, out: &mut [u8]) -> Result<usize, u8> {
    if out.len() != OUT_BYTES {
        return Err(1);
    }
    let handles = writerless(pens, list, views)?;
    for (handle, place) in handles.iter().zip(out.chunks_mut(8)) {
        place.copy_from_slice(&handle.to_be_bytes());
    }
    Ok(handles.len())
}

pub fn would_leave_writerless(pens: &[u8], list: &[u8], views: u32) -> Result<bool, u8> {
    Ok(!writerless(pens, list, views)?.is_empty())
}

/// The handle after one in key order, or the first after nil; none after the
/// last and after an unknown one.
pub fn next_handle_after(pens: &[u8], previous: u64) -> Result<Option<u64>, u8> {
    let table = table(pens)?;
    let place = match previous {
        0 => Some(0),
        _ => table.iter().position(|i| i.handle == previous).map(|place| place + 1),
    };
    Ok(place.and_then(|place| table.get(place)).map(|i| i.handle))
}

/// Of the alive instances whose set has the GUID the first in key order, by
/// request 6 of 02: the one with the least key. None exactly if there is none.
pub fn instance_of_writer(pens: &[u8], guid: &Guid) -> Result<Option<u64>, u8> {
    let table = table(pens)?;
    let fits = |i: &&Instance| i.kind == Kind::Alive && i.writers.contains(guid);
    Ok(table.iter().filter(fits).min_by_key(|i| i.key).map(|i| i.handle))
}

/// The stored holder of a key, or all of what is offered.
pub fn holder_in_force(pens: &[u8], key: &Key, offered: &[u8]) -> Vec<u8> {
    let table = table(pens).unwrap_or_default();
    find(&table, key).and_then(|i| i.holder.clone()).unwrap_or_else(|| offered.to_vec())
}

/// Refusal 3 for a head that no buffers go with.
fn head_fits(head: &Head) -> Result<(), u8> {
    let fits = is_figure(head.places)
        && head.instances <= u32::from(head.places)
        && head.writer_records <= WRITER_PLACES as u32
        && head.lost <= LOST_PLACES as u32
        && u64::from(head.alive) + u64::from(head.not_alive) <= u64::from(head.writer_records)
        && (1..=LAST_NEXT_HANDLE).contains(&head.next_handle)
        && u64::from(head.instances) < head.next_handle
        && within_span(head.alive, i64::from(head.alive_change))
        && within_span(head.not_alive, i64::from(head.not_alive_change));
    if fits { Ok(()) } else { Err(3) }
}

pub fn status(head: &Head) -> Result<Answer, u8> {
    head_fits(head)?;
    Ok(liveliness::status(head))
}

pub fn changes(head: &Head) -> Result<u64, u8> {
    head_fits(head)?;
    Ok(head.changes)
}
