//! The C boundary, as include/dcps.h has it. No call on a state can be refused as 1: all lengths but that of pens are fixed here,
//! and that one was judged when the state was made.

use crate::layout::{
    array_at, i32_at, u32_at, u64_at, ANSWER_BYTES, HEAD_BYTES, OUT_BYTES, READ_BYTES, SHEET_BYTES,
};
use crate::state::{refusal, Lent};
use crate::{InstanceHandle, KeyHash, Refusal, Time, WireFraction};

#[allow(dead_code)]
#[path = "c.rs"]
mod c;

/// The number and the answer of a call.
pub(crate) fn call(lent: Lent<'_>, sheet: &[u8; SHEET_BYTES]) -> (u32, [u8; ANSWER_BYTES]) {
    let mut answer = [0; ANSWER_BYTES];
    // SAFETY: each pointer comes from a borrow of that many bytes, and no two of them overlap.
    let number = unsafe {
        c::dcps_call(
            lent.head.as_mut_ptr(),
            lent.head.len(),
            sheet.as_ptr(),
            sheet.len(),
            lent.pens.as_mut_ptr(),
            lent.pens.len(),
            lent.writers.as_mut_ptr(),
            lent.writers.len(),
            lent.lost.as_mut_ptr(),
            lent.lost.len(),
            lent.out.as_mut_ptr(),
            lent.out.len(),
            answer.as_mut_ptr(),
            answer.len(),
        )
    };
    (number, answer)
}

/// Head and buffers become those of the fresh state; its places are those of pens.
pub(crate) fn fresh(lent: Lent<'_>) -> u32 {
    // SAFETY: as in `call`.
    unsafe {
        c::dcps_fresh(
            lent.head.as_mut_ptr(),
            lent.head.len(),
            lent.pens.as_mut_ptr(),
            lent.pens.len(),
            lent.writers.as_mut_ptr(),
            lent.writers.len(),
            lent.lost.as_mut_ptr(),
            lent.lost.len(),
        )
    }
}

/// What a read answers, from its 24 bytes.
pub(crate) struct Read {
    pub yes: bool,
    pub present: bool,
    /// Offset and length in pens of a stored holder.
    pub stored: Option<(usize, usize)>,
    /// Entries written to Out.
    pub listed: u32,
    pub handle: InstanceHandle,
    pub changes: u64,
    pub key_hash: KeyHash,
    pub time: Time,
    pub wire: WireFraction,
    pub wire_nanos: u32,
}

impl Read {
    fn of(b: &[u8; READ_BYTES]) -> Self {
        Self {
            yes: b[1] != 0,
            present: b[2] != 0,
            stored: (b[3] != 0).then(|| (u64_at(b, 8) as usize, u32_at(b, 4) as usize)),
            listed: u32_at(b, 4),
            handle: InstanceHandle::from_raw(u64_at(b, 8)),
            changes: u64_at(b, 8),
            key_hash: array_at(b, 8),
            time: Time { sec: i32_at(b, 16), nanosec: u32_at(b, 20) },
            wire: WireFraction { fraction: u32_at(b, 4), remainder: u64_at(b, 8) as u32 },
            wire_nanos: u32_at(b, 4),
        }
    }

    pub fn found(&self) -> Option<InstanceHandle> {
        self.present.then_some(self.handle)
    }
}

/// A read by a function that is lent where its answer goes.
fn read(ask: impl FnOnce(*mut u8, usize) -> u32) -> Result<Read, Refusal> {
    let mut answer = [0; READ_BYTES];
    match refusal(ask(answer.as_mut_ptr(), answer.len())) {
        None => Ok(Read::of(&answer)),
        Some(refusal) => Err(refusal),
    }
}

/// A key or GUID as it crosses: its first and its last 8 bytes.
pub(crate) fn halves(guid: &[u8; 16]) -> (u64, u64) {
    (u64_at(guid, 0), u64_at(guid, 8))
}

/// The reads of the header, under the same names: bytes that are read, values, bytes that are written where there are any,
/// and 24 bytes for the answer.
macro_rules! reads {
    ($($name:ident = $symbol:ident(
        $($lent:ident: $bytes:ty),*; $($value:ident: $type:ty),* $(; $($written:ident: $buffer:ty),*)?
    );)*) => {
        $(
            pub(crate) fn $name(
                $($lent: $bytes,)* $($value: $type,)* $($($written: $buffer),*)?
            ) -> Result<Read, Refusal> {
                // SAFETY: each pointer comes from a borrow of that many bytes, and what is written overlaps with
                // nothing else.
                read(|answer, length| unsafe {
                    c::$symbol(
                        $($lent.as_ptr(), $lent.len(),)* $($value,)* $($($written.as_mut_ptr(), $written.len(),)*)?
                        answer, length,
                    )
                })
            }
        )*
    };
}

reads! {
    filter = dcps_should_deliver_under_time_based_filter(
        pens: &[u8]; high: u64, low: u64, sec: i32, nanosec: u32, min_separation: u64);
    order = dcps_should_deliver_under_destination_order(
        pens: &[u8]; high: u64, low: u64, sec: i32, nanosec: u32, by_source: u8);
    last_delivered_ts = dcps_last_delivered_ts(pens: &[u8]; high: u64, low: u64);
    next_handle_after = dcps_next_handle_after(pens: &[u8]; previous: u64);
    handle_at_position = dcps_handle_at_position(pens: &[u8]; position: usize);
    holder_in_force = dcps_holder_in_force(pens: &[u8]; high: u64, low: u64);
    writer_lookup = dcps_writer_lookup(pens: &[u8]; high: u64, low: u64);
    would_leave_writerless = dcps_would_leave_writerless(pens: &[u8], gone: &[u8]; view_states: u32);
    left_writerless = dcps_left_writerless(pens: &[u8], gone: &[u8]; view_states: u32; out: &mut [u8; OUT_BYTES]);
    changes = dcps_changes(head: &[u8; HEAD_BYTES];);
    key_hash = dcps_key_hash(serialized: &[u8]; largest: u64);
    wire_fraction = dcps_wire_fraction(; nanosec: u32);
    wire_nanos = dcps_wire_nanos(; fraction: u32, remainder: u32);
}

pub(crate) fn status(head: &[u8; HEAD_BYTES]) -> (u32, [u8; ANSWER_BYTES]) {
    let mut answer = [0; ANSWER_BYTES];
    // SAFETY: as of the reads above.
    let number =
        unsafe { c::dcps_status(head.as_ptr(), head.len(), answer.as_mut_ptr(), answer.len()) };
    (number, answer)
}

/// The version of the library.
pub(crate) fn version() -> u32 {
    // SAFETY: nothing is lent.
    unsafe { c::dcps_version() }
}
