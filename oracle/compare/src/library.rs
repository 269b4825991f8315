//! The functions of include/dcps.h over slices, whose lengths are the ones
//! lent. Where the library was not at hand none of them can be called.

#[cfg(dcps_library)]
#[allow(dead_code)]
#[path = "../../../bindings/rust/src/c.rs"]
mod c;

/// Whether the library was at hand when this was built.
pub const PRESENT: bool = cfg!(dcps_library);

/// Where it was looked for.
pub const DIRECTORY: &str = env!("LIBRARY_DIRECTORY");

/// What is lent with a call.
pub struct Lent<'a> {
    pub head: &'a mut [u8],
    pub sheet: &'a [u8],
    pub pens: &'a mut [u8],
    pub writers: &'a mut [u8],
    pub lost: &'a mut [u8],
    pub out: &'a mut [u8],
    pub answer: &'a mut [u8],
}

/// Functions of the header over slices: what is lent, what passes by value, and
/// what is written.
macro_rules! boundary {
    ($($name:ident = $symbol:ident($($lent:ident),*; $($value:ident: $type:ty),*; $($written:ident),*);)*) => {
        $(
            #[allow(clippy::too_many_arguments)]
            pub fn $name($($lent: &[u8],)* $($value: $type,)* $($written: &mut [u8]),*) -> u32 {
                // SAFETY: each pointer comes from a borrow of that many bytes,
                // and what is written overlaps with nothing else.
                #[cfg(dcps_library)]
                let number = unsafe {
                    c::$symbol(
                        $($lent.as_ptr(), $lent.len(),)* $($value,)* $($written.as_mut_ptr(), $written.len()),*
                    )
                };
                #[cfg(not(dcps_library))]
                let number = absent(($($lent,)* $($value,)* $($written,)*));
                number
            }
        )*
    };
}

boundary! {
    status = dcps_status(head;; answer);
    changes = dcps_changes(head;; answer);
    delivers_under_filter = dcps_should_deliver_under_time_based_filter(
        pens; high: u64, low: u64, sec: i32, nanosec: u32, separation: u64; answer);
    delivers_under_order = dcps_should_deliver_under_destination_order(
        pens; high: u64, low: u64, sec: i32, nanosec: u32, by_source: u8; answer);
    last_delivered = dcps_last_delivered_ts(pens; high: u64, low: u64; answer);
    next_handle_after = dcps_next_handle_after(pens; previous: u64; answer);
    handle_at_position = dcps_handle_at_position(pens; position: usize; answer);
    holder_in_force = dcps_holder_in_force(pens; high: u64, low: u64; answer);
    writer_lookup = dcps_writer_lookup(pens; high: u64, low: u64; answer);
    would_leave_writerless = dcps_would_leave_writerless(pens, gone; view_states: u32; answer);
    left_writerless = dcps_left_writerless(pens, gone; view_states: u32; out, answer);
    key_hash = dcps_key_hash(serialized; largest: u64; answer);
    wire_fraction = dcps_wire_fraction(; nanosec: u32; answer);
    wire_nanos = dcps_wire_nanos(; fraction: u32, remainder: u32; answer);
    fresh = dcps_fresh(;; head, pens, writers, lost);
}

#[cfg(not(dcps_library))]
fn absent<T>(_: T) -> u32 {
    unreachable!("no library in {DIRECTORY}")
}

#[cfg(dcps_library)]
pub fn call(lent: Lent<'_>) -> u32 {
    let Lent { head, sheet, pens, writers, lost, out, answer } = lent;
    // SAFETY: as for the reads.
    unsafe {
        c::dcps_call(
            head.as_mut_ptr(),
            head.len(),
            sheet.as_ptr(),
            sheet.len(),
            pens.as_mut_ptr(),
            pens.len(),
            writers.as_mut_ptr(),
            writers.len(),
            lost.as_mut_ptr(),
            lost.len(),
            out.as_mut_ptr(),
            out.len(),
            answer.as_mut_ptr(),
            answer.len(),
        )
    }
}

#[cfg(not(dcps_library))]
pub fn call(lent: Lent<'_>) -> u32 {
    absent(lent)
}
