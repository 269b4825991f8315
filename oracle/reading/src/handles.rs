//! Section 1: handles, from a counter or from a GUID.
//!
//! Derives from ZeroDDS's instance_handle.rs.

use crate::bytes::{Guid, fnv1a};

/// The handle that a counter gives, and the counter after it; nil is skipped.
pub fn allocate(counter: u64) -> (u64, u64) {
    let handle = counter.max(1);
    (handle, handle.wrapping_add(1))
}

/// The handle of a GUID, never nil.
pub fn of_guid(guid: &Guid) -> u64 {
    fnv1a(guid).max(1)
}
