//! ZeroDDS's instance and liveliness trackers as 01's calls see them, and its
//! KeyHash.
//!
//! The sources are built as they are, from the directory that `ZERO_DDS_SRC`
//! names; the build script appends to each copy what sets and gets its state.
//! Where the sources are missing the crate still builds and has no trackers.

// The sources name two other crates and the wire crate; all three are this one.
#[cfg(sources)]
extern crate self as zerodds_qos;
#[cfg(sources)]
extern crate self as zerodds_rtps;
#[cfg(sources)]
extern crate self as zerodds_wire;

#[cfg(sources)]
include!(concat!(env!("OUT_DIR"), "/modules.rs"));

#[cfg(sources)]
mod stand_ins;
#[cfg(sources)]
pub use stand_ins::{
    LivelinessKind, sample_info, status, time, wire::Endianness, wire::Writer, wire::md5,
    wire_types,
};

#[cfg(sources)]
mod driver;
#[cfg(sources)]
pub use driver::{Original, Turn, handle_of, two_handles};

/// The KeyHash by the Rust; none where the sources are not at hand.
#[cfg(sources)]
pub fn key_hash_of(serialized: &[u8], largest: usize) -> Option<reading::bytes::Key> {
    Some(key_hash::compute_key_hash(serialized, largest))
}

#[cfg(not(sources))]
mod absent;
#[cfg(not(sources))]
pub use absent::{Original, Turn, handle_of, key_hash_of, two_handles};

/// Whether the sources were at hand when this was built.
pub const PRESENT: bool = cfg!(sources);

/// Where they were looked for.
pub const DIRECTORY: &str = env!("SOURCE_DIRECTORY");
