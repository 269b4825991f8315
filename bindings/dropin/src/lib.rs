//! The oracle's driver calls ZeroDDS's trackers by their names. Here the same file is built a second time, with the
//! names of crate `dcps`. In a console's transport, this `use` is all that changes.

pub use dcps::{LivelinessKind, sample_info, status, time};

#[path = "../../../oracle/original/src/driver.rs"]
mod driver;
pub use driver::{Original, Turn, handle_of, two_handles};

mod access;
pub use access::{set_places, take_refusal};

/// The handles, and access to their counter, which the driver needs.
pub mod instance_handle {
    pub use dcps::instance_handle::*;

    pub mod access {
        use super::InstanceHandleAllocator;

        pub fn starting_at(next: u64) -> InstanceHandleAllocator {
            InstanceHandleAllocator::starting_at(next)
        }

        pub fn next(allocator: &InstanceHandleAllocator) -> u64 {
            allocator.next()
        }
    }
}

/// The instances, and access to their state.
pub mod instance_tracker {
    pub use crate::access::instances as access;
    pub use dcps::instance_tracker::*;
}

/// The writers, and access to their state.
pub mod liveliness_tracker {
    pub use crate::access::liveliness as access;
    pub use dcps::liveliness_tracker::*;
}

/// A GUID is its 16 bytes.
pub mod wire_types {
    pub struct Guid;

    impl Guid {
        pub fn from_bytes(bytes: [u8; 16]) -> [u8; 16] {
            bytes
        }
    }
}
