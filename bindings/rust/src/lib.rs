#![cfg_attr(not(feature = "std"), no_std)]
#![cfg_attr(feature = "std", doc = include_str!("../README.md"))]
#![cfg_attr(
    not(feature = "std"),
    doc = "The proved DDS trackers, over the static library libdcps_c.a."
)]
#![warn(missing_docs)]
// Without its features the crate lacks what some of its documentation leads to.
#![cfg_attr(not(feature = "std"), allow(rustdoc::broken_intra_doc_links))]

#[cfg(not(any(dcps_library, doc)))]
compile_error!(
    "libdcps_c.a is not there: run `make lib`, or name the directory that has it in DCPS_LIB_DIR"
);

#[cfg(feature = "alloc")]
extern crate alloc;
#[cfg(feature = "alloc")]
use alloc::vec::Vec;

mod answer;
mod ffi;
mod instances;
mod joined;
pub mod keep;
mod key_hash;
mod layout;
mod liveliness;
mod places;
mod reads;
mod refusal;
mod sheet;
mod snapshot;
mod state;
#[cfg(feature = "std")]
mod trackers;
mod types;
mod wire_time;

pub use {
    answer::Answer,
    joined::{Admission, Sample},
    key_hash::{key_hash, KEY_LARGEST_BYTES},
    places::{carry_head, Places},
    reads::Walker,
    refusal::Refusal,
    sheet::Sheet,
    snapshot::{Instance, WriterLiveliness, WriterState},
    state::{version, Buffers, Head, Lent, Seen, State},
    types::{
        view_state_mask, InstanceHandle, InstanceStateKind, KeyHash, LivelinessChangedStatus,
        LivelinessKind, Time, HANDLE_NIL,
    },
    wire_time::{wire_fraction, wire_nanos, WireFraction, REMAINDER_UNKNOWN},
};

#[cfg(feature = "alloc")]
pub use {
    joined::{Lapse, Parting},
    snapshot::InstanceState,
    state::Owned,
};

#[cfg(feature = "std")]
pub use trackers::{InstanceHandleAllocator, InstanceTracker, LivelinessTracker, SharedState};

/// The modules in which ZeroDDS has these items. So only the first name of a `use` has to change.
pub mod instance_handle {
    #[cfg(feature = "std")]
    pub use crate::InstanceHandleAllocator;
    pub use crate::{InstanceHandle, HANDLE_NIL};
}

/// As [`instance_handle`].
#[cfg(feature = "std")]
pub mod instance_tracker {
    pub use crate::{InstanceState, InstanceTracker, KeyHash};
}

/// As [`instance_handle`].
#[cfg(feature = "std")]
pub mod liveliness_tracker {
    pub use crate::LivelinessTracker;
}

/// As [`instance_handle`].
pub mod sample_info {
    pub use crate::{view_state_mask, InstanceStateKind};
}

/// As [`instance_handle`].
pub mod status {
    pub use crate::LivelinessChangedStatus;
}

/// As [`instance_handle`].
pub mod time {
    pub use crate::Time;
}
