//! What the sources use of other crates and modules, as 01's paragraph on
//! stand-ins has it.

/// Instance states, and the bits of view states.
pub mod sample_info {
    #[derive(Debug, Clone, Copy, PartialEq, Eq)]
    pub enum InstanceStateKind {
        Alive,
        NotAliveDisposed,
        NotAliveNoWriters,
    }

    pub mod view_state_mask {
        pub const NEW: u32 = 1;
        pub const NOT_NEW: u32 = 2;
    }
}

/// Seconds and nanoseconds.
pub mod time {
    #[derive(Debug, Clone, Copy, PartialEq, Eq)]
    pub struct Time {
        pub sec: i32,
        pub nanosec: u32,
    }

    impl Time {
        pub const ZERO: Self = Self { sec: 0, nanosec: 0 };
    }
}

/// The status of LIVELINESS_CHANGED.
pub mod status {
    use crate::instance_handle::InstanceHandle;

    #[derive(Debug, Clone, Copy)]
    pub struct LivelinessChangedStatus {
        pub alive_count: i32,
        pub not_alive_count: i32,
        pub alive_count_change: i32,
        pub not_alive_count_change: i32,
        pub last_publication_handle: InstanceHandle,
    }
}

/// A GUID is its 16 bytes.
pub mod wire_types {
    #[derive(Debug, Clone, Copy, PartialEq, Eq)]
    pub struct Guid([u8; 16]);

    impl Guid {
        pub fn from_bytes(bytes: [u8; 16]) -> Self {
            Self(bytes)
        }

        pub fn to_bytes(self) -> [u8; 16] {
            self.0
        }
    }
}

/// Liveliness kinds of the QoS crate.
#[derive(Debug, Clone, Copy, PartialEq, Eq)]
pub enum LivelinessKind {
    Automatic,
    ManualByParticipant,
    ManualByTopic,
}

/// The wire crate's names that key_hash.rs mentions. Of that source only
/// `compute_key_hash` is run, so nothing here but `md5` is ever called.
pub mod wire {
    #[derive(Debug, Clone, Copy)]
    pub enum Endianness {
        Big,
    }

    #[derive(Debug)]
    pub struct Writer;

    macro_rules! uncalled {
        ($($name:ident($($type:ty),*) $(-> $answer:ty)?;)*) => {
            impl Writer {
                $(pub fn $name(&self, $(_: $type),*) $(-> $answer)? {
                    unimplemented!("the wire crate is not built here")
                })*
            }
        };
    }

    uncalled! {
        position() -> usize;
        as_bytes() -> &[u8];
        write_bool(bool);
        write_u8(u8);
        write_i8(i8);
        write_u16(u16);
        write_i16(i16);
        write_u32(u32);
        write_i32(i32);
        write_u64(u64);
        write_i64(i64);
        write_f32(f32);
        write_f64(f64);
        write_string(&str);
        write_bytes(&[u8]);
    }

    impl Writer {
        pub fn with_max_align(_: Endianness, _: usize) -> Self {
            Self
        }

        pub fn appending(_: Endianness, _: usize, _: Vec<u8>) -> Self {
            Self
        }

        pub fn finish(self) -> Vec<u8> {
            unimplemented!("the wire crate is not built here")
        }
    }

    /// The reading's: of a digest the Rust has no word of its own here, and
    /// judges only which keys are hashed.
    pub use reading::md5::md5;
}
