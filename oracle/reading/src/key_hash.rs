//! Request 2: the KeyHash of a serialized key. Whether it is padded or hashed
//! is for the largest size of the key's type to say, which the caller states,
//! and never for the key's own length.

use crate::bytes::{Key, put};
use crate::md5::md5;

/// Up to this stated size a key is padded.
pub const PADDED_MOST: u64 = 16;
/// The largest size that may be stated.
pub const STATED_MOST: u64 = 4096;

/// The KeyHash, or refusal 15 or 14.
pub fn key_hash(serialized: &[u8], largest: u64) -> Result<Key, u8> {
    if largest > STATED_MOST {
        return Err(15);
    }
    if serialized.len() as u64 > largest {
        return Err(14);
    }
    Ok(if largest <= PADDED_MOST { padded(serialized) } else { md5(serialized) })
}

/// Zeros behind the key's bytes.
fn padded(serialized: &[u8]) -> Key {
    let mut key = Key::default();
    put(&mut key, 0, serialized);
    key
}
