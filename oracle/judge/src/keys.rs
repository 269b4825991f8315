//! The Rust's word on a KeyHash.

use lists::SerializedKey;
use reading::bytes::Key;

/// Compares a KeyHash with the Rust's, where that is at hand. It refuses
/// nothing, so it says nothing of a refusal; and its MD5 is the reading's, so
/// it judges which keys are hashed, and the padding of the others.
pub fn judged_key(key: &SerializedKey, told: &Result<Key, u8>) -> Result<(), String> {
    let Ok(told) = told else { return Ok(()) };
    match original::key_hash_of(&key.bytes, key.largest as usize) {
        Some(rust) if rust != *told => Err(format!("the Rust has {rust:02x?}, told {told:02x?}")),
        _ => Ok(()),
    }
}
