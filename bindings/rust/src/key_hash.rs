//! The key of an instance, from its serialized key.

use crate::{ffi, KeyHash, Refusal};

/// The greatest `largest` that [`key_hash()`] takes.
pub const KEY_LARGEST_BYTES: u64 = 4_096;

/// The KeyHash of a serialized key (DDSI-RTPS 2.5, 9.6.4.8): the key that names an instance.
///
/// `serialized` is the key members, which the caller serializes: big-endian PLAIN_CDR2, in the order of their member
/// ids, without a header. `largest` is the largest size that a serialized key of this type can have. A `string<n>`
/// takes 4 + n + 1 bytes: its length, its characters, the NUL.
///
/// `largest` decides, not the length of this key. Up to 16, the KeyHash is the bytes themselves, with zeros after
/// them. From 17 on it is their MD5 (RFC 1321), even for a short key. A type without a bound, or with a bound above
/// 4,096, is always hashed: state [`KEY_LARGEST_BYTES`]. A key longer than that is refused as 14.
///
/// Refused as 15 if `largest` is above [`KEY_LARGEST_BYTES`], then as 14 if the key is longer than `largest`.
///
/// ```
/// // The key is a string<40>: its length with the NUL in 4 bytes, its characters, the NUL.
/// let serialized = |serial: &str| {
///     let length = serial.len() as u32 + 1;
///     [&length.to_be_bytes()[..], serial.as_bytes(), &[0]].concat()
/// };
/// let largest = 4 + 40 + 1;
/// let pen = dcps::key_hash(&serialized("plotting pen 0.35 black 004711"), largest)?;
/// let other = dcps::key_hash(&serialized("plotting pen 0.35 black 004712"), largest)?;
/// assert_ne!(pen, other);
///
/// // 16 stated pads and 17 stated hashes, whatever the length: this is RFC 1321's MD5 ("abc").
/// assert_eq!(dcps::key_hash(b"abc", 16)?, *b"abc\0\0\0\0\0\0\0\0\0\0\0\0\0");
/// assert_eq!(dcps::key_hash(b"abc", 17)?, 0x900150983cd24fb0d6963f7d28e17f72_u128.to_be_bytes());
/// # Ok::<(), dcps::Refusal>(())
/// ```
pub fn key_hash(serialized: &[u8], largest: u64) -> Result<KeyHash, Refusal> {
    Ok(ffi::key_hash(serialized, largest)?.key_hash)
}
