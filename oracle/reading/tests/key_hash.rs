//! Request 2's rule at its ends.

use reading::bytes::Key;
use reading::key_hash::key_hash;
use reading::md5::md5;

/// 'abc', and zeros up to 16 bytes.
const ABC: Key = *b"abc\0\0\0\0\0\0\0\0\0\0\0\0\0";

#[test]
fn the_stated_size_chooses() {
    assert_eq!(key_hash(b"abc", 3), Ok(ABC));
    assert_eq!(key_hash(b"abc", 16), Ok(ABC));
    assert_eq!(key_hash(b"abc", 17), Ok(md5(b"abc")));
    assert_eq!(key_hash(b"abc", 4096), Ok(md5(b"abc")));
    assert_eq!(key_hash(&[7; 16], 16), Ok([7; 16]));
    assert_eq!(key_hash(&[7; 16], 17), Ok(md5(&[7; 16])));
}

#[test]
fn an_empty_key() {
    for largest in 0..=16 {
        assert_eq!(key_hash(b"", largest), Ok([0; 16]));
    }
    assert_eq!(key_hash(b"", 17), Ok(md5(b"")));
}

#[test]
fn longer_than_stated() {
    assert_eq!(key_hash(&[0], 0), Err(14));
    assert_eq!(key_hash(&[0; 17], 16), Err(14));
    assert_eq!(key_hash(&[0; 17], 17), Ok(md5(&[0; 17])));
    assert_eq!(key_hash(&[0; 4096], 4096), Ok(md5(&[0; 4096])));
    assert_eq!(key_hash(&[0; 4097], 4096), Err(14));
}

/// A size too large is told first, and no bits of it are lost.
#[test]
fn a_size_above_4096() {
    assert_eq!(key_hash(&[0; 6000], 5000), Err(15));
    for largest in [4097, 1 << 32, (1 << 32) + 16, u64::MAX] {
        assert_eq!(key_hash(b"abc", largest), Err(15));
    }
}
