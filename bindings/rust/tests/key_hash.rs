//! Keys from serialized ones: which are padded, which are hashed, which are refused.

use dcps::{key_hash, KeyHash, Refusal, KEY_LARGEST_BYTES};

#[allow(dead_code)]
#[path = "../src/c.rs"]
mod c;

#[path = "../../../bench/src/md5.rs"]
mod md5;

/// The seven vectors of RFC 1321, A.5.
const VECTORS: [(&[u8], u128); 7] = [
    (b"", 0xd41d8cd98f00b204e9800998ecf8427e),
    (b"a", 0x0cc175b9c0f1b6a831c399e269772661),
    (b"abc", 0x900150983cd24fb0d6963f7d28e17f72),
    (b"message digest", 0xf96b697d7cb7938d525a2f31aaf161d0),
    (b"abcdefghijklmnopqrstuvwxyz", 0xc3fcd3d76192e4007dfb496cca67e13b),
    (
        b"ABCDEFGHIJKLMNOPQRSTUVWXYZabcdefghijklmnopqrstuvwxyz0123456789",
        0xd174ab98d277d9f5a5611c2c9f419d9f,
    ),
    (
        b"12345678901234567890123456789012345678901234567890123456789012345678901234567890",
        0x57edf4a22be3c955ac49da2e2107b67a,
    ),
];

/// Bytes that are all different from zero, so that padding shows.
fn bytes<const N: usize>() -> [u8; N] {
    core::array::from_fn(|place| (place % 255) as u8 + 1)
}

fn padded(key: &[u8]) -> KeyHash {
    core::array::from_fn(|place| key.get(place).copied().unwrap_or(0))
}

#[test]
fn vectors_of_the_rfc() {
    for (message, digest) in VECTORS {
        assert_eq!(key_hash(message, KEY_LARGEST_BYTES), Ok(digest.to_be_bytes()), "{message:?}");
    }
}

#[test]
fn up_to_16_padded() {
    let key: [u8; 17] = bytes();
    for largest in 0..=16 {
        for length in 0..=17 {
            let key = &key[..length];
            let expected = (length <= largest).then(|| padded(key)).ok_or(Refusal::KeyLength);
            assert_eq!(key_hash(key, largest as u64), expected, "{length} of {largest}");
        }
    }
}

/// The stated size decides, not the key's own length, and behind 16 it is the same whatever it is.
#[test]
fn from_17_hashed() {
    let sizes = [17, 18, 63, 64, 4_095, 4_096];
    for (message, digest) in VECTORS {
        for largest in sizes.into_iter().filter(|largest| message.len() as u64 <= *largest) {
            assert_eq!(key_hash(message, largest), Ok(digest.to_be_bytes()), "{largest}");
        }
    }
}

/// Beside another MD5: a last block with every rest, and many blocks.
#[test]
fn hashed_at_every_length() {
    let long: [u8; 4_096] = bytes();
    for length in (0..=192).chain(4_000..=4_096) {
        let (key, largest) = (&long[..length], (length as u64).max(17));
        assert_eq!(key_hash(key, largest), Ok(md5::md5(key)), "{length}");
    }
}

#[test]
fn empty_key() {
    for largest in [0, 1, 15, 16] {
        assert_eq!(key_hash(&[], largest), Ok([0; 16]), "{largest}");
    }
    for largest in [17, 4_095, 4_096] {
        assert_eq!(key_hash(&[], largest), Ok(VECTORS[0].1.to_be_bytes()), "{largest}");
    }
}

#[test]
fn longer_than_stated() {
    let key: [u8; 4_097] = bytes();
    for largest in [0, 1, 15, 16, 17, 63, 64, 4_095, 4_096] {
        assert!(key_hash(&key[..largest], largest as u64).is_ok(), "{largest}");
        let longer = key_hash(&key[..largest + 1], largest as u64);
        assert_eq!(longer, Err(Refusal::KeyLength), "{largest}");
    }
}

/// 15 comes first, also where the key is longer than stated.
#[test]
fn size_above_4096() {
    let key = [7; 6_000];
    for largest in [4_097, 5_000, 1 << 16, 1 << 32, (1 << 32) + 16, u64::MAX - 1, u64::MAX] {
        for length in [0, 16, 4_096, 4_097, 6_000] {
            let refused = key_hash(&key[..length], largest);
            assert_eq!(refused, Err(Refusal::LargestSize), "{length} of {largest}");
        }
    }
}

#[test]
fn numbers_and_words() {
    let said = [
        (
            Refusal::KeyLength,
            14,
            "refused as 14: serialized key longer than its stated largest size",
        ),
        (Refusal::LargestSize, 15, "refused as 15: stated largest size above 4,096"),
    ];
    for (refusal, number, words) in said {
        assert_eq!(Refusal::from_number(number), Some(refusal));
        assert_eq!(refusal.number(), number);
        assert_eq!(refusal.to_string(), words);
    }
}

/// The number and the bytes of an answer that had 0xff in it.
fn answered(key: &[u8], largest: u64, length: usize) -> (u32, [u8; 32]) {
    let mut answer = [0xff; 32];
    // SAFETY: both pointers come from borrows of that many bytes, which do not overlap.
    let number =
        unsafe { c::dcps_key_hash(key.as_ptr(), key.len(), largest, answer.as_mut_ptr(), length) };
    (number, answer)
}

/// The answer's bytes, and that one of another length is refused as 1 before all else.
#[test]
fn answers() {
    let said = |key: &[u8], largest, number: u8, hash: KeyHash| {
        let mut expected = [0xff; 32];
        expected[..8].copy_from_slice(&[number, 0, 0, 0, 0, 0, 0, 0]);
        expected[8..24].copy_from_slice(&hash);
        assert_eq!(answered(key, largest, 24), (number.into(), expected));
        for length in [0, 1, 8, 23, 25, 32] {
            assert_eq!(answered(key, largest, length), (1, [0xff; 32]), "{length}");
        }
    };
    said(b"abc", 16, 0, padded(b"abc"));
    said(b"abc", 17, 0, VECTORS[2].1.to_be_bytes());
    said(b"abc", 2, 14, [0; 16]);
    said(b"abc", 4_097, 15, [0; 16]);
}
