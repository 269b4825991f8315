//! Request 2's KeyHash against the Rust's, where it is at hand.

use judge::keys::judged_key;
use lists::SerializedKey;
use lists::rng::Rng;
use reading::bytes::Key;
use reading::key_hash::key_hash;
use reading::md5::md5;

const KEYS: usize = 100_000;

#[test]
fn the_rust_pads_and_hashes_the_same_keys() {
    let mut rng = Rng::new(2);
    for _ in 0..KEYS {
        let key = SerializedKey::any(&mut rng);
        let told = key_hash(&key.bytes, key.largest);
        judged_key(&key, &told).unwrap_or_else(|what| panic!("{key:?}: {what}"));
    }
}

/// The Rust parts from the other branch, and from zeros in front.
#[test]
fn a_wrong_branch_and_a_wrong_padding_are_caught() {
    let key = |largest| SerializedKey { bytes: b"abc".to_vec(), largest };
    let parts = |largest, told: Key| judged_key(&key(largest), &Ok(told)).is_err();
    let (behind, before) = (*b"abc\0\0\0\0\0\0\0\0\0\0\0\0\0", *b"\0\0\0\0\0\0\0\0\0\0\0\0\0abc");
    assert_eq!(parts(17, behind), original::PRESENT);
    assert_eq!(parts(16, md5(b"abc")), original::PRESENT);
    assert_eq!(parts(16, before), original::PRESENT);
    assert!(!parts(16, behind));
}
