//! Wrong KeyHashes in place of the library's are caught, and the keys that
//! catch them come out small.

mod over_bytes;

use compare::added::Added;
use compare::keys::as_told;
use lists::SerializedKey;
use over_bytes::{shared, wrong};
use reading::bytes::Key;
use reading::key_hash::key_hash;
use reading::md5::md5;

shared!(SerializedKey, [14, 15], lent);

type Rule = fn(&[u8], u64) -> Result<Key, u8>;

/// The bytes with zeros behind, or cut.
fn fitted(serialized: &[u8]) -> Key {
    std::array::from_fn(|n| serialized.get(n).copied().unwrap_or(0))
}

fn own_length_chooses(key: &[u8], n: u64) -> Result<Key, u8> {
    key_hash(key, n).map(|_| if key.len() <= 16 { fitted(key) } else { md5(key) })
}

fn short_keys_padded_and_hashed(key: &[u8], n: u64) -> Result<Key, u8> {
    let padded = fitted(key);
    key_hash(key, n).map(|told| if n > 16 && key.len() < 16 { md5(&padded) } else { told })
}

fn last_zeros_left_out(key: &[u8], n: u64) -> Result<Key, u8> {
    let end = key.iter().rposition(|byte| *byte != 0).map_or(0, |last| last + 1);
    key_hash(key, n).map(|told| if n > 16 { md5(&key[..end]) } else { told })
}

fn no_further_block(key: &[u8], n: u64) -> Result<Key, u8> {
    let further = n > 16 && key.len() % 64 == 56;
    key_hash(key, n).map(|told| if further { md5(&key[1..]) } else { told })
}

fn zeros_in_front(key: &[u8], n: u64) -> Result<Key, u8> {
    key_hash(key, n).map(|mut told| {
        told.rotate_right(if n <= 16 { 16 - key.len() } else { 0 });
        told
    })
}

fn fourteen_first(key: &[u8], n: u64) -> Result<Key, u8> {
    if key.len() as u64 > n { Err(14) } else { key_hash(key, n) }
}

fn as_long_as_stated_refused(key: &[u8], n: u64) -> Result<Key, u8> {
    if key.len() as u64 == n { Err(14) } else { key_hash(key, n) }
}

/// Wrong rules, each with the length and the stated size of the smallest key
/// that it gets wrong.
const WRONG: [(&str, Rule, usize, u64); 13] = [
    ("own length chooses", own_length_chooses, 0, 17),
    ("16 stated hashed", |key, n| key_hash(key, if n == 16 { 17 } else { n }), 0, 16),
    ("17 stated padded", |key, n| key_hash(key, if n == 17 { 16 } else { n }), 0, 17),
    ("4,096 refused", |key, n| key_hash(key, if n == 4096 { 4097 } else { n }), 0, 4096),
    ("sizes above 4,096 taken", |key, n| key_hash(key, n.min(4096)), 0, 4097),
    ("32 bits of the size", |key, n| key_hash(key, u64::from(n as u32)), 0, 1 << 32),
    ("14 tested first", fourteen_first, 4098, 4097),
    ("as long as stated refused", as_long_as_stated_refused, 0, 0),
    ("longer than stated taken", |key, n| key_hash(key, n.max(key.len() as u64)), 1, 0),
    ("short keys padded and hashed", short_keys_padded_and_hashed, 0, 17),
    ("last zeros left out", last_zeros_left_out, 1, 17),
    ("no further block", no_further_block, 56, 56),
    ("zeros in front", zeros_in_front, 1, 1),
];

#[test]
fn each_wrong_rule_is_caught_by_a_small_key() {
    let rules = WRONG.map(|(what, rule, length, largest)| {
        let rule = move |key: &SerializedKey| as_told(rule(&key.bytes, key.largest));
        (what, rule, (length, largest))
    });
    wrong(rules, |small| (small.asked.bytes.len(), small.asked.largest));
}
