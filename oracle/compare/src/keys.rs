//! The KeyHash of a serialized key, by the library, the reading and the Rust.

use judge::keys::judged_key;
use lists::SerializedKey;
use lists::keys::{LENGTHS, SIZES};
use lists::rng::Rng;
use reading::bytes::Key;
use reading::key_hash::{PADDED_MOST, key_hash};

use crate::added::{Added, Answered, Case, Library, Told};
use crate::case::hex;
use crate::counts::{Fates, Row, Table};
use crate::library;
use crate::run::Parting;

pub type KeyCase = Case<SerializedKey>;

/// Where an answer has the KeyHash.
const KEY_HASH_AT: usize = 8;

/// A KeyHash or a refusal, as it is answered.
pub fn as_told(key_hash: Result<Key, u8>) -> Told {
    key_hash.map(|key| Answered::of(&[(KEY_HASH_AT, &key)]))
}

impl Added for SerializedKey {
    const NAME: &'static str = "keys";
    const FATES: Fates = &["padded", "hashed", "14", "15", "1"];
    const JUDGED: bool = true;
    type Met = Self;

    fn of_seed(seed: u64) -> (Vec<Self>, Rng) {
        let mut rng = Rng::new(seed);
        (vec![Self::any(&mut rng)], rng)
    }

    /// The bytes behind it are not zero, so that a library that reads on is
    /// seen.
    fn lent(&self) -> Vec<&[u8]> {
        vec![&self.bytes]
    }

    fn told(&self) -> Told {
        as_told(key_hash(&self.bytes, self.largest))
    }

    fn ask(&self, lent: &mut [&mut [u8]], answer: &mut [u8]) -> u32 {
        library::key_hash(lent[0], self.largest, answer)
    }

    /// The Rust has the same.
    fn further(case: &KeyCase, told: &Told, _: &mut Library<'_, Self>) -> Result<(), Parting> {
        let Ok(Answered { bytes, .. }) = told else { return Ok(()) };
        let key_hash = bytes[KEY_HASH_AT..].try_into().expect("16 bytes are left of 24");
        judged_key(&case.asked, &Ok(key_hash)).map_err(Parting::Differs)
    }

    fn fate(&self, _: &Answered) -> usize {
        usize::from(self.largest > PADDED_MOST)
    }

    fn met(&self, _: &Told) -> Self {
        self.clone()
    }

    fn sorts() -> Vec<Table<KeyCase>> {
        vec![
            Table::by("stated size", SIZES, |case: &KeyCase| case.asked.largest).and("other"),
            Table::by("length", LENGTHS, |case: &KeyCase| case.asked.bytes.len()).and("other"),
            Table::of("against size", excesses()).and("far more"),
            Table::of("contents", contents()).and("other"),
        ]
    }

    /// By the length, the bytes and the size.
    fn smaller(&self) -> impl Iterator<Item = Self> {
        let zeroed = Self { bytes: vec![0; self.bytes.len()], ..*self };
        let all = shorter(self).into_iter().chain([zeroed]).chain(of_smaller_size(self));
        all.filter(move |key| key != self)
    }

    fn shown(&self) -> String {
        let Self { bytes, largest } = self;
        format!("stated size {largest}, key of {} bytes {}", bytes.len(), hex(bytes))
    }
}

/// Of the same size or of one as much smaller.
fn shorter(key: &SerializedKey) -> Vec<SerializedKey> {
    let length = key.bytes.len();
    let steps = [length / 2, length.saturating_sub(1)];
    let lengths = LENGTHS.into_iter().chain(steps).filter(|shorter| *shorter < length);
    let cut = |shorter: usize| {
        let moved = key.largest.saturating_sub((length - shorter) as u64);
        let sized = |largest| SerializedKey { bytes: key.bytes[..shorter].to_vec(), largest };
        [key.largest, moved].map(sized)
    };
    lengths.flat_map(cut).collect()
}

fn of_smaller_size(SerializedKey { bytes, largest }: &SerializedKey) -> Vec<SerializedKey> {
    let steps = [bytes.len() as u64, largest / 2, largest.saturating_sub(1)];
    let sizes = SIZES.into_iter().chain(steps).filter(|smaller| smaller < largest);
    sizes.map(|largest| SerializedKey { bytes: bytes.clone(), largest }).collect()
}

/// The length beside the stated size.
fn excesses() -> [Row<KeyCase>; 3] {
    [
        Row::of("less", |case: &KeyCase| case.asked.excess() < 0),
        Row::of("equal", |case: &KeyCase| case.asked.excess() == 0),
        Row::of("one more", |case: &KeyCase| case.asked.excess() == 1),
    ]
}

fn contents() -> [Row<KeyCase>; 5] {
    let row = |name: &str, takes: fn(&[u8]) -> bool| {
        Row::of(name, move |case: &KeyCase| takes(&case.asked.bytes))
    };
    [
        row("none", |bytes| bytes.is_empty()),
        row("zeros", |bytes| bytes.iter().all(|byte| *byte == 0)),
        row("0xff", |bytes| bytes.iter().all(|byte| *byte == 0xff)),
        row("0x80 ends", |bytes| bytes.ends_with(&[0x80])),
        row("0x80, zeros", |bytes| bytes.iter().rfind(|byte| **byte != 0) == Some(&0x80)),
    ]
}
