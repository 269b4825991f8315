//! Keys by their names. The library makes the KeyHash of a name, by the largest size that the day's keys have; where
//! that hashes the names, they are kept here to be shown.

use crate::words::{self, quoted};
use dcps::KeyHash;
use std::collections::HashMap;

/// A KeyHash holds a name of so many bytes.
pub const FITTING: u64 = 16;

/// The largest size that can be stated, and that of a day with a longer name that states none.
pub const LARGEST: u64 = dcps::KEY_LARGEST_BYTES;

pub struct Names {
    largest: u64,
    /// Whether the day has stated the size, and whether it has named a key.
    stated: bool,
    keyed: bool,
    /// The names of hashed keys. Of two with the same KeyHash, which are one instance, the first.
    hashed: HashMap<KeyHash, String>,
}

impl Default for Names {
    fn default() -> Self {
        Self::new(FITTING)
    }
}

/// The bytes of a name; digits are a KeyHash already.
pub fn size(word: &str) -> u64 {
    if words::is_digits(word) {
        0
    } else {
        word.len() as u64
    }
}

impl Names {
    pub fn new(largest: u64) -> Self {
        Self { largest, stated: false, keyed: false, hashed: HashMap::new() }
    }

    /// Takes the largest size as a line states it.
    pub fn state(&mut self, largest: u64) -> Result<(), String> {
        if std::mem::replace(&mut self.stated, true) {
            return Err("'keys' appears twice: remove one of them".to_owned());
        }
        if self.keyed {
            return Err("'keys' comes after a key: put it before the first one".to_owned());
        }
        dcps::key_hash(b"", largest)
            .map_err(|refusal| format!("{refusal}: write a size of up to {LARGEST}"))?;
        self.largest = largest;
        Ok(())
    }

    pub fn key(&mut self, word: &str) -> Result<KeyHash, String> {
        self.keyed = true;
        if let Some(key) = words::key_digits(word) {
            return Ok(key);
        }
        if words::is_digits(word) || !words::is_name(word) {
            return Err(format!(
                "{} is not a key: write letters, digits and signs without blanks, or 0x and 32 hexadecimal digits",
                quoted(word)
            ));
        }
        let key = dcps::key_hash(word.as_bytes(), self.largest).map_err(|refusal| {
            format!(
                "{} has {} bytes, and the largest size of the day's keys is {}: {refusal}: {}",
                quoted(word),
                word.len(),
                self.largest,
                mend(size(word))
            )
        })?;
        if self.hashes() {
            self.hashed.entry(key).or_insert_with(|| word.to_owned());
        }
        Ok(key)
    }

    /// Whether a KeyHash does not have the name in it.
    pub fn hashes(&self) -> bool {
        self.largest > FITTING
    }

    pub fn show(&self, key: &KeyHash) -> String {
        match self.hashed.get(key) {
            Some(name) => name.clone(),
            None if self.hashes() => words::as_hex(key),
            None => words::show_short_key(key),
        }
    }

    /// With the KeyHash beside a name that is hashed, for where the order of keys counts.
    pub fn show_with_hash(&self, key: &KeyHash) -> String {
        match self.hashed.get(key) {
            Some(name) => format!("{name} ({})", words::as_hex(key)),
            None => self.show(key),
        }
    }

    /// Where a key stands in a list: by name where it is hashed, as the order of hashes tells a reader of lists nothing.
    pub fn order(&self, key: &KeyHash) -> (Option<&str>, KeyHash) {
        (self.hashed.get(key).map(String::as_str), *key)
    }

    /// The names of keys, in their order.
    pub fn list<'a>(&self, keys: impl IntoIterator<Item = &'a KeyHash>) -> Vec<String> {
        let mut keys: Vec<&KeyHash> = keys.into_iter().collect();
        keys.sort_by_key(|key| self.order(key));
        keys.into_iter().map(|key| self.show(key)).collect()
    }

    /// The length of the longest name that is hashed.
    pub fn longest(&self) -> usize {
        self.hashed.values().map(String::len).max().unwrap_or(0)
    }
}

fn mend(size: u64) -> String {
    if size > LARGEST {
        "write a shorter one".to_owned()
    } else {
        format!("write keys largest {size} above the first key, or a shorter one")
    }
}

#[cfg(test)]
mod tests {
    use super::*;

    const SERIALS: [&str; 2] = ["pen-serial-000000000001", "pen-serial-000000000002"];

    #[test]
    fn names_come_back() {
        let digits = "0x00112233445566778899aabbccddeeff";
        for largest in [FITTING, FITTING + 1, 64, LARGEST] {
            let mut names = Names::new(largest);
            for word in ["a", "pen-01", "sixteen-letters!", digits, "pen-01"] {
                assert_eq!(names.key(word).map(|k| names.show(&k)), Ok(word.to_owned()));
            }
        }
        let mut names = Names::new(64);
        for word in ["pen-01", SERIALS[0], SERIALS[1], SERIALS[0]] {
            assert_eq!(names.key(word).map(|k| names.show(&k)), Ok(word.to_owned()));
        }
        assert_ne!(names.key(SERIALS[0]), names.key(SERIALS[1]));
    }

    #[test]
    fn what_is_no_key() {
        for largest in [FITTING, LARGEST] {
            let mut names = Names::new(largest);
            for word in ["", "ключ", "a b", "0x", "0x12", "0x00112233445566778899aabbccddeefg"]
            {
                assert!(names.key(word).is_err_and(|e| e.contains("is not a key")), "{word}");
            }
        }
    }

    /// The stated size decides, and not the length of the name: the rest of RFC 1321's vectors are the bindings'.
    #[test]
    fn the_size_decides() {
        let abc = 0x616263_u128 << 104;
        let md5_of_abc = 0x900150983cd24fb0d6963f7d28e17f72_u128;
        assert_eq!(Names::new(FITTING).key("abc"), Ok(abc.to_be_bytes()));
        assert_eq!(Names::new(FITTING + 1).key("abc"), Ok(md5_of_abc.to_be_bytes()));
    }

    /// Digits are the KeyHash, hashed or not: they name the instance that the name has.
    #[test]
    fn digits_are_the_key_hash() {
        for (largest, digits) in [
            (FITTING, "0x61626300000000000000000000000000"),
            (LARGEST, "0x900150983cd24fb0d6963f7d28e17f72"),
        ] {
            let mut names = Names::new(largest);
            let key = names.key("abc");
            assert_eq!(names.key(digits), key);
            assert_eq!(key.map(|key| names.show(&key)), Ok("abc".to_owned()));
        }
        // What would be text in a day of short names is no name in another.
        let mut names = Names::new(LARGEST);
        let digits = "0x61626300000000000000000000000000";
        assert_eq!(names.key(digits).map(|k| names.show(&k)), Ok(digits.to_owned()));
    }

    #[test]
    fn the_hash_stands_beside_a_hashed_name() {
        let digits = "0x00112233445566778899aabbccddeeff";
        let hashed = "abc (0x900150983cd24fb0d6963f7d28e17f72)";
        for (largest, abc) in [(FITTING, "abc"), (LARGEST, hashed)] {
            let mut names = Names::new(largest);
            for (word, shown) in [("abc", abc), (digits, digits)] {
                let key = names.key(word).expect("a key");
                assert_eq!(names.show_with_hash(&key), shown);
            }
        }
    }

    #[test]
    fn longer_than_stated() {
        let fault = |largest, word: &str| Names::new(largest).key(word).expect_err("too long");
        assert_eq!(
            fault(20, SERIALS[0]),
            "'pen-serial-000000000001' has 23 bytes, and the largest size of the day's keys is 20: \
             refused as 14: serialized key longer than its stated largest size: \
             write keys largest 23 above the first key, or a shorter one"
        );
        assert!(Names::new(23).key(SERIALS[0]).is_ok());
        assert!(Names::new(LARGEST).key(&"a".repeat(4_096)).is_ok());
        assert!(fault(LARGEST, &"a".repeat(4_097)).ends_with(": write a shorter one"));
    }

    #[test]
    fn the_size_is_stated_once_and_first() {
        let mut names = Names::default();
        assert_eq!(names.state(64), Ok(()));
        assert!(names.key(SERIALS[0]).is_ok());
        assert_eq!(names.state(64), Err("'keys' appears twice: remove one of them".to_owned()));
        let mut names = Names::default();
        assert!(names.key("pen-01").is_ok());
        assert!(names.state(64).is_err_and(|e| e.starts_with("'keys' comes after a key")));
        for size in [0, FITTING, LARGEST] {
            assert_eq!(Names::default().state(size), Ok(()));
        }
        for size in [LARGEST + 1, u64::MAX] {
            assert_eq!(
                Names::default().state(size),
                Err("refused as 15: stated largest size above 4,096: write a size of up to 4096"
                    .to_owned())
            );
        }
    }

    #[test]
    fn lists_are_in_the_order_of_names() {
        for largest in [FITTING, LARGEST] {
            let mut names = Names::new(largest);
            let keys: Vec<_> = ["pen-3", "ink", "pen-10", "pen-1"]
                .map(|word| names.key(word))
                .into_iter()
                .flatten()
                .collect();
            assert_eq!(names.list(&keys), ["ink", "pen-1", "pen-10", "pen-3"]);
        }
    }
}
