//! The largest size of a day's keys. It belongs to the type and not to a key, so it is found before the first call.

use crate::day::{each_line, parts, stated_size, KEYS};
use crate::forms::takes_key;
use crate::names::{self, FITTING, LARGEST};
use std::io::{self, BufRead};

/// The size that the day states; else that of a KeyHash where every key fits into one, and the largest there is where
/// one does not. A size that is refused counts as none: its line is a fault when the day is played.
pub fn largest(source: &mut dyn BufRead) -> io::Result<u64> {
    let (mut stated, mut longest) = (None, 0);
    each_line(source, |line, bytes| {
        if stated.is_some() {
            return;
        }
        match parts(line, bytes).as_deref() {
            Ok([KEYS, rest @ ..]) => {
                stated = stated_size(rest).ok().filter(|size| *size <= LARGEST)
            }
            Ok([name, key, ..]) if takes_key(name) => longest = longest.max(names::size(key)),
            _ => {}
        }
    })?;
    Ok(stated.unwrap_or(if longest <= FITTING { FITTING } else { LARGEST }))
}

#[cfg(test)]
mod tests {
    use super::*;

    fn of(day: &str) -> u64 {
        largest(&mut day.as_bytes()).expect("a text is read")
    }

    #[test]
    fn without_a_stated_size_the_longest_key_decides() {
        assert_eq!(of(""), 16);
        assert_eq!(of("register sixteen-letters!\nregister pen"), 16);
        assert_eq!(of("register pen\nregister seventeen-letters"), 4_096);
        assert_eq!(of(&format!("register {}", "a".repeat(4_097))), 4_096);
        // Digits are a KeyHash; other words than keys may be as long as they like.
        assert_eq!(of("register 0x00112233445566778899aabbccddeeff"), 16);
        assert_eq!(of("admit pen from plotter-1001/c1 at 2026-11-15T08:15:30.5Z"), 16);
        assert_eq!(of("part a-participant-too-long/c1\nregister pen # seventeen-letters"), 16);
    }

    #[test]
    fn a_stated_size_is_that_of_all_keys() {
        for size in [0, 15, 16, 17, 64, 4_096] {
            let day =
                format!("# keys\n\n  keys  largest {size} # bytes\nregister seventeen-letters");
            assert_eq!(of(&day), size);
        }
    }

    #[test]
    fn a_bad_size_counts_as_none() {
        for bad in ["4097", "-1", "18446744073709551616", "", "64 65"] {
            assert_eq!(of(&format!("keys largest {bad}\nregister pen")), 16, "{bad}");
            assert_eq!(of(&format!("keys largest {bad}\nregister seventeen-letters")), 4_096);
        }
    }
}
