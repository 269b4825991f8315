//! Which instances belong to the writer whose admit started them.

use std::collections::BTreeSet;
use std::fmt;

use reading::bytes::Key;
use reading::{Answer, Sheet};

/// Follows lists by their sheets and answers.
#[derive(Clone, Default)]
pub struct FirstOwners {
    /// No later call has set an owner of these.
    keys: BTreeSet<Key>,
    /// Admits that started an instance.
    started: u32,
    /// Admits that such an owner turned away.
    turned_away: u32,
}

impl FirstOwners {
    /// A list begins: who owns was set before it.
    pub fn begin(&mut self) {
        self.keys.clear();
    }

    /// A call, with the next handle before it. An outcome 4 tells that there
    /// is an owner, so what clears one or purges need not be followed.
    pub fn see(&mut self, sheet: &[u8], answer: &Answer, next_handle: u64) {
        let Some(sheet) = Sheet::of(sheet).filter(|_| answer.number == 0) else { return };
        let key = sheet.key();
        match (sheet.code(), answer.outcome) {
            (48, 0) if answer.handle == next_handle => {
                self.started += 1;
                self.keys.insert(key);
            }
            (48, 4) => self.turned_away += u32::from(self.keys.contains(&key)),
            (48, 0) => {
                self.keys.remove(&key);
            }
            (16, _) if answer.yes => {
                self.keys.remove(&key);
            }
            _ => {}
        }
    }

    /// How often each was met, by name.
    pub fn counts(&self) -> [(&'static str, u32); 2] {
        [
            ("admits that started an instance", self.started),
            ("admits that its first owner turned away", self.turned_away),
        ]
    }
}

impl fmt::Display for FirstOwners {
    fn fmt(&self, f: &mut fmt::Formatter<'_>) -> fmt::Result {
        let [started, turned_away] = self.counts().map(|(what, n)| format!("{what}: {n}"));
        write!(f, "{started}, {turned_away}")
    }
}

/// The counts alone, as they stand in a tally.
impl fmt::Debug for FirstOwners {
    fn fmt(&self, f: &mut fmt::Formatter<'_>) -> fmt::Result {
        write!(f, "[{self}]")
    }
}
