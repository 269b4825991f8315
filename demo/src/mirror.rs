//! The records as they were after the latest call, and so what the next call changes. Only the records that a
//! call can reach are read again, which keeps a day of a million calls quick.

use crate::day::Call;
use crate::forms::Verb;
use crate::make::Said;
use dcps::{InstanceState, KeyHash, State, WriterLiveliness, WriterState};
use std::collections::BTreeMap;

#[derive(Default)]
pub struct Mirror {
    instances: BTreeMap<KeyHash, InstanceState>,
    /// In the order of their GUIDs, as the library has them.
    writers: Vec<WriterState>,
}

/// The records that a call changed, as they were before it. The mirror has them as they are now.
#[derive(Default)]
pub struct Changes {
    pub instances: Vec<(KeyHash, Option<InstanceState>)>,
    pub writers: Vec<WriterChange>,
}

pub struct WriterChange {
    pub guid: [u8; 16],
    pub before: Option<WriterState>,
    pub after: Option<WriterState>,
}

impl WriterChange {
    /// Its lease ran out.
    pub fn expired(&self) -> bool {
        let is = |w: Option<WriterState>, state| w.is_some_and(|w| w.state == state);
        is(self.before, WriterLiveliness::Alive) && is(self.after, WriterLiveliness::NotAlive)
    }

    /// It is alive no more, whatever the reason.
    pub fn left(&self) -> bool {
        self.after.is_none_or(|w| {
            matches!(w.state, WriterLiveliness::NotAlive | WriterLiveliness::Departed)
        })
    }
}

impl Mirror {
    pub fn instance(&self, key: &KeyHash) -> Option<&InstanceState> {
        self.instances.get(key)
    }

    pub fn writer(&self, guid: &[u8; 16]) -> Option<&WriterState> {
        let place = self.writers.binary_search_by(|w| w.guid.cmp(guid)).ok()?;
        self.writers.get(place)
    }

    /// Follows an accepted call.
    pub fn follow(&mut self, call: &Call, said: &Said, state: &State) -> Changes {
        let mut changes = Changes::default();
        if on_writers(call.verb) {
            changes.writers = self.writers_changed(state);
        }
        for key in self.reached(call, said, &changes.writers) {
            let after = state.get_by_keyhash(&key);
            if after.as_ref() == self.instances.get(&key) {
                continue;
            }
            let before = match after {
                Some(after) => self.instances.insert(key, after),
                None => self.instances.remove(&key),
            };
            changes.instances.push((key, before));
        }
        changes
    }

    fn writers_changed(&mut self, state: &State) -> Vec<WriterChange> {
        let after: Vec<WriterState> = state.writers().collect();
        let before = std::mem::replace(&mut self.writers, after);
        let found = |list: &[WriterState], guid: &[u8; 16]| {
            list.binary_search_by(|w| w.guid.cmp(guid)).ok().map(|place| list[place])
        };
        let mut changed = Vec::new();
        for was in &before {
            let is = found(&self.writers, &was.guid);
            if is != Some(*was) {
                changed.push(WriterChange { guid: was.guid, before: Some(*was), after: is });
            }
        }
        for is in self.writers.iter().filter(|is| found(&before, &is.guid).is_none()) {
            changed.push(WriterChange { guid: is.guid, before: None, after: Some(*is) });
        }
        changed
    }

    /// The keys of the instances that a call can have changed.
    fn reached(&self, call: &Call, said: &Said, writers: &[WriterChange]) -> Vec<KeyHash> {
        let w = &call.words;
        match call.verb {
            _ if w.names_key => vec![w.key],
            Verb::Lapse => {
                let gone = writers.iter().filter(|change| change.expired());
                self.of(&gone.map(|change| change.guid).collect::<Vec<_>>())
            }
            Verb::Part | Verb::Depart | Verb::DropWriter | Verb::UpdateOwnerStrength => {
                self.of(&[w.writer])
            }
            Verb::ClearOwnerForWriter => match w.participant {
                Some(prefix) => self.owned(|owner| owner[..12] == prefix),
                None => self.of(&[w.writer]),
            },
            Verb::Autopurge if *said != Said::Purged(0) => self.instances.keys().copied().collect(),
            _ => Vec::new(),
        }
    }

    /// The instances that one of these writers writes or owns.
    fn of(&self, guids: &[[u8; 16]]) -> Vec<KeyHash> {
        let reached = |i: &InstanceState| {
            guids.iter().any(|guid| {
                i.writers.contains(guid) || i.current_owner.is_some_and(|(owner, _)| owner == *guid)
            })
        };
        self.instances.iter().filter(|(_, i)| reached(i)).map(|(key, _)| *key).collect()
    }

    fn owned(&self, by: impl Fn(&[u8; 16]) -> bool) -> Vec<KeyHash> {
        let owned = |i: &InstanceState| i.current_owner.is_some_and(|(owner, _)| by(&owner));
        self.instances.iter().filter(|(_, i)| owned(i)).map(|(key, _)| *key).collect()
    }
}

fn on_writers(verb: Verb) -> bool {
    matches!(
        verb,
        Verb::Match
            | Verb::Unmatch
            | Verb::LostWithParticipant
            | Verb::Assert
            | Verb::Expire
            | Verb::Lapse
            | Verb::Part
            | Verb::Depart
    )
}
