//! Why an instance is shown abandoned. From alive to no-writers an instance goes by an accepted call alone that
//! is one of these: 4 by its handle with writer_count at most 1; 5 by its handle with no other GUID in the set;
//! 7, 50 or 51 with its GUID the only one in the set; 49 with every GUID of the set, and there is one, expired in
//! this call. Disposed is code 3's alone.

use crate::day::Call;
use crate::forms::Verb;

#[derive(Debug, Clone, Copy, PartialEq, Eq, PartialOrd, Ord)]
pub enum Cause {
    LeaseRanOut,
    Departed,
    Parted,
    Unregistered,
    Dropped,
    /// Code 4: the count of registrations, which names no writer.
    Deregistered,
    Disposed,
}

impl Cause {
    /// The cause that a call can be.
    pub fn of(call: &Call) -> Option<Self> {
        match call.verb {
            Verb::Lapse => Some(Self::LeaseRanOut),
            Verb::Depart => Some(Self::Departed),
            Verb::Part => Some(Self::Parted),
            Verb::Unregister if call.words.names_writer => Some(Self::Unregistered),
            Verb::Unregister => Some(Self::Deregistered),
            Verb::DropWriter => Some(Self::Dropped),
            Verb::Dispose => Some(Self::Disposed),
            _ => None,
        }
    }

    /// The call's code.
    pub fn code(self) -> i64 {
        match self {
            Self::Disposed => 3,
            Self::Deregistered => 4,
            Self::Unregistered => 5,
            Self::Dropped => 7,
            Self::LeaseRanOut => 49,
            Self::Parted => 50,
            Self::Departed => 51,
        }
    }

    /// Its name, for a label or a cell.
    pub fn name(self) -> &'static str {
        match self {
            Self::LeaseRanOut => "lease ran out",
            Self::Departed => "departed",
            Self::Parted => "parted",
            Self::Unregistered => "unregistered",
            Self::Dropped => "dropped",
            Self::Deregistered => "last registration",
            Self::Disposed => "disposed",
        }
    }

    /// What happened, to these writers.
    pub fn told(self, writers: &str) -> String {
        match self {
            Self::LeaseRanOut => format!("the lease of {writers} ran out"),
            Self::Departed => format!("{writers} departed with its participant"),
            Self::Parted => format!("{writers} parted"),
            Self::Unregistered => format!("{writers} unregistered"),
            Self::Dropped => format!("{writers} was dropped"),
            Self::Deregistered => "its last registration was taken".to_owned(),
            Self::Disposed => "it was disposed".to_owned(),
        }
    }
}

#[cfg(test)]
mod tests {
    use super::*;
    use crate::names::Names;
    use crate::play::{play_text, Step, Watch};
    use crate::random::Days;
    use dcps::InstanceStateKind::{Alive, NotAliveDisposed, NotAliveNoWriters};
    use dcps::{InstanceState, KeyHash};
    use std::collections::BTreeMap;

    /// Holds each call against the list above, on every instance.
    #[derive(Default)]
    struct Judge {
        before: BTreeMap<KeyHash, InstanceState>,
        abandoned: usize,
    }

    impl Judge {
        fn leaves(step: &Step<'_>, key: &KeyHash, was: &InstanceState) -> bool {
            let w = &step.call.words;
            let only = was.writers.iter().eq([&w.writer]);
            match step.call.verb {
                Verb::Unregister if w.names_writer => {
                    w.key == *key && was.writers.iter().all(|guid| *guid == w.writer)
                }
                Verb::Unregister => w.key == *key && was.writer_count <= 1,
                Verb::DropWriter | Verb::Part | Verb::Depart => only,
                Verb::Lapse => {
                    let expired = |guid: &[u8; 16]| {
                        step.changes.writers.iter().any(|c| c.guid == *guid && c.expired())
                    };
                    !was.writers.is_empty() && was.writers.iter().all(expired)
                }
                _ => false,
            }
        }
    }

    impl Watch for Judge {
        fn see(&mut self, step: &Step<'_>) {
            let now: BTreeMap<_, _> =
                step.state.instances().map(|i| (i.keyhash, InstanceState::from(i))).collect();
            // What the mirror says is what the state has.
            assert!(now.iter().all(|(key, i)| step.mirror.instance(key) == Some(i)));
            assert!(step.state.writers().all(|w| step.mirror.writer(&w.guid) == Some(&w)));
            for (key, was) in &self.before {
                let kind = now.get(key).map(|i| i.kind);
                let left = was.kind == Alive && kind == Some(NotAliveNoWriters);
                let leaves = step.said.is_ok() && was.kind == Alive && Self::leaves(step, key, was);
                assert_eq!(left, leaves, "line {}: {}", step.call.line, step.call.text);
                let disposed = was.kind != NotAliveDisposed && kind == Some(NotAliveDisposed);
                assert!(!disposed || step.call.verb == Verb::Dispose);
                self.abandoned += usize::from(left);
                let told = step.changes.instances.iter().any(|(changed, _)| changed == key);
                assert_eq!(told, now.get(key) != Some(was), "{}", step.call.text);
            }
            self.before = now;
        }
    }

    #[test]
    fn an_instance_is_left_by_these_calls_alone() {
        let mut days = Days::new(11);
        let mut abandoned = 0;
        for _ in 0..200 {
            let mut judge = Judge::default();
            play_text(&days.next_day(120), &mut Names::default(), &mut [&mut judge]);
            abandoned += judge.abandoned;
        }
        assert!(abandoned > 500, "{abandoned}");
    }
}
