//! Changes to a day, so that it can be played again with them: what a setting or a further call would have saved is counted
//! and not guessed.

use crate::day::{Call, Words};
use crate::forms::Verb;
use crate::history::{End, Guid, History, Spell};
use crate::make::Said;
use crate::rank::lasted;
use crate::words::Moment;
use dcps::Admission;
use std::collections::{BTreeMap, BTreeSet};
use std::time::Duration;

#[derive(Debug, Clone, Default, PartialEq, Eq)]
pub struct Plan {
    /// These writers are matched with at least this lease.
    pub leases: BTreeMap<Guid, Duration>,
    /// These are asserted with each of their samples.
    pub asserted: BTreeSet<Guid>,
    /// These are recorded where a sample of theirs is turned away.
    pub noted: BTreeSet<Guid>,
    /// These give up what they own when they unregister or are dropped.
    pub released: BTreeSet<Guid>,
    /// A pen is ordered only after it was abandoned for longer than this.
    pub wait: Option<Moment>,
}

impl Plan {
    /// Adds the changes of another plan.
    pub fn add(&mut self, other: &Plan) {
        for (guid, lease) in &other.leases {
            let longest = self.leases.entry(*guid).or_default();
            *longest = (*longest).max(*lease);
        }
        self.asserted.extend(&other.asserted);
        self.noted.extend(&other.noted);
        self.released.extend(&other.released);
        self.wait = self.wait.max(other.wait);
    }

    /// Whether it changes no call, so that the day need not be played again.
    pub fn keeps_the_calls(&self) -> bool {
        *self == Plan { wait: self.wait, ..Plan::default() }
    }

    /// Changes a call, and answers one to be made before it.
    pub fn before(&self, call: &mut Call) -> Option<Call> {
        let words = &mut call.words;
        match call.verb {
            Verb::Match => {
                let longest = self.leases.get(&words.writer);
                words.lease = words.lease.map(|lease| longest.map_or(lease, |l| lease.max(*l)));
                None
            }
            Verb::Admit | Verb::NoteAdmitted if self.asserted.contains(&words.writer) => {
                let clock = u64::try_from(call.time()?).ok()?;
                let mut asserted = further(call, Verb::Assert);
                asserted.words.clock = Duration::from_nanos(clock);
                Some(asserted)
            }
            _ => None,
        }
    }

    /// A call to be made after one that was answered so.
    pub fn after(&self, call: &Call, said: &Said) -> Option<Call> {
        let writer = &call.words.writer;
        match (call.verb, said) {
            (Verb::Admit, Said::Admission(outcome)) if self.noted.contains(writer) => {
                let recorded = outcome.is_admitted() || *outcome == Admission::MaxInstances;
                (!recorded).then(|| further(call, Verb::NoteWriter))
            }
            (Verb::Unregister, _) if self.released.contains(writer) => {
                Some(further(call, Verb::ReleaseOwnerOf))
            }
            (Verb::DropWriter, _) if self.released.contains(writer) => {
                Some(further(call, Verb::ClearOwnerForWriter))
            }
            _ => None,
        }
    }

    /// The orders of a day that was played with this plan.
    pub fn orders(&self, history: &History) -> u64 {
        let ends = history.ends().map_or(0, |(_, last)| last);
        let waits = |spell: &&Spell| {
            let drawn = matches!(spell.end, Some((_, End::Drawn(_))));
            !(drawn && self.wait.is_some_and(|wait| lasted(spell, ends) <= wait))
        };
        let of = |spells: &[Spell]| spells.iter().filter(waits).map(|s| s.order_lines).sum::<u64>();
        history.instances.values().map(|i| i.unwritten + of(&i.spells)).sum()
    }
}

/// A further call on the key and the writer of one.
fn further(call: &Call, verb: Verb) -> Call {
    let of = &call.words;
    let words = Words {
        key: of.key,
        writer: of.writer,
        names_key: of.names_key && verb != Verb::Assert,
        names_writer: true,
        ..Words::default()
    };
    Call { line: call.line, text: call.text.clone(), verb, words }
}
