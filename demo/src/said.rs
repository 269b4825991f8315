//! Answers in words.

use crate::make::Said;
use crate::names::Names;
use crate::words::{show_clock, show_guid};
use dcps::{Admission, InstanceHandle, LivelinessChangedStatus, State};
use std::time::Duration;

/// The answer of the call that the state has just taken.
pub fn in_words(said: &Said, state: &State, names: &Names) -> String {
    match said {
        Said::Done => "done".to_owned(),
        Said::Known(known) => if *known { "done" } else { "no such instance" }.to_owned(),
        Said::Yes(yes) => if *yes { "yes" } else { "no" }.to_owned(),
        Said::Moved(changed) => moved(*changed).to_owned(),
        Said::Handle(Some(handle)) => format!("handle {}", handle.as_raw()),
        Said::Handle(None) => "none: a new instance beyond the limit".to_owned(),
        Said::Cleared(count) => format!("{count} given up"),
        Said::Purged(count) => format!("{count} purged"),
        Said::Expired(changed, next) => format!("{}, {}", moved(*changed), due(*next)),
        Said::Lost(lost) if lost.is_empty() => "none".to_owned(),
        Said::Lost(lost) => lost.iter().map(show_guid).collect::<Vec<_>>().join(" "),
        Said::Status(counts) => status(counts),
        Said::Writerless(left) => left_behind(left, state, names),
        Said::Admission(admission) => admitted(admission),
        Said::Lapse(lapse) => {
            let left = left_behind(&lapse.writerless, state, names);
            format!("{}, {}; {left}", moved(lapse.changed), due(lapse.next_due))
        }
        Said::Parting(parting) => {
            let left = left_behind(&parting.writerless, state, names);
            format!("{}; {left}", moved(parting.changed))
        }
    }
}

fn admitted(admission: &Admission) -> String {
    match admission {
        Admission::Admitted { handle, samples_in_cache, .. } => {
            format!("admitted, handle {}, sample {samples_in_cache}", handle.as_raw())
        }
        turned_away => format!("turned away: {}", reason(turned_away)),
    }
}

/// Why admit turned a sample away.
pub fn reason(admission: &Admission) -> &'static str {
    match admission {
        Admission::Admitted { .. } => "",
        Admission::DestinationOrder => "not later than the last sample",
        Admission::TimeBasedFilter => "too close to the last sample",
        Admission::MaxInstances => "a new instance beyond the limit",
        Admission::ExclusiveOwnership => "another writer owns the instance",
    }
}

fn moved(moved: bool) -> &'static str {
    if moved {
        "liveliness changed"
    } else {
        "liveliness as it was"
    }
}

fn due(next: Option<Duration>) -> String {
    next.map_or_else(
        || "no lease runs".to_owned(),
        |next| format!("next lease runs out {}", show_clock(next)),
    )
}

fn left_behind(left: &[InstanceHandle], state: &State, names: &Names) -> String {
    let keys = left.iter().filter_map(|handle| state.key_hash_for_handle(*handle));
    let keys: Vec<_> = keys.collect();
    if keys.is_empty() {
        "no instance left without writers".to_owned()
    } else {
        format!("left without writers: {}", names.list(&keys).join(" "))
    }
}

/// The counts of a status, with what moved since it was acknowledged.
pub fn status(s: &LivelinessChangedStatus) -> String {
    format!(
        "{} alive ({:+}), {} not alive ({:+})",
        s.alive_count, s.alive_count_change, s.not_alive_count, s.not_alive_count_change
    )
}
