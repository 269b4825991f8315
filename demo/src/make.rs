//! Makes the call of a line: words to arguments, results to answers.

use crate::day::{Call, Words};
use crate::forms::Verb;
use dcps::{
    Admission, InstanceHandle, Lapse, LivelinessChangedStatus, Parting, Refusal, Sample, State,
    Time,
};
use std::time::Duration;

/// What a call answered.
#[derive(Debug, Clone, PartialEq, Eq)]
pub enum Said {
    Done,
    /// Whether the instance was there.
    Known(bool),
    Yes(bool),
    /// Whether a count of the liveliness moved.
    Moved(bool),
    Handle(Option<InstanceHandle>),
    Cleared(usize),
    Purged(usize),
    Expired(bool, Option<Duration>),
    Lost(Vec<[u8; 16]>),
    Status(LivelinessChangedStatus),
    Writerless(Vec<InstanceHandle>),
    Admission(Admission),
    Lapse(Lapse),
    Parting(Parting),
}

pub fn make(state: &mut State, call: &Call) -> Result<Said, Refusal> {
    let w = &call.words;
    match call.verb {
        Verb::Admit => state.admit(&sample(w)).map(Said::Admission),
        Verb::Lapse => state.lapse(w.clock, w.time).map(Said::Lapse),
        Verb::Part => state.part(w.writer, w.time).map(Said::Parting),
        Verb::Depart => state.depart(w.writer, w.time).map(Said::Parting),
        Verb::Match
        | Verb::Unmatch
        | Verb::LostWithParticipant
        | Verb::Assert
        | Verb::Expire
        | Verb::TakeLost
        | Verb::TakeStatus
        | Verb::Acknowledge => on_writers(state, call.verb, w),
        Verb::Register
        | Verb::EnsureRegisteredLimited
        | Verb::Dispose
        | Verb::Unregister
        | Verb::NoteWriter
        | Verb::DropWriter => on_lifecycle(state, call.verb, w),
        _ => on_samples(state, call.verb, w),
    }
}

fn sample(w: &Words) -> Sample<'_> {
    let order_ts = w.time.unwrap_or(Time::ZERO);
    Sample {
        keyhash: w.key,
        key_holder: w.holder.as_deref().unwrap_or_default(),
        writer: w.writer,
        strength: w.strength,
        order_ts,
        filter_ts: w.now.unwrap_or(order_ts),
        by_source_timestamp: w.by_source,
        min_separation_nanos: w.separation,
        deadline_nanos: w.deadline,
        max_instances: w.limit,
    }
}

fn on_writers(state: &mut State, verb: Verb, w: &Words) -> Result<Said, Refusal> {
    match verb {
        Verb::Match => state.matched(w.writer, w.kind, w.lease, w.clock).map(Said::Moved),
        Verb::Unmatch => state.unmatched(w.writer).map(Said::Moved),
        Verb::LostWithParticipant => state.lost_with_participant(w.writer).map(Said::Moved),
        Verb::Assert => match w.participant {
            Some(prefix) => state.participant_asserted(prefix, w.manual, w.clock),
            None => state.writer_asserted(w.writer, w.clock),
        }
        .map(Said::Moved),
        Verb::Expire => state.expire(w.clock).map(|(moved, next)| Said::Expired(moved, next)),
        Verb::TakeLost => state.take_lost().map(Said::Lost),
        Verb::TakeStatus => state.take_status().map(Said::Status),
        _ => {
            let taken = LivelinessChangedStatus {
                alive_count_change: w.alive,
                not_alive_count_change: w.not_alive,
                ..Default::default()
            };
            state.acknowledge(&taken).map(|()| Said::Done)
        }
    }
}

/// The handle of a key; calls by handle on a key that is unknown go to nil, which names no instance.
fn handle(state: &State, w: &Words) -> InstanceHandle {
    state.lookup(&w.key).unwrap_or(InstanceHandle::NIL)
}

fn on_lifecycle(state: &mut State, verb: Verb, w: &Words) -> Result<Said, Refusal> {
    let handle = handle(state, w);
    match verb {
        Verb::Register => {
            let holder = w.holder.as_deref().unwrap_or_default();
            state.register(w.key, holder, w.time).map(|handle| Said::Handle(Some(handle)))
        }
        Verb::EnsureRegisteredLimited => {
            state.ensure_registered_limited(w.key, w.limit).map(Said::Handle)
        }
        Verb::Dispose => state.dispose(handle, w.time).map(Said::Known),
        Verb::Unregister if w.names_writer => {
            state.unregister_writer(handle, w.writer, w.time).map(Said::Known)
        }
        Verb::Unregister => state.unregister(handle, w.time).map(Said::Known),
        Verb::NoteWriter => state.note_writer(handle, w.writer).map(|()| Said::Done),
        _ => state.drop_writer(&w.writer, w.time).map(Said::Writerless),
    }
}

fn on_samples(state: &mut State, verb: Verb, w: &Words) -> Result<Said, Refusal> {
    let moment = w.time.unwrap_or(Time::ZERO);
    match verb {
        Verb::ObserveLifecycle => state
            .observe_lifecycle(w.key, w.holder.as_deref(), w.time)
            .map(|handle| Said::Handle(Some(handle))),
        Verb::ObserveAdmitted => {
            let holder = || w.holder.as_deref().unwrap_or_default();
            let observed = state.observe_admitted(w.key, holder, moment, w.limit)?;
            Ok(Said::Handle(observed.map(|(handle, _)| handle)))
        }
        Verb::NoteAdmitted => {
            let now = w.now.unwrap_or(moment);
            Ok(Said::Known(state.note_admitted(&w.key, moment, now, w.writer)?.is_some()))
        }
        Verb::RecordDelivery => state.record_delivery(&w.key, moment).map(|()| Said::Done),
        Verb::NoteTaken => state.note_taken(handle(state, w), w.samples).map(|()| Said::Done),
        Verb::MarkViewSeen => state.mark_view_seen(handle(state, w)).map(|()| Said::Done),
        Verb::MarkViewNew => state.mark_view_new(&w.key).map(Said::Known),
        Verb::DrainSamples => state.drain_samples(handle(state, w), w.samples).map(|()| Said::Done),
        Verb::Autopurge => state.autopurge(moment, w.disposed, w.no_writers).map(Said::Purged),
        _ => on_ownership(state, verb, w),
    }
}

fn on_ownership(state: &mut State, verb: Verb, w: &Words) -> Result<Said, Refusal> {
    match verb {
        Verb::UpdateOwnerStrength => {
            state.update_owner_strength(w.writer, w.strength).map(|()| Said::Done)
        }
        Verb::ClearOwnerForWriter => match w.participant {
            Some(prefix) => state.clear_owner_for_writer_prefix(prefix),
            None => state.clear_owner_for_writer(w.writer),
        }
        .map(Said::Cleared),
        Verb::ReleaseOwnerOf => state.release_owner_of(&w.key, w.writer).map(Said::Yes),
        _ => {
            let now = w.time.unwrap_or(Time::ZERO);
            let asked = (w.writer, w.strength, w.deadline);
            state
                .accept_under_exclusive_ownership(&w.key, asked.0, asked.1, now, asked.2)
                .map(Said::Yes)
        }
    }
}
