//! One call of each code, on the full state.

use lists::fill::{BY_SOURCE, Filled, LEASE_PRESENT, TIME1_PRESENT};
use reading::State;

use crate::mixes::{Mix, at, mix};
use crate::state::{APART, LAST, LEASE};

/// Codes and the names of their calls.
const NAMES: [(u8, &str); 34] = [
    (1, "register"),
    (2, "ensure_registered_limited"),
    (3, "dispose"),
    (4, "unregister"),
    (5, "unregister_writer"),
    (6, "note_writer"),
    (7, "drop_writer"),
    (8, "observe_lifecycle"),
    (9, "observe_admitted"),
    (10, "note_admitted"),
    (11, "record_delivery"),
    (12, "note_taken"),
    (13, "mark_view_seen"),
    (14, "mark_view_new"),
    (15, "drain_samples"),
    (16, "accept_under_exclusive_ownership"),
    (17, "update_owner_strength"),
    (18, "clear_owner_for_writer"),
    (19, "clear_owner_for_writer_prefix"),
    (20, "release_owner_of"),
    (21, "autopurge"),
    (32, "matched"),
    (33, "unmatched"),
    (34, "lost_with_participant"),
    (35, "writer_asserted"),
    (36, "participant_asserted"),
    (37, "expire"),
    (38, "take_lost"),
    (39, "take_status"),
    (40, "acknowledge"),
    (48, "admit"),
    (49, "lapse"),
    (50, "part"),
    (51, "depart"),
];

/// For each code a call about an instance in the middle of the table and its
/// owner; expire and lapse find one writer due.
pub fn calls(state: &State) -> Vec<Mix> {
    let instance = &state.instances[state.instances.len() / 2];
    let (guid, strength) = instance.owner.unwrap_or_default();
    let time = at(LAST + 1);
    NAMES
        .into_iter()
        .map(|(code, name)| {
            let clock = match code {
                37 | 49 => LEASE,
                32..=36 => 200 * APART,
                _ => 1,
            };
            let sheet = Filled::code(code)
                .key(instance.key)
                .guid(guid)
                .handle(instance.handle)
                .time1(time)
                .time2(time)
                .a(clock)
                .b(LEASE)
                .limit(if code == 40 { 0 } else { -1 })
                .strength(strength)
                .bits(TIME1_PRESENT | LEASE_PRESENT | BY_SOURCE);
            mix(name, state.clone(), vec![sheet], |a| a.number == 0)
        })
        .collect()
}
