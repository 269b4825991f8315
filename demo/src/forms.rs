//! The calls that a line can make, and the words that each takes.

/// What a line asks for. Names are the library's, but for the few that read badly.
#[derive(Debug, Clone, Copy, PartialEq, Eq)]
pub enum Verb {
    Register,
    EnsureRegisteredLimited,
    Dispose,
    Unregister,
    NoteWriter,
    DropWriter,
    ObserveLifecycle,
    ObserveAdmitted,
    NoteAdmitted,
    RecordDelivery,
    NoteTaken,
    MarkViewSeen,
    MarkViewNew,
    DrainSamples,
    AcceptUnderExclusiveOwnership,
    UpdateOwnerStrength,
    ClearOwnerForWriter,
    ReleaseOwnerOf,
    Autopurge,
    Match,
    Unmatch,
    LostWithParticipant,
    Assert,
    Expire,
    TakeLost,
    TakeStatus,
    Acknowledge,
    Admit,
    Lapse,
    Part,
    Depart,
}

/// What stands behind the verb.
#[derive(Clone, Copy, PartialEq, Eq)]
pub enum Subject {
    Nothing,
    Key,
    Writer,
    /// A writer, or all of a participant.
    WriterOrParticipant,
}

/// A word that a verb takes; with `!` it must be there.
pub type Word = &'static str;

pub const FORMS: &[(&str, Verb, Subject, &[Word])] = &[
    ("match", Verb::Match, Subject::Writer, &["kind!", "lease", "at!"]),
    ("unmatch", Verb::Unmatch, Subject::Writer, &[]),
    ("lost_with_participant", Verb::LostWithParticipant, Subject::Writer, &[]),
    ("assert", Verb::Assert, Subject::WriterOrParticipant, &["manual", "at!"]),
    ("expire", Verb::Expire, Subject::Nothing, &["at!"]),
    ("take_lost", Verb::TakeLost, Subject::Nothing, &[]),
    ("take_status", Verb::TakeStatus, Subject::Nothing, &[]),
    ("acknowledge", Verb::Acknowledge, Subject::Nothing, &["alive!", "not-alive!"]),
    (
        "admit",
        Verb::Admit,
        Subject::Key,
        &[
            "from!",
            "at!",
            "now",
            "strength",
            "separation",
            "deadline",
            "limit",
            "holder",
            "by-source",
        ],
    ),
    ("lapse", Verb::Lapse, Subject::Nothing, &["at!", "stamp"]),
    ("part", Verb::Part, Subject::Writer, &["at"]),
    ("depart", Verb::Depart, Subject::Writer, &["at"]),
    ("register", Verb::Register, Subject::Key, &["holder", "at"]),
    ("ensure_registered_limited", Verb::EnsureRegisteredLimited, Subject::Key, &["limit"]),
    ("dispose", Verb::Dispose, Subject::Key, &["at"]),
    ("unregister", Verb::Unregister, Subject::Key, &["from", "at"]),
    ("note_writer", Verb::NoteWriter, Subject::Key, &["from!"]),
    ("drop_writer", Verb::DropWriter, Subject::Writer, &["at"]),
    ("observe_lifecycle", Verb::ObserveLifecycle, Subject::Key, &["holder", "at"]),
    ("observe_admitted", Verb::ObserveAdmitted, Subject::Key, &["holder", "at!", "limit"]),
    ("note_admitted", Verb::NoteAdmitted, Subject::Key, &["from!", "at!", "now"]),
    ("record_delivery", Verb::RecordDelivery, Subject::Key, &["at!"]),
    ("note_taken", Verb::NoteTaken, Subject::Key, &["samples!"]),
    ("mark_view_seen", Verb::MarkViewSeen, Subject::Key, &[]),
    ("mark_view_new", Verb::MarkViewNew, Subject::Key, &[]),
    ("drain_samples", Verb::DrainSamples, Subject::Key, &["samples!"]),
    (
        "accept_under_exclusive_ownership",
        Verb::AcceptUnderExclusiveOwnership,
        Subject::Key,
        &["from!", "strength!", "at!", "deadline"],
    ),
    ("update_owner_strength", Verb::UpdateOwnerStrength, Subject::Writer, &["strength!"]),
    ("clear_owner_for_writer", Verb::ClearOwnerForWriter, Subject::WriterOrParticipant, &[]),
    ("release_owner_of", Verb::ReleaseOwnerOf, Subject::Key, &["from!"]),
    ("autopurge", Verb::Autopurge, Subject::Nothing, &["at!", "disposed", "no-writers"]),
];

/// Whether a key stands behind a word.
pub fn takes_key(name: &str) -> bool {
    FORMS.iter().any(|(form, _, subject, _)| *form == name && *subject == Subject::Key)
}
