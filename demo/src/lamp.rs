//! The lamp of one writer. It goes to the instance that the library's writer lookup names, the first alive one in key order
//! with that writer among its writers; without one it is dark. Each call that moved it, and why it stands where it does.

use crate::history::Guid;
use crate::names::Names;
use crate::play::{Step, Watch};
use crate::table::{shown, written_by};
use crate::tell::{counted, listed};
use crate::words::{self, quoted, show_guid};
use dcps::{InstanceStateKind, KeyHash, Refusal, State};
use std::fmt::Write;

/// The writer that a word names. A participant has as many lamps as writers.
pub fn writer(word: &str) -> Result<Guid, String> {
    if matches!(words::participant(word), Some(Ok(_))) {
        return Err(format!(
            "{} names all writers of a participant, and each has a lamp of its own: write PARTICIPANT/ENTITY",
            quoted(word)
        ));
    }
    words::guid(word)
}

/// Where the lamp of a writer goes, as the library says.
fn looked_up(state: &State, writer: &Guid) -> Result<Option<KeyHash>, Refusal> {
    let handle = state.writer_lookup(writer)?;
    Ok(handle.and_then(|handle| state.key_hash_for_handle(handle)))
}

/// The instances with a writer among their writers, in key order. They explain the lamp and do not move it.
struct Written {
    alive: Vec<KeyHash>,
    abandoned: Vec<KeyHash>,
}

impl Written {
    fn of(state: &State, writer: &Guid) -> Self {
        let (mut alive, mut abandoned) = (Vec::new(), Vec::new());
        for instance in written_by(state, writer) {
            match instance.kind {
                InstanceStateKind::Alive => alive.push(instance.keyhash),
                _ => abandoned.push(instance.keyhash),
            }
        }
        Self { alive, abandoned }
    }
}

/// The lamp of a writer over a day, written as it goes.
pub struct Lamp {
    writer: Guid,
    /// Whether a call has named the writer.
    named: bool,
    moves: u64,
    text: String,
    on: Option<KeyHash>,
}

impl Watch for Lamp {
    fn see(&mut self, step: &Step<'_>) {
        let words = &step.call.words;
        self.named |= words.names_writer && words.writer == self.writer;
        if step.said.is_err() {
            return;
        }
        // A state that took a call is not refused; `text` would tell.
        let Ok(on) = looked_up(step.state, &self.writer) else {
            return;
        };
        let from = std::mem::replace(&mut self.on, on);
        if from == on {
            return;
        }
        self.moves += 1;
        let moved = self.moved(from, step.state, step.names);
        let _ = writeln!(self.text, "\n  line {:<4} {}", step.call.line, step.call.text);
        let _ = writeln!(self.text, "            {moved}");
    }
}

impl Lamp {
    pub fn new(writer: Guid) -> Self {
        Self { writer, named: false, moves: 0, text: String::new(), on: None }
    }

    /// From where to where the latest call moved it, and why it did not stay.
    fn moved(&self, from: Option<KeyHash>, state: &State, names: &Names) -> String {
        let show =
            |key: Option<KeyHash>| key.map_or("dark".to_owned(), |key| names.show_with_hash(&key));
        let moved = format!("{} → {}", show(from), show(self.on));
        let Some(from) = from else {
            return moved;
        };
        let name = names.show(&from);
        match state.get_by_keyhash(&from) {
            // Never met: what a purge takes was abandoned before, and had no lamp.
            None => format!("{moved}: {name} is purged"),
            Some(i) if i.kind != InstanceStateKind::Alive => {
                format!("{moved}: {name} is {}", shown(i.kind))
            }
            Some(i) if i.writers.contains(&self.writer) => {
                format!("{moved}, which comes before it in key order")
            }
            // It need not have left by itself: a lapse takes it out too.
            Some(_) => {
                let writer = show_guid(&self.writer);
                format!("{moved}: {writer} is no longer among the writers of {name}")
            }
        }
    }

    /// The moves, and where the lamp stands; none where the day never names the writer.
    pub fn text(&self, state: &State, names: &Names) -> Result<Option<String>, Refusal> {
        let (on, writer) = (looked_up(state, &self.writer)?, show_guid(&self.writer));
        debug_assert_eq!(on, self.on, "asked again, it stays");
        let moved = match self.moves {
            0 => "no call moved its lamp".to_owned(),
            moves => format!("{} moved its lamp", counted(moves, "call")),
        };
        let stands = stands(on, &Written::of(state, &self.writer), &writer, names);
        let order = if names.hashes() {
            "Keys are hashed here: key order is that of the KeyHashes, and not that of the names.\n"
        } else {
            ""
        };
        let text = format!("{writer}: {moved}\n{}\n{stands}\n{order}", self.text);
        Ok(self.named.then_some(text))
    }
}

/// Where a lamp stands, and why.
fn stands(on: Option<KeyHash>, all: &Written, writer: &str, names: &Names) -> String {
    let list = |keys: &[KeyHash]| {
        listed(&keys.iter().map(|key| names.show_with_hash(key)).collect::<Vec<_>>())
    };
    let place = match (on, all.alive.len()) {
        (None, _) => format!("dark: no alive instance has {writer} among its writers"),
        (Some(key), 1) => format!(
            "on {}, the only alive instance with {writer} among its writers",
            names.show_with_hash(&key)
        ),
        (Some(key), count) => format!(
            "on {}, the first in key order of {count} alive instances with {writer} among their writers: {}",
            names.show_with_hash(&key),
            list(&all.alive)
        ),
    };
    let others = match all.abandoned.len() {
        0 => String::new(),
        1 => format!(
            " 1 abandoned instance has {writer} among its writers and does not count: {}.",
            list(&all.abandoned)
        ),
        count => format!(
            " {count} abandoned instances have {writer} among their writers and do not count: {}.",
            list(&all.abandoned)
        ),
    };
    format!("The lamp of {writer} is {place}.{others}")
}

#[cfg(test)]
mod tests {
    use super::*;
    use crate::names::{FITTING, LARGEST};
    use crate::play::play_text;
    use crate::random::Days;

    /// What is said of the lamp of a writer over a day.
    fn lamp_of(word: &str, day: &str, largest: u64) -> Option<String> {
        let mut names = Names::new(largest);
        let mut lamp = Lamp::new(writer(word).expect("a writer"));
        let state = play_text(day, &mut names, &mut [&mut lamp]);
        lamp.text(&state, &names).expect("a state of calls is not refused")
    }

    fn lines(day: &str) -> Vec<String> {
        let text = lamp_of("a/b", day, FITTING).expect("it stands in the day");
        text.lines().map(|line| line.trim_start().to_owned()).collect()
    }

    const DRAWN: &str = "admit pen-2 from a/b at 1s\nadmit pen-1 from a/b at 1s\n";

    #[test]
    fn it_goes_to_the_first_in_key_order() {
        assert_eq!(
            lines(DRAWN),
            [
                "a/b: 2 calls moved its lamp",
                "",
                "line 1    admit pen-2 from a/b at 1s",
                "dark → pen-2",
                "",
                "line 2    admit pen-1 from a/b at 1s",
                "pen-2 → pen-1, which comes before it in key order",
                "",
                "The lamp of a/b is on pen-1, the first in key order of 2 alive instances with a/b among their writers: \
                 pen-1 and pen-2.",
            ]
        );
    }

    /// The last move and where it then stands.
    fn after(calls: &str) -> [String; 2] {
        let lines = lines(&format!("{DRAWN}{calls}"));
        let [.., moved, _, stands] = &lines[..] else { panic!("{lines:?}") };
        [moved.clone(), stands.clone()]
    }

    const DARK: &str = "dark: no alive instance has a/b among its writers.";
    const ON_PEN_2: &str = "on pen-2, the only alive instance with a/b among its writers.";
    const TAKEN_OUT: &str = "pen-1 → dark: a/b is no longer among the writers of pen-1";

    /// Calls behind `DRAWN`, the last move, and where the lamp then stands.
    const MOVES: &[[&str; 3]] = &[
        [
            "dispose pen-1",
            "pen-1 → pen-2: pen-1 is abandoned (disposed)",
            "on pen-2, the only alive instance with a/b among its writers. \
             1 abandoned instance has a/b among its writers and does not count: pen-1.",
        ],
        [
            "unregister pen-1\ndispose pen-2",
            "pen-2 → dark: pen-2 is abandoned (disposed)",
            "dark: no alive instance has a/b among its writers. \
             2 abandoned instances have a/b among their writers and do not count: pen-1 and pen-2.",
        ],
        ["unregister pen-1 from a/b", "pen-1 → pen-2: pen-1 is abandoned (no writers)", ON_PEN_2],
        ["part a/b", "pen-1 → dark: pen-1 is abandoned (no writers)", DARK],
        ["part a/b\nadmit pen-2 from a/b at 2s", "dark → pen-2", ON_PEN_2],
        // Purged and started again, it has another handle and the same key.
        [
            "dispose pen-1 at 1s\nautopurge at 9s disposed 1s\n\
             unregister pen-2 from a/b\nadmit pen-1 from a/b at 9s",
            "dark → pen-1",
            "on pen-1, the only alive instance with a/b among its writers.",
        ],
        // With another writer in its set pen-1 stays alive.
        [
            "note_writer pen-1 from a/c\nunregister pen-1 from a/b",
            "pen-1 → pen-2: a/b is no longer among the writers of pen-1",
            ON_PEN_2,
        ],
        ["note_writer pen-1 from a/c\npart a/b", TAKEN_OUT, DARK],
        ["note_writer pen-1 from a/c\ndepart a/b", TAKEN_OUT, DARK],
        ["note_writer pen-1 from a/c\ndrop_writer a/b", TAKEN_OUT, DARK],
        [
            "note_writer pen-1 from a/c\nmatch a/b kind automatic lease 1s at 1s\nlapse at 2s",
            TAKEN_OUT,
            DARK,
        ],
    ];

    #[test]
    fn why_it_moved_and_where_it_stands() {
        for [calls, moved, stands] in MOVES {
            assert_eq!(after(calls), [*moved, &format!("The lamp of a/b is {stands}")], "{calls}");
        }
    }

    #[test]
    fn it_stays_over_samples_and_changes_of_others() {
        let calls = "admit pen-1 from a/b at 2s\nnote_taken pen-1 samples 2\ndispose pen-2\n\
                     admit pen-0 from a/c at 3s\nadmit pen-3 from a/b at 3s\nclear_owner_for_writer a/b\n";
        let text = lamp_of("a/b", &format!("{DRAWN}{calls}"), FITTING).expect("it stands there");
        assert!(text.starts_with("a/b: 2 calls moved its lamp\n"), "{text}");
        assert!(text.contains("is on pen-1, the first in key order of 2 alive"), "{text}");
    }

    /// A new instance in front that finds no place is refused as 9.
    #[test]
    fn it_stays_over_a_refused_call() {
        let drawn = (1..=32).map(|n| format!("admit pen-{n:02} from a/b at 1s\n"));
        let day = format!("places 32\n{}admit pen-00 from a/b at 2s\n", drawn.collect::<String>());
        let text = lamp_of("a/b", &day, FITTING).expect("it stands there");
        assert!(text.starts_with("a/b: 1 call moved its lamp\n"), "{text}");
        assert!(text.contains("is on pen-01, the first in key order of 32 alive"), "{text}");
    }

    #[test]
    fn a_writer_that_stands_in_the_day_or_not() {
        assert_eq!(lamp_of("a/c", DRAWN, FITTING), None);
        assert_eq!(lamp_of("a/b", "assert a/* at 1s", FITTING), None);
        let text = lamp_of("a/b", "part a/b", FITTING).expect("it stands there");
        assert_eq!(
            text,
            "a/b: no call moved its lamp\n\n\
             The lamp of a/b is dark: no alive instance has a/b among its writers.\n"
        );
    }

    /// By name the digits come before a, and by their MD5 (RFC 1321, A.5) behind it.
    #[test]
    fn hashed_keys_are_in_the_order_of_their_hashes() {
        let digits = "1234567890".repeat(8);
        let day = format!("admit {digits} from a/b at 1s\nadmit a from a/b at 1s\n");
        let text = lamp_of("a/b", &day, LARGEST).expect("it stands there");
        let a = "a (0x0cc175b9c0f1b6a831c399e269772661)";
        let digits = format!("{digits} (0x57edf4a22be3c955ac49da2e2107b67a)");
        assert!(text.contains(&format!("{digits} → {a}, which comes before it")), "{text}");
        assert!(text.contains(&format!("is on {a}, the first in key order of 2 alive")), "{text}");
        assert!(text.contains(&format!("their writers: {a} and {digits}.\nKeys are hashed")));
        assert!(text.ends_with("key order is that of the KeyHashes, and not that of the names.\n"));
    }

    #[test]
    fn what_is_no_writer() {
        for word in
            ["", "a", "a/", "/b", "a/b/c", "0x12", "thirteen-long/b", "/*", "thirteen-long/*"]
        {
            assert!(writer(word).is_err_and(|e| e.contains("is not a writer")), "{word}");
        }
        assert!(writer("a/*").is_err_and(|e| e.starts_with("'a/*' names all writers of a part")));
    }

    /// Holds the library's answer to the records after every call.
    struct Agrees(Guid);

    impl Watch for Agrees {
        fn see(&mut self, step: &Step<'_>) {
            let first = Written::of(step.state, &self.0).alive.first().copied();
            assert_eq!(looked_up(step.state, &self.0), Ok(first), "{}", step.call.text);
        }
    }

    /// Every sort of reason and of standing that is met.
    const SORTS: &[&str] = &[
        "dark → ",
        " → dark: ",
        ", which comes before it in key order",
        " is abandoned (disposed)",
        " is abandoned (no writers)",
        " is no longer among the writers of ",
        " is dark: no alive instance",
        ", the only alive instance",
        ", the first in key order of 2 alive",
        " does not count: ",
        " do not count: ",
    ];

    /// Over any day the library and the records agree after every call, and the text says so at the end. Over all of them
    /// each sort is met, of both writers.
    #[test]
    fn any_day_is_explained() {
        let mut days = Days::new(11);
        for word in ["a/b", "a/c"] {
            let (writer, mut all) = (writer(word).expect("a writer"), String::new());
            for largest in [FITTING, LARGEST].into_iter().cycle().take(500) {
                let (day, mut names) = (days.next_day(40), Names::new(largest));
                let mut lamp = Lamp::new(writer);
                let state = play_text(&day, &mut names, &mut [&mut lamp, &mut Agrees(writer)]);
                let text = lamp.text(&state, &names).expect("a state of calls is not refused");
                assert_eq!(text.is_some(), day.contains(word), "{day}");
                let Some(text) = text else {
                    continue;
                };
                let on = lamp.on.map(|key| format!(" is on {}, the ", names.show_with_hash(&key)));
                let stands = on.unwrap_or_else(|| " is dark: ".to_owned());
                assert!(text.contains(&stands), "{day}");
                all += &text;
            }
            let unseen: Vec<_> = SORTS.iter().filter(|sort| !all.contains(**sort)).collect();
            assert!(unseen.is_empty(), "{word}: {unseen:?}");
            assert!(!all.contains(" is purged"), "{word}: a purge moves no lamp");
        }
    }
}
