//! A day's list: one call a line, `VERB [SUBJECT] [WORD VALUE]..`, comments from `#` on. Lines `keys largest SIZE` and
//! `places NUMBER` are no calls.

use crate::dates;
use crate::forms::{Subject, Verb, Word, FORMS};
use crate::names::Names;
use crate::nearest::nearest;
use crate::words::{self, quoted, Moment};
use dcps::{KeyHash, LivelinessKind, Places, Time};
use std::io::{self, BufRead};
use std::time::Duration;

/// A longer line is a fault, and is not kept. The longest key leaves as much to the rest of its line.
const LONGEST_LINE: usize = 8_192;

/// What the line that states the largest size of the day's keys starts with.
pub const KEYS: &str = "keys";

/// What the line that states the number of places for instances starts with.
const PLACES: &str = "places";

/// The words of a line, as the calls take them.
#[derive(Debug, Clone, PartialEq, Eq)]
pub struct Words {
    pub key: KeyHash,
    pub writer: [u8; 16],
    /// Set where the subject is a key.
    pub names_key: bool,
    /// Set where the subject or `from` is a writer.
    pub names_writer: bool,
    pub participant: Option<[u8; 12]>,
    pub kind: LivelinessKind,
    pub lease: Option<Duration>,
    /// `at` as a clock of the liveliness, where the verb has one.
    pub clock: Duration,
    /// `at` or `stamp` as a time.
    pub time: Option<Time>,
    pub now: Option<Time>,
    pub strength: i32,
    pub separation: u128,
    pub deadline: Option<u128>,
    pub limit: i32,
    pub holder: Option<Vec<u8>>,
    pub by_source: bool,
    pub manual: bool,
    pub samples: u32,
    pub disposed: u128,
    pub no_writers: u128,
    pub alive: i32,
    pub not_alive: i32,
}

impl Default for Words {
    fn default() -> Self {
        Self {
            key: [0; 16],
            writer: [0; 16],
            names_key: false,
            names_writer: false,
            participant: None,
            kind: LivelinessKind::Automatic,
            lease: None,
            clock: Duration::ZERO,
            time: None,
            now: None,
            strength: 0,
            separation: 0,
            deadline: None,
            limit: -1,
            holder: None,
            by_source: false,
            manual: false,
            samples: 0,
            disposed: u128::MAX,
            no_writers: u128::MAX,
            alive: 0,
            not_alive: 0,
        }
    }
}

/// A call, and the line that it stands in.
#[derive(Debug, Clone, PartialEq, Eq)]
pub struct Call {
    pub line: usize,
    /// The line without its comment, blanks made single.
    pub text: String,
    pub verb: Verb,
    pub words: Words,
}

impl Call {
    /// When it is made, where it says so.
    pub fn moment(&self) -> Option<Moment> {
        self.clock().or(self.time())
    }

    /// Its clock of the liveliness, which is never negative.
    pub fn clock(&self) -> Option<Moment> {
        matches!(self.verb, Verb::Match | Verb::Assert | Verb::Expire | Verb::Lapse)
            .then(|| words::moment_of_clock(self.words.clock))
    }

    /// For a sample `now`, else its own time; for a lapse the one from which instances are without writers.
    pub fn time(&self) -> Option<Moment> {
        self.words.now.or(self.words.time).map(words::moment_of_time)
    }
}

/// What a line has in it; one that states the size of keys has told it to the names.
#[derive(Debug, Clone, PartialEq, Eq)]
pub enum Line {
    Call(Box<Call>),
    Places(Places),
}

/// What is wrong with a line.
#[derive(Debug, Clone, PartialEq, Eq)]
pub struct Fault {
    pub line: usize,
    pub what: String,
}

/// Gives each line with its number; one that is too long comes cut. Answers the first error of the source.
pub fn each_line(
    source: &mut dyn BufRead,
    mut each: impl FnMut(usize, &[u8]),
) -> Result<(), io::Error> {
    let mut line = Vec::new();
    let mut number = 1;
    loop {
        let (used, ended) = match source.fill_buf() {
            Ok([]) => break,
            Ok(bytes) => {
                let end = bytes.iter().position(|b| *b == b'\n');
                let part = &bytes[..end.unwrap_or(bytes.len())];
                let room = (LONGEST_LINE + 1).saturating_sub(line.len());
                line.extend_from_slice(&part[..part.len().min(room)]);
                (part.len() + usize::from(end.is_some()), end.is_some())
            }
            Err(e) if e.kind() == io::ErrorKind::Interrupted => continue,
            Err(e) => return Err(e),
        };
        source.consume(used);
        if ended {
            each(number, &line);
            line.clear();
            number += 1;
        }
    }
    if !line.is_empty() {
        each(number, &line);
    }
    Ok(())
}

/// The words of a line, without its comment.
pub fn parts(line: usize, bytes: &[u8]) -> Result<Vec<&str>, String> {
    if bytes.len() > LONGEST_LINE {
        return Err(format!("longer than {LONGEST_LINE} bytes: write one call a line"));
    }
    let mark: &[u8] = if line == 1 { b"\xef\xbb\xbf" } else { b"" };
    let bytes = bytes.strip_prefix(mark).unwrap_or(bytes);
    let text = std::str::from_utf8(bytes)
        .map_err(|_| "not UTF-8 text: save the file as UTF-8".to_owned())?;
    Ok(text.split_whitespace().take_while(|part| !part.starts_with('#')).collect())
}

/// What a line has in it, if anything, or what is wrong with it.
pub fn read_line(line: usize, bytes: &[u8], names: &mut Names) -> Result<Option<Line>, String> {
    let parts = parts(line, bytes)?;
    let Some((name, rest)) = parts.split_first() else {
        return Ok(None);
    };
    match *name {
        KEYS => {
            names.state(stated_size(rest)?)?;
            return Ok(None);
        }
        PLACES => return stated_places(rest).map(|places| Some(Line::Places(places))),
        _ => {}
    }
    let (_, verb, subject, takes) =
        FORMS.iter().find(|(form, ..)| form == name).ok_or_else(|| unknown_verb(name))?;
    let mut words = Words::default();
    let rest = read_subject(name, *subject, rest, names, &mut words)?;
    read_words(name, *verb, takes, rest, &mut words)?;
    let call = Call { line, text: parts.join(" "), verb: *verb, words };
    Ok(Some(Line::Call(Box::new(call))))
}

/// What a line states behind `keys`.
pub fn stated_size(rest: &[&str]) -> Result<u64, String> {
    match rest {
        ["largest", size] => number(size),
        _ => Err("keys takes 'largest' and a size after it, as in keys largest 64".to_owned()),
    }
}

/// What a line states behind `places`.
fn stated_places(rest: &[&str]) -> Result<Places, String> {
    let [word] = rest else {
        return Err("places takes one number after it, as in places 32".to_owned());
    };
    let places = word.parse().ok().and_then(Places::from_count);
    places.ok_or_else(|| format!("{} is not a number of places: write 32 or 128", quoted(word)))
}

fn unknown_verb(name: &str) -> String {
    let known: Vec<_> = FORMS.iter().map(|(form, ..)| *form).collect();
    let meant = nearest(name, known.iter().copied().chain([KEYS, PLACES]));
    let meant = meant.map_or(String::new(), |form| format!(" (did you mean '{form}'?)"));
    format!("{} is not a call{meant}; the calls are {}", quoted(name), known.join(", "))
}

/// Reads what stands behind the verb; what is left.
fn read_subject<'a, 'b>(
    name: &str,
    subject: Subject,
    rest: &'a [&'b str],
    names: &mut Names,
    words: &mut Words,
) -> Result<&'a [&'b str], String> {
    let wanted = match subject {
        Subject::Nothing => return Ok(rest),
        Subject::Key => "a key",
        Subject::Writer => "a writer",
        Subject::WriterOrParticipant => "a writer, or PARTICIPANT/*",
    };
    let (word, rest) =
        rest.split_first().ok_or_else(|| format!("{name} needs {wanted} after it"))?;
    if subject == Subject::Key {
        words.key = names.key(word)?;
        words.names_key = true;
        return Ok(rest);
    }
    if subject == Subject::WriterOrParticipant {
        if let Some(participant) = words::participant(word) {
            words.participant = Some(participant?);
            return Ok(rest);
        }
    }
    words.writer = words::guid(word)?;
    words.names_writer = true;
    Ok(rest)
}

fn read_words(
    name: &str,
    verb: Verb,
    takes: &[Word],
    mut rest: &[&str],
    words: &mut Words,
) -> Result<(), String> {
    let mut seen: Vec<&str> = Vec::new();
    while let Some((word, behind)) = rest.split_first() {
        let word = known_word(name, takes, word)?;
        if seen.contains(&word) {
            return Err(format!("'{word}' appears twice: remove one of them"));
        }
        seen.push(word);
        rest = match word {
            "manual" => {
                words.manual = true;
                behind
            }
            "by-source" => {
                words.by_source = true;
                behind
            }
            _ => read_behind(verb, word, behind, words)?,
        };
    }
    let mut needed = takes.iter().filter_map(|form| form.strip_suffix('!'));
    match needed.find(|word| !seen.contains(word)) {
        Some(word) => Err(format!("{name} needs '{word}' and a value after it")),
        None => Ok(()),
    }
}

fn known_word(name: &str, takes: &[Word], word: &str) -> Result<&'static str, String> {
    let mut forms = takes.iter().map(|form| form.trim_end_matches('!'));
    forms.find(|form| *form == word).ok_or_else(|| {
        let known: Vec<_> = takes.iter().map(|form| form.trim_end_matches('!')).collect();
        let known = if known.is_empty() { "no words".to_owned() } else { known.join(", ") };
        format!("{name} takes {known}, not {}", quoted(word))
    })
}

/// Reads the value of a word; what is left. A date and the hour behind it are one value.
fn read_behind<'a, 'b>(
    verb: Verb,
    word: &str,
    behind: &'a [&'b str],
    words: &mut Words,
) -> Result<&'a [&'b str], String> {
    match behind {
        [] => Err(format!("'{word}' needs a value")),
        [date, hour, rest @ ..]
            if date.len() == 10 && dates::is_date(date) && hour.contains(':') =>
        {
            read_value(verb, word, &format!("{date} {hour}"), words)?;
            Ok(rest)
        }
        [value, rest @ ..] => {
            read_value(verb, word, value, words)?;
            Ok(rest)
        }
    }
}

fn read_value(verb: Verb, word: &str, value: &str, words: &mut Words) -> Result<(), String> {
    match word {
        "from" => {
            words.writer = words::guid(value)?;
            words.names_writer = true;
        }
        "kind" => words.kind = kind(value)?,
        "lease" => words.lease = Some(words::duration(value)?),
        "at" => read_at(verb, value, words)?,
        "stamp" => words.time = Some(words::time(value)?),
        "now" => words.now = Some(words::time(value)?),
        "strength" => words.strength = number(value)?,
        "separation" => words.separation = words::delay(value)?,
        "deadline" => words.deadline = Some(words::delay(value)?),
        "limit" => words.limit = if value == "none" { -1 } else { number(value)? },
        "holder" => words.holder = Some(value.as_bytes().to_vec()),
        "samples" => words.samples = number(value)?,
        "disposed" => words.disposed = words::delay(value)?,
        "no-writers" => words.no_writers = words::delay(value)?,
        "alive" => words.alive = number(value)?,
        "not-alive" => words.not_alive = number(value)?,
        _ => return Err(format!("{} takes no value", quoted(word))),
    }
    Ok(())
}

/// `at` is a clock of the liveliness or a time, by the call.
fn read_at(verb: Verb, value: &str, words: &mut Words) -> Result<(), String> {
    match verb {
        Verb::Match | Verb::Assert | Verb::Expire => words.clock = words::duration(value)?,
        Verb::Lapse => {
            words.clock = words::duration(value)?;
            // The moment from which instances are without writers, unless `stamp` says another.
            if words.time.is_none() {
                words.time = Some(words::time(value)?);
            }
        }
        _ => words.time = Some(words::time(value)?),
    }
    Ok(())
}

fn kind(value: &str) -> Result<LivelinessKind, String> {
    match value {
        "automatic" => Ok(LivelinessKind::Automatic),
        "by-participant" => Ok(LivelinessKind::ManualByParticipant),
        "by-topic" => Ok(LivelinessKind::ManualByTopic),
        _ => Err(format!(
            "{} is not a kind: write automatic, by-participant or by-topic",
            quoted(value)
        )),
    }
}

fn number<T: std::str::FromStr>(value: &str) -> Result<T, String> {
    value.parse().map_err(|_| format!("{} is not a whole number in range", quoted(value)))
}

/// The calls of a text, or all its faults.
#[cfg(test)]
pub fn read(file: &[u8], names: &mut Names) -> Result<Vec<Call>, Vec<Fault>> {
    let mut calls = Vec::new();
    let mut faults = Vec::new();
    let mut source = file;
    let read = each_line(&mut source, |line, bytes| match read_line(line, bytes, names) {
        Ok(Some(Line::Call(call))) => calls.push(*call),
        Ok(_) => {}
        Err(what) => faults.push(Fault { line, what }),
    });
    assert!(read.is_ok());
    if faults.is_empty() {
        Ok(calls)
    } else {
        Err(faults)
    }
}

#[cfg(test)]
mod tests {
    use super::*;

    fn fault(line: &str) -> String {
        let faults = read(line.as_bytes(), &mut Names::default()).expect_err("a bad line");
        assert_eq!(faults.len(), 1);
        faults[0].what.clone()
    }

    #[test]
    fn a_line_in_full() {
        let day = b"\n  # a comment\nmatch  press-1/w1 kind automatic lease 2s at 1s # behind\n";
        let calls = read(day, &mut Names::default()).expect("a good file");
        assert_eq!(calls.len(), 1);
        assert_eq!(calls[0].line, 3);
        assert_eq!(calls[0].text, "match press-1/w1 kind automatic lease 2s at 1s");
        assert_eq!(calls[0].words.lease, Some(Duration::from_secs(2)));
        assert_eq!(calls[0].words.clock, Duration::from_secs(1));
    }

    #[test]
    fn as_people_have_it() {
        let file = b"\xef\xbb\xbfexpire at 2026-11-15 08:15\r\n\r\nadmit pen-serial-000000000001 from a/b at 2026-11-15T08:15:01Z strength 1\r\n";
        let calls = read(file, &mut Names::new(64)).expect("a good file");
        assert_eq!(calls[0].words.clock, Duration::from_secs(1_794_730_500));
        assert_eq!(calls[1].line, 3);
        assert_eq!(calls[1].words.time, Some(Time { sec: 1_794_730_501, nanosec: 0 }));
        assert_eq!(calls[1].words.strength, 1);
    }

    #[test]
    fn what_is_wrong_is_said() {
        assert!(fault("mtach a/b")
            .starts_with("'mtach' is not a call (did you mean 'match'?); the calls are match, "));
        assert_eq!(fault("match"), "match needs a writer after it");
        assert_eq!(fault("match a/b kind automatic"), "match needs 'at' and a value after it");
        assert_eq!(fault("match a/b at 1s"), "match needs 'kind' and a value after it");
        assert_eq!(fault("part a/b at"), "'at' needs a value");
        assert_eq!(fault("part a/b at 1s at 2s"), "'at' appears twice: remove one of them");
        assert_eq!(fault("part a/b on 1s"), "part takes at, not 'on'");
        assert_eq!(fault("unmatch a/b at 1s"), "unmatch takes no words, not 'at'");
        assert!(fault("part ab").starts_with("'ab' is not a writer"));
        assert!(fault("admit pen-01 from a/b at noon").starts_with("'noon' is not a time"));
        assert!(fault("match a/b kind manual at 1s").starts_with("'manual' is not a kind"));
        assert_eq!(fault("note_taken pen-01 samples -1"), "'-1' is not a whole number in range");
        assert!(fault("expire at -1s").contains("negative"));
        assert!(fault("key largest 64").contains("did you mean 'keys'?"));
        for line in ["keys", "keys 64", "keys largest", "keys largest 64 at 1s"] {
            assert_eq!(
                fault(line),
                "keys takes 'largest' and a size after it, as in keys largest 64"
            );
        }
        assert_eq!(
            fault("keys largest 18446744073709551616"),
            "'18446744073709551616' is not a whole number in range"
        );
    }

    #[test]
    fn a_console_has_32_places_or_128() {
        assert!(fault("place 32").contains("did you mean 'places'?"));
        for figure in ["0", "31", "33", "64", "127", "129", "-32", "all"] {
            assert_eq!(
                fault(&format!("places {figure}")),
                format!("'{figure}' is not a number of places: write 32 or 128")
            );
        }
        for line in ["places", "places 32 128", "places for 32"] {
            assert_eq!(fault(line), "places takes one number after it, as in places 32");
        }
    }

    #[test]
    fn every_fault_has_its_line() {
        let file = b"expire at 1s\nbad\nexpire at x\n\xff\xfe\n";
        let faults = read(file, &mut Names::default()).expect_err("bad lines");
        assert_eq!(faults.iter().map(|f| f.line).collect::<Vec<_>>(), [2, 3, 4]);
        assert_eq!(faults[2].what, "not UTF-8 text: save the file as UTF-8");
    }

    const PARTS: &[&str] = &[
        "match",
        "admit",
        "part",
        "autopurge",
        "at",
        "from",
        "kind",
        "lease",
        "a/b",
        "a/*",
        "pen",
        "0x",
        "-",
        "1s",
        "99999999999999999999h",
        "never",
        "limit",
        "holder",
        "#",
        "\n",
        "\u{fe0f}",
        "2026-11-15",
        "08:15",
        "2026-11-15T",
        "2026-99-99T99:99",
        ":",
        "::",
        "-1:0",
        "1e9s",
        "strength",
        "-2147483648",
        "keys",
        "largest",
        "4096",
        "places",
        "32",
    ];

    #[test]
    fn any_bytes_are_read_or_faulted() {
        let mut seed = 1_u64;
        let mut next = move || {
            seed = seed
                .wrapping_mul(6_364_136_223_846_793_005)
                .wrapping_add(1_442_695_040_888_963_407);
            (seed >> 33) as usize
        };
        for _ in 0..20_000 {
            let line: Vec<_> = (0..next() % 9).map(|_| PARTS[next() % PARTS.len()]).collect();
            let _ = read(line.join(" ").as_bytes(), &mut Names::default());
            let bytes: Vec<u8> = (0..next() % 30).map(|_| next() as u8).collect();
            let _ = read(&bytes, &mut Names::default());
        }
    }
}
