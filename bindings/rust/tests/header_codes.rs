//! What include/dcps.h says at each code, tried on the recorded lists: the sheet's fields that a call does not use do not
//! matter, and answers have no other field and no other refusal than the header names.

use dcps::{Answer, Refusal, Sample, Sheet, State, Time};
use std::collections::{BTreeMap, BTreeSet};
use std::ops::Range;

const HEADER: &str = include_str!("../../../include/dcps.h");
const SAMPLE: &[u8] = include_bytes!("../../../oracle/lists/sample.bin");

/// What the header says of one code.
struct Said {
    uses: String,
    answers: String,
    lists: bool,
    refused: BTreeSet<u8>,
}

/// The part of a comment behind one of its words, up to the next of them.
fn part<'a>(comment: &'a str, word: &str) -> &'a str {
    let behind = comment.split_once(word).map_or("", |(_, behind)| behind);
    let ends = ["Uses:", "Answers:", "Answers,", "Out:", "Refused:"];
    let end = ends.iter().filter_map(|end| behind.find(end)).min();
    &behind[..end.unwrap_or(behind.len())]
}

/// The codes with what their comments say.
fn said() -> BTreeMap<u8, Said> {
    let (_, codes) = HEADER.split_once("enum dcps_code {").expect("the codes");
    let (codes, _) = codes.split_once("};").expect("their end");
    let entries = codes.split("/*").skip(1).map(|entry| {
        let (comment, name) = entry.split_once("*/").expect("a code behind its comment");
        let (_, number) = name.split_once(" = ").expect("its number");
        let number = number.trim().trim_end_matches(',').parse().expect("a number");
        let words = comment.split_whitespace().filter(|word| *word != "*");
        let comment = words.collect::<Vec<_>>().join(" ");
        let numbers = part(&comment, "Refused:").split([' ', ',', '.', ':']);
        let answers = [part(&comment, "Answers:"), part(&comment, "Answers,")].concat();
        let said = Said {
            uses: part(&comment, "Uses:").to_owned(),
            answers: answers
                .replace("handle is known", "")
                .replace("publication handle", "publication"),
            lists: comment.contains("Out:"),
            refused: numbers.filter_map(|number| number.parse().ok()).collect(),
        };
        (number, said)
    });
    entries.collect()
}

/// Whether a text has the words, as whole words.
fn has(text: &str, words: &str) -> bool {
    let border = |c: Option<char>| !c.is_some_and(|c| c.is_alphanumeric() || c == '_');
    text.match_indices(words).any(|(at, _)| {
        border(text[..at].chars().next_back()) && border(text[at + words.len()..].chars().next())
    })
}

/// The fields of the sheet, and the presence bit where a call names it in brackets.
const FIELDS: [(&str, Range<usize>, u8); 12] = [
    ("key", 0..16, 0),
    ("guid", 16..28, 0),
    ("handle", 32..40, 0),
    ("time 1", 40..48, 0x80),
    ("time 2", 48..56, 0),
    ("A", 56..64, 0),
    ("B", 64..72, 0),
    ("limit", 72..76, 0),
    ("strength", 76..80, 0),
    ("n", 76..80, 0),
    ("holder", 82..228, 0x10),
    ("guid", 28..32, 0),
];

/// The sheet with every bit flipped that its call does not use.
fn spoiled(sheet: &[u8; 256], said: &Said) -> [u8; 256] {
    let mut used = [0u8; 256];
    used[81] = 0xff;
    let bits =
        [("[B: deadline", 0x40), ("[B: lease", 0x20), ("manual", 8), ("by source", 4), ("kind", 3)];
    used[80] = bits.iter().filter(|(word, _)| said.uses.contains(word)).map(|(_, bit)| bit).sum();
    for (word, place, presence) in FIELDS {
        let tail = place.start == 28 && said.uses.contains("first 12");
        if !has(&said.uses, word) || tail {
            continue;
        }
        let presence = match word {
            "B" => used[80] & 0x60,
            _ if said.uses.contains(&format!("[{word}")) => presence,
            _ => 0,
        };
        used[80] |= presence;
        if presence == 0 || sheet[80] & presence != 0 {
            used[place].fill(0xff);
        }
    }
    // Of a holder only as many bytes as its length says, where that is allowed.
    let length = usize::from(u16::from_be_bytes([sheet[82], sheet[83]])).min(144);
    used[84 + length..228].fill(0);
    std::array::from_fn(|at| sheet[at] ^ !used[at])
}

/// The recorded sheets with their numbers and answers.
fn recorded() -> Vec<([u8; 256], [u8; 72])> {
    let (mut calls, mut at) = (Vec::new(), 0);
    while at < SAMPLE.len() {
        let length = u32::from_be_bytes(*SAMPLE[at + 4..].first_chunk().expect("a length"));
        let body = &SAMPLE[at + 8..at + 8 + length as usize];
        // Sheets of another length are left out.
        if SAMPLE[at] == 5 && body[..2] == [1, 0] {
            calls.push((
                *body[184..].first_chunk().expect("a sheet"),
                *body[48..].first_chunk().expect("an answer"),
            ));
        }
        at += 8 + length as usize;
    }
    calls
}

/// A state in which the recorded sheets find instances and writers: keys, GUIDs and handles are theirs.
fn state(sheets: &[([u8; 256], [u8; 72])]) -> State {
    let mut state = State::new();
    let second = |sec| Time { sec, nanosec: 0 };
    for (sheet, _) in sheets.iter().step_by(40) {
        let (key, guid) =
            (*sheet.first_chunk().expect("16"), *sheet[16..].first_chunk().expect("16"));
        let _ =
            state.matched(guid, dcps::LivelinessKind::Automatic, None, std::time::Duration::ZERO);
        let _ = state.admit(&Sample::new(key, guid, second(1)));
        let _ = state.admit(&Sample::new(key, guid, second(2)));
    }
    assert!(state.len() > 20);
    state
}

/// What a call leaves.
fn made(state: &State, sheet: &[u8; 256]) -> (Result<Answer, Refusal>, State, [u8; 4_096]) {
    let mut state = state.clone();
    let answer = state.raw_call(sheet);
    let out = *state.out();
    (answer, state, out)
}

#[test]
fn fields_that_are_not_used() {
    let (said, calls) = (said(), recorded());
    let states = [State::new(), state(&calls)];
    let (mut tried, mut accepted) = (0, BTreeSet::new());
    for (sheet, _) in &calls {
        let Some(said) = said.get(&sheet[81]) else { continue };
        let spoiled = spoiled(sheet, said);
        for state in &states {
            let (left, other) = (made(state, sheet), made(state, &spoiled));
            assert!(
                left.0 == other.0 && left.1 == other.1 && left.2 == other.2,
                "code {}",
                sheet[81]
            );
            tried += 1;
            accepted.extend(left.0.is_ok().then_some(sheet[81]));
        }
    }
    assert!(tried > 5_000 && accepted.len() == said.len(), "{tried} {accepted:?}");
    assert_eq!(Sheet::from(calls[0].0).bytes(), &calls[0].0);
}

/// The fields of an answer.
const ANSWERED: [(&str, Range<usize>); 18] = [
    ("outcome", 1..2),
    ("yes", 2..3),
    ("present", 3..4),
    ("view new", 4..5),
    ("kind", 5..6),
    ("next due present", 6..7),
    ("handle", 8..16),
    ("samples", 16..20),
    ("disposed generations", 20..24),
    ("no-writers generations", 24..28),
    ("count", 28..32),
    ("listed", 32..36),
    ("alive", 36..40),
    ("not alive", 40..44),
    ("alive change", 44..48),
    ("not alive change", 48..52),
    ("next due", 56..64),
    ("last publication", 64..72),
];

#[test]
fn answers_and_refusals() {
    let (said, calls) = (said(), recorded());
    assert!(said.len() >= 34);
    let (mut filled, mut refused) = (BTreeSet::new(), BTreeSet::new());
    for (sheet, answer) in &calls {
        let (code, number) = (sheet[81], answer[0]);
        let Some(said) = said.get(&code) else { continue };
        if number != 0 {
            assert!(
                number <= 3 || said.refused.contains(&number),
                "code {code}, refused as {number}"
            );
            refused.insert((code, number));
        }
        for (word, place) in ANSWERED {
            if answer[place].iter().any(|byte| *byte != 0) {
                assert!(has(&said.answers, word), "code {code} answers {word}: {}", said.answers);
                filled.insert((code, word));
            }
        }
        assert!(answer[32..36] == [0; 4] || said.lists, "code {code} lists");
    }
    // And what the header names is there.
    for (code, said) in &said {
        for number in &said.refused {
            assert!(
                refused.contains(&(*code, *number)),
                "code {code} is never refused as {number}"
            );
        }
        for word in ["yes", "present", "count", "listed", "samples", "next due", "outcome"] {
            let answers = said.answers.replace("a count changed", "").replace("due present", "due");
            let named = has(&answers, word);
            assert!(!named || filled.contains(&(*code, word)), "code {code} never answers {word}");
        }
    }
}
