//! The answer as text.

use super::html::pens;
use super::{answer, Report};
use crate::history::{End, Spell};
use crate::rank::{lasted, Counts, Verdict};
use crate::table::columns;
use crate::tell::{counted, guids};
use crate::words::{moment_of_clock, show_guid, show_moment, spoken};
use crate::writers::Writer;
use dcps::KeyHash;
use std::fmt::Write;

/// Of more, the other forms have the rest.
const INSTANCES_SHOWN: usize = 20;
const SPELLS_SHOWN: usize = 12;
const CAUSES_SHOWN: usize = 10;
const WIDTH: usize = 100;

pub fn write(report: &Report<'_>) -> String {
    let mut text = String::new();
    heads(&mut text, report);
    causes(&mut text, report);
    by_instance(&mut text, report);
    by_cause(&mut text, report);
    by_writer(&mut text, report);
    abandonments(&mut text, report);
    text
}

/// The answer in its first line, and what proves it.
fn heads(text: &mut String, report: &Report<'_>) {
    let _ = writeln!(text, "{} {}", answer::verdict(report), answer::reason(report));
    for sentence in answer::changed(report).into_iter().chain(answer::notes(report)) {
        wrapped(text, "", "", &sentence);
    }
    let _ = writeln!(text, "{}", answer::day(report));
}

/// A line of text in several, with blanks before all but the first.
fn wrapped(text: &mut String, first: &str, rest: &str, words: &str) {
    let mut line = first.to_owned();
    let mut fresh = true;
    for word in words.split(' ') {
        if !fresh && line.chars().count() + 1 + word.chars().count() > WIDTH {
            let _ = writeln!(text, "{line}");
            line = rest.to_owned();
            fresh = true;
        }
        if !fresh {
            line.push(' ');
        }
        line += word;
        fresh = false;
    }
    let _ = writeln!(text, "{line}");
}

fn causes(text: &mut String, report: &Report<'_>) {
    if report.causes.is_empty() {
        return;
    }
    text.push_str("\nReasons, the most orders first\n");
    for (place, (group, told)) in (1..).zip(report.causes.iter().take(CAUSES_SHOWN)) {
        let head = share(report, &group.counts);
        let _ = writeln!(text, "\n  {place}. {head}: {}", told.title);
        wrapped(text, "     ", "     ", &told.what);
        wrapped(text, &format!("     {}: ", told.who()), "     ", &told.advice());
    }
    if report.causes.len() > CAUSES_SHOWN {
        let more = report.causes.len() - CAUSES_SHOWN;
        let _ = writeln!(text, "\n  … and {more} more: --json has them all");
    }
}

/// `10 of 13 orders`, with the abandonments where their number is another.
fn share(report: &Report<'_>, counts: &Counts) -> String {
    let (part, all, what) = report.share(counts);
    let all = counted(all, what);
    let kind = if counts.falsely() == counts.abandoned { ", needless" } else { "" };
    if part == counts.abandoned {
        format!("{part} of {all}{kind}")
    } else {
        format!("{part} of {all}{kind} ({})", counted(counts.abandoned, "abandonment"))
    }
}

const COUNTS: [&str; 8] = [
    "ORDERS",
    "NEEDLESS",
    "ABANDONED",
    "CAME BACK",
    "TURNED AWAY",
    "TAKEN OVER",
    "NOT AGAIN",
    "TIME ABANDONED",
];

fn cells(counts: &Counts) -> [String; 8] {
    let time = if counts.abandoned == 0 { "-".to_owned() } else { spoken(counts.time) };
    [
        counts.order_lines.to_string(),
        counts.false_lines.to_string(),
        counts.abandoned.to_string(),
        counts.came_back.to_string(),
        counts.turned_away.to_string(),
        counts.taken_over.to_string(),
        counts.not_again.to_string(),
        time,
    ]
}

fn table(text: &mut String, title: &str, firsts: &[&str], rows: Vec<(Vec<String>, Counts)>) {
    if rows.is_empty() {
        return;
    }
    let titles: Vec<&str> = firsts.iter().copied().chain(COUNTS).collect();
    let rows = rows.into_iter().map(|(mut firsts, counts)| {
        firsts.extend(cells(&counts));
        firsts
    });
    let _ = write!(text, "\n{title}\n{}", columns(&titles, rows.collect()));
}

fn by_instance(text: &mut String, report: &Report<'_>) {
    let rows = report.in_trouble();
    let rows = rows.into_iter().map(|(key, counts)| (vec![report.names.show(&key)], counts));
    table(text, "By instance (pen), the most needless orders first", &["KEY"], rows.collect());
    let quiet = report.quiet().len();
    if quiet > 0 {
        let _ = writeln!(text, "  Never shown abandoned: {}.", pens(quiet));
    }
}

fn by_cause(text: &mut String, report: &Report<'_>) {
    let rows = report
        .by_cause
        .iter()
        .map(|(cause, counts)| (vec![cause.name().to_owned(), cause.code().to_string()], *counts));
    table(text, "By cause", &["CAUSE", "CODE"], rows.collect());
}

fn by_writer(text: &mut String, report: &Report<'_>) {
    let rows = report.writers().into_iter().flatten().map(|(guid, writer, counts)| {
        let gap = writer.samples.ends.map_or("-".to_owned(), |(_, most)| spoken(most));
        let samples = format!("{}, {} turned away", writer.samples.count, writer.turned_away);
        (vec![show_guid(&guid), lease(writer, "-"), gap, samples], counts)
    });
    let titles = ["WRITER", "LEASE", "LONGEST GAP", "SAMPLES"];
    table(
        text,
        "By writer (carriage); an abandonment counts for each that left",
        &titles,
        rows.collect(),
    );
}

/// The lease of a writer in a cell.
pub fn lease(writer: &Writer, none: &str) -> String {
    match writer.lease {
        Some(lease) => spoken(moment_of_clock(lease)),
        None if writer.matched => "endless".to_owned(),
        None => none.to_owned(),
    }
}

fn abandonments(text: &mut String, report: &Report<'_>) {
    if report.total.abandoned > 0 {
        text.push_str("\nEach abandonment\n");
    }
    let abandoned: Vec<_> =
        report.in_trouble().into_iter().filter(|(_, c)| c.abandoned > 0).collect();
    for (key, _) in abandoned.iter().take(INSTANCES_SHOWN) {
        if let Some(instance) = report.history.instances.get(key) {
            self::abandoned(text, report, key, &instance.spells);
        }
    }
    if abandoned.len() > INSTANCES_SHOWN {
        let more = (abandoned.len() - INSTANCES_SHOWN) as u64;
        let _ = writeln!(text, "  … and of {more} more instances (pens): --csv has them all");
    }
}

fn abandoned(text: &mut String, report: &Report<'_>, key: &KeyHash, spells: &[Spell]) {
    let _ = writeln!(text, "  {}", report.names.show(key));
    for spell in spells.iter().take(SPELLS_SHOWN) {
        let lasted = lasted(spell, report.day_ends());
        let until = match &spell.end {
            Some((by, _)) => format!("to {}, {}", show_moment(by.at), spoken(lasted)),
            None => "on".to_owned(),
        };
        let _ = writeln!(text, "    from {} {until}", show_moment(spell.from.at));
        let _ = writeln!(text, "      {}", began(spell));
        let _ = writeln!(text, "      {}", ended(spell));
    }
    if spells.len() > SPELLS_SHOWN {
        let more = spells.len() - SPELLS_SHOWN;
        let _ = writeln!(text, "    … and {more} more: --csv has them all");
    }
}

/// The call, its cause, and the writers.
pub fn began(spell: &Spell) -> String {
    let told = spell.cause.told(&guids(&spell.lost));
    format!("line {} ({}): {told}", spell.from.line, spell.from.text)
}

/// Whether and by whom it was drawn again, and so what it was.
pub fn ended(spell: &Spell) -> String {
    let verdict = Verdict::of(spell);
    let mut parts = vec![match &spell.end {
        Some((by, End::Drawn(Some(writer)))) => {
            format!("drawn again by {}, line {}", show_guid(writer), by.line)
        }
        Some((by, End::Drawn(None))) => format!("alive again, line {} ({})", by.line, by.text),
        Some((by, End::Purged)) => format!("purged, line {}", by.line),
        None => "not drawn again".to_owned(),
    }];
    if verdict == Verdict::TurnedAway {
        let samples = spell.turned.values().map(|t| t.count()).sum();
        let writers = guids(spell.turned.keys());
        parts.push(format!("{} of {writers} turned away", counted(samples, "sample")));
    }
    if verdict.is_false() {
        parts.push("needless".to_owned());
    }
    parts.push(match spell.order_lines {
        0 if spell.written => "no order: it has a writer".to_owned(),
        0 => format!("no order: {} not yet taken", counted(u64::from(spell.samples), "sample")),
        lines => counted(lines, "order"),
    });
    parts.join("; ")
}
