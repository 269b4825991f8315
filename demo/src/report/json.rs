//! The answer as JSON (RFC 8259), two blanks to a level.

use super::{answer, Report};
use crate::history::{End, Instance, Spell};
use crate::rank::{lasted, Counts, Group, Verdict};
use crate::tell::Told;
use crate::words::{moment_of_clock, show_guid, show_moment, Moment};
use crate::writers::Writer;
use std::fmt::Write;

enum Json {
    Null,
    Bool(bool),
    Number(i64),
    /// A span in seconds.
    Seconds(Moment),
    Text(String),
    List(Vec<Json>),
    Object(Vec<(&'static str, Json)>),
}

pub fn write(report: &Report<'_>) -> String {
    let mut text = String::new();
    put(&whole(report), 0, &mut text);
    text.push('\n');
    text
}

fn put(json: &Json, level: usize, text: &mut String) {
    match json {
        Json::Null => text.push_str("null"),
        Json::Bool(yes) => text.push_str(if *yes { "true" } else { "false" }),
        Json::Number(number) => {
            let _ = write!(text, "{number}");
        }
        Json::Seconds(span) => {
            let _ =
                write!(text, "{}.{:03}", span / 1_000_000_000, span % 1_000_000_000 / 1_000_000);
        }
        Json::Text(string) => put_text(string, text),
        Json::List(items) => {
            let items = items.iter().map(|item| (None, item)).collect();
            put_items(['[', ']'], items, level, text);
        }
        Json::Object(fields) => {
            let items = fields.iter().map(|(name, value)| (Some(*name), value)).collect();
            put_items(['{', '}'], items, level, text);
        }
    }
}

fn put_items(
    [open, close]: [char; 2],
    items: Vec<(Option<&str>, &Json)>,
    level: usize,
    text: &mut String,
) {
    text.push(open);
    let last = items.len();
    for (place, (name, value)) in (1..).zip(&items) {
        let _ = write!(text, "\n{:1$}", "", 2 * (level + 1));
        if let Some(name) = name {
            let _ = write!(text, "\"{name}\": ");
        }
        put(value, level + 1, text);
        text.push_str(if place < last { "," } else { "" });
    }
    if last > 0 {
        let _ = write!(text, "\n{:1$}", "", 2 * level);
    }
    text.push(close);
}

fn put_text(string: &str, text: &mut String) {
    text.push('"');
    for c in string.chars() {
        match c {
            '"' | '\\' => text.extend(['\\', c]),
            c if c < ' ' => {
                let _ = write!(text, "\\u{:04x}", u32::from(c));
            }
            c => text.push(c),
        }
    }
    text.push('"');
}

fn number(n: impl TryInto<i64>) -> Json {
    Json::Number(n.try_into().unwrap_or(i64::MAX))
}

fn text(string: impl Into<String>) -> Json {
    Json::Text(string.into())
}

fn guids<'a>(guids: impl IntoIterator<Item = &'a [u8; 16]>) -> Json {
    Json::List(guids.into_iter().map(|guid| text(show_guid(guid))).collect())
}

fn whole(report: &Report<'_>) -> Json {
    let h = report.history;
    let moment = |at: Option<Moment>| at.map_or(Json::Null, |at| text(show_moment(at)));
    let causes = report.causes.iter().map(|(group, told)| cause(report, group, told));
    let by_cause = report.by_cause.iter().map(|(cause, total)| {
        let mut fields = vec![("cause", text(cause.name())), ("code", number(cause.code()))];
        fields.extend(counts(total));
        Json::Object(fields)
    });
    let warnings = report.warnings.first.iter().map(|(line, what)| {
        Json::Object(vec![("line", number(*line)), ("warning", text(what.as_str()))])
    });
    let said = format!("{} {}", answer::verdict(report), answer::reason(report));
    let mut fields = vec![
        ("answer", text(said)),
        ("order_lines_with_every_action", report.changed.map_or(Json::Null, number)),
        ("day", text(report.name)),
        ("from", moment(h.ends().map(|(first, _)| first))),
        ("to", moment(h.ends().map(|(_, last)| last))),
        ("calls", number(h.calls)),
        ("refused", number(h.refused)),
        ("samples_turned_away", number(h.turned_away)),
        ("order_lines_unwritten", number(report.unwritten)),
    ];
    fields.extend(counts(&report.total));
    fields.push(("causes", Json::List(causes.collect())));
    fields.push(("by_cause", Json::List(by_cause.collect())));
    fields.push(("instances", Json::List(instances(report))));
    fields.push(("writers", Json::List(writers(report))));
    fields.push(("warnings", Json::List(warnings.collect())));
    fields.push(("warnings_in_all", number(report.warnings.all as u64)));
    Json::Object(fields)
}

fn counts(counts: &Counts) -> Vec<(&'static str, Json)> {
    vec![
        ("abandoned", number(counts.abandoned)),
        ("came_back", number(counts.came_back)),
        ("turned_away", number(counts.turned_away)),
        ("taken_over", number(counts.taken_over)),
        ("not_again", number(counts.not_again)),
        ("order_lines", number(counts.order_lines)),
        ("false_order_lines", number(counts.false_lines)),
        ("seconds_abandoned", Json::Seconds(counts.time)),
    ]
}

fn cause(report: &Report<'_>, group: &Group, told: &Told) -> Json {
    let instances = report.names.list(&group.keys);
    let fewer = told.action.as_ref().and_then(|action| action.fewer);
    let mut fields = vec![
        ("title", text(told.title)),
        ("what", text(told.what.as_str())),
        ("who", told.action.as_ref().map_or(Json::Null, |action| text(action.who.name()))),
        ("action", text(told.advice())),
        ("order_lines_fewer", fewer.map_or(Json::Null, number)),
        ("cause", text(group.cause.name())),
        ("code", number(group.cause.code())),
        ("verdict", text(group.verdict.name())),
        ("false", Json::Bool(group.verdict.is_false())),
        ("writers", guids(&group.lost)),
        ("turned_away_writers", guids(&group.turned)),
        ("instances", Json::List(instances.into_iter().map(text).collect())),
    ];
    fields.extend(counts(&group.counts));
    Json::Object(fields)
}

fn instances(report: &Report<'_>) -> Vec<Json> {
    let rows = report.by_instance.iter().map(|(key, total)| {
        let mut fields = vec![("instance", text(report.names.show(key)))];
        fields.extend(counts(total));
        if let Some(instance) = report.history.instances.get(key) {
            fields.push(("order_lines_unwritten", number(instance.unwritten)));
            fields.push(("abandonments", abandonments(report, instance)));
        }
        Json::Object(fields)
    });
    rows.collect()
}

fn abandonments(report: &Report<'_>, instance: &Instance) -> Json {
    Json::List(instance.spells.iter().map(|spell| abandonment(report, spell)).collect())
}

fn abandonment(report: &Report<'_>, spell: &Spell) -> Json {
    let verdict = Verdict::of(spell);
    let (until, drawn) = match &spell.end {
        Some((by, End::Drawn(writer))) => (Some(by), writer.as_ref()),
        Some((by, End::Purged)) => (Some(by), None),
        None => (None, None),
    };
    let turned = spell.turned.iter().map(|(guid, turned)| {
        Json::Object(vec![
            ("writer", text(show_guid(guid))),
            ("order", number(turned.order)),
            ("filter", number(turned.filter)),
            ("ownership", number(turned.ownership)),
            ("last", text(show_moment(turned.last))),
        ])
    });
    Json::Object(vec![
        ("from", text(show_moment(spell.from.at))),
        ("until", until.map_or(Json::Null, |by| text(show_moment(by.at)))),
        ("seconds", Json::Seconds(lasted(spell, report.day_ends()))),
        ("cause", text(spell.cause.name())),
        ("code", number(spell.cause.code())),
        ("line", number(spell.from.line as u64)),
        ("call", text(&*spell.from.text)),
        ("writers", guids(&spell.lost)),
        ("verdict", text(verdict.name())),
        ("false", Json::Bool(verdict.is_false())),
        ("drawn_again_by", drawn.map_or(Json::Null, |guid| text(show_guid(guid)))),
        ("ended_by_line", until.map_or(Json::Null, |by| number(by.line as u64))),
        ("turned_away", Json::List(turned.collect())),
        ("order_lines", number(spell.order_lines)),
    ])
}

fn writers(report: &Report<'_>) -> Vec<Json> {
    let seconds = |span: Option<Moment>| span.map_or(Json::Null, Json::Seconds);
    let row = |(guid, writer): (&[u8; 16], &Writer)| {
        let mut fields = vec![
            ("writer", text(show_guid(guid))),
            ("matched", Json::Bool(writer.matched)),
            ("lease_seconds", seconds(writer.lease.map(moment_of_clock))),
            ("samples", number(writer.samples.count)),
            ("samples_turned_away", number(writer.turned_away)),
            ("shortest_gap_seconds", seconds(writer.samples.ends.map(|(least, _)| least))),
            ("longest_gap_seconds", seconds(writer.samples.ends.map(|(_, most)| most))),
            ("leases_run_out", number(writer.expired)),
        ];
        let total = report.by_writer.get(guid).copied().unwrap_or_default();
        fields.extend(counts(&total));
        Json::Object(fields)
    };
    report.history.writers.iter().map(row).collect()
}
