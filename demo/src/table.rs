//! The tables of instances and writers after a day.

use crate::history::Guid;
use crate::make::Said;
use crate::names::Names;
use crate::play::{Step, Watch};
use crate::said::{in_words, status};
use crate::words::{show_clock, show_delay, show_guid, show_time};
use dcps::{
    Instance, InstanceState, InstanceStateKind, LivelinessKind, Places, Refusal, State,
    WriterLiveliness, WriterState,
};
use std::fmt::Write;

const NOTHING: &str = "-";

/// What a console shows for where an instance stands.
pub fn shown(kind: InstanceStateKind) -> &'static str {
    match kind {
        InstanceStateKind::Alive => "alive",
        InstanceStateKind::NotAliveDisposed => "abandoned (disposed)",
        InstanceStateKind::NotAliveNoWriters => "abandoned (no writers)",
    }
}

/// What a day's tables need of its calls.
#[derive(Default)]
pub struct Tables {
    calls: usize,
    refused: usize,
    turned_away: usize,
    abandoned: usize,
    /// Calls that were refused or turned away, in words.
    notable: Vec<String>,
    purged: Vec<String>,
}

/// So many lines are printed of what can be without end.
const LINES_KEPT: usize = 40;

impl Watch for Tables {
    fn see(&mut self, step: &Step<'_>) {
        self.calls += 1;
        match step.said {
            Err(refusal) => {
                self.refused += 1;
                self.note(step, || refusal.to_string());
            }
            Ok(said @ Said::Admission(admission)) if !admission.is_admitted() => {
                self.turned_away += 1;
                self.note(step, || in_words(said, step.state, step.names));
            }
            Ok(_) => {}
        }
        let mut changed: Vec<_> = step.changes.instances.iter().collect();
        changed.sort_by_key(|(key, _)| step.names.order(key));
        for (key, before) in changed {
            self.abandoned += usize::from(is_abandoned(before.as_ref(), step.mirror.instance(key)));
            if let (Some(before), None) = (before, step.mirror.instance(key)) {
                let (key, line) = (step.names.show(key), step.call.line);
                self.purged.push(format!(
                    "{key} was {} and is purged, in line {line}",
                    shown(before.kind)
                ));
            }
        }
    }
}

/// Whether an instance was alive and is no more.
pub fn is_abandoned(before: Option<&InstanceState>, after: Option<&InstanceState>) -> bool {
    let alive = |i: &InstanceState| i.kind == InstanceStateKind::Alive;
    before.is_some_and(alive) && after.is_some_and(|i| !alive(i))
}

impl Tables {
    fn note(&mut self, step: &Step<'_>, said: impl FnOnce() -> String) {
        if self.notable.len() < LINES_KEPT {
            self.notable.push(format!("line {}: {}: {}", step.call.line, step.call.text, said()));
        }
    }

    /// The whole of a day: what was refused, instances, what was purged, writers.
    pub fn text(&self, name: &str, state: &State, names: &Names) -> Result<String, Refusal> {
        let mut text = format!(
            "{name}: {} calls, {} refused, {} samples turned away, {} abandonments\n",
            self.calls, self.refused, self.turned_away, self.abandoned
        );
        lines(&mut text, &self.notable, self.refused + self.turned_away);
        let _ = writeln!(text, "\nInstances: {}{}", state.len(), of_places(state.places()));
        text += &instances(state, names);
        lines(&mut text, &self.purged, self.purged.len());
        let _ = writeln!(text, "\nWriters: {}", state.writers().count());
        text += &writers(state, names);
        let _ = writeln!(text, "\nLiveliness: {}", status(&state.status()?));
        Ok(text)
    }
}

/// The room that a console has, where it is not the usual.
fn of_places(places: Places) -> String {
    if places == Places::default() {
        String::new()
    } else {
        format!(" of {} places", places.count())
    }
}

fn lines(text: &mut String, lines: &[String], all: usize) {
    let kept = lines.len().min(LINES_KEPT);
    for line in &lines[..kept] {
        let _ = writeln!(text, "  {line}");
    }
    if all > kept {
        let _ = writeln!(text, "  … and {} more", all - kept);
    }
}

/// Every call with its answer.
#[derive(Default)]
pub struct Log {
    rows: Vec<Vec<String>>,
}

impl Watch for Log {
    fn see(&mut self, step: &Step<'_>) {
        let answer = match step.said {
            Ok(said) => in_words(said, step.state, step.names),
            Err(refusal) => refusal.to_string(),
        };
        self.rows.push(vec![step.call.line.to_string(), step.call.text.clone(), answer]);
    }
}

impl Log {
    pub fn text(self) -> String {
        columns(&["LINE", "CALL", "ANSWER"], self.rows)
    }
}

fn instances(state: &State, names: &Names) -> String {
    let mut all: Vec<Instance<'_>> = state.instances().collect();
    all.sort_by_key(|i| names.order(&i.keyhash));
    let rows = all.iter().map(|i| {
        vec![
            names.show(&i.keyhash),
            i.handle.as_raw().to_string(),
            shown(i.kind).to_owned(),
            since(i),
            or_nothing(i.writers.iter().map(show_guid).collect()),
            i.current_owner.map_or_else(
                || NOTHING.to_owned(),
                |(guid, strength)| format!("{} ({strength})", show_guid(&guid)),
            ),
            i.samples_in_cache.to_string(),
            if i.reader_view_new { "new" } else { "seen" }.to_owned(),
            i.last_sample_timestamp.map_or_else(|| NOTHING.to_owned(), show_time),
        ]
    });
    let titles = [
        "KEY",
        "HANDLE",
        "SHOWN",
        "SINCE",
        "WRITERS",
        "OWNER",
        "SAMPLES",
        "VIEW",
        "LAST SAMPLE OR MARKER",
    ];
    columns(&titles, rows.collect())
}

/// From when on an instance is abandoned, where a time was given.
fn since(i: &Instance<'_>) -> String {
    let at = match i.kind {
        InstanceStateKind::Alive => None,
        InstanceStateKind::NotAliveDisposed => i.disposed_at,
        InstanceStateKind::NotAliveNoWriters => i.no_writers_at,
    };
    at.map_or_else(|| NOTHING.to_owned(), show_time)
}

/// The instances with a writer among their writers, in key order.
pub fn written_by<'a>(state: &'a State, writer: &'a Guid) -> impl Iterator<Item = Instance<'a>> {
    state.instances().filter(move |i| i.writers.contains(writer))
}

fn writers(state: &State, names: &Names) -> String {
    let rows = state.writers().map(|w| {
        let writes: Vec<_> = written_by(state, &w.guid).map(|i| i.keyhash).collect();
        let writes = or_nothing(names.list(&writes));
        let [kind, lease, asserted] = offered(&w);
        vec![show_guid(&w.guid), liveliness(w.state).to_owned(), kind, lease, asserted, writes]
    });
    columns(&["WRITER", "STATE", "KIND", "LEASE", "ASSERTED", "WRITES"], rows.collect())
}

/// Kind, lease and last assertion; a departed writer has none of them.
fn offered(w: &WriterState) -> [String; 3] {
    if w.state == WriterLiveliness::Departed {
        return [(); 3].map(|()| NOTHING.to_owned());
    }
    let kind = match w.kind {
        LivelinessKind::Automatic => "automatic",
        LivelinessKind::ManualByParticipant => "by participant",
        LivelinessKind::ManualByTopic => "by topic",
    };
    let asserted = match w.state {
        WriterLiveliness::Unasserted => "not yet".to_owned(),
        _ => show_clock(w.last_assert),
    };
    [kind.to_owned(), w.lease.map_or_else(|| "endless".to_owned(), show_delay), asserted]
}

fn liveliness(state: WriterLiveliness) -> &'static str {
    match state {
        WriterLiveliness::Unasserted => "matched",
        WriterLiveliness::Alive => "alive",
        WriterLiveliness::NotAlive => "not alive",
        WriterLiveliness::Departed => "departed",
    }
}

fn or_nothing(words: Vec<String>) -> String {
    if words.is_empty() {
        NOTHING.to_owned()
    } else {
        words.join(" ")
    }
}

/// A wider cell makes its own row longer, and not all the others.
const WIDEST: usize = 100;

/// Rows in columns as wide as they need; nothing where there are no rows.
pub fn columns(titles: &[&str], rows: Vec<Vec<String>>) -> String {
    if rows.is_empty() {
        return String::new();
    }
    let head = titles.iter().map(|title| (*title).to_owned()).collect();
    let all: Vec<Vec<String>> = std::iter::once(head).chain(rows).collect();
    let width = |place: usize| {
        let cells = all.iter().filter_map(|row| row.get(place)).map(|cell| cell.chars().count());
        cells.filter(|width| *width <= WIDEST).max()
    };
    let widths: Vec<usize> = (0..titles.len()).map(|place| width(place).unwrap_or(0)).collect();
    let mut text = String::new();
    for row in &all {
        let cells = row.iter().zip(&widths).map(|(cell, width)| format!("{cell:width$}"));
        let line = cells.collect::<Vec<_>>().join("  ");
        let _ = writeln!(text, "  {}", line.trim_end());
    }
    text
}
