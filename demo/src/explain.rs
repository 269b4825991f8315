//! The history of one instance: each call that changed its record, what changed, and so why it is shown as it
//! is.

use crate::day::Call;
use crate::forms::Verb;
use crate::play::{Step, Watch};
use crate::table::{is_abandoned, shown};
use crate::tell::how_often;
use crate::words::{show_guid, show_time};
use dcps::{InstanceState, InstanceStateKind, KeyHash, Time};
use std::fmt::Write;

/// A call that changed the record.
struct Change {
    call: Call,
    before: Option<InstanceState>,
    after: Option<InstanceState>,
}

impl Change {
    fn line(&self) -> String {
        format!("line {} ({})", self.call.line, self.call.text)
    }

    /// The writers that it took out of the set.
    fn writers_gone(&self) -> Vec<String> {
        match (&self.before, &self.after) {
            (Some(b), Some(a)) => b.writers.difference(&a.writers).map(show_guid).collect(),
            _ => Vec::new(),
        }
    }

    fn moved(&self) -> bool {
        let kind = |i: &Option<InstanceState>| i.as_ref().map(|i| i.kind);
        kind(&self.before) != kind(&self.after)
    }
}

/// The history of one key, written as it goes.
pub struct Explain {
    key: KeyHash,
    changes: usize,
    text: String,
    /// The latest change that moved where the instance stands.
    cause: Option<Change>,
    after: Option<InstanceState>,
    abandoned: u64,
}

impl Watch for Explain {
    fn see(&mut self, step: &Step<'_>) {
        let changed = step.changes.instances.iter().find(|(key, _)| *key == self.key);
        let Some((key, before)) = changed else {
            return;
        };
        let after = step.mirror.instance(key).cloned();
        let change = Change { call: step.call.clone(), before: before.clone(), after };
        self.changes += 1;
        let _ = writeln!(self.text, "\n  line {:<4} {}", change.call.line, change.call.text);
        for what in differences(&change) {
            let _ = writeln!(self.text, "            {what}");
        }
        let left = is_abandoned(change.before.as_ref(), change.after.as_ref());
        self.abandoned += u64::from(left);
        self.after.clone_from(&change.after);
        if change.moved() {
            self.cause = Some(change);
        }
    }
}

impl Explain {
    pub fn new(key: KeyHash) -> Self {
        Self { key, changes: 0, text: String::new(), cause: None, after: None, abandoned: 0 }
    }

    /// The history; none where the day never has the key.
    pub fn text(&self, key: &str) -> Option<String> {
        let cause = self.cause.as_ref()?;
        let changed = calls_that_changed(self.changes);
        let mut verdict = verdict(key, self.after.as_ref(), cause);
        let alive = self.after.as_ref().is_some_and(|i| i.kind == InstanceStateKind::Alive);
        if alive && self.abandoned > 0 {
            verdict += &format!(
                " It was shown abandoned {} before; `why` counts by what.",
                how_often(self.abandoned)
            );
        }
        Some(format!("{key}: {changed}\n{}\n{verdict}\n", self.text))
    }
}

fn calls_that_changed(number: usize) -> String {
    if number == 1 {
        "1 call changed its record".to_owned()
    } else {
        format!("{number} calls changed its record")
    }
}

/// Why it is shown as it is: the call that brought it there, and what that call did.
fn verdict(key: &str, after: Option<&InstanceState>, cause: &Change) -> String {
    let line = cause.line();
    let Some(after) = after else {
        let was = cause.before.as_ref().map_or("", |b| shown(b.kind));
        let since = cause.before.as_ref().and_then(abandoned_at);
        let since = since.map_or(String::new(), |t| format!(" since {}", show_time(t)));
        return format!("{key} is purged: it was {was}{since}, and {line} took it away.");
    };
    let now = shown(after.kind);
    let writers = after.writers.iter().map(show_guid).collect::<Vec<_>>().join(", ");
    let though = if writers.is_empty() {
        String::new()
    } else {
        format!(" That {writers} has written it does not change this.")
    };
    match after.kind {
        InstanceStateKind::Alive if writers.is_empty() => {
            format!("{key} is shown {now}: {line} made it so, and no writer has joined it since.")
        }
        InstanceStateKind::Alive => format!("{key} is shown {now}: written by {writers}."),
        InstanceStateKind::NotAliveDisposed => {
            format!("{key} is shown {now}: {line} disposed it.{though}")
        }
        InstanceStateKind::NotAliveNoWriters => {
            format!("{key} is shown {now}: {line} {}.{though}", how_it_was_left(cause))
        }
    }
}

fn how_it_was_left(cause: &Change) -> String {
    let gone = cause.writers_gone().join(", ");
    if gone.is_empty() {
        return match cause.call.verb {
            Verb::Unregister if cause.call.words.names_writer => {
                "unregistered a writer of it, and no other was left".to_owned()
            }
            _ => "took its last registration".to_owned(),
        };
    }
    match cause.call.verb {
        Verb::Lapse => format!("found the lease of {gone} run out, and no other writer was left"),
        Verb::Depart => format!("lost {gone} with its participant, and no other writer was left"),
        _ => format!("took {gone} out, and no other writer was left"),
    }
}

fn abandoned_at(i: &InstanceState) -> Option<Time> {
    match i.kind {
        InstanceStateKind::Alive => None,
        InstanceStateKind::NotAliveDisposed => i.disposed_at,
        InstanceStateKind::NotAliveNoWriters => i.no_writers_at,
    }
}

/// What a call changed, field by field.
fn differences(change: &Change) -> Vec<String> {
    match (&change.before, &change.after) {
        (None, Some(after)) => {
            let mut all = vec![format!("starts, with handle {}: alive", after.handle.as_raw())];
            all.extend(fields(&fresh(after), after));
            all
        }
        (Some(before), Some(after)) => fields(before, after),
        (_, None) => vec!["purged".to_owned()],
    }
}

/// An instance as it is before its first call acts.
fn fresh(of: &InstanceState) -> InstanceState {
    let mut fresh = of.clone();
    fresh.kind = InstanceStateKind::Alive;
    fresh.disposed_generation_count = 0;
    fresh.no_writers_generation_count = 0;
    fresh.writer_count = 0;
    fresh.last_sample_timestamp = None;
    fresh.last_delivered_ts = None;
    fresh.last_filter_ts = None;
    fresh.disposed_at = None;
    fresh.no_writers_at = None;
    fresh.current_owner = None;
    fresh.owner_at = None;
    fresh.key_holder = None;
    fresh.writers.clear();
    fresh.reader_view_new = true;
    fresh.samples_in_cache = 0;
    fresh
}

fn fields(before: &InstanceState, after: &InstanceState) -> Vec<String> {
    let mut all = Vec::new();
    let mut note = |name: &str, before: String, after: String| {
        if before != after {
            all.push(format!("{name}: {before} → {after}"));
        }
    };
    let owner = |i: &InstanceState| {
        i.current_owner
            .map_or_else(|| "none".to_owned(), |(g, s)| format!("{} ({s})", show_guid(&g)))
    };
    let writers = |i: &InstanceState| match i.writers.iter().map(show_guid).collect::<Vec<_>>() {
        writers if writers.is_empty() => "none".to_owned(),
        writers => writers.join(" "),
    };
    let view = |i: &InstanceState| if i.reader_view_new { "new" } else { "seen" }.to_owned();
    let holder = |i: &InstanceState| match &i.key_holder {
        None => "none".to_owned(),
        Some(bytes) => format!("{} bytes {:?}", bytes.len(), String::from_utf8_lossy(bytes)),
    };
    note("shown", shown(before.kind).to_owned(), shown(after.kind).to_owned());
    note("writers", writers(before), writers(after));
    note("owner", owner(before), owner(after));
    note("samples", before.samples_in_cache.to_string(), after.samples_in_cache.to_string());
    note("registrations", before.writer_count.to_string(), after.writer_count.to_string());
    note("view", view(before), view(after));
    note(
        "came back after a dispose",
        before.disposed_generation_count.to_string(),
        after.disposed_generation_count.to_string(),
    );
    note(
        "came back after having no writers",
        before.no_writers_generation_count.to_string(),
        after.no_writers_generation_count.to_string(),
    );
    note("holder", holder(before), holder(after));
    all.extend(times(before, after));
    all
}

/// The times that changed; those that changed alike stand together.
fn times(before: &InstanceState, after: &InstanceState) -> Vec<String> {
    let of = |i: &InstanceState| {
        [
            ("last sample or marker", i.last_sample_timestamp),
            ("last delivered", i.last_delivered_ts),
            ("last for the filter", i.last_filter_ts),
            ("disposed at", i.disposed_at),
            ("without writers at", i.no_writers_at),
            ("owner's last", i.owner_at),
        ]
    };
    let show = |time: Option<Time>| time.map_or_else(|| "none".to_owned(), show_time);
    let mut groups: Vec<(String, Vec<&str>)> = Vec::new();
    for ((name, was), (_, is)) in of(before).into_iter().zip(of(after)) {
        if was == is {
            continue;
        }
        let shown = format!("{} → {}", show(was), show(is));
        match groups.iter_mut().find(|(group, _)| *group == shown) {
            Some((_, names)) => names.push(name),
            None => groups.push((shown, vec![name])),
        }
    }
    groups.into_iter().map(|(shown, names)| format!("{}: {shown}", names.join(", "))).collect()
}

#[cfg(test)]
mod tests {
    use super::*;
    use crate::names::{Names, FITTING, LARGEST};
    use crate::play::play_text;
    use crate::random::Days;
    use crate::table::{Log, Tables};

    fn last_line(day: &str, key: &[u8; 16]) -> String {
        let (mut explain, mut names) = (Explain::new(*key), Names::default());
        play_text(day, &mut names, &mut [&mut explain]);
        let text = explain.text(&names.show(key)).expect("it stands in the day");
        text.lines().last().unwrap_or_default().to_owned()
    }

    const PEN: &[u8; 16] = b"pen\0\0\0\0\0\0\0\0\0\0\0\0\0";

    #[test]
    fn why_it_is_shown_so() {
        assert_eq!(
            last_line("register pen\nunregister pen\nregister pen", PEN),
            "pen is shown alive: line 3 (register pen) made it so, and no writer has joined it since. \
             It was shown abandoned once before; `why` counts by what."
        );
        assert_eq!(
            last_line("register pen\nnote_writer pen from a/b\nunregister pen", PEN),
            "pen is shown abandoned (no writers): line 3 (unregister pen) took its last registration. \
             That a/b has written it does not change this."
        );
        assert_eq!(
            last_line("register pen\nunregister pen from a/b", PEN),
            "pen is shown abandoned (no writers): line 2 (unregister pen from a/b) unregistered a \
             writer of it, and no other was left."
        );
        assert_eq!(
            last_line("register pen\ndispose pen at 1s\nautopurge at 1s disposed 0s", PEN),
            "pen is purged: it was abandoned (disposed) since 00:00:01, and line 3 (autopurge at 1s \
             disposed 0s) took it away."
        );
        assert!(Explain::new(*PEN).text("pen").is_none());
    }

    /// Any day is played, shown and explained, and the two agree; with names as keys or with hashed ones.
    #[test]
    fn any_day_is_explained() {
        let mut days = Days::new(7);
        for largest in [FITTING, LARGEST].into_iter().cycle().take(60) {
            let (day, mut names) = (days.next_day(40), Names::new(largest));
            let (mut tables, mut log) = (Tables::default(), Log::default());
            let state = play_text(&day, &mut names, &mut [&mut tables, &mut log]);
            assert!(tables.text("day", &state, &names).is_ok());
            assert_eq!(log.text().lines().count(), 41);
            for instance in state.instances() {
                let mut explain = Explain::new(instance.keyhash);
                play_text(&day, &mut Names::new(largest), &mut [&mut explain]);
                let key = names.show(&instance.keyhash);
                let text = explain.text(&key).expect("it is there");
                let shown = format!("{key} is shown {}:", shown(instance.kind));
                assert!(text.lines().last().is_some_and(|l| l.starts_with(&shown)), "{text}");
            }
        }
    }
}
