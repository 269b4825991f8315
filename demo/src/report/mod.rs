//! What `why` answers, gathered once for all its forms.

mod answer;
mod chart;
mod csv;
mod html;
mod json;
mod tables;
mod text;

use crate::cause::Cause;
use crate::history::{Guid, History, Instance, Spell};
use crate::names::Names;
use crate::plan::Plan;
use crate::rank::{groups, Counts, Group};
use crate::tell::{tell, Told};
use crate::warnings::Warnings;
use crate::words::Moment;
use crate::writers::Writer;
use dcps::KeyHash;
use std::collections::BTreeMap;

/// The form of an answer.
#[derive(Debug, Clone, Copy, PartialEq, Eq)]
pub enum Form {
    Text,
    Csv,
    Json,
    Html,
}

/// So many actions are tried one by one: each plays the day once more.
const TRIED: usize = 5;

pub struct Report<'a> {
    pub name: &'a str,
    pub history: &'a History,
    pub names: &'a Names,
    pub warnings: &'a Warnings,
    pub total: Counts,
    /// Order lines without an abandonment.
    pub unwritten: u64,
    pub causes: Vec<(Group, Told)>,
    /// The order lines with every action taken, where there is one.
    pub changed: Option<u64>,
    pub by_cause: BTreeMap<Cause, Counts>,
    pub by_writer: BTreeMap<Guid, Counts>,
    pub by_instance: Vec<(KeyHash, Counts)>,
}

impl<'a> Report<'a> {
    pub fn new(
        name: &'a str,
        history: &'a History,
        names: &'a Names,
        warnings: &'a Warnings,
    ) -> Self {
        let causes = groups(history).into_iter().map(|group| {
            let told = tell(&group, history, names);
            (group, told)
        });
        let mut report = Report {
            name,
            history,
            names,
            warnings,
            total: Counts::default(),
            unwritten: history.instances.values().map(|i| i.unwritten).sum(),
            causes: causes.collect(),
            changed: None,
            by_cause: BTreeMap::new(),
            by_writer: BTreeMap::new(),
            by_instance: Vec::new(),
        };
        for (key, instance) in &history.instances {
            let mut counts = Counts::default();
            instance.spells.iter().for_each(|spell| report.count(spell, &mut counts));
            report.by_instance.push((*key, counts));
        }
        report.by_instance.sort_by_key(|(key, _)| names.order(key));
        report
    }

    /// Counts what the first actions save one by one, and all actions together, on the day as it goes with their plans.
    pub fn try_actions<E>(
        &mut self,
        mut replay: impl FnMut(&Plan) -> Result<History, E>,
    ) -> Result<(), E> {
        let (history, all) = (self.history, self.order_lines());
        if all == 0 {
            return Ok(());
        }
        let mut orders = |plan: &Plan| match plan.keeps_the_calls() {
            true => Ok(plan.orders(history)),
            false => replay(plan).map(|history| plan.orders(&history)),
        };
        let (mut every, mut number) = (Plan::default(), 0);
        for (group, told) in &mut self.causes {
            let Some(action) = told.action.as_mut().filter(|a| a.plan != Plan::default()) else {
                continue;
            };
            every.add(&action.plan);
            number += 1;
            if number <= TRIED && group.counts.order_lines > 0 {
                let with = orders(&action.plan)?;
                action.fewer = Some(all.saturating_sub(with));
                self.changed = Some(with);
            }
        }
        if number > 1 {
            self.changed = Some(orders(&every)?);
        }
        Ok(())
    }

    /// The instances that were shown abandoned or ordered, the most needless orders first.
    pub fn in_trouble(&self) -> Vec<(KeyHash, Counts)> {
        let mut rows: Vec<_> = self.with_unwritten().filter(|(_, c)| c.is_trouble()).collect();
        rows.sort_by_key(|(_, c)| std::cmp::Reverse((c.false_lines, c.order_lines, c.abandoned)));
        rows
    }

    /// The other ones, in the order of their keys.
    pub fn quiet(&self) -> Vec<KeyHash> {
        self.with_unwritten().filter(|(_, c)| !c.is_trouble()).map(|(key, _)| key).collect()
    }

    /// The counts of each instance, with its order lines that have no abandonment.
    fn with_unwritten(&self) -> impl Iterator<Item = (KeyHash, Counts)> + '_ {
        self.by_instance.iter().map(|(key, counts)| {
            let unwritten = self.history.instances.get(key).map_or(0, |i| i.unwritten);
            (*key, Counts { order_lines: counts.order_lines + unwritten, ..*counts })
        })
    }

    /// The writers that left an instance or were turned away, the most needless orders first; then the other ones.
    pub fn writers(&self) -> [Vec<(Guid, &Writer, Counts)>; 2] {
        let all = self.history.writers.iter().map(|(guid, writer)| {
            (*guid, writer, self.by_writer.get(guid).copied().unwrap_or_default())
        });
        let (mut trouble, quiet): (Vec<_>, Vec<_>) =
            all.partition(|(_, writer, c)| c.is_trouble() || writer.turned_away > 0);
        trouble.sort_by_key(|(_, writer, c)| {
            std::cmp::Reverse((c.false_lines, c.order_lines, c.abandoned, writer.turned_away))
        });
        [trouble, quiet]
    }

    /// The instances, in the order of their keys.
    pub fn instances(&self) -> impl Iterator<Item = (&KeyHash, &Instance)> {
        self.by_instance.iter().filter_map(|(key, _)| Some((key, self.history.instances.get(key)?)))
    }

    fn count(&mut self, spell: &Spell, instance: &mut Counts) {
        let end = self.day_ends();
        instance.add(spell, end);
        self.total.add(spell, end);
        self.by_cause.entry(spell.cause).or_default().add(spell, end);
        for guid in &spell.lost {
            self.by_writer.entry(*guid).or_default().add(spell, end);
        }
    }

    pub fn day_ends(&self) -> Moment {
        self.history.ends().map_or(0, |(_, last)| last)
    }

    /// The order lines of the day.
    pub fn order_lines(&self) -> u64 {
        self.total.order_lines + self.unwritten
    }

    /// How many of all orders, or of all abandonments where nothing was ordered.
    pub fn share(&self, counts: &Counts) -> (u64, u64, &'static str) {
        match self.order_lines() {
            0 => (counts.abandoned, self.total.abandoned, "abandonment"),
            all => (counts.order_lines, all, "order"),
        }
    }

    pub fn write(&self, form: Form) -> String {
        match form {
            Form::Text => text::write(self),
            Form::Csv => csv::write(self),
            Form::Json => json::write(self),
            Form::Html => html::write(self),
        }
    }
}

#[cfg(test)]
mod tests {
    use super::*;
    use crate::names::{FITTING, LARGEST};
    use crate::play::{play_text, play_text_changed, Step, Watch};
    use crate::random::Days;
    use crate::table::{Log, Tables};
    use dcps::InstanceStateKind::Alive;
    use dcps::{Instance, InstanceStateKind};
    use std::collections::BTreeSet;

    /// Counts abandonments and order lines from whole states, without the mirror.
    #[derive(Default)]
    struct Counter {
        before: BTreeMap<KeyHash, InstanceStateKind>,
        due: BTreeSet<KeyHash>,
        abandoned: u64,
        order_lines: u64,
    }

    impl Watch for Counter {
        fn see(&mut self, step: &Step<'_>) {
            let left =
                |i: &Instance<'_>| i.kind != Alive && self.before.get(&i.keyhash) == Some(&Alive);
            self.abandoned += step.state.instances().filter(left).count() as u64;
            let due = step.state.instances().filter(|i| i.writers.is_empty());
            let due: BTreeSet<_> =
                due.filter(|i| i.samples_in_cache == 0).map(|i| i.keyhash).collect();
            self.order_lines += due.difference(&self.due).count() as u64;
            self.due = due;
            self.before = step.state.instances().map(|i| (i.keyhash, i.kind)).collect();
        }
    }

    /// Whatever the day, the counts are those of the states, and all their sums agree.
    #[test]
    fn any_day_is_counted() {
        let mut days = Days::new(5);
        let mut lines = 0;
        for _ in 0..120 {
            let (mut history, mut warnings) = (History::default(), Warnings::default());
            let (mut counter, mut names) = (Counter::default(), Names::default());
            let day = days.next_day(100);
            play_text(&day, &mut names, &mut [&mut history, &mut warnings, &mut counter]);
            let report = Report::new("day", &history, &names, &warnings);
            assert_eq!(report.total.abandoned, counter.abandoned, "{day}");
            assert_eq!(report.order_lines(), counter.order_lines, "{day}");
            let sums = [
                report.by_cause.values().map(|c| (c.abandoned, c.order_lines)).collect::<Vec<_>>(),
                report.by_instance.iter().map(|(_, c)| (c.abandoned, c.order_lines)).collect(),
                report
                    .causes
                    .iter()
                    .map(|(g, _)| (g.counts.abandoned, g.counts.order_lines))
                    .collect(),
            ];
            for sum in sums {
                let sum = sum.iter().fold((0, 0), |a, b| (a.0 + b.0, a.1 + b.1));
                assert_eq!(sum, (report.total.abandoned, report.total.order_lines));
            }
            lines += report.order_lines();
            for form in [Form::Text, Form::Csv, Form::Json, Form::Html] {
                assert!(!report.write(form).is_empty());
            }
        }
        assert!(lines > 200, "{lines}");
    }

    /// Whatever the day, a plan without changes counts what was counted, and only plans that change a call are played.
    #[test]
    fn any_day_is_tried() {
        let mut days = Days::new(17);
        let (mut tried, mut saved) = (0, 0);
        for _ in 0..120 {
            let (day, warnings) = (days.next_day(100), Warnings::default());
            let (mut names, mut plans) = (Names::default(), Vec::new());
            let mut play = |plan: &Plan| {
                let mut history = History::default();
                play_text_changed(&day, &mut names, plan, &mut [&mut history]);
                plans.push(plan.clone());
                Ok::<_, ()>(history)
            };
            let history = play(&Plan::default()).expect("a day");
            let shown = Names::default();
            let mut report = Report::new("day", &history, &shown, &warnings);
            assert_eq!(Plan::default().orders(&history), report.order_lines());
            report.try_actions(&mut play).expect("a day");
            let fewer = report.causes.iter().filter_map(|(_, told)| told.action.as_ref()?.fewer);
            saved += fewer.sum::<u64>();
            tried += plans.len() - 1;
            assert!(plans[1..].iter().all(|plan| !plan.keeps_the_calls()));
            assert!(plans.len() <= TRIED + 2, "{day}");
        }
        assert!(tried > 40 && saved > 40, "{tried} {saved}");
    }

    /// All that a day shows, but explanations.
    fn all_shown(day: &str, largest: u64) -> Vec<String> {
        let (mut history, mut warnings) = (History::default(), Warnings::default());
        let (mut tables, mut log) = (Tables::default(), Log::default());
        let mut names = Names::new(largest);
        let state =
            play_text(day, &mut names, &mut [&mut history, &mut warnings, &mut tables, &mut log]);
        let report = Report::new("day", &history, &names, &warnings);
        let forms = [Form::Text, Form::Csv, Form::Json, Form::Html];
        let mut shown: Vec<_> = forms.into_iter().map(|form| report.write(form)).collect();
        shown.push(tables.text("day", &state, &names).expect("a status"));
        shown.extend([log.text(), warnings.text("day")]);
        shown
    }

    /// As long as the places suffice, their number is told beside the count of instances alone.
    #[test]
    fn a_smaller_console_shows_the_same() {
        let mut days = Days::new(13);
        for _ in 0..60 {
            let day = days.next_day(100);
            let of = |places: u16| all_shown(&format!("places {places}\n{day}"), FITTING);
            let mut small = of(32);
            small.iter_mut().for_each(|text| *text = text.replace(" of 32 places\n", "\n"));
            assert_eq!(small, of(128), "{day}");
        }
    }

    /// What is shown goes by the names: that they are hashed changes nothing.
    #[test]
    fn hashed_keys_are_shown_alike() {
        let mut days = Days::new(11);
        for _ in 0..60 {
            let day = days.next_day(100);
            assert_eq!(all_shown(&day, FITTING), all_shown(&day, LARGEST), "{day}");
        }
    }
}
