//! What looks wrong in a day and does not stop it.

use crate::forms::Verb;
use crate::marks::Gaps;
#[cfg(test)]
use crate::names::Names;
use crate::nearest::nearest;
use crate::play::{Step, Watch};
use crate::words::{moment_of_clock, show_guid, show_moment, spoken, Moment};
use dcps::{KeyHash, Refusal, WriterLiveliness};
use std::collections::{BTreeSet, HashMap, HashSet};

const KEPT: usize = 20;

#[derive(Default)]
pub struct Warnings {
    /// The first ones, each with its line.
    pub first: Vec<(usize, String)>,
    pub all: usize,
    /// Of all calls, of those with a time, and of those with a clock.
    moments: Latest,
    times: Latest,
    clocks: Latest,
    /// Whether a time was negative: no clock is, so clocks count from elsewhere.
    apart: bool,
    keys: HashSet<KeyHash>,
    /// Keys that were warned of.
    unknown: HashSet<KeyHash>,
    crowded: bool,
    writers: HashMap<[u8; 16], Signs>,
}

#[derive(Default)]
struct Latest {
    at: Option<Moment>,
    /// Whether the last one was earlier.
    back: bool,
}

impl Latest {
    /// From when to when it goes back, the first time in a row.
    fn add(&mut self, at: Option<Moment>) -> Option<(Moment, Moment)> {
        let at = at?;
        let latest = self.at.map_or(at, |latest| latest.max(at));
        let was_back = std::mem::replace(&mut self.back, at < latest);
        self.at = Some(latest);
        (self.back && !was_back).then_some((latest, at))
    }
}

/// What a writer was heard of, and what was warned of.
#[derive(Default)]
struct Signs {
    /// Its samples and assertions.
    heard: Gaps,
    /// Its assertions, which alone have a clock.
    asserted: Gaps,
    matched: bool,
    warned: bool,
    unasserted: bool,
}

impl Watch for Warnings {
    fn see(&mut self, step: &Step<'_>) {
        self.key(step);
        self.writer(step);
        self.place(step);
        if step.said.is_err() {
            return;
        }
        self.time(step);
        for change in &step.changes.writers {
            let signs = self.writers.entry(change.guid).or_default();
            signs.matched |= change.after.is_some();
            let asserted = change.after.map(|w| w.last_assert);
            if asserted != change.before.map(|w| w.last_assert) {
                if let Some(at) = asserted.filter(|at| !at.is_zero()) {
                    self.sign(step, change.guid, moment_of_clock(at), true);
                }
            }
        }
        if step.call.verb == Verb::Admit {
            self.unasserted(step);
            if let Some(at) = step.call.moment() {
                self.sign(step, step.call.words.writer, at, false);
            }
        }
    }
}

impl Warnings {
    fn warn(&mut self, line: usize, what: impl FnOnce(&Self) -> String) {
        self.all += 1;
        if self.first.len() < KEPT {
            self.first.push((line, what(self)));
        }
    }

    /// A time before that of a call above. Only the first of a row is warned of.
    fn time(&mut self, step: &Step<'_>) {
        let (time, clock) = (step.call.time(), step.call.clock());
        self.apart |= time.is_some_and(|at| at < 0);
        let back = self.moments.add(step.call.moment());
        let backs = [self.times.add(time), self.clocks.add(clock)];
        let backs = if self.apart { backs } else { [back, None] };
        for (from, to) in backs.into_iter().flatten() {
            self.warn(step.call.line, |_| {
                format!(
                    "the time goes back from {} to {}: sort the lines by time, and write dates in all lines or in none",
                    show_moment(from),
                    show_moment(to)
                )
            });
        }
    }

    /// A key that only calls name that start no instance.
    fn key(&mut self, step: &Step<'_>) {
        let words = &step.call.words;
        if !words.names_key || self.keys.contains(&words.key) || self.unknown.contains(&words.key) {
            return;
        }
        let starts = matches!(
            step.call.verb,
            Verb::Admit | Verb::ObserveAdmitted | Verb::EnsureRegisteredLimited
        );
        if step.mirror.instance(&words.key).is_some() {
            self.keys.insert(words.key);
        } else if step.said.is_ok() && !starts {
            if self.unknown.len() < KEPT {
                self.unknown.insert(words.key);
            }
            self.warn(step.call.line, |warnings| {
                let key = step.names.show(&words.key);
                let meant = meant(&key, warnings.keys.iter().map(|key| step.names.show(key)));
                format!("no call has named {key} before, so this call changes nothing{meant}")
            });
        }
    }

    /// A new instance that finds no place, the first time: no table has it, so it is never seen to be abandoned.
    fn place(&mut self, step: &Step<'_>) {
        if *step.said != Err(Refusal::InstancesFull) || self.crowded {
            return;
        }
        self.crowded = true;
        self.warn(step.call.line, |_| {
            let (key, places) = (step.names.show(&step.call.words.key), step.state.places());
            format!(
                "all {} places are taken, so {key} is not tracked: purge abandoned instances before it (autopurge)",
                places.count()
            )
        });
    }

    /// A writer that was never matched: its lease is not known, so it never lapses.
    fn writer(&mut self, step: &Step<'_>) {
        let words = &step.call.words;
        if !words.names_writer || step.call.verb == Verb::Match {
            return;
        }
        let signs = self.writers.entry(words.writer).or_default();
        if signs.matched || signs.warned {
            return;
        }
        signs.warned = true;
        self.warn(step.call.line, |warnings| {
            let known = warnings.writers.iter().filter(|(_, signs)| signs.matched);
            let guid = show_guid(&words.writer);
            let meant = meant(&guid, known.map(|(guid, _)| show_guid(guid)));
            format!("{guid} was not matched before, so it has no lease that can run out: match it first{meant}")
        });
    }

    /// A sample or assertion; where it comes after the lease, the first time is warned of.
    fn sign(&mut self, step: &Step<'_>, guid: [u8; 16], at: Moment, asserts: bool) {
        let signs = self.writers.entry(guid).or_default();
        let heard = signs.heard.add(at);
        let asserted = if asserts { signs.asserted.add(at) } else { None };
        let Some(gap) = (if self.apart { asserted } else { heard }) else {
            return;
        };
        let lease = step.mirror.writer(&guid).and_then(|w| w.lease).map(moment_of_clock);
        let Some(lease) = lease.filter(|lease| *lease < gap && !signs.warned) else {
            return;
        };
        signs.warned = true;
        self.warn(step.call.line, |warnings| {
            format!(
                "the lease of {} is {}, and {} passed until it was {} again: offer a longer lease, or assert it in between",
                show_guid(&guid),
                spoken(lease),
                spoken(gap),
                if warnings.apart { "asserted" } else { "heard of" }
            )
        });
    }

    /// A sample of a writer that is not alive: it asserts nothing, so no later lapse takes the writer out.
    fn unasserted(&mut self, step: &Step<'_>) {
        let guid = step.call.words.writer;
        let alive = step.mirror.writer(&guid).map(|w| w.state);
        let signs = self.writers.entry(guid).or_default();
        if alive != Some(WriterLiveliness::NotAlive) || signs.unasserted {
            return;
        }
        signs.unasserted = true;
        self.warn(step.call.line, |_| {
            let guid = show_guid(&guid);
            format!("{guid} writes, but its lease has run out. A sample does not assert its writer, so no later lapse takes it out: assert {guid} with each sample")
        });
    }

    /// Each warning in a line.
    pub fn text(&self, name: &str) -> String {
        let lines =
            self.first.iter().map(|(line, what)| format!("{name}:{line}: warning: {what}\n"));
        let mut text: String = lines.collect();
        if self.all > self.first.len() {
            text += &format!("{name}: … and {} more warnings\n", self.all - self.first.len());
        }
        text
    }
}

fn meant(word: &str, known: impl Iterator<Item = String>) -> String {
    let known: BTreeSet<String> = known.collect();
    match nearest(word, known.iter().map(String::as_str)) {
        Some(name) => format!(" (did you mean {name}?)"),
        None => String::new(),
    }
}

/// The warnings of a day.
#[cfg(test)]
fn warned(day: &str) -> Vec<(usize, String)> {
    let mut warnings = Warnings::default();
    crate::play::play_text(day, &mut Names::default(), &mut [&mut warnings]);
    warnings.first
}

#[cfg(test)]
mod tests {
    use super::*;

    fn one(day: &str, line: usize, what: &str) {
        let warnings = warned(day);
        assert_eq!(warnings.len(), 1, "{warnings:?}");
        assert_eq!(warnings[0].0, line);
        assert!(warnings[0].1.contains(what), "{warnings:?}");
    }

    const MATCH: &str = "match a/b kind automatic lease 5m at 08:00\n";

    #[test]
    fn what_looks_wrong_is_said_once() {
        let day = |rest: &str| MATCH.to_owned() + rest;
        one(&day("expire at 07:59\nexpire at 07:58"), 2, "goes back from 08:00:00 to 07:59:00");
        one(&day("admit pen-01 from a/b at 08:01\ndispose pen-02"), 3, "did you mean pen-01?");
        one("admit p from c/d at 1s\nadmit p from c/d at 2s", 1, "c/d was not matched before");
        one(&day("admit p from a/c at 08:01"), 2, "a/c was not matched before");
        one(
            &day("admit p from a/b at 08:09\nadmit p from a/b at 08:18"),
            2,
            "the lease of a/b is 5 min, and 9 min passed",
        );
    }

    #[test]
    fn before_second_0() {
        let day = |rest: &str| format!("match a/b kind automatic at 0s\n{rest}");
        let good = "admit p from a/b at -3s\nadmit p from a/b at -2s\nassert a/b at 40s\n\
                    autopurge at -1s\nlapse at 41s stamp -0.5s\nadmit p from a/b at 1s";
        assert_eq!(warned(&day(good)), []);
        let clocks = "admit p from a/b at -2s\nassert a/b at 2s\nassert a/b at 1s";
        one(&day(clocks), 4, "goes back from 00:00:02 to 00:00:01");
        let unstamped = "admit p from a/b at -2s\nlapse at 40s\nadmit p from a/b at -1s";
        one(&day(unstamped), 4, "goes back from 00:00:40 to -00:00:01");
        let back = "admit p from a/b at -2s\nadmit p from a/b at -2.5s";
        one(&day(back), 3, "goes back from -00:00:02 to -00:00:02.5");
        let minus = "admit p from a/b at 8s\nadmit p from a/b at -9s";
        one(&day(minus), 3, "goes back from 00:00:08 to -00:00:09");
        let row = "admit p from a/b at -2s\nautopurge at -3s\nassert a/b at 1s\nautopurge at -3s";
        one(&day(row), 3, "goes back from -00:00:02 to -00:00:03");
    }

    #[test]
    fn a_lapse_has_a_clock_and_a_time() {
        let day = |rest: &str| format!("match a/b kind automatic at 0s\n{rest}");
        let clock = "admit p from a/b at -2s\nlapse at 40s stamp -1s\nassert a/b at 39s";
        one(&day(clock), 4, "goes back from 00:00:40 to 00:00:39");
        let stamp = "admit p from a/b at -2s\nlapse at 40s stamp -3s";
        one(&day(stamp), 3, "goes back from -00:00:02 to -00:00:03");
        // Without a negative time it counts at its clock.
        let earlier = "assert a/b at 39s\nlapse at 40s stamp 20s\nassert a/b at 41s";
        assert_eq!(warned(&day(earlier)), []);
        let later = "assert a/b at 19s\nlapse at 20s stamp 40s\nassert a/b at 30s";
        assert_eq!(warned(&day(later)), []);
    }

    #[test]
    fn leases_before_second_0_go_by_the_clock() {
        let day =
            |clock, rest: &str| format!("match a/b kind automatic lease 5s at {clock}s\n{rest}");
        assert_eq!(warned(&day(0, "admit p from a/b at -3s\nassert a/b at 4s")), []);
        let gap = "admit p from a/b at -3s\nassert a/b at 50s";
        one(&day(40, gap), 3, "is 5 s, and 10 s passed until it was asserted again");
        assert_eq!(warned(&day(40, "admit p from a/b at -9s\nadmit p from a/b at -1s")), []);
        let late = "admit p from a/b at 42s\nadmit p from a/b at 44s\nassert a/b at 50s";
        one(&day(40, late), 4, "is 5 s, and 6 s passed until it was heard of again");
    }

    #[test]
    fn a_full_table_is_said_once() {
        let day = |first: &str, instances: usize| {
            let calls = (0..instances).map(|n| format!("register pen-{n}\n"));
            first.to_owned() + &calls.collect::<String>()
        };
        one(&day("places 32\n", 35), 34, "all 32 places are taken, so pen-32 is not tracked");
        one(&day("", 130), 129, "all 128 places are taken, so pen-128 is not tracked");
        assert_eq!(warned(&day("places 32\n", 32)), []);
    }

    #[test]
    fn a_sample_does_not_assert() {
        let day = "assert a/b at 08:01\nadmit p from a/b at 08:05\nlapse at 08:07\n\
                   admit p from a/b at 08:08\nadmit p from a/b at 08:09";
        one(&(MATCH.to_owned() + day), 5, "A sample does not assert its writer");
    }

    #[test]
    fn a_good_day_has_none() {
        let day = "assert a/b at 08:04\nadmit p from a/b at 08:04\nassert a/b at 08:08\n\
                   admit p from a/b at 08:12\nexpire at 1281024h\nlapse at 08:13\nassert a/* at 08:14";
        assert_eq!(warned(&(MATCH.to_owned() + day)), []);
    }
}
