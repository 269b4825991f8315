//! How each instance was shown over a day: when it was abandoned, by which call, and whether it was drawn again.
//! What is kept grows with these changes, not with the calls.

use crate::cause::Cause;
use crate::day::Call;
use crate::forms::Verb;
use crate::make::Said;
use crate::marks::Marks;
use crate::mirror::WriterChange;
use crate::play::{Step, Watch};
use crate::words::Moment;
use crate::writers::Writer;
use dcps::{Admission, InstanceState, InstanceStateKind, KeyHash};
use std::collections::BTreeMap;
use std::rc::Rc;

pub type Guid = [u8; 16];

/// Samples of one writer that were turned away, by the reason.
#[derive(Debug, Clone, Copy, Default)]
pub struct Turned {
    pub order: u64,
    pub filter: u64,
    pub ownership: u64,
    pub last: Moment,
}

impl Turned {
    pub fn count(&self) -> u64 {
        self.order + self.filter + self.ownership
    }

    fn add(&mut self, outcome: &Admission, at: Moment) {
        match outcome {
            Admission::DestinationOrder => self.order += 1,
            Admission::TimeBasedFilter => self.filter += 1,
            _ => self.ownership += 1,
        }
        self.last = at;
    }
}

/// The call of a change.
#[derive(Debug, Clone)]
pub struct By {
    pub line: usize,
    pub text: Rc<str>,
    pub at: Moment,
}

/// How an abandonment ended.
#[derive(Debug, Clone)]
pub enum End {
    /// Drawn again, by this writer where the call names one.
    Drawn(Option<Guid>),
    Purged,
}

/// One abandonment: from alive to alive again, or to the day's end.
#[derive(Debug, Clone)]
pub struct Spell {
    pub cause: Cause,
    pub from: By,
    /// The writers that left, or for a dispose those that were there.
    pub lost: Vec<Guid>,
    /// Writers that drew, and whose samples were turned away.
    pub turned: BTreeMap<Guid, Turned>,
    pub end: Option<(By, End)>,
    /// How often the instance became due for order meanwhile: no writer in its set, no sample left to take.
    pub order_lines: u64,
    /// Where it is not due: samples to take, and whether a writer is in its set.
    pub samples: u32,
    pub written: bool,
}

/// What a console shows.
#[derive(Debug, Clone, Copy, PartialEq, Eq)]
pub enum Shown {
    Alive,
    NoWriters,
    Disposed,
    /// Purged.
    Absent,
}

#[derive(Debug, Default)]
pub struct Instance {
    /// What it is shown as, from when on.
    pub spans: Vec<(Moment, Shown)>,
    pub spells: Vec<Spell>,
    pub admitted: Marks,
    pub turned: Marks,
    /// Writers outside its set whose samples are being turned away.
    turned_by: BTreeMap<Guid, Turned>,
    due: bool,
    /// Code 9 drew it again, and its writer is not named yet.
    observed: bool,
    /// Order lines without an abandonment: registered, and nobody writes it.
    pub unwritten: u64,
}

impl Instance {
    fn open(&mut self) -> Option<&mut Spell> {
        self.spells.last_mut().filter(|spell| spell.end.is_none())
    }
}

#[derive(Default)]
pub struct History {
    pub calls: u64,
    pub refused: u64,
    pub turned_away: u64,
    /// Whether a call took samples; without one no instance with samples is ever due.
    pub taken: bool,
    /// The first and the last moment, of all calls and of those with a time.
    moments: Option<(Moment, Moment)>,
    times: Option<(Moment, Moment)>,
    pub instances: BTreeMap<KeyHash, Instance>,
    pub writers: BTreeMap<Guid, Writer>,
    /// The moment of the latest call that has one; once a time was negative, the time of the latest one that has one.
    now: Moment,
}

impl Watch for History {
    fn see(&mut self, step: &Step<'_>) {
        self.calls += 1;
        let Ok(said) = step.said else {
            self.refused += 1;
            return;
        };
        self.go_on(step.call);
        self.taken |= matches!(step.call.verb, Verb::NoteTaken | Verb::DrainSamples);
        let now = if self.apart() { step.call.time() } else { Some(self.now) };
        for change in &step.changes.writers {
            let writer = self.writers.entry(change.guid).or_default();
            writer.follow(change, now);
        }
        self.leave(step.call, &step.changes.writers);
        self.sample(step, said);
        for (key, before) in &step.changes.instances {
            self.follow(step, key, before.as_ref());
        }
    }
}

impl History {
    /// Whether clocks count from elsewhere than times do: no clock is negative, and a time was.
    pub fn apart(&self) -> bool {
        self.times.is_some_and(|(first, _)| first < 0)
    }

    /// The day's first and last moment.
    pub fn ends(&self) -> Option<(Moment, Moment)> {
        if self.apart() {
            self.times
        } else {
            self.moments
        }
    }

    fn go_on(&mut self, call: &Call) {
        let (moment, time) = (call.moment(), call.time());
        let untimed = self.times.is_none();
        self.moments = widened(self.moments, moment);
        self.times = widened(self.times, time);
        let now = if self.apart() { time } else { moment };
        self.now = now.unwrap_or(self.now);
        if untimed && self.apart() {
            self.begin();
        }
    }

    /// The first time is negative: what came before it has clocks alone, and counts as of now.
    fn begin(&mut self) {
        for instance in self.instances.values_mut() {
            instance.spans.iter_mut().for_each(|(at, _)| *at = self.now);
            for spell in &mut instance.spells {
                spell.from.at = self.now;
                if let Some((by, _)) = &mut spell.end {
                    by.at = self.now;
                }
            }
        }
    }

    /// A writer that left is turned away no more.
    fn leave(&mut self, call: &Call, writers: &[WriterChange]) {
        let mut gone: Vec<Guid> = writers.iter().filter(|c| c.left()).map(|c| c.guid).collect();
        match call.verb {
            Verb::Part | Verb::Depart | Verb::DropWriter => gone.push(call.words.writer),
            Verb::Unregister if call.words.names_writer => {
                if let Some(instance) = self.instances.get_mut(&call.words.key) {
                    instance.turned_by.remove(&call.words.writer);
                }
            }
            _ => {}
        }
        for guid in gone {
            for instance in self.instances.values_mut() {
                instance.turned_by.remove(&guid);
            }
        }
    }

    fn sample(&mut self, step: &Step<'_>, said: &Said) {
        let (words, now) = (&step.call.words, self.now);
        let outcome = match said {
            Said::Admission(outcome) => Some(outcome),
            Said::Known(true) if step.call.verb == Verb::NoteAdmitted => None,
            _ => return,
        };
        let admitted = outcome.is_none_or(Admission::is_admitted);
        self.turned_away += u64::from(!admitted);
        self.writers.entry(words.writer).or_default().sample(now, admitted);
        if outcome == Some(&Admission::MaxInstances) {
            return;
        }
        let instance = self.instances.entry(words.key).or_default();
        match outcome {
            Some(outcome) if !admitted => {
                instance.turned.add(now);
                let inside = step.mirror.instance(&words.key);
                if !inside.is_some_and(|i| i.writers.contains(&words.writer)) {
                    let list = match instance.spells.last_mut() {
                        Some(spell) if spell.end.is_none() => &mut spell.turned,
                        _ => &mut instance.turned_by,
                    };
                    list.entry(words.writer).or_default().add(outcome, now);
                }
            }
            _ => instance.admitted.add(now),
        }
    }

    /// Follows an instance that a call changed.
    fn follow(&mut self, step: &Step<'_>, key: &KeyHash, before: Option<&InstanceState>) {
        let instance = self.instances.entry(*key).or_default();
        let after = step.mirror.instance(key);
        let (was, is) = (shown(before), shown(after));
        if was != is {
            let by =
                By { line: step.call.line, text: step.call.text.as_str().into(), at: self.now };
            instance.spans.push((by.at, is));
            match (was, is) {
                (Shown::Alive, Shown::NoWriters | Shown::Disposed) => {
                    let spell = spell(step, before, after, instance, by);
                    instance.spells.extend(spell);
                }
                (Shown::NoWriters | Shown::Disposed, Shown::Alive) => {
                    let writer = step.call.words.names_writer.then_some(step.call.words.writer);
                    close(instance, by, End::Drawn(writer));
                }
                (_, Shown::Absent) => close(instance, by, End::Purged),
                _ => {}
            }
        }
        let Some(after) = after else {
            instance.due = false;
            return;
        };
        instance.turned_by.retain(|guid, _| !after.writers.contains(guid));
        name_drawer(instance, step);
        count_line(instance, after);
    }
}

fn widened(ends: Option<(Moment, Moment)>, at: Option<Moment>) -> Option<(Moment, Moment)> {
    let Some(at) = at else {
        return ends;
    };
    Some(ends.map_or((at, at), |(first, last)| (first.min(at), last.max(at))))
}

fn shown(instance: Option<&InstanceState>) -> Shown {
    match instance.map(|i| i.kind) {
        None => Shown::Absent,
        Some(InstanceStateKind::Alive) => Shown::Alive,
        Some(InstanceStateKind::NotAliveDisposed) => Shown::Disposed,
        Some(InstanceStateKind::NotAliveNoWriters) => Shown::NoWriters,
    }
}

fn close(instance: &mut Instance, by: By, end: End) {
    if let Some(spell) = instance.open() {
        spell.end = Some((by, end));
    }
}

/// Code 9 draws an instance again and names no writer; code 10 right behind it does.
fn name_drawer(instance: &mut Instance, step: &Step<'_>) {
    let observed = std::mem::take(&mut instance.observed);
    let end = instance.spells.last_mut().and_then(|spell| spell.end.as_mut());
    let Some((by, End::Drawn(writer @ None))) = end else {
        return;
    };
    match step.call.verb {
        Verb::NoteAdmitted if observed => *writer = Some(step.call.words.writer),
        Verb::ObserveAdmitted => instance.observed = by.line == step.call.line,
        _ => {}
    }
}

/// Counts an order line where the instance becomes due.
fn count_line(instance: &mut Instance, after: &InstanceState) {
    let due = after.writers.is_empty() && after.samples_in_cache == 0;
    if due && !instance.due {
        match instance.open() {
            Some(spell) => spell.order_lines += 1,
            None => instance.unwritten += 1,
        }
    }
    instance.due = due;
    if let Some(spell) = instance.open() {
        spell.samples = after.samples_in_cache;
        spell.written = !after.writers.is_empty();
    }
}

fn spell(
    step: &Step<'_>,
    before: Option<&InstanceState>,
    after: Option<&InstanceState>,
    instance: &mut Instance,
    from: By,
) -> Option<Spell> {
    let (before, after) = (before?, after?);
    let cause = Cause::of(step.call)?;
    let mut lost: Vec<Guid> = match cause {
        Cause::Disposed | Cause::Deregistered => before.writers.iter().copied().collect(),
        _ => before.writers.difference(&after.writers).copied().collect(),
    };
    if cause == Cause::Unregistered && lost.is_empty() {
        lost.push(step.call.words.writer);
    }
    Some(Spell {
        cause,
        from,
        lost,
        turned: std::mem::take(&mut instance.turned_by),
        end: None,
        order_lines: 0,
        samples: after.samples_in_cache,
        written: !after.writers.is_empty(),
    })
}
