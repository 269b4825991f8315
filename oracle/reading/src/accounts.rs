//! Section 6: the account of one writer and of one instance, from a list's
//! sheets and, of its answers, number, handle and outcome; with the step that
//! request 1 of 02 adds to an instance's.
//!
//! A reading apart from the calls: no account sees another but where section
//! 6 says so, and what head and buffers hold is put together from them.

use std::collections::{BTreeMap, BTreeSet};

use crate::answer::Answer;
use crate::bytes::{Guid, Key, prefix_of};
use crate::effects;
use crate::head::Head;
use crate::layout::{Instance, Standing, Writer, WriterKind};
use crate::sheet::Sheet;
use crate::state::{Class, State, class};

/// What the accounts are fed of an answer.
#[derive(Debug, Clone, Copy)]
pub struct Fed {
    pub number: u8,
    /// 0 where there is none.
    pub handle: u64,
    pub outcome: u8,
}

impl Fed {
    pub fn of(answer: &Answer) -> Self {
        Self { number: answer.number, handle: answer.handle, outcome: answer.outcome }
    }
}

/// The accounts that are not absent, and what is counted over them.
#[derive(Debug, Clone, Default)]
pub struct Accounts {
    writers: BTreeMap<Guid, Writer>,
    instances: BTreeMap<Key, Instance>,
    lost: Vec<Guid>,
    last_writer: Option<Guid>,
    /// Of the alive and of the not alive count.
    acknowledged: [i64; 2],
    changes: u64,
    /// Handles started so far.
    started: u64,
}

impl Accounts {
    /// Feeds one call; refused ones are skipped.
    pub fn feed(&mut self, sheet: &[u8], fed: Fed) {
        let Some(sheet) = Sheet::of(sheet).filter(|_| fed.number == 0) else { return };
        let expired = self.feed_writers(sheet);
        self.feed_counts(sheet);
        self.feed_instances(sheet, fed, &expired);
    }

    /// Steps each writer's account; gives those that the call expired.
    fn feed_writers(&mut self, sheet: Sheet<'_>) -> Vec<Guid> {
        let named = self.writers.get(&sheet.guid());
        let untracked = named.is_none_or(|w| !w.tracked());
        let mut guids: BTreeSet<Guid> = self.writers.keys().copied().collect();
        guids.insert(sheet.guid());
        let (mut expired, mut changed) = (Vec::new(), Vec::new());
        for guid in guids {
            let before = self.writers.get(&guid).copied();
            let after = writer_step(guid, before, sheet, untracked);
            if class_of(before) != class_of(after) {
                changed.push(guid);
                if tracker_code(sheet) == 37 {
                    expired.push(guid);
                }
            }
            match after {
                Some(writer) => self.writers.insert(guid, writer),
                None => self.writers.remove(&guid),
            };
        }
        self.changes = self.changes.wrapping_add(changed.len() as u64);
        self.last_writer = changed.last().copied().or(self.last_writer);
        self.lost.extend(&expired);
        expired
    }

    /// Codes 38 to 40.
    fn feed_counts(&mut self, sheet: Sheet<'_>) {
        match sheet.code() {
            38 => self.lost.clear(),
            39 => self.acknowledged = self.counts(),
            40 => {
                self.acknowledged[0] += i64::from(sheet.first_change());
                self.acknowledged[1] += i64::from(sheet.second_change());
            }
            _ => {}
        }
    }

    /// How many are alive, and not alive.
    fn counts(&self) -> [i64; 2] {
        [Class::Alive, Class::NotAlive]
            .map(|which| self.writers.values().filter(|w| class(w) == which).count() as i64)
    }

    fn feed_instances(&mut self, sheet: Sheet<'_>, fed: Fed, expired: &[Guid]) {
        let mut keys: BTreeSet<Key> = self.instances.keys().copied().collect();
        keys.insert(sheet.key());
        for key in keys {
            let before = self.instances.remove(&key);
            let absent = before.is_none();
            if let Some(instance) = instance_step(key, before, sheet, fed, expired) {
                self.started += u64::from(absent);
                self.instances.insert(key, instance);
            }
        }
    }

    /// Head and records as the accounts have them, on either console: what
    /// they tell does not depend on its number of places.
    pub fn state(&self, places: u16) -> State {
        let [alive, not_alive] = self.counts();
        State {
            head: Head {
                instances: self.instances.len() as u32,
                writer_records: self.writers.len() as u32,
                lost: self.lost.len() as u32,
                alive: alive as u32,
                not_alive: not_alive as u32,
                alive_change: (alive - self.acknowledged[0]) as i32,
                not_alive_change: (not_alive - self.acknowledged[1]) as i32,
                last_writer: self.last_writer,
                places,
                next_handle: self.started + 1,
                changes: self.changes,
            },
            instances: self.instances.values().cloned().collect(),
            writers: self.writers.values().copied().collect(),
            lost: self.lost.clone(),
            misreading: None,
        }
    }
}

fn class_of(account: Option<Writer>) -> Class {
    account.map_or(Class::Neither, |w| class(&w))
}

/// The liveliness call that a joined call begins with.
fn tracker_code(sheet: Sheet<'_>) -> u8 {
    match sheet.code() {
        49 => 37,
        50 => 33,
        51 => 34,
        code => code,
    }
}

/// One writer's account after a call; none is absent. `untracked` is what the
/// named writer's account tells.
fn writer_step(
    guid: Guid,
    account: Option<Writer>,
    sheet: Sheet<'_>,
    untracked: bool,
) -> Option<Writer> {
    let named = sheet.guid() == guid;
    match tracker_code(sheet) {
        32 => {
            let after = if named { Some(matched(guid, account, sheet)) } else { account };
            let asserts = untracked && sheet.kind_bits() == 0;
            if asserts { after.map(|w| asserted(w, sheet, named, false)) } else { after }
        }
        33 if named => account.filter(|w| !w.tracked()),
        34 if named => match account?.standing {
            Standing::Unasserted => None,
            _ => Some(Writer::departed(guid)),
        },
        35 => account.map(|w| asserted(w, sheet, named, true)),
        36 => account.map(|w| asserted(w, sheet, false, sheet.manual())),
        37 => account.map(|w| match w.due() {
            Some(due) if sheet.a() >= due => Writer { standing: Standing::NotAlive, ..w },
            _ => w,
        }),
        _ => account,
    }
}

/// Kind and lease become the sheet's, whatever the account was.
fn matched(guid: Guid, account: Option<Writer>, sheet: Sheet<'_>) -> Writer {
    let kind = WriterKind::from_bits(sheet.kind_bits()).unwrap_or_default();
    let (standing, last_assertion) = match account {
        None => (Standing::Unasserted, sheet.a()),
        Some(w) if w.tracked() => (w.standing, w.last_assertion),
        Some(_) => (Standing::NotAlive, 0),
    };
    Writer { guid, kind, lease: sheet.optional_lease(), standing, last_assertion }
}

/// An assertion, if it covers the writer and is not too old.
fn asserted(writer: Writer, sheet: Sheet<'_>, named: bool, manual: bool) -> Writer {
    let at_prefix = prefix_of(&writer.guid) == sheet.prefix();
    let covered = named
        || at_prefix
            && match writer.kind {
                WriterKind::Automatic => true,
                WriterKind::ByParticipant => manual,
                WriterKind::ByTopic => false,
            };
    let (clock, last) = (sheet.a(), writer.last_assertion);
    let acts = clock > last || clock == last && writer.standing != Standing::NotAlive;
    if writer.tracked() && covered && acts {
        Writer { standing: Standing::Alive, last_assertion: clock, ..writer }
    } else {
        writer
    }
}

/// An absent instance as a call starts it; an admit's writer owns it.
fn started(key: Key, sheet: Sheet<'_>, fed: Fed) -> Instance {
    let mut i = Instance::fresh(key, fed.handle);
    if sheet.code() == 48 {
        effects::own(&mut i, sheet);
    }
    i
}

/// One instance's account after a call; none is absent.
fn instance_step(
    key: Key,
    account: Option<Instance>,
    sheet: Sheet<'_>,
    fed: Fed,
    expired: &[Guid],
) -> Option<Instance> {
    let by_key = sheet.key() == key;
    let mut i = match account {
        Some(mut i) => {
            if sheet.code() == 48 && by_key && fed.outcome == 0 {
                effects::accept(&mut i, sheet, false);
            }
            i
        }
        None if by_key && fed.handle != 0 => started(key, sheet, fed),
        None => return None,
    };
    match sheet.code() {
        1 | 2 | 8..=11 | 14 | 16 | 20 | 48 if by_key => act_by_key(&mut i, sheet, fed),
        3..=6 | 12 | 13 | 15 if sheet.handle() == i.handle => act_by_handle(&mut i, sheet),
        21 if effects::purges(&i, sheet, None) => return None,
        7 | 17..=19 | 49..=51 => act_on_every(&mut i, sheet, expired),
        _ => {}
    }
    Some(i)
}

fn act_by_key(i: &mut Instance, sheet: Sheet<'_>, fed: Fed) {
    match sheet.code() {
        1 => {
            effects::register(i, sheet);
        }
        2 => effects::ensure_registered(i),
        8 => effects::observe_lifecycle(i, sheet),
        9 => effects::observe_admitted(i, sheet),
        10 => effects::note_admitted(i, sheet),
        11 => effects::record_delivery(i, sheet),
        14 => i.view_new = true,
        16 => {
            effects::accept(i, sheet, false);
        }
        20 => {
            effects::clear_owner(i, |owner| *owner == sheet.guid());
        }
        _ if fed.outcome == 0 => {
            effects::observe_admitted(i, sheet);
            effects::note_admitted(i, sheet);
        }
        _ => {}
    }
}

fn act_by_handle(i: &mut Instance, sheet: Sheet<'_>) {
    match sheet.code() {
        3 => effects::dispose(i, sheet),
        4 => effects::unregister(i, sheet),
        5 => effects::unregister_writer(i, sheet),
        6 => effects::note_writer(i, sheet.guid()),
        12 => effects::note_taken(i, sheet),
        13 => effects::mark_view_seen(i, sheet),
        _ => effects::drain_samples(i, sheet),
    }
}

fn act_on_every(i: &mut Instance, sheet: Sheet<'_>, expired: &[Guid]) {
    let guid = sheet.guid();
    let gone: &[Guid] = if sheet.code() == 49 { expired } else { &[guid] };
    match sheet.code() {
        7 => {
            effects::drop_writer(i, &guid, sheet.optional_time1());
        }
        17 => effects::update_owner_strength(i, sheet),
        18 => {
            effects::clear_owner(i, |owner| *owner == guid);
        }
        19 => {
            effects::clear_owner(i, |owner| prefix_of(owner) == sheet.prefix());
        }
        _ => {
            for guid in gone {
                effects::drop_writer(i, guid, sheet.optional_time1());
                effects::clear_owner(i, |owner| owner == guid);
            }
        }
    }
}
