//! Abandonments counted and grouped: why there were so many, the most order lines first.

use crate::cause::Cause;
use crate::history::{End, Guid, History, Spell};
use crate::words::Moment;
use dcps::KeyHash;
use std::collections::{BTreeMap, BTreeSet};

/// What became of an abandonment.
#[derive(Debug, Clone, Copy, PartialEq, Eq, PartialOrd, Ord)]
pub enum Verdict {
    /// False: a writer that had left drew again.
    CameBack,
    /// False: another writer was drawing, and its samples were turned away.
    TurnedAway,
    /// Another writer drew it again, or a call that names none.
    TakenOver,
    NotAgain,
}

impl Verdict {
    pub fn of(spell: &Spell) -> Self {
        match &spell.end {
            // A disposed instance is so by a writer's word, whoever else is turned away.
            _ if spell.cause != Cause::Disposed && !spell.turned.is_empty() => Self::TurnedAway,
            Some((_, End::Drawn(Some(writer)))) if spell.lost.contains(writer) => Self::CameBack,
            Some((_, End::Drawn(_))) => Self::TakenOver,
            _ => Self::NotAgain,
        }
    }

    pub fn is_false(self) -> bool {
        matches!(self, Self::CameBack | Self::TurnedAway)
    }

    /// Its name, for a cell.
    pub fn name(self) -> &'static str {
        match self {
            Self::CameBack => "came back",
            Self::TurnedAway => "turned away",
            Self::TakenOver => "taken over",
            Self::NotAgain => "not again",
        }
    }
}

#[derive(Debug, Clone, Copy, Default, PartialEq, Eq)]
pub struct Counts {
    pub abandoned: u64,
    pub came_back: u64,
    pub turned_away: u64,
    pub taken_over: u64,
    pub not_again: u64,
    pub order_lines: u64,
    pub false_lines: u64,
    /// For how long in all.
    pub time: Moment,
}

impl Counts {
    pub fn add(&mut self, spell: &Spell, day_ends: Moment) {
        let verdict = Verdict::of(spell);
        self.abandoned += 1;
        *match verdict {
            Verdict::CameBack => &mut self.came_back,
            Verdict::TurnedAway => &mut self.turned_away,
            Verdict::TakenOver => &mut self.taken_over,
            Verdict::NotAgain => &mut self.not_again,
        } += 1;
        self.order_lines += spell.order_lines;
        if verdict.is_false() {
            self.false_lines += spell.order_lines;
        }
        self.time = self.time.saturating_add(lasted(spell, day_ends));
    }

    pub fn is_trouble(&self) -> bool {
        self.abandoned > 0 || self.order_lines > 0
    }

    pub fn falsely(&self) -> u64 {
        self.came_back + self.turned_away
    }
}

/// How long an abandonment lasted, to the day's end where nothing ended it.
pub fn lasted(spell: &Spell, day_ends: Moment) -> Moment {
    let until = spell.end.as_ref().map_or(day_ends, |(by, _)| by.at);
    until.saturating_sub(spell.from.at).max(0)
}

/// Abandonments with the same verdict, cause and writers that left.
#[derive(Debug)]
pub struct Group {
    pub verdict: Verdict,
    pub cause: Cause,
    pub lost: Vec<Guid>,
    /// Writers that drew and were turned away.
    pub turned: BTreeSet<Guid>,
    pub counts: Counts,
    /// The instances, and the lines whose calls abandoned them.
    pub keys: BTreeSet<KeyHash>,
    pub lines: BTreeSet<usize>,
    /// The first and the last of them.
    pub from: (Moment, Moment),
    /// The shortest and the longest until it was drawn again.
    pub again: Option<(Moment, Moment)>,
    /// Who drew again.
    pub drawers: BTreeSet<Guid>,
    /// Samples turned away by order, filter and ownership.
    pub away: [u64; 3],
}

type Kind = (Verdict, Cause, Vec<Guid>);

/// The groups, the most order lines first.
pub fn groups(history: &History) -> Vec<Group> {
    let day_ends = history.ends().map_or(0, |(_, last)| last);
    let mut groups: BTreeMap<Kind, Group> = BTreeMap::new();
    for (key, instance) in &history.instances {
        for spell in &instance.spells {
            let verdict = Verdict::of(spell);
            let kind = (verdict, spell.cause, spell.lost.clone());
            let group = groups.entry(kind).or_insert_with(|| Group {
                verdict,
                cause: spell.cause,
                lost: spell.lost.clone(),
                turned: BTreeSet::new(),
                counts: Counts::default(),
                keys: BTreeSet::new(),
                lines: BTreeSet::new(),
                from: (spell.from.at, spell.from.at),
                again: None,
                drawers: BTreeSet::new(),
                away: [0; 3],
            });
            group.take(*key, spell, day_ends);
        }
    }
    let mut groups: Vec<Group> = groups.into_values().collect();
    groups.sort_by_key(|g| std::cmp::Reverse((g.counts.order_lines, g.counts.abandoned)));
    groups
}

impl Group {
    fn take(&mut self, key: KeyHash, spell: &Spell, day_ends: Moment) {
        self.counts.add(spell, day_ends);
        self.keys.insert(key);
        self.lines.insert(spell.from.line);
        self.from = (self.from.0.min(spell.from.at), self.from.1.max(spell.from.at));
        if let Some((_, End::Drawn(writer))) = &spell.end {
            let after = lasted(spell, day_ends);
            let (least, most) = self.again.unwrap_or((after, after));
            self.again = Some((least.min(after), most.max(after)));
            self.drawers.extend(writer);
        }
        self.turned.extend(spell.turned.keys());
        for turned in spell.turned.values() {
            for (sum, more) in
                self.away.iter_mut().zip([turned.order, turned.filter, turned.ownership])
            {
                *sum += more;
            }
        }
    }
}
