//! The pairs of times that filters, destination order and autopurge compare,
//! and their sorts (request 7 of 02).

use std::fmt;

use reading::gaps::{Rule, gap};
use reading::layout::{Instance, Kind, Time};
use reading::{Answer, Sheet, State};

/// A delay that stands for never: no time is looked at.
const NEVER: u64 = u64::MAX;

/// A time of a record, and one that a call or a read compares with it.
#[derive(Debug, Clone, Copy, PartialEq, Eq)]
pub struct Comparison {
    pub rule: Rule,
    pub recorded: Time,
    pub given: Time,
    /// Or a separation; destination order has 0.
    pub delay: u64,
}

/// Where the two times stand.
#[derive(Debug, Clone, Copy, PartialEq, Eq, PartialOrd, Ord)]
pub enum Side {
    /// Both before the epoch.
    Before,
    /// One of them.
    Across,
    /// Neither.
    After,
}

/// How a gap stands to a separation or delay.
#[derive(Debug, Clone, Copy, PartialEq, Eq, PartialOrd, Ord)]
pub enum Reach {
    Earlier,
    /// In autopurge, at delay 0.
    EarlierAtZero,
    Below,
    OneBelow,
    At,
    OneAbove,
    Above,
}

/// What comparisons are counted by.
#[derive(Debug, Clone, Copy, PartialEq, Eq, PartialOrd, Ord)]
pub struct Sort {
    pub rule: Rule,
    pub side: Side,
    pub reach: Reach,
}

impl Comparison {
    /// Destination order on an instance, or on none.
    pub fn of_order(found: Option<&Instance>, given: Time, by_source: bool) -> Option<Self> {
        let recorded = found?.last_delivered.filter(|_| by_source)?;
        Some(Self { rule: Rule::Order, recorded, given, delay: 0 })
    }

    /// The time-based filter on an instance, or on none.
    pub fn of_filter(found: Option<&Instance>, given: Time, separation: u64) -> Option<Self> {
        let recorded = found?.last_filter?;
        Some(Self { rule: Rule::Filter, recorded, given, delay: separation })
    }

    /// A purge of an instance, with a delay for each kind of dead ones.
    pub fn of_purge(i: &Instance, now: Time, disposed: u64, no_writers: u64) -> Option<Self> {
        let (died, delay) = match i.kind {
            Kind::Alive => return None,
            Kind::Disposed => (i.disposed_at, disposed),
            Kind::NoWriters => (i.no_writers_at, no_writers),
        };
        let recorded = died.filter(|_| delay != NEVER)?;
        Some(Self { rule: Rule::Purge, recorded, given: now, delay })
    }

    /// Those of a call, none of any but codes 48 and 21. An admit that order
    /// turns away has its filter's too.
    pub fn of_call(state: &State, sheet: Sheet<'_>) -> Vec<Self> {
        let found = state.find(&sheet.key());
        match sheet.code() {
            48 => {
                let order = Self::of_order(found, sheet.time1(), sheet.by_source());
                let filter = Self::of_filter(found, sheet.time2(), sheet.a());
                order.into_iter().chain(filter).collect()
            }
            21 => {
                let of = |i| Self::of_purge(i, sheet.time2(), sheet.a(), sheet.b());
                state.instances.iter().filter_map(of).collect()
            }
            _ => Vec::new(),
        }
    }

    /// Those that a call made, by its answer: none if it was refused, and not
    /// the filter's if order turned an admit away.
    pub fn made(before: &State, sheet: Sheet<'_>, answer: &Answer) -> Vec<Self> {
        let asked = |rule| answer.number == 0 && (answer.outcome != 1 || rule == Rule::Order);
        Self::of_call(before, sheet).into_iter().filter(|c| asked(c.rule)).collect()
    }

    pub fn times(&self) -> [Time; 2] {
        [self.recorded, self.given]
    }

    pub fn sort(&self) -> Sort {
        Sort { rule: self.rule, side: self.side(), reach: self.reach() }
    }

    fn side(&self) -> Side {
        match self.times().map(|time| time.seconds < 0) {
            [true, true] => Side::Before,
            [false, false] => Side::After,
            _ => Side::Across,
        }
    }

    fn reach(&self) -> Reach {
        let gap = i128::from(gap(self.recorded, self.given));
        match (self.rule, gap - i128::from(self.delay)) {
            (Rule::Purge, _) if gap < 0 && self.delay == 0 => Reach::EarlierAtZero,
            (Rule::Purge | Rule::Filter, _) if gap < 0 => Reach::Earlier,
            (_, -1) => Reach::OneBelow,
            (_, 0) => Reach::At,
            (_, 1) => Reach::OneAbove,
            (_, 2..) => Reach::Above,
            (Rule::Order, _) => Reach::Earlier,
            _ => Reach::Below,
        }
    }
}

impl Sort {
    /// All that there are. No two times are equal across the epoch, and order
    /// has no delay to be below.
    pub fn all() -> Vec<Self> {
        let (first, last) = ([Reach::Earlier], [Reach::OneBelow, Reach::At]);
        let above = [Reach::OneAbove, Reach::Above];
        let order = [&first[..], &last, &above].concat();
        let filter = [&first[..], &[Reach::Below], &last, &above].concat();
        let purge = [&filter[..], &[Reach::EarlierAtZero]].concat();
        let mut all = Vec::new();
        for (rule, reaches) in [(Rule::Order, order), (Rule::Filter, filter), (Rule::Purge, purge)]
        {
            for side in [Side::Before, Side::Across, Side::After] {
                all.extend(reaches.iter().map(|reach| Self { rule, side, reach: *reach }));
            }
        }
        let equal = Self { rule: Rule::Order, side: Side::Across, reach: Reach::At };
        all.retain(|sort| *sort != equal);
        all
    }
}

impl fmt::Display for Sort {
    fn fmt(&self, f: &mut fmt::Formatter<'_>) -> fmt::Result {
        let side = match self.side {
            Side::Before => "before",
            Side::Across => "across",
            Side::After => "after",
        };
        let reach = match (self.rule, self.reach) {
            (Rule::Order, Reach::OneBelow) => "one earlier",
            (Rule::Order, Reach::At) => "equal",
            (Rule::Order, Reach::OneAbove) => "one later",
            (Rule::Order, Reach::Above) => "later",
            (_, Reach::Earlier) => "earlier",
            (_, Reach::EarlierAtZero) => "earlier, delay 0",
            (_, Reach::Below) => "below",
            (_, Reach::OneBelow) => "one below",
            (_, Reach::At) => "at",
            (_, Reach::OneAbove) => "one above",
            (_, Reach::Above) => "above",
        };
        write!(f, "{side}: {reach}")
    }
}
