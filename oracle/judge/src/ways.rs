//! How the Rust judges what compares times. It takes seconds before the epoch
//! for 0 where request 7 of 02 has them signed; but only differences count, so
//! it is given every time 2^30 seconds later where that brings all of those
//! compared past the epoch.

use std::fmt;

use lists::Comparison;
use lists::fill::Filled;
use original::{Original, Turn};
use reading::bytes::Key;
use reading::layout::Time;
use reading::{Sheet, State};

/// 2^30 seconds.
const LATER: i32 = 1 << 30;

/// How the Rust judges a call or a read.
#[derive(Debug, Clone, Copy, PartialEq, Eq)]
pub enum Way {
    /// It compares no times by what request 7 changes.
    Untimed,
    /// No time compared is before the epoch.
    AsItStands,
    /// Given every time 2^30 seconds later.
    Later,
    /// Not at all: the reading alone does.
    Alone,
}

impl Way {
    /// By the times compared and, of an admit, those of its deadline: the Rust
    /// has these signed, but is given them later too.
    fn of(compared: &[Comparison], deadline: &[Time]) -> Self {
        let times = || compared.iter().flat_map(Comparison::times);
        if compared.is_empty() {
            Self::Untimed
        } else if times().all(|time| time.seconds >= 0) {
            Self::AsItStands
        } else if times().chain(deadline.iter().copied()).all(is_near) {
            Self::Later
        } else {
            Self::Alone
        }
    }

    /// Of an accepted call, or of one without a place, in the state before it.
    pub fn of_call(before: &State, sheet: Sheet<'_>) -> Self {
        let compared = Comparison::of_call(before, sheet);
        let owner_at = before.find(&sheet.key()).and_then(|i| i.owner_at);
        match (sheet.code(), sheet.optional_deadline(), owner_at) {
            (48, Some(_), Some(at)) => Self::of(&compared, &[at, sheet.time2()]),
            _ => Self::of(&compared, &[]),
        }
    }

    /// Of a filter read, and whether the Rust tells yes; `rust` is in that state.
    pub fn of_filter(
        rust: &Original,
        state: &State,
        key: &Key,
        time: Time,
        separation: u64,
    ) -> (Self, Option<bool>) {
        let compared = Comparison::of_filter(state.find(key), time, separation);
        Self::of_read(rust, state, compared, |rust, by| {
            rust.delivers_under_filter(key, moved_time(time, by), separation)
        })
    }

    /// Of a read of destination order, likewise.
    pub fn of_order(
        rust: &Original,
        state: &State,
        key: &Key,
        time: Time,
        by_source: bool,
    ) -> (Self, Option<bool>) {
        let compared = Comparison::of_order(state.find(key), time, by_source);
        Self::of_read(rust, state, compared, |rust, by| {
            rust.delivers_under_order(key, moved_time(time, by), by_source)
        })
    }

    fn of_read(
        rust: &Original,
        state: &State,
        compared: Option<Comparison>,
        ask: impl Fn(&Original, i32) -> bool,
    ) -> (Self, Option<bool>) {
        let way = Self::of(compared.as_slice(), &[]);
        let told = match way {
            Self::Untimed | Self::AsItStands => Some(ask(rust, 0)),
            Self::Later => Original::at(&moved(state, LATER)).map(|rust| ask(&rust, LATER)),
            Self::Alone => None,
        };
        (way, told)
    }
}

/// How often the Rust judged in each way.
#[derive(Debug, Default, Clone, Copy)]
pub struct Ways {
    pub untimed: u64,
    pub as_they_stand: u64,
    pub later: u64,
    pub alone: u64,
}

impl Ways {
    pub fn see(&mut self, way: Way) {
        *match way {
            Way::Untimed => &mut self.untimed,
            Way::AsItStands => &mut self.as_they_stand,
            Way::Later => &mut self.later,
            Way::Alone => &mut self.alone,
        } += 1;
    }

    /// Of those that compare times.
    pub fn judged_of_timed(&self) -> (u64, u64) {
        let judged = self.as_they_stand + self.later;
        (judged, judged + self.alone)
    }
}

impl fmt::Display for Ways {
    fn fmt(&self, f: &mut fmt::Formatter<'_>) -> fmt::Result {
        let as_they_stand = self.untimed + self.as_they_stand;
        write!(
            f,
            "{as_they_stand} as they stand, {} 2^30 seconds later, {} not",
            self.later, self.alone
        )
    }
}

/// Whether a time 2^30 seconds later is one, and not before the epoch.
fn is_near(time: Time) -> bool {
    (-LATER..LATER).contains(&time.seconds)
}

/// Seconds that are not compared may wrap: they come back as they were.
fn moved_time(time: Time, by: i32) -> Time {
    Time { seconds: time.seconds.wrapping_add(by), ..time }
}

/// A state with every time moved.
fn moved(state: &State, by: i32) -> State {
    let mut state = state.clone();
    let times = state.instances.iter_mut().flat_map(|i| i.times_mut());
    times.flatten().for_each(|time| *time = moved_time(*time, by));
    state
}

/// Runs a call 2^30 seconds later than it stands. What that leaves, read back as
/// much earlier, is where `rust` is set.
pub fn call_later(rust: &mut Original, before: &State, sheet: &[u8]) -> Option<Turn> {
    let mut later = Original::at(&moved(before, LATER))?;
    let (time1, time2) = (Sheet::of(sheet)?.time1(), Sheet::of(sheet)?.time2());
    let Filled(sheet) =
        Filled(sheet.to_vec()).time1(moved_time(time1, LATER)).time2(moved_time(time2, LATER));
    let turn = later.call(Sheet::of(&sheet)?);
    *rust = Original::at(&moved(&later.state(), -LATER)).filter(|_| later.maps_agree())?;
    Some(turn)
}
