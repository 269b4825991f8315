//! What a day shows of one writer: its lease, its assertions and its samples.

use crate::marks::{Gaps, Marks};
use crate::mirror::WriterChange;
use crate::words::{moment_of_clock, Moment};
use dcps::WriterLiveliness;
use std::time::Duration;

#[derive(Debug, Default)]
pub struct Writer {
    /// As offered last.
    pub lease: Option<Duration>,
    pub matched: bool,
    /// Its samples, those turned away among them.
    pub samples: Gaps,
    pub turned_away: u64,
    /// How often its lease ran out, and how often so while its samples came within it.
    pub expired: u64,
    pub expired_drawing: u64,
    /// The lease that ran out last.
    pub expired_lease: Option<Duration>,
    pub asserted: Marks,
    pub drawn: Marks,
    /// When it was alive, by the clocks of its assertions and its lease; one without an end by an endless lease. Not to be
    /// drawn where clocks count from elsewhere than times.
    pub alive: Vec<(Moment, Option<Moment>)>,
}

impl Writer {
    pub fn sample(&mut self, at: Moment, admitted: bool) {
        self.samples.add(at);
        self.drawn.add(at);
        self.turned_away += u64::from(!admitted);
    }

    /// Follows a change; `now` is none where nothing says how long ago its samples came.
    pub fn follow(&mut self, change: &WriterChange, now: Option<Moment>) {
        if change.expired() {
            self.expired += 1;
            self.expired_lease = self.lease;
            let silent = now.zip(self.samples.last()).map(|(now, last)| now.saturating_sub(last));
            let lease = self.lease.map(moment_of_clock);
            self.expired_drawing += u64::from(silent.zip(lease).is_some_and(|(s, l)| s < l));
        }
        match change.after {
            Some(after) if after.state == WriterLiveliness::Alive => {
                self.offered(after.lease);
                let asserted = moment_of_clock(after.last_assert);
                let until = after.lease.map(|l| asserted.saturating_add(moment_of_clock(l)));
                let was = change.before.map(|b| (b.state, b.last_assert));
                if was != Some((after.state, after.last_assert)) {
                    self.asserted.add(asserted);
                }
                self.cover(asserted, until);
            }
            Some(after) => {
                if after.state != WriterLiveliness::Departed {
                    self.offered(after.lease);
                }
                self.cut(now);
            }
            None => self.cut(now),
        }
    }

    fn offered(&mut self, lease: Option<Duration>) {
        self.lease = lease;
        self.matched = true;
    }

    fn cover(&mut self, asserted: Moment, until: Option<Moment>) {
        match self.alive.last_mut() {
            Some((from, end)) if *from <= asserted && end.is_none_or(|end| asserted <= end) => {
                *end = until;
            }
            _ => self.alive.push((asserted, until)),
        }
    }

    fn cut(&mut self, now: Option<Moment>) {
        if let Some((now, (from, end))) = now.zip(self.alive.last_mut()) {
            let cut = now.max(*from);
            *end = Some(end.map_or(cut, |end| end.min(cut)));
        }
    }
}
