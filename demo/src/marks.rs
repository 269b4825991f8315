//! Moments as marks on a line, and the gaps between them; both in bounded memory.

use crate::words::Moment;

const MOST: usize = 256;

/// Moments to draw. Where there are too many, every second one is left out and those to come stand further
/// apart.
#[derive(Debug, Clone, Default)]
pub struct Marks {
    marks: Vec<Moment>,
    apart: Moment,
}

impl Marks {
    pub fn add(&mut self, at: Moment) {
        if self.marks.last().is_some_and(|last| at.saturating_sub(*last) < self.apart) {
            return;
        }
        self.marks.push(at);
        if self.marks.len() > MOST {
            let ends = (self.marks.first(), self.marks.last());
            let spread = ends.1.zip(ends.0).map_or(0, |(last, first)| last.saturating_sub(*first));
            self.apart = (spread / (MOST as Moment / 2)).max(1);
            let mut place = 0;
            self.marks.retain(|_| {
                place += 1;
                place % 2 == 1
            });
        }
    }

    pub fn all(&self) -> &[Moment] {
        &self.marks
    }
}

/// The gaps between moments that follow one another; equal moments count as one.
#[derive(Debug, Clone, Copy, Default)]
pub struct Gaps {
    pub count: u64,
    last: Option<Moment>,
    /// The least and the greatest gap.
    pub ends: Option<(Moment, Moment)>,
}

impl Gaps {
    /// The gap before this moment, where there is one.
    pub fn add(&mut self, at: Moment) -> Option<Moment> {
        self.count += 1;
        let gap = self.last.map(|last| at.saturating_sub(last)).filter(|gap| *gap > 0);
        if let Some(gap) = gap {
            let (least, greatest) = self.ends.unwrap_or((gap, gap));
            self.ends = Some((least.min(gap), greatest.max(gap)));
        }
        self.last = Some(self.last.map_or(at, |last| last.max(at)));
        gap
    }

    pub fn last(&self) -> Option<Moment> {
        self.last
    }
}

#[cfg(test)]
mod tests {
    use super::*;

    #[test]
    fn many_marks_stay_few() {
        let mut marks = Marks::default();
        (0..1_000_000).for_each(|at| marks.add(at));
        assert!((MOST / 4..=MOST + 1).contains(&marks.all().len()));
        assert!(marks.all().windows(2).all(|w| w[0] < w[1]));
        assert!(marks.all().last().is_some_and(|last| *last > 900_000));
    }

    #[test]
    fn gaps_are_between_different_moments() {
        let mut gaps = Gaps::default();
        let all: Vec<_> = [5, 5, 9, 8, 20].map(|at| gaps.add(at)).into();
        assert_eq!(all, [None, None, Some(4), None, Some(11)]);
        assert_eq!((gaps.count, gaps.ends, gaps.last()), (5, Some((4, 11)), Some(20)));
    }
}
