//! The joined calls, 48 to 51: what a reader does for a sample, for the clock and for a writer that leaves.

use crate::state::Buffers;
use crate::{InstanceHandle, InstanceStateKind, KeyHash, Refusal, Sheet, State, Time};
#[cfg(feature = "alloc")]
use {alloc::vec::Vec, core::time::Duration};

/// A received sample, and what the reader's QoS asks of it, for [`State::admit`]. Both its [`Time`]s may be before
/// the epoch.
///
/// ```
/// use dcps::{Sample, Time};
///
/// let sample = Sample::new([1; 16], [9; 16], Time { sec: 3, nanosec: 0 });
/// assert_eq!((sample.filter_ts, sample.max_instances), (sample.order_ts, -1));
/// ```
#[derive(Debug, Clone, PartialEq, Eq)]
pub struct Sample<'a> {
    /// The instance.
    pub keyhash: KeyHash,
    /// The serialized key. It is stored if the instance has none.
    pub key_holder: &'a [u8],
    /// The writer.
    pub writer: [u8; 16],
    /// The writer's strength.
    pub strength: i32,
    /// When the sample was written: for last sample and the destination order.
    pub order_ts: Time,
    /// Now: for the filter and for ownership.
    pub filter_ts: Time,
    /// Whether the destination order goes by source time.
    pub by_source_timestamp: bool,
    /// The least time between two samples of an instance.
    pub min_separation_nanos: u128,
    /// The deadline of ownership; `None` means that there is none.
    pub deadline_nanos: Option<u128>,
    /// The greatest number of instances; a negative number means no limit.
    pub max_instances: i32,
}

impl Sample<'_> {
    /// A sample with one time for both, without order by source, filter, deadline and limit, at strength 0.
    ///
    /// ```
    /// use dcps::{Sample, State, Time};
    ///
    /// let admission = State::new().admit(&Sample::new([1; 16], [9; 16], Time::ZERO))?;
    /// assert!(admission.is_admitted());
    /// # Ok::<(), dcps::Refusal>(())
    /// ```
    #[must_use]
    pub fn new(keyhash: KeyHash, writer: [u8; 16], time: Time) -> Self {
        Self {
            keyhash,
            key_holder: &[],
            writer,
            strength: 0,
            order_ts: time,
            filter_ts: time,
            by_source_timestamp: false,
            min_separation_nanos: 0,
            deadline_nanos: None,
            max_instances: -1,
        }
    }
}

/// What became of a sample. All but `Admitted` change nothing, and do not record the writer: after outcomes 1, 2 and
/// 4 call [`State::note_writer`] while the instance is alive.
#[derive(Debug, Clone, Copy, PartialEq, Eq)]
pub enum Admission {
    /// Outcome 0: it is admitted.
    Admitted {
        /// The instance.
        handle: InstanceHandle,
        /// How many of its samples are not taken yet, this one included.
        samples_in_cache: u32,
        /// Whether it is new to the reader.
        view_new: bool,
        /// Its kind.
        kind: InstanceStateKind,
        /// How often it came back after a dispose.
        disposed_generation_count: i32,
        /// How often it came back after its last writer left.
        no_writers_generation_count: i32,
    },
    /// Outcome 1: the order is by source, and its time is not later than that of the last sample delivered.
    DestinationOrder,
    /// Outcome 2: it is too close to the last one, by the filter.
    TimeBasedFilter,
    /// Outcome 3: the instance is new, and the limit is reached.
    MaxInstances,
    /// Outcome 4: another writer owns the instance.
    ExclusiveOwnership,
}

impl Admission {
    /// Whether the sample is admitted.
    ///
    /// ```
    /// assert!(!dcps::Admission::MaxInstances.is_admitted());
    /// ```
    #[must_use]
    pub const fn is_admitted(&self) -> bool {
        matches!(self, Self::Admitted { .. })
    }
}

/// What [`State::lapse`] did.
#[cfg(feature = "alloc")]
#[derive(Debug, Clone, PartialEq, Eq)]
pub struct Lapse {
    /// Whether a writer expired.
    pub changed: bool,
    /// When the next lease runs out.
    pub next_due: Option<Duration>,
    /// The instances that lost their last writer, in the order of their keys.
    pub writerless: Vec<InstanceHandle>,
    /// How many instances lost their owner.
    pub owners_cleared: usize,
}

/// What [`State::part`] or [`State::depart`] did.
#[cfg(feature = "alloc")]
#[derive(Debug, Clone, PartialEq, Eq)]
pub struct Parting {
    /// Whether the number of alive or of not alive writers changed.
    pub changed: bool,
    /// The instances that lost their last writer, in the order of their keys.
    pub writerless: Vec<InstanceHandle>,
    /// How many instances lost their owner.
    pub owners_cleared: usize,
}

/// Calls on instances and writers together.
impl<B: Buffers> State<B> {
    /// Admits a sample. Destination order, filter, limit and ownership are asked, in this order. Then the sample is
    /// counted, and its writer joins the instance's set. If the sample starts its instance, the writer owns the
    /// instance, at its strength, from `filter_ts` on. Liveliness is not touched: call [`State::writer_asserted`]
    /// before it.
    ///
    /// Refused as 4, 6, 9, 10 or 13.
    ///
    /// ```
    /// use dcps::{Admission, Sample, State, Time};
    ///
    /// let mut state = State::new();
    /// let mut sample = Sample::new([1; 16], [9; 16], Time { sec: 5, nanosec: 0 });
    /// sample.min_separation_nanos = 1_000_000_000;
    /// assert!(state.admit(&sample)?.is_admitted());
    /// sample.filter_ts = Time { sec: 5, nanosec: 999_999_999 };
    /// assert_eq!(state.admit(&sample)?, Admission::TimeBasedFilter);
    ///
    /// // A clock that starts negative: one second apart, across the epoch.
    /// let half = |sec| Time { sec, nanosec: 500_000_000 };
    /// let mut sample = Sample { min_separation_nanos: 1_000_000_000, ..Sample::new([3; 16], [9; 16], half(-1)) };
    /// assert!(state.admit(&sample)?.is_admitted());
    /// sample.filter_ts = Time::ZERO;
    /// assert_eq!(state.admit(&sample)?, Admission::TimeBasedFilter);
    /// sample.filter_ts = half(0);
    /// assert!(state.admit(&sample)?.is_admitted());
    ///
    /// // The first writer owns a new instance, and turns a weaker one away.
    /// let at = |sec| Time { sec, nanosec: 0 };
    /// let first = Sample { strength: 5, ..Sample::new([2; 16], [9; 16], at(5)) };
    /// let weaker = Sample { strength: 1, ..Sample::new([2; 16], [8; 16], at(6)) };
    /// assert!(state.admit(&first)?.is_admitted());
    /// assert_eq!(state.owner_of(&[2; 16]), Some([9; 16]));
    /// assert_eq!(state.admit(&weaker)?, Admission::ExclusiveOwnership);
    /// # Ok::<(), dcps::Refusal>(())
    /// ```
    pub fn admit(&mut self, sample: &Sample<'_>) -> Result<Admission, Refusal> {
        let answer = self.call(&Sheet::admit(sample))?;
        Ok(match answer.outcome {
            0 => Admission::Admitted {
                handle: answer.handle,
                samples_in_cache: answer.samples,
                view_new: answer.view_new,
                kind: answer.kind,
                disposed_generation_count: answer.disposed_generation_count,
                no_writers_generation_count: answer.no_writers_generation_count,
            },
            1 => Admission::DestinationOrder,
            2 => Admission::TimeBasedFilter,
            3 => Admission::MaxInstances,
            _ => Admission::ExclusiveOwnership,
        })
    }

    /// [`State::expire`]. Then each writer that expired in this call leaves its instances, and those that it owned
    /// lose their owner. `timestamp` is when instances lost their last writer.
    ///
    /// Refused as 4, 5 or 12.
    ///
    /// ```
    /// use dcps::{LivelinessKind, Sample, State, Time};
    /// use std::time::Duration;
    ///
    /// let mut state = State::new();
    /// let second = Duration::from_secs(1);
    /// state.matched([9; 16], LivelinessKind::Automatic, Some(second), second)?;
    /// state.admit(&Sample::new([1; 16], [9; 16], Time { sec: 1, nanosec: 0 }))?;
    /// let lapse = state.lapse(2 * second, Some(Time { sec: 2, nanosec: 0 }))?;
    /// assert_eq!(lapse.writerless, [state.lookup(&[1; 16]).expect("it is there")]);
    /// # Ok::<(), dcps::Refusal>(())
    /// ```
    #[cfg(feature = "alloc")]
    pub fn lapse(&mut self, now: Duration, timestamp: Option<Time>) -> Result<Lapse, Refusal> {
        let answer = self.call(&Sheet::lapse(now, timestamp))?;
        Ok(Lapse {
            changed: answer.yes,
            next_due: answer.next_due.map(Duration::from_nanos),
            writerless: self.listed_handles(answer.listed).collect(),
            owners_cleared: answer.count as usize,
        })
    }

    /// [`State::unmatched`]. Then the writer leaves its instances, even if it is not matched, and those that it owned
    /// lose their owner.
    ///
    /// Refused as 4.
    ///
    /// ```
    /// use dcps::{Sample, State, Time};
    ///
    /// let mut state = State::new();
    /// state.admit(&Sample::new([1; 16], [9; 16], Time::ZERO))?;
    /// let parting = state.part([9; 16], Some(Time { sec: 7, nanosec: 0 }))?;
    /// assert_eq!(parting.writerless.len(), 1);
    /// # Ok::<(), dcps::Refusal>(())
    /// ```
    #[cfg(feature = "alloc")]
    pub fn part(&mut self, writer: [u8; 16], timestamp: Option<Time>) -> Result<Parting, Refusal> {
        self.parting(&Sheet::part(&writer, timestamp))
    }

    /// [`State::lost_with_participant`], and then the same as in [`State::part`].
    ///
    /// Refused as 4.
    ///
    /// ```
    /// use dcps::{LivelinessKind, State};
    /// use std::time::Duration;
    ///
    /// let mut state = State::new();
    /// state.matched([9; 16], LivelinessKind::Automatic, None, Duration::ZERO)?;
    /// assert!(state.depart([9; 16], None)?.changed);
    /// assert_eq!(state.head().not_alive, 1);
    /// # Ok::<(), dcps::Refusal>(())
    /// ```
    #[cfg(feature = "alloc")]
    pub fn depart(
        &mut self,
        writer: [u8; 16],
        timestamp: Option<Time>,
    ) -> Result<Parting, Refusal> {
        self.parting(&Sheet::depart(&writer, timestamp))
    }

    #[cfg(feature = "alloc")]
    fn parting(&mut self, sheet: &Sheet) -> Result<Parting, Refusal> {
        let answer = self.call(sheet)?;
        Ok(Parting {
            changed: answer.yes,
            writerless: self.listed_handles(answer.listed).collect(),
            owners_cleared: answer.count as usize,
        })
    }
}
