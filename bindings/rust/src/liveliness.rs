//! The calls on the writers' liveliness: codes 32 to 40.
//!
//! Derives from liveliness_tracker.rs of ZeroDDS.
//! Copyright 2026 ZeroDDS Contributors. SPDX-License-Identifier: Apache-2.0. Changed: written anew, each call
//! by a sheet to the library, and refusals answered.

use crate::state::Buffers;
use crate::{LivelinessChangedStatus, LivelinessKind, Refusal, Sheet, State};
#[cfg(feature = "alloc")]
use alloc::vec::Vec;
use core::time::Duration;

/// Calls on the writers.
impl<B: Buffers> State<B> {
    /// A writer is discovered: it takes this kind and this lease. A new writer is unasserted. A departed one comes
    /// back not alive, with a last assertion of 0. An automatic writer that was new or departed is then asserted. Any
    /// other writer keeps its state. Whether a count changed.
    ///
    /// Refused as 5 or 11.
    ///
    /// ```
    /// use dcps::{LivelinessKind, State};
    /// use std::time::Duration;
    ///
    /// let mut state = State::new();
    /// let lease = Some(Duration::from_secs(2));
    /// // An automatic writer is alive from its match on, a manual one from its first assertion on.
    /// assert!(state.matched([1; 16], LivelinessKind::Automatic, lease, Duration::ZERO)?);
    /// assert!(!state.matched([2; 16], LivelinessKind::ManualByTopic, lease, Duration::ZERO)?);
    /// # Ok::<(), dcps::Refusal>(())
    /// ```
    pub fn matched(
        &mut self,
        writer: [u8; 16],
        kind: LivelinessKind,
        lease: Option<Duration>,
        now: Duration,
    ) -> Result<bool, Refusal> {
        Ok(self.call(&Sheet::matched(&writer, kind, lease, now))?.yes)
    }

    /// A writer was deleted: its record goes, unless it is departed. Whether a count changed.
    ///
    /// ```
    /// use dcps::{LivelinessKind, State};
    /// use std::time::Duration;
    ///
    /// let mut state = State::new();
    /// state.matched([1; 16], LivelinessKind::Automatic, None, Duration::ZERO)?;
    /// assert!(state.unmatched([1; 16])?);
    /// assert!(!state.unmatched([1; 16])?);
    /// # Ok::<(), dcps::Refusal>(())
    /// ```
    pub fn unmatched(&mut self, writer: [u8; 16]) -> Result<bool, Refusal> {
        Ok(self.call(&Sheet::unmatched(&writer))?.yes)
    }

    /// A writer was lost with its participant. An unasserted writer's record goes. Any other one becomes departed: it
    /// counts as not alive until it is matched again and asserted. Whether a count changed.
    ///
    /// ```
    /// use dcps::{LivelinessKind, State, WriterLiveliness};
    /// use std::time::Duration;
    ///
    /// let mut state = State::new();
    /// state.matched([1; 16], LivelinessKind::Automatic, None, Duration::ZERO)?;
    /// assert!(state.lost_with_participant([1; 16])?);
    /// let writer = state.writers().next().expect("it keeps a record");
    /// assert_eq!(writer.state, WriterLiveliness::Departed);
    /// # Ok::<(), dcps::Refusal>(())
    /// ```
    pub fn lost_with_participant(&mut self, writer: [u8; 16]) -> Result<bool, Refusal> {
        Ok(self.call(&Sheet::lost_with_participant(&writer))?.yes)
    }

    /// A writer asserted itself. This also asserts the automatic and the by-participant writers of its participant.
    /// Whether a count changed.
    ///
    /// Refused as 5.
    ///
    /// ```
    /// use dcps::{LivelinessKind, State};
    /// use std::time::Duration;
    ///
    /// let mut state = State::new();
    /// state.matched([1; 16], LivelinessKind::ManualByTopic, None, Duration::ZERO)?;
    /// assert!(state.writer_asserted([1; 16], Duration::from_secs(1))?);
    /// # Ok::<(), dcps::Refusal>(())
    /// ```
    pub fn writer_asserted(&mut self, writer: [u8; 16], now: Duration) -> Result<bool, Refusal> {
        Ok(self.call(&Sheet::writer_asserted(&writer, now))?.yes)
    }

    /// A participant was heard from: asserts its automatic writers and, if `manual` is set, its by-participant
    /// writers. Whether a count changed.
    ///
    /// Refused as 5.
    ///
    /// ```
    /// use dcps::{LivelinessKind, State};
    /// use std::time::Duration;
    ///
    /// let mut state = State::new();
    /// state.matched([1; 16], LivelinessKind::ManualByParticipant, None, Duration::ZERO)?;
    /// assert!(!state.participant_asserted([1; 12], false, Duration::from_secs(1))?);
    /// assert!(state.participant_asserted([1; 12], true, Duration::from_secs(1))?);
    /// # Ok::<(), dcps::Refusal>(())
    /// ```
    pub fn participant_asserted(
        &mut self,
        prefix: [u8; 12],
        manual: bool,
        now: Duration,
    ) -> Result<bool, Refusal> {
        Ok(self.call(&Sheet::participant_asserted(prefix, manual, now))?.yes)
    }

    /// Alive writers whose lease ran out become not alive, and go to lost. Whether a count changed, and when the next
    /// lease runs out.
    ///
    /// Refused as 5 or 12. The writers stay in the sets of their instances; [`State::lapse`] takes them out.
    ///
    /// ```
    /// use dcps::{LivelinessKind, State};
    /// use std::time::Duration;
    ///
    /// let mut state = State::new();
    /// let (at, lease) = (Duration::from_nanos(100), Duration::from_nanos(10));
    /// state.matched([1; 16], LivelinessKind::Automatic, Some(lease), at)?;
    /// assert_eq!(state.expire(Duration::from_nanos(109))?, (false, Some(at + lease)));
    /// assert_eq!(state.expire(Duration::from_nanos(110))?, (true, None));
    /// # Ok::<(), dcps::Refusal>(())
    /// ```
    pub fn expire(&mut self, now: Duration) -> Result<(bool, Option<Duration>), Refusal> {
        let answer = self.call(&Sheet::expire(now))?;
        Ok((answer.yes, answer.next_due.map(Duration::from_nanos)))
    }

    /// The writers that expired since the last call, in the order of expiry. Lost is then empty.
    ///
    /// ```
    /// use dcps::{LivelinessKind, State};
    /// use std::time::Duration;
    ///
    /// let mut state = State::new();
    /// let second = Duration::from_secs(1);
    /// state.matched([1; 16], LivelinessKind::Automatic, Some(second), second)?;
    /// state.expire(2 * second)?;
    /// assert_eq!(state.take_lost()?, [[1; 16]]);
    /// assert!(state.take_lost()?.is_empty());
    /// # Ok::<(), dcps::Refusal>(())
    /// ```
    #[cfg(feature = "alloc")]
    pub fn take_lost(&mut self) -> Result<Vec<[u8; 16]>, Refusal> {
        let answer = self.call(&Sheet::take_lost())?;
        Ok(self.listed_guids(answer.listed).copied().collect())
    }

    /// The status. Both its changes are then 0.
    ///
    /// ```
    /// use dcps::{LivelinessKind, State};
    /// use std::time::Duration;
    ///
    /// let mut state = State::new();
    /// state.matched([1; 16], LivelinessKind::Automatic, None, Duration::ZERO)?;
    /// assert_eq!(state.take_status()?.alive_count_change, 1);
    /// assert_eq!(state.take_status()?.alive_count_change, 0);
    /// # Ok::<(), dcps::Refusal>(())
    /// ```
    pub fn take_status(&mut self) -> Result<LivelinessChangedStatus, Refusal> {
        Ok(self.call(&Sheet::take_status())?.status)
    }

    /// A listener has got a status: subtracts the status's changes from those pending. Later changes stay pending.
    ///
    /// Refused as 8.
    ///
    /// ```
    /// use dcps::{LivelinessChangedStatus, LivelinessKind, State};
    /// use std::time::Duration;
    ///
    /// let mut state = State::new();
    /// state.matched([1; 16], LivelinessKind::Automatic, None, Duration::ZERO)?;
    /// let reported = LivelinessChangedStatus { alive_count_change: 1, ..Default::default() };
    /// state.acknowledge(&reported)?;
    /// assert_eq!(state.head().alive_change, 0);
    /// # Ok::<(), dcps::Refusal>(())
    /// ```
    pub fn acknowledge(&mut self, reported: &LivelinessChangedStatus) -> Result<(), Refusal> {
        self.call(&Sheet::acknowledge(reported))?;
        Ok(())
    }
}
