//! 01's calls over 01's byte layouts, as one reads them there, with what the
//! requests of 02 change of them.
//!
//! The reading is plain on purpose: a call decodes head and buffers, acts on
//! the decoded state and lays it out again. It derives its calls from
//! ZeroDDS's instance_tracker.rs and liveliness_tracker.rs as 01 states them.

pub mod accounts;
pub mod answer;
pub mod bytes;
pub mod effects;
pub mod gaps;
pub mod handles;
pub mod head;
pub mod instances;
pub mod joined;
pub mod key_hash;
pub mod layout;
pub mod liveliness;
pub mod md5;
pub mod reads;
pub mod sheet;
pub mod state;
pub mod wire_time;

pub use answer::Answer;
pub use head::Head;
pub use sheet::Sheet;
pub use state::State;

use instances::Turn;
use layout::{LARGE, LOST_BYTES, OUT_BYTES, WRITERS_BYTES, is_figure, pens_bytes, places_of};

/// Readings that are wrong in one place; the comparison must catch each.
#[derive(Debug, Clone, Copy, PartialEq, Eq)]
pub enum Misreading {
    RevivesOnLastAssertion,
    RegisterSetsViewNew,
    UnregisterEmptiesWriters,
    TieToHigherGuid,
    PurgeOnlyAfterDelay,
    LapseDropsAllLost,
    /// An admit leaves the instance that it starts without an owner.
    FirstSampleUnowned,
    /// The first owner's time is the sample's, time 1.
    FirstOwnerAtSampleTime,
    /// Code 9 by itself gives the instance that it starts an owner.
    ObservedOwns,
    /// An instance that a sample revives counts as started: nobody is asked.
    RevivedHandedOver,
    /// Refusal 9 counts to 32 on the large console too.
    NineAtThirtyTwo,
    /// An accepted call leaves the large console's number of places.
    PlacesBecomeLarge,
    /// Seconds before the epoch count as 0 under filter, order and purge.
    Clamped,
    /// Under the filter alone.
    FilterClamped,
    /// Under destination order alone.
    OrderClamped,
    /// In autopurge alone.
    PurgeClamped,
    /// Before the epoch the nanoseconds are taken off.
    NanosecondsSubtracted,
    /// Autopurge counts a negative gap by its size.
    NegativeGapBySize,
    /// Autopurge takes out nothing by a negative gap, whatever the delay.
    NegativeGapStays,
}

impl Misreading {
    pub const ALL: [Self; 19] = [
        Self::RevivesOnLastAssertion,
        Self::RegisterSetsViewNew,
        Self::UnregisterEmptiesWriters,
        Self::TieToHigherGuid,
        Self::PurgeOnlyAfterDelay,
        Self::LapseDropsAllLost,
        Self::FirstSampleUnowned,
        Self::FirstOwnerAtSampleTime,
        Self::ObservedOwns,
        Self::RevivedHandedOver,
        Self::NineAtThirtyTwo,
        Self::PlacesBecomeLarge,
        Self::Clamped,
        Self::FilterClamped,
        Self::OrderClamped,
        Self::PurgeClamped,
        Self::NanosecondsSubtracted,
        Self::NegativeGapBySize,
        Self::NegativeGapStays,
    ];

    /// Those of request 7, the last of all.
    pub const BEFORE_EPOCH: &'static [Self] = Self::ALL.split_at(12).1;
}

/// The buffers lent with a call.
pub struct Lent<'a> {
    pub pens: &'a mut [u8],
    pub writers: &'a mut [u8],
    pub lost: &'a mut [u8],
    pub out: &'a mut [u8],
}

/// Makes the fresh state; the length of pens tells its number of places. The
/// number of a refusal, which writes nothing, or 0.
pub fn fresh(head: &mut Head, pens: &mut [u8], writers: &mut [u8], lost: &mut [u8]) -> u8 {
    let Some(places) = places_of(pens.len()) else { return 1 };
    if [writers.len(), lost.len()] != [WRITERS_BYTES, LOST_BYTES] {
        return 1;
    }
    State::fresh(places).write(head, pens, writers, lost);
    0
}

/// One call. A refused one writes nothing.
pub fn call(head: &mut Head, sheet: &[u8], lent: Lent<'_>) -> Answer {
    call_as(head, sheet, lent, None)
}

/// One call as a misreading has it.
pub fn call_as(
    head: &mut Head,
    sheet: &[u8],
    lent: Lent<'_>,
    misreading: Option<Misreading>,
) -> Answer {
    let (sheet, mut state) = match accept(head, sheet, &lent) {
        Ok(accepted) => accepted,
        Err(number) => return Answer::refused(number),
    };
    state.misreading = misreading;
    match act(&mut state, sheet) {
        Ok((answer, listed)) => {
            state.write(head, lent.pens, lent.writers, lent.lost);
            if misreading == Some(Misreading::PlacesBecomeLarge) {
                head.places = LARGE;
            }
            lent.out[..listed.len()].copy_from_slice(&listed);
            answer
        }
        Err(number) => Answer::refused(number),
    }
}

/// Refusals 1 to 8, lowest first but for a number of places that is neither
/// console's: no length can be judged by it.
fn accept<'a>(head: &Head, sheet: &'a [u8], lent: &Lent<'_>) -> Result<(Sheet<'a>, State), u8> {
    if !is_figure(head.places) {
        return Err(3);
    }
    let sheet = Sheet::of(sheet).ok_or(1)?;
    let lengths = [lent.pens.len(), lent.writers.len(), lent.lost.len(), lent.out.len()];
    if lengths != [pens_bytes(head.places), WRITERS_BYTES, LOST_BYTES, OUT_BYTES] {
        return Err(1);
    }
    if !sheet::known_code(sheet.code()) {
        return Err(2);
    }
    let state = State::read(head, lent.pens, lent.writers, lent.lost).ok_or(3)?;
    if let Some(number) = sheet.refusal() {
        return Err(number);
    }
    if sheet.code() == 40 && liveliness::acknowledges_too_much(&state, sheet) {
        return Err(8);
    }
    Ok((sheet, state))
}

/// The call itself, with refusals 9 to 13.
fn act(state: &mut State, sheet: Sheet<'_>) -> Turn {
    match sheet.code() {
        1..=21 => instances::call(state, sheet),
        32..=40 => liveliness::call(state, sheet),
        _ => joined::call(state, sheet),
    }
}
