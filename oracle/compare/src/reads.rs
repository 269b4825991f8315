//! The library's reads beside the reading's, on the state of a list: as it
//! is, damaged, or lent with another length; the two filters beside the Rust's
//! too.

use judge::Way;
use lists::image::Buffer;
use lists::rng::Rng;
use lists::{Comparison, Image, Step, damage};
use original::Original;
use reading::bytes::Guid;
use reading::head::HEAD_BYTES;
use reading::layout::{FIGURES, LARGE, LOST_BYTES, OUT_BYTES, WRITERS_BYTES, pens_bytes};
use reading::{Sheet, State, reads};

use crate::case::{Case, Fault};
use crate::epoch_tally::Asked;
use crate::fresh::same_fresh;
use crate::head_read::HeadRead;
use crate::library;
use crate::read::{READ_BYTES, Read};
use crate::run::Parting;
use crate::tally::Tally;

/// Damage, and odd lengths, one in so many times.
const SPOILT_ONE_IN: usize = 6;

/// Lets the library make the fresh state, of either number of places, out of
/// noise.
pub fn any_fresh(rng: &mut Rng) -> Result<(), Parting> {
    let stated = [HEAD_BYTES, pens_bytes(rng.pick(&FIGURES)), WRITERS_BYTES, LOST_BYTES];
    let mut lengths = stated;
    if rng.one_in(SPOILT_ONE_IN) {
        let which = rng.below(4);
        lengths[which] = rng.pick(&[0, 1, stated[which] - 1, stated[which] + 1]);
    }
    let library =
        |[head, pens, writers, lost]: [&mut [u8]; 4]| library::fresh(head, pens, writers, lost);
    same_fresh(lengths, library).map(|_| ())
}

/// Asks both for every read, with the fields of a sheet.
pub fn same_reads(
    image: &Image,
    state: &State,
    sheet: Sheet<'_>,
    rng: &mut Rng,
    tally: &mut Tally,
) -> Result<(), Parting> {
    tally.read += 1;
    let pens = lent_pens(image, state, rng);
    for read in reads_of(state, sheet, rng) {
        let length = odd_answer(rng, READ_BYTES);
        let number = read.same(&pens, length, Read::ask)?;
        tally.reads += 1;
        if number == 0 && matches!(read, Read::Filter { .. } | Read::Order { .. }) {
            let yes = read.told(&pens, &mut []).is_ok_and(|told| told.yes);
            judged_filter(&read, &pens, yes, tally)?;
        }
    }
    let head = lent_head(image, state, rng);
    for read in HeadRead::ALL {
        let length = odd_answer(rng, read.stated());
        read.same(&head, length, HeadRead::ask)?;
        tally.reads += 1;
    }
    Ok(())
}

/// The Rust's word on a filter that was told, on the instances lent; it has none
/// on another read here.
pub fn judged_filter(
    read: &Read,
    pens: &[u8],
    yes: bool,
    tally: &mut Tally,
) -> Result<(), Parting> {
    let (Read::Filter { key, .. } | Read::Order { key, .. }) = read else { return Ok(()) };
    let instances = reads::table(pens).unwrap_or_default();
    let state = State { instances, ..State::fresh(LARGE) };
    let Some(rust) = Original::at(&state) else { return Ok(()) };
    let found = state.find(key);
    let (asked, compared, (way, told)) = match *read {
        Read::Filter { time, separation, .. } => (
            Asked::Filter,
            Comparison::of_filter(found, time, separation),
            Way::of_filter(&rust, &state, key, time, separation),
        ),
        Read::Order { time, by_source, .. } => (
            Asked::Order,
            Comparison::of_order(found, time, by_source != 0),
            Way::of_order(&rust, &state, key, time, by_source != 0),
        ),
        _ => return Ok(()),
    };
    tally.epoch.read(asked, compared, way);
    match told {
        Some(told) if told != yes => {
            let name = read.name();
            Err(Parting::Differs(format!("{name}: the Rust has {told}, the library {yes}")))
        }
        _ => Ok(()),
    }
}

/// Every read of instances, those writerless with a list of GUIDs and an Out of
/// another length now and then.
fn reads_of(state: &State, sheet: Sheet<'_>, rng: &mut Rng) -> Vec<Read> {
    let (key, guid) = (sheet.key(), sheet.guid());
    let by_source = if sheet.by_source() { 1 + rng.below(255) as u8 } else { 0 };
    let position = rng.pick(&[0, 1, state.instances.len(), 31, 32, 127, 128, usize::MAX]);
    let gone = gone(state, sheet, rng);
    let views = rng.pick(&[0, 1, 2, 3, 3, 4, u32::MAX]);
    let odd = rng.one_in(SPOILT_ONE_IN);
    let out = if odd { rng.pick(&[0, OUT_BYTES - 8, OUT_BYTES + 8]) } else { OUT_BYTES };
    vec![
        Read::Filter { key, time: sheet.time2(), separation: sheet.a() },
        Read::Order { key, time: sheet.time1(), by_source },
        Read::LastDelivered { key },
        Read::NextHandle { previous: 0 },
        Read::NextHandle { previous: sheet.handle() },
        Read::HandleAt { position },
        Read::Holder { key },
        Read::Lookup { guid },
        Read::WouldLeave { gone: gone.clone(), views },
        Read::Left { gone, views, out },
    ]
}

/// The sheet's GUID, an instance's set with or without one of its GUIDs, and
/// some writers; a list of another length now and then.
fn gone(state: &State, sheet: Sheet<'_>, rng: &mut Rng) -> Vec<u8> {
    let mut gone: Vec<Guid> = vec![sheet.guid()];
    for _ in 0..rng.below(3) {
        gone.extend(rng.pick_some(&state.instances).iter().flat_map(|i| &i.writers));
        gone.extend(rng.pick_some(&state.writers).map(|w| w.guid));
    }
    if rng.one_in(3) {
        gone.remove(rng.below(gone.len()));
    }
    let mut gone = gone.concat();
    if rng.one_in(SPOILT_ONE_IN) {
        gone.resize(rng.pick(&[0, 1, 15, 17, 4095, 4096, 4097, 4112]), 0);
    }
    gone
}

/// Mostly as they are; in one of four with the other number of places, which
/// cuts a large table off or adds zeros to a small one.
fn lent_pens(image: &Image, state: &State, rng: &mut Rng) -> Vec<u8> {
    let mut image = image.clone();
    let stated = pens_bytes(state.head.places);
    if rng.one_in(SPOILT_ONE_IN) {
        let mut step = Step::of(state.head.places, Vec::new());
        damage::any(rng, state, &mut step);
        step.damage.retain(|edit| edit.buffer == Buffer::Pens);
        step.damaged_head = None;
        image.damage(&step);
    }
    let length = match (rng.one_in(SPOILT_ONE_IN), rng.one_in(2)) {
        (true, _) => rng.pick(&[0, 511, stated - 512, stated - 1, stated + 1, stated + 512]),
        (false, true) => pens_bytes(rng.pick(&FIGURES)),
        (false, false) => stated,
    };
    image.pens.truncate(length);
    image.pens
}

/// As it is, damaged, or no head's.
fn lent_head(image: &Image, state: &State, rng: &mut Rng) -> Vec<u8> {
    let mut head = image.head;
    let mut step = Step::of(head.places, Vec::new());
    if rng.one_in(SPOILT_ONE_IN) {
        damage::any(rng, state, &mut step);
        head = step.damaged_head.unwrap_or(head);
    }
    let fault = rng.one_in(SPOILT_ONE_IN).then(|| Fault::any(rng, &head));
    Case { step, faults: fault.into_iter().collect() }.head_bytes(&head)
}

/// Mostly the stated one.
fn odd_answer(rng: &mut Rng, stated: usize) -> usize {
    let odd = rng.one_in(8 * SPOILT_ONE_IN);
    let lengths = [0, 1, stated - 1, stated + 1, 2 * stated];
    if odd { rng.pick(&lengths) } else { stated }
}
