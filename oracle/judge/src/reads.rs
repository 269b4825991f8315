//! Section 7's reads, of the reading and of the Rust, on one state.

use lists::fill::Filled;
use lists::rng::Rng;
use lists::{Image, Step};
use original::Original;
use reading::bytes::Guid;
use reading::layout::{FIGURES, OUT_BYTES, pens_bytes};
use reading::{Sheet, State, reads};

use crate::ways::Way;

/// Pens with either number of places that takes all instances.
fn lent_pens<'a>(image: &'a Image, state: &State, rng: &mut Rng) -> &'a [u8] {
    let places = rng.pick(&FIGURES);
    let takes = state.instances.len() <= usize::from(places);
    &image.pens[..pens_bytes(if takes { places } else { state.head.places })]
}

/// Asks both for every read, with the fields of a sheet; how the Rust judged the
/// two filters that were not refused.
pub fn same_reads(
    rust: &Original,
    image: &Image,
    state: &State,
    sheet: Sheet<'_>,
    rng: &mut Rng,
) -> Result<[Option<Way>; 2], String> {
    let pens = lent_pens(image, state, rng);
    let (key, time1, time2) = (sheet.key(), sheet.time1(), sheet.time2());
    let filter = reads::delivers_under_filter(pens, &key, time2, sheet.a());
    let rust_filter = || Way::of_filter(rust, state, &key, time2, sheet.a());
    let filter_way = same_filter("filter", filter, time2.in_range().then(rust_filter))?;
    let order = reads::delivers_under_order(pens, &key, time1, sheet.by_source());
    let rust_order = || Way::of_order(rust, state, &key, time1, sheet.by_source());
    let order_way = same_filter("order", order, time1.in_range().then(rust_order))?;
    same("last delivered", reads::last_delivered(pens, &key), Some(rust.last_delivered(&key)))?;
    for handle in [0, sheet.handle()] {
        let next = reads::next_handle_after(pens, handle);
        same("next handle", next, Some(rust.next_handle_after(handle)))?;
    }
    let offered = sheet.key();
    let holder = reads::holder_in_force(pens, &key, &offered);
    same("holder", Ok(holder), Some(rust.holder(&key).unwrap_or(offered.to_vec())))?;
    same("status", reads::status(&image.head), Some(rust.status()))?;
    same("changes", reads::changes(&image.head), Some(rust.changes()))?;
    same_writerless(rust, pens, state, sheet, rng)?;
    same_ownership(state, sheet)?;
    Ok([filter_way, order_way])
}

/// A filter as the Rust judges it, where its time is not refused as 4.
fn same_filter(
    what: &str,
    reading: Result<bool, u8>,
    rust: Option<(Way, Option<bool>)>,
) -> Result<Option<Way>, String> {
    let told = rust.and_then(|(_, told)| told);
    let alone = rust.is_some_and(|(way, _)| way == Way::Alone);
    if !alone || reading.is_err() {
        same(what, reading, told)?;
    }
    Ok(rust.map(|(way, _)| way))
}

fn same<T: PartialEq + std::fmt::Debug>(
    what: &str,
    reading: Result<T, u8>,
    rust: Option<T>,
) -> Result<(), String> {
    match (reading, rust) {
        (Ok(reading), Some(rust)) if reading == rust => Ok(()),
        (Err(4), None) => Ok(()),
        (reading, rust) => Err(format!("{what}: the Rust has {rust:?}, the reading {reading:?}")),
    }
}

/// The list is the sheet's GUID, some instance's set with or without one of
/// its GUIDs, and some writers.
fn same_writerless(
    rust: &Original,
    pens: &[u8],
    state: &State,
    sheet: Sheet<'_>,
    rng: &mut Rng,
) -> Result<(), String> {
    let mut gone: Vec<Guid> = vec![sheet.guid()];
    for _ in 0..rng.below(3) {
        gone.extend(rng.pick_some(&state.instances).iter().flat_map(|i| &i.writers));
        gone.extend(rng.pick_some(&state.writers).map(|w| w.guid));
    }
    if rng.one_in(3) {
        gone.remove(rng.below(gone.len()));
    }
    let views = rng.pick(&[0, 1, 2, 3, 3, 4, u32::MAX]);
    let list = gone.concat();
    let would = reads::would_leave_writerless(pens, &list, views);
    same("would leave writerless", would, Some(rust.would_leave_writerless(&gone, views)))?;
    let mut out = [0xee; OUT_BYTES];
    let listed = reads::left_writerless(pens, &list, views, &mut out);
    let handles = rust.left_writerless(&gone, views);
    same("left writerless", listed, Some(handles.len()))?;
    let mut expected = [0xee; OUT_BYTES];
    for (handle, place) in handles.iter().zip(expected.chunks_mut(8)) {
        place.copy_from_slice(&handle.to_be_bytes());
    }
    same("Out of left writerless", Ok(out), Some(expected))
}

/// Ownership asked without a time is code 16 at (0,0) without a deadline.
fn same_ownership(state: &State, sheet: Sheet<'_>) -> Result<(), String> {
    let Some(rust) = Original::at(state) else { return Ok(()) };
    let (key, guid, strength) = (sheet.key(), sheet.guid(), sheet.strength());
    let yes = rust.accepts_sample(&key, guid, strength);
    let asked = Filled::code(16).key(key).guid(guid).strength(strength);
    let mut image = Image::of_state(state);
    let (answer, _) = image.step(&Step::of(state.head.places, asked.0), reading::call);
    same("ownership", Ok(answer.yes), Some(yes))?;
    if image.state() == Some(rust.state()) {
        Ok(())
    } else {
        Err("ownership: the states differ".into())
    }
}
