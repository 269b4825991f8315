//! Wrong implementations part from the reading, with or without the Rust.

use lists::format::{Record, records};
use lists::replay::replay;
use lists::run::against_the_reading;
use lists::{Image, Step, before_epoch};
use reading::layout::{LARGE, SMALL, is_figure, pens_bytes, places_of};
use reading::sheet::known_code;
use reading::{Answer, Head, Lent, Misreading, call, call_as};

const CALLS: u64 = 20_000;

#[test]
fn the_reading_agrees_with_itself() {
    assert!(against_the_reading(1.., CALLS, call).is_ok());
}

#[test]
fn each_misreading_parts() {
    for misreading in Misreading::ALL {
        let wrong = |head: &mut _, sheet: &[u8], lent: reading::Lent<'_>| {
            call_as(head, sheet, lent, Some(misreading))
        };
        assert!(against_the_reading(1.., CALLS, wrong).is_err(), "{misreading:?}");
    }
}

/// The lists of request 7 that each of its misreadings answers differently.
#[test]
fn each_misreading_of_times_parts_on_its_lists() {
    let (filters, orders) = (["filter before", "filter across"], ["order before", "order across"]);
    let (purges, back, ends) = (["purge before", "purge across"], ["purge back"], ["ends of time"]);
    let of = |lists: &[&[&'static str]]| lists.concat();
    for (misreading, expected) in [
        (Misreading::Clamped, of(&[&filters, &orders, &purges, &back, &ends])),
        (Misreading::FilterClamped, of(&[&filters, &ends])),
        (Misreading::OrderClamped, of(&[&orders])),
        (Misreading::PurgeClamped, of(&[&purges, &back, &ends])),
        (Misreading::NanosecondsSubtracted, of(&[&filters, &orders, &purges])),
        (Misreading::NegativeGapBySize, of(&[&back])),
        (Misreading::NegativeGapStays, of(&[&back])),
    ] {
        assert!(Misreading::BEFORE_EPOCH.contains(&misreading));
        let answers = |sheets: &[lists::fill::Filled], misreading| {
            let mut image = Image::fresh(SMALL);
            let steps = sheets.iter().map(|sheet| Step::of(SMALL, sheet.0.clone()));
            let call = |head: &mut Head, sheet: &[u8], lent: Lent<'_>| {
                call_as(head, sheet, lent, misreading)
            };
            steps.map(|step| image.step(&step, call).0).collect::<Vec<Answer>>()
        };
        let parted = before_epoch::lists()
            .into_iter()
            .filter(|(_, sheets)| answers(sheets, None) != answers(sheets, Some(misreading)));
        let names: Vec<&str> = parted.map(|(name, _)| name).collect();
        assert_eq!(names, expected, "{misreading:?}");
    }
}

/// One that answers rightly and writes a byte where it should not.
#[test]
fn a_stray_byte_parts() {
    let stray = |head: &mut _, sheet: &[u8], lent: reading::Lent<'_>| {
        let reading::Lent { pens, writers, lost, out } = lent;
        let again = reading::Lent { pens, writers, lost, out: &mut *out };
        let answer = call(head, sheet, again);
        if let (39, Some(last)) = (sheet.get(81).copied().unwrap_or(0), out.last_mut()) {
            *last ^= 1;
        }
        answer
    };
    assert_eq!(against_the_reading(1.., CALLS, stray).map_err(|p| p.what), Err("Out"));
}

type Wrong = fn(&mut Head, &[u8], Lent<'_>) -> Answer;

/// Wrong places of the refusal of another number of places, of which the Rust
/// has no word, and wrong lengths of pens.
const WRONG_PLACES: [(&str, Wrong); 5] = [
    ("another number after the lengths", |head, sheet, lent| {
        let stated = [256, pens_bytes(SMALL), 5120, 4096, 4096];
        let pens = places_of(lent.pens.len()).map_or(0, |_| pens_bytes(SMALL));
        let lengths = [sheet.len(), pens, lent.writers.len(), lent.lost.len(), lent.out.len()];
        let late = !is_figure(head.places) && lengths != stated;
        if late { Answer::refused(1) } else { call(head, sheet, lent) }
    }),
    ("another number after the code", |head, sheet, lent| {
        let unknown = sheet.len() == 256 && !known_code(sheet[81]);
        let late = !is_figure(head.places) && unknown;
        if late { Answer::refused(2) } else { call(head, sheet, lent) }
    }),
    ("another number taken for the large console's", |head, sheet, lent| {
        let mut taken = *head;
        taken.places = if is_figure(head.places) { head.places } else { LARGE };
        let answer = call(&mut taken, sheet, lent);
        *head = if answer.number == 0 { taken } else { *head };
        answer
    }),
    ("32 with the large console's pens", |head, sheet, lent| {
        let Lent { pens, writers, lost, out } = lent;
        let longer = head.places == SMALL && pens.len() == pens_bytes(LARGE);
        let pens = if longer { &mut pens[..pens_bytes(SMALL)] } else { pens };
        call(head, sheet, Lent { pens, writers, lost, out })
    }),
    ("the length of pens alone", |head, sheet, lent| {
        let mut told = *head;
        told.places = places_of(lent.pens.len()).unwrap_or(head.places);
        let answer = call(&mut told, sheet, lent);
        *head = if answer.number == 0 { told } else { *head };
        answer
    }),
];

/// On generated lists, and on the sample.
#[test]
fn each_wrong_place_parts() {
    let sample = concat!(env!("CARGO_MANIFEST_DIR"), "/sample.bin");
    let bytes = std::fs::read(sample).expect("the committed sample");
    let sample: Vec<Record> = records(&bytes).expect("a file of recorded lists");
    for (what, wrong) in WRONG_PLACES {
        assert!(against_the_reading(1.., CALLS, wrong).is_err(), "{what}");
        assert_ne!(replay(&sample, wrong).1, [], "{what}");
    }
}
