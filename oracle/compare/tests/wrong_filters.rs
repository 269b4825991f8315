//! Wrong rules for times before the epoch, in the place of the library's two
//! filter reads, are caught where they bear on them: by the reading, and by the
//! Rust.

use compare::Tally;
use compare::read::{READ_BYTES, Read, Told, laid_out};
use compare::reads::judged_filter;
use lists::{Generator, Image};
use reading::effects::{filter_admits, order_admits};
use reading::layout::pens_bytes;
use reading::{Misreading, Sheet, reads};

const LISTS: u64 = 200;

/// What a filter says by a reading.
fn says(read: &Read, pens: &[u8], misreading: Option<Misreading>) -> bool {
    let find = |wanted| reads::table(pens).ok()?.into_iter().find(|i| i.key == wanted);
    match *read {
        Read::Filter { key, time, separation } => {
            let last = find(key).and_then(|i| i.last_filter);
            filter_admits(last, time, separation, misreading)
        }
        Read::Order { key, time, by_source } => {
            let last = find(key).and_then(|i| i.last_delivered);
            order_admits(last, time, by_source != 0, misreading)
        }
        _ => false,
    }
}

/// The filter and order with the fields of a sheet, where its time is not
/// refused.
fn asked(sheet: Sheet<'_>) -> [Option<Read>; 2] {
    let (key, separation) = (sheet.key(), sheet.a());
    let filter = Some(sheet.time2()).filter(|time| time.in_range());
    let order = Some(sheet.time1()).filter(|time| time.in_range());
    [
        filter.map(|time| Read::Filter { key, time, separation }),
        order.map(|time| Read::Order { key, time, by_source: 1 }),
    ]
}

/// Who catches the filter, and order, after a call of some list.
#[derive(Debug, PartialEq)]
struct Caught {
    by_the_reading: [bool; 2],
    by_the_rust: [bool; 2],
}

fn caught(misreading: Option<Misreading>, tally: &mut Tally) -> Caught {
    let mut caught = Caught { by_the_reading: [false; 2], by_the_rust: [false; 2] };
    for seed in 1..=LISTS {
        let (mut generator, mut state) = Generator::new(seed);
        let mut image = Image::of_state(&state);
        for _ in 0..generator.length() {
            let step = generator.next(&state);
            image.step(&step, reading::call);
            state = image.state().expect("well formed");
            let pens = &image.pens[..pens_bytes(state.head.places)];
            let Some(asked) = Sheet::of(&step.sheet).map(asked) else { continue };
            for (n, read) in asked.into_iter().enumerate() {
                let Some(read) = read else { continue };
                let yes = says(&read, pens, misreading);
                let parts = read.same(pens, READ_BYTES, |_, _, _, answer| {
                    answer.copy_from_slice(&laid_out(&Ok(Told { yes, ..Told::default() })));
                    0
                });
                caught.by_the_reading[n] |= parts.is_err();
                caught.by_the_rust[n] |= judged_filter(&read, pens, yes, tally).is_err();
            }
        }
    }
    caught
}

#[test]
fn each_wrong_rule_is_caught_where_it_bears() {
    for (misreading, expected) in [
        (None, [false, false]),
        (Some(Misreading::Clamped), [true, true]),
        (Some(Misreading::FilterClamped), [true, false]),
        (Some(Misreading::OrderClamped), [false, true]),
        (Some(Misreading::NanosecondsSubtracted), [true, true]),
        (Some(Misreading::PurgeClamped), [false, false]),
        (Some(Misreading::NegativeGapBySize), [false, false]),
        (Some(Misreading::NegativeGapStays), [false, false]),
    ] {
        let by_the_rust = expected.map(|caught| caught && original::PRESENT);
        let expected = Caught { by_the_reading: expected, by_the_rust };
        assert_eq!(caught(misreading, &mut Tally::default()), expected, "{misreading:?}");
    }
}

/// The Rust judges each in every way, and they compare times in every sort.
#[test]
fn filters_compare_times_in_every_sort() {
    if !original::PRESENT {
        return;
    }
    let mut tally = Tally::default();
    caught(None, &mut tally);
    let missing = tally.epoch.missing();
    let of_calls = |sort: &String| sort.contains("code") || sort.starts_with("autopurge");
    assert_eq!(missing.iter().find(|sort| !of_calls(sort)), None);
    assert!(missing.iter().any(of_calls));
}
