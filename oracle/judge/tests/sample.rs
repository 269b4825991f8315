//! The committed sample: made by its seed, agreed with, and covering.

use std::collections::BTreeSet;
use std::path::Path;

use judge::RustBeside;
use lists::comparisons::Sort;
use lists::format::{Record, records};
use lists::image::Lengths;
use lists::{Comparison, Coverage, replay, sample};
use reading::{Misreading, Sheet, State, call_as};

const SEED: u64 = 1;

fn committed() -> Vec<u8> {
    let file = Path::new(env!("CARGO_MANIFEST_DIR")).join("../lists/sample.bin");
    std::fs::read(file).expect("the committed sample")
}

fn committed_records() -> Vec<Record> {
    records(&committed()).expect("a file of recorded lists")
}

#[test]
fn its_seed_makes_it() {
    let made = sample::make(SEED, &mut RustBeside::default()).expect("the Rust agrees");
    assert!(made == committed(), "the sample of seed {SEED} is another one");
}

#[test]
fn the_reading_agrees() {
    let (calls, differences) = replay::replay(&committed_records(), reading::call);
    assert!(calls > 3000);
    assert_eq!(differences, []);
}

#[test]
fn no_misreading_agrees() {
    for misreading in Misreading::ALL {
        let (_, differences) = replay::replay(&committed_records(), |head, sheet, lent| {
            call_as(head, sheet, lent, Some(misreading))
        });
        assert_ne!(differences, [], "{misreading:?}");
    }
}

#[test]
fn it_covers_what_it_should() {
    assert_eq!(Coverage::of(&committed_records()).missing(), Vec::<String>::new());
}

/// Times are compared in every sort, before the epoch, across it and after it.
#[test]
fn it_compares_times_in_every_sort() {
    let mut unmet: BTreeSet<Sort> = Sort::all().into_iter().collect();
    replay::replay(&committed_records(), |head, sheet, lent| {
        let (pens, writers, lost) = (lent.pens.len(), lent.writers.len(), lent.lost.len());
        let stated = Lengths { pens, writers, lost, out: lent.out.len() };
        let fits = stated == Lengths::stated(head.places);
        let before = fits.then(|| State::read(head, lent.pens, lent.writers, lent.lost)).flatten();
        let answer = reading::call(head, sheet, lent);
        if let (Some(before), Some(sheet)) = (before, Sheet::of(sheet)) {
            for comparison in Comparison::made(&before, sheet, &answer) {
                unmet.remove(&comparison.sort());
            }
        }
        answer
    });
    assert_eq!(unmet, BTreeSet::new());
}

/// Every record is written as it was read.
#[test]
fn records_come_out_as_they_went_in() {
    let bytes: Vec<u8> = committed_records().iter().flat_map(Record::bytes).collect();
    assert!(bytes == committed());
}

/// One wrong expectation is one difference, whichever field it is in.
#[test]
fn a_wrong_expectation_is_seen() {
    let wrong: [fn(&mut Record) -> bool; 6] = [
        |r| call(r, |c| c.answer.number ^= 1),
        |r| call(r, |c| c.answer.next_due ^= 1),
        |r| call(r, |c| c.head.changes ^= 1),
        |r| call(r, |c| c.digests.pens ^= 1),
        |r| call(r, |c| c.digests.lost ^= 1),
        |r| match r {
            Record::Expect(edit) => {
                edit.bytes[0] ^= 1;
                true
            }
            _ => false,
        },
    ];
    for spoil in wrong {
        let mut records = committed_records();
        assert!(records.iter_mut().skip(500).any(spoil));
        let (_, differences) = replay::replay(&records, reading::call);
        assert_eq!(differences.len(), 1);
    }
}

fn call(record: &mut Record, spoil: impl Fn(&mut lists::format::Recorded)) -> bool {
    match record {
        Record::Call(recorded) => {
            spoil(recorded);
            true
        }
        _ => false,
    }
}
