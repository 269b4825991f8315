//! Wrong implementations in place of the library are caught, and the lists that
//! catch them come out small.

#[path = "over_bytes/calls.rs"]
mod over_bytes;

use compare::library::Lent;
use compare::list::Library;
use compare::run::Parting;
use compare::shrink::shrink;
use compare::{Case, Fault, List, Tally};
use lists::Step;
use lists::fill::Filled;
use over_bytes::over_bytes;
use reading::layout::FIGURES;
use reading::{Misreading, State};

const LISTS: u64 = 600;

/// The first list that catches a library, with what parts.
fn caught(call: impl FnMut(Lent<'_>) -> u32 + Copy) -> Option<(List, Parting)> {
    let mut tally = Tally::default();
    (1..=LISTS).find_map(|seed| {
        List::of_seed(seed, Library { call, reads: false }, &mut tally).err().map(|parted| *parted)
    })
}

fn small(call: impl FnMut(Lent<'_>) -> u32 + Copy) -> (List, String) {
    let (list, _) = caught(call).expect("a wrong library is caught");
    let small = shrink(&list, |list| list.parts(call).is_some());
    let (_, what) = small.parts(call).expect("the small list still parts");
    (small, what)
}

#[test]
fn the_reading_agrees_with_itself() {
    assert_eq!(caught(|lent| over_bytes(lent, None)).map(|(_, parting)| parting), None);
}

#[test]
fn each_misreading_is_caught_by_a_short_list() {
    for misreading in Misreading::ALL {
        let (list, what) = small(|lent| over_bytes(lent, Some(misreading)));
        assert!(list.cases.len() <= 5, "{misreading:?}\n{list}{what}");
    }
}

/// A head written on a refusal.
#[test]
fn a_head_written_on_a_refusal_is_caught() {
    let (list, what) = small(|lent| {
        let Lent { head, sheet, pens, writers, lost, out, answer } = lent;
        let again = Lent { head: &mut *head, sheet, pens, writers, lost, out, answer };
        let number = over_bytes(again, None);
        if number == 4 {
            head[47] ^= 1;
        }
        number
    });
    assert_eq!(list.cases.len(), 1, "{list}");
    assert!(what.starts_with("head"), "{what}");
}

/// Bytes that are no head's refused before an unknown code is.
#[test]
fn a_bad_head_that_wins_over_an_unknown_code_is_caught() {
    let wrong = |lent: Lent<'_>| {
        let bad = lent.head.get(28).is_some_and(|byte| *byte != 0);
        let code = lent.sheet.get(81).copied();
        let number = match (bad, code) {
            (true, Some(code)) if !reading::sheet::known_code(code) => 3,
            _ => return over_bytes(lent, None),
        };
        lent.answer.fill(0);
        lent.answer[0] = number;
        u32::from(number)
    };
    for places in FIGURES {
        let case = |code, faults: &[Fault]| Case {
            step: Step::of(places, Filled::code(code).0),
            faults: faults.to_vec(),
        };
        let bad = &[Fault::HeadByte(28, 7)];
        let list = List {
            start: State::fresh(places),
            cases: vec![case(39, &[]), case(22, &[]), case(39, bad), case(22, bad), case(39, &[])],
        };
        assert_eq!(list.parts(|lent| over_bytes(lent, None)), None);
        let small = shrink(&list, |list| list.parts(wrong).is_some());
        assert_eq!(small.cases, [case(22, bad)].map(plain));
    }
}

/// As a shrunk list has it.
fn plain(mut case: Case) -> Case {
    case.step.fill = 0;
    case
}
