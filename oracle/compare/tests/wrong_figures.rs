//! Wrong rules for the number of places, in place of the library's, are caught
//! by the comparison of every number with every length.

#[path = "over_bytes/calls.rs"]
mod over_bytes;

use compare::case::PLACES_AT;
use compare::figures::calls::{self, CallCase, Short};
use compare::figures::lent::{self, FreshCase, HeadCase, TableCase};
use compare::figures::{Request, compare_figures};
use compare::fresh::fresh;
use compare::head_read::HeadRead;
use compare::library::Lent;
use compare::read::{READ_BYTES, Read, laid_out};
use over_bytes::{over_bytes, refused};
use reading::Misreading;
use reading::bytes::{put, u16_at, u32_at};
use reading::layout::{LARGE, SMALL, is_figure, pens_bytes};
use reading::sheet::known_code;

const SMALL_BYTES: usize = pens_bytes(SMALL);
const LARGE_BYTES: usize = pens_bytes(LARGE);

/// The reading.
fn right(request: Request<'_>) -> u32 {
    match request {
        Request::Call(lent) => over_bytes(lent, None),
        Request::Head(read, head, answer) => head_read(read, head, answer),
        Request::Fresh(lent) => made_fresh(lent),
        Request::Table { read, pens, out, answer } => table_read(read, pens, out, answer),
    }
}

fn head_read(read: HeadRead, head: &[u8], answer: &mut [u8]) -> u32 {
    let told = read.told(head);
    if answer.len() == read.stated() {
        answer.copy_from_slice(&told);
        u32::from(told[0])
    } else {
        u32::from(compare::case::first_refusal(head).unwrap_or(1))
    }
}

fn made_fresh(lent: [&mut [u8]; 4]) -> u32 {
    let mut made = lent.each_ref().map(|bytes| bytes.to_vec());
    let number = fresh(&mut made);
    lent.into_iter().zip(&made).for_each(|(lent, made)| lent.copy_from_slice(made));
    u32::from(number)
}

fn table_read(read: &Read, pens: &[u8], out: &mut [u8], answer: &mut [u8]) -> u32 {
    if answer.len() != READ_BYTES {
        return 1;
    }
    let laid = laid_out(&read.told(pens, out));
    answer.copy_from_slice(&laid);
    u32::from(laid[0])
}

/// The first call that a rule gets wrong.
fn first_call(rule: impl Fn(Lent<'_>) -> u32) -> CallCase {
    let mut library = |request: Request<'_>| match request {
        Request::Call(lent) => rule(lent),
        other => right(other),
    };
    let caught = calls::all().into_iter().find(|case| case.compared(&mut library).is_err());
    caught.expect("a wrong call is caught")
}

/// The first read of a head.
fn first_head(rule: impl Fn(HeadRead, &[u8], &mut [u8]) -> u32) -> HeadCase {
    let mut library = |request: Request<'_>| match request {
        Request::Head(read, head, answer) => rule(read, head, answer),
        other => right(other),
    };
    let caught = lent::heads().into_iter().find(|case| case.compared(&mut library).is_err());
    caught.expect("a wrong read of a head is caught")
}

/// The first fresh state.
fn first_fresh(rule: impl Fn([&mut [u8]; 4]) -> u32) -> FreshCase {
    let mut library = |request: Request<'_>| match request {
        Request::Fresh(lent) => rule(lent),
        other => right(other),
    };
    let caught = lent::fresh().into_iter().find(|case| case.compared(&mut library).is_err());
    caught.expect("a wrong fresh state is caught")
}

/// The first read of instances.
fn first_table(rule: impl Fn(&Read, &[u8], &mut [u8], &mut [u8]) -> u32) -> TableCase {
    let mut library = |request: Request<'_>| match request {
        Request::Table { read, pens, out, answer } => rule(read, pens, out, answer),
        other => right(other),
    };
    let caught = lent::tables().into_iter().find(|case| case.compared(&mut library).is_err());
    caught.expect("a wrong read of instances is caught")
}

#[test]
fn the_reading_agrees_with_itself_on_every_sort() {
    let tally = compare_figures(right).unwrap_or_else(|parted| panic!("{parted:?}"));
    assert_eq!(tally.missing(), Vec::<String>::new());
    assert!(tally.cases() > 60_000, "{}", tally.cases());
}

fn places(lent: &Lent<'_>) -> u16 {
    u16_at(lent.head, PLACES_AT)
}

/// The call with another number of places in the head, which is then put back.
fn as_with(places: u16, lent: Lent<'_>) -> u32 {
    let Lent { head, sheet, pens, writers, lost, out, answer } = lent;
    let before = u16_at(head, PLACES_AT);
    put(head, PLACES_AT, &places.to_be_bytes());
    let again = Lent { head: &mut *head, sheet, pens, writers, lost, out, answer };
    let number = over_bytes(again, None);
    put(head, PLACES_AT, &before.to_be_bytes());
    number
}

/// The call on pens of another length.
fn on_pens(length: usize, lent: Lent<'_>) -> u32 {
    let Lent { head, sheet, pens, writers, lost, out, answer } = lent;
    let pens = &mut pens[..length];
    over_bytes(Lent { head, sheet, pens, writers, lost, out, answer }, None)
}

/// Whether a length is wrong that does not depend on the number of places.
fn odd_length(lent: &Lent<'_>) -> bool {
    let lengths = [lent.sheet.len(), lent.writers.len(), lent.lost.len(), lent.out.len()];
    lengths != [256, 5120, 4096, 4096]
}

#[test]
fn another_number_tested_after_the_lengths() {
    let case = first_call(|lent| {
        let odd = odd_length(&lent) || ![SMALL_BYTES, LARGE_BYTES].contains(&lent.pens.len());
        let other = !is_figure(places(&lent));
        if other && odd { refused(1, lent.answer) } else { over_bytes(lent, None) }
    });
    assert_eq!((case.figure, case.pens), (0, 0));
}

#[test]
fn another_number_tested_after_the_answer_alone() {
    let case = first_call(|lent| {
        let odd = lent.answer.len() != 72;
        if odd { refused(1, lent.answer) } else { over_bytes(lent, None) }
    });
    assert!(case.answer != 72 && !is_figure(case.figure));
}

/// A number of places looked for in a head that is too short or too long.
#[test]
fn another_number_tested_before_the_heads_length() {
    let case = first_call(|lent| {
        let other = !is_figure(places(&lent));
        if other { refused(3, lent.answer) } else { over_bytes(lent, None) }
    });
    assert!(case.head == 63 && case.figure == 0, "{case:?}");
}

#[test]
fn another_number_tested_after_the_code() {
    let case = first_call(|lent| {
        let unknown = lent.sheet.get(81).is_some_and(|code| !known_code(*code));
        if unknown && !odd_length(&lent) && !is_figure(places(&lent)) {
            return refused(2, lent.answer);
        }
        over_bytes(lent, None)
    });
    assert!(!known_code(case.code) && !is_figure(case.figure));
}

/// Any number, with pens of just that many places.
#[test]
fn every_number_taken() {
    let case = first_call(|lent| {
        let (figure, length) = (places(&lent), lent.pens.len());
        let just = pens_bytes(figure) == length && length <= LARGE_BYTES && length > 0;
        if is_figure(figure) || !just || lent.answer.len() != 72 {
            return over_bytes(lent, None);
        }
        // As the large console, of which only the front was lent.
        let Lent { head, sheet, pens, writers, lost, out, answer } = lent;
        let mut whole = [&*pens, &vec![0; LARGE_BYTES - length]].concat();
        let number =
            as_with(LARGE, Lent { head, sheet, pens: &mut whole, writers, lost, out, answer });
        pens.copy_from_slice(&whole[..length]);
        number
    });
    assert_eq!((case.figure, case.pens), (1, 512));
}

#[test]
fn a_longer_buffer_taken_for_32() {
    let case = first_call(|lent| {
        let longer = places(&lent) == SMALL && lent.pens.len() > SMALL_BYTES;
        if longer { on_pens(SMALL_BYTES, lent) } else { over_bytes(lent, None) }
    });
    assert_eq!((case.figure, case.pens), (32, SMALL_BYTES + 1));
}

#[test]
fn a_longer_buffer_taken_for_128() {
    let case = first_call(|lent| {
        let longer = places(&lent) == LARGE && lent.pens.len() > LARGE_BYTES;
        if longer { on_pens(LARGE_BYTES, lent) } else { over_bytes(lent, None) }
    });
    assert_eq!((case.figure, case.pens), (128, LARGE_BYTES + 1));
}

/// The number in the head is not looked at: the length of pens tells.
#[test]
fn the_length_tells_the_number() {
    let case = first_call(|lent| match (places(&lent), lent.pens.len()) {
        (LARGE, SMALL_BYTES) => as_with(SMALL, lent),
        (SMALL, LARGE_BYTES) => as_with(LARGE, lent),
        _ => over_bytes(lent, None),
    });
    assert_eq!((case.figure, case.pens), (32, LARGE_BYTES));
}

#[test]
fn writers_by_the_number_of_places() {
    let case = first_call(|lent| {
        let figure = places(&lent);
        let by_figure = lent.writers.len() == usize::from(figure) * 40;
        if is_figure(figure) && !by_figure {
            return refused(1, lent.answer);
        }
        over_bytes(lent, None)
    });
    assert_eq!((case.figure, case.pens, case.short), (32, SMALL_BYTES, Short::None));
}

#[test]
fn a_call_that_sets_128() {
    let wrong = Some(Misreading::PlacesBecomeLarge);
    let case = first_call(|lent| over_bytes(lent, wrong));
    assert_eq!((case.figure, case.pens), (32, SMALL_BYTES));
}

/// Bytes that are no head's are taken for the large console's.
#[test]
fn a_bad_head_that_hides_its_number() {
    let bad = |lent: &Lent<'_>| lent.head.get(29) == Some(&2);
    let case =
        first_call(|lent| if bad(&lent) { as_with(LARGE, lent) } else { over_bytes(lent, None) });
    assert!(!case.laid && case.figure == 0, "{case:?}");
    let of_two = first_call(|lent| {
        let hidden = bad(&lent) && is_figure(places(&lent));
        if hidden { as_with(LARGE, lent) } else { over_bytes(lent, None) }
    });
    assert!(!of_two.laid && of_two.figure == 32, "{of_two:?}");
}

/// Bytes that are no head's are refused before lengths and code are judged.
#[test]
fn a_bad_head_that_wins() {
    let case = first_call(|lent| {
        let bad = lent.head.get(29) == Some(&2);
        if bad { refused(3, lent.answer) } else { over_bytes(lent, None) }
    });
    assert!(!case.laid && case.figure == 32, "{case:?}");
}

/// A full table of 32 takes one more: nothing is written, as it has no place.
#[test]
fn nine_counted_to_128() {
    let case = first_call(|lent| {
        let small = places(&lent) == SMALL;
        let Lent { head, sheet, pens, writers, lost, out, answer } = lent;
        let again = Lent { head, sheet, pens, writers, lost, out, answer: &mut *answer };
        let number = over_bytes(again, None);
        if small && number == 9 {
            return refused(0, answer);
        }
        number
    });
    assert_eq!((case.figure, case.instances), (32, 32));
}

#[test]
fn nine_counted_to_32() {
    let wrong = Some(Misreading::NineAtThirtyTwo);
    let case = first_call(|lent| over_bytes(lent, wrong));
    assert_eq!((case.figure, case.instances), (128, 127));
}

/// 9 before none at a limit.
#[test]
fn nine_before_a_limit() {
    let case = first_call(|lent| {
        let full = u32_at(lent.head, 0) == u32::from(places(&lent));
        let starts = lent.sheet.get(81).is_some_and(|code| [2, 9, 48].contains(code));
        let fits = is_figure(places(&lent)) && lent.answer.len() == 72;
        if full && starts && fits { refused(9, lent.answer) } else { over_bytes(lent, None) }
    });
    assert!(case.instances == case.figure && case.limit == i32::from(case.figure), "{case:?}");
}

/// One more than there are places for, met by a 9.
#[test]
fn one_too_many_not_seen() {
    let case = first_call(|lent| {
        let beyond = u32_at(lent.head, 0) == u32::from(places(&lent)) + 1;
        let fits = is_figure(places(&lent)) && lent.answer.len() == 72;
        if beyond && fits { refused(9, lent.answer) } else { over_bytes(lent, None) }
    });
    assert_eq!((case.figure, case.instances), (32, 33));
}

/// A refusal that is written to an answer of another length.
#[test]
fn another_number_written_to_any_answer() {
    let case = first_call(|lent| {
        let other = !is_figure(places(&lent));
        let odd = lent.answer.len() != 72;
        if other && odd {
            lent.answer[0] = 3;
        }
        over_bytes(lent, None)
    });
    assert!(case.answer != 72, "{case:?}");
}

type HeadRule = fn(HeadRead, &[u8], &mut [u8]) -> u32;

/// Wrong rules for the two reads of a head, each with a number of places and of
/// instances that catches it.
const WRONG_HEADS: [(&str, HeadRule, u16, u32); 4] = [
    ("the number not looked at", taken_for_large, 0, 0),
    ("another number after the answer's length", answer_first, 0, 0),
    ("instances up to 128", |read, head, answer| as_large_where(32, read, head, answer), 32, 33),
    ("status alone", of_status_alone, 0, 0),
];

fn as_large(read: HeadRead, head: &[u8], answer: &mut [u8]) -> u32 {
    let mut head = head.to_vec();
    put(&mut head, PLACES_AT, &LARGE.to_be_bytes());
    head_read(read, &head, answer)
}

fn taken_for_large(read: HeadRead, head: &[u8], answer: &mut [u8]) -> u32 {
    if is_figure(u16_at(head, PLACES_AT)) {
        head_read(read, head, answer)
    } else {
        as_large(read, head, answer)
    }
}

fn as_large_where(figure: u16, read: HeadRead, head: &[u8], answer: &mut [u8]) -> u32 {
    if u16_at(head, PLACES_AT) == figure {
        as_large(read, head, answer)
    } else {
        head_read(read, head, answer)
    }
}

fn answer_first(read: HeadRead, head: &[u8], answer: &mut [u8]) -> u32 {
    if answer.len() == read.stated() { head_read(read, head, answer) } else { 1 }
}

fn of_status_alone(read: HeadRead, head: &[u8], answer: &mut [u8]) -> u32 {
    match read {
        HeadRead::Status => head_read(read, head, answer),
        HeadRead::Changes => taken_for_large(read, head, answer),
    }
}

#[test]
fn each_wrong_read_of_a_head_is_caught() {
    for (what, rule, figure, instances) in WRONG_HEADS {
        let case = first_head(rule);
        assert_eq!((case.figure, case.instances), (figure, instances), "{what}");
    }
}

type FreshRule = fn([&mut [u8]; 4]) -> u32;

/// The fresh state of the large console alone, in the front of longer pens, and
/// with the large console's number.
#[test]
fn each_wrong_fresh_is_caught() {
    let wrong: [FreshRule; 3] = [
        |lent| if lent[1].len() == SMALL_BYTES { 1 } else { made_fresh(lent) },
        |[head, pens, writers, lost]| {
            let length = if pens.len() < LARGE_BYTES { SMALL_BYTES } else { LARGE_BYTES };
            let pens = pens.get_mut(..length).unwrap_or_default();
            made_fresh([head, pens, writers, lost])
        },
        |[head, pens, writers, lost]| {
            let number = made_fresh([&mut *head, pens, writers, lost]);
            if number == 0 {
                put(head, PLACES_AT, &LARGE.to_be_bytes());
            }
            number
        },
    ];
    for (rule, pens) in wrong.into_iter().zip([SMALL_BYTES, SMALL_BYTES + 1, SMALL_BYTES]) {
        assert_eq!(first_fresh(rule), FreshCase([64, pens, 5120, 4096]));
    }
}

/// Each read that takes the large table alone, the small one alone, any front
/// of whole records, or what stands in front of 32 places in a large one.
#[test]
fn each_read_of_another_length_is_caught() {
    for (length, other) in [(LARGE_BYTES, SMALL_BYTES), (SMALL_BYTES, LARGE_BYTES)] {
        let case = first_table(|read, pens, out, answer| {
            let taken = pens.len() == length;
            table_read(read, if taken { pens } else { &[] }, out, answer)
        });
        assert_eq!(case.pens, other);
    }
    let cut = first_table(|read, pens, out, answer| {
        let front = pens.get(..SMALL_BYTES).unwrap_or(pens);
        table_read(read, front, out, answer)
    });
    assert_eq!(cut.pens, SMALL_BYTES + 1);
    let hidden = first_table(|read, pens, out, answer| {
        let front = if pens.len() == LARGE_BYTES { &pens[..SMALL_BYTES] } else { pens };
        table_read(read, front, out, answer)
    });
    assert_eq!(hidden.pens, LARGE_BYTES);
}

/// The same of one read only.
#[test]
fn each_single_read_is_caught() {
    let names = [
        "filter",
        "order",
        "last delivered",
        "next handle",
        "handle at a position",
        "holder in force",
        "writer lookup",
        "would leave writerless",
        "left writerless",
    ];
    for name in names {
        let case = first_table(|read, pens, out, answer| {
            let refused = read.name() == name && pens.len() == SMALL_BYTES;
            table_read(read, if refused { &[] } else { pens }, out, answer)
        });
        assert_eq!((case.read.name(), case.pens), (name, SMALL_BYTES));
    }
}
