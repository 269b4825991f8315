//! For every code, each field that a refusal looks at: at its end and one
//! beyond, with all presence bits and with none, and all beyond at once. Then
//! calls that earn several of refusals 1 to 8, of which the lowest answers, but
//! for a number of places that is neither console's, which answers 3 before 1.

use reading::layout::{CLOCK_END, FIGURES, HOLDER_PLACES, NANOSECONDS, Time, pens_bytes};
use reading::{Head, State};

use crate::bench;
use crate::damage::WRONG_FIGURES;
use crate::fill::Filled;
use crate::generate::CODES;
use crate::image::{
    Buffer, Edit, LOST_MOST, Lengths, OUT_MOST, PENS_MOST, SHEET_MOST, Step, WRITERS_MOST,
};

/// All presence bits, manual and by source; kind 0.
const ALL_BITS: u8 = 0xfc;
const KIND_THREE: u8 = 3;

/// The fields of a sheet that a refusal looks at.
#[derive(Clone, Copy)]
struct Fields {
    nanoseconds1: u32,
    nanoseconds2: u32,
    a: u64,
    b: u64,
    holder: u16,
    bits: u8,
}

/// Each at its end.
const ENDS: Fields = Fields {
    nanoseconds1: NANOSECONDS - 1,
    nanoseconds2: NANOSECONDS - 1,
    a: CLOCK_END - 1,
    b: CLOCK_END - 1,
    holder: HOLDER_PLACES as u16,
    bits: 0,
};

/// Each one beyond.
const BEYOND: Fields = Fields {
    nanoseconds1: NANOSECONDS,
    nanoseconds2: NANOSECONDS,
    a: CLOCK_END,
    b: CLOCK_END,
    holder: HOLDER_PLACES as u16 + 1,
    bits: KIND_THREE,
};

/// The sheets, code by code: of every other code for each of the two numbers
/// of places, since none of these refusals looks at it.
pub fn sheets() -> [(u16, Vec<Filled>); 2] {
    let of = |n: usize| CODES.iter().skip(n).step_by(2).flat_map(|code| sheets_of(*code));
    [0, 1].map(|n| (FIGURES[n], of(n).collect()))
}

fn sheets_of(code: u8) -> Vec<Filled> {
    let mut variants = vec![
        Fields { nanoseconds1: BEYOND.nanoseconds1, ..ENDS },
        Fields { nanoseconds2: BEYOND.nanoseconds2, ..ENDS },
        Fields { a: BEYOND.a, ..ENDS },
        Fields { b: BEYOND.b, ..ENDS },
        Fields { holder: BEYOND.holder, ..ENDS },
        ENDS,
    ];
    if code == 32 {
        variants.push(Fields { bits: KIND_THREE, ..ENDS });
        variants.push(Fields { a: BEYOND.a, bits: KIND_THREE, ..ENDS });
    }
    let with_all = variants.iter().map(|f| Fields { bits: f.bits | ALL_BITS, ..*f });
    let beyond = Fields { bits: ALL_BITS | BEYOND.bits, ..BEYOND };
    with_all.chain(variants.iter().copied()).chain([beyond]).map(|f| sheet(code, f)).collect()
}

fn sheet(code: u8, f: Fields) -> Filled {
    Filled::code(code)
        .key([1; 16])
        .guid([2; 16])
        .handle(1)
        .time1(Time { seconds: 1, nanoseconds: f.nanoseconds1 })
        .time2(Time { seconds: 1, nanoseconds: f.nanoseconds2 })
        .a(f.a)
        .b(f.b)
        .limit(-1)
        .strength(1)
        .bits(f.bits)
        .holder(f.holder, &[0x77; HOLDER_PLACES + 1])
}

/// Calls with several faults: all their fields beyond, with an unknown code, a
/// damaged buffer, or a length other than stated, and with all of these. Then
/// the same with numbers of places that are neither console's.
pub fn several_faults(places: u16) -> Vec<Step> {
    let unknown = Step::of(places, Filled::code(22).0);
    let mut all = fields_beyond(places);
    all.push(damaged(unknown.clone()));
    for lengths in odd_lengths(places) {
        all.push(Step { lengths, ..known(places) });
        all.push(Step { lengths, ..unknown.clone() });
        all.push(Step { lengths, ..damaged(unknown.clone()) });
    }
    all.extend(odd_sheets(places).map(damaged));
    all.extend(wrong_figures(places));
    all
}

/// A call that meets no refusal.
fn known(places: u16) -> Step {
    Step::of(places, Filled::code(39).0)
}

/// Each damaged, and as it is.
fn fields_beyond(places: u16) -> Vec<Step> {
    let beyond = Fields { bits: ALL_BITS | BEYOND.bits, ..BEYOND };
    let faulty = |code| Step::of(places, sheet(code, beyond).limit(i32::MIN).0);
    [1, 32, 40, 48, 49].into_iter().flat_map(|c| [damaged(faulty(c)), faulty(c)]).collect()
}

/// A known call, its sheet shorter or longer.
fn odd_sheets(places: u16) -> impl Iterator<Item = Step> {
    [0, 255, 257, SHEET_MOST].into_iter().map(move |length| {
        let mut odd = known(places);
        odd.sheet.resize(length, 0);
        odd
    })
}

/// Each wrong number of places by itself and with pens of just that many; and
/// one after the other beside each of the other faults.
fn wrong_figures(places: u16) -> Vec<Step> {
    let stated = Lengths::stated(places);
    let alone = WRONG_FIGURES.map(|figure| with_places(figure, known(places)));
    let just = WRONG_FIGURES.into_iter().filter(|figure| pens_bytes(*figure) <= PENS_MOST);
    let fitting = just.map(|figure| {
        let lengths = Lengths { pens: pens_bytes(figure), ..stated };
        with_places(figure, Step { lengths, ..known(places) })
    });
    let unknown = Step::of(places, Filled::code(22).0);
    let mut beside = fields_beyond(places);
    beside.extend(odd_lengths(places).map(|lengths| Step { lengths, ..known(places) }));
    beside.extend(odd_lengths(places).map(|lengths| Step { lengths, ..unknown.clone() }));
    beside.extend(odd_sheets(places));
    beside.push(unknown);
    let faults = WRONG_FIGURES.into_iter().cycle().zip(beside);
    let beside = faults.map(|(figure, step)| with_places(figure, step));
    alone.into_iter().chain(fitting).chain(beside).collect()
}

/// With that number of places in the head, which is otherwise fresh.
fn with_places(figure: u16, step: Step) -> Step {
    Step { damaged_head: Some(Head::fresh(figure)), ..step }
}

/// A full table, and calls whose head counts one instance more; then the same
/// with pens of the other number of places.
pub fn one_too_many(places: u16) -> (State, Vec<Step>) {
    let start = bench::numbered(places, places as u8);
    let n = places + 1;
    let counted = Head { instances: n.into(), next_handle: u64::from(n) + 1, ..start.head };
    let step = |code, lengths| Step {
        lengths,
        damaged_head: Some(counted),
        ..Step::of(places, Filled::code(code).limit(-1).0)
    };
    let codes = [1, 2, 3, 8, 9, 21, 32, 39, 48, 49];
    let lengths = [Lengths::stated(places), Lengths::of_other_places(places)];
    let steps = lengths.into_iter().flat_map(|lengths| codes.map(|code| step(code, lengths)));
    (start, steps.collect())
}

/// With a byte in Lost that no GUID is counted for.
fn damaged(step: Step) -> Step {
    let stray = Edit { buffer: Buffer::Lost, offset: 4095, bytes: vec![1] };
    Step { damage: vec![stray], ..step }
}

/// Each length one less than stated, and as long as a list lends it; and pens
/// of the other number of places.
fn odd_lengths(places: u16) -> [Lengths; 9] {
    let stated = Lengths::stated(places);
    [
        Lengths { pens: stated.pens - 1, ..stated },
        Lengths { pens: PENS_MOST, ..stated },
        Lengths::of_other_places(places),
        Lengths { writers: stated.writers - 1, ..stated },
        Lengths { writers: WRITERS_MOST, ..stated },
        Lengths { lost: stated.lost - 1, ..stated },
        Lengths { lost: LOST_MOST, ..stated },
        Lengths { out: stated.out - 1, ..stated },
        Lengths { out: OUT_MOST, ..stated },
    ]
}
