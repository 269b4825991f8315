//! The number of places across the C boundary: what dcps_fresh sets, what an entry that is lent a head refuses and in which
//! order, to what refusal 9 counts, and which lengths the reads take.

use dcps::{Places, Sample, Sheet, Time};
use std::time::Duration;

#[allow(dead_code)]
#[path = "../src/c.rs"]
mod c;

/// No head's.
const FIGURES: [u16; 10] = [0, 1, 31, 33, 64, 127, 129, 0x2000, 0x8000, u16::MAX];
/// No pens'.
const LENGTHS: [usize; 7] = [0, 512, 16_383, 16_385, 32_768, 65_535, 65_537];

/// All that a call is lent.
#[derive(Clone, PartialEq, Eq)]
struct Lent {
    head: Vec<u8>,
    sheet: Vec<u8>,
    pens: Vec<u8>,
    writers: Vec<u8>,
    lost: Vec<u8>,
    out: Vec<u8>,
    answer: Vec<u8>,
}

impl Lent {
    /// Before it is made fresh.
    fn of(pens: usize) -> Self {
        let [head, sheet, pens, writers, lost, out, answer] =
            [64, 256, pens, 5_120, 4_096, 4_096, 72].map(|length| vec![7; length]);
        Self { head, sheet, pens, writers, lost, out, answer }
    }

    fn make_fresh(&mut self) -> u32 {
        let Self { head, pens, writers, lost, .. } = self;
        // SAFETY: each pointer comes from a borrow of that many bytes, and no two of them overlap.
        unsafe {
            c::dcps_fresh(
                head.as_mut_ptr(),
                head.len(),
                pens.as_mut_ptr(),
                pens.len(),
                writers.as_mut_ptr(),
                writers.len(),
                lost.as_mut_ptr(),
                lost.len(),
            )
        }
    }

    fn fresh(places: Places) -> Self {
        let mut lent = Self::of(places.pens_bytes());
        assert_eq!(lent.make_fresh(), 0);
        lent
    }

    fn call(&mut self) -> u32 {
        let Self { head, sheet, pens, writers, lost, out, answer } = self;
        // SAFETY: as above.
        unsafe {
            c::dcps_call(
                head.as_mut_ptr(),
                head.len(),
                sheet.as_ptr(),
                sheet.len(),
                pens.as_mut_ptr(),
                pens.len(),
                writers.as_mut_ptr(),
                writers.len(),
                lost.as_mut_ptr(),
                lost.len(),
                out.as_mut_ptr(),
                out.len(),
                answer.as_mut_ptr(),
                answer.len(),
            )
        }
    }

    fn make(&mut self, sheet: &Sheet) -> u32 {
        self.sheet.copy_from_slice(sheet.bytes());
        self.call()
    }

    fn figure(&self) -> u16 {
        u16::from_be_bytes([self.head[30], self.head[31]])
    }

    fn set_figure(&mut self, figure: u16) {
        self.head[30..32].copy_from_slice(&figure.to_be_bytes());
    }
}

fn key(number: u8) -> [u8; 16] {
    let mut key = [0; 16];
    key[7] = number;
    key
}

/// With the first `count` keys.
fn filled(places: Places, count: u8) -> Lent {
    let mut lent = Lent::fresh(places);
    for number in 0..count {
        assert_eq!(lent.make(&Sheet::register(&key(number), &[number; 3], None)), 0);
    }
    lent
}

#[test]
fn fresh() {
    for (places, figure) in [(Places::Small, 32), (Places::Large, 128)] {
        let lent = Lent::fresh(places);
        let mut head = [0; 64];
        (head[31], head[39]) = (figure, 1);
        assert_eq!(lent.head, head);
        assert!([lent.pens, lent.writers, lent.lost].concat().iter().all(|byte| *byte == 0));
    }
    for length in LENGTHS {
        let mut lent = Lent::of(length);
        assert_eq!(lent.make_fresh(), 1);
        assert!(lent == Lent::of(length), "{length}");
    }
}

/// What a call can have wrong, beside the number of places: a length, the code, a byte behind the records.
const FAULTS: [fn(&mut Lent); 8] = [
    |lent| lent.sheet.truncate(255),
    |lent| lent.pens.push(0),
    |lent| lent.writers.truncate(5_119),
    |lent| lent.lost.push(0),
    |lent| lent.out.truncate(0),
    |lent| lent.answer.truncate(71),
    |lent| lent.sheet[81] = 22,
    |lent| lent.pens[16_383] = 1,
];
const LENGTH_FAULTS: usize = 0x3f;

/// The number of a call on a state with these faults, as include/dcps.h has the order.
fn expected(lent: &Lent, faults: usize) -> u32 {
    let places = Places::from_count(lent.figure().into());
    match places.map(Places::pens_bytes) {
        None => 3,
        Some(pens) if faults & LENGTH_FAULTS != 0 || pens != lent.pens.len() => 1,
        Some(_) if faults & 0x40 != 0 => 2,
        Some(_) if faults & 0x80 != 0 => 3,
        Some(_) => 0,
    }
}

#[test]
fn order_of_refusals() {
    let mut met = [0; 4];
    for places in Places::ALL {
        let fresh = Lent::fresh(places);
        for figure in FIGURES.into_iter().chain([32, 128]) {
            for faults in 0..256 {
                let mut lent = fresh.clone();
                lent.sheet = Sheet::mark_view_seen(dcps::HANDLE_NIL).bytes().to_vec();
                lent.set_figure(figure);
                let made = FAULTS.iter().enumerate().filter(|(bit, _)| faults >> bit & 1 == 1);
                // The byte is put before the sheet is cut.
                made.rev().for_each(|(_, fault)| fault(&mut lent));
                let (before, number) = (lent.clone(), lent.call());
                assert_eq!(number, expected(&before, faults), "{figure} places, faults {faults:b}");
                met[number as usize] += 1;
                let mut left = before;
                if left.answer.len() == 72 {
                    left.answer.fill(0);
                    left.answer[0] = number as u8;
                }
                assert!(left == lent, "{figure} places, faults {faults:b}: something is written");
            }
        }
    }
    assert_eq!(met[0], 2);
    assert!(met.iter().all(|count| *count > 0));
}

/// A head of another length has no number of places.
#[test]
fn lengths_of_the_head() {
    for length in [0, 31, 63, 65, 128] {
        for figure in [0, 32] {
            let mut lent = Lent::fresh(Places::Small);
            lent.set_figure(figure);
            lent.head.resize(length, 0);
            lent.sheet = Sheet::take_status().bytes().to_vec();
            let mut left = lent.clone();
            left.answer.fill(0);
            left.answer[0] = 1;
            assert_eq!(lent.call(), 1);
            assert!(left == lent, "{length} bytes of head: something is written");
        }
    }
}

/// A limit is looked at before the places, and no call changes their number.
#[test]
fn full() {
    for places in Places::ALL {
        let count = places.count() as u8;
        let mut lent = filled(places, count);
        let (new, limit, time) = (key(count), i32::from(count), Time { sec: 1, nanosec: 0 });
        let admit = |max_instances| {
            Sheet::admit(&Sample { max_instances, ..Sample::new(new, [9; 16], time) })
        };
        let before = lent.clone();
        for sheet in [
            Sheet::register(&new, b"", None),
            Sheet::ensure_registered_limited(&new, limit + 1),
            Sheet::observe_lifecycle(&new, None, None),
            Sheet::observe_admitted(&new, b"", time, -1),
            admit(limit + 1),
        ] {
            assert_eq!((lent.make(&sheet), lent.answer[0]), (9, 9));
        }
        // None, or outcome 3.
        for sheet in [Sheet::ensure_registered_limited(&new, limit), admit(limit)] {
            assert_eq!((lent.make(&sheet), lent.answer[3]), (0, 0));
        }
        assert_eq!(lent.answer[1], 3);
        assert!(lent.head == before.head && lent.pens == before.pens);
        assert_eq!(lent.make(&Sheet::register(&key(0), b"", None)), 0);
    }
}

/// More records than places are not well formed.
#[test]
fn one_record_too_many() {
    for (count, number) in [(32, 0), (33, 3)] {
        let mut lent = filled(Places::Large, count);
        assert_eq!(lent.make(&Sheet::take_status()), 0);
        lent.set_figure(32);
        lent.pens.truncate(16_384);
        assert_eq!(lent.make(&Sheet::take_status()), number);
        assert_eq!(reads_of_head(&lent.head, 24, 72), [number; 2]);
    }
}

/// dcps_changes and dcps_status of a head, with answers of these lengths.
fn reads_of_head(head: &[u8], changes: usize, status: usize) -> [u32; 2] {
    let mut answers = [vec![7; changes], vec![7; status]];
    let [first, second] = &mut answers;
    // SAFETY: as above.
    let numbers = unsafe {
        [
            c::dcps_changes(head.as_ptr(), head.len(), first.as_mut_ptr(), changes),
            c::dcps_status(head.as_ptr(), head.len(), second.as_mut_ptr(), status),
        ]
    };
    for (answer, (number, length)) in answers.iter().zip(numbers.into_iter().zip([24, 72])) {
        let refused = answer[1..].iter().all(|byte| *byte == 0) && answer[0] == number as u8;
        let untouched = answer.iter().all(|byte| *byte == 7);
        assert!(number == 0 || if answer.len() == length { refused } else { untouched });
    }
    numbers
}

#[test]
fn status_and_changes() {
    for places in Places::ALL {
        let mut lent = Lent::fresh(places);
        assert_eq!(reads_of_head(&lent.head, 24, 72), [0; 2]);
        assert_eq!(reads_of_head(&lent.head, 23, 71), [1; 2]);
        for figure in FIGURES {
            lent.set_figure(figure);
            assert_eq!(reads_of_head(&lent.head, 24, 72), [3; 2]);
            assert_eq!(reads_of_head(&lent.head, 25, 73), [3; 2]);
            assert_eq!(reads_of_head(&lent.head[..63], 24, 72), [1; 2]);
        }
    }
}

/// The numbers of all reads of pens, and the 24 bytes of each.
fn reads_of_pens(pens: &[u8]) -> [(u32, [u8; 24]); 9] {
    let (p, n, mut out, gone) = (pens.as_ptr(), pens.len(), [0; 4_096], [9; 16]);
    let (o, g) = (out.as_mut_ptr(), gone.as_ptr());
    let (high, low) = (31, 0);
    let asked = |ask: &dyn Fn(*mut u8) -> u32| {
        let mut answer = [7; 24];
        (ask(answer.as_mut_ptr()), answer)
    };
    // SAFETY: as above.
    unsafe {
        [
            asked(&|a| c::dcps_handle_at_position(p, n, 31, a, 24)),
            asked(&|a| c::dcps_next_handle_after(p, n, 31, a, 24)),
            asked(&|a| c::dcps_last_delivered_ts(p, n, high, low, a, 24)),
            asked(&|a| c::dcps_writer_lookup(p, n, high, low, a, 24)),
            asked(&|a| c::dcps_would_leave_writerless(p, n, g, 16, 3, a, 24)),
            asked(&|a| c::dcps_left_writerless(p, n, g, 16, 3, o, 4_096, a, 24)),
            asked(&|a| {
                c::dcps_should_deliver_under_destination_order(p, n, high, low, 1, 0, 1, a, 24)
            }),
            asked(&|a| {
                c::dcps_should_deliver_under_time_based_filter(p, n, high, low, 1, 0, 1, a, 24)
            }),
            asked(&|a| c::dcps_holder_in_force(p, n, high, low, a, 24)),
        ]
    }
}

/// A read that is lent no head takes either length.
#[test]
fn reads() {
    let [small, large] = Places::ALL.map(|places| reads_of_pens(&filled(places, 32).pens));
    assert!(small == large && small.iter().all(|(number, _)| *number == 0));
    let [position, next, .., holder] = small;
    assert_eq!((position.1[2], position.1[8..16].last()), (1, Some(&32)));
    assert_eq!((next.1[2], next.1[8..16].last()), (1, Some(&32)));
    // Stored, 3 bytes behind the first 112 of the last record.
    assert_eq!((holder.1[3], holder.1[4..8].last()), (1, Some(&3)));
    assert_eq!(holder.1[8..16], (31 * 512 + 112_u64).to_be_bytes());
    for length in LENGTHS {
        let mut pens = filled(Places::Large, 32).pens;
        pens.resize(length, 0);
        let (holder, others) =
            reads_of_pens(&pens).split_last().map(|(h, o)| (*h, o.to_vec())).expect("nine");
        assert!(others.iter().all(|(number, answer)| *number == 1 && answer[..2] == [1, 0]));
        assert_eq!(holder, (0, [0; 24]), "not stored, and not refused");
    }
}

/// While there is room in both, a list of calls gives the same, and the same bytes.
#[test]
fn either_size() {
    let [mut small, mut large] = Places::ALL.map(Lent::fresh);
    let second = Duration::from_secs(1);
    for number in 0..200_u8 {
        let (pen, guid, time) =
            (key(number % 32), [number % 5; 16], Time { sec: number.into(), nanosec: 0 });
        let clock = second * number.into();
        let sheet = match number % 7 {
            0 => Sheet::matched(&guid, dcps::LivelinessKind::Automatic, Some(3 * second), clock),
            1 => Sheet::lapse(clock, Some(time)),
            2 => Sheet::part(&guid, Some(time)),
            3 => Sheet::autopurge(time, 5_000_000_000, 90_000_000_000),
            _ => Sheet::admit(&Sample::new(pen, guid, time)),
        };
        assert_eq!(small.make(&sheet), large.make(&sheet));
        assert_eq!((small.figure(), large.figure()), (32, 128));
        let mut beside = large.clone();
        beside.set_figure(32);
        beside.pens.truncate(16_384);
        assert!(small == beside && large.pens[16_384..].iter().all(|byte| *byte == 0));
    }
    assert!(small.head[3] > 10 && small.head[7] > 0);
}
