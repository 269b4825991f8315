//! What a rule tells, over the boundary's bytes in the library's place; and the
//! tests that every function which answers 24 bytes has in common.

use std::fmt::Debug;

use compare::added::{
    Added, Answered, Case, Library, Told, cases, compare_added, laid_out, report,
};
use compare::read::{FILL, READ_BYTES};

/// So many cases by chance meet every sort, and every wrong library.
pub const COUNT: u64 = 20_000;

/// What is told, written to the answer and to what is lent.
pub fn over_bytes<A: Added>(
    asked: &A,
    told: &Told,
    lent: &mut [&mut [u8]],
    answer: &mut [u8],
) -> u32 {
    if answer.len() != READ_BYTES {
        return asked.unanswered().into();
    }
    answer.copy_from_slice(&laid_out(told));
    if let (Ok(Answered { written: Some(new), .. }), Some(last)) = (told, lent.last_mut()) {
        last.copy_from_slice(new);
    }
    told.as_ref().err().copied().unwrap_or(0).into()
}

/// The reading.
pub fn right<A: Added>(asked: &A, lent: &mut [&mut [u8]], answer: &mut [u8]) -> u32 {
    over_bytes(asked, &asked.told(), lent, answer)
}

/// The smallest case found, of some, that a library differs in.
fn smallest_of<A: Added>(
    cases: impl Iterator<Item = (Option<u64>, Case<A>)>,
    library: &mut Library<'_, A>,
) -> Case<A> {
    let parted = compare_added(cases, library).err().expect("a wrong library is caught");
    parted.case.shrunk(|case| case.compared(library).is_err())
}

/// The smallest of all.
pub fn smallest<A: Added>(
    mut library: impl FnMut(&A, &mut [&mut [u8]], &mut [u8]) -> u32,
) -> Case<A> {
    smallest_of(cases(1, COUNT), &mut library)
}

/// Other bytes where it is no refusal.
pub fn changed<A: Added>(asked: &A, change: impl Fn(&mut [u8])) -> Told {
    let mut told = asked.told()?;
    change(&mut told.bytes);
    Ok(told)
}

/// Each wrong rule is caught, by a small case of which this is what stands with it.
pub fn wrong<A: Added, T: PartialEq + Debug>(
    rules: impl IntoIterator<Item = (&'static str, impl Fn(&A) -> Told, T)>,
    of: impl Fn(&Case<A>) -> T,
) {
    for (what, rule, expected) in rules {
        let library = |asked: &A, lent: &mut [&mut [u8]], answer: &mut [u8]| {
            over_bytes(asked, &rule(asked), lent, answer)
        };
        let small = smallest(library);
        assert_eq!(of(&small), expected, "{what}: {small}");
        assert_eq!(small.answer_length, READ_BYTES, "{what}: {small}");
    }
}

/// The reading agrees with itself, on cases of every sort.
pub fn agrees<A: Added>() {
    let counts = compare_added(cases::<A>(1, COUNT), &mut right);
    let counts = counts.unwrap_or_else(|parted| panic!("{}: {:?}", parted.case, parted.parting));
    assert_eq!(counts.cases, A::always().count() as u64 + A::WAYS * COUNT);
    assert_eq!(counts.missing(), Vec::<String>::new());
}

/// A run without cases by chance fails, and so does one with a wrong library.
pub fn fails<A: Added>() {
    let few = report::<A>(1, 0, &mut right).expect_err("no answer has another length");
    assert!(few.contains(&format!("too few {}", A::NAME)) && few.contains("answer 0"), "{few}");
    let parted = report::<A>(1, COUNT, &mut |_, _, _| 99).expect_err("99 is no number");
    assert!(parted.contains("the smallest found"), "{parted}");
}

/// Bytes that are left as they were, or that are changed.
pub fn every_byte<A: Added>() {
    for at in 0..READ_BYTES {
        for left in [true, false] {
            let change =
                move |bytes: &mut [u8]| bytes[at] = if left { FILL } else { bytes[at] ^ 1 };
            wrong([("one byte", |asked: &A| changed(asked, change), true)], |case| {
                case.told().is_ok()
            });
        }
    }
}

/// A refusal that leaves a byte, the answer as it was, or a number in one place
/// only.
pub fn refusal_in_part<A: Added>(numbers: &[u8]) {
    let changes: [fn(&mut [u8], &mut u32); 4] = [
        |answer, _| answer[READ_BYTES - 1] |= 1,
        |answer, _| answer[1..].fill(FILL),
        |answer, _| answer[0] = 0,
        |_, returned| *returned = 0,
    ];
    for (number, change) in numbers.iter().flat_map(|number| changes.map(|change| (number, change)))
    {
        let small = smallest(|asked: &A, lent, answer| {
            let mut returned = right(asked, lent, answer);
            if answer.first() == Some(number) {
                change(answer, &mut returned);
            }
            returned
        });
        let told = (small.told(), small.answer_length);
        assert_eq!(told, (Err(*number), READ_BYTES), "{small}");
    }
}

/// An answer of another length that is written to, or taken, of every fate.
pub fn another_length<A: Added>() {
    let told = A::FATES.iter().filter(|fate| fate.parse::<u8>().is_err()).count();
    for fate in 0..told {
        let meant = |asked: &A| asked.told().is_ok_and(|told| asked.fate(&told) == fate);
        let odd = || cases(1, COUNT).filter(|(_, case)| case.answer_length != READ_BYTES);
        let written = smallest_of(odd(), &mut |asked, lent, answer| {
            let number = right(asked, lent, answer);
            if let Some(first) = answer.first_mut().filter(|_| meant(asked)) {
                *first = number as u8;
            }
            number
        });
        assert!(
            meant(&written.asked) && !matches!(written.answer_length, 0 | READ_BYTES),
            "{written}"
        );
        let taken = smallest_of(odd(), &mut |asked, lent, answer| match answer.len() {
            READ_BYTES.. if meant(asked) => right(asked, lent, &mut answer[..READ_BYTES]),
            _ => right(asked, lent, answer),
        });
        assert!(meant(&taken.asked) && taken.answer_length > READ_BYTES, "{taken}");
    }
}

/// The tests that all have in common, with the refusals that a function writes;
/// and one more for a function that is lent bytes.
macro_rules! shared {
    ($added:ty, $numbers:expr, lent) => {
        shared!($added, $numbers);

        /// Whatever is told.
        #[test]
        fn lent_bytes_written_to_are_caught() {
            use compare::added::Case;
            for case in (1..=200).flat_map(|seed| <$added>::of_seed(seed).0).map(Case::of) {
                for (n, lent) in case.asked.lent().iter().enumerate() {
                    let compared = case.compared(&mut |asked, lent, answer| {
                        let number = over_bytes::right(asked, lent, answer);
                        lent[n].iter_mut().take(1).for_each(|first| *first ^= 1);
                        number
                    });
                    assert_eq!(compared.is_err(), !lent.is_empty(), "{case}");
                }
            }
        }
    };
    ($added:ty, $numbers:expr) => {
        #[test]
        fn the_reading_agrees_with_itself_on_every_sort() {
            over_bytes::agrees::<$added>();
        }

        #[test]
        fn a_run_that_parts_or_met_too_few_sorts_fails() {
            over_bytes::fails::<$added>();
        }

        #[test]
        fn every_byte_is_looked_at() {
            over_bytes::every_byte::<$added>();
        }

        #[test]
        fn a_refusal_in_part_is_caught() {
            over_bytes::refusal_in_part::<$added>(&$numbers);
        }

        #[test]
        fn another_length_of_answer_is_seen_to() {
            over_bytes::another_length::<$added>();
        }
    };
}
pub(crate) use shared;
