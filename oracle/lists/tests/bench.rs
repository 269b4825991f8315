//! Section 10's lines and traps say what section 10 says, and the lists of
//! requests 1 and 7 what 02 says.

use lists::bench;
use lists::fill::Filled;
use lists::{Image, Step};
use reading::layout::{FIGURES, Time};
use reading::{Answer, State};

/// The answers of a list and the state after it.
fn run(name: &str) -> (Vec<Answer>, State) {
    run_to(name, usize::MAX)
}

/// The same of its first calls, which are all accepted and answered alike with
/// either number of places.
fn run_to(name: &str, calls: usize) -> (Vec<Answer>, State) {
    let lists = bench::lists();
    let (_, sheets) = lists.into_iter().find(|(n, _)| *n == name).expect("a list of that name");
    let sheets: Vec<_> = sheets.into_iter().take(calls).collect();
    let [small, large] = FIGURES.map(|places| answers(State::fresh(places), sheets.clone()));
    assert_eq!(small.0, large.0);
    assert!(large.0.iter().all(|answer| answer.number == 0));
    large
}

fn answers(start: State, sheets: Vec<Filled>) -> (Vec<Answer>, State) {
    let mut image = Image::of_state(&start);
    let step = |sheet: Filled| image.step(&Step::of(start.head.places, sheet.0), reading::call).0;
    let answers = sheets.into_iter().map(step).collect();
    (answers, image.state().expect("well formed"))
}

/// One field of the last answers of a list.
fn last<T, const N: usize>(name: &str, field: impl Fn(&Answer) -> T) -> [T; N] {
    let (answers, _) = run(name);
    let from = answers.len() - N;
    std::array::from_fn(|n| field(&answers[from + n]))
}

#[test]
fn filters_and_order() {
    assert_eq!(last("bench a", |a| a.outcome), [2, 0]);
    assert_eq!(last("bench a later", |a| a.outcome), [0]);
    assert_eq!(last("bench b", |a| a.outcome), [1, 0]);
    assert_eq!(last("bench c", |a| a.outcome), [1]);
}

/// Request 7, each answer worked out by hand.
#[test]
fn filters_and_order_before_the_epoch() {
    assert_eq!(last("filter before", |a| a.outcome), [2, 0, 2, 0, 0, 2, 0, 0, 0]);
    assert_eq!(last("filter across", |a| a.outcome), [2, 0, 0, 2, 0, 0, 2, 0, 0, 2, 0]);
    assert_eq!(last("order before", |a| a.outcome), [1, 1, 0, 1, 0, 1, 0, 1]);
    assert_eq!(last("order across", |a| a.outcome), [0, 0, 1, 1, 0, 1, 0, 0, 0, 0]);
    let (ends, _) = run("ends of time");
    assert_eq!(ends[2..9].iter().map(|a| a.outcome).collect::<Vec<_>>(), [2, 2, 0, 0, 0, 1, 1]);
}

#[test]
fn purges_before_the_epoch() {
    // Four calls let two instances die, in every round.
    let rounds = |purged: &[&[u32]]| -> Vec<u32> {
        purged.iter().flat_map(|counts| [&[0; 4], &counts[..]].concat()).collect()
    };
    assert_eq!(counts("purge before"), rounds(&[&[0, 0, 1, 0, 1], &[0, 1, 0, 1], &[2]]));
    assert_eq!(counts("purge across"), rounds(&[&[0, 1, 1], &[0, 1, 1], &[0, 2], &[1, 1]]));
    assert_eq!(counts("purge back"), rounds(&[&[0, 1, 1][..]; 3]));
    assert_eq!(last("ends of time", |a| a.count), [0, 1, 0, 1]);
}

#[test]
fn a_missed_deadline() {
    assert_eq!(last("bench d", |a| a.yes), [true, true, true]);
}

#[test]
fn limits() {
    let present = last::<_, 11>("bench f", |a| a.present);
    let (new, known) = ([false; 3], [true; 4]);
    let other = [false, false, false, true];
    assert_eq!(present.to_vec(), [&new[..], &known, &other].concat());
    assert_eq!(last::<_, 11>("bench f", |a| a.outcome), [0, 0, 3, 0, 0, 0, 0, 0, 0, 3, 0]);
}

#[test]
fn expiry() {
    let (answers, _) = run("bench g");
    assert_eq!((answers[2].yes, answers[2].next_due), (false, 110));
    assert_eq!((answers[3].yes, answers[3].next_due_present), (true, false));
    assert_eq!((answers[4].yes, answers[5].alive), (false, 0));
    assert_eq!((answers[6].yes, answers[7].alive), (true, 1));
}

#[test]
fn a_departed_writer_that_matches() {
    let at = |name| last::<_, 2>(name, |a| (a.yes, a.alive, a.not_alive));
    assert_eq!(at("bench h clock 0"), [(false, 0, 0), (false, 0, 1)]);
    assert_eq!(at("bench h clock 1"), [(true, 0, 0), (false, 1, 0)]);
}

#[test]
fn purges() {
    assert_eq!(last("bench i", |a| a.count), [0, 1]);
    assert_eq!(last("bench i delay 0", |a| a.count), [1]);
}

#[test]
fn traps() {
    assert_eq!(last("trap revives", |a| (a.yes, a.alive)), [(false, 0); 3]);
    let view = last::<_, 4>("trap view new", |a| (a.present, a.view_new));
    assert_eq!((view[0], view[3]), ((true, false), (true, true)));
    let (answers, _) = run("trap empties set");
    assert_eq!(answers.last().map(|a| a.listed), Some(1));
}

#[test]
fn lapses_and_their_order() {
    let (answers, state) = run("lapses");
    // Nine of twelve, as one instance keeps the other writer; then code 38.
    assert_eq!(answers.iter().filter(|a| a.listed > 0).count(), 9 + 1);
    assert_eq!(answers.iter().filter(|a| a.next_due_present).count(), 12);
    assert!(state.lost.is_empty());
    assert_eq!(last("lapse order", |a| (a.yes, a.listed)), [(true, 2)]);
}

/// Of every call; 0 where it is no purge and clears no owner.
fn counts(name: &str) -> Vec<u32> {
    run(name).0.iter().map(|a| a.count).collect()
}

/// Of every call; 0 where it is no admit.
fn outcomes(name: &str) -> Vec<u8> {
    run(name).0.iter().map(|a| a.outcome).collect()
}

#[test]
fn an_admit_owns_what_it_starts() {
    assert_eq!(outcomes("first owner"), [0, 4, 4, 4, 0, 4, 0, 4, 0, 0, 4, 0]);
    let (_, state) = run_to("first owner at", 1);
    let first = &state.instances[0];
    assert_eq!(first.owner, Some(([3; 16], 5)));
    assert_eq!(first.owner_at, Some(Time { seconds: 100, nanoseconds: 0 }));
}

#[test]
fn a_first_owner_counts_from_time_2() {
    assert_eq!(outcomes("first owner at"), [0, 4, 4, 0, 0, 0, 0, 4, 0]);
}

#[test]
fn a_known_instance_goes_by_code_16() {
    let (revived, strengths) = ([0, 0, 4, 0, 0, 0], [0, 0, 4, 0, 0]);
    let cleared = [[0, 4, 0, 0]; 5].concat();
    assert_eq!(outcomes("first owner kept"), [&revived[..], &strengths, &cleared].concat());
}

#[test]
fn a_purged_instance_starts_again() {
    assert_eq!(outcomes("first owner anew"), [0, 0, 4, 0, 0, 4]);
    let (answers, state) = run("first owner anew");
    assert_eq!((answers[3].count, answers[4].handle), (1, 2));
    assert_eq!(state.instances[0].owner, Some(([4; 16], 1)));
}

#[test]
fn other_calls_start_without_an_owner() {
    let (asked, state) = run_to("no first owner", 2);
    assert_eq!((asked[0].yes, asked[1].present), (true, false));
    assert!(state.is_fresh());
    let (singly, started) = ([0; 4], [[0, 0, 0, 4]; 4].concat());
    assert_eq!(outcomes("no first owner"), [&[0, 0, 0, 4], &singly[..], &started].concat());
    let released = run("no first owner").0.into_iter().skip(9).step_by(4).map(|a| a.yes);
    assert_eq!(released.collect::<Vec<_>>(), [false; 4]);
}

/// A full table, with its next handle the last: nothing starts, and none at a
/// limit comes before 9, and that before 13.
#[test]
fn a_full_table_of_either_size() {
    for places in FIGURES {
        let (start, sheets) = bench::full_table(places);
        let (answers, _) = self::answers(start, sheets);
        let numbers: Vec<u8> = answers.iter().map(|a| a.number).collect();
        let limited = |last| [last, 0, last, 0, 0];
        let full = [&[9; 5][..], &limited(9), &[9; 5]].concat();
        let freed = [&[13; 5][..], &limited(13), &[13; 5]].concat();
        assert_eq!(numbers, [&full[..], &[0; 4], &freed].concat());
        assert_eq!([answers[9].outcome, answers[28].outcome], [3; 2]);
    }
}

/// The last places are taken, and refused and taken again as they come free:
/// as many instances stand there in the end as there are places.
#[test]
fn the_last_places_of_either_size() {
    for places in FIGURES {
        let (start, sheets) = bench::last_places(places);
        let (answers, state) = self::answers(start, sheets);
        assert_eq!(state.instances.len(), usize::from(places));
        assert_eq!(state.head.next_handle, u64::from(places) + 6);
        let round = [9, 9, 9, 9, 9, 9, 0, 9, 0, 0, 0, 0, 0, 0];
        let numbers: Vec<u8> = answers.iter().map(|a| a.number).collect();
        assert_eq!(numbers, [&[0; 2][..], &round.repeat(5)].concat());
    }
}
