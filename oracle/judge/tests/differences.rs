//! The lists of docs/DIFFERENCES.md: what 01 refuses and the Rust takes, what
//! a request changes, and rules of the Rust that a reader might not expect.

use judge::compare::{judged, same_state};
use lists::fill::{BY_SOURCE, Filled, LEASE_PRESENT, TIME1_PRESENT};
use lists::{Image, Step};
use original::Original;
use reading::bytes::Guid;
use reading::key_hash::key_hash;
use reading::layout::{Instance, LARGE, SMALL, Standing, Time, Writer};
use reading::md5::md5;
use reading::{Answer, Sheet, State};

const KEY: [u8; 16] = [1; 16];

fn guid(n: u8) -> Guid {
    let mut guid = [0; 16];
    guid[15] = n;
    guid
}

fn at(seconds: i32, nanoseconds: u32) -> Time {
    Time { seconds, nanoseconds }
}

fn key(code: u8) -> Filled {
    Filled::code(code).key(KEY).limit(-1)
}

/// Runs a list through the reading, with the Rust beside it where it is at
/// hand; the last answer and the state after it.
fn run(start: State, sheets: Vec<Filled>) -> (Answer, State) {
    let mut image = Image::of_state(&start);
    let mut rust = Original::at(&start);
    let mut last = Answer::default();
    let mut state = start;
    for sheet in sheets {
        let step = Step::of(state.head.places, sheet.0);
        let (answer, out) = image.step(&step, reading::call);
        if let Some(rust) = &mut rust {
            judged(rust, &state, &step, &answer, &out, &image).expect("the Rust agrees");
            same_state(rust, &image, &mut Image::fresh(LARGE)).expect("the Rust agrees");
        }
        last = answer;
        state = image.state().expect("well formed");
    }
    (last, state)
}

/// The Rust's last answer, where it is at hand, with nobody asking whether it
/// is to judge.
fn rust_alone(sheets: &[Filled]) -> Option<Answer> {
    let mut rust = Original::at(&State::fresh(LARGE))?;
    let turns = sheets.iter().map(|sheet| rust.turn(Sheet::of(&sheet.0).expect("256 bytes")));
    turns.map(|(answer, _)| answer).last()
}

fn number(start: State, sheets: Vec<Filled>) -> u8 {
    run(start, sheets).0.number
}

/// `n` instances, the first with a writer set of a size.
fn instances(places: u16, n: u8, set: u8) -> State {
    let mut state = State::fresh(places);
    for place in 0..n {
        state.instances.push(Instance::fresh([place; 16], u64::from(place) + 1));
    }
    if let Some(first) = state.instances.first_mut() {
        first.writers = (0..set).map(guid).collect();
    }
    state.head.next_handle = u64::from(n) + 1;
    state.head.instances = u32::from(n);
    state
}

fn writers(n: u8) -> State {
    let mut state = State::fresh(LARGE);
    state.writers = (0..n).map(|n| Writer { guid: guid(n), ..Writer::default() }).collect();
    state.head.writer_records = u32::from(n);
    state
}

#[test]
fn what_the_sheet_is_refused_for() {
    let fresh = || State::fresh(LARGE);
    assert_eq!(number(fresh(), vec![key(9).time1(at(0, 1_000_000_000))]), 4);
    assert_eq!(number(fresh(), vec![Filled::code(32).a(1 << 62)]), 5);
    assert_eq!(number(fresh(), vec![key(1).holder(145, &[])]), 6);
    assert_eq!(number(fresh(), vec![Filled::code(40).limit(i32::MIN)]), 8);
}

#[test]
fn what_there_is_no_place_for() {
    let mut first_owned = instances(LARGE, 1, 16);
    first_owned.instances[0].owner = Some((guid(0), 1));
    let seventeenth = |code| Filled::code(code).handle(1).guid(guid(16)).limit(-1);
    assert_eq!(number(instances(LARGE, 128, 0), vec![Filled::code(1).key([255; 16])]), 9);
    assert_eq!(number(instances(SMALL, 32, 0), vec![Filled::code(1).key([255; 16])]), 9);
    assert_eq!(number(instances(LARGE, 32, 0), vec![Filled::code(1).key([255; 16])]), 0);
    assert_eq!(number(instances(LARGE, 1, 16), vec![seventeenth(6)]), 10);
    assert_eq!(number(first_owned, vec![seventeenth(48)]), 10);
    assert_eq!(number(writers(128), vec![Filled::code(32).guid(guid(200))]), 11);
    let mut last_handle = State::fresh(LARGE);
    last_handle.head.next_handle = 1 << 63;
    assert_eq!(number(last_handle, vec![key(1)]), 13);
}

#[test]
fn no_place_in_lost() {
    let mut state = writers(1);
    state.writers[0].standing = Standing::Alive;
    state.writers[0].lease = Some(1);
    state.head.alive = 1;
    state.lost = vec![guid(9); 256];
    state.head.lost = 256;
    assert_eq!(number(state, vec![Filled::code(37).a(1)]), 12);
}

#[test]
fn a_departed_writer_stays_counted_when_unmatched() {
    let (status, _) =
        run(State::fresh(LARGE), vec![32, 34, 33, 39].into_iter().map(Filled::code).collect());
    assert_eq!((status.alive, status.not_alive), (0, 1));
}

/// By request; the calls that an admit is made of leave no owner.
#[test]
fn an_admit_owns_what_it_starts() {
    let strong = |code| key(code).guid(guid(1)).strength(5);
    let weak = |code| key(code).guid(guid(2)).strength(1);
    let (answer, _) = run(State::fresh(LARGE), vec![strong(48), weak(48)]);
    assert_eq!((answer.number, answer.outcome), (0, 4));
    let (answer, _) = run(State::fresh(LARGE), vec![strong(16), strong(9), strong(10), weak(16)]);
    assert!(answer.yes);
}

/// By request: the Rust takes seconds before the epoch for 0, so that only the
/// nanoseconds count there.
#[test]
fn times_before_the_epoch_are_signed() {
    let second = 1_000_000_000;
    let delivered = |time| vec![key(9), key(11).time1(time)];
    let disposed = |time| vec![key(9), Filled::code(3).handle(1).time1(time).bits(TIME1_PRESENT)];
    let order = key(48).time1(at(-9, 8)).bits(BY_SOURCE);
    let filter = key(48).time2(at(-4, 0)).a(second);
    let purge = Filled::code(21).time2(at(-9, 0)).a(second);
    for (before, last, ours, rust) in [
        (delivered(at(-3, 7)), order, (1, 0), (0, 0)),
        (delivered(at(-5, 0)), filter, (0, 0), (2, 0)),
        (disposed(at(-10, 0)), purge, (0, 1), (0, 0)),
    ] {
        let list = [before, vec![last]].concat();
        let told = |answer: Answer| (answer.outcome, answer.count);
        assert_eq!(rust_alone(&list).map(told), original::PRESENT.then_some(rust));
        assert_eq!(told(run(State::fresh(LARGE), list).0), ours);
    }
}

/// The Rust takes any length with any size: up to 16 stated it pads the key,
/// or cuts it at 16 bytes; above it hashes.
#[test]
fn a_key_longer_than_stated_or_of_too_large_a_size() {
    let (short, long) = ([7; 17], [7; 6000]);
    let cut: Option<[u8; 16]> = original::PRESENT.then_some([7; 16]);
    assert_eq!((key_hash(&short, 16), original::key_hash_of(&short, 16)), (Err(14), cut));
    let padded = original::PRESENT.then_some([7, 7, 7, 7, 7, 7, 7, 7, 7, 7, 0, 0, 0, 0, 0, 0]);
    assert_eq!(
        (key_hash(&short[..10], 3), original::key_hash_of(&short[..10], 3)),
        (Err(14), padded)
    );
    for (key, largest, number) in [(&long[..18], 17, 14), (&short, 4097, 15), (&long, 5000, 15)] {
        let hashed = original::PRESENT.then(|| md5(key));
        assert_eq!(key_hash(key, largest), Err(number));
        assert_eq!(original::key_hash_of(key, largest as usize), hashed);
    }
}

#[test]
fn an_older_time_of_disposal_counts() {
    let disposed = Filled::code(3).handle(1);
    let timed = disposed.clone().time1(at(0, 10)).bits(TIME1_PRESENT);
    let purge = Filled::code(21).time2(at(0, 15)).a(5);
    let (answer, _) = run(State::fresh(LARGE), vec![key(9), timed, key(9), disposed, purge]);
    assert_eq!(answer.count, 1);
}

#[test]
fn unregister_stamps_again() {
    let unregister = |s| Filled::code(4).handle(1).time1(at(s, 0)).bits(TIME1_PRESENT);
    let (_, state) = run(State::fresh(LARGE), vec![key(9), unregister(1), unregister(2)]);
    assert_eq!(state.instances[0].no_writers_at, Some(at(2, 0)));
}

#[test]
fn a_match_revives_another_writer() {
    let of = |code: u8, n| Filled::code(code).guid(guid(n));
    let first = of(32, 2).b(10).bits(LEASE_PRESENT);
    let (_, state) = run(State::fresh(LARGE), vec![first, Filled::code(37).a(10), of(32, 1).a(11)]);
    assert_eq!((state.head.alive, state.head.last_writer), (2, Some(guid(2))));
}
