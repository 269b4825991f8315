//! The Rust judges times before the epoch, given every time 2^30 seconds later.

use judge::compare::{judged, same_state};
use judge::{Way, Ways};
use lists::fill::{BY_SOURCE, DEADLINE_PRESENT, Filled, TIME1_PRESENT};
use lists::{Image, Step, before_epoch};
use original::Original;
use reading::layout::{Instance, Kind, LARGE, Time};
use reading::{Misreading, Sheet, State, call_as};

const KEY: [u8; 16] = [1; 16];
const NEVER: u64 = u64::MAX;
/// The first second that is judged 2^30 seconds later, and the last.
const FIRST: i32 = -1_073_741_824;
const LAST: i32 = 1_073_741_823;

fn at(seconds: i32) -> Option<Time> {
    Some(Time { seconds, nanoseconds: 5 })
}

fn way(instance: &Instance, sheet: Filled) -> Way {
    let mut state = State::fresh(LARGE);
    state.instances.push(instance.clone());
    Way::of_call(&state, Sheet::of(&sheet.0).expect("256 bytes"))
}

fn admit(time1: Option<Time>, time2: Option<Time>) -> Filled {
    let [time1, time2] = [time1, time2].map(Option::unwrap_or_default);
    Filled::code(48).key(KEY).time1(time1).time2(time2)
}

#[test]
fn an_admit_by_its_filter() {
    for (last, time, expected) in [
        (0, 0, Way::AsItStands),
        (i32::MAX, 0, Way::AsItStands),
        (-1, -1, Way::Later),
        (-1, 0, Way::Later),
        (0, -1, Way::Later),
        (FIRST, LAST, Way::Later),
        (LAST, FIRST, Way::Later),
        (FIRST - 1, 0, Way::Alone),
        (0, FIRST - 1, Way::Alone),
        (-1, LAST + 1, Way::Alone),
        (i32::MIN, i32::MAX, Way::Alone),
    ] {
        let known = Instance { last_filter: at(last), ..Instance::fresh(KEY, 1) };
        assert_eq!(way(&known, admit(at(i32::MIN), at(time))), expected, "{last} {time}");
        let other = Instance { key: [2; 16], ..known };
        assert_eq!(way(&other, admit(at(i32::MIN), at(time))), Way::Untimed);
    }
}

/// Last delivered and time 1 are compared by source alone; owner_at, which the
/// Rust has signed, is only to be near, and only with a deadline.
#[test]
fn an_admit_by_order_and_deadline() {
    let known = Instance {
        last_delivered: at(-1),
        last_filter: at(0),
        owner_at: at(i32::MIN),
        ..Instance::fresh(KEY, 1)
    };
    let (early, late) = (admit(at(i32::MIN), at(0)), admit(at(0), at(0)));
    assert_eq!(way(&known, early.clone()), Way::AsItStands);
    assert_eq!(way(&known, early.bits(BY_SOURCE)), Way::Alone);
    assert_eq!(way(&known, late.clone().bits(BY_SOURCE)), Way::Later);
    assert_eq!(way(&known, late.clone().bits(BY_SOURCE | DEADLINE_PRESENT)), Way::Alone);
    assert_eq!(way(&known, late.bits(DEADLINE_PRESENT)), Way::AsItStands);
}

/// The time that an instance died at, by its kind and where its delay is not
/// never. No other call compares times by what request 7 changes.
#[test]
fn a_purge_and_other_calls() {
    let kind = |kind| Instance {
        kind,
        disposed_at: at(-1),
        no_writers_at: at(i32::MIN),
        ..Instance::fresh(KEY, 1)
    };
    let now = |time: Option<Time>| Filled::code(21).time2(time.unwrap_or_default());
    assert_eq!(way(&kind(Kind::Alive), now(at(-1))), Way::Untimed);
    assert_eq!(way(&kind(Kind::Disposed), now(at(-1))), Way::Later);
    assert_eq!(way(&kind(Kind::Disposed), now(at(FIRST - 1))), Way::Alone);
    assert_eq!(way(&kind(Kind::Disposed), now(at(-1)).a(NEVER)), Way::Untimed);
    assert_eq!(way(&kind(Kind::NoWriters), now(at(-1))), Way::Alone);
    assert_eq!(way(&kind(Kind::NoWriters), now(at(-1)).b(NEVER)), Way::Untimed);
    let died = Instance { no_writers_at: at(7), ..kind(Kind::NoWriters) };
    assert_eq!(way(&died, now(at(7))), Way::AsItStands);
    for code in (1..=20).chain(32..=40).chain(49..=51) {
        let sheet = admit(at(-1), at(-1)).bits(TIME1_PRESENT | DEADLINE_PRESENT | BY_SOURCE);
        let Filled(mut bytes) = sheet.handle(1);
        bytes[81] = code;
        assert_eq!(way(&kind(Kind::Disposed), Filled(bytes)), Way::Untimed, "{code}");
    }
}

/// Runs one of request 7's lists by a reading, with the Rust beside it.
fn run(sheets: Vec<Filled>, misreading: Option<Misreading>) -> Result<Ways, String> {
    let mut image = Image::fresh(LARGE);
    let mut state = State::fresh(LARGE);
    let mut rust = Original::at(&state).ok_or("no sources")?;
    let mut ways = Ways::default();
    for sheet in sheets {
        let step = Step::of(LARGE, sheet.0);
        let (answer, out) =
            image.step(&step, |head, sheet, lent| call_as(head, sheet, lent, misreading));
        ways.see(judged(&mut rust, &state, &step, &answer, &out, &image)?);
        same_state(&rust, &image, &mut Image::fresh(LARGE))?;
        state = image.state().ok_or("not well formed")?;
    }
    Ok(ways)
}

#[test]
fn the_rust_agrees_on_the_lists() {
    if !original::PRESENT {
        return;
    }
    for (name, sheets) in before_epoch::lists() {
        let ways = run(sheets, None).expect(name);
        assert_eq!(ways.alone > 0, name == "ends of time", "{name}: {ways:?}");
        assert_eq!(ways.later > 0, name != "ends of time", "{name}: {ways:?}");
    }
}

/// It alone is asked here, not the accounts.
#[test]
fn the_rust_parts_from_each_misreading() {
    if !original::PRESENT {
        return;
    }
    for &misreading in Misreading::BEFORE_EPOCH {
        let lists = before_epoch::lists().into_iter();
        let parted = lists.filter(|(_, sheets)| run(sheets.clone(), Some(misreading)).is_err());
        let names: Vec<&str> = parted.map(|(name, _)| name).collect();
        assert!(!names.is_empty(), "{misreading:?}");
        assert!(!names.contains(&"ends of time"), "{misreading:?}");
    }
}
