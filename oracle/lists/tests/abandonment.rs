//! When an instance is shown as abandoned: docs/ABANDONMENT.md's sentences on
//! random lists from fresh, and a wrong variant of each that is caught.

use std::collections::BTreeMap;

use lists::fill::{Filled, LEASE_PRESENT};
use lists::generate::{Calls, Rates};
use lists::start::Start;
use lists::{Generator, Image, Step};
use reading::layout::{FIGURES, Instance, Kind, SMALL, Standing, Writer};
use reading::{Answer, Sheet, State};

const LISTS: u64 = 100_000;

type Id = [u8; 16];

/// A wrong variant of a sentence, or none.
#[derive(Debug, Clone, Copy, PartialEq, Eq)]
enum Wrong {
    None,
    /// A lapse leaves who stands.
    LapseLeaves,
    /// A part takes every writer out.
    PartTakesAll,
    /// An admit with outcome 4 makes its writer stand.
    TurnedAwayStands,
    /// Code 6 makes a writer stand where nobody does.
    NotedStands,
    /// The list has codes 8 and 9 at will.
    AnyStart,
    /// Code 37 ends standing as 49 does.
    ExpireEnds,
    /// A lapse leaves due writers alive one nanosecond longer.
    LapseIsLate,
    /// A lapse takes writers out one nanosecond before their lease has run out.
    Eager,
    /// Code 4 is a cause at a writer count of 2.
    CountOfTwo,
    /// Code 5 is a cause only where its GUID is in the set.
    OnlyIfThere,
    /// Codes 7, 50 and 51 are causes where the set is empty.
    EmptySet,
    /// Code 49 is a cause where one of the set expired.
    OneExpired,
}

/// What is kept of one instance.
#[derive(Default)]
struct Stand {
    handle: u64,
    writers: Vec<Id>,
}

/// Who stands, by key.
#[derive(Default)]
struct Stands(BTreeMap<Id, Stand>);

impl Stands {
    fn of(&self, key: &Id) -> &[Id] {
        self.0.get(key).map_or(&[], |stand| &stand.writers)
    }

    fn lose(&mut self, gone: impl Fn(&Id) -> bool) {
        self.0.values_mut().for_each(|stand| stand.writers.retain(|g| !gone(g)));
    }

    fn hear(&mut self, sheet: Sheet<'_>, answer: &Answer, expired: &[Id], wrong: Wrong) {
        let stops = wrong == Wrong::TurnedAwayStands && answer.outcome == 4;
        match sheet.code() {
            48 if answer.outcome == 0 || stops => {
                let stand = self.0.entry(sheet.key()).or_default();
                stand.handle = if stops { stand.handle } else { answer.handle };
                stand.writers.push(sheet.guid());
            }
            6 => self.0.values_mut().for_each(|stand| {
                let some = !stand.writers.is_empty() || wrong == Wrong::NotedStands;
                if stand.handle == sheet.handle() && some {
                    stand.writers.push(sheet.guid());
                }
            }),
            49 if wrong != Wrong::LapseLeaves => self.lose(|g| expired.contains(g)),
            37 if wrong == Wrong::ExpireEnds => self.lose(|g| expired.contains(g)),
            50 | 51 => self.lose(|g| *g == sheet.guid() || wrong == Wrong::PartTakesAll),
            _ => {}
        }
    }
}

fn find(state: &State, key: &Id) -> Option<Instance> {
    state.place(key).ok().map(|place| state.instances[place].clone())
}

fn writer(state: &State, guid: &Id) -> Option<Writer> {
    state.writers.iter().find(|w| w.guid == *guid).copied()
}

/// Whether a console that keeps its instances by joined calls makes this call.
fn keeps(sheet: Sheet<'_>, before: &State, stands: &Stands, wrong: Wrong) -> bool {
    match sheet.code() {
        11..=21 | 32..=40 | 48..=51 => true,
        6 if wrong == Wrong::NotedStands => true,
        6 => before
            .instances
            .iter()
            .all(|i| i.handle != sheet.handle() || !stands.of(&i.key).is_empty()),
        8 | 9 if wrong == Wrong::AnyStart => true,
        1 | 2 | 8 | 9 => !stands.of(&sheet.key()).is_empty(),
        _ => false,
    }
}

/// Who stands and what is shown, both ways.
fn shown(state: &State, stands: &Stands) -> bool {
    let there = state.instances.iter().all(|i| {
        let standing = stands.of(&i.key);
        let kind = if standing.is_empty() { Kind::NoWriters } else { Kind::Alive };
        i.kind == kind
            && i.writers.iter().all(|g| standing.contains(g))
            && standing.iter().all(|g| i.writers.contains(g))
    });
    there && stands.0.iter().all(|(key, s)| s.writers.is_empty() || find(state, key).is_some())
}

fn due_after(state: &State, clock: u64, wrong: Wrong) -> bool {
    let late = u64::from(wrong == Wrong::LapseIsLate);
    state.writers.iter().filter_map(Writer::due).all(|due| clock + late < due)
}

/// Whom a lapse takes out has a lease, and it has run out.
fn due_before(before: &State, clock: u64, expired: &[Id]) -> bool {
    expired.iter().all(|g| writer(before, g).and_then(|w| w.due()).is_some_and(|due| due <= clock))
}

/// The same call, in the wrong program with a lapse one nanosecond too early.
fn made(step: Step, wrong: Wrong) -> Step {
    match Sheet::of(&step.sheet) {
        Some(sheet) if sheet.code() == 49 && wrong == Wrong::Eager => {
            let clock = sheet.a().saturating_add(1);
            Step { sheet: Filled(step.sheet.clone()).a(clock).0, ..step }
        }
        _ => step,
    }
}

/// The calls that turn an alive instance to no-writers.
fn causes(sheet: Sheet<'_>, i: &Instance, expired: &[Id], wrong: Wrong) -> bool {
    let named = |g: &Id| *g == sheet.guid();
    let some = !i.writers.is_empty();
    let count = if wrong == Wrong::CountOfTwo { 2 } else { 1 };
    match sheet.code() {
        4 => i.handle == sheet.handle() && i.writer_count <= count,
        5 => {
            i.handle == sheet.handle()
                && i.writers.iter().all(named)
                && (some || wrong != Wrong::OnlyIfThere)
        }
        7 | 50 | 51 => (some || wrong == Wrong::EmptySet) && i.writers.iter().all(named),
        49 if wrong == Wrong::OneExpired => i.writers.iter().any(|g| expired.contains(g)),
        49 => some && i.writers.iter().all(|g| expired.contains(g)),
        _ => false,
    }
}

fn caused(sheet: Sheet<'_>, before: &State, after: &State, expired: &[Id], wrong: Wrong) -> bool {
    before.instances.iter().filter(|i| i.kind == Kind::Alive).all(|i| {
        let abandoned = find(after, &i.key).is_some_and(|i| i.kind == Kind::NoWriters);
        abandoned == causes(sheet, i, expired, wrong)
    })
}

/// What a run has met, so that no sentence holds for want of cases.
#[derive(Debug, Default)]
struct Met {
    standing: u64,
    noted: u64,
    turned_away: u64,
    abandoned: u64,
    purged: u64,
    lapsed: u64,
    causes: BTreeMap<u8, u64>,
}

/// One list of at most 30 calls; gives the sentence that fails, if one does.
fn one_list(seed: u64, console: bool, wrong: Wrong, met: &mut Met) -> Result<(), &'static str> {
    let calls = if seed.is_multiple_of(2) { Calls::Joined } else { Calls::All };
    let places = FIGURES[(seed / 2 % 2) as usize];
    let (mut generator, mut before) = Generator::of(seed, places, calls, Start::Fresh);
    generator.rates = Rates { damage: usize::MAX, ..Rates::USUAL };
    let mut stands = Stands::default();
    let mut image = Image::of_state(&before);
    for _ in 0..1 + seed % 30 {
        let step = generator.next(&before);
        // What a console does not call leaves all as it was, refused or not made.
        let bytes = step.sheet.clone();
        let sheet = Sheet::of(&bytes);
        if console && sheet.is_some_and(|s| !keeps(s, &before, &stands, wrong)) {
            continue;
        }
        let (answer, _) = image.step(&made(step, wrong), reading::call);
        let Some(sheet) = sheet.filter(|_| answer.number == 0) else { continue };
        let after = image.state().ok_or("well formed")?;
        let expired: Vec<Id> = before
            .writers
            .iter()
            .filter(|w| w.standing == Standing::Alive)
            .map(|w| w.guid)
            .filter(|g| writer(&after, g).is_some_and(|w| w.standing == Standing::NotAlive))
            .collect();
        stands.hear(sheet, &answer, &expired, wrong);
        if console && !shown(&after, &stands) {
            return Err("shown");
        }
        if sheet.code() == 49 && !due_after(&after, sheet.a(), wrong) {
            return Err("lapse");
        }
        if sheet.code() == 49 && !due_before(&before, sheet.a(), &expired) {
            return Err("early");
        }
        if !caused(sheet, &before, &after, &expired, wrong) {
            return Err("causes");
        }
        count(met, sheet, &answer, &before, &after, &stands);
        before = after;
    }
    Ok(())
}

fn count(
    met: &mut Met,
    sheet: Sheet<'_>,
    answer: &Answer,
    before: &State,
    after: &State,
    stands: &Stands,
) {
    let handled = before.instances.iter().any(|i| i.handle == sheet.handle());
    met.standing += stands.0.values().map(|s| s.writers.len() as u64).sum::<u64>();
    met.noted += u64::from(sheet.code() == 6 && handled);
    met.turned_away += u64::from(sheet.code() == 48 && answer.outcome == 4);
    met.abandoned += after.instances.iter().filter(|i| i.kind == Kind::NoWriters).count() as u64;
    met.purged += u64::from(before.instances.len() > after.instances.len());
    met.lapsed += u64::from(sheet.code() == 49);
    for i in before.instances.iter().filter(|i| i.kind == Kind::Alive) {
        if find(after, &i.key).is_some_and(|i| i.kind == Kind::NoWriters) {
            *met.causes.entry(sheet.code()).or_default() += 1;
        }
    }
}

/// The first sentence that fails, over lists of a console or of any calls.
fn first_failure(console: bool, wrong: Wrong, lists: u64) -> (Option<&'static str>, Met) {
    let mut met = Met::default();
    for seed in 1..=lists {
        if let Err(what) = one_list(seed, console, wrong, &mut met) {
            return (Some(what), met);
        }
    }
    (None, met)
}

#[test]
fn a_console_shows_who_stands() {
    let (failed, met) = first_failure(true, Wrong::None, LISTS);
    println!("{met:?}");
    assert_eq!(failed, None);
    let all = [met.standing, met.noted, met.turned_away, met.abandoned, met.purged, met.lapsed];
    assert!(all.iter().all(|n| *n > 100), "{met:?}");
    assert_eq!(met.causes.keys().copied().collect::<Vec<_>>(), [49, 50, 51]);
}

#[test]
fn any_list_abandons_by_the_causes() {
    let (failed, met) = first_failure(false, Wrong::None, LISTS);
    println!("{met:?}");
    assert_eq!(failed, None);
    assert_eq!(met.causes.keys().copied().collect::<Vec<_>>(), [4, 5, 7, 49, 50, 51]);
    assert!(met.causes.values().all(|n| *n > 100), "{met:?}");
}

#[test]
fn each_wrong_variant_is_caught() {
    let wrong = [
        (Wrong::LapseLeaves, true, "shown"),
        (Wrong::PartTakesAll, true, "shown"),
        (Wrong::TurnedAwayStands, true, "shown"),
        (Wrong::NotedStands, true, "shown"),
        (Wrong::AnyStart, true, "shown"),
        (Wrong::ExpireEnds, true, "shown"),
        (Wrong::LapseIsLate, true, "lapse"),
        (Wrong::Eager, true, "early"),
        (Wrong::CountOfTwo, false, "causes"),
        (Wrong::OnlyIfThere, false, "causes"),
        (Wrong::EmptySet, false, "causes"),
        (Wrong::OneExpired, false, "causes"),
    ];
    for (variant, console, what) in wrong {
        assert_eq!(first_failure(console, variant, LISTS).0, Some(what), "{variant:?}");
    }
}

fn id(n: u8) -> Id {
    let mut id = [0; 16];
    id[15] = n;
    id
}

/// A call on key 7 and handle 1.
fn sheet(code: u8, writer: u8) -> Filled {
    Filled::code(code).key(id(7)).guid(id(writer)).handle(1).limit(1)
}

fn matched(writer: u8) -> Filled {
    sheet(32, writer).a(1).b(1).bits(LEASE_PRESENT)
}

fn admit(writer: u8, strength: i32) -> Filled {
    sheet(48, writer).strength(strength)
}

fn lapse(clock: u64) -> Filled {
    sheet(49, 0).a(clock)
}

/// The smallest lists of crates/abandonment/specs/Lists.antt, over bytes: the
/// outcomes, and the writers of the instance, which is alive where there are.
#[test]
fn the_smallest_lists_end_as_stated() {
    let strong = || vec![matched(1), admit(1, 2), admit(2, 1)];
    let lists: [(Vec<Filled>, &[u8], &[u8]); 11] = [
        ([strong(), vec![lapse(2)]].concat(), &[0, 0, 4, 0], &[]),
        ([strong(), vec![sheet(6, 2), lapse(2)]].concat(), &[0, 0, 4, 0, 0], &[2]),
        (vec![matched(1), admit(1, 2), admit(2, 1).a(1), lapse(2)], &[0, 0, 2, 0], &[]),
        (vec![admit(1, 2), lapse(9)], &[0, 0], &[1]),
        (vec![matched(1).bits(2), admit(1, 2), lapse(9)], &[0, 0, 0], &[1]),
        (vec![sheet(32, 1).a(1), admit(1, 2), lapse(9)], &[0, 0, 0], &[1]),
        (vec![matched(1), admit(1, 2), sheet(37, 0).a(9), lapse(9)], &[0, 0, 0, 0], &[1]),
        (vec![matched(1), sheet(51, 1), admit(1, 2), lapse(9)], &[0, 0, 0, 0], &[1]),
        (vec![matched(1), admit(1, 2), lapse(2), admit(1, 2), lapse(9)], &[0, 0, 0, 0, 0], &[1]),
        (vec![matched(1), admit(1, 2), sheet(33, 1), lapse(9)], &[0, 0, 0, 0], &[1]),
        (vec![matched(1), admit(1, 2), sheet(34, 1), lapse(9)], &[0, 0, 0, 0], &[1]),
    ];
    for (list, outcomes, writers) in lists {
        let mut image = Image::fresh(SMALL);
        for (Filled(bytes), outcome) in list.into_iter().zip(outcomes) {
            let (answer, _) = image.step(&Step::of(SMALL, bytes), reading::call);
            assert_eq!((answer.number, answer.outcome), (0, *outcome));
        }
        let i = find(&image.state().expect("well formed"), &id(7)).expect("there");
        let kind = if writers.is_empty() { Kind::NoWriters } else { Kind::Alive };
        assert_eq!((i.kind, i.writers), (kind, writers.iter().map(|n| id(*n)).collect()));
    }
}
