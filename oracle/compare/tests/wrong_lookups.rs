//! Wrong lookups in place of the library's are caught, and the tables that
//! catch them come out small.

mod over_bytes;

use compare::added::{Added, Case, Told, cases, compare_added};
use compare::lookups::{LentPens, Lookup, as_told};
use over_bytes::{COUNT, changed, over_bytes, right, shared, wrong};
use reading::bytes::{Guid, u32_at, u64_at};
use reading::layout::{
    INSTANCE_BYTES, Instance, Kind, LARGE, NANOSECONDS, SET_PLACES, SMALL, pens_bytes,
};
use reading::reads;

shared!(Lookup, [1, 3], lent);

/// How many instances a well-formed table has.
fn instances(case: &Case<Lookup>) -> usize {
    case.asked
        .pens
        .instances
        .as_ref()
        .map(Vec::len)
        .unwrap_or_else(|n| panic!("refused as {n}: {case}"))
}

/// Full tables of the other size do not make up for it.
#[test]
fn a_sort_that_one_size_lacks_is_missing() {
    for places in [SMALL, LARGE] {
        let full = |pens: &LentPens| {
            let all_taken = |all: &Vec<Instance>| all.len() == usize::from(places);
            pens.bytes.len() == pens_bytes(places) && pens.instances.as_ref().is_ok_and(all_taken)
        };
        let lookups = cases::<Lookup>(1, COUNT).filter(|(_, case)| !full(&case.asked.pens));
        let counts = compare_added(lookups, &mut right);
        let missing = counts.unwrap_or_else(|parted| panic!("{}", parted.case)).missing();
        let instances = format!("instances {places}: all places");
        assert_eq!(missing, [instances, format!("place in the table {places}: last of all")]);
    }
}

fn alive(i: &Instance) -> bool {
    i.kind == Kind::Alive
}

fn has(i: &Instance, guid: &Guid) -> bool {
    i.writers.contains(guid)
}

fn fitting<'a>(all: &'a [Instance], guid: &Guid) -> Vec<&'a Instance> {
    all.iter().filter(|i| alive(i) && has(i, guid)).collect()
}

/// Whether it has a time of its end, as a revived one keeps it.
fn ended(i: &Instance) -> bool {
    i.disposed_at.is_some() || i.no_writers_at.is_some()
}

/// The first of any kind.
fn of_any_kind<'a>(all: &'a [Instance], guid: &Guid) -> Option<&'a Instance> {
    all.iter().find(|i| has(i, guid))
}

/// The first that is not of a kind.
fn of_kinds<'a>(all: &'a [Instance], guid: &Guid, but: Kind) -> Option<&'a Instance> {
    all.iter().find(|i| i.kind != but && has(i, guid))
}

/// The first alive one with a GUID of which these bytes are alike.
fn by_bytes<'a>(
    all: &'a [Instance],
    guid: &Guid,
    bytes: std::ops::Range<usize>,
) -> Option<&'a Instance> {
    let alike = |other: &Guid| other[bytes.clone()] == guid[bytes.clone()];
    all.iter().find(|i| alive(i) && i.writers.iter().any(alike))
}

/// The first alive one of which the set passes a test.
fn by_set(all: &[Instance], test: impl Fn(&[Guid]) -> bool) -> Option<&Instance> {
    all.iter().find(|i| alive(i) && test(&i.writers))
}

/// A search that gives a set up at the first GUID above, taken for a signed
/// number.
fn signed_search(set: &[Guid], guid: &Guid) -> bool {
    let signed = |guid: &Guid| i128::from_be_bytes(*guid);
    set.iter().take_while(|other| signed(other) <= signed(guid)).any(|other| other == guid)
}

/// The first alive one that has the GUID in its set, or elsewhere.
fn in_set_or<'a>(
    all: &'a [Instance],
    guid: &Guid,
    elsewhere: impl Fn(&Instance) -> bool,
) -> Option<&'a Instance> {
    all.iter().find(|i| alive(i) && (has(i, guid) || elsewhere(i)))
}

type Rule = for<'a> fn(&'a [Instance], &Guid) -> Option<&'a Instance>;

/// Wrong rules, each with the number of instances that catches it.
const WRONG: [(&str, Rule, usize); 29] = [
    ("the last in key order", |all, guid| fitting(all, guid).pop(), 2),
    ("the second", |all, guid| fitting(all, guid).into_iter().take(2).next_back(), 2),
    ("the lowest handle", |all, guid| fitting(all, guid).into_iter().min_by_key(|i| i.handle), 2),
    ("the highest handle", |all, guid| fitting(all, guid).into_iter().max_by_key(|i| i.handle), 2),
    (
        "by the last half of the key",
        |all, guid| fitting(all, guid).into_iter().min_by_key(|i| u64_at(&i.key, 8)),
        2,
    ),
    (
        "keys as signed numbers",
        |all, guid| fitting(all, guid).into_iter().min_by_key(|i| i128::from_be_bytes(i.key)),
        2,
    ),
    ("dead ones too", of_any_kind, 1),
    ("disposed ones too", |all, guid| of_kinds(all, guid, Kind::NoWriters), 1),
    ("ones without writers too", |all, guid| of_kinds(all, guid, Kind::Disposed), 1),
    (
        "a dead one where it comes first",
        |all, guid| of_any_kind(all, guid).filter(|_| !fitting(all, guid).is_empty()),
        2,
    ),
    (
        "none where a dead one comes first",
        |all, guid| of_any_kind(all, guid).filter(|i| alive(i)),
        2,
    ),
    ("dead by its times", |all, guid| fitting(all, guid).into_iter().find(|i| !ended(i)), 1),
    ("the first of the table", |all, _| all.first(), 1),
    ("the first alive one", |all, _| all.iter().find(|i| alive(i)), 1),
    ("8 bytes of the GUID", |all, guid| by_bytes(all, guid, 0..8), 1),
    ("its last 8 bytes", |all, guid| by_bytes(all, guid, 8..16), 1),
    ("its participant", |all, guid| by_bytes(all, guid, 0..12), 1),
    ("its last 15 bytes", |all, guid| by_bytes(all, guid, 1..16), 1),
    (
        "none where there is one",
        |all, guid| fitting(all, guid).first().copied().filter(|_| fitting(all, guid).len() > 1),
        1,
    ),
    ("none ever", |_, _| None, 1),
    (
        "the first 32 records alone",
        |all, guid| fitting(&all[..all.len().min(32)], guid).first().copied(),
        33,
    ),
    (
        "all but the last record",
        |all, guid| fitting(&all[..all.len().max(1) - 1], guid).first().copied(),
        1,
    ),
    ("the first of a set alone", |all, guid| by_set(all, |set| set.first() == Some(guid)), 1),
    (
        "15 of a set alone",
        |all, guid| by_set(all, |set| set.iter().take(15).any(|other| other == guid)),
        1,
    ),
    (
        "a set's unused places too",
        |all, guid| {
            by_set(all, |set| set.contains(guid) || *guid == [0; 16] && set.len() < SET_PLACES)
        },
        1,
    ),
    (
        "an owner too",
        |all, guid| in_set_or(all, guid, |i| i.owner.is_some_and(|(owner, _)| owner == *guid)),
        1,
    ),
    (
        "a holder too",
        |all, guid| in_set_or(all, guid, |i| i.holder.as_deref() == Some(&guid[..])),
        1,
    ),
    ("a key too", |all, guid| in_set_or(all, guid, |i| i.key == *guid), 1),
    ("sets in signed order", |all, guid| by_set(all, |set| signed_search(set, guid)), 1),
];

/// What is told where the instances are not refused.
fn handle(lookup: &Lookup, of: impl Fn(&[Instance]) -> Option<u64>) -> Told {
    as_told(reads::table(&lookup.pens.bytes).map(|all| of(&all)))
}

fn by_rule(rule: Rule, lookup: &Lookup) -> Told {
    handle(lookup, |all| rule(all, &lookup.guid).map(|i| i.handle))
}

#[test]
fn each_wrong_rule_is_caught_by_a_small_table() {
    let rules = WRONG.map(|(what, rule, needed)| {
        (what, move |lookup: &Lookup| by_rule(rule, lookup), (needed, false))
    });
    wrong(rules, |small| (instances(small), small.asked.again));
}

/// Another that fits where the same is asked for once more.
#[test]
fn a_choice_that_does_not_stay_is_caught() {
    let parts = |case: &Case<Lookup>| {
        let mut before = None;
        let alternating = &mut |lookup: &Lookup, lent: &mut [&mut [u8]], answer: &mut [u8]| {
            let again = before.replace(lookup.guid) == Some(lookup.guid);
            let rule: Rule = |all, guid| fitting(all, guid).pop();
            let told = if again { by_rule(rule, lookup) } else { lookup.told() };
            over_bytes(lookup, &told, lent, answer)
        };
        case.compared(alternating).is_err()
    };
    let caught = cases(1, COUNT).map(|(_, case)| case).find(parts).expect("it is caught");
    let small = caught.shrunk(parts);
    assert!(small.asked.again && instances(&small) == 2, "{small}");
}

/// The place in the table for the handle.
fn place(lookup: &Lookup) -> Told {
    let fits = |i: &Instance| alive(i) && has(i, &lookup.guid);
    handle(lookup, |all| all.iter().position(fits).map(|place| place as u64))
}

type WholeRule = fn(&Lookup) -> Told;

/// Other numbers for the handle, each with the number of instances that catches
/// it.
const NUMBERS: [(&str, WholeRule, usize); 3] = [
    ("handle 0 for none", |lookup| changed(lookup, |bytes| bytes[2] = 1), 0),
    ("its place", place, 1),
    ("its low bytes", |lookup| changed(lookup, |bytes| bytes[8..12].fill(0)), 1),
];

#[test]
fn another_number_for_the_handle_is_caught() {
    wrong(NUMBERS, instances);
}

/// What is told of other pens.
fn of_pens(lookup: &Lookup, pens: &[u8]) -> Told {
    as_told(reads::instance_of_writer(pens, &lookup.guid))
}

/// The first that fits, up to a damaged record.
fn in_front(lookup: &Lookup) -> Option<u64> {
    let records = lookup.pens.bytes.chunks_exact(INSTANCE_BYTES);
    let mut whole = records.map_while(Instance::of_record);
    whole.find(|i| alive(i) && has(i, &lookup.guid)).map(|i| i.handle)
}

fn damage_behind_it_taken(lookup: &Lookup) -> Told {
    let stated = [SMALL, LARGE].map(pens_bytes).contains(&lookup.pens.bytes.len());
    match in_front(lookup).filter(|_| stated) {
        Some(handle) => as_told(Ok(Some(handle))),
        None => lookup.told(),
    }
}

fn nanoseconds_taken(lookup: &Lookup) -> Told {
    let mut pens = lookup.pens.bytes.clone();
    for record in pens.chunks_exact_mut(INSTANCE_BYTES) {
        for time in record[44..92].chunks_exact_mut(8) {
            if u32_at(time, 4) >= NANOSECONDS {
                time[4..].fill(0);
            }
        }
    }
    of_pens(lookup, &pens)
}

fn front_of_longer_taken(lookup: &Lookup) -> Told {
    let pens = &lookup.pens.bytes;
    let stated = if pens.len() < pens_bytes(LARGE) { SMALL } else { LARGE };
    of_pens(lookup, &pens[..pens.len().min(pens_bytes(stated))])
}

/// Another answer in the place of one refusal.
fn where_refused(lookup: &Lookup, number: u8, other: Told) -> Told {
    if lookup.told() == Err(number) { other } else { lookup.told() }
}

/// Refusals that are left out or confused, each with the number that is right.
const REFUSALS: [(&str, WholeRule, u8); 5] = [
    ("damage behind it taken", damage_behind_it_taken, 3),
    ("damage taken", |lookup| where_refused(lookup, 3, as_told(Ok(in_front(lookup)))), 3),
    ("nanoseconds taken", nanoseconds_taken, 3),
    ("a longer table's front taken", front_of_longer_taken, 1),
    ("a length refused as 3", |lookup| where_refused(lookup, 1, Err(3)), 1),
];

#[test]
fn each_wrong_refusal_is_caught() {
    wrong(REFUSALS, |small| small.told().expect_err("it is refused"));
}

#[test]
fn one_number_of_places_alone_is_caught() {
    let alone = |places| {
        move |lookup: &Lookup| {
            let taken = lookup.pens.bytes.len() == pens_bytes(places);
            of_pens(lookup, if taken { &lookup.pens.bytes } else { &[] })
        }
    };
    let rules = [("32 alone", alone(SMALL), LARGE), ("128 alone", alone(LARGE), SMALL)];
    wrong(rules.map(|(what, rule, other)| (what, rule, pens_bytes(other))), |small| {
        small.asked.pens.bytes.len()
    });
}
