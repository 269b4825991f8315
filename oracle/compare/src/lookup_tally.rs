//! What became of the lookups compared, counted by what the table has of the
//! writer.

use reading::bytes::Guid;
use reading::layout::{INSTANCE_BYTES, Instance, Kind, LARGE, SET_PLACES, SMALL, places_of};

use crate::added::{self, Case};
use crate::counts::{Row, Table};
use crate::lookups::Lookup;

/// The name of a sort in a table that counts the lookup.
type Name = Option<&'static str>;

/// A lookup by its sorts.
pub struct Met {
    places: &'static str,
    asked: &'static str,
    damage: Name,
    told: Told,
}

/// Of one that is not refused.
#[derive(Default)]
struct Told {
    instances: Name,
    fitting: Name,
    in_set_of: Name,
    writers: Name,
    owned: Name,
    revived: Name,
    handle: Name,
    place: Name,
    guid: Name,
}

/// The numbers of places.
const SIZES: [&str; 2] = ["32", "128"];
const INSTANCES: [&str; 5] = ["none", "1", "2 to 8", "more", "all places"];
/// Whose sets have the GUID; before and behind are seen from the answer.
const IN_SET_OF: [&str; 5] =
    ["alive ones alone", "a dead one before", "dead ones behind", "dead ones alone", "none"];
/// What the answer was before it was alive, by the times that it keeps.
const REVIVED: [&str; 4] = ["from disposed", "from no writers", "from both", "from neither"];
/// Where the answer stands, by the number of places; the last is a full table's.
const PLACE: [&[&str]; 2] =
    [&["first", "up to 32nd", "last of all"], &["first", "up to 32nd", "beyond", "last of all"]];
/// What the GUID is beside those of alive instances before the answer.
const ALIKE: [&str; 5] = ["zero", "one byte off", "first 8 alike", "last 8 alike", "other"];

pub fn lookup_sorts() -> Vec<Table<Case<Met>>> {
    vec![
        Table::by("places", ["32", "128", "another length"], |case: &Case<Met>| case.asked.places),
        by_size("instances", [&INSTANCES; 2], |met| met.told.instances),
        by_size("alive with the GUID", [&["none", "1", "2", "more"]; 2], |met| met.told.fitting),
        by_size("in the set of", [&IN_SET_OF; 2], |met| met.told.in_set_of),
        by_size("writers in its set", [&["1", "2 to 15", "16"]; 2], |met| met.told.writers),
        by_size("owned before the answer", [&["yes", "no"]; 2], |met| met.told.owned),
        by_size("revived", [&REVIVED; 2], |met| met.told.revived),
        by_size("handle of several", [&["lowest", "highest", "neither"]; 2], |met| met.told.handle),
        by_size("place in the table", PLACE, |met| met.told.place),
        by_size("GUID asked for", [&ALIKE; 2], |met| met.told.guid),
        by_size("in spite of damage", [&["one would fit", "none would"]; 2], |met| met.damage),
        Table::by("asked", ["once", "twice"], |case: &Case<Met>| case.asked.asked),
    ]
}

/// Rows of their own for each size, so that a sort that one of them never has
/// shows.
fn by_size(
    name: &'static str,
    rows: [&'static [&'static str]; 2],
    of: fn(&Met) -> Name,
) -> Table<Case<Met>> {
    let row = |(size, sort)| {
        let takes = move |met: &Met| met.places == size && of(met) == Some(sort);
        Row::of(format!("{size}: {sort}"), move |case: &Case<Met>| takes(&case.asked))
    };
    let of_size = |(size, sorts): (_, &'static [_])| sorts.iter().map(move |sort| (size, *sort));
    Table::of(name, SIZES.into_iter().zip(rows).flat_map(of_size).map(row))
}

impl Met {
    pub fn of(lookup: &Lookup, told: &added::Told) -> Self {
        Self {
            places: match places_of(lookup.pens.bytes.len()) {
                Some(SMALL) => "32",
                Some(LARGE) => "128",
                _ => "another length",
            },
            asked: if lookup.again { "twice" } else { "once" },
            damage: (*told == Err(3)).then(|| damage(lookup)),
            told: match &lookup.pens.instances {
                Ok(instances) if told.is_ok() => Told::of(lookup, instances),
                _ => Told::default(),
            },
        }
    }
}

fn has(i: &Instance, guid: &Guid, alive: bool) -> bool {
    (i.kind == Kind::Alive) == alive && i.writers.contains(guid)
}

/// Whether one fits for who takes each record by itself, up to a damaged one.
fn damage(lookup: &Lookup) -> &'static str {
    let records = lookup.pens.bytes.chunks(INSTANCE_BYTES);
    let mut whole = records.map_while(Instance::of_record);
    if whole.any(|i| has(&i, &lookup.guid, true)) { "one would fit" } else { "none would" }
}

impl Told {
    fn of(lookup: &Lookup, instances: &[Instance]) -> Self {
        let places = |alive| {
            let with_guid = move |(_, i): &(usize, &Instance)| has(i, &lookup.guid, alive);
            instances.iter().enumerate().filter(with_guid).map(|(place, _)| place)
        };
        let alive: Vec<usize> = places(true).collect();
        let place = alive.first().copied();
        let answer = place.map(|place| &instances[place]);
        // Where none is named all are before the answer.
        let before = &instances[..place.unwrap_or(instances.len())];
        let full = places_of(lookup.pens.bytes.len()) == Some(instances.len() as u16);
        let handles: Vec<u64> = alive.iter().map(|place| instances[*place].handle).collect();
        Self {
            instances: Some(how_many(instances.len(), full)),
            fitting: Some(["none", "1", "2", "more"][alive.len().min(3)]),
            in_set_of: Some(in_set_of(place, places(false).next())),
            writers: answer.map(writers),
            owned: Some(if owned(before, &lookup.guid) { "yes" } else { "no" }),
            revived: answer.map(revived),
            handle: handle_of_several(&handles),
            place: place.map(|place| place_in_table(place, full && place + 1 == instances.len())),
            guid: Some(alike(before, &lookup.guid)),
        }
    }
}

fn how_many(instances: usize, full: bool) -> &'static str {
    match instances {
        0 => "none",
        1 => "1",
        2..=8 => "2 to 8",
        _ if full => "all places",
        _ => "more",
    }
}

/// By the places of the answer and of the first dead one with the GUID.
fn in_set_of(answer: Option<usize>, dead: Option<usize>) -> &'static str {
    match (answer, dead) {
        (None, None) => "none",
        (None, Some(_)) => "dead ones alone",
        (Some(_), None) => "alive ones alone",
        (Some(answer), Some(dead)) if dead < answer => "a dead one before",
        _ => "dead ones behind",
    }
}

fn writers(i: &Instance) -> &'static str {
    match i.writers.len() {
        1 => "1",
        SET_PLACES => "16",
        _ => "2 to 15",
    }
}

/// Whether the GUID owns an alive instance before the answer; none of these has
/// it in its set, or that would be the answer.
fn owned(before: &[Instance], guid: &Guid) -> bool {
    let owns = |i: &Instance| i.owner.is_some_and(|(owner, _)| owner == *guid);
    before.iter().any(|i| i.kind == Kind::Alive && owns(i))
}

fn place_in_table(place: usize, last_of_all: bool) -> &'static str {
    match place {
        _ if last_of_all => "last of all",
        0 => "first",
        1..32 => "up to 32nd",
        _ => "beyond",
    }
}

fn revived(i: &Instance) -> &'static str {
    match (i.disposed_at, i.no_writers_at) {
        (Some(_), None) => "from disposed",
        (None, Some(_)) => "from no writers",
        (Some(_), Some(_)) => "from both",
        (None, None) => "from neither",
    }
}

/// The first handle beside the others, where there are any.
fn handle_of_several(handles: &[u64]) -> Name {
    let (first, others) = handles.split_first().filter(|(_, others)| !others.is_empty())?;
    let (below, above) =
        (others.iter().any(|other| other < first), others.iter().any(|other| other > first));
    Some(match (below, above) {
        (false, _) => "lowest",
        (true, false) => "highest",
        (true, true) => "neither",
    })
}

fn alike(before: &[Instance], guid: &Guid) -> &'static str {
    let alive = before.iter().filter(|i| i.kind == Kind::Alive);
    let others: Vec<&Guid> = alive.flat_map(|i| &i.writers).collect();
    let off = |other: &Guid| other.iter().zip(guid).filter(|(a, b)| a != b).count() == 1;
    if *guid == [0; 16] {
        "zero"
    } else if others.iter().any(|other| off(other)) {
        "one byte off"
    } else if others.iter().any(|other| other[..8] == guid[..8]) {
        "first 8 alike"
    } else if others.iter().any(|other| other[8..] == guid[8..]) {
        "last 8 alike"
    } else {
        "other"
    }
}
