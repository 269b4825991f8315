//! Every builder and accessor of include/dcps_inline.h against this crate: examples/c/layout.c prints what C makes and reads,
//! and each line is the one that is written here from Rust. The keepers of C and Rust read each other's areas.

use dcps::keep::{area_bytes, Keeper};
use dcps::{
    wire_fraction, wire_nanos, Answer, Instance, InstanceHandle, InstanceStateKind,
    LivelinessChangedStatus, LivelinessKind, Places, Refusal, Sample, Sheet, State, Time,
    WireFraction, WriterLiveliness, WriterState, REMAINDER_UNKNOWN,
};
use std::fmt::Write;
use std::path::{Path, PathBuf};
use std::process::Command;
use std::sync::OnceLock;
use std::time::Duration;

#[allow(dead_code)]
#[path = "../src/c.rs"]
mod c;

const SAMPLE: &[u8] = include_bytes!("../../../oracle/lists/sample.bin");
const FIRST: Time = Time { sec: -5, nanosec: 7 };
const SECOND: Time = Time { sec: 6, nanosec: 999_999_999 };

/// A program of examples/c, built.
fn program(name: &str) -> PathBuf {
    let root = Path::new(env!("CARGO_MANIFEST_DIR")).join("../..");
    let out = Path::new(env!("CARGO_TARGET_TMPDIR")).join(name);
    let library = std::env::var_os("DCPS_LIB_DIR")
        .map_or_else(|| root.join("target/staticlib"), PathBuf::from)
        .join("libdcps_c.a");
    let compiler = std::env::var("CC").unwrap_or_else(|_| "cc".to_owned());
    let status = Command::new(compiler)
        .args(["-std=c99", "-Wall", "-Wextra", "-Werror", "-O1", "-D_POSIX_C_SOURCE=200809L"])
        .arg("-I")
        .arg(root.join("include"))
        .arg(root.join("examples/c").join(format!("{name}.c")))
        .arg(library)
        .arg("-o")
        .arg(&out)
        .status()
        .expect("a compiler of C");
    assert!(status.success());
    out
}

/// Built once, as several tests run it.
fn layout() -> &'static Path {
    static BUILT: OnceLock<PathBuf> = OnceLock::new();
    BUILT.get_or_init(|| program("layout"))
}

fn lines(program: &Path, words: &[&str]) -> Vec<String> {
    let output = Command::new(program).args(words).output().expect("it runs");
    assert!(output.status.success(), "{}", String::from_utf8_lossy(&output.stderr));
    String::from_utf8(output.stdout).expect("text").lines().map(str::to_owned).collect()
}

/// What a mode of layout prints of a file with these bytes.
fn printed(mode: &str, bytes: &[u8]) -> Vec<String> {
    let file = Path::new(env!("CARGO_TARGET_TMPDIR")).join(format!("{mode}.bin"));
    std::fs::write(&file, bytes).expect("the directory of tests can be written");
    lines(layout(), &[mode, file.to_str().expect("a name")])
}

fn hex(bytes: &[u8]) -> String {
    bytes.iter().fold(String::new(), |mut text, byte| {
        let _ = write!(text, "{byte:02x}");
        text
    })
}

/// The first and the last 8 bytes as numbers.
fn halves(bytes: &[u8; 16]) -> (u64, u64) {
    let half = |at| u64::from_be_bytes(*bytes[at..].first_chunk().expect("8 bytes"));
    (half(0), half(8))
}

/// Nanoseconds to a fraction and its remainder, and back by both and by the fraction alone.
fn stamp(nanosec: u32) -> String {
    let made = wire_fraction(nanosec);
    let number = made.err().map_or(0, Refusal::number);
    let WireFraction { fraction, remainder } = made.unwrap_or_default();
    let (kept, came) = (wire_nanos(fraction, remainder), wire_nanos(fraction, REMAINDER_UNKNOWN));
    format!("stamp {number} {fraction} {remainder} {kept} {came}")
}

#[test]
fn builders() {
    let (key, guid): ([u8; 16], [u8; 16]) =
        (std::array::from_fn(|i| 0x10 + i as u8), std::array::from_fn(|i| 0x20 + i as u8));
    let prefix: [u8; 12] = *guid.first_chunk().expect("12 of 16");
    let handle = InstanceHandle::from_raw(0x0102_0304_0506_0708);
    let (lease, clock) =
        (Some(Duration::from_nanos(0x11_2233_4455)), Duration::from_nanos(0x66_7788_99aa));
    let plain = Sample::new(key, guid, FIRST);
    let asking = Sample {
        key_holder: b"holder",
        filter_ts: SECOND,
        by_source_timestamp: true,
        min_separation_nanos: 8,
        deadline_nanos: Some(9),
        max_instances: 3,
        strength: -4,
        ..plain.clone()
    };
    let reported = LivelinessChangedStatus {
        alive_count_change: -1,
        not_alive_count_change: 2,
        ..Default::default()
    };
    let own = "accept_under_exclusive_ownership";
    let sheets = [
        ("register", Sheet::register(&key, b"holder", Some(FIRST))),
        ("register", Sheet::register(&key, b"", None)),
        ("register", Sheet::register(&key, &[0; 70_000], None)),
        ("ensure_registered_limited", Sheet::ensure_registered_limited(&key, -3)),
        ("dispose", Sheet::dispose(handle, Some(FIRST))),
        ("unregister", Sheet::unregister(handle, None)),
        ("unregister_writer", Sheet::unregister_writer(handle, &guid, Some(SECOND))),
        ("note_writer", Sheet::note_writer(handle, &guid)),
        ("drop_writer", Sheet::drop_writer(&guid, Some(FIRST))),
        ("observe_lifecycle", Sheet::observe_lifecycle(&key, Some(b"holder"), None)),
        ("observe_lifecycle", Sheet::observe_lifecycle(&key, None, Some(FIRST))),
        ("observe_admitted", Sheet::observe_admitted(&key, &[0; 145], FIRST, -3)),
        ("note_admitted", Sheet::note_admitted(&key, FIRST, SECOND, &guid)),
        ("record_delivery", Sheet::record_delivery(&key, FIRST)),
        ("note_taken", Sheet::note_taken(handle, 0xffff_fffe)),
        ("mark_view_seen", Sheet::mark_view_seen(handle)),
        ("mark_view_new", Sheet::mark_view_new(&key)),
        ("drain_samples", Sheet::drain_samples(handle, 0xffff_fffe)),
        (own, Sheet::accept_under_exclusive_ownership(&key, &guid, -4, SECOND, Some(9))),
        (own, Sheet::accept_under_exclusive_ownership(&key, &guid, 4, FIRST, None)),
        ("update_owner_strength", Sheet::update_owner_strength(&guid, -4)),
        ("clear_owner_for_writer", Sheet::clear_owner_for_writer(&guid)),
        ("clear_owner_for_writer_prefix", Sheet::clear_owner_for_writer_prefix(prefix)),
        ("release_owner_of", Sheet::release_owner_of(&key, &guid)),
        ("autopurge", Sheet::autopurge(SECOND, 8, u128::MAX)),
        ("matched", Sheet::matched(&guid, LivelinessKind::Automatic, None, clock)),
        ("matched", Sheet::matched(&guid, LivelinessKind::ManualByParticipant, lease, clock)),
        ("matched", Sheet::matched(&guid, LivelinessKind::ManualByTopic, lease, clock)),
        ("unmatched", Sheet::unmatched(&guid)),
        ("lost_with_participant", Sheet::lost_with_participant(&guid)),
        ("writer_asserted", Sheet::writer_asserted(&guid, clock)),
        ("participant_asserted", Sheet::participant_asserted(prefix, false, clock)),
        ("participant_asserted", Sheet::participant_asserted(prefix, true, clock)),
        ("expire", Sheet::expire(clock)),
        ("take_lost", Sheet::take_lost()),
        ("take_status", Sheet::take_status()),
        ("acknowledge", Sheet::acknowledge(&reported)),
        ("admit", Sheet::admit(&plain)),
        ("admit", Sheet::admit(&asking)),
        ("lapse", Sheet::lapse(clock, Some(FIRST))),
        ("part", Sheet::part(&guid, Some(SECOND))),
        ("depart", Sheet::depart(&guid, None)),
    ];
    let mut expected: Vec<String> =
        sheets.iter().map(|(name, sheet)| format!("{name} {}", hex(sheet.bytes()))).collect();
    expected.push("refusal 0 accepted".to_owned());
    expected.extend((1..=16).filter_map(Refusal::from_number).map(|refusal| {
        let text = refusal.to_string();
        let (_, words) = text.split_once(": ").expect("number and words");
        format!("refusal {} {words}", refusal.number())
    }));
    expected.extend([15, 16, 17, 4_096, 4_097].map(|largest| {
        let made = dcps::key_hash(&guid, largest);
        let number = made.err().map_or(0, Refusal::number);
        format!("key {number} {}", hex(&made.unwrap_or_default()))
    }));
    expected.extend([0, 1, 100_000_000, 999_999_999, 1_000_000_000].map(stamp));
    let ((high, low), own) = (halves(&guid), InstanceHandle::from_guid(guid).as_raw());
    expected.push(format!("guid {high:x} {low:x} {own}"));
    assert_eq!(lines(layout(), &["sheets"]), expected);
}

fn optional(bytes: Option<&[u8]>) -> String {
    bytes.map_or_else(|| "-".to_owned(), |bytes| format!("={}", hex(bytes)))
}

fn instance(i: &Instance<'_>) -> String {
    let kind = match i.kind {
        InstanceStateKind::Alive => 0,
        InstanceStateKind::NotAliveDisposed => 1,
        InstanceStateKind::NotAliveNoWriters => 2,
    };
    let mut text = format!(
        "instance ={} {} {kind} {} {} {} {} {}",
        hex(&i.keyhash),
        i.handle.as_raw(),
        u8::from(i.reader_view_new),
        i.disposed_generation_count,
        i.no_writers_generation_count,
        i.writer_count,
        i.samples_in_cache
    );
    let times = [
        i.last_sample_timestamp,
        i.last_delivered_ts,
        i.last_filter_ts,
        i.disposed_at,
        i.no_writers_at,
        i.owner_at,
    ];
    for time in times {
        let time = time.map(|time| format!("{}.{}", time.sec, time.nanosec));
        let _ = write!(text, " {}", time.unwrap_or_else(|| "-".to_owned()));
    }
    let owner = i.current_owner.map(|(guid, _)| guid);
    let strength = i.current_owner.map_or(0, |(_, strength)| strength);
    let owner = optional(owner.as_ref().map(|guid| &guid[..]));
    let _ = write!(text, " {owner} {strength} {}", optional(i.key_holder));
    i.writers.iter().for_each(|guid| text += &format!(" ={}", hex(guid)));
    text
}

fn writer(w: &WriterState) -> String {
    let kind = match w.kind {
        LivelinessKind::Automatic => 0,
        LivelinessKind::ManualByParticipant => 1,
        LivelinessKind::ManualByTopic => 2,
    };
    let state = match w.state {
        WriterLiveliness::Unasserted => 0,
        WriterLiveliness::Alive => 1,
        WriterLiveliness::NotAlive => 2,
        WriterLiveliness::Departed => 3,
    };
    let lease = w.lease.map_or_else(|| "-".to_owned(), |lease| lease.as_nanos().to_string());
    format!("writer ={} {kind} {state} {lease} {}", hex(&w.guid), w.last_assert.as_nanos())
}

/// A state with every field somewhere, and three handles in Out.
fn state(places: Places) -> Result<State, Refusal> {
    let mut state = State::with_places(places);
    let (second, at) = (Duration::from_secs(1), |sec| Time { sec, nanosec: 3 });
    let kinds = [
        LivelinessKind::Automatic,
        LivelinessKind::ManualByParticipant,
        LivelinessKind::ManualByTopic,
    ];
    for (number, kind) in (1..).zip(kinds) {
        state.matched([number; 16], kind, (number < 3).then_some(second), second)?;
        state.writer_asserted([number; 16], second)?;
        for key in 1..=4 {
            let mut sample = Sample::new([key; 16], [number; 16], at(number.into()));
            sample.strength = -i32::from(number);
            sample.key_holder = &[9, 8, 7][..usize::from(key - 1)];
            state.admit(&sample)?;
        }
    }
    state.matched([7; 16], LivelinessKind::ManualByTopic, None, second)?;
    state.observe_lifecycle([8; 16], None, None)?;
    state.depart([3; 16], Some(at(4)))?;
    state.dispose(InstanceHandle::from_raw(4), Some(at(-4)))?;
    state.lapse(2 * second, Some(at(5)))?;
    state.ensure_registered_limited([1; 16], -1)?;
    state.mark_view_seen(InstanceHandle::from_raw(2))?;
    Ok(state)
}

fn head_and_records(places: Places) {
    let state = state(places).expect("all accepted");
    let (head, pens, writers, lost) = state.parts();
    let bytes = [&head[..], pens, writers, lost, state.out()].concat();
    let h = state.head();
    let mut expected = vec![format!(
        "head {} {} {} {} {} {} {} {} {} {} {} {}",
        h.instance_count,
        h.writer_count,
        h.lost_count,
        h.alive,
        h.not_alive,
        h.alive_change,
        h.not_alive_change,
        h.places.count(),
        pens.len(),
        h.next_handle.as_raw(),
        h.changes,
        optional(h.last_writer.as_ref().map(|guid| &guid[..]))
    )];
    expected.extend(state.instances().map(|i| instance(&i)));
    expected.extend(state.writers().map(|w| writer(&w)));
    expected.extend(state.lost().iter().map(|guid| format!("lost ={}", hex(guid))));
    expected.extend(state.listed_handles(3).map(|handle| format!("out {}", handle.as_raw())));
    assert_eq!(printed("state", &bytes), expected);
    assert!(expected.len() > 14, "{expected:?}");
}

#[test]
fn heads_and_records() {
    Places::ALL.into_iter().for_each(head_and_records);
}

fn answer(number: u8, a: &Answer) -> String {
    let kind = match a.kind {
        InstanceStateKind::Alive => 0,
        InstanceStateKind::NotAliveDisposed => 1,
        InstanceStateKind::NotAliveNoWriters => 2,
    };
    let [yes, present, view_new, due] =
        [a.yes, a.present, a.view_new, a.next_due.is_some()].map(u8::from);
    let (s, handle) = (a.status, a.handle.as_raw());
    format!(
        "answer {number} {} {yes} {present} {view_new} {kind} {due} {handle} {} {} {} {} {} {} {} {} {} {} {}",
        a.outcome,
        a.samples,
        a.disposed_generation_count,
        a.no_writers_generation_count,
        a.count,
        a.listed,
        s.alive_count,
        s.not_alive_count,
        s.alive_count_change,
        s.not_alive_count_change,
        a.next_due.unwrap_or_default(),
        s.last_publication_handle.as_raw()
    )
}

/// The answers of the recorded lists.
#[test]
fn answers() {
    let (mut bytes, mut expected, mut at) = (Vec::new(), Vec::new(), 0);
    while at < SAMPLE.len() {
        let length = u32::from_be_bytes(*SAMPLE[at + 4..].first_chunk().expect("a length"));
        let body = &SAMPLE[at + 8..at + 8 + length as usize];
        if SAMPLE[at] == 5 {
            let recorded: &[u8; 72] = body[48..].first_chunk().expect("an answer");
            bytes.extend(recorded);
            expected.push(answer(recorded[0], &Answer::from_bytes(recorded)));
        }
        at += 8 + length as usize;
    }
    assert!(expected.len() > 3_000 && printed("answers", &bytes) == expected);
}

/// The answers of some reads, of a key and of both conversions of a stamp, 24 bytes each.
fn answers_of_reads(state: &State) -> [u8; 24 * 9] {
    let (head, pens, _, _) = state.parts();
    let (mut bytes, mut out) = ([0; 24 * 9], [0; 4_096]);
    let (key, guid) = (u64::from_be_bytes([2; 8]), [1; 16]);
    let mut places = bytes.chunks_exact_mut(24).map(<[u8]>::as_mut_ptr);
    let mut place = || places.next().expect("nine");
    let (p, n) = (pens.as_ptr(), pens.len());
    // SAFETY: each pointer comes from a borrow of that many bytes, and no two of them overlap.
    let numbers = unsafe {
        [
            c::dcps_changes(head.as_ptr(), 64, place(), 24),
            c::dcps_last_delivered_ts(p, n, key, key, place(), 24),
            c::dcps_next_handle_after(p, n, 1, place(), 24),
            c::dcps_holder_in_force(p, n, key, key, place(), 24),
            c::dcps_should_deliver_under_destination_order(p, n, key, key, 9, 0, 1, place(), 24),
            c::dcps_left_writerless(
                p,
                n,
                guid.as_ptr(),
                16,
                3,
                out.as_mut_ptr(),
                4_096,
                place(),
                24,
            ),
            c::dcps_key_hash(guid.as_ptr(), 16, 17, place(), 24),
            c::dcps_wire_fraction(100_000_000, place(), 24),
            c::dcps_wire_nanos(429_496_729, 600_000_000, place(), 24),
        ]
    };
    assert_eq!(numbers, [0; 9]);
    bytes
}

#[test]
fn reads() {
    let (state, guid) = (state(Places::Large).expect("all accepted"), [1; 16]);
    let last = state.last_delivered_ts(&[2; 16]).expect("well formed").expect("delivered");
    let next = state.next_handle_after(InstanceHandle::from_raw(1)).expect("well formed");
    let next = next.expect("there are more").as_raw();
    let holder = state.holder_in_force(&[2; 16], b"none");
    let offset = holder.as_ptr() as usize - state.parts().1.as_ptr() as usize;
    let changes = state.changes().expect("well formed");
    let left = state.left_writerless(&[guid], 3).expect("well formed").len();
    let length = holder.len();
    let key = dcps::key_hash(&guid, 17).expect("16 of 17");
    let (high, low) = halves(&key);
    let WireFraction { fraction, remainder } = wire_fraction(100_000_000).expect("below 10^9");
    let nanos = wire_nanos(fraction, remainder);
    let mut expected = [
        format!("read 0 0 0 0 0 0 {changes} {changes} {changes} 0.0"),
        format!("read 0 0 1 0 0 0 0 0 0 {}.{}", last.sec, last.nanosec),
        format!("read 0 0 1 0 0 0 {next} {next} {next} 0.0"),
        format!("read 0 0 0 1 {length} {length} {offset} {offset} {offset} 0.0"),
        "read 0 1 0 0 0 0 0 0 0 0.0".to_owned(),
        format!("read 0 0 0 0 {left} {left} 0 0 0 0.0"),
        format!("read 0 0 0 0 0 0 {high} {high} {high} {}.{}", (low >> 32) as i32, low as u32),
        format!("read 0 0 0 0 {fraction} {fraction} {remainder} {remainder} {remainder} 0.0"),
        format!("read 0 0 0 0 {nanos} {nanos} 0 0 0 0.0"),
    ];
    let bytes = answers_of_reads(&state);
    for (line, answer) in expected.iter_mut().zip(bytes.chunks_exact(24)) {
        let number = |at| u32::from_be_bytes(*answer[at..].first_chunk().expect("4 bytes"));
        let (at_4, low_at_8) = (number(4), number(12));
        *line += &format!(" ={} {at_4} {low_at_8} {at_4}", hex(&answer[8..]));
    }
    assert!(expected[6].contains(&hex(&key)));
    assert_eq!(printed("reads", &bytes), expected);
}

/// A keeper's area by the layout that dcps_keep.h gives in words.
fn keepers_of_c_and_rust(keep_call: &Path, places: Places) {
    let state = state(places).expect("all accepted");
    let mut area = vec![0; area_bytes(places)];
    let mut keeper = Keeper::new(&mut area[..]);
    keeper.start(&state).expect("memory");
    let (head, pens, writers, lost) = state.parts();
    let kept = [&head[..], pens, writers, lost].concat();
    let (writers_at, lost_at, slot) = match places {
        Places::Small => (16_512, 21_632, 25_728),
        Places::Large => (65_664, 70_784, 74_880),
    };
    assert_eq!((&area[..8], area.len()), (&b"dcpskeep"[..], 2 * slot));
    assert!(area[64..slot] == kept && area[64..128] == *head && area[128..writers_at] == *pens);
    assert!(area[writers_at..lost_at] == *writers && area[lost_at..slot] == *lost);
    let file = Path::new(env!("CARGO_TARGET_TMPDIR")).join("area.bin");
    std::fs::write(&file, &area).expect("the directory of tests can be written");
    // C loads what Rust saved, makes a call and saves it to the other slot.
    let words = lines(keep_call, &[file.to_str().expect("a name")]);
    assert_eq!(words, [format!("loaded 1 with {} places, saved 2", places.count())]);
    let mut area = std::fs::read(&file).expect("written by C");
    assert_eq!(area.len(), 2 * slot);
    let mut again = State::with_places(places);
    let loaded = Keeper::new(&mut area[..]).load(&mut again).expect("whole");
    assert_eq!((loaded.slot, loaded.sequence, loaded.damaged), (1, 2, None));
    assert_eq!(again.head().instance_count, state.head().instance_count + 1);
    damaged_before_c(keep_call, &file, (area, slot), places);
}

/// C goes on from slot 1 where the number of places in slot 0 is damaged by a bit, and with both slots damaged it starts
/// nothing anew.
fn damaged_before_c(
    keep_call: &Path,
    file: &Path,
    (mut area, slot): (Vec<u8>, usize),
    places: Places,
) {
    area[64 + 31] ^= 32;
    area[slot + 5_000] ^= 1;
    std::fs::write(file, &area).expect("the directory of tests can be written");
    let refused = Command::new(keep_call).arg(file).output().expect("it runs");
    assert!(!refused.status.success() && refused.stderr.starts_with(b"neither slot is whole"));
    assert!(std::fs::read(file).expect("left by C") == area);
    area[slot + 5_000] ^= 1;
    std::fs::write(file, &area).expect("the directory of tests can be written");
    let words = lines(keep_call, &[file.to_str().expect("a name")]);
    assert_eq!(words, [format!("loaded 2 with {} places, saved 3", places.count())]);
}

#[test]
fn keepers() {
    let keep_call = program("keep_call");
    Places::ALL.into_iter().for_each(|places| keepers_of_c_and_rust(&keep_call, places));
}
