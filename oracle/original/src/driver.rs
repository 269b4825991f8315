//! The two trackers of ZeroDDS, driven from call sheets.
//!
//! Derives from the signatures of instance_tracker.rs, liveliness_tracker.rs
//! and instance_handle.rs; the calls themselves are run from those sources.

use std::sync::Arc;
use std::time::Duration;

use reading::bytes::{Guid, Key};
use reading::layout::{self, Instance, Kind, Standing, Time, Writer, WriterKind};
use reading::{Answer, Head, Sheet, State};

use crate::LivelinessKind;
use crate::instance_handle::{self, InstanceHandle, InstanceHandleAllocator};
use crate::instance_tracker::{self, InstanceState, InstanceTracker};
use crate::liveliness_tracker::{self, LivelinessTracker};
use crate::sample_info::InstanceStateKind;
use crate::status::LivelinessChangedStatus;
use crate::time;

/// The trackers with the allocator that numbers their instances.
pub struct Original {
    instances: InstanceTracker,
    liveliness: LivelinessTracker,
    allocator: Arc<InstanceHandleAllocator>,
    /// For instances; the trackers have no such number.
    places: u16,
}

/// An accepted call's answer and what Out lists, or the refusal of a call
/// whose result has no place in section 2's buffers.
pub type Turn = Result<(Answer, Vec<u8>), u8>;

impl Original {
    /// Trackers in the given state; none where the sources are not at hand.
    pub fn at(state: &State) -> Option<Self> {
        let allocator = Arc::new(instance_handle::access::starting_at(state.head.next_handle));
        let instances = InstanceTracker::with_allocator(Arc::clone(&allocator));
        let all = state.instances.iter().map(|i| (i.key, to_instance(i))).collect();
        instance_tracker::access::set(&instances, all);
        let liveliness = liveliness_tracker::access::set(&to_held(state));
        Some(Self { instances, liveliness, allocator, places: state.head.places })
    }

    /// The trackers' state in 01's terms.
    pub fn state(&self) -> State {
        let held = liveliness_tracker::access::get(&self.liveliness);
        let mut instances = Vec::new();
        instance_tracker::access::each(&self.instances, |key, s| {
            instances.push(of_instance(*key, s));
        });
        let writers: Vec<Writer> = held.writers.iter().map(of_writer).collect();
        State {
            head: Head {
                instances: instances.len() as u32,
                writer_records: writers.len() as u32,
                lost: held.lost.len() as u32,
                alive: held.alive as u32,
                not_alive: held.not_alive as u32,
                alive_change: held.alive_change,
                not_alive_change: held.not_alive_change,
                last_writer: held.last_writer,
                places: self.places,
                next_handle: instance_handle::access::next(&self.allocator),
                changes: held.changes,
            },
            instances,
            writers,
            lost: held.lost,
            misreading: None,
        }
    }

    /// Whether the tracker's two maps are inverses of each other.
    pub fn maps_agree(&self) -> bool {
        instance_tracker::access::maps_agree(&self.instances)
    }

    /// Runs a sheet that meets none of refusals 1 to 8. After a refusal here
    /// the trackers are to be set anew: they hold what has no place.
    pub fn call(&mut self, sheet: Sheet<'_>) -> Turn {
        if sheet.code() == 48
            && let Some(number) = self.no_place_to_admit(sheet)
        {
            return Err(number);
        }
        let turn = self.turn(sheet);
        self.no_place().map_or(Ok(turn), Err)
    }

    /// The same, and nobody asks whether there is a place for its result.
    pub fn turn(&mut self, sheet: Sheet<'_>) -> (Answer, Vec<u8>) {
        match sheet.code() {
            1..=21 => self.instance_call(sheet),
            32..=40 => self.liveliness_call(sheet),
            48 => (self.admit(sheet), Vec::new()),
            49 => self.lapse(sheet),
            50 => {
                let yes = self.liveliness.unmatched(sheet.guid());
                self.without(sheet, Answer::yes(yes), &[sheet.guid()])
            }
            _ => {
                let yes = self.liveliness.lost_with_participant(sheet.guid());
                self.without(sheet, Answer::yes(yes), &[sheet.guid()])
            }
        }
    }

    pub fn delivers_under_filter(&self, key: &Key, time: Time, separation: u64) -> bool {
        let t = &self.instances;
        t.should_deliver_under_time_based_filter(key, to_time(time), delay(separation))
    }

    pub fn delivers_under_order(&self, key: &Key, time: Time, by_source: bool) -> bool {
        self.instances.should_deliver_under_destination_order(key, to_time(time), by_source)
    }

    pub fn last_delivered(&self, key: &Key) -> Option<Time> {
        self.instances.last_delivered_ts(key).map(of_time)
    }

    pub fn left_writerless(&self, gone: &[Guid], views: u32) -> Vec<u64> {
        self.instances.left_writerless(gone, views).iter().map(InstanceHandle::as_raw).collect()
    }

    pub fn would_leave_writerless(&self, gone: &[Guid], views: u32) -> bool {
        self.instances.would_leave_writerless(gone, views)
    }

    pub fn next_handle_after(&self, previous: u64) -> Option<u64> {
        let previous = InstanceHandle::from_raw(previous);
        self.instances.next_handle_after(previous).map(|h| h.as_raw())
    }

    /// Ownership asked without a time or a deadline.
    pub fn accepts_sample(&self, key: &Key, guid: Guid, strength: i32) -> bool {
        self.instances.should_accept_sample_under_exclusive_ownership(key, guid, strength)
    }

    pub fn holder(&self, key: &Key) -> Option<Vec<u8>> {
        self.instances.lookup(key).and_then(|handle| self.instances.get_key_holder(handle))
    }

    pub fn status(&self) -> Answer {
        status(&self.liveliness.status())
    }

    pub fn changes(&self) -> u64 {
        self.liveliness.changes()
    }

    // Calls of the Rust that answer nothing still stand in the match.
    #[allow(clippy::unit_arg)]
    fn instance_call(&mut self, sheet: Sheet<'_>) -> (Answer, Vec<u8>) {
        let t = &self.instances;
        let handle = InstanceHandle::from_raw(sheet.handle());
        let (key, guid, given) = (sheet.key(), sheet.guid(), given_time(sheet));
        let answer = match sheet.code() {
            1 => Answer::handle(t.register(key, sheet.holder().to_vec(), given).as_raw()),
            2 => {
                let answer = t.ensure_registered_limited(key, sheet.limit());
                answer.map_or(Answer::default(), |h| Answer::handle(h.as_raw()))
            }
            3 => Answer::yes(t.dispose(handle, given)),
            4 => Answer::yes(t.unregister(handle, given)),
            5 => Answer::yes(t.unregister_writer(handle, guid, given)),
            6 => nothing(t.note_writer(handle, guid)),
            7 => return listing(Answer::default(), &t.drop_writer(&guid, given)),
            8 => {
                let holder = sheet.optional_holder().map(<[u8]>::to_vec);
                Answer::handle(t.observe_lifecycle(key, holder, given).as_raw())
            }
            9 => self.observe_admitted(sheet),
            10 => self.note_admitted(sheet),
            11 => nothing(t.record_delivery(&key, to_time(sheet.time1()))),
            12 => nothing(t.note_taken(handle, sheet.n())),
            13 => nothing(t.mark_view_seen(handle)),
            14 => Answer::yes(t.mark_view_new(&key)),
            15 => nothing(t.drain_samples(handle, sheet.n())),
            16 => Answer::yes(self.accept(sheet)),
            17 => nothing(t.update_owner_strength(guid, sheet.strength())),
            18 => Answer::count(t.clear_owner_for_writer(guid) as u32),
            19 => Answer::count(t.clear_owner_for_writer_prefix(sheet.prefix()) as u32),
            20 => Answer::yes(t.release_owner_of(&key, guid)),
            _ => {
                let now = to_time(sheet.time2());
                Answer::count(t.autopurge(now, delay(sheet.a()), delay(sheet.b())) as u32)
            }
        };
        (answer, Vec::new())
    }

    fn observe_admitted(&self, sheet: Sheet<'_>) -> Answer {
        let holder = || sheet.holder().to_vec();
        let time = to_time(sheet.time1());
        self.instances.observe_admitted(sheet.key(), holder, time, sheet.limit()).map_or(
            Answer::default(),
            |(handle, samples)| Answer { samples, ..Answer::handle(handle.as_raw()) },
        )
    }

    fn note_admitted(&self, sheet: Sheet<'_>) -> Answer {
        let (order, filter) = (to_time(sheet.time1()), to_time(sheet.time2()));
        self.instances.note_admitted(&sheet.key(), order, filter, sheet.guid()).map_or(
            Answer::default(),
            |(view_new, kind, disposed, no_writers)| Answer {
                present: true,
                view_new,
                kind: of_kind(kind) as u8,
                disposed_generations: disposed as u32,
                no_writers_generations: no_writers as u32,
                ..Answer::default()
            },
        )
    }

    fn accept(&self, sheet: Sheet<'_>) -> bool {
        self.instances.accept_under_exclusive_ownership(
            &sheet.key(),
            sheet.guid(),
            sheet.strength(),
            to_time(sheet.time2()),
            sheet.optional_deadline().map(delay),
        )
    }

    #[allow(clippy::unit_arg)]
    fn liveliness_call(&mut self, sheet: Sheet<'_>) -> (Answer, Vec<u8>) {
        let (guid, clock) = (sheet.guid(), Duration::from_nanos(sheet.a()));
        let t = &mut self.liveliness;
        let answer = match sheet.code() {
            32 => {
                let lease = sheet.optional_lease().map(Duration::from_nanos);
                let kind = WriterKind::from_bits(sheet.kind_bits()).unwrap_or_default();
                Answer::yes(t.matched(guid, to_writer_kind(kind), lease, clock))
            }
            33 => Answer::yes(t.unmatched(guid)),
            34 => Answer::yes(t.lost_with_participant(guid)),
            35 => Answer::yes(t.writer_asserted(guid, clock)),
            36 => Answer::yes(t.participant_asserted(sheet.prefix(), sheet.manual(), clock)),
            37 => self.expire(clock),
            38 => {
                let lost = t.take_lost();
                return (Answer { listed: lost.len() as u32, ..Answer::default() }, lost.concat());
            }
            39 => status(&t.take_status()),
            _ => nothing(t.acknowledge(&LivelinessChangedStatus {
                alive_count_change: sheet.first_change(),
                not_alive_count_change: sheet.second_change(),
                ..t.status()
            })),
        };
        (answer, Vec::new())
    }

    fn expire(&mut self, clock: Duration) -> Answer {
        let (yes, next) = self.liveliness.expire(clock);
        Answer {
            next_due_present: next.is_some(),
            next_due: next.map_or(0, nanoseconds),
            ..Answer::yes(yes)
        }
    }

    /// Code 48. The Rust's ownership stores nothing of a key that it does not
    /// know, so it is asked again once the sample has started the instance.
    fn admit(&mut self, sheet: Sheet<'_>) -> Answer {
        if let Some(outcome) = self.turned_away(sheet) {
            return Answer::outcome(outcome);
        }
        let unknown = self.instances.lookup(&sheet.key()).is_none();
        if !self.accept(sheet) {
            return Answer::outcome(4);
        }
        let observed = self.observe_admitted(sheet);
        let noted = self.note_admitted(sheet);
        if unknown {
            self.accept(sheet);
        }
        Answer { handle: observed.handle, samples: observed.samples, ..noted }
    }

    /// Outcomes 1 to 3, which come before ownership is asked.
    fn turned_away(&self, sheet: Sheet<'_>) -> Option<u8> {
        let t = &self.instances;
        let (key, limit) = (sheet.key(), sheet.limit());
        let (order, filter) = (to_time(sheet.time1()), to_time(sheet.time2()));
        if !t.should_deliver_under_destination_order(&key, order, sheet.by_source()) {
            Some(1)
        } else if !t.should_deliver_under_time_based_filter(&key, filter, delay(sheet.a())) {
            Some(2)
        } else if limit >= 0 && t.lookup(&key).is_none() && t.len() >= limit as usize {
            Some(3)
        } else {
            None
        }
    }

    /// Refusals 9, 13 and 10 of code 48: they too come before ownership is
    /// asked, so they are looked for ahead of it.
    fn no_place_to_admit(&self, sheet: Sheet<'_>) -> Option<u8> {
        let t = &self.instances;
        if self.turned_away(sheet).is_some() {
            return None;
        }
        match t.get_by_keyhash(&sheet.key()) {
            None if t.len() == usize::from(self.places) => Some(9),
            None if self.state_next_handle() == layout::LAST_NEXT_HANDLE => Some(13),
            Some(s)
                if s.writers.len() == layout::SET_PLACES && !s.writers.contains(&sheet.guid()) =>
            {
                Some(10)
            }
            _ => None,
        }
    }

    fn state_next_handle(&self) -> u64 {
        instance_handle::access::next(&self.allocator)
    }

    /// Code 49. What this call expired is what it adds to the lost writers.
    fn lapse(&mut self, sheet: Sheet<'_>) -> (Answer, Vec<u8>) {
        let before = liveliness_tracker::access::lost(&self.liveliness).len();
        let answer = self.expire(Duration::from_nanos(sheet.a()));
        let gone = &liveliness_tracker::access::lost(&self.liveliness)[before..];
        self.without(sheet, answer, gone)
    }

    /// Codes 7 and 18 for each writer gone.
    fn without(&self, sheet: Sheet<'_>, answer: Answer, gone: &[Guid]) -> (Answer, Vec<u8>) {
        let (mut writerless, mut count) = (Vec::new(), 0);
        for guid in gone {
            writerless.extend(self.instances.drop_writer(guid, given_time(sheet)));
            count += self.instances.clear_owner_for_writer(*guid) as u32;
        }
        if writerless.len() > 1 {
            let mut handles = self.instances.ordered_handles();
            handles.retain(|h| writerless.contains(h));
            writerless = handles;
        }
        listing(Answer { count, ..answer }, &writerless)
    }

    /// Refusals 9 to 13: what the trackers now hold and section 2 has no
    /// place for.
    fn no_place(&self) -> Option<u8> {
        let held = liveliness_tracker::access::get(&self.liveliness);
        let mut set_overflows = false;
        instance_tracker::access::each(&self.instances, |_, s| {
            set_overflows |= s.writers.len() > layout::SET_PLACES;
        });
        if self.instances.len() > usize::from(self.places) {
            Some(9)
        } else if set_overflows {
            Some(10)
        } else if held.writers.len() > layout::WRITER_PLACES {
            Some(11)
        } else if held.lost.len() > layout::LOST_PLACES {
            Some(12)
        } else if self.state_next_handle() > layout::LAST_NEXT_HANDLE {
            Some(13)
        } else {
            None
        }
    }
}

/// Two handles from an allocator that starts at a number, and where it then
/// stands.
pub fn two_handles(next: u64) -> Option<(u64, u64, u64)> {
    let allocator = instance_handle::access::starting_at(next);
    let (first, second) = (allocator.allocate(), allocator.allocate());
    Some((first.as_raw(), second.as_raw(), instance_handle::access::next(&allocator)))
}

/// The handle that a GUID gives.
pub fn handle_of(guid: Guid) -> Option<u64> {
    Some(InstanceHandle::from_guid(crate::wire_types::Guid::from_bytes(guid)).as_raw())
}

/// The answer of a call of the Rust that answers nothing.
fn nothing(_: ()) -> Answer {
    Answer::default()
}

fn listing(answer: Answer, handles: &[InstanceHandle]) -> (Answer, Vec<u8>) {
    let out = handles.iter().flat_map(|h| h.as_raw().to_be_bytes()).collect();
    (Answer { listed: handles.len() as u32, ..answer }, out)
}

fn status(status: &LivelinessChangedStatus) -> Answer {
    Answer {
        alive: status.alive_count as u32,
        not_alive: status.not_alive_count as u32,
        alive_change: status.alive_count_change,
        not_alive_change: status.not_alive_count_change,
        last_publication_handle: status.last_publication_handle.as_raw(),
        ..Answer::default()
    }
}

/// A delay of 2^64-1 is the Rust's longest.
fn delay(nanoseconds: u64) -> u128 {
    if nanoseconds == u64::MAX { u128::MAX } else { u128::from(nanoseconds) }
}

fn nanoseconds(duration: Duration) -> u64 {
    duration.as_nanos() as u64
}

fn given_time(sheet: Sheet<'_>) -> Option<time::Time> {
    sheet.optional_time1().map(to_time)
}

fn to_time(time: Time) -> time::Time {
    time::Time { sec: time.seconds, nanosec: time.nanoseconds }
}

fn of_time(time: time::Time) -> Time {
    Time { seconds: time.sec, nanoseconds: time.nanosec }
}

fn to_kind(kind: Kind) -> InstanceStateKind {
    match kind {
        Kind::Alive => InstanceStateKind::Alive,
        Kind::Disposed => InstanceStateKind::NotAliveDisposed,
        Kind::NoWriters => InstanceStateKind::NotAliveNoWriters,
    }
}

fn of_kind(kind: InstanceStateKind) -> Kind {
    match kind {
        InstanceStateKind::Alive => Kind::Alive,
        InstanceStateKind::NotAliveDisposed => Kind::Disposed,
        InstanceStateKind::NotAliveNoWriters => Kind::NoWriters,
    }
}

fn to_instance(i: &Instance) -> InstanceState {
    InstanceState {
        handle: InstanceHandle::from_raw(i.handle),
        kind: to_kind(i.kind),
        disposed_generation_count: i.disposed_generations,
        no_writers_generation_count: i.no_writers_generations,
        writer_count: i.writer_count,
        last_sample_timestamp: i.last_sample.map(to_time),
        last_delivered_ts: i.last_delivered.map(to_time),
        last_filter_ts: i.last_filter.map(to_time),
        disposed_at: i.disposed_at.map(to_time),
        no_writers_at: i.no_writers_at.map(to_time),
        current_owner: i.owner,
        owner_at: i.owner_at.map(to_time),
        key_holder: i.holder.clone(),
        writers: i.writers.iter().copied().collect(),
        reader_view_new: i.view_new,
        samples_in_cache: i.samples,
    }
}

fn of_instance(key: Key, s: &InstanceState) -> Instance {
    Instance {
        key,
        handle: s.handle.as_raw(),
        kind: of_kind(s.kind),
        view_new: s.reader_view_new,
        disposed_generations: s.disposed_generation_count,
        no_writers_generations: s.no_writers_generation_count,
        writer_count: s.writer_count,
        samples: s.samples_in_cache,
        last_sample: s.last_sample_timestamp.map(of_time),
        last_delivered: s.last_delivered_ts.map(of_time),
        last_filter: s.last_filter_ts.map(of_time),
        disposed_at: s.disposed_at.map(of_time),
        no_writers_at: s.no_writers_at.map(of_time),
        owner: s.current_owner,
        owner_at: s.owner_at.map(of_time),
        holder: s.key_holder.clone(),
        writers: s.writers.iter().copied().collect(),
    }
}

fn to_writer_kind(kind: WriterKind) -> LivelinessKind {
    match kind {
        WriterKind::Automatic => LivelinessKind::Automatic,
        WriterKind::ByParticipant => LivelinessKind::ManualByParticipant,
        WriterKind::ByTopic => LivelinessKind::ManualByTopic,
    }
}

fn of_writer_kind(kind: LivelinessKind) -> WriterKind {
    match kind {
        LivelinessKind::Automatic => WriterKind::Automatic,
        LivelinessKind::ManualByParticipant => WriterKind::ByParticipant,
        LivelinessKind::ManualByTopic => WriterKind::ByTopic,
    }
}

fn of_writer(w: &liveliness_tracker::access::Writer) -> Writer {
    use liveliness_tracker::access::Standing as Held;
    Writer {
        guid: w.guid,
        kind: of_writer_kind(w.kind),
        standing: match w.standing {
            Held::Unasserted => Standing::Unasserted,
            Held::Alive => Standing::Alive,
            Held::NotAlive => Standing::NotAlive,
            Held::Departed => Standing::Departed,
        },
        lease: w.lease.map(nanoseconds),
        last_assertion: nanoseconds(w.last_assert),
    }
}

fn to_writer(w: &Writer) -> liveliness_tracker::access::Writer {
    use liveliness_tracker::access::Standing as Held;
    liveliness_tracker::access::Writer {
        guid: w.guid,
        kind: to_writer_kind(w.kind),
        standing: match w.standing {
            Standing::Unasserted => Held::Unasserted,
            Standing::Alive => Held::Alive,
            Standing::NotAlive => Held::NotAlive,
            Standing::Departed => Held::Departed,
        },
        lease: w.lease.map(Duration::from_nanos),
        last_assert: Duration::from_nanos(w.last_assertion),
    }
}

fn to_held(state: &State) -> liveliness_tracker::access::Held {
    liveliness_tracker::access::Held {
        writers: state.writers.iter().map(to_writer).collect(),
        alive: state.head.alive as i32,
        not_alive: state.head.not_alive as i32,
        alive_change: state.head.alive_change,
        not_alive_change: state.head.not_alive_change,
        last_writer: state.head.last_writer,
        changes: state.head.changes,
        lost: state.lost.clone(),
    }
}
