//! Sets and gets the state of a tracker, as `src/append` of the oracle does for ZeroDDS's trackers. It goes through
//! the bytes of `State`, in the layout of the oracle's reading.

use dcps::{Places, Refusal, SharedState, State};
use lists::Image;
use reading::{Head, State as Records};
use std::cell::{Cell, RefCell};

/// A state without records, with the number of places that was set.
fn fresh() -> Records {
    Records::fresh(PLACES.get().count() as u16)
}

/// The state of these records. They come from a well-formed one.
fn laid_out(mut records: Records) -> State {
    records.head.instances = records.instances.len() as u32;
    records.head.writer_records = records.writers.len() as u32;
    records.head.lost = records.lost.len() as u32;
    let image = Image::of_state(&records);
    let head: [u8; 64] = image.head.bytes();
    let places = Places::of_head(&head).expect("32 or 128");
    State::from_parts(
        &head,
        &image.pens[..places.pens_bytes()],
        image.writers.first_chunk().expect("as long"),
        image.lost.first_chunk().expect("as long"),
    )
    .expect("well formed")
}

thread_local! {
    /// The states that were set last: of the instances, and of the writers.
    static SET: RefCell<[SharedState; 2]> = RefCell::default();
    /// The number of places of the next ones.
    static PLACES: Cell<Places> = const { Cell::new(Places::Large) };
}

/// Sets the number of places of the trackers that are made from here on. The driver does not say it, because ZeroDDS
/// has room for any number.
pub fn set_places(places: Places) {
    PLACES.set(places);
}

/// Why the latest call on the trackers was refused. The driver cannot return it, because ZeroDDS refuses nothing.
pub fn take_refusal() -> Option<Refusal> {
    SET.with_borrow(|set| set.iter().find_map(SharedState::take_refusal))
}

pub mod instances {
    use super::{SET, fresh, laid_out};
    use dcps::instance_tracker::{InstanceState, InstanceTracker, KeyHash};
    use dcps::{InstanceStateKind, Time};
    use reading::layout::{self, Instance, Kind};

    pub fn set(tracker: &InstanceTracker, instances: Vec<(KeyHash, InstanceState)>) {
        let mut records = fresh();
        let next = instances.iter().map(|(_, s)| s.handle.as_raw() + 1).max();
        records.head.next_handle = next.unwrap_or(1);
        records.instances = instances.into_iter().map(|(key, s)| record(key, s)).collect();
        *tracker.state().lock() = laid_out(records);
        SET.with_borrow_mut(|set| set[0] = tracker.state().clone());
    }

    pub fn each(tracker: &InstanceTracker, mut see: impl FnMut(&KeyHash, &InstanceState)) {
        let state = tracker.state().lock();
        state.instances().for_each(|i| see(&i.keyhash, &i.into()));
    }

    /// There is one table.
    pub fn maps_agree(_: &InstanceTracker) -> bool {
        true
    }

    fn time(time: Time) -> layout::Time {
        layout::Time { seconds: time.sec, nanoseconds: time.nanosec }
    }

    fn record(key: KeyHash, s: InstanceState) -> Instance {
        Instance {
            key,
            handle: s.handle.as_raw(),
            kind: match s.kind {
                InstanceStateKind::Alive => Kind::Alive,
                InstanceStateKind::NotAliveDisposed => Kind::Disposed,
                InstanceStateKind::NotAliveNoWriters => Kind::NoWriters,
            },
            view_new: s.reader_view_new,
            disposed_generations: s.disposed_generation_count,
            no_writers_generations: s.no_writers_generation_count,
            writer_count: s.writer_count,
            samples: s.samples_in_cache,
            last_sample: s.last_sample_timestamp.map(time),
            last_delivered: s.last_delivered_ts.map(time),
            last_filter: s.last_filter_ts.map(time),
            disposed_at: s.disposed_at.map(time),
            no_writers_at: s.no_writers_at.map(time),
            owner: s.current_owner,
            owner_at: s.owner_at.map(time),
            holder: s.key_holder,
            writers: s.writers.into_iter().collect(),
        }
    }
}

pub mod liveliness {
    use super::{Head, SET, fresh, laid_out};
    use dcps::liveliness_tracker::LivelinessTracker;
    use dcps::{LivelinessKind, SharedState, WriterLiveliness, WriterState};
    use reading::layout::{self, WriterKind};
    use std::time::Duration;

    /// Whether a writer is alive.
    pub use dcps::WriterLiveliness as Standing;

    /// A writer as the tracker has it.
    #[derive(Debug, Clone, Copy)]
    pub struct Writer {
        pub guid: [u8; 16],
        pub kind: LivelinessKind,
        pub standing: WriterLiveliness,
        pub lease: Option<Duration>,
        pub last_assert: Duration,
    }

    /// All that a tracker has; the writers in the order of their GUIDs.
    #[derive(Debug, Clone)]
    pub struct Held {
        pub writers: Vec<Writer>,
        pub alive: i32,
        pub not_alive: i32,
        pub alive_change: i32,
        pub not_alive_change: i32,
        pub last_writer: Option<[u8; 16]>,
        pub changes: u64,
        pub lost: Vec<[u8; 16]>,
    }

    pub fn set(held: &Held) -> LivelinessTracker {
        let mut records = fresh();
        records.head = Head {
            alive: held.alive as u32,
            not_alive: held.not_alive as u32,
            alive_change: held.alive_change,
            not_alive_change: held.not_alive_change,
            last_writer: held.last_writer,
            changes: held.changes,
            ..records.head
        };
        records.writers = held.writers.iter().map(record).collect();
        records.lost.clone_from(&held.lost);
        let shared = SharedState::from(laid_out(records));
        SET.with_borrow_mut(|set| set[1] = shared.clone());
        shared.liveliness()
    }

    pub fn get(tracker: &LivelinessTracker) -> Held {
        let state = tracker.state().lock();
        let head = state.head();
        Held {
            writers: state.writers().map(seen).collect(),
            alive: head.alive as i32,
            not_alive: head.not_alive as i32,
            alive_change: head.alive_change,
            not_alive_change: head.not_alive_change,
            last_writer: head.last_writer,
            changes: head.changes,
            lost: state.lost(),
        }
    }

    /// The expired writers that were not taken yet.
    pub fn lost(tracker: &LivelinessTracker) -> Vec<[u8; 16]> {
        tracker.state().lock().lost()
    }

    fn seen(w: WriterState) -> Writer {
        Writer {
            guid: w.guid,
            kind: w.kind,
            standing: w.state,
            lease: w.lease,
            last_assert: w.last_assert,
        }
    }

    fn record(w: &Writer) -> layout::Writer {
        layout::Writer {
            guid: w.guid,
            kind: match w.kind {
                LivelinessKind::Automatic => WriterKind::Automatic,
                LivelinessKind::ManualByParticipant => WriterKind::ByParticipant,
                LivelinessKind::ManualByTopic => WriterKind::ByTopic,
            },
            standing: match w.standing {
                WriterLiveliness::Unasserted => layout::Standing::Unasserted,
                WriterLiveliness::Alive => layout::Standing::Alive,
                WriterLiveliness::NotAlive => layout::Standing::NotAlive,
                WriterLiveliness::Departed => layout::Standing::Departed,
            },
            lease: w.lease.map(|lease| lease.as_nanos() as u64),
            last_assertion: w.last_assert.as_nanos() as u64,
        }
    }
}
