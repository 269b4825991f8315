/// Sets and gets what a tracker holds.
pub mod access {
    use super::*;

    /// Where a writer stands, departed ones among them.
    #[derive(Debug, Clone, Copy, PartialEq, Eq)]
    pub enum Standing {
        Unasserted,
        Alive,
        NotAlive,
        Departed,
    }

    /// A writer as the tracker holds it.
    #[derive(Debug, Clone, Copy)]
    pub struct Writer {
        pub guid: [u8; 16],
        pub kind: LivelinessKind,
        pub standing: Standing,
        pub lease: Option<Duration>,
        pub last_assert: Duration,
    }

    /// All that a tracker holds; the writers rise by GUID.
    #[derive(Debug, Clone)]
    pub struct Held {
        pub writers: Vec<Writer>,
        pub alive: i32,
        pub not_alive: i32,
        pub alive_change: i32,
        pub not_alive_change: i32,
        pub last_writer: Option<[u8; 16]>,
        pub changes: u64,
        pub lost: Vec<[u8; 16]>,
    }

    pub fn set(held: &Held) -> LivelinessTracker {
        let mut tracker = LivelinessTracker {
            alive: held.alive,
            not_alive: held.not_alive,
            alive_change: held.alive_change,
            not_alive_change: held.not_alive_change,
            last_writer: held.last_writer,
            changes: held.changes,
            lost: held.lost.clone(),
            ..LivelinessTracker::default()
        };
        for w in &held.writers {
            let state = match w.standing {
                Standing::Unasserted => State::Unasserted,
                Standing::Alive => State::Alive,
                Standing::NotAlive => State::NotAlive,
                Standing::Departed => {
                    tracker.departed.insert(w.guid);
                    continue;
                }
            };
            let (kind, lease, last_assert) = (w.kind, w.lease, w.last_assert);
            tracker.writers.insert(w.guid, Tracked { kind, lease, last_assert, state });
        }
        tracker
    }

    pub fn get(tracker: &LivelinessTracker) -> Held {
        let mut writers: Vec<Writer> = tracker.writers.iter().map(|(g, t)| seen(g, t)).collect();
        writers.extend(tracker.departed.iter().map(|guid| Writer {
            guid: *guid,
            kind: LivelinessKind::Automatic,
            standing: Standing::Departed,
            lease: None,
            last_assert: Duration::ZERO,
        }));
        writers.sort_by_key(|w| w.guid);
        Held {
            writers,
            alive: tracker.alive,
            not_alive: tracker.not_alive,
            alive_change: tracker.alive_change,
            not_alive_change: tracker.not_alive_change,
            last_writer: tracker.last_writer,
            changes: tracker.changes,
            lost: tracker.lost.clone(),
        }
    }

    /// The writers lost and not yet taken.
    pub fn lost(tracker: &LivelinessTracker) -> &[[u8; 16]] {
        &tracker.lost
    }

    fn seen(guid: &[u8; 16], t: &Tracked) -> Writer {
        let standing = match t.state {
            State::Unasserted => Standing::Unasserted,
            State::Alive => Standing::Alive,
            State::NotAlive => Standing::NotAlive,
        };
        Writer { guid: *guid, kind: t.kind, standing, lease: t.lease, last_assert: t.last_assert }
    }
}
