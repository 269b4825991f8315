//! Random days for tests: every call, on few keys and writers.

const LINES: &[&str] = &[
    "match a/b kind automatic lease 2s at 1s",
    "match a/c kind by-participant lease 1s at 2s",
    "assert a/* manual at 3s",
    "assert a/c at 4s",
    "expire at 5s",
    "lapse at 6s",
    "part a/b at 7s",
    "depart a/c",
    "unmatch a/b",
    "lost_with_participant a/c",
    "take_lost",
    "take_status",
    "acknowledge alive 1 not-alive -1",
    "acknowledge alive 2147483647 not-alive 0",
    "admit pen from a/b at 1s by-source",
    "admit ink from a/c at 2s now -3s strength 2 deadline 1s limit 1",
    "admit 0x00000000000000000000000000000000 from a/c at 9s separation never",
    "register pen holder h at -1s",
    "ensure_registered_limited ink limit 1",
    "dispose pen at 3s",
    "dispose ink",
    "unregister pen",
    "unregister ink from a/c at 4s",
    "note_writer pen from a/c",
    "note_writer ink from a/b",
    "drop_writer a/b at 5s",
    "observe_lifecycle ink",
    "observe_admitted pen at 5s limit 0",
    "note_admitted pen from a/b at 6s",
    "record_delivery ink at 2s",
    "note_taken pen samples 1",
    "mark_view_new pen",
    "mark_view_seen ink",
    "drain_samples ink samples 4294967295",
    "accept_under_exclusive_ownership pen from a/c strength 4 at 1s",
    "update_owner_strength a/c strength -1",
    "clear_owner_for_writer a/*",
    "release_owner_of pen from a/c",
    "autopurge at 9s disposed 1s no-writers 1s",
];

pub struct Days {
    seed: u64,
}

impl Days {
    pub fn new(seed: u64) -> Self {
        Self { seed }
    }

    fn next(&mut self) -> usize {
        self.seed = self.seed.wrapping_mul(6_364_136_223_846_793_005).wrapping_add(1);
        (self.seed >> 33) as usize
    }

    pub fn next_day(&mut self, lines: usize) -> String {
        let day: Vec<_> = (0..lines).map(|_| LINES[self.next() % LINES.len()]).collect();
        day.join("\n")
    }
}
