//! Lists of calls from a seed.
//!
//! The generator sees the state before each call, so that keys, handles,
//! times and clocks often meet what is there, on it or one off.

use reading::layout::{CLOCK_END, FIGURES, Instance, NANOSECONDS, Time, pens_bytes};
use reading::sheet::SHEET_BYTES;
use reading::state::State;

use crate::comparisons::Comparison;
use crate::damage;
use crate::fill::{self, Filled};
use crate::image::{LOST_MOST, Lengths, OUT_MOST, PENS_MOST, SHEET_MOST, Step, WRITERS_MOST};
use crate::pools::Pools;
use crate::rng::Rng;
use crate::start::{self, Start};

/// Which calls a list has, the refused ones aside.
#[derive(Debug, Clone, Copy, PartialEq, Eq)]
pub enum Calls {
    Instance,
    Liveliness,
    /// Joined calls above all, with what they need around them.
    Joined,
    All,
}

/// The known codes.
pub const CODES: [u8; 34] = [
    1, 2, 3, 4, 5, 6, 7, 8, 9, 10, 11, 12, 13, 14, 15, 16, 17, 18, 19, 20, 21, 32, 33, 34, 35, 36,
    37, 38, 39, 40, 48, 49, 50, 51,
];
/// Ownership, the loss of writers and purges more often: they need more to be
/// there.
const INSTANCE_CODES: [u8; 27] = [
    1, 2, 3, 4, 5, 6, 6, 7, 7, 8, 9, 10, 11, 12, 13, 14, 15, 16, 16, 16, 17, 18, 18, 19, 20, 21, 21,
];
/// Matches, assertions and expiries more often, so that there is what to lose.
const LIVELINESS_CODES: [u8; 18] =
    [32, 32, 32, 32, 33, 33, 34, 35, 35, 35, 36, 36, 37, 37, 38, 39, 40, 40];
const JOINED_CODES: [u8; 6] = [48, 48, 49, 49, 50, 51];
/// Owners set and cleared, and purges, stand between the admits.
const AROUND_JOINED_CODES: [u8; 28] = [
    48, 48, 48, 48, 48, 48, 48, 48, 49, 49, 50, 51, 32, 32, 32, 35, 35, 35, 36, 16, 17, 18, 19, 20,
    21, 21, 38, 39,
];
/// The codes next to the known ones, and the ends.
const UNKNOWN_CODES: [u8; 8] = [0, 22, 31, 41, 47, 52, 128, 255];

/// How often a list has what is refused, one in so many calls.
#[derive(Debug, Clone, Copy)]
pub struct Rates {
    pub unknown_code: usize,
    pub odd_length: usize,
    pub damage: usize,
    /// Another number of places than 32 or 128, in half of these beside another
    /// length.
    pub figure: usize,
    pub hostile_field: usize,
}

impl Rates {
    pub const USUAL: Self =
        Self { unknown_code: 100, odd_length: 90, damage: 60, figure: 250, hostile_field: 25 };
    /// Nothing but fields of a sheet.
    pub const NO_FAULTS: Self = Self {
        unknown_code: usize::MAX,
        odd_length: usize::MAX,
        damage: usize::MAX,
        figure: usize::MAX,
        ..Self::USUAL
    };
}

/// The calls of one list, made one after another.
pub struct Generator {
    rng: Rng,
    pools: Pools,
    calls: Calls,
    start: Start,
    /// For instances.
    places: u16,
    pub rates: Rates,
    /// Where the list's clock stands; it moves on with the assertions.
    clock: u64,
}

impl Generator {
    /// The list of a seed, and the state it starts from: that of every other
    /// seed has 32 places.
    pub fn new(seed: u64) -> (Self, State) {
        let places = places_of_seed(seed);
        let mut rng = Rng::new(seed);
        let calls =
            rng.pick(&[Calls::Instance, Calls::Liveliness, Calls::Joined, Calls::All, Calls::All]);
        let start = match rng.below(20) {
            0..9 => Start::Fresh,
            9..14 => Start::Any,
            14 => Start::FullInstances,
            15 | 16 => Start::FullSets,
            17 => Start::FullWriters,
            18 => Start::NearlyFullLost,
            _ => Start::LastHandles,
        };
        Self::with(rng, places, calls, start)
    }

    /// A list of the wanted places, calls and start.
    pub fn of(seed: u64, places: u16, calls: Calls, start: Start) -> (Self, State) {
        Self::with(Rng::new(seed), places, calls, start)
    }

    fn with(mut rng: Rng, places: u16, calls: Calls, start: Start) -> (Self, State) {
        // Full sets and many expiries take many GUIDs; the joined calls meet
        // the same writers again with few.
        let guids = match (start, calls) {
            (Start::FullSets | Start::NearlyFullLost, _) => 24,
            (_, Calls::Joined) => 3,
            _ => rng.pick(&[2, 4, 6, 20, 24]),
        };
        let pools = Pools::new(&mut rng, guids);
        let state = start::state(&mut rng, &pools, places, start);
        let clock = pools.clock;
        (Self { rng, pools, calls, start, places, rates: Rates::USUAL, clock }, state)
    }

    /// A length for the list.
    pub fn length(&mut self) -> usize {
        self.rng.pick(&[5, 20, 60, 150])
    }

    /// The next call of a list whose state is `state`.
    pub fn next(&mut self, state: &State) -> Step {
        let code = self.code();
        let mut step = Step::of(self.places, self.sheet(state, code));
        step.fill = self.rng.pick(&[0, 0x5a, 0xff]);
        if self.rng.one_in(self.rates.odd_length) {
            self.odd_length(&mut step);
        }
        if self.rng.one_in(self.rates.damage) {
            damage::any(&mut self.rng, state, &mut step);
        }
        if self.rng.one_in(self.rates.figure) {
            let figure = self.rng.pick(&damage::WRONG_FIGURES);
            damage::set_places(figure, state, &mut step);
            if self.rng.one_in(2) {
                self.odd_length(&mut step);
            } else if pens_bytes(figure) <= PENS_MOST && self.rng.one_in(4) {
                // just as long as that figure would have them: seldom met by chance
                step.lengths.pens = pens_bytes(figure);
            }
        }
        step
    }

    fn code(&mut self) -> u8 {
        if self.rng.one_in(self.rates.unknown_code) {
            return self.rng.pick(&UNKNOWN_CODES);
        }
        if self.rng.one_in(2)
            && let Some(code) = self.rng.pick_some(self.pressing())
        {
            return *code;
        }
        match (self.calls, self.rng.below(10)) {
            (Calls::Instance, _) | (Calls::All, 0..4) => self.rng.pick(&INSTANCE_CODES),
            (Calls::Liveliness, _) | (Calls::All, 4..7) => self.rng.pick(&LIVELINESS_CODES),
            (Calls::Joined, _) => self.rng.pick(&AROUND_JOINED_CODES),
            _ => self.rng.pick(&JOINED_CODES),
        }
    }

    /// The calls that press on what the list started with nearly full.
    fn pressing(&self) -> &'static [u8] {
        match (self.start, self.calls) {
            (Start::FullInstances | Start::LastHandles, Calls::Instance) => &[1, 2, 8, 9],
            (Start::FullInstances | Start::LastHandles, Calls::All) => &[1, 2, 8, 9, 48],
            (Start::FullInstances | Start::LastHandles, Calls::Joined) => &[48],
            (Start::FullSets, Calls::Instance) => &[6, 10],
            (Start::FullSets, Calls::All | Calls::Joined) => &[6, 10, 48],
            (Start::FullWriters, Calls::Liveliness | Calls::All | Calls::Joined) => &[32],
            (Start::NearlyFullLost, Calls::Liveliness) => &[37],
            (Start::NearlyFullLost, Calls::All | Calls::Joined) => &[37, 49],
            _ => &[],
        }
    }

    /// One length other than stated; a longer sheet, or a shorter one.
    fn odd_length(&mut self, step: &mut Step) {
        let l = &mut step.lengths;
        let stated = Lengths::stated(self.places);
        let other = Lengths::of_other_places(self.places).pens;
        match self.rng.below(5) {
            0 => {
                let length =
                    self.rng.pick(&[0, 1, 81, 82, SHEET_BYTES - 1, SHEET_BYTES + 1, SHEET_MOST]);
                step.sheet.resize(length, 0x11);
            }
            1 => {
                let (less, more) = (stated.pens - 1, stated.pens + 1);
                l.pens = self.rng.pick(&[0, other, other, less, more, stated.pens + 512]);
            }
            2 => l.writers = self.rng.pick(&[0, stated.writers - 40, WRITERS_MOST]),
            3 => l.lost = self.rng.pick(&[0, stated.lost - 16, LOST_MOST]),
            _ => l.out = self.rng.pick(&[0, stated.out - 8, stated.out + 1, OUT_MOST]),
        }
    }

    /// A sheet with every field likely, and then what the call does not take
    /// sometimes overwritten: a call must ignore it.
    fn sheet(&mut self, state: &State, code: u8) -> Vec<u8> {
        let key = self.key(state, code);
        let found = state.place(&key).ok().map(|place| &state.instances[place]);
        let guid = self.guid(state, found, code);
        let bits = self.bits(code);
        let (a, b) = (self.a(state, code), self.b(code));
        let (time1, time2) = self.times(state, found, code, a, b);
        let (first, second) = self.small_numbers(state, found, code);
        let (length, holder) = self.holder();
        let mut sheet = Filled::code(code)
            .key(key)
            .guid(guid)
            .handle(self.handle(state))
            .time1(time1)
            .time2(time2)
            .a(a)
            .b(b)
            .limit(first)
            .strength(second)
            .bits(bits)
            .holder(length, &holder)
            .0;
        if self.rng.one_in(2) {
            self.overwrite_ignored(&mut sheet);
        }
        sheet
    }

    fn overwrite_ignored(&mut self, sheet: &mut [u8]) {
        let (bits, code) = (sheet[80], sheet[81]);
        let mut noise = [0; SHEET_BYTES];
        self.rng.fill(&mut noise);
        let end = if fill::takes_holder(code, bits) {
            84 + usize::from(u16::from_be_bytes([sheet[82], sheet[83]]))
        } else {
            84
        };
        for (at, byte) in sheet.iter_mut().enumerate() {
            if at >= end || at < 84 && !fill::takes(code, bits, at) {
                *byte = noise[at];
            }
        }
    }

    /// A key that is there, or one of the pool; for ownership one with an
    /// owner. An admit also starts instances, and meets the latest one.
    fn key(&mut self, state: &State, code: u8) -> [u8; 16] {
        let pressed = matches!(self.start, Start::FullInstances | Start::LastHandles);
        if code == 48 && self.rng.one_in(2) {
            let latest = state.instances.iter().max_by_key(|i| i.handle);
            let met = latest.filter(|_| !self.rng.one_in(3)).map(|i| i.key);
            let wide = self.rng.one_in(2);
            return met.unwrap_or_else(|| self.pools.key(&mut self.rng, wide));
        }
        if !self.rng.one_in(if pressed { 2 } else { 4 }) {
            let owned = matches!(code, 16 | 20 | 48) && self.rng.one_in(2);
            let fits = |i: &&Instance| !owned || i.owner.is_some();
            let all: Vec<&Instance> = state.instances.iter().filter(fits).collect();
            if let Some(instance) = self.rng.pick_some(&all) {
                return instance.key;
            }
        }
        self.pools.key(&mut self.rng, pressed)
    }

    /// Of an instance's set or owner, of a writer record, or of the pool.
    fn guid(&mut self, state: &State, found: Option<&Instance>, code: u8) -> [u8; 16] {
        let rng = &mut self.rng;
        // Calls on every instance have one of them in mind too.
        let every = matches!(code, 7 | 17..=19 | 32 | 50 | 51);
        let meant = if every { rng.pick_some(&state.instances) } else { found };
        let met = match (code, rng.below(6)) {
            (20, 0..3) | (_, 0) => meant.and_then(|i| i.owner.map(|(guid, _)| guid)),
            (6 | 10 | 48, 1..4) => None,
            (_, 1 | 2) => meant.and_then(|i| rng.pick_some(&i.writers).copied()),
            (_, 3) => rng.pick_some(&state.writers).map(|w| w.guid),
            _ => None,
        };
        let wide = self.start == Start::FullWriters && rng.one_in(2);
        met.unwrap_or_else(|| self.pools.guid(rng, wide))
    }

    fn handle(&mut self, state: &State) -> u64 {
        let next = state.head.next_handle;
        if !self.rng.one_in(6)
            && let Some(instance) = self.rng.pick_some(&state.instances)
        {
            return instance.handle;
        }
        self.rng.pick(&[0, 1, next, next.wrapping_sub(1), u64::MAX])
    }

    /// Any bits; a match mostly has a lease, and seldom kind 3.
    fn bits(&mut self, code: u8) -> u8 {
        let mut bits = self.rng.below(256) as u8;
        if code == 32 && bits & 3 == 3 && !self.rng.one_in(4) {
            bits &= !3;
        }
        if code == 32 && self.rng.one_in(2) {
            bits |= fill::LEASE_PRESENT;
        }
        bits
    }

    fn hostile(&mut self) -> bool {
        self.rng.one_in(self.rates.hostile_field)
    }

    fn a(&mut self, state: &State, code: u8) -> u64 {
        match code {
            32 | 35 | 36 => self.assertion_clock(state),
            37 | 49 => self.expiry_clock(state),
            _ => self.delay(),
        }
    }

    fn b(&mut self, code: u8) -> u64 {
        match code {
            32 if self.hostile() => self.rng.pick(&[CLOCK_END, u64::MAX]),
            32 => self.pools.lease(&mut self.rng),
            _ => self.delay(),
        }
    }

    fn delay(&mut self) -> u64 {
        let second = u64::from(NANOSECONDS);
        self.rng.pick(&[
            0,
            0,
            1,
            5,
            second - 1,
            second,
            second,
            second + 1,
            2 * second,
            1 << 62,
            1 << 63,
            u64::MAX,
        ])
    }

    /// On a writer's last assertion, or one off.
    fn assertion_clock(&mut self, state: &State) -> u64 {
        if self.hostile() {
            return self.rng.pick(&[CLOCK_END, 1 << 63, u64::MAX]);
        }
        self.clock = (self.clock + self.rng.below(6) as u64).min(CLOCK_END - 1);
        match (self.rng.below(4), self.rng.pick_some(&state.writers)) {
            (0, Some(w)) => one_off(&mut self.rng, w.last_assertion),
            (1, _) => self.pools.clock(&mut self.rng),
            _ => self.clock,
        }
    }

    /// On a writer's due time, or one off.
    fn expiry_clock(&mut self, state: &State) -> u64 {
        if self.hostile() {
            return self.rng.pick(&[CLOCK_END, 1 << 63, u64::MAX]);
        }
        let alive: Vec<u64> = state.writers.iter().filter_map(|w| w.due()).collect();
        match (self.rng.below(4), self.rng.pick_some(&alive)) {
            (0..3, Some(due)) => one_off(&mut self.rng, *due).min(CLOCK_END - 1),
            _ => self.clock,
        }
    }

    /// Times on, or one off, what the call compares them with.
    fn times(
        &mut self,
        state: &State,
        found: Option<&Instance>,
        code: u8,
        a: u64,
        b: u64,
    ) -> (Time, Time) {
        let time1 = match found.and_then(|i| i.last_delivered) {
            Some(last) if self.rng.one_in(2) => {
                let later = self.rng.pick(&[0, 0, 1, u64::from(NANOSECONDS)]);
                self.gap(last, later)
            }
            _ => self.pools.time(&mut self.rng),
        };
        let (met, delay) = match code {
            16 => (found.and_then(|i| i.owner_at), b),
            21 => self.purge_mark(state, a, b),
            _ if self.rng.one_in(4) => (found.and_then(|i| i.owner_at), b),
            _ => (found.and_then(|i| i.last_filter), a),
        };
        // A nanosecond before what is met, whatever the delay, now and then.
        let delay = if self.rng.one_in(5) { 0 } else { delay };
        let time2 = match met {
            Some(met) if !self.rng.one_in(3) => self.gap(met, delay),
            _ => self.pools.time(&mut self.rng),
        };
        (self.maybe_hostile_time(time1), self.maybe_hostile_time(time2))
    }

    /// When one of the dead instances died, and the delay for its kind.
    fn purge_mark(&mut self, state: &State, a: u64, b: u64) -> (Option<Time>, u64) {
        let of = |i| Comparison::of_purge(i, Time::default(), a, b);
        let dead: Vec<Comparison> = state.instances.iter().filter_map(of).collect();
        self.rng.pick_some(&dead).map_or((None, 0), |c| (Some(c.recorded), c.delay))
    }

    /// `delay` after a time, or a nanosecond off.
    fn gap(&mut self, from: Time, delay: u64) -> Time {
        let off = self.rng.below(3) as i64 - 1;
        let delay = i64::try_from(delay).unwrap_or(0);
        let nanoseconds = from.since_epoch().saturating_add(delay).saturating_add(off);
        let second = i64::from(NANOSECONDS);
        match i32::try_from(nanoseconds.div_euclid(second)) {
            Ok(seconds) => Time { seconds, nanoseconds: nanoseconds.rem_euclid(second) as u32 },
            Err(_) => self.pools.time(&mut self.rng),
        }
    }

    fn maybe_hostile_time(&mut self, time: Time) -> Time {
        if self.rng.one_in(2 * self.rates.hostile_field) {
            let nanoseconds = self.rng.pick(&[NANOSECONDS, NANOSECONDS + 1, u32::MAX]);
            Time { nanoseconds, ..time }
        } else {
            time
        }
    }

    /// The numbers at 72 and 76.
    fn small_numbers(&mut self, state: &State, found: Option<&Instance>, code: u8) -> (i32, i32) {
        if code == 40 {
            let head = &state.head;
            let alive = self.acknowledged(head.alive, head.alive_change);
            return (alive, self.acknowledged(head.not_alive, head.not_alive_change));
        }
        let n = state.instances.len() as i32;
        let full = i32::from(self.places);
        let limits = [-1, -1, -1, i32::MIN, 0, 1, n - 1, n, n, n + 1, full, i32::MAX];
        let limit = self.rng.pick(&limits);
        let second = match (code, found) {
            (12 | 15, Some(i)) => {
                let s = i.samples;
                let n = [0, 1, 1, s, s.wrapping_add(1), s.wrapping_sub(1), u32::MAX];
                self.rng.pick(&n) as i32
            }
            (16 | 48, Some(Instance { owner: Some((_, strength)), .. })) if self.rng.one_in(2) => {
                strength.saturating_add(self.rng.pick(&[-1, -1, 0, 1]))
            }
            _ => self.pools.strength(&mut self.rng),
        };
        (limit, second)
    }

    /// Nothing, the pending change, or to the ends of what refusal 8 allows.
    fn acknowledged(&mut self, count: u32, change: i32) -> i32 {
        let to = |span: i64| {
            let left = i64::from(count) - span;
            (i64::from(change) - left).clamp(i64::from(i32::MIN), i64::from(i32::MAX)) as i32
        };
        let end = 1i64 << 30;
        let ends = [to(-end), to(-end - 1), to(end), to(end + 1), i32::MIN, i32::MAX];
        match self.rng.below(8) {
            0 => self.rng.pick(&ends),
            1..4 => 0,
            4 | 5 => change,
            _ => self.rng.below(5) as i32 - 2,
        }
    }

    fn holder(&mut self) -> (u16, Vec<u8>) {
        let mut holder = self.pools.holder(&mut self.rng);
        if self.hostile() {
            let length = self.rng.pick(&[145, 172, 173, u16::MAX]);
            holder.resize(172, 0x33);
            return (length, holder);
        }
        (holder.len() as u16, holder)
    }
}

/// The number of places in the list of a seed.
pub fn places_of_seed(seed: u64) -> u16 {
    FIGURES[(seed % 2) as usize]
}

/// A clock on `at` or one off.
fn one_off(rng: &mut Rng, at: u64) -> u64 {
    rng.pick(&[at.saturating_sub(1), at, at, at + 1])
}
