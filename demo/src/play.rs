//! Plays a day: reads it line by line, makes each call, and shows it to those who watch. Nothing is kept of a
//! line but what they keep.

use crate::day::{each_line, read_line, Call, Fault, Line};
use crate::make::{make, Said};
use crate::mirror::{Changes, Mirror};
use crate::names::Names;
use crate::plan::Plan;
use dcps::{Places, Refusal, State};
use std::io::{self, BufRead};

/// A call that was made.
pub struct Step<'a> {
    pub call: &'a Call,
    pub said: &'a Result<Said, Refusal>,
    /// What it changed; nothing where it was refused.
    pub changes: &'a Changes,
    /// The state after it, as the library has it and as its records are.
    pub state: &'a State,
    pub mirror: &'a Mirror,
    pub names: &'a Names,
}

/// Someone who watches the calls of a day.
pub trait Watch {
    fn see(&mut self, step: &Step<'_>);
}

/// The faults of a day: the first ones, and how many there are.
pub struct Faults {
    pub first: Vec<Fault>,
    pub all: usize,
}

const FAULTS_KEPT: usize = 20;

/// Why a day could not be played.
pub enum Stop {
    Unreadable(io::Error),
    Faults(Faults),
}

struct Player<'a> {
    names: &'a mut Names,
    plan: &'a Plan,
    state: State,
    mirror: Mirror,
    /// Whether the day has stated the number of places, and whether it has made a call.
    stated: bool,
    called: bool,
    faults: Faults,
}

/// Plays a day from a fresh state, with the changes of a plan; the state after it. A bad line stops the play, and the rest
/// is only read for more of them.
pub fn play(
    source: &mut dyn BufRead,
    names: &mut Names,
    plan: &Plan,
    watchers: &mut [&mut dyn Watch],
) -> Result<State, Stop> {
    let faults = Faults { first: Vec::new(), all: 0 };
    let (state, mirror) = (State::new(), Mirror::default());
    let mut player = Player { names, plan, state, mirror, stated: false, called: false, faults };
    each_line(source, |line, bytes| player.line(line, bytes, watchers))
        .map_err(Stop::Unreadable)?;
    if player.faults.all == 0 {
        Ok(player.state)
    } else {
        Err(Stop::Faults(player.faults))
    }
}

impl Player<'_> {
    fn line(&mut self, line: usize, bytes: &[u8], watchers: &mut [&mut dyn Watch]) {
        let taken = read_line(line, bytes, self.names).and_then(|read| match read {
            Some(Line::Places(places)) => self.places(places),
            Some(Line::Call(call)) => {
                self.planned(*call, watchers);
                Ok(())
            }
            None => Ok(()),
        });
        if let Err(what) = taken {
            self.faults.all += 1;
            if self.faults.first.len() < FAULTS_KEPT {
                self.faults.first.push(Fault { line, what });
            }
        }
    }

    /// A state has its places from its beginning, so no call may have been made on it.
    fn places(&mut self, places: Places) -> Result<(), String> {
        if std::mem::replace(&mut self.stated, true) {
            return Err("'places' is there twice: remove one of them".to_owned());
        }
        if self.called {
            return Err("'places' comes after a call: write it above the first call".to_owned());
        }
        self.state = State::with_places(places);
        Ok(())
    }

    /// A call as the plan changes it, and those that the plan adds.
    fn planned(&mut self, mut call: Call, watchers: &mut [&mut dyn Watch]) {
        self.called = true;
        if self.faults.all > 0 {
            return;
        }
        if let Some(before) = self.plan.before(&mut call) {
            let _ = self.call(&before, watchers);
        }
        let said = self.call(&call, watchers);
        if let Some(after) = said.ok().and_then(|said| self.plan.after(&call, &said)) {
            let _ = self.call(&after, watchers);
        }
    }

    fn call(&mut self, call: &Call, watchers: &mut [&mut dyn Watch]) -> Result<Said, Refusal> {
        let said = make(&mut self.state, call);
        let changes = match &said {
            Ok(said) => self.mirror.follow(call, said, &self.state),
            Err(_) => Changes::default(),
        };
        let step = Step {
            call,
            said: &said,
            changes: &changes,
            state: &self.state,
            mirror: &self.mirror,
            names: self.names,
        };
        for watcher in watchers {
            watcher.see(&step);
        }
        said
    }
}

/// Plays a text that has no fault.
#[cfg(test)]
pub fn play_text(day: &str, names: &mut Names, watchers: &mut [&mut dyn Watch]) -> State {
    play_text_changed(day, names, &Plan::default(), watchers)
}

#[cfg(test)]
pub fn play_text_changed(
    day: &str,
    names: &mut Names,
    plan: &Plan,
    watchers: &mut [&mut dyn Watch],
) -> State {
    match play(&mut day.as_bytes(), names, plan, watchers) {
        Ok(state) => state,
        Err(_) => panic!("a good day"),
    }
}
