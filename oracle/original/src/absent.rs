//! Stands in for the driver where the sources are not at hand.

use reading::bytes::{Guid, Key};
use reading::layout::Time;
use reading::{Answer, Sheet, State};

/// There is none.
pub enum Original {}

pub type Turn = Result<(Answer, Vec<u8>), u8>;

impl Original {
    pub fn at(_: &State) -> Option<Self> {
        None
    }

    pub fn state(&self) -> State {
        match *self {}
    }

    pub fn maps_agree(&self) -> bool {
        match *self {}
    }

    pub fn call(&mut self, _: Sheet<'_>) -> Turn {
        match *self {}
    }

    pub fn turn(&mut self, _: Sheet<'_>) -> (Answer, Vec<u8>) {
        match *self {}
    }

    pub fn delivers_under_filter(&self, _: &Key, _: Time, _: u64) -> bool {
        match *self {}
    }

    pub fn delivers_under_order(&self, _: &Key, _: Time, _: bool) -> bool {
        match *self {}
    }

    pub fn last_delivered(&self, _: &Key) -> Option<Time> {
        match *self {}
    }

    pub fn left_writerless(&self, _: &[Guid], _: u32) -> Vec<u64> {
        match *self {}
    }

    pub fn would_leave_writerless(&self, _: &[Guid], _: u32) -> bool {
        match *self {}
    }

    pub fn next_handle_after(&self, _: u64) -> Option<u64> {
        match *self {}
    }

    pub fn accepts_sample(&self, _: &Key, _: Guid, _: i32) -> bool {
        match *self {}
    }

    pub fn holder(&self, _: &Key) -> Option<Vec<u8>> {
        match *self {}
    }

    pub fn status(&self) -> Answer {
        match *self {}
    }

    pub fn changes(&self) -> u64 {
        match *self {}
    }
}

pub fn two_handles(_: u64) -> Option<(u64, u64, u64)> {
    None
}

pub fn handle_of(_: Guid) -> Option<u64> {
    None
}

pub fn key_hash_of(_: &[u8], _: usize) -> Option<Key> {
    None
}
