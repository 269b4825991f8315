//! Head and buffers as a list keeps them between calls, and one step of a list.

use reading::layout::{LARGE, LOST_BYTES, OUT_BYTES, SMALL, WRITERS_BYTES, pens_bytes};
use reading::sheet::SHEET_BYTES;
use reading::{Answer, Head, Lent, State};

/// Longest lengths a list lends; each leaves room for one record too many.
pub const PENS_MOST: usize = pens_bytes(LARGE + 1);
pub const WRITERS_MOST: usize = WRITERS_BYTES + 40;
pub const LOST_MOST: usize = LOST_BYTES + 16;
pub const OUT_MOST: usize = OUT_BYTES + 16;
pub const SHEET_MOST: usize = 2 * SHEET_BYTES;

/// Head and buffers; past its stated length each buffer is zero.
#[derive(Debug, Clone, PartialEq, Eq)]
pub struct Image {
    pub head: Head,
    pub pens: Vec<u8>,
    pub writers: Vec<u8>,
    pub lost: Vec<u8>,
}

/// The buffers a list can write into.
#[derive(Debug, Clone, Copy, PartialEq, Eq)]
pub enum Buffer {
    Pens,
    Writers,
    Lost,
}

/// Bytes put into a buffer from an offset.
#[derive(Debug, Clone, PartialEq, Eq)]
pub struct Edit {
    pub buffer: Buffer,
    pub offset: usize,
    pub bytes: Vec<u8>,
}

/// The lengths of the buffers lent with a call; the sheet has its own.
#[derive(Debug, Clone, Copy, PartialEq, Eq)]
pub struct Lengths {
    pub pens: usize,
    pub writers: usize,
    pub lost: usize,
    pub out: usize,
}

impl Lengths {
    /// With so many places for instances.
    pub const fn stated(places: u16) -> Self {
        let pens = pens_bytes(places);
        Self { pens, writers: WRITERS_BYTES, lost: LOST_BYTES, out: OUT_BYTES }
    }

    /// Pens as long as the other number of places has them.
    pub fn of_other_places(places: u16) -> Self {
        Self::stated(if places == SMALL { LARGE } else { SMALL })
    }

    pub fn in_range(&self) -> bool {
        self.pens <= PENS_MOST
            && self.writers <= WRITERS_MOST
            && self.lost <= LOST_MOST
            && self.out <= OUT_MOST
    }
}

/// A call of a list: what is lent, and what is damaged for this call alone.
#[derive(Debug, Clone, PartialEq, Eq)]
pub struct Step {
    pub sheet: Vec<u8>,
    pub lengths: Lengths,
    /// Every byte of Out as lent.
    pub fill: u8,
    pub damaged_head: Option<Head>,
    pub damage: Vec<Edit>,
}

impl Step {
    /// In a list with so many places for instances.
    pub fn of(places: u16, sheet: Vec<u8>) -> Self {
        let lengths = Lengths::stated(places);
        Self { sheet, lengths, fill: 0xa5, damaged_head: None, damage: Vec::new() }
    }

    pub fn damages(&self) -> bool {
        self.damaged_head.is_some() || !self.damage.is_empty()
    }

    pub fn code(&self) -> Option<u8> {
        self.sheet.get(81).copied()
    }
}

impl Image {
    pub fn fresh(places: u16) -> Self {
        Self {
            head: Head::fresh(places),
            pens: vec![0; PENS_MOST],
            writers: vec![0; WRITERS_MOST],
            lost: vec![0; LOST_MOST],
        }
    }

    pub fn of_state(state: &State) -> Self {
        let mut image = Self::fresh(state.head.places);
        state.write(&mut image.head, &mut image.pens, &mut image.writers, &mut image.lost);
        image
    }

    /// None where it is not well formed.
    pub fn state(&self) -> Option<State> {
        State::read(
            &self.head,
            self.pens.get(..pens_bytes(self.head.places))?,
            &self.writers[..WRITERS_BYTES],
            &self.lost[..LOST_BYTES],
        )
    }

    pub fn buffer(&mut self, which: Buffer) -> &mut Vec<u8> {
        match which {
            Buffer::Pens => &mut self.pens,
            Buffer::Writers => &mut self.writers,
            Buffer::Lost => &mut self.lost,
        }
    }

    /// Makes an edit; gives the one that undoes it.
    pub fn edit(&mut self, edit: &Edit) -> Edit {
        let place = &mut self.buffer(edit.buffer)[edit.offset..edit.offset + edit.bytes.len()];
        let before = place.to_vec();
        place.copy_from_slice(&edit.bytes);
        Edit { bytes: before, ..edit.clone() }
    }

    /// Damages the image as the step says; gives what undoes it.
    pub fn damage(&mut self, step: &Step) -> (Head, Vec<Edit>) {
        let head = self.head;
        self.head = step.damaged_head.unwrap_or(head);
        let mut undo: Vec<Edit> = step.damage.iter().map(|edit| self.edit(edit)).collect();
        undo.reverse();
        (head, undo)
    }

    /// Lends the step's lengths to `call`; gives the answer and Out.
    pub fn lend(
        &mut self,
        step: &Step,
        call: impl FnOnce(&mut Head, &[u8], Lent<'_>) -> Answer,
    ) -> (Answer, Vec<u8>) {
        let mut out = vec![step.fill; step.lengths.out];
        let lent = Lent {
            pens: &mut self.pens[..step.lengths.pens],
            writers: &mut self.writers[..step.lengths.writers],
            lost: &mut self.lost[..step.lengths.lost],
            out: &mut out,
        };
        let answer = call(&mut self.head, &step.sheet, lent);
        (answer, out)
    }

    /// One step whole: damage, call, and the damage undone.
    pub fn step(
        &mut self,
        step: &Step,
        call: impl FnOnce(&mut Head, &[u8], Lent<'_>) -> Answer,
    ) -> (Answer, Vec<u8>) {
        if !step.damages() {
            return self.lend(step, call);
        }
        let (head, undo) = self.damage(step);
        let result = self.lend(step, call);
        self.head = head;
        for edit in &undo {
            self.edit(edit);
        }
        result
    }
}
