//! Recording lists: the steps, with what the reading gives for each.

use reading::{Answer, Head, State, sheet};

use crate::coverage::Coverage;
use crate::format::{
    Digests, INSTANCE_CALLS, JOINED_CALLS, LIVELINESS_CALLS, Record, Recorded, Title, VERSION, used,
};
use crate::image::{Edit, Image, Step};

/// The used records are recorded in full after so many calls, and at the end
/// of each list.
const FULL_EVERY: usize = 16;
/// Only where there are no more of them than this; larger ones at the end.
const FULL_MOST: usize = 24;

/// Sees each call as it is recorded: the state before it, the step, its
/// answer, Out and the image after it.
pub trait Witness {
    fn start(&mut self, state: &State) -> Result<(), String>;
    fn call(
        &mut self,
        before: &State,
        step: &Step,
        answer: &Answer,
        out: &[u8],
        after: &Image,
    ) -> Result<(), String>;
}

/// Lists as they are recorded.
#[derive(Default)]
pub struct Recorder {
    records: Vec<Record>,
    lists: u32,
    calls: u32,
    coverage: Coverage,
}

impl Recorder {
    /// Records a list: `next` gives each step from the state before it and
    /// what is covered so far.
    pub fn list(
        &mut self,
        name: &str,
        seed: u64,
        start: &State,
        mut next: impl FnMut(&State, &Coverage) -> Option<Step>,
        witness: &mut dyn Witness,
    ) -> Result<(), String> {
        self.lists += 1;
        let title = self.records.len();
        let mut named = [0; 16];
        named[..name.len()].copy_from_slice(name.as_bytes());
        let places = start.head.places;
        let (number, calls) = (self.lists, 0);
        self.records.push(Record::List(Title { number, calls, places, seed, name: named }));
        let mut image = Image::of_state(start);
        self.start(&image);
        witness.start(start)?;
        let (mut state, mut kinds, mut n) = (start.clone(), 0, 0);
        while let Some(step) = next(&state, &self.coverage) {
            kinds |= kind(&step);
            n += 1;
            let (answer, out) = self.call(&mut image, &step);
            self.coverage.call(step.code(), &answer);
            witness
                .call(&state, &step, &answer, &out, &image)
                .map_err(|what| format!("list {name} {seed}, call {n}: {what}"))?;
            state = image.state().ok_or("a list left its state not well formed")?;
            if n % FULL_EVERY == 0 && used(&image).len() <= FULL_MOST {
                self.full(&image);
            }
        }
        self.full(&image);
        if let Record::List(title) = &mut self.records[title] {
            title.calls = kinds;
        }
        Ok(())
    }

    fn start(&mut self, image: &Image) {
        if image.head != Head::fresh(image.head.places) {
            self.records.push(Record::Head(image.head));
        }
        self.records.extend(used(image).into_iter().map(Record::Put));
    }

    fn full(&mut self, image: &Image) {
        self.records.extend(used(image).into_iter().map(Record::Expect));
    }

    /// A call, between the damage it meets and what undoes that.
    fn call(&mut self, image: &mut Image, step: &Step) -> (Answer, Vec<u8>) {
        self.calls += 1;
        self.damage(step.damaged_head, &step.damage);
        let (head, undo) = image.damage(step);
        let (answer, out) = image.lend(step, reading::call);
        let written = (written_bytes(&answer, &step.sheet)).min(out.len());
        self.records.push(Record::Call(Box::new(Recorded {
            sheet: step.sheet.clone(),
            lengths: step.lengths,
            fill: step.fill,
            written: out[..written].to_vec(),
            digests: Digests::of(image, &step.lengths, &out),
            answer,
            head: image.head,
        })));
        if step.damages() {
            image.head = head;
            for edit in &undo {
                image.edit(edit);
            }
            self.damage(step.damaged_head.map(|_| head), &undo);
        }
        (answer, out)
    }

    fn damage(&mut self, head: Option<Head>, edits: &[Edit]) {
        self.records.extend(head.map(Record::Head));
        self.records.extend(edits.iter().cloned().map(Record::Put));
    }

    /// The file.
    pub fn bytes(self) -> Vec<u8> {
        let begin = Record::Begin { version: VERSION, lists: self.lists, calls: self.calls };
        let mut bytes = begin.bytes();
        for record in &self.records {
            bytes.extend(record.bytes());
        }
        bytes.extend(Record::End.bytes());
        bytes
    }
}

/// A GUID has 16 bytes in Out, a handle 8.
fn written_bytes(answer: &Answer, sheet: &[u8]) -> usize {
    let each = if sheet.get(81) == Some(&38) { 16 } else { 8 };
    answer.listed as usize * each
}

/// The bit of the kind of call that a step is; 0 for an unknown code.
fn kind(step: &Step) -> u8 {
    match step.code() {
        Some(code) if !sheet::known_code(code) => 0,
        Some(1..=21) => INSTANCE_CALLS,
        Some(32..=40) => LIVELINESS_CALLS,
        Some(_) => JOINED_CALLS,
        None => 0,
    }
}
