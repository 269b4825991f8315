//! What is lent to the library.

use compare::library::{self, Lent};
use lists::Image;
use reading::answer::ANSWER_BYTES;
use reading::layout::{LOST_BYTES, OUT_BYTES, WRITERS_BYTES, pens_bytes};
use reading::{Head, State};

pub struct Buffers {
    pub image: Image,
    /// The length of pens, by the head's number of places.
    pub pens: usize,
    pub head: Vec<u8>,
    pub out: Vec<u8>,
    pub answer: [u8; ANSWER_BYTES],
}

impl Buffers {
    pub fn of(state: &State) -> Self {
        let image = Image::of_state(state);
        let head = image.head.bytes().to_vec();
        let pens = pens_bytes(state.head.places);
        Self { image, pens, head, out: vec![0; OUT_BYTES], answer: [0; ANSWER_BYTES] }
    }

    pub fn call(&mut self, sheet: &[u8]) -> u32 {
        library::call(Lent {
            head: &mut self.head,
            sheet,
            pens: &mut self.image.pens[..self.pens],
            writers: &mut self.image.writers[..WRITERS_BYTES],
            lost: &mut self.image.lost[..LOST_BYTES],
            out: &mut self.out,
            answer: &mut self.answer,
        })
    }

    /// What is in them; none where it is not well formed.
    pub fn state(&self) -> Option<State> {
        Image { head: Head::of_bytes(&self.head), ..self.image.clone() }.state()
    }
}
