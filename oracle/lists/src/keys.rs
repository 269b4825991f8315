//! Serialized keys, each with a stated largest size, from a seed: lengths and
//! sizes at the ends of request 2's rule and of MD5's blocks, and around them.

use reading::key_hash::STATED_MOST;

use crate::rng::Rng;

/// Stated sizes that a rule could get wrong.
pub const SIZES: [u64; 12] =
    [0, 1, 15, 16, 17, 18, 4095, 4096, 4097, 1 << 32, (1 << 32) + 16, u64::MAX];

/// Lengths likewise: around a KeyHash's own, where the padding takes a further
/// block, where the blocks end, and around the largest.
pub const LENGTHS: [usize; 20] =
    [0, 1, 15, 16, 17, 55, 56, 57, 63, 64, 65, 119, 120, 121, 127, 128, 4095, 4096, 4097, 6000];

/// No length is taken further from a stated size.
const FAR: usize = 2000;

/// A key as one asks for its KeyHash.
#[derive(Debug, Clone, PartialEq, Eq)]
pub struct SerializedKey {
    pub bytes: Vec<u8>,
    pub largest: u64,
}

impl SerializedKey {
    pub fn any(rng: &mut Rng) -> Self {
        let (length, largest) =
            if rng.one_in(2) { length_of_size(rng) } else { size_of_length(rng) };
        Self { bytes: contents(rng, length), largest }
    }

    /// The length less the stated size.
    pub fn excess(&self) -> i128 {
        self.bytes.len() as i128 - i128::from(self.largest)
    }
}

/// A stated size, and a length at it or to either side.
fn length_of_size(rng: &mut Rng) -> (usize, u64) {
    let largest = match rng.below(8) {
        0 | 1 => rng.below(20) as u64,
        2 => rng.below(4200) as u64,
        3 => rng.number() >> rng.below(64),
        _ => rng.pick(&SIZES),
    };
    let near = largest.min(STATED_MOST + 1) as usize;
    let length = match rng.below(6) {
        0 => rng.below(near + 1),
        1 => near.saturating_sub(1),
        2 => near,
        3 => near + 1,
        4 => near + 2 + rng.below(FAR),
        _ => rng.pick(&LENGTHS),
    };
    (length, largest)
}

/// A length, and a stated size that mostly takes it.
fn size_of_length(rng: &mut Rng) -> (usize, u64) {
    let length = if rng.one_in(4) { rng.below(4200) } else { rng.pick(&LENGTHS) };
    let largest = match rng.below(8) {
        0 => length.saturating_sub(1),
        1 | 2 => length,
        3 => length + 1,
        4 => length.max(17),
        _ => length + rng.below((STATED_MOST as usize).saturating_sub(length) + 1),
    };
    (length, largest as u64)
}

/// Random bytes, all alike, or ending as if they were padded already.
fn contents(rng: &mut Rng, length: usize) -> Vec<u8> {
    let mut bytes = vec![0; length];
    match rng.below(5) {
        0 => {}
        1 => bytes.fill(0xff),
        2 => {
            let end = length.saturating_sub(rng.pick(&[1, 1, 2, 8, 63, 64, 65]));
            rng.fill(&mut bytes[..end]);
            if let Some(byte) = bytes.get_mut(end) {
                *byte = 0x80;
            }
        }
        _ => rng.fill(&mut bytes),
    }
    bytes
}
