//! MD5 as the text of RFC 1321 tells it: section 2's bytes and words, then the
//! five steps of section 3. Nothing here follows the RFC's program.

/// Words of a block; a round has as many operations.
const BLOCK_WORDS: usize = 16;

/// The four registers A, B, C and D.
type Registers = [u32; 4];

/// Section 3.3: the registers at first, low-order bytes first.
const FIRST: Registers = [
    u32::from_le_bytes([0x01, 0x23, 0x45, 0x67]),
    u32::from_le_bytes([0x89, 0xab, 0xcd, 0xef]),
    u32::from_le_bytes([0xfe, 0xdc, 0xba, 0x98]),
    u32::from_le_bytes([0x76, 0x54, 0x32, 0x10]),
];

/// A round of section 3.4. Operation n takes word `words[n]` of the block; the
/// shifts recur after four.
struct Round {
    function: fn(u32, u32, u32) -> u32,
    words: [usize; BLOCK_WORDS],
    shifts: [u32; 4],
}

const ROUNDS: [Round; 4] = [
    Round {
        function: |x, y, z| (x & y) | (!x & z),
        words: [0, 1, 2, 3, 4, 5, 6, 7, 8, 9, 10, 11, 12, 13, 14, 15],
        shifts: [7, 12, 17, 22],
    },
    Round {
        function: |x, y, z| (x & z) | (y & !z),
        words: [1, 6, 11, 0, 5, 10, 15, 4, 9, 14, 3, 8, 13, 2, 7, 12],
        shifts: [5, 9, 14, 20],
    },
    Round {
        function: |x, y, z| x ^ y ^ z,
        words: [5, 8, 11, 14, 1, 4, 7, 10, 13, 0, 3, 6, 9, 12, 15, 2],
        shifts: [4, 11, 16, 23],
    },
    Round {
        function: |x, y, z| y ^ (x | !z),
        words: [0, 7, 14, 5, 12, 3, 10, 1, 8, 15, 6, 13, 4, 11, 2, 9],
        shifts: [6, 10, 15, 21],
    },
];

/// The digest of a message of whole bytes.
pub fn md5(message: &[u8]) -> [u8; 16] {
    let bits = 8 * message.len() as u64;
    let mut words = words_of(&[message, &bytes_of(&padding(bits))].concat());
    words.extend(length_words(bits));
    let sines: Vec<u32> = (1..=64).map(sine).collect();
    let last = words.chunks(BLOCK_WORDS).fold(FIRST, |before, block| after(before, block, &sines));
    // Section 3.5: A to D, the low-order byte of each first.
    std::array::from_fn(|n| last[n / 4].to_le_bytes()[n % 4])
}

/// Section 2: eight bits are a byte, the high-order bit first.
fn bytes_of(bits: &[bool]) -> Vec<u8> {
    let byte = |bits: &[bool]| bits.iter().fold(0, |byte, bit| (byte << 1) | u8::from(*bit));
    bits.chunks(8).map(byte).collect()
}

/// Section 2: four bytes are a word, the low-order byte first.
fn words_of(bytes: &[u8]) -> Vec<u32> {
    let word = |bytes: &[u8]| bytes.iter().rfold(0, |word, byte| (word << 8) | u32::from(*byte));
    bytes.chunks(4).map(word).collect()
}

/// Section 3.1: a 1 bit in any case, then 0 bits up to 64 short of a multiple
/// of 512.
fn padding(message_bits: u64) -> Vec<bool> {
    let mut bits = vec![true];
    while (message_bits + bits.len() as u64) % 512 != 448 {
        bits.push(false);
    }
    bits
}

/// Section 3.2: the message's own bits, counted modulo 2^64, as two words, the
/// low-order one first.
fn length_words(message_bits: u64) -> [u32; 2] {
    [message_bits as u32, (message_bits >> 32) as u32]
}

/// Section 3.4's T[i]: the integer part of 2^32 times the absolute sine of i
/// radians.
fn sine(i: u32) -> u32 {
    (4_294_967_296.0 * f64::from(i).sin().abs()) as u32
}

/// Section 3.4: the registers after a block, each added to what it was before.
fn after(before: Registers, block: &[u32], sines: &[u32]) -> Registers {
    let rounds = ROUNDS.iter().zip(sines.chunks(BLOCK_WORDS));
    let turned = rounds.fold(before, |registers, (round, t)| round.turned(registers, block, t));
    std::array::from_fn(|n| turned[n].wrapping_add(before[n]))
}

impl Round {
    /// Sixteen operations. The letters move on by one place after each, so that
    /// they are back in theirs after the last.
    fn turned(&self, registers: Registers, block: &[u32], t: &[u32]) -> Registers {
        (0..BLOCK_WORDS).fold(registers, |[a, b, c, d], n| {
            let terms = [a, (self.function)(b, c, d), block[self.words[n]], t[n]];
            let sum = terms.into_iter().fold(0, u32::wrapping_add);
            [d, b.wrapping_add(sum.rotate_left(self.shifts[n % 4])), b, c]
        })
    }
}
