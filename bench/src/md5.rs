//! MD5 (RFC 1321) as it is usually written in Rust, to time the library beside
//! it.

/// The integer part of 2^32 times the sine of 1 to 64, without its sign.
#[rustfmt::skip]
const SINES: [u32; 64] = [
    0xd76aa478, 0xe8c7b756, 0x242070db, 0xc1bdceee, 0xf57c0faf, 0x4787c62a, 0xa8304613, 0xfd469501,
    0x698098d8, 0x8b44f7af, 0xffff5bb1, 0x895cd7be, 0x6b901122, 0xfd987193, 0xa679438e, 0x49b40821,
    0xf61e2562, 0xc040b340, 0x265e5a51, 0xe9b6c7aa, 0xd62f105d, 0x02441453, 0xd8a1e681, 0xe7d3fbc8,
    0x21e1cde6, 0xc33707d6, 0xf4d50d87, 0x455a14ed, 0xa9e3e905, 0xfcefa3f8, 0x676f02d9, 0x8d2a4c8a,
    0xfffa3942, 0x8771f681, 0x6d9d6122, 0xfde5380c, 0xa4beea44, 0x4bdecfa9, 0xf6bb4b60, 0xbebfbc70,
    0x289b7ec6, 0xeaa127fa, 0xd4ef3085, 0x04881d05, 0xd9d4d039, 0xe6db99e5, 0x1fa27cf8, 0xc4ac5665,
    0xf4292244, 0x432aff97, 0xab9423a7, 0xfc93a039, 0x655b59c3, 0x8f0ccc92, 0xffeff47d, 0x85845dd1,
    0x6fa87e4f, 0xfe2ce6e0, 0xa3014314, 0x4e0811a1, 0xf7537e82, 0xbd3af235, 0x2ad7d2bb, 0xeb86d391,
];

/// The rotations of each round.
const TURNS: [[u32; 4]; 4] = [[7, 12, 17, 22], [5, 9, 14, 20], [4, 11, 16, 23], [6, 10, 15, 21]];

const BLOCK_BYTES: usize = 64;
const LENGTH_BYTES: usize = 8;

fn add_block(state: &mut [u32; 4], block: &[u8; BLOCK_BYTES]) {
    let (bytes, _) = block.as_chunks();
    let word = |place: usize| u32::from_le_bytes(bytes[place % 16]);
    let [mut a, mut b, mut c, mut d] = *state;
    for step in 0..64 {
        let (mixed, place) = match step / 16 {
            0 => ((b & c) | (!b & d), step),
            1 => ((b & d) | (c & !d), 5 * step + 1),
            2 => (b ^ c ^ d, 3 * step + 5),
            _ => (c ^ (b | !d), 7 * step),
        };
        let sum = a.wrapping_add(mixed).wrapping_add(word(place)).wrapping_add(SINES[step]);
        let turned = sum.rotate_left(TURNS[step / 16][step % 4]);
        (a, b, c, d) = (d, b.wrapping_add(turned), b, c);
    }
    for (word, more) in state.iter_mut().zip([a, b, c, d]) {
        *word = word.wrapping_add(more);
    }
}

/// What follows the last whole block: the rest, a 1 bit, zeros, the length in
/// bits.
fn ending(rest: &[u8], length: usize) -> ([u8; 2 * BLOCK_BYTES], usize) {
    let mut bytes = [0; 2 * BLOCK_BYTES];
    bytes[..rest.len()].copy_from_slice(rest);
    bytes[rest.len()] = 0x80;
    let one = rest.len() < BLOCK_BYTES - LENGTH_BYTES;
    let end = if one { BLOCK_BYTES } else { 2 * BLOCK_BYTES };
    bytes[end - LENGTH_BYTES..end].copy_from_slice(&(8 * length as u64).to_le_bytes());
    (bytes, end)
}

pub fn md5(message: &[u8]) -> [u8; 16] {
    let mut state = [0x6745_2301, 0xefcd_ab89, 0x98ba_dcfe, 0x1032_5476];
    let (blocks, rest) = message.as_chunks();
    let (last, end) = ending(rest, message.len());
    let (ending, _) = last[..end].as_chunks();
    for block in blocks.iter().chain(ending) {
        add_block(&mut state, block);
    }
    let mut digest = [0; 16];
    digest.as_chunks_mut().0.copy_from_slice(&state.map(u32::to_le_bytes));
    digest
}
