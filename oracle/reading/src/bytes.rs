//! Numbers in bytes, most significant byte first, and the 64-bit FNV-1a.

/// The 16 bytes of a writer's GUID.
pub type Guid = [u8; 16];
/// The 16 bytes of an instance's key hash.
pub type Key = [u8; 16];
/// The first 12 bytes of a GUID, which name the participant.
pub type Prefix = [u8; 12];

/// `N` bytes of `b` from `at`.
pub fn array_at<const N: usize>(b: &[u8], at: usize) -> [u8; N] {
    let mut a = [0; N];
    a.copy_from_slice(&b[at..at + N]);
    a
}

pub fn u16_at(b: &[u8], at: usize) -> u16 {
    u16::from_be_bytes(array_at(b, at))
}

pub fn u32_at(b: &[u8], at: usize) -> u32 {
    u32::from_be_bytes(array_at(b, at))
}

pub fn i32_at(b: &[u8], at: usize) -> i32 {
    i32::from_be_bytes(array_at(b, at))
}

pub fn u64_at(b: &[u8], at: usize) -> u64 {
    u64::from_be_bytes(array_at(b, at))
}

/// Writes `what` into `b` from `at`.
pub fn put(b: &mut [u8], at: usize, what: &[u8]) {
    b[at..at + what.len()].copy_from_slice(what);
}

/// The participant a writer belongs to.
pub fn prefix_of(guid: &Guid) -> Prefix {
    array_at(guid, 0)
}

/// Whether every byte is zero.
pub fn all_zero(b: &[u8]) -> bool {
    let (words, rest) = b.as_chunks::<64>();
    words.iter().all(|w| *w == [0; 64]) && rest.iter().all(|x| *x == 0)
}

/// 64-bit FNV-1a.
pub fn fnv1a(b: &[u8]) -> u64 {
    b.iter()
        .fold(0xcbf2_9ce4_8422_2325, |h, x| (h ^ u64::from(*x)).wrapping_mul(0x0000_0100_0000_01b3))
}
