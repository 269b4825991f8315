//! The lengths of all buffers except pens ([`Places`](crate::Places) has that), and numbers in bytes, most
//! significant byte first.

use crate::InstanceHandle;

pub(crate) const HEAD_BYTES: usize = 64;
pub(crate) const SHEET_BYTES: usize = 256;
pub(crate) const WRITERS_BYTES: usize = 5_120;
pub(crate) const LOST_BYTES: usize = 4_096;
pub(crate) const OUT_BYTES: usize = 4_096;
pub(crate) const ANSWER_BYTES: usize = 72;
pub(crate) const READ_BYTES: usize = 24;

pub(crate) const INSTANCE_BYTES: usize = 512;
pub(crate) const WRITER_BYTES: usize = 40;
pub(crate) const GUID_BYTES: usize = 16;
pub(crate) const HANDLE_BYTES: usize = 8;
pub(crate) const HOLDER_PLACES: usize = 144;
pub(crate) const SET_PLACES: usize = 16;

/// The N bytes from `at` on; zeros where the slice is shorter.
pub(crate) fn array_at<const N: usize>(b: &[u8], at: usize) -> [u8; N] {
    b.get(at..at + N).and_then(|part| part.try_into().ok()).unwrap_or([0; N])
}

pub(crate) fn u16_at(b: &[u8], at: usize) -> u16 {
    u16::from_be_bytes(array_at(b, at))
}

pub(crate) fn u32_at(b: &[u8], at: usize) -> u32 {
    u32::from_be_bytes(array_at(b, at))
}

pub(crate) fn i32_at(b: &[u8], at: usize) -> i32 {
    i32::from_be_bytes(array_at(b, at))
}

pub(crate) fn u64_at(b: &[u8], at: usize) -> u64 {
    u64::from_be_bytes(array_at(b, at))
}

pub(crate) fn put(b: &mut [u8], at: usize, bytes: &[u8]) {
    b[at..at + bytes.len()].copy_from_slice(bytes);
}

/// The first handles of out.
pub(crate) fn handles(
    out: &[u8; OUT_BYTES],
    listed: u32,
) -> impl Iterator<Item = InstanceHandle> + '_ {
    let entries = out.chunks_exact(HANDLE_BYTES).take(listed as usize);
    entries.map(|entry| InstanceHandle::from_raw(u64_at(entry, 0)))
}

/// The first GUIDs of a list, or all if it has fewer.
pub(crate) fn guids(list: &[u8], listed: usize) -> &[[u8; GUID_BYTES]] {
    let (guids, _) = list.as_chunks();
    &guids[..listed.min(guids.len())]
}
