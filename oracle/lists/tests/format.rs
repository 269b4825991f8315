//! A damaged file is not read as lists.

use lists::format::{Record, Title, VERSION, records};
use lists::image::{Buffer, Edit, Lengths, OUT_MOST, PENS_MOST};

fn put(offset: usize) -> Vec<u8> {
    Record::Put(Edit { buffer: Buffer::Pens, offset, bytes: vec![1, 2] }).bytes()
}

#[test]
fn bytes_beyond_a_buffer_are_not_read() {
    assert!(records(&put(PENS_MOST - 2)).is_some());
    assert!(records(&put(PENS_MOST - 1)).is_none());
}

#[test]
fn a_cut_file_is_not_read() {
    let whole = put(0);
    for length in 1..whole.len() {
        assert!(records(&whole[..length]).is_none());
    }
}

#[test]
fn an_unknown_type_is_not_read() {
    assert!(records(&[9, 0, 0, 0, 0, 0, 0, 0]).is_none());
}

#[test]
fn lengths_have_their_most() {
    let stated = Lengths::stated(128);
    assert!(stated.in_range());
    assert!(!Lengths { out: OUT_MOST + 1, ..stated }.in_range());
}

#[test]
fn another_version_is_not_read() {
    let begin = |version| Record::Begin { version, lists: 0, calls: 0 }.bytes();
    assert!(records(&begin(VERSION)).is_some());
    assert!(records(&begin(1)).is_none() && records(&begin(VERSION + 1)).is_none());
}

/// At byte 6 of a list's body, behind one zero.
#[test]
fn a_list_has_32_or_128_places() {
    let title = |places| Title { number: 1, calls: 7, places, seed: 2, name: [0x61; 16] };
    for places in [32, 128] {
        let bytes = Record::List(title(places)).bytes();
        assert_eq!(bytes[8 + 4..8 + 8], [7, 0, 0, places as u8]);
        assert_eq!(records(&bytes), Some(vec![Record::List(title(places))]));
    }
    for places in [0, 33, 0x8000] {
        assert!(records(&Record::List(title(places)).bytes()).is_none());
    }
}
