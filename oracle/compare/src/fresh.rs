//! The fresh state, by the reading and by the library.

use reading::Head;
use reading::head::HEAD_BYTES;

use crate::guarded::Guarded;
use crate::read::FILL;
use crate::run::{Parting, same_bytes};

/// What the library makes out of noise in head, pens, writers and Lost of these
/// lengths; the number that both agree on. With a length other than stated the
/// noise is to stay.
pub fn same_fresh(
    lengths: [usize; 4],
    library: impl FnOnce([&mut [u8]; 4]) -> u32,
) -> Result<u8, Parting> {
    let mut lent = lengths.map(|length| Guarded::filled(FILL, length));
    let number = library(lent.each_mut().map(Guarded::lent));
    let mut expected = lengths.map(|length| vec![FILL; length]);
    let refused = fresh(&mut expected);
    same_bytes("number of fresh", &u32::from(refused).to_be_bytes(), &number.to_be_bytes())?;
    let names = ["fresh head", "fresh pens", "fresh writers", "fresh Lost"];
    for ((name, lent), expected) in names.iter().zip(&lent).zip(&expected) {
        lent.same(name, expected)?;
    }
    Ok(refused)
}

/// By the reading, over bytes.
pub fn fresh(lent: &mut [Vec<u8>; 4]) -> u8 {
    let [bytes, pens, writers, lost] = lent;
    if bytes.len() != HEAD_BYTES {
        return 1;
    }
    let mut head = Head::of_bytes(bytes);
    let refused = reading::fresh(&mut head, pens, writers, lost);
    if refused == 0 {
        bytes.copy_from_slice(&head.bytes());
    }
    refused
}
