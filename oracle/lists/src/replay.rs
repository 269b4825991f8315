//! Replaying recorded lists.

use reading::layout::LARGE;
use reading::{Answer, Head, Lent};

use crate::format::{Digests, Record, Recorded};
use crate::image::Image;

/// Where a replay differs from what was recorded.
#[derive(Debug, Clone, PartialEq, Eq)]
pub struct Difference {
    pub list: u32,
    /// From 1; the last call before a record in full.
    pub call: u32,
    pub code: Option<u8>,
    pub what: &'static str,
}

/// Replays records against `call`; gives the calls run and the differences.
pub fn replay(
    records: &[Record],
    mut call: impl FnMut(&mut Head, &[u8], Lent<'_>) -> Answer,
) -> (u32, Vec<Difference>) {
    let mut image = Image::fresh(LARGE);
    let mut differences = Vec::new();
    let (mut list, mut number, mut calls, mut code) = (0, 0, 0, None);
    for record in records {
        let what = match record {
            Record::List(title) => {
                image = Image::fresh(title.places);
                (list, number) = (title.number, 0);
                continue;
            }
            Record::Put(edit) => {
                image.edit(edit);
                continue;
            }
            Record::Head(head) => {
                image.head = *head;
                continue;
            }
            Record::Call(recorded) => {
                number += 1;
                calls += 1;
                code = recorded.sheet.get(81).copied();
                one(&mut image, recorded, &mut call)
            }
            Record::Expect(edit) => {
                let held = &image.buffer(edit.buffer)[edit.offset..][..edit.bytes.len()];
                (held != edit.bytes).then_some("record in full")
            }
            Record::Begin { .. } | Record::End => continue,
        };
        differences.extend(what.map(|what| Difference { list, call: number, code, what }));
    }
    (calls, differences)
}

/// The first of a call's results that is not as recorded.
fn one(
    image: &mut Image,
    recorded: &Recorded,
    call: impl FnMut(&mut Head, &[u8], Lent<'_>) -> Answer,
) -> Option<&'static str> {
    let (answer, out) = image.lend(&recorded.step(), call);
    let digests = Digests::of(image, &recorded.lengths, &out);
    let written = &recorded.written;
    let checks = [
        ("number", answer.number == recorded.answer.number),
        ("answer", answer == recorded.answer),
        ("head", image.head == recorded.head),
        ("written", out.get(..written.len()) == Some(written)),
        ("Out", digests.out == recorded.digests.out),
        ("pens", digests.pens == recorded.digests.pens),
        ("writers", digests.writers == recorded.digests.writers),
        ("Lost", digests.lost == recorded.digests.lost),
    ];
    checks.iter().find(|(_, agrees)| !agrees).map(|(what, _)| *what)
}
