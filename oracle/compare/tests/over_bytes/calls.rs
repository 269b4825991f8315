//! The reading over the boundary's bytes, in the library's place.

use compare::case::{first_refusal, is_head};
use compare::library::Lent;
use reading::answer::ANSWER_BYTES;
use reading::{Answer, Head, Misreading, call_as};

/// A call by the reading or a misreading.
pub fn over_bytes(lent: Lent<'_>, misreading: Option<Misreading>) -> u32 {
    let Lent { head, sheet, pens, writers, lost, out, answer } = lent;
    let answer_fits = answer.len() == ANSWER_BYTES;
    if let Some(number) = first_refusal(head).or((!answer_fits).then_some(1)) {
        return refused(number, answer);
    }
    let mut decoded = Head::of_bytes(head);
    if !is_head(head) {
        decoded.next_handle = 0;
    }
    let lent = reading::Lent { pens, writers, lost, out };
    let told = call_as(&mut decoded, sheet, lent, misreading);
    if told.number == 0 {
        head.copy_from_slice(&decoded.bytes());
    }
    answer.copy_from_slice(&told.bytes());
    u32::from(told.number)
}

/// A refusal, written where the answer has its length.
pub fn refused(number: u8, answer: &mut [u8]) -> u32 {
    if answer.len() == ANSWER_BYTES {
        answer.copy_from_slice(&Answer::refused(number).bytes());
    }
    u32::from(number)
}
