//! The two reads that are lent a head alone, by the reading and by the library.

use reading::answer::ANSWER_BYTES;
use reading::{Answer, Head, reads};

use crate::case::{first_refusal, is_head};
use crate::guarded::Guarded;
use crate::library;
use crate::read::{FILL, READ_BYTES, Told, laid_out, same_answer};
use crate::run::Parting;

#[derive(Debug, Clone, Copy, PartialEq, Eq)]
pub enum HeadRead {
    Status,
    Changes,
}

impl HeadRead {
    pub const ALL: [Self; 2] = [Self::Status, Self::Changes];

    pub fn name(self) -> &'static str {
        match self {
            Self::Status => "status",
            Self::Changes => "changes",
        }
    }

    /// The length of its answer.
    pub fn stated(self) -> usize {
        match self {
            Self::Status => ANSWER_BYTES,
            Self::Changes => READ_BYTES,
        }
    }

    /// The bytes of the reading's answer.
    pub fn told(self, head: &[u8]) -> Vec<u8> {
        let lent = match first_refusal(head) {
            Some(number) => Err(number),
            None if is_head(head) => Ok(Head::of_bytes(head)),
            None => Err(3),
        };
        match self {
            Self::Status => {
                let told = lent.and_then(|head| reads::status(&head));
                told.unwrap_or_else(Answer::refused).bytes().to_vec()
            }
            Self::Changes => {
                let told = lent.and_then(|head| reads::changes(&head));
                laid_out(&told.map(|n| Told { handle: n, ..Told::default() })).to_vec()
            }
        }
    }

    /// By the library.
    pub fn ask(self, head: &[u8], answer: &mut [u8]) -> u32 {
        match self {
            Self::Status => library::status(head, answer),
            Self::Changes => library::changes(head, answer),
        }
    }

    /// Asks both, with an answer of that length; the number that they agree on.
    pub fn same(
        self,
        head: &[u8],
        answer_length: usize,
        library: impl FnOnce(Self, &[u8], &mut [u8]) -> u32,
    ) -> Result<u8, Parting> {
        let mut answer = Guarded::filled(FILL, answer_length);
        let number = library(self, head, answer.lent());
        let mut told = self.told(head);
        if answer_length != self.stated() {
            told[0] = first_refusal(head).unwrap_or(1);
        }
        same_answer(self.name(), &told, number, &answer)?;
        Ok(told[0])
    }
}
