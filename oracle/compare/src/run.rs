//! One list as it runs through the library, the reading and the Rust.

use judge::Way;
use judge::compare::judged;
use lists::{Comparison, Image};
use original::Original;
use reading::answer::ANSWER_BYTES;
use reading::{Answer, Head, Sheet, State};

use crate::case::{Case, first_refusal, is_head};
use crate::guarded::Guarded;
use crate::library::Lent;

/// What every byte of an answer is before the call.
const ANSWER_FILL: u8 = 0xc3;

/// Why a list ends at a call.
#[derive(Debug, Clone, PartialEq, Eq)]
pub enum Parting {
    /// What differs after it.
    Differs(String),
    /// All three agree on a number that damage cannot meet: the list is wrong.
    Unrefused(u8),
}

/// The reading's image and the library's own buffers, and the Rust where it is
/// at hand.
pub struct Run<L> {
    library: L,
    image: Image,
    /// Its head stays unused: the one lent is the reading's, to which the
    /// library's was equal after the call before.
    theirs: Image,
    rust: Option<Original>,
    /// How it judged the latest call.
    pub way: Way,
    /// What the latest call compared.
    pub compared: Vec<Comparison>,
    pub state: State,
}

/// What the library gave.
struct Given {
    number: u32,
    answer: Guarded,
    head: Guarded,
    out: Guarded,
}

impl<L: FnMut(Lent<'_>) -> u32> Run<L> {
    pub fn of(start: &State, library: L) -> Self {
        let image = Image::of_state(start);
        Self {
            library,
            theirs: image.clone(),
            image,
            rust: Original::at(start),
            way: Way::Alone,
            compared: Vec::new(),
            state: start.clone(),
        }
    }

    /// The bytes of instances and the head, as the reading has them.
    pub fn image(&self) -> &Image {
        &self.image
    }

    /// A call of all three; the answer that they agree on.
    pub fn call(&mut self, case: &Case) -> Result<Answer, Parting> {
        let step = &case.step;
        let (head, undo) = self.image.damage(step);
        self.theirs.damage(step);
        let lent_head = case.head_bytes(&self.image.head);
        let given = self.ask(case, &lent_head);
        let (answer, out) = self.expect(case, &lent_head);
        self.same(case, &lent_head, &given, &answer, &out)?;
        if case.spoilt() {
            if !matches!(answer.number, 1..=3) {
                return Err(Parting::Unrefused(answer.number));
            }
            self.image.head = head;
            for edit in &undo {
                self.image.edit(edit);
                self.theirs.edit(edit);
            }
        }
        let made = |sheet| Comparison::made(&self.state, sheet, &answer);
        self.compared = Sheet::of(&step.sheet).map(made).unwrap_or_default();
        self.judge(case, &answer, &out)?;
        Ok(answer)
    }

    fn ask(&mut self, case: &Case, head: &[u8]) -> Given {
        let lengths = &case.step.lengths;
        let mut given = Given {
            number: 0,
            answer: Guarded::filled(ANSWER_FILL, case.answer_length()),
            head: Guarded::of(head),
            out: Guarded::filled(case.step.fill, lengths.out),
        };
        given.number = (self.library)(Lent {
            head: given.head.lent(),
            sheet: &case.step.sheet,
            pens: &mut self.theirs.pens[..lengths.pens],
            writers: &mut self.theirs.writers[..lengths.writers],
            lost: &mut self.theirs.lost[..lengths.lost],
            out: given.out.lent(),
            answer: given.answer.lent(),
        });
        given
    }

    /// The reading's answer and Out. It takes its head by value, so lengths of
    /// head and answer, and bytes that are no head's, are judged here; such
    /// bytes hand their number of places on.
    fn expect(&mut self, case: &Case, lent_head: &[u8]) -> (Answer, Vec<u8>) {
        let step = &case.step;
        let answer_fits = case.answer_length() == ANSWER_BYTES;
        if let Some(number) = first_refusal(lent_head).or((!answer_fits).then_some(1)) {
            return (Answer::refused(number), vec![step.fill; step.lengths.out]);
        }
        let lent = Head::of_bytes(lent_head);
        if !is_head(lent_head) {
            let mut bad = Head { next_handle: 0, ..lent };
            return self.image.lend(step, |_, sheet, lent| reading::call(&mut bad, sheet, lent));
        }
        self.image.head = lent;
        self.image.lend(step, reading::call)
    }

    /// Compares all that the library was lent to write to.
    fn same(
        &self,
        case: &Case,
        lent_head: &[u8],
        given: &Given,
        answer: &Answer,
        out: &[u8],
    ) -> Result<(), Parting> {
        let (laid, head) = (answer.bytes(), self.image.head.bytes());
        let untouched = [ANSWER_FILL; 2 * ANSWER_BYTES];
        let fits = case.answer_length() == ANSWER_BYTES;
        let answer_bytes = if fits { &laid[..] } else { &untouched[..case.answer_length()] };
        let head = if answer.number == 0 { &head[..] } else { lent_head };
        same_bytes("number", &u32::from(answer.number).to_be_bytes(), &given.number.to_be_bytes())?;
        given.answer.same("answer", answer_bytes)?;
        given.head.same("head", head)?;
        given.out.same("Out", out)?;
        same_bytes("pens", &self.image.pens, &self.theirs.pens)?;
        same_bytes("writers", &self.image.writers, &self.theirs.writers)?;
        same_bytes("Lost", &self.image.lost, &self.theirs.lost)
    }

    /// The Rust after the same call; a refused call leaves all states alone.
    fn judge(&mut self, case: &Case, answer: &Answer, out: &[u8]) -> Result<(), Parting> {
        if let Some(rust) = &mut self.rust {
            self.way = judged(rust, &self.state, &case.step, answer, out, &self.image)
                .map_err(Parting::Differs)?;
        }
        if answer.number != 0 {
            return Ok(());
        }
        self.state = self
            .image
            .state()
            .ok_or_else(|| Parting::Differs("not well formed after it".into()))?;
        match self.rust.as_ref().map(Original::state) {
            Some(state) if state != self.state => Err(Parting::Differs(format!(
                "the Rust has {state:?}, the library {:?}",
                self.state
            ))),
            _ => Ok(()),
        }
    }
}

/// Where two rows of bytes first differ.
pub fn same_bytes(what: &str, expected: &[u8], given: &[u8]) -> Result<(), Parting> {
    if expected == given {
        return Ok(());
    }
    let at = expected.iter().zip(given).position(|(e, g)| e != g).unwrap_or(0);
    let part = |bytes: &[u8]| {
        let end = bytes.len().min(at + 16);
        bytes[at.min(end)..end].iter().map(|byte| format!("{byte:02x}")).collect::<String>()
    };
    Err(Parting::Differs(format!(
        "{what} from byte {at}: the reading has {}, the library {}",
        part(expected),
        part(given)
    )))
}
