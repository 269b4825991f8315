//! Takes the recorded lists, and generated ones, through the driver over our trackers: answers, out, head and buffers
//! are the recorded ones. Calls that are refused as 1 to 8 do not go through the driver, because ZeroDDS has no such
//! refusals; the oracle's reading answers them.

use dcps::Places;
use dropin::{Original, set_places, take_refusal};
use lists::{format, replay, run};
use reading::{Answer, Head, Lent, Sheet, State};

const SAMPLE: &[u8] = include_bytes!("../../../oracle/lists/sample.bin");

/// The trackers, and their state.
#[derive(Default)]
struct Beside {
    trackers: Option<(State, Original)>,
    made: u32,
    without_place: u32,
}

impl Beside {
    /// The trackers in a state. If the last call left that state, these are its trackers.
    fn at(&mut self, state: State) -> Original {
        match self.trackers.take() {
            Some((left, trackers)) if left == state => trackers,
            _ => {
                set_places(Places::from_count(state.head.places.into()).expect("32 or 128"));
                Original::at(&state).expect("ours are there")
            }
        }
    }

    fn call(&mut self, head: &mut Head, sheet: &[u8], mut lent: Lent<'_>) -> Answer {
        let ask = (
            *head,
            lent.pens.to_vec(),
            lent.writers.to_vec(),
            lent.lost.to_vec(),
            lent.out.to_vec(),
        );
        let (mut seen, mut pens, mut writers, mut lost, mut out) = ask;
        let judged =
            Lent { pens: &mut pens, writers: &mut writers, lost: &mut lost, out: &mut out };
        let refused = reading::call(&mut seen, sheet, judged);
        if (1..=8).contains(&refused.number) {
            return refused;
        }
        let state = State::read(head, lent.pens, lent.writers, lent.lost).expect("well formed");
        let mut trackers = self.at(state);
        let sheet = Sheet::of(sheet).expect("its length");
        let answer = match trackers.call(sheet) {
            Ok((answer, listed)) => match take_refusal() {
                Some(refusal) => Answer::refused(refusal.number()),
                None => {
                    lent.out[..listed.len()].copy_from_slice(&listed);
                    answer
                }
            },
            Err(number) => Answer::refused(number),
        };
        self.made += 1;
        self.without_place += u32::from(answer.number != 0);
        let left = trackers.state();
        write(&left, head, &mut lent);
        self.trackers = Some((left, trackers));
        answer
    }
}

fn write(state: &State, head: &mut Head, lent: &mut Lent<'_>) {
    state.write(head, lent.pens, lent.writers, lent.lost);
}

#[test]
fn recorded_lists() {
    let records = format::records(SAMPLE).expect("a file of recorded lists");
    let mut beside = Beside::default();
    let (calls, differences) =
        replay::replay(&records, |head, sheet, lent| beside.call(head, sheet, lent));
    assert_eq!(differences, []);
    println!(
        "{calls} calls, {} of them ours, {} of those refused",
        beside.made, beside.without_place
    );
    assert!(beside.made > 2_500 && beside.without_place > 5);
}

#[test]
fn generated_lists() {
    let mut beside = Beside::default();
    let calls =
        run::against_the_reading(1.., 20_000, |head, sheet, lent| beside.call(head, sheet, lent));
    println!("{calls:?}, {} ours, {} refused", beside.made, beside.without_place);
    assert!(calls.is_ok() && beside.made > 10_000, "{calls:?}");
}
