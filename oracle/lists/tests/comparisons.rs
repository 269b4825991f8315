//! Which comparisons a call made, by its answer.

use lists::Comparison;
use lists::fill::{BY_SOURCE, Filled};
use reading::gaps::Rule;
use reading::layout::{Instance, LARGE, Time};
use reading::{Answer, Sheet, State};

const KEY: [u8; 16] = [1; 16];

#[test]
fn an_admit_that_order_turns_away_has_no_filter() {
    let last = Some(Time { seconds: -1, nanoseconds: 5 });
    let known = Instance { last_delivered: last, last_filter: last, ..Instance::fresh(KEY, 1) };
    let mut state = State::fresh(LARGE);
    state.instances.push(known);
    let Filled(bytes) = Filled::code(48).key(KEY).bits(BY_SOURCE);
    let sheet = Sheet::of(&bytes).expect("256 bytes");
    let rules = |answer: Answer| -> Vec<Rule> {
        Comparison::made(&state, sheet, &answer).iter().map(|c| c.rule).collect()
    };
    assert_eq!(rules(Answer::outcome(1)), [Rule::Order]);
    for outcome in [0, 2, 3, 4] {
        assert_eq!(rules(Answer::outcome(outcome)), [Rule::Order, Rule::Filter]);
    }
    assert_eq!(rules(Answer::refused(10)), []);
}
