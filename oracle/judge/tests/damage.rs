//! Each clause of well-formedness, damaged by itself, meets refusal 3.

#[test]
fn each_clause_is_refused() {
    let counts = judge::reading_alone(1..3000).expect("damage is refused as 3");
    for (clause, count) in counts {
        assert!(count >= 10, "{clause:?} was damaged {count} times");
    }
}
