//! How often calls were taken, and by which numbers they were refused: so that a run shows what it reached.
use std::cell::RefCell;
use std::collections::BTreeMap;

thread_local! {
    static SEEN: RefCell<BTreeMap<u64, u64>> = const { RefCell::new(BTreeMap::new()) };
}

/// What a call answered: below zero it is minus the number of a refusal.
pub fn note(got: i64) {
    let number = if got < 0 { got.unsigned_abs() } else { 0 };
    SEEN.with_borrow_mut(|seen| *seen.entry(number).or_default() += 1);
}

/// What was noted since it was asked last.
pub fn told() -> String {
    let seen = SEEN.take();
    let taken = seen.get(&0).copied().unwrap_or(0);
    let refused: Vec<String> = seen.iter().filter(|(&number, _)| number > 0).map(|(number, count)| format!("{number}: {count}")).collect();
    format!("calls taken: {taken}, refused by {}", if refused.is_empty() { "none".to_string() } else { refused.join(", ") })
}
