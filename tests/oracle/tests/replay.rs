//! The program `replay` against the oracle.
use oracle::call_lists;
use oracle::replay::text;
use oracle::trial::{seed, target, Trial};
use std::collections::BTreeSet;

const SEED: u64 = 20_240_202;

const CALLS: [&str; 4] = ["deliver ", "take_back ", "close ", "totals "];

/// Every answer that an input can get, 7 excepted, which no book so made gets, and each limit of the program.
const ANSWERS: [&str; 23] = [
    "open 0",
    "open 1",
    "open 2",
    "open 3",
    "open 4",
    "open 17",
    "deliver 0",
    "deliver 5",
    "deliver 6",
    "deliver 8",
    "deliver 9",
    "deliver 10",
    "take_back 0",
    "take_back 8",
    "take_back 11",
    "close 0",
    "close 8",
    "totals 0 0",
    "input too short",
    "input too long",
    "journal too long",
    "index too long",
    "answers too long",
];

#[test]
fn replay_prints_what_the_oracle_prints() {
    let seed = seed(SEED);
    let cases = call_lists::all(seed);
    let (mut calls, mut refused, mut longest) = (0, 0, 0);
    let mut answers: BTreeSet<String> = BTreeSet::new();
    for case in &cases {
        for line in text(&case.input).lines().filter(|line| line.starts_with(char::is_alphabetic)) {
            let is_call = CALLS.iter().any(|name| line.starts_with(name));
            calls += usize::from(is_call);
            refused += usize::from(is_call && line.split(' ').nth(1) != Some("0"));
            longest = longest.max(line.strip_prefix("totals 0 ").map_or(0, |length| length.parse().expect("a length")));
            answers.insert(line.to_string());
        }
    }
    for answer in ANSWERS {
        assert!(answers.contains(answer), "no call answers {answer}");
    }
    assert!(longest > 200, "the longest journal has {longest} entries");
    let program = target().join("bin/replay");
    Trial { program, scratch: env!("CARGO_TARGET_TMPDIR").into(), seed, expected: text }.run(&cases);
    println!("oracle: replay: {} lists of {calls} calls, {refused} refused", cases.len());
}
