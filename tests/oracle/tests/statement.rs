//! The program `statement` against the oracle.
use oracle::files;
use oracle::statement::text;
use oracle::trial::{is_piped, seed, target, Trial};
use std::collections::BTreeMap;

const SEED: u64 = 20_240_201;

/// Every answer that the program can print: `accepted`, or a refusal.
const ANSWERS: [&str; 9] = ["accepted", "1", "2", "3", "4", "5", "6", "9", "12"];

#[test]
fn statement_prints_what_the_oracle_prints() {
    let seed = seed(SEED);
    let cases = files::all(seed);
    let mut answers: BTreeMap<String, usize> = BTreeMap::new();
    for case in &cases {
        let text = text(&case.input);
        let answer = text.trim_end().strip_prefix("refused ").unwrap_or("accepted");
        *answers.entry(answer.to_string()).or_default() += 1;
    }
    for answer in ANSWERS {
        assert!(answers.contains_key(answer), "no file is {answer}");
    }
    assert_eq!(answers.len(), ANSWERS.len(), "{answers:?}");
    let program = target().join("bin/statement");
    Trial { program, scratch: env!("CARGO_TARGET_TMPDIR").into(), seed, expected: text }.run(&cases);
    let piped = (0..cases.len()).filter(|&number| is_piped(number)).count();
    println!(
        "oracle: statement: {} files, {} of them through a pipe, {} refused",
        cases.len(),
        piped,
        cases.len() - answers["accepted"]
    );
}
