//! The answers that the programs `book_cases`, `posting_cases` and `low_side_cases` are held to against those of
//! the oracle, case by case.
use oracle::{cases, low_side};
use std::fs::read_to_string;
use std::path::Path;

/// Every answer that a call on a book can get.
const ANSWERS: [&str; 26] = [
    "open 0",
    "open 1",
    "open 2",
    "open 3",
    "open 4",
    "open 17",
    "deliver 0",
    "deliver 5",
    "deliver 6",
    "deliver 7",
    "deliver 8",
    "deliver 9",
    "deliver 10",
    "deliver 17",
    "take-back 0",
    "take-back 7",
    "take-back 8",
    "take-back 11",
    "take-back 17",
    "close 0",
    "close 7",
    "close 8",
    "close 17",
    "totals 0",
    "totals 7",
    "totals 17",
];

/// Every answer of post, with the index beside it, and of write.
const POSTING_ANSWERS: [&str; 21] = [
    "post 0 0",
    "post 1 0",
    "post 2 0",
    "post 3 0",
    "post 4 0",
    "post 5 0",
    "post 5 1",
    "post 5 3",
    "post 6 0",
    "post 6 2",
    "post 6 3",
    "post 9 1",
    "post 9 3",
    "post 10 0",
    "post 10 1",
    "post 10 3",
    "post 17 0",
    "write 0 97",
    "write 7 0",
    "write 13 0",
    "write 17 0",
];

/// Every number of the low side, the first beside take, supply and neither.
const LOW_SIDE_ANSWERS: [&str; 5] = ["0 4350 0", "0 0 3650", "0 0 0", "14 0 0", "15 0 0"];

#[test]
fn stored_answers_are_as_the_oracle_has_them() {
    compare("book_cases", cases::text, &ANSWERS);
    compare("posting_cases", cases::text, &POSTING_ANSWERS);
    compare("low_side_cases", low_side::text, &LOW_SIDE_ANSWERS);
}

/// Compares the stored answers of a program with those due for its text, and finds each answer in a case.
fn compare(program: &str, text: fn(&str) -> String, answers: &[&str]) {
    let folder = Path::new(env!("CARGO_MANIFEST_DIR")).join("../../crates").join(program);
    let read = |name: &str| read_to_string(folder.join(name)).unwrap_or_else(|error| panic!("{name}: {error}"));
    let due = text(&read("stdin"));
    let stored = read("stdout");
    for (line, (due, stored)) in due.lines().zip(stored.lines()).enumerate() {
        assert_eq!(stored, due, "line {} of crates/{program}/stdout", line + 1);
    }
    assert!(stored == due, "crates/{program}/stdout has other lines than the cases of stdin");
    assert!(!due.contains('?'), "a command that is none");
    for answer in answers {
        let answered = format!(" {answer} ");
        assert!(due.lines().any(|line| format!(" {line} ").contains(&answered)), "no call answers {answer}");
    }
    println!("oracle: {program}: {} cases", due.lines().count());
}
