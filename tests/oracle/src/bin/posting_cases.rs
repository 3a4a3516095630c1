//! Prints what is due for the cases on standard input: `crates/posting_cases/stdout` of its `stdin`.
use std::io::{read_to_string, stdin};

fn main() {
    print!("{}", oracle::cases::text(&read_to_string(stdin()).expect("a text")));
}
