//! Prints what is due for the cases on standard input: `crates/low_side_cases/stdout` of its `stdin`.
use std::io::{read_to_string, stdin};

fn main() {
    print!("{}", oracle::low_side::text(&read_to_string(stdin()).expect("a text")));
}
