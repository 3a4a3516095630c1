//! Prints the statement of the month file on standard input, as the program `statement` does.
use bench::statement::text;
use std::io::{self, Read, Write};

/// One byte more than a month file may have: that many show that it is too long.
const MOST: usize = 65_537;

/// Reads all, and prints the text.
fn main() -> io::Result<()> {
    let mut input = Vec::with_capacity(MOST);
    io::stdin().lock().take(MOST as u64).read_to_end(&mut input)?;
    io::stdout().lock().write_all(text(&input).as_bytes())
}
