//! Prints how long the library and plain Rust take for the same work, in one run and on the same files.
//!
//! Both sides are built for release (`rt` compiles at -O3 and all crates at once, cargo with its release profile and
//! with optimising across crates). Times are the least of many runs in which the two sides take turns. What the two
//! sides give is compared in every run, and a difference ends the measuring. The limits (`limits`) are judged when the
//! whole table is printed.
//!
//! Statement: a whole process each, with what Rust and the library do to start it, on full files of 1, 3 and 8 points:
//! as many entries as the longest input holds. At 1 point nearly half of them are corrections, at 3 and 8 none.
//!
//! Post: opening the file and delivering each entry, in one process, on the same files and on journals of 600, 6,000
//! and 60,000 entries at 8 points. Journal and index are lent to both sides, made outside the time and not cleared
//! between runs; post zeroes the index. Both find the entry that stands by the index, in one step. Plain Rust keeps the
//! stored sums up to date at each delivery; the library sums what stands once, behind the last one.
//!
//! Totals, on the same files: both sides go through the journal as if each entry were delivered again, and compare
//! what that gives with the index and the stored sums (number 7). The library tests month and points too. It works out
//! the figures of the entries that the index names, plain Rust those of each entry and of what it replaces.
//!
//! The most entries and the largest sums are compared at the end, and not measured.
mod calls;
mod clock;
mod largest;
mod limits;
mod ours;
mod programs;
mod table;

use std::process::ExitCode;
use table::Table;

/// Prints the table, and fails where a ratio misses its limit.
fn main() -> ExitCode {
    let mut table = Table::begun();
    programs::measure(&mut table);
    calls::measure(&mut table);
    largest::compare();
    table.verdict()
}
