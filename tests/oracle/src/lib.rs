//! Documents 01 and 02 once more, in plain Rust and from the documents, to hold the programs and the C
//! calls against. Nothing here is taken from the library: fields are cut out of binary digits, the
//! journal is a list, voltages and energies are signed numbers, sums are made afresh each time, and the
//! formulas of 001 and 002 are worked out in fractions.
//!
//! The tests look for the programs and the archive in the folder that the environment variable
//! REACTIVE_TARGET names, else in the repository's `target`. ORACLE_SEED replaces the seed.

pub mod basic_charge;
pub mod bits;
pub mod book;
pub mod bounds;
pub mod call_lists;
pub mod cases;
pub mod files;
pub mod fraction;
pub mod held;
pub mod low_side;
pub mod month_file;
pub mod quarter;
pub mod random;
pub mod replay;
pub mod right_files;
pub mod statement;
pub mod trial;
