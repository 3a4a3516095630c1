//! The statement of full month files, by the program and by plain Rust, each a whole process.
use crate::clock::{least, timed};
use crate::limits::STATEMENT;
use crate::table::{file_of, Table};
use bench::months::{fullest, month};
use oracle::trial::target;
use std::env;
use std::fs::{self, File};
use std::path::Path;
use std::process::{Command, Stdio};

/// Many, since most of a time is the start of a process, which varies.
const RUNS: usize = 400;

/// Measures both programs on full files of 1, 3 and 8 points.
pub fn measure(table: &mut Table) {
    for points in [1, 3, 8] {
        measure_file(table, points);
    }
}

/// Measures both programs on a file, in turns; each must print what the oracle does.
fn measure_file(table: &mut Table, points: i64) {
    let rust = env::current_exe().expect("this program has a path").with_file_name("plain_statement");
    let input = rust.with_file_name("full.month");
    let ours = target().join("bin/statement");
    let bytes = month(points, fullest(points));
    fs::write(&input, &bytes).expect("the input is written");
    let expected = oracle::statement::text(&bytes);
    let (mut times_of_ours, mut times_of_rust) = (Vec::new(), Vec::new());
    for _ in 0..RUNS {
        let (printed, time) = timed(|| print_of(&ours, &input));
        assert_eq!(printed, expected, "the statement of ours differs");
        times_of_ours.push(time);
        let (printed, time) = timed(|| print_of(&rust, &input));
        assert_eq!(printed, expected, "the statement of plain Rust differs");
        times_of_rust.push(time);
    }
    let what = format!("statement, whole process, {}", file_of(points, fullest(points)));
    table.times(STATEMENT, least(&times_of_ours), least(&times_of_rust), &what);
}

/// What a program prints for a file as its standard input.
fn print_of(program: &Path, input: &Path) -> String {
    let file = File::open(input).expect("the input is there");
    let output = Command::new(program).stdin(file).stderr(Stdio::inherit()).output();
    let output = output.unwrap_or_else(|error| panic!("{}: {error}", program.display()));
    String::from_utf8(output.stdout).expect("text")
}
