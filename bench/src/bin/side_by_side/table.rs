//! The lines printed: the ratio, its limit, the figure of each side, and what was measured.
use crate::limits::Limit;
use std::process::ExitCode;

/// The table, as far as it is printed: the lines whose ratio misses its limit.
#[derive(Default)]
pub struct Table {
    missed: Vec<String>,
}

impl Table {
    /// A table that begins with what its columns are.
    pub fn begun() -> Table {
        println!(
            "Ratio: time of ours / time of plain Rust, so that above 1 ours takes longer. Both built for release."
        );
        println!("The last two ratios are of ours alone, each at two sizes. Times are the least of many runs in turn.");
        println!(
            "Post and totals are for each entry, without the process. Both sides find the entry that stands by the"
        );
        println!("index, and at totals both go through the journal again and compare sums and index (number 7).");
        println!("{:>7}  {:<11}  {:>9}  {:>9}", "ratio", "limit", "ours", "Rust");
        Table::default()
    }

    /// A line of two times in seconds.
    pub fn times(&mut self, limit: Limit, ours: f64, rust: f64, what: &str) {
        self.line(ours / rust, limit, &duration(ours), &duration(rust), what);
    }

    /// A line of a ratio alone.
    pub fn growth(&mut self, limit: Limit, ratio: f64, what: &str) {
        self.line(ratio, limit, "", "", what);
    }

    /// A line of the table.
    fn line(&mut self, ratio: f64, limit: Limit, ours: &str, rust: &str, what: &str) {
        println!("{ratio:>7.2}  {:<11}  {ours:>9}  {rust:>9}  {what}", limit.to_string());
        if !limit.allows(ratio) {
            self.missed.push(format!("{what}: {ratio:.3}, and the limit is {limit}"));
        }
    }

    /// Names every limit that is missed, and fails if one is.
    pub fn verdict(&self) -> ExitCode {
        for line in &self.missed {
            eprintln!("Limit missed: {line}");
        }
        if self.missed.is_empty() {
            ExitCode::SUCCESS
        } else {
            ExitCode::FAILURE
        }
    }
}

/// A month file, as a line names it.
pub fn file_of(points: i64, entries: i64) -> String {
    let plural = if points == 1 { "" } else { "s" };
    format!("{points} point{plural}, {} entries", grouped(entries as u64))
}

/// Seconds in the unit that suits them.
fn duration(seconds: f64) -> String {
    match seconds {
        s if s >= 1.0 => format!("{s:.2} s"),
        s if s >= 1e-3 => format!("{:.3} ms", s * 1e3),
        s if s >= 1e-6 => format!("{:.1} µs", s * 1e6),
        s => format!("{:.1} ns", s * 1e9),
    }
}

/// A number with a comma at each thousand.
pub fn grouped(number: u64) -> String {
    let digits = number.to_string();
    let groups = digits.as_bytes().rchunks(3).rev();
    groups.map(String::from_utf8_lossy).collect::<Vec<_>>().join(",")
}
