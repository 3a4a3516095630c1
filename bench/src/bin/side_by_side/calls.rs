//! Post and totals in one process, on full files of 1, 3 and 8 points and on journals of growing length.
use crate::clock::{least, timed};
use crate::limits::{POST, POST_GROWTH, TOTALS, TOTALS_GROWTH};
use crate::ours::{self, Lent};
use crate::table::{file_of, Table};
use bench::book::{post, Book};
use bench::months::{fullest, month};
use oracle::month_file::ENTRY_SIZE;
use std::hint::black_box;

/// Points and entries of each file.
const FILES: [(i64, i64); 6] = [(1, fullest(1)), (3, fullest(3)), (8, fullest(8)), (8, 600), (8, 6_000), (8, 60_000)];

/// In each run every file has its turn on both sides, so that a machine whose speed changes is fast for all of them.
const RUNS: usize = 150;

/// About how many entries are posted, or gone through by totals, in one time: a short time is more likely to be
/// undisturbed, and in a long one the post that is taken off weighs less.
const ENTRIES: i64 = 120_000;

/// A file, what is lent for it, and the times of both sides on it.
struct Measured {
    points: i64,
    entries: i64,
    file: Vec<u8>,
    lent: Lent,
    ours: Times,
    rust: Times,
}

/// The times of one side, a run each: of so many posts, and of one post with as many calls of totals.
struct Times {
    rounds: u32,
    posts: Vec<f64>,
    totals: Vec<f64>,
}

/// Measures both sides on all files. The growths are of the same times. Opening, which zeroes the index, is within
/// post, and weighs more on 600 entries than on 60,000.
pub fn measure(table: &mut Table) {
    let mut files = FILES.map(|(points, entries)| Measured::of(points, entries));
    for _ in 0..RUNS {
        files.iter_mut().for_each(Measured::run);
    }
    files.iter().for_each(|file| file.print(table));
    let [_, _, _, few, some, many] = &files;
    let growth = many.for_each_entry(many.ours.post()) / few.for_each_entry(few.ours.post());
    table.growth(POST_GROWTH, growth, "post of 60,000 entries / post of 600, for each entry, ours");
    let growth = many.ours.totals() / some.ours.totals();
    table.growth(TOTALS_GROWTH, growth, "totals on 60,000 entries / totals on 6,000, ours");
}

impl Measured {
    /// A file of so many points and entries, not measured yet.
    fn of(points: i64, entries: i64) -> Measured {
        let rounds = (ENTRIES / entries) as u32;
        Measured {
            points,
            entries,
            file: month(points, entries),
            lent: Lent::of(ENTRY_SIZE * entries as usize),
            ours: Times::of(rounds),
            rust: Times::of(rounds),
        }
    }

    /// Measures both sides once, and compares what they give.
    fn run(&mut self) {
        let found = run_ours(&self.file, &mut self.lent, &mut self.ours);
        let expected = run_rust(&self.file, &mut self.lent, &mut self.rust);
        assert_eq!(found, expected, "the totals of {} differ", file_of(self.points, self.entries));
    }

    /// The lines of this file.
    fn print(&self, table: &mut Table) {
        let name = file_of(self.points, self.entries);
        let [ours, rust] = [&self.ours, &self.rust].map(|times| self.for_each_entry(times.post()));
        table.times(POST, ours, rust, &format!("post, {name}"));
        let [ours, rust] = [&self.ours, &self.rust].map(|times| self.for_each_entry(times.totals()));
        table.times(TOTALS, ours, rust, &format!("totals, {name}"));
    }

    /// The time of a call for each entry.
    fn for_each_entry(&self, time: f64) -> f64 {
        time / self.entries as f64
    }
}

impl Times {
    /// None yet.
    fn of(rounds: u32) -> Times {
        Times { rounds, posts: Vec::new(), totals: Vec::new() }
    }

    /// What a post takes.
    fn post(&self) -> f64 {
        least(&self.posts) / f64::from(self.rounds)
    }

    /// What a call of totals takes. The archive has no call of totals alone: their time is what a post with so many of
    /// them takes longer than one with none.
    fn totals(&self) -> f64 {
        (least(&self.totals) - self.post()) / f64::from(self.rounds)
    }
}

/// Measures the library, and gives the numbers of its last answer.
fn run_ours(file: &[u8], lent: &mut Lent, times: &mut Times) -> Vec<i64> {
    let mut answer = [0; ours::ANSWER_SIZE];
    let (posted, posts) = timed(|| (0..times.rounds).map(|_| ours::post_totals(file, lent, 0, &mut answer)).max());
    let (again, totals) = timed(|| ours::post_totals(file, lent, times.rounds, &mut answer));
    assert_eq!((posted, again), (Some(0), 0), "the library refuses the file");
    times.posts.push(posts);
    times.totals.push(totals);
    ours::numbers(&answer)
}

/// Measures plain Rust in the same way, and gives the same numbers.
fn run_rust(file: &[u8], lent: &mut Lent, times: &mut Times) -> Vec<i64> {
    let (posted, posts) = timed(|| (0..times.rounds).all(|_| black_box(posted(file, lent)).is_ok()));
    assert!(posted, "plain Rust refuses the file");
    let (numbers, totals) = timed(|| post_totals(file, lent, times.rounds));
    times.posts.push(posts);
    times.totals.push(totals);
    numbers
}

/// Posts the file in plain Rust, then calls totals so many times, and gives the numbers of the last call.
fn post_totals(file: &[u8], lent: &mut Lent, rounds: u32) -> Vec<i64> {
    let book = posted(file, lent).expect("plain Rust takes the file");
    let mut totals = None;
    for _ in 0..rounds {
        totals = Some(black_box(black_box(&book).totals(&lent.journal, &lent.index)));
    }
    let totals = totals.expect("a round").expect("the stored sums are right");
    ours::expected(book.length, &totals)
}

/// The file posted in plain Rust, anew at each call.
fn posted(file: &[u8], lent: &mut Lent) -> Result<Book, u32> {
    post(black_box(file), &mut lent.journal, &mut lent.index)
}
