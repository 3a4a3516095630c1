//! The most entries that a header can count, with figures as large as they can be: what the two sides give
//! is compared, and not measured.
use crate::ours::{self, Lent};
use crate::table::grouped;
use bench::book::post;
use bench::months::{largest, MOST};
use oracle::month_file::ENTRY_SIZE;

/// The debit of a point at its largest: 2,980 quarters of 1,000,000 kvarh at 100,000 + 100,000.
const DEBIT: i64 = 2_980 * 1_600_000_000 * 200_000;

/// Eight points, so that each figure is at its largest at one of them; and a single point, where the debit of
/// all entries would pass 64 bits and that of those that stand does not.
pub fn compare() {
    for points in [8, 1] {
        let file = largest(points);
        compare_totals(&file);
        compare_refusal(&file);
    }
    let (entries, debit) = (grouped(MOST as u64), grouped(DEBIT as u64));
    println!("Both sides agree on {entries} entries at 8 points and at 1, with debits up to {debit}, and");
    println!("on number 10 for a journal that is one byte too short for them.");
}

/// Every entry is posted, and the totals are the same.
fn compare_totals(file: &[u8]) {
    let mut lent = Lent::of(ENTRY_SIZE * MOST as usize);
    let mut answer = [0; ours::ANSWER_SIZE];
    let number = ours::post_totals(file, &mut lent, 1, &mut answer);
    assert_eq!(number, 0, "the library refuses the largest file");
    let Lent { journal, index } = &mut lent;
    let book = post(file, journal, index).expect("plain Rust takes the file");
    let totals = book.totals(journal, index).expect("the stored sums are right");
    assert_eq!(ours::numbers(&answer), ours::expected(MOST as usize, &totals), "the largest totals differ");
    assert_eq!(totals[0][7], DEBIT, "the debit of the first point");
}

/// The last entry does not fit a journal that is one byte shorter.
fn compare_refusal(file: &[u8]) {
    let mut lent = Lent::of(ENTRY_SIZE * MOST as usize - 1);
    let mut answer = [0; ours::ANSWER_SIZE];
    let number = ours::post_totals(file, &mut lent, 0, &mut answer);
    assert_eq!(Some(number), post(file, &mut lent.journal, &mut lent.index).err(), "the refusals differ");
    assert_eq!(number, 10, "a full journal");
}
