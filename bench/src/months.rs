//! The month files that are measured and compared.
use oracle::month_file::{quarters, Entry, File, Point, ENTRY_SIZE, HEADER_SIZE, POINT_SIZE};
use oracle::random::Random;
use oracle::right_files::{active, entry, right_entry, semi_active};

const SEED: u64 = 20_240_101;
const YEAR: i64 = 2024;
/// October, the longest month.
const MONTH: i64 = 10;

/// Prime to the count of keys, so that neighbours in the file are far apart in the month.
const STRIDE: i64 = 7_919;

/// Bytes of the longest input that the program takes.
const LONGEST: usize = 65_536;

/// The most entries that a header can count.
pub const MOST: i64 = 65_535;

/// How many entries a full file of so many points has: as many as fit the longest input.
pub const fn fullest(points: i64) -> i64 {
    ((LONGEST - HEADER_SIZE - POINT_SIZE * points as usize) / ENTRY_SIZE) as i64
}

/// A file of so many points, at most 8, and so many entries.
pub fn month(points: i64, count: i64) -> Vec<u8> {
    let mut random = Random::of(SEED, count as u64);
    let records: Vec<Point> = (0..points).map(point).collect();
    let mut entries = Vec::new();
    for index in 0..count {
        let [point, quarter, version] = key_and_version(index, points);
        entries.push(right_entry(&mut random, &records, point, quarter, version));
    }
    File::new(YEAR, MONTH, records, entries).bytes()
}

/// A file of so many points, at most 8, and the most entries, each with figures as large as they can be.
pub fn largest(count: i64) -> Vec<u8> {
    let mut points = vec![active(0, 100_000, 100_000, 100_000); 7];
    points.push(semi_active(0, 100_000, 100_000, &[(4_000, 20_000); 4]));
    points.truncate(count as usize);
    let entries = (0..MOST).map(|index| largest_entry(key_and_version(index, count)));
    File::new(YEAR, MONTH, points, entries.collect()).bytes()
}

/// 1,000,000 kvarh supplied at a set voltage of 22000: point after point billed, paid, free and
/// disconnected. The semi-active eighth point has the widest band as allowance, and the rest paid.
fn largest_entry([point, quarter, version]: [i64; 3]) -> Entry {
    let (lamp, actual) = [(1, 50_000), (1, 0), (1, 22_100), (0, 0)][point as usize % 4];
    entry([point, quarter, version, lamp, 0, 1_000_000, actual, 22_000])
}

/// Point, quarter and version of the entry at an index. Every point and quarter comes once before any comes
/// again, with the next version: the case in which a search from the journal's end would have furthest to go.
fn key_and_version(index: i64, points: i64) -> [i64; 3] {
    let last = quarters(YEAR, MONTH);
    let key = index * STRIDE % (points * last);
    [key / last, key % last, index / (points * last) + 1]
}

/// Active and semi-active points in turn, on both levels, with one to four transformers.
fn point(number: i64) -> Point {
    let level = number / 2 % 2;
    if number % 2 == 0 {
        return active(level, 300, 1_000, 500);
    }
    let transformers = [(1_200, 1_000), (900, 4_000), (1_500, 6_000), (1_100, 2_500)];
    semi_active(level, 300, 1_000, &transformers[..=number as usize / 2])
}
