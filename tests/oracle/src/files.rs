//! Month files for the program `statement`: right ones, full ones, and files wrong in every way that
//! document 01 names.
use crate::bounds::*;
use crate::month_file::{Entry, File, Point, ENTRY_SIZE, HEADER_SIZE, POINT_SIZE};
use crate::random::Random;
use crate::right_files::*;
use crate::trial::Case;

const INPUT_MOST: usize = 65_536;

pub fn all(seed: u64) -> Vec<Case> {
    let mut cases = Cases { seed, list: Vec::new() };
    cases.add("the document's example", vec![example().bytes()]);
    cases.add_random("right", 900, |random| right_file(random, 60).bytes());
    cases.add_random("versions", 300, versions);
    cases.add_random("halves of a rappen", 200, half_rappen);
    cases.add("one bit changed", one_bit_changed(&example().bytes()));
    cases.add("one bit changed", one_bit_changed(&four_transformers().bytes()));
    cases.add("cut or longer", other_lengths(&example().bytes()));
    cases.add("bounds of the header", header_bounds());
    cases.add("bounds of a point", point_bounds());
    cases.add("bounds of an entry", entry_bounds());
    cases.add("calendar", calendar());
    cases.add_random("damaged in two places", 800, damaged_twice);
    cases.add_random("noise", 200, noise);
    cases.add_random("full", 24, full);
    cases.add("greatest amounts", greatest_amounts());
    cases.add("totals", vec![two_halves().bytes(), eight_billed().bytes()]);
    cases.add_random("full, one entry wrong", 12, full_with_a_wrong_entry);
    cases.add_random("too long", 24, too_long);
    cases.add(
        "the fullest, and entries more",
        [5_459, 5_460, 5_461, 5_462].map(|count| one_point(count).bytes()).to_vec(),
    );
    cases.add("clock changes", clock_changes());
    cases.list
}

struct Cases {
    seed: u64,
    list: Vec<Case>,
}

impl Cases {
    fn add(&mut self, group: &'static str, inputs: Vec<Vec<u8>>) {
        self.list.extend(inputs.into_iter().map(|input| Case { group, input }));
    }

    fn add_random(&mut self, group: &'static str, count: usize, make: fn(&mut Random) -> Vec<u8>) {
        for _ in 0..count {
            let mut random = Random::of(self.seed, self.list.len() as u64);
            self.list.push(Case { group, input: make(&mut random) });
        }
    }
}

/// Versions of few keys in any order, so that some entry is often refused.
fn versions(random: &mut Random) -> Vec<u8> {
    let mut file = right_file(random, 0);
    for _ in 0..random.between(2, 8) {
        let number = random.index(file.points.len().min(2)) as i64;
        let (quarter, version) = (random.between(0, 1), random.one_of(&[1, 2, 3, 15, 30, 31]));
        let entry = right_entry(random, &file.points, number, quarter, version);
        file.entries.push(entry);
    }
    file.header.entries = file.entries.len() as i64;
    file.bytes()
}

/// Tariff 1 and a band that leaves as many grains over it as make the amount wanted.
fn half_rappen(random: &mut Random) -> Vec<u8> {
    let wanted = 800_000 * random.between(1, 9) + random.between(-2, 2);
    let rest = (1_600 - wanted % 1_600) % 1_600;
    let band = if rest == 0 { 1_600 } else { rest };
    let point = semi_active(random.between(0, 1), 1, 1, &[(1, band)]);
    let energy = (wanted + band) / 1_600;
    let (take, supply) = random.one_of(&[(energy, 0), (0, energy)]);
    let actual = random.one_of(&[20_000, 24_000]);
    let entries = vec![entry([0, 0, 1, 0, take, supply, actual, 22_000])];
    File::new(2024, 2, vec![point], entries).bytes()
}

/// Two changes in one file, so that the order of the numbers shows.
fn damaged_twice(random: &mut Random) -> Vec<u8> {
    let mut bytes = right_file(random, 10).bytes();
    for _ in 0..2 {
        if bytes.is_empty() {
            break;
        }
        let at = random.index(bytes.len());
        let any = random.draw() as u8;
        match random.between(0, 5) {
            0 => bytes.truncate(at),
            1 => bytes.push(any),
            2 => bytes[at] = random.one_of(&[0, 255, any]),
            3 => bytes[at.min(6)] ^= random.one_of(&[1, 2, 4, 8, 16, 32, 64, 128]),
            _ => bytes[at] ^= random.one_of(&[1, 2, 4, 8, 16, 32, 64, 128]),
        }
    }
    bytes
}

/// Bytes of any value, behind nothing, a right opening, a right header, or a right header and points.
fn noise(random: &mut Random) -> Vec<u8> {
    let file = right_file(random, 10).bytes();
    let kept = random.one_of(&[0, 2, HEADER_SIZE, HEADER_SIZE + POINT_SIZE, file.len()]).min(file.len());
    let any = random.index(300);
    let length = random.one_of(&[file.len(), file.len(), any]).max(kept);
    [&file[..kept], &random.bytes(length - kept)[..]].concat()
}

/// As many entries as the input may hold, each key delivered again and again by rising versions.
fn full(random: &mut Random) -> Vec<u8> {
    full_file(random).bytes()
}

fn full_file(random: &mut Random) -> File {
    let count = random.between(1, 8);
    let points: Vec<Point> = (0..count).map(|_| right_point(random)).collect();
    let (year, month) = (random.between(2020, 2099), random.between(1, 12));
    let most = (INPUT_MOST - HEADER_SIZE - POINT_SIZE * points.len()) / ENTRY_SIZE;
    let keys = random.one_of(&[180, 1_000, 2_688, 2_688]);
    let mut entries = Vec::new();
    for index in 0..most as i64 {
        let (key, version) = (index % keys, index / keys + 1);
        entries.push(right_entry(random, &points, key % count, key / count, version));
    }
    File::new(year, month, points, entries)
}

fn full_with_a_wrong_entry(random: &mut Random) -> Vec<u8> {
    let mut file = full_file(random);
    let at = random.one_of(&[0, 1, file.entries.len() / 2, file.entries.len() - 1]);
    let first = Entry { version: 1, ..file.entries[0].clone() };
    let entry = &mut file.entries[at];
    match random.between(0, 3) {
        0 => entry.closing = 1,
        1 => entry.take = 1_000_001,
        2 => entry.quarter = 4_095,
        _ => *entry = first,
    }
    file.bytes()
}

/// Every quarter of the longest month at the greatest energy and tariffs: all debit, then all credit.
fn greatest_amounts() -> Vec<Vec<u8>> {
    let mut files = Vec::new();
    for (take, supply) in [(1_000_000, 0), (0, 1_000_000)] {
        for actual in [0, 50_000] {
            let made = |index: i64| entry([0, index % 2_980, index / 2_980 + 1, 1, take, supply, actual, 25_000]);
            let point = active(0, 100_000, 100_000, 100_000);
            files.push(File::new(2024, 10, vec![point], (0..5_459).map(made).collect()).bytes());
            let point = semi_active(1, 100_000, 100_000, &[(1, 1)]);
            files.push(File::new(2024, 10, vec![point], (0..2_980).map(made).collect()).bytes());
        }
    }
    files
}

/// March and October: their first and last quarters at neighbouring points, and one entry for each quarter about the ends of
/// March, of the other months of 31 days, and of October.
fn clock_changes() -> Vec<Vec<u8>> {
    let mut files = Vec::new();
    for month in [3, 10] {
        files.push(month_ends(month).bytes());
        files.extend((2_970..2_982).map(|quarter| one_quarter(month, quarter).bytes()));
    }
    files
}

/// More bytes than the program takes, whatever they are, and exactly as many as it takes.
fn too_long(random: &mut Random) -> Vec<u8> {
    let length = random.one_of(&[65_536, 65_537, 65_537, 65_538, 65_548, 70_000, 131_072, 300_000]);
    let mut bytes = if random.once_in(2) { full(random) } else { right_file(random, 10).bytes() };
    if random.once_in(4) {
        bytes = random.bytes(7);
    }
    bytes.resize(length, random.one_of(&[0, 255]));
    bytes
}
