//! Month files that are posted in full, and the records they are made of.
use crate::month_file::*;
use crate::random::Random;
use std::collections::HashMap;

pub fn active(level: i64, payment: i64, billing: i64, penalty: i64) -> Point {
    let places = [Transformer::default(); 4];
    Point { role: ACTIVE, level, transformers: 0, payment, billing, penalty, places }
}

pub fn semi_active(level: i64, payment: i64, billing: i64, transformers: &[(i64, i64)]) -> Point {
    let mut point = active(level, payment, billing, 0);
    point.role = SEMI_ACTIVE;
    point.transformers = transformers.len() as i64;
    for (place, &(uk, sn)) in point.places.iter_mut().zip(transformers) {
        *place = Transformer { uk, sn };
    }
    point
}

/// Point, quarter, version, lamp, take, supply, actual and set voltage.
pub fn entry(f: [i64; 8]) -> Entry {
    let [point, quarter, version, lamp, take, supply, actual, set] = f;
    Entry { point, quarter, version, lamp, take, supply, actual, set, closing: 0 }
}

/// February 2024 of document 01.
pub fn example() -> File {
    let points = vec![active(0, 300, 1000, 500), semi_active(1, 300, 1000, &[(1200, 1000)])];
    let entries = [
        [0, 0, 1, 1, 0, 2000, 22050, 22000],
        [0, 1, 1, 1, 0, 1000, 22200, 22000],
        [1, 0, 1, 0, 1750, 0, 38200, 38500],
        [1, 0, 2, 0, 1750, 0, 38199, 38500],
    ];
    File::new(2024, 2, points, entries.map(entry).to_vec())
}

/// Two points, each with a credit of half a rappen.
pub fn two_halves() -> File {
    let entries = [[0, 0, 1, 1, 500, 0, 22_000, 22_000], [1, 0, 1, 1, 500, 0, 22_000, 22_000]];
    File::new(2024, 2, vec![active(0, 1, 0, 0); 2], entries.map(entry).to_vec())
}

/// Eight points at the highest tariffs, and as many entries as 65,536 bytes hold, each of the most energy and
/// billed.
pub fn eight_billed() -> File {
    let made = |index: i64| entry([index % 8, index / 8, 1, 1, 1_000_000, 0, 0, 25_000]);
    File::new(2024, 1, vec![active(0, 100_000, 100_000, 100_000); 8], (0..5_446).map(made).collect())
}

/// One point and so many entries: each quarter-hour of January 2024, and again as version 2. 5,459 make 65,536 bytes.
pub fn one_point(count: i64) -> File {
    let made = |index: i64| entry([0, index % 2_976, index / 2_976 + 1, 1, 0, 1_000, 22_050, 22_000]);
    File::new(2024, 1, vec![active(0, 300, 1_000, 500)], (0..count).map(made).collect())
}

/// A month of 2024 at one point, with 1,000 kvarh supplied in one quarter, paid at a tariff of 300.
pub fn one_quarter(month: i64, quarter: i64) -> File {
    let supplied = entry([0, quarter, 1, 1, 0, 1_000, 22_050, 22_000]);
    File::new(2024, month, vec![active(0, 300, 1_000, 500)], vec![supplied])
}

/// A month of 2024 at eight points: the first four quarters of each and the last four, each with an energy of its own.
pub fn month_ends(month: i64) -> File {
    let past = quarters(2024, month);
    let mut entries = Vec::new();
    for (place, quarter) in (0..4).chain(past - 4..past).enumerate() {
        let energy = |point: i64| 100 * (point + 1) + place as i64;
        entries.extend((0..8).map(|point| entry([point, quarter, 1, 1, 0, energy(point), 22_050, 22_000])));
    }
    File::new(2024, month, vec![active(0, 300, 1_000, 500); 8], entries)
}

pub fn four_transformers() -> File {
    let point = semi_active(0, 99_999, 100_000, &[(4000, 20_000), (1, 1), (1200, 1), (3999, 19_999)]);
    let entries = [
        [0, 2879, 30, 1, 1_000_000, 0, 50_000, 0],
        [0, 2879, 31, 0, 0, 1_000_000, 0, 50_000],
        [0, 1, 1, 0, 999_999, 1, 22_000, 22_201],
    ];
    File::new(2099, 11, vec![point], entries.map(entry).to_vec())
}

pub fn right_point(random: &mut Random) -> Point {
    let level = random.between(0, 1);
    let (payment, billing, penalty) = (tariff(random), tariff(random), tariff(random));
    if random.once_in(2) {
        return active(level, payment, billing, penalty);
    }
    let count = random.between(1, 4);
    let transformers: Vec<_> = (0..count).map(|_| transformer(random)).collect();
    semi_active(level, payment, billing, &transformers)
}

fn tariff(random: &mut Random) -> i64 {
    let any = random.between(0, 100_000);
    random.one_of(&[0, 1, 300, 99_999, 100_000, any, any, any])
}

fn transformer(random: &mut Random) -> (i64, i64) {
    let (uk, sn) = (random.between(1, 4_000), random.between(1, 20_000));
    (random.one_of(&[1, 4_000, 1_200, uk, uk]), random.one_of(&[1, 20_000, 1_000, sn, sn]))
}

/// A right entry for this point, with energies about the band and voltages about every margin.
pub fn right_entry(random: &mut Random, points: &[Point], number: i64, quarter: i64, version: i64) -> Entry {
    let band = points.get(number as usize).map_or(0, Point::band) / 1_600;
    let about = (band + random.between(-1, 2)).clamp(0, 1_000_000);
    let any = random.between(0, 1_000_000);
    let energy = random.one_of(&[0, 1, about, about, any, any, 1_000_000]);
    let any = random.between(0, 1_000_000);
    let other = random.one_of(&[0, 0, 0, energy, any]);
    let (take, supply) = if random.once_in(2) { (energy, other) } else { (other, energy) };
    let (actual, set) = voltages(random);
    entry([number, quarter, version, random.between(0, 1), take, supply, actual, set])
}

pub fn voltages(random: &mut Random) -> (i64, i64) {
    let any = random.between(0, 50_000);
    let set = random.one_of(&[0, 50, 150, 22_000, 38_500, 49_900, 50_000, any, any, any]);
    let margin = random.one_of(&[-300, -200, -100, 0, 100, 200, 300]) + random.between(-1, 1);
    let any = random.between(-50_000, 50_000);
    let apart = random.one_of(&[margin, margin, margin, any]);
    ((set + apart).clamp(0, 50_000), set)
}

/// A file that is posted in full, with at most so many entries.
pub fn right_file(random: &mut Random, most: i64) -> File {
    let (year, month) = (random.between(2020, 2099), random.between(1, 12));
    let points: Vec<Point> = (0..random.between(1, 8)).map(|_| right_point(random)).collect();
    let last = quarters(year, month) - 1;
    let pool: Vec<i64> = (0..random.between(1, 12)).map(|_| random.between(0, last)).chain([0, last]).collect();
    let mut versions: HashMap<(i64, i64), i64> = HashMap::new();
    let mut entries = Vec::new();
    for _ in 0..random.between(0, most) {
        let key = (random.index(points.len()) as i64, random.one_of(&pool));
        let standing = versions.get(&key).copied().unwrap_or(0);
        let version = standing + random.one_of(&[1, 1, 1, 2, 5]);
        if version <= 31 {
            versions.insert(key, version);
            entries.push(right_entry(random, &points, key.0, key.1, version));
        }
    }
    File::new(year, month, points, entries)
}
