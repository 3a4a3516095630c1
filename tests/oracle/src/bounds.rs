//! Files one step from a right one: a bit, a byte, or one field at an end of its range.
use crate::bits::{pack, unpack};
use crate::month_file::*;
use crate::right_files::{active, entry, example, semi_active};

pub fn one_bit_changed(bytes: &[u8]) -> Vec<Vec<u8>> {
    let changed = |bit: usize| {
        let mut copy = bytes.to_vec();
        copy[bit / 8] ^= 128 >> (bit % 8);
        copy
    };
    (0..8 * bytes.len()).map(changed).collect()
}

/// Every shorter length, and longer ones up to two entries more.
pub fn other_lengths(bytes: &[u8]) -> Vec<Vec<u8>> {
    let longer = [bytes, &[0; 24]].concat();
    (0..longer.len() + 1).map(|length| longer[..length].to_vec()).collect()
}

/// The file with one field of the record at this byte changed.
fn with_field(bytes: &[u8], start: usize, widths: &[usize], field: usize, value: i64) -> Vec<u8> {
    let end = start + widths.iter().sum::<usize>() / 8;
    let mut fields = unpack(&bytes[start..end], widths);
    fields[field] = value;
    [&bytes[..start], &pack(&fields, widths)[..], &bytes[end..]].concat()
}

/// The ends of a range and their neighbours, and the ends of the field; all values of a short field.
fn about(low: i64, high: i64, width: usize) -> Vec<i64> {
    let most = (1 << width) - 1;
    if width <= 5 {
        return (0..=most).collect();
    }
    let mut values = vec![0, 1, low - 1, low, low + 1, high - 1, high, high + 1, most];
    values.retain(|value| (0..=most).contains(value));
    values.sort();
    values.dedup();
    values
}

pub fn header_bounds() -> Vec<Vec<u8>> {
    let bytes = example().bytes();
    let ranges = [(OPENING, OPENING), (2020, 2099), (1, 12), (1, 8), (0, 65_535)];
    let mut files = Vec::new();
    for (field, (low, high)) in ranges.into_iter().enumerate() {
        for value in about(low, high, HEADER[field]) {
            files.push(with_field(&bytes, 0, &HEADER, field, value));
        }
    }
    files.push(with_field(&bytes, 0, &HEADER, 0, 0x4542));
    // Counts again, with the length that goes with them.
    for points in 0..16 {
        let mut file = File::new(2024, 2, vec![active(0, 1, 2, 3); points as usize], Vec::new());
        file.header.points = points;
        files.push(file.bytes());
    }
    for entries in [0, 1, 2, 5_458, 5_459, 5_460, 5_461, 65_534, 65_535, 65_536, 1_048_575] {
        let mut file = with_field(&bytes[..28], 0, &HEADER, 3, 1);
        file = with_field(&file, 0, &HEADER, 4, entries);
        file.resize(28 + 12 * entries.min(70_000) as usize, 0);
        files.push(file);
    }
    files
}

/// Every bound of every field of a point, in files of each role and count of transformers.
pub fn point_bounds() -> Vec<Vec<u8>> {
    let mut files = Vec::new();
    let transformers = [(4_000, 20_000), (1, 1), (1_200, 1_000), (2, 3)];
    for count in 0..5 {
        let point = if count == 0 { active(0, 5, 6, 7) } else { semi_active(0, 5, 6, &transformers[..count]) };
        // One entry is paid and one billed, so that band and tariffs show in the figures.
        let entries = [[1, 0, 1, 1, 1_000_000, 0, 50_000, 0], [1, 1, 1, 1, 1_000_000, 0, 0, 50_000]];
        let bytes = File::new(2024, 2, vec![active(1, 1, 1, 1), point], entries.map(entry).to_vec()).bytes();
        for (field, &width) in POINT.iter().enumerate() {
            let (low, high) = match width {
                17 => (0, 100_000),
                12 => (1, 4_000),
                16 => (1, 20_000),
                _ => (0, 1),
            };
            files.extend(about(low, high, width).iter().map(|&value| with_field(&bytes, 28, &POINT, field, value)));
        }
        // Role and count together: every pair, over places that only one count fits.
        for (role, stated) in (0..2).flat_map(|role| (0..8).map(move |stated| (role, stated))) {
            let file = with_field(&bytes, 28, &POINT, 0, role);
            files.push(with_field(&with_field(&file, 28, &POINT, 5, 0), 28, &POINT, 2, stated));
        }
    }
    files
}

pub fn entry_bounds() -> Vec<Vec<u8>> {
    let mut files = Vec::new();
    let bytes = example().bytes();
    let start = HEADER_SIZE + 2 * POINT_SIZE;
    for place in 0..4 {
        for (field, &width) in ENTRY.iter().enumerate() {
            let (low, high) = match width {
                12 => (0, quarters(2024, 2) - 1),
                20 => (0, 1_000_000),
                16 => (0, 50_000),
                _ => (0, 1),
            };
            let values = about(low, high, width);
            files.extend(values.iter().map(|&value| with_field(&bytes, start + 12 * place, &ENTRY, field, value)));
        }
    }
    files
}

/// Each month of each year, with its last quarter and with the first that it does not have.
pub fn calendar() -> Vec<Vec<u8>> {
    let mut files = Vec::new();
    for (year, month) in (2020..2100).flat_map(|year| (1..13).map(move |month| (year, month))) {
        for past in 0..2 {
            let quarter = quarters(year, month) - 1 + past;
            let entries = vec![entry([0, quarter, 1, 1, year, month, 22_000, 22_000])];
            files.push(File::new(year, month, vec![active(0, 1_000, 1_000, 0)], entries).bytes());
        }
    }
    files
}
