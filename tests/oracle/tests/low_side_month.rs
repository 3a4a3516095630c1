//! What the low side gives (02, Ticket 2) in the entries of a month, through the programs `replay` and `statement`.
mod low_side_call;

use low_side_call::call;
use oracle::book::POINT_PLACES;
use oracle::call_lists::{start, TOTALS};
use oracle::low_side::{HighSide, LowSide};
use oracle::month_file::{Entry, File};
use oracle::right_files::{active, entry, semi_active};
use oracle::trial::{target, Case, Trial};
use oracle::{replay, statement};

const SEED: u64 = 20_240_205;

/// Take and supply as the call gives them and as the oracle does.
fn converted(numbers: [i64; 6]) -> (i64, i64) {
    let mut words = [0; 5];
    let number = call(numbers, &mut words, [1, 3]);
    let [_, take, _, supply, _] = words;
    assert_eq!(HighSide { number, take, supply }, LowSide::of(numbers).high_side());
    (take.into(), supply.into())
}

/// For both entries 12,000 kW and 16,000 kvar are 20,000 kVA, half of Sn. uR is 2,000 kW of 40,000 kVA, 5 %, so that
/// uk, 13 %, leaves 12 %. A quarter of it and i0, 0.5 %, are 3.5 % of Sn: 1,400 kvar, in a quarter-hour 350 kvarh.
fn converted_entries() -> [Entry; 2] {
    // -4,000 + 350 = -3,650: supply.
    let (take, supply) = converted([3_000, 4_000, 400, 1_300, 50, 2_000]);
    let first = entry([0, 0, 1, 1, take, supply, 22_050, 22_000]);
    // 4,000 + 350 = 4,350: take.
    let (take, supply) = converted([3_000, -4_000, 400, 1_300, 50, 2_000]);
    [first, entry([1, 0, 1, 0, take, supply, 38_199, 38_500])]
}

/// 3,650 kvarh are 5,840,000 grains: paid, at 300. 4,350 kvarh are 6,960,000 grains: 1,200,000 of allowance, and
/// 5,760,000 billed, at 1,000.
const REPLAYED: &str = "\
open 0
deliver 0
deliver 0
totals 0 2
0 5840000 5840000 0 0 0 0 1752000000 0
1 6960000 0 0 5760000 1200000 0 0 5760000000
2 0 0 0 0 0 0 0 0
3 0 0 0 0 0 0 0 0
4 0 0 0 0 0 0 0 0
5 0 0 0 0 0 0 0 0
6 0 0 0 0 0 0 0 0
7 0 0 0 0 0 0 0 0
";

/// 1,752,000,000 and 5,760,000,000 over 1,600,000 are 1,095 and 3,600 rappen.
const SETTLED: &str = "\
2024-02 2784 2
0 5840000 5840000 0 0 0 0 1095 0
1 6960000 0 0 5760000 1200000 0 0 3600
total 12800000 5840000 0 5760000 1200000 0 1095 3600
";

/// From a file and through a pipe.
fn try_twice(program: &str, input: Vec<u8>, expected: fn(&[u8]) -> String) {
    let program = target().join("bin").join(program);
    let cases = [input.clone(), input].map(|input| Case { group: "low side", input });
    Trial { program, scratch: env!("CARGO_TARGET_TMPDIR").into(), seed: SEED, expected }.run(&cases);
}

#[test]
fn converted_energy_is_delivered_and_settled() {
    let entries = converted_entries();
    let points = vec![active(0, 300, 1_000, 500), semi_active(1, 300, 1_000, &[(1_200, 1_000)])];
    let opened = File::new(2024, 2, points.clone(), Vec::new()).bytes();
    let mut calls = start(&opened, 24, 2 * POINT_PLACES);
    for entry in &entries {
        calls.extend([&[0, 12], &entry.bytes()[..]].concat());
    }
    calls.push(TOTALS);
    assert_eq!(replay::text(&calls), REPLAYED);
    try_twice("replay", calls, replay::text);
    let month = File::new(2024, 2, points, entries.to_vec()).bytes();
    assert_eq!(statement::text(&month), SETTLED);
    try_twice("statement", month, statement::text);
    println!("oracle: low side in a month: {} entries delivered and settled", entries.len());
}
