//! The classification against the oracle: the archive of the crate `reactive_c`, called as C calls it.
use oracle::quarter::{c_call, Quarter};
use oracle::random::Random;
use oracle::right_files::voltages;
use oracle::trial::{hex, seed};

const SEED: u64 = 20_240_203;
const COUNT: usize = 400_000;

/// The slice lies in the middle of a buffer, so that a byte written outside it shows.
const MARGIN: usize = 16;
const LENGTHS: [usize; 5] = [0, 39, 40, 41, 64];
const BUFFER: usize = MARGIN + 64 + MARGIN;

#[link(name = "reactive", kind = "static")]
extern "C" {
    fn reactive_classify(
        role: u32,
        level: u32,
        band: u32,
        lamp: u32,
        take: u32,
        supply: u32,
        actual: u32,
        set: u32,
        shares: *mut u8,
        shares_len: usize,
    ) -> u32;
}

fn call(a: [u32; 8], slice: &mut [u8]) -> u32 {
    let (shares, length) = (slice.as_mut_ptr(), slice.len());
    // The pointer and the length are those of one slice, which nothing else holds.
    unsafe { reactive_classify(a[0], a[1], a[2], a[3], a[4], a[5], a[6], a[7], shares, length) }
}

fn quarter(arguments: [u32; 8]) -> Quarter {
    let [role, level, band, lamp, take, supply, actual, set] = arguments.map(i64::from);
    Quarter { role, level, band, lamp, take, supply, actual, set }
}

/// Arguments within their ranges, with energies about the band and voltages about the margins.
fn right(random: &mut Random) -> [u32; 8] {
    let role = random.between(0, 1);
    let any = random.between(1, 320_000_000);
    let band = role * random.one_of(&[1, 1_599, 1_600, 1_601, 1_200_000, 319_999_999, 320_000_000, any, any, any]);
    let about = band / 1_600 + random.between(-1, 1);
    let (any, other) = (random.between(0, 1_000_000), random.between(0, 1_000_000));
    let energy = random.one_of(&[0, 1, about.max(0), about.max(0), any, 999_999, 1_000_000]);
    let second = random.one_of(&[0, 0, energy, other, (other - energy).max(0)]);
    let (take, supply) = random.one_of(&[(energy, second), (second, energy)]);
    let (actual, set) = voltages(random);
    let (level, lamp) = (random.between(0, 1), random.between(0, 1));
    [role, level, band, lamp, take, supply, actual, set].map(|number| number as u32)
}

/// One or two arguments out of range, or at the end of it; some are right if cut to fewer bits.
fn spoil(random: &mut Random, arguments: &mut [u32; 8]) {
    for _ in 0..random.between(1, 2) {
        let at = random.index(8);
        let end = [1, 1, 320_000_000, 1, 1_000_000, 1_000_000, 50_000, 50_000][at];
        let wide = arguments[at].wrapping_add(1 << random.between(8, 31));
        let any = random.draw() as u32;
        arguments[at] = random.one_of(&[0, 1, 2, end - 1, end, end + 1, wide, any, 1 << 31, u32::MAX]);
    }
}

/// Every end of every range, over each slice, with all other arguments right.
fn ends() -> Vec<([u32; 8], usize)> {
    let ends = [1, 1, 320_000_000, 1, 1_000_000, 1_000_000, 50_000, 50_000];
    let mut list = Vec::new();
    for base in [[0, 0, 0, 1, 1_000, 0, 21_901, 22_000], [1, 1, 1_200_000, 0, 0, 751, 38_199, 38_500]] {
        for at in 0..8 {
            for value in [0, 1, 2, ends[at] - 1, ends[at], ends[at] + 1, 1 << 31, u32::MAX] {
                let mut arguments = base;
                arguments[at] = value;
                list.extend(LENGTHS.map(|length| (arguments, length)));
            }
        }
    }
    list
}

/// Calls both on the same bytes, and gives the number if number and bytes agree.
fn compare(arguments: [u32; 8], length: usize, fill: &[u8]) -> Result<u32, String> {
    let slice = MARGIN..MARGIN + length;
    let (mut expected, mut found) = (fill.to_vec(), fill.to_vec());
    let number = c_call(&quarter(arguments), &mut expected[slice.clone()]);
    let answer = call(arguments, &mut found[slice]);
    if answer == number && found == expected {
        return Ok(number);
    }
    Err(format!(
        "arguments {arguments:?}, slice of {length} bytes in the middle of\n{}\nexpected {number}\n{}\nanswered {answer}\n{}",
        hex(fill),
        hex(&expected),
        hex(&found)
    ))
}

#[test]
fn c_call_answers_what_the_oracle_answers() {
    let seed = seed(SEED);
    let ends = ends();
    let (mut accepted, mut out_of_range, mut too_short) = (0, 0, 0);
    for case in 0..COUNT {
        let mut random = Random::of(seed, case as u64);
        let fill = random.bytes(BUFFER);
        let (arguments, length) = ends.get(case).copied().unwrap_or_else(|| {
            let mut arguments = right(&mut random);
            if random.once_in(3) {
                spoil(&mut random, &mut arguments);
            }
            (arguments, random.one_of(&[0, 39, 40, 40, 40, 41, 64, 64]))
        });
        match compare(arguments, length, &fill) {
            Ok(0) => accepted += 1,
            Ok(5) => out_of_range += 1,
            Ok(_) => too_short += 1,
            Err(difference) => panic!("seed {seed} case {case}\n{difference}"),
        }
    }
    assert!(accepted > COUNT / 4 && out_of_range > COUNT / 10 && too_short > COUNT / 10);
    println!("oracle: C call: {COUNT} argument lists, {accepted} accepted, {out_of_range} out of range, {too_short} on a short slice");
}
