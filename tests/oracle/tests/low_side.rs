//! The low side (02, Ticket 2) against the oracle: the archive of the crate `reactive_c`, called as C calls it.
mod low_side_call;

use low_side_call::{call, Words};
use oracle::low_side::LowSide;
use oracle::random::Random;
use oracle::trial::seed;

const SEED: u64 = 20_240_204;
const COUNT: usize = 200_000;

/// The least and the most of each field.
const RANGES: [[i64; 2]; 6] =
    [[-300_000, 300_000], [-300_000, 300_000], [1, 5_000], [1, 4_000], [0, 4_000], [0, 4_000]];

/// Which of the words are take and supply.
const PLACES: [[usize; 2]; 4] = [[1, 3], [3, 1], [1, 2], [3, 2]];

/// A number as the field's type holds it.
fn cut(at: usize, number: i64) -> i64 {
    if at < 2 {
        i64::from(number as i32)
    } else {
        i64::from(number as u32)
    }
}

/// Numbers within their ranges.
fn right(random: &mut Random) -> [i64; 6] {
    let any = random.between(1, 5_000);
    let sn = random.one_of(&[1, 2, 19, 200, 400, 4_999, 5_000, any, any, any]);
    let [active, reactive] = energies(random, sn);
    let (uk, copper) = uk_and_copper(random, sn);
    let half = 200 * (2 * random.between(0, 9) + 1) / sn;
    let any = random.between(0, 4_000);
    let i0 = random.one_of(&[0, 1, half, half, 4_000, any, any]).clamp(0, 4_000);
    [active, reactive, sn, uk, i0, copper]
}

/// Energies of an apparent power about twice Sn, and below it; some above.
fn energies(random: &mut Random, sn: i64) -> [i64; 2] {
    let most = 50 * sn;
    let first = random.between(0, most);
    let second = ((most * most - first * first) as f64).sqrt() as i64;
    let about = [first, second + random.between(-1, 2)];
    let below = [random.between(0, most * 7 / 10), random.between(0, most * 7 / 10)];
    let any = [random.between(0, 300_000), random.between(0, 300_000)];
    let exact = [30 * sn, 40 * sn + random.one_of(&[0, 0, 1])];
    let chosen = random.one_of(&[[0, 0], [0, 1], [0, most], exact, about, about, below, below, below, any]);
    turned(random, chosen)
}

/// In either order, and of either sign.
fn turned(random: &mut Random, [first, second]: [i64; 2]) -> [i64; 2] {
    let energies = random.one_of(&[[first, second], [second, first]]);
    energies.map(|energy| (energy * random.one_of(&[-1, 1])).clamp(-300_000, 300_000))
}

/// Often with uR about uk.
fn uk_and_copper(random: &mut Random, sn: i64) -> (i64, i64) {
    let any = random.between(1, 4_000);
    let uk = random.one_of(&[1, 80, 1_300, 3_999, 4_000, any, any, any]);
    let equal = uk * sn / 100;
    let any = random.between(0, equal.min(4_000));
    let copper = random.one_of(&[0, equal - 1, equal, equal, equal + 1, any, any, any, any, any]);
    (uk, copper.clamp(0, 4_000))
}

/// A loss in quarters of a kvarh: at twice Sn it is uk times Sn over 100 and i0 times Sn over 400.
fn quarters_of_kvarh(random: &mut Random) -> [i64; 6] {
    let sn = random.one_of(&[1, 5, 25]);
    let chosen = random.one_of(&[[30 * sn, 40 * sn], [14 * sn, 48 * sn], [0, 50 * sn]]);
    let [active, reactive] = turned(random, chosen);
    [active, reactive, sn, 25 / sn * random.between(1, 40), 100 / sn * random.between(0, 20), 0]
}

/// One or two numbers out of range, or at the end of it; some are right if cut to fewer bits.
fn spoil(random: &mut Random, numbers: &mut [i64; 6]) {
    for _ in 0..random.between(1, 2) {
        let at = random.index(6);
        let [least, most] = RANGES[at];
        let wide = numbers[at] + (1 << random.between(8, 31));
        let any = random.draw() as i64;
        let chosen = random.one_of(&[least - 1, least, most, most + 1, wide, wide, any, 1 << 31, (1 << 31) - 1]);
        numbers[at] = cut(at, chosen);
    }
}

/// Every end of every range with all other numbers right, and the ends of all ranges together.
fn ends() -> Vec<[i64; 6]> {
    let mut list = Vec::new();
    for base in [[3_000, -4_000, 400, 1_300, 50, 2_000], [20, 30, 5_000, 4_000, 0, 0], [0, 0, 1, 100, 200, 1]] {
        for (at, [least, most]) in RANGES.into_iter().enumerate() {
            for value in [least - 1, least, least + 1, most - 1, most, most + 1, 1 << 31, (1 << 31) - 1] {
                let mut numbers = base;
                numbers[at] = cut(at, value);
                list.push(numbers);
            }
        }
    }
    list.extend((0..64).map(|bits| std::array::from_fn(|at| RANGES[at][bits >> at & 1])));
    list
}

/// Calls both, and gives the number, take and supply if the number and all words agree.
fn compare(numbers: [i64; 6], fill: Words, places: [usize; 2]) -> Result<[u32; 3], String> {
    let high = LowSide::of(numbers).high_side();
    let (mut expected, mut found) = (fill, fill);
    if high.number == 0 {
        expected[places[0]] = high.take;
        expected[places[1]] = high.supply;
    }
    let answer = call(numbers, &mut found, places);
    if answer == high.number && found == expected {
        return Ok([answer, high.take, high.supply]);
    }
    let number = high.number;
    Err(format!(
        "numbers {numbers:?}, take and supply at {places:?} of {fill:?}\n\
         expected {number} {expected:?}\nanswered {answer} {found:?}"
    ))
}

fn numbers(random: &mut Random) -> [i64; 6] {
    if random.once_in(10) {
        return quarters_of_kvarh(random);
    }
    let mut numbers = right(random);
    if random.once_in(4) {
        spoil(random, &mut numbers);
    }
    numbers
}

#[test]
fn low_side_answers_what_the_oracle_answers() {
    let seed = seed(SEED);
    let ends = ends();
    let (mut taken, mut supplied, mut neither, mut out_of_range, mut implausible) = (0, 0, 0, 0, 0);
    for case in 0..COUNT {
        let mut random = Random::of(seed, case as u64);
        let fill = [0; 5].map(|_: u32| random.draw() as u32);
        let places = random.one_of(&PLACES);
        let numbers = ends.get(case).copied().unwrap_or_else(|| numbers(&mut random));
        match compare(numbers, fill, places) {
            Ok([0, 0, 0]) => neither += 1,
            Ok([0, _, 0]) => taken += 1,
            Ok([0, ..]) => supplied += 1,
            Ok([14, ..]) => out_of_range += 1,
            Ok(_) => implausible += 1,
            Err(difference) => panic!("seed {seed} case {case}\n{difference}"),
        }
    }
    assert!(taken > COUNT / 5 && supplied > COUNT / 10 && neither > COUNT / 100);
    assert!(out_of_range > COUNT / 10 && implausible > COUNT / 10);
    println!(
        "oracle: low side: {COUNT} argument lists, {taken} with take, {supplied} with supply, \
         {out_of_range} out of range, {implausible} implausible"
    );
}
