//! The basic charge (02, Ticket 3) against the oracle: the archive of the crate `reactive_c`, called as C calls it.
mod basic_charge_lists;

use basic_charge_lists::{arguments, ends, lengths, of_share, Arguments, SPOILS, STORED};
use oracle::basic_charge::factor;
use oracle::fraction::fraction;
use oracle::random::Random;
use oracle::trial::seed;

const SEED: u64 = 20_240_206;
const COUNT: usize = 200_000;

/// The charge lent lies between two other numbers, so that a number written beside it shows.
type Words = [u64; 3];

#[link(name = "reactive", kind = "static")]
extern "C" {
    fn reactive_basic_charge(
        fixed_tariff: u32,
        points: u32,
        drawn: *const u64,
        drawn_places: usize,
        fed_in: *const u64,
        fed_in_places: usize,
        charge: *mut u64,
    ) -> u32;
}

/// The energies are lent as ones that could be changed, so that it shows if they are.
fn call(arguments: &mut Arguments, words: &mut Words) -> u32 {
    let Arguments { fixed_tariff, points, drawn, fed_in, places: [drawn_places, fed_in_places] } = arguments;
    let (drawn, fed_in) = (drawn.as_mut_ptr(), fed_in.as_mut_ptr());
    // Each slice has more places than are lent or as many, and nothing else holds them or the word.
    unsafe {
        reactive_basic_charge(*fixed_tariff, *points, drawn, *drawn_places, fed_in, *fed_in_places, &mut words[1])
    }
}

/// Calls both, and gives the charge, or the number beside which there is none, if the number and all words agree and
/// the energies stay.
fn compare(arguments: &Arguments, fill: Words) -> Result<Result<u64, u32>, String> {
    let due = arguments.lent().charge();
    let (mut expected, mut found) = (fill, fill);
    if let Ok(charge) = due {
        expected[1] = charge;
    }
    let mut called = arguments.clone();
    let answer = call(&mut called, &mut found);
    if answer == due.err().unwrap_or(0) && found == expected && called == *arguments {
        return Ok(due);
    }
    let Arguments { fixed_tariff, points, drawn, fed_in, places } = arguments;
    let (drawn, fed_in) = (&drawn[..STORED], &fed_in[..STORED]);
    let changed = called != *arguments;
    Err(format!(
        "tariff {fixed_tariff}, {points} points, {places:?} places of {drawn:?} and {fed_in:?}\n\
         expected {due:?} {expected:?}\nanswered {answer} {found:?}, energies changed: {changed}"
    ))
}

/// With a tariff of 600 the charge of one point is its K in 600ths; with 75, that of eight points is the K of each.
fn every_share_is_weighted_by_the_factor() {
    for share in 0..=1_000 {
        for energies in of_share(share) {
            for (fixed_tariff, points) in [(600, 1), (75, 8)] {
                let compared = compare(&Arguments::alike(fixed_tariff, points, energies), [7; 3]);
                let charge = compared.unwrap_or_else(|difference| panic!("{difference}")).expect("in range");
                assert!(fraction(charge as i64, 600) == factor(share as i64), "share {share}: {charge}");
            }
        }
    }
}

#[test]
fn basic_charge_is_what_the_oracle_charges() {
    every_share_is_weighted_by_the_factor();
    let seed = seed(SEED);
    let listed = [ends(), lengths()].concat();
    let (mut charged, mut free, mut refused) = (0, 0, [0; SPOILS.len() + 1]);
    for case in 0..COUNT {
        let mut random = Random::of(seed, case as u64);
        let fill = [0; 3].map(|_: u64| random.draw());
        // Half of the lists are not spoiled.
        let spoil = random.index(2 * SPOILS.len()).min(SPOILS.len());
        let made = || arguments(&mut random, SPOILS.get(spoil));
        match compare(&listed.get(case).cloned().unwrap_or_else(made), fill) {
            Ok(Ok(0)) => free += 1,
            Ok(Ok(_)) => charged += 1,
            Ok(Err(_)) => refused[spoil] += 1,
            Err(difference) => panic!("seed {seed} case {case}\n{difference}"),
        }
    }
    assert!(charged > COUNT / 3 && free > COUNT / 50);
    assert!(refused[..SPOILS.len()].iter().all(|&refused| refused > COUNT / 20));
    let refused: usize = refused.iter().sum();
    println!(
        "oracle: basic charge: {COUNT} argument lists, {charged} with a charge, {free} without, {refused} refused"
    );
}
