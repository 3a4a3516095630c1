//! Argument lists of the basic charge: in range, about the ends of the ranges, and past them.
use oracle::basic_charge::SupplyPoints;
use oracle::random::Random;

/// The most of the tariff, of an energy, and of points.
const TARIFF: u32 = 100_000_000;
const ENERGY: u64 = 1_000_000_000_000;
const POINTS: u32 = 8;

/// Places in memory. Those past a short slice are right too, so that its length alone turns it away.
pub const STORED: usize = 12;

#[derive(Clone, PartialEq)]
pub struct Arguments {
    pub fixed_tariff: u32,
    pub points: u32,
    pub drawn: Vec<u64>,
    pub fed_in: Vec<u64>,
    /// How many of drawn and of fed_in are lent.
    pub places: [usize; 2],
}

impl Arguments {
    /// Points that are all alike, with a place for each.
    pub fn alike(fixed_tariff: u32, points: u32, [drawn, fed_in]: [u64; 2]) -> Arguments {
        let (drawn, fed_in) = (vec![drawn; STORED], vec![fed_in; STORED]);
        Arguments { fixed_tariff, points, drawn, fed_in, places: [points as usize; 2] }
    }

    pub fn lent(&self) -> SupplyPoints<'_> {
        let (drawn, fed_in) = (&self.drawn[..self.places[0]], &self.fed_in[..self.places[1]]);
        SupplyPoints { fixed_tariff: self.fixed_tariff, points: self.points, drawn, fed_in }
    }

    fn set(&mut self, place: usize, [drawn, fed_in]: [u64; 2]) {
        self.drawn[place] = drawn;
        self.fed_in[place] = fed_in;
    }
}

/// Three pairs of energies with this drawn part in thousandths, the last as near to the next share as can be.
pub fn of_share(share: u64) -> [[u64; 2]; 3] {
    let thousandth = ENERGY / 1_000;
    let least = share * thousandth;
    let most = (least + thousandth - 1).min(ENERGY);
    [[share, 1_000 - share], [least, ENERGY - least], [most, ENERGY - most]]
}

/// One kWh to either side of where a share begins, or just there; often as large as they can be.
fn about_a_share(random: &mut Random) -> [u64; 2] {
    let any = random.between(0, 1_000);
    let share = random.one_of(&[0, 1, 199, 200, 201, 202, 500, 799, 800, 801, 999, 1_000, any, any, any, any]);
    let most = 1_000 * ENERGY as i64 / share.max(1_000 - share);
    let (small, any) = (random.between(1, 10_000), random.between(1, most));
    let sum = random.one_of(&[1, 5, 1_000, 1 << 32, ENERGY as i64, most - 1, most, most, small, small, any, any]);
    let begin = (share * sum + 999) / 1_000;
    let drawn = (begin + random.between(-1, 1)).clamp(0, sum);
    [drawn, sum - drawn].map(|energy| (energy as u64).min(ENERGY))
}

/// Of a point in range.
fn energies(random: &mut Random) -> [u64; 2] {
    let about = about_a_share(random);
    let any = [0; 2].map(|_: u64| random.between(1, ENERGY as i64) as u64);
    let few = [0; 2].map(|_: u64| random.between(1, 9) as u64);
    let one = random.one_of(&[1, ENERGY, any[0]]);
    random.one_of(&[about, about, about, about, about, any, few, [one, 0], [0, one], [ENERGY; 2]])
}

fn right(random: &mut Random) -> Arguments {
    let (any, count) = (random.between(0, TARIFF.into()) as u32, random.between(1, POINTS.into()) as u32);
    let fixed_tariff = random.one_of(&[0, 1, 200, 599, 600, 601, TARIFF - 1, TARIFF, any, any, any, any, any, any]);
    let points = random.one_of(&[1, 2, POINTS, POINTS, count, count, count]);
    let (drawn, fed_in) = (0..STORED).map(|_| energies(random).into()).unzip();
    let least = points as usize;
    let places = [0; 2].map(|_: usize| random.one_of(&[least, least, least + 1, STORED]));
    Arguments { fixed_tariff, points, drawn, fed_in, places }
}

/// Places past the count that would turn the points away if they were looked at; sometimes very many.
fn disturb(random: &mut Random, arguments: &mut Arguments) {
    for place in arguments.points as usize..STORED {
        let past = random.one_of(&[[0, 0], [ENERGY + 1, 0], [0, ENERGY + 1], [u64::MAX; 2]]);
        arguments.set(place, past);
    }
    if random.once_in(200) {
        let [drawn, fed_in] = random.one_of(&[[256, 65_536], [65_536, 256], [257, 257]]);
        arguments.drawn.resize(drawn, u64::MAX);
        arguments.fed_in.resize(fed_in, u64::MAX);
        arguments.places = [drawn, fed_in];
    }
}

/// Puts one argument out of range, or at the end of it; some are right if cut to fewer bits.
pub type Spoil = fn(&mut Random, &mut Arguments);
pub const SPOILS: [Spoil; 5] = [spoil_tariff, spoil_count, spoil_energy, spoil_point, spoil_places];

fn spoil_tariff(random: &mut Random, arguments: &mut Arguments) {
    let (any, wide) = (random.draw() as u32, arguments.fixed_tariff + (1 << random.between(27, 31)));
    arguments.fixed_tariff = random.one_of(&[TARIFF, TARIFF + 1, wide, any, u32::MAX]);
}

fn spoil_count(random: &mut Random, arguments: &mut Arguments) {
    let (any, wide) = (random.draw() as u32, arguments.points + (1 << random.between(8, 31)));
    arguments.points = random.one_of(&[0, 0, 9, 9, 10, 12, wide, any, 1 << 31, u32::MAX]);
    arguments.places = [STORED; 2];
}

fn spoil_energy(random: &mut Random, arguments: &mut Arguments) {
    let count = arguments.points as usize;
    let any = random.index(count);
    let place = random.one_of(&[0, count - 1, any]);
    let (drawn, fed_in) = (arguments.drawn[place], arguments.fed_in[place]);
    let wide = random.one_of(&[drawn, fed_in]) + (1 << random.between(40, 63));
    let any = random.draw();
    let value = random.one_of(&[ENERGY, ENERGY + 1, ENERGY + 1, wide, wide, any, 1 << 63, u64::MAX]);
    let (one, other) = ([value, fed_in], [drawn, value]);
    // In 64 bits the sum of each is 0.
    let wrapped = [[fed_in.wrapping_neg(), fed_in], [drawn, drawn.wrapping_neg()]];
    arguments.set(place, random.one_of(&[one, one, one, other, other, other, wrapped[0], wrapped[1]]));
}

/// A point that drew and fed in nothing.
fn spoil_point(random: &mut Random, arguments: &mut Arguments) {
    let place = random.index(arguments.points as usize);
    arguments.set(place, [0, 0]);
}

fn spoil_places(random: &mut Random, arguments: &mut Arguments) {
    let few = random.index(arguments.points as usize);
    let [drawn, fed_in] = arguments.places;
    arguments.places = random.one_of(&[[few, fed_in], [drawn, few], [few, few]]);
}

pub fn arguments(random: &mut Random, spoil: Option<&Spoil>) -> Arguments {
    let mut arguments = right(random);
    if random.once_in(2) {
        disturb(random, &mut arguments);
    }
    if let Some(spoil) = spoil {
        spoil(random, &mut arguments);
    }
    arguments
}

/// Points of shares 250, 310 and so on, with all places lent.
fn base(points: u32) -> Arguments {
    let drawn: Vec<u64> = (0..STORED as u64).map(|place| 250 + 60 * place).collect();
    let fed_in = drawn.iter().map(|drawn| 1_000 - drawn).collect();
    Arguments { fixed_tariff: 12_345_678, points, drawn, fed_in, places: [STORED; 2] }
}

const ENERGIES_IN_RANGE: [[u64; 2]; 7] =
    [[0, 1], [1, 0], [0, ENERGY], [ENERGY, 0], [1, ENERGY], [ENERGY, 1], [ENERGY; 2]];

const ENERGIES_OUT_OF_RANGE: [[u64; 2]; 9] = [
    [0, 0],
    [0, ENERGY + 1],
    [ENERGY + 1, 0],
    [1, ENERGY + 1],
    [ENERGY + 1, 1],
    [ENERGY + 1; 2],
    [1, u64::MAX],
    [u64::MAX, 1],
    [1 << 63; 2],
];

/// Every end of every range, at every point, with all other arguments right; and the most of everything.
pub fn ends() -> Vec<Arguments> {
    let counts = [0, 9, 10, 12, 13, 256, 257, 65_537, 1 << 31, (1 << 31) + 1, u32::MAX];
    let mut list = counts.map(base).to_vec();
    for points in 1..=POINTS {
        for fixed_tariff in [0, 1, TARIFF - 1, TARIFF, TARIFF + 1, 1 << 31, u32::MAX] {
            list.push(Arguments { fixed_tariff, ..base(points) });
        }
        for place in 0..points as usize {
            for energies in ENERGIES_IN_RANGE.iter().chain(&ENERGIES_OUT_OF_RANGE) {
                list.push(base(points));
                list.last_mut().expect("just put there").set(place, *energies);
            }
        }
    }
    list.extend(ENERGIES_IN_RANGE.map(|energies| Arguments::alike(TARIFF, POINTS, energies)));
    list
}

/// Each count of points, and one more, on slices of each length beside each.
pub fn lengths() -> Vec<Arguments> {
    let mut list = Vec::new();
    for points in 0..=POINTS + 1 {
        for drawn in 0..STORED {
            list.extend((0..STORED).map(|fed_in| Arguments { places: [drawn, fed_in], ..base(points) }));
        }
    }
    list
}
