//! Inputs of the program `replay`: a file, the lengths of a journal and of an index, and a list of calls,
//! refused ones among them.
use crate::book::POINT_PLACES;
use crate::month_file::{quarters, Entry, File, ENTRY_SIZE};
use crate::random::Random;
use crate::replay::{ANSWERS_MOST, INDEX_MOST, INPUT_MOST, JOURNAL_MOST, NUMBER_SIZE, TOTALS_SIZE};
use crate::right_files::{active, entry, example, month_ends, right_entry, right_file};
use crate::trial::Case;

pub const TAKE_BACK: u8 = 1;
pub const CLOSE: u8 = 2;
pub const TOTALS: u8 = 3;

/// How lists are made.
struct Plan {
    group: &'static str,
    count: usize,
    /// Entries that the journal can hold, least and most.
    capacity: [i64; 2],
    /// Calls, least and most.
    calls: [i64; 2],
    /// One call in so many takes back, closes, asks for totals; the others deliver.
    one_in: [i64; 3],
}

const PLANS: [Plan; 6] = [
    Plan { group: "short", count: 600, capacity: [0, 12], calls: [0, 30], one_in: [4, 40, 6] },
    Plan { group: "totals often", count: 300, capacity: [0, 20], calls: [0, 25], one_in: [4, 60, 2] },
    Plan { group: "closed early", count: 150, capacity: [0, 8], calls: [3, 30], one_in: [5, 6, 6] },
    Plan { group: "middling", count: 200, capacity: [10, 80], calls: [50, 150], one_in: [6, 400, 12] },
    Plan { group: "up and down", count: 40, capacity: [20, 120], calls: [200, 400], one_in: [2, 2_000, 12] },
    Plan { group: "long", count: 24, capacity: [100, 400], calls: [400, 800], one_in: [12, 3_000, 60] },
];

pub fn all(seed: u64) -> Vec<Case> {
    let mut cases = Vec::new();
    for plan in &PLANS {
        for _ in 0..plan.count {
            let mut random = Random::of(seed, cases.len() as u64);
            cases.push(Case { group: plan.group, input: list(&mut random, plan) });
        }
    }
    for _ in 0..150 {
        let mut random = Random::of(seed, cases.len() as u64);
        cases.push(Case { group: "file damaged", input: damaged_file(&mut random) });
    }
    cases.extend(cut_short().into_iter().chain(limits()).map(|input| Case { group: "limits", input }));
    cases.extend(index_lengths().into_iter().chain(order()).map(|input| Case { group: "index lengths", input }));
    cases.extend([3, 10].map(clock_change).map(|input| Case { group: "clock changes", input }));
    cases
}

/// Every length up to that with which the calls begin.
fn cut_short() -> Vec<Vec<u8>> {
    let whole = start(&example().bytes(), 48, 2 * POINT_PLACES);
    (0..=whole.len()).map(|length| whole[..length].to_vec()).collect()
}

/// As much as the program takes of each thing, and one more.
fn limits() -> Vec<Vec<u8>> {
    let file = example().bytes();
    let with = |journal: usize, calls: Vec<u8>| [start(&file, journal, 2 * POINT_PLACES), calls].concat();
    let long = |length: usize| {
        let mut input = with(0, vec![TOTALS]);
        input.resize(length, 255);
        input
    };
    vec![
        with(JOURNAL_MOST, vec![TOTALS]),
        with(JOURNAL_MOST + 1, vec![TOTALS]),
        with(u32::MAX as usize, vec![]),
        [&u32::MAX.to_be_bytes()[..], &file].concat(),
        with(48, calls_of(ANSWERS_MOST)),
        with(48, calls_of(ANSWERS_MOST + NUMBER_SIZE)),
        long(INPUT_MOST),
        long(INPUT_MOST + 1),
    ]
}

/// Totals and closes whose answers take so many bytes, a multiple of 8.
fn calls_of(answers: usize) -> Vec<u8> {
    let totals = answers / TOTALS_SIZE;
    let closes = (answers - totals * TOTALS_SIZE) / NUMBER_SIZE;
    [vec![TOTALS; totals], vec![CLOSE; closes]].concat()
}

/// Indexes around what the points need and what the program lends, for one point, two and eight. October's last
/// quarter has the last place.
fn index_lengths() -> Vec<Vec<u8>> {
    let mut inputs = Vec::new();
    for count in [1, 2, 8] {
        let file = File::new(2024, 10, vec![active(0, 300, 1_000, 500); count], Vec::new()).bytes();
        let needed = count * POINT_PLACES;
        let last = entry([count as i64 - 1, 2_979, 1, 1, 0, 1_000, 22_050, 22_000]).bytes();
        let calls = [&[TOTALS, 0, 12], &last[..], &[TOTALS, 0, 12], &last, &[TAKE_BACK, TOTALS, CLOSE]].concat();
        let most = u32::MAX as usize;
        for index in [0, needed - 1, needed, needed + 1, INDEX_MOST, INDEX_MOST + 1, most] {
            inputs.push([start(&file, 48, index), calls.clone()].concat());
        }
    }
    inputs
}

/// Two things wrong at once: the one that is tested first shows.
fn order() -> Vec<Vec<u8>> {
    let right = example().bytes();
    let mut wrong = right.clone();
    wrong[7] ^= 0x08;
    let (short, too_many) = (2 * POINT_PLACES - 1, calls_of(ANSWERS_MOST + NUMBER_SIZE));
    vec![
        start(&right, JOURNAL_MOST + 1, INDEX_MOST + 1),
        start(&wrong, 48, INDEX_MOST + 1),
        start(&wrong, 48, short),
        start(&wrong, 48, 2 * POINT_PLACES),
        start(&wrong[..96], 48, short),
        [start(&right, 48, INDEX_MOST + 1), too_many.clone()].concat(),
        [start(&right, 48, short), too_many.clone()].concat(),
        [start(&wrong, 48, INDEX_MOST), too_many].concat(),
    ]
}

/// A month's first and last quarters at neighbouring points, delivered, corrected and taken back one by one, with the
/// quarters behind its last, which are outside.
fn clock_change(month: i64) -> Vec<u8> {
    let file = month_ends(month);
    let delivered = file.entries.len();
    let mut input = start(&file.bytes(), 2 * ENTRY_SIZE * delivered, file.points.len() * POINT_PLACES);
    for version in [1, 2] {
        for entry in &file.entries {
            input.extend(deliver(&Entry { version, ..entry.clone() }.bytes()));
            let outside = Entry { quarter: entry.quarter + 4, version: 31, ..entry.clone() };
            if entry.quarter >= 4 {
                input.extend(deliver(&outside.bytes()));
            }
        }
        input.push(TOTALS);
    }
    for _ in 0..2 {
        input.extend(vec![TAKE_BACK; delivered]);
        input.push(TOTALS);
    }
    input.push(TAKE_BACK);
    input
}

fn list(random: &mut Random, plan: &Plan) -> Vec<u8> {
    let file = right_file(random, 6);
    let mut bytes = file.bytes();
    // Open does not judge the entries.
    if random.once_in(4) {
        let start = 7 + 21 * file.points.len();
        let noise = random.bytes(bytes.len() - start);
        bytes.splice(start.., noise);
    }
    let (journal, index) = (journal(random, plan), index(random, file.points.len()));
    let mut input = start(&bytes, journal, index);
    let pool = pool(random, &file, plan.calls[1]);
    for _ in 0..random.between(plan.calls[0], plan.calls[1]) {
        input.extend(call(random, plan, &file, &pool));
    }
    input.push(TOTALS);
    input.extend(tail(random));
    input
}

/// What stands before the calls.
pub fn start(file: &[u8], journal: usize, index: usize) -> Vec<u8> {
    let four = |number: usize| (number as u32).to_be_bytes();
    [&four(file.len()), file, &four(journal), &four(index)].concat()
}

fn journal(random: &mut Random, plan: &Plan) -> usize {
    if random.once_in(30) {
        return random.one_of(&[JOURNAL_MOST, JOURNAL_MOST - 1, 786_420, 786_419]);
    }
    (12 * random.between(plan.capacity[0], plan.capacity[1]) + random.one_of(&[0, 0, 1, 5, 11])) as usize
}

/// As many places as the points need, or more; now and then too few.
fn index(random: &mut Random, points: usize) -> usize {
    let needed = points * POINT_PLACES;
    if random.once_in(40) {
        let any = random.index(needed);
        return random.one_of(&[0, needed - 1, any]);
    }
    let more = random.between(needed as i64, INDEX_MOST as i64) as usize;
    random.one_of(&[needed, needed, needed + 1, more, INDEX_MOST])
}

/// The keys delivered: few, so that versions meet, or as many as calls, so that the journal fills.
fn pool(random: &mut Random, file: &File, calls: i64) -> Vec<(i64, i64)> {
    let last = quarters(file.header.year, file.header.month) - 1;
    let count = random.one_of(&[1, 3, 8, calls, calls, calls]);
    (0..count)
        .map(|_| {
            let any = random.between(0, last);
            (random.index(file.points.len()) as i64, random.one_of(&[0, last, any, any, any, any, any, any]))
        })
        .collect()
}

fn call(random: &mut Random, plan: &Plan, file: &File, pool: &[(i64, i64)]) -> Vec<u8> {
    let [take_back_in, close_in, totals_in] = plan.one_in;
    if random.once_in(close_in) {
        vec![CLOSE]
    } else if random.once_in(totals_in) {
        vec![TOTALS]
    } else if random.once_in(take_back_in) {
        vec![TAKE_BACK]
    } else {
        deliver(&delivery(random, file, pool))
    }
}

/// The call that delivers these bytes.
fn deliver(bytes: &[u8]) -> Vec<u8> {
    [&[0, bytes.len() as u8], bytes].concat()
}

/// Mostly right entries of the pool's keys; else an entry wrong in one way or in two.
fn delivery(random: &mut Random, file: &File, pool: &[(i64, i64)]) -> Vec<u8> {
    let (point, quarter) = random.one_of(pool);
    let any = random.between(1, 31);
    let version = random.one_of(&[1, 1, 2, 2, 3, 4, 5, 6, 31, any, any]);
    let mut entry = right_entry(random, &file.points, point, quarter, version);
    if random.once_in(12) {
        entry.point = random.between(0, 7);
    }
    if random.once_in(15) {
        let first_past = quarters(file.header.year, file.header.month);
        entry.quarter = random.one_of(&[first_past, first_past - 1, 4_095]);
    }
    if random.once_in(12) {
        match random.between(0, 5) {
            0 => entry.version = 0,
            1 => entry.take = random.one_of(&[1_000_000, 1_000_001, 1_048_575]),
            2 => entry.supply = random.one_of(&[1_000_000, 1_000_001, 1_048_575]),
            3 => entry.actual = random.one_of(&[50_000, 50_001, 65_535]),
            4 => entry.set = random.one_of(&[50_000, 50_001, 65_535]),
            _ => entry.closing = random.between(1, 7),
        }
    }
    let mut bytes = entry.bytes();
    if random.once_in(25) {
        bytes.resize(random.one_of(&[0, 1, 11, 13, 24, 255]), 0);
    }
    bytes
}

/// What may stand behind the calls: nothing, or a thing that is no whole call and ends the reading.
fn tail(random: &mut Random) -> Vec<u8> {
    match random.between(0, 5) {
        0 => vec![0],
        1 => vec![0, 12, TOTALS, TOTALS],
        2 => vec![random.between(4, 255) as u8, TOTALS, TAKE_BACK, TOTALS],
        3 => vec![0, 255, CLOSE],
        _ => vec![],
    }
}

fn damaged_file(random: &mut Random) -> Vec<u8> {
    let file = right_file(random, 6);
    let mut bytes = file.bytes();
    let at = random.index(bytes.len());
    match random.between(0, 3) {
        0 => bytes.truncate(at),
        1 => bytes.extend([0; 12]),
        2 => bytes[at.min(6)] ^= random.one_of(&[1, 2, 4, 8, 16, 32, 64, 128]),
        _ => bytes[at] = random.draw() as u8,
    }
    let journal = 12 * random.index(20);
    [start(&bytes, journal, index(random, file.points.len())), vec![TOTALS, TAKE_BACK, CLOSE, TOTALS]].concat()
}
