//! A point metered on the low-voltage side: 02, Ticket 2, and of 001, 4.1.1 the exact procedure. The formulas
//! stand here as they stand in 001, in fractions of kW, kvar and kVA.
use crate::fraction::{fraction, greatest, whole, Fraction};

/// What the meter and the transformer's data sheet say, in the order of the call.
#[derive(Clone, Copy, Debug)]
pub struct LowSide {
    /// kWh and kvarh of a quarter-hour, positive towards the transformer.
    pub active: i64,
    pub reactive: i64,
    /// Sn in 0.1 MVA.
    pub rated_power: i64,
    /// uk and i0 in 0.01 %.
    pub short_circuit_voltage: i64,
    pub no_load_current: i64,
    /// kW.
    pub copper_losses: i64,
}

/// The number answered, and beside 0 the energy on the high side in kvarh.
#[derive(Clone, Copy, Debug, Default, PartialEq)]
pub struct HighSide {
    pub number: u32,
    pub take: u32,
    pub supply: u32,
}

impl LowSide {
    pub fn of(numbers: [i64; 6]) -> LowSide {
        let [active, reactive, rated_power, short_circuit_voltage, no_load_current, copper_losses] = numbers;
        LowSide { active, reactive, rated_power, short_circuit_voltage, no_load_current, copper_losses }
    }

    fn is_in_range(&self) -> bool {
        [self.active, self.reactive].iter().all(|energy| (-300_000..=300_000).contains(energy))
            && (1..=5_000).contains(&self.rated_power)
            && (1..=4_000).contains(&self.short_circuit_voltage)
            && (0..=4_000).contains(&self.no_load_current)
            && (0..=4_000).contains(&self.copper_losses)
    }

    /// "uk is below uR or the apparent power exceeds twice Sn".
    fn is_implausible(&self) -> bool {
        self.uk() < self.ur() || self.apparent_power_squared() > (whole(2) * self.sn()).squared()
    }

    /// In kVA.
    fn sn(&self) -> Fraction {
        whole(100 * self.rated_power)
    }

    fn uk(&self) -> Fraction {
        fraction(self.short_circuit_voltage, 10_000)
    }

    fn ur(&self) -> Fraction {
        whole(self.copper_losses) / self.sn()
    }

    /// P² + Q² in kVA². "Power is energy times 4".
    fn apparent_power_squared(&self) -> Fraction {
        whole(4 * self.active).squared() + whole(4 * self.reactive).squared()
    }

    /// "The greatest number of millionths (1 % is 10,000 of them) whose square does not exceed the square of uk less
    /// that of uR".
    pub fn root(&self) -> i64 {
        let most = self.uk().squared() - self.ur().squared();
        greatest(1_000_000, |root| fraction(root, 1_000_000).squared() <= most)
    }

    /// 001's Q_V with this root, in kvarh: over a quarter of an hour, rounded once.
    pub fn loss(&self, root: i64) -> i64 {
        let load = self.apparent_power_squared() / self.sn().squared() * fraction(root, 1_000_000);
        let power = (load + fraction(self.no_load_current, 10_000)) * self.sn();
        (power * fraction(1, 4)).rounded()
    }

    pub fn high_side(&self) -> HighSide {
        if !self.is_in_range() {
            return HighSide { number: 14, ..HighSide::default() };
        }
        if self.is_implausible() {
            return HighSide { number: 15, ..HighSide::default() };
        }
        let energy = -self.reactive + self.loss(self.root());
        HighSide { number: 0, take: energy.max(0) as u32, supply: (-energy).max(0) as u32 }
    }
}

/// The text that the program `low_side_cases` prints for its standard input: a line for each six numbers. `#`
/// begins a comment to the end of its line.
pub fn text(cases: &str) -> String {
    let bare = cases.lines().map(|line| line.split('#').next().unwrap_or(""));
    let words = bare.flat_map(str::split_whitespace);
    let numbers: Vec<i64> = words.map(|word| word.parse().unwrap_or_else(|_| panic!("{word} is no number"))).collect();
    numbers.chunks_exact(6).map(|six| line(six.try_into().expect("six numbers"))).collect()
}

fn line(numbers: [i64; 6]) -> String {
    let HighSide { number, take, supply } = LowSide::of(numbers).high_side();
    format!("{number} {take} {supply}\n")
}
