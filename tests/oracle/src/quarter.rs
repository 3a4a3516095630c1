//! One quarter-hour: the five shares of its energy, and the C call that gives them.
use crate::month_file::ACTIVE;

pub const GRAINS_OF_KVARH: i64 = 1_600;
pub const SHARES_SIZE: usize = 40;

/// The eight numbers that decide the shares; the band in grains.
#[derive(Clone, Copy, Debug)]
pub struct Quarter {
    pub role: i64,
    pub level: i64,
    pub band: i64,
    pub lamp: i64,
    pub take: i64,
    pub supply: i64,
    pub actual: i64,
    pub set: i64,
}

/// In grains.
#[derive(Clone, Copy, Debug, Default, PartialEq)]
pub struct Shares {
    pub paid: i64,
    pub free: i64,
    pub billed: i64,
    pub allowance: i64,
    pub disconnected: i64,
}

impl Shares {
    pub fn list(&self) -> [i64; 5] {
        [self.paid, self.free, self.billed, self.allowance, self.disconnected]
    }
}

impl Quarter {
    /// |W| in grains.
    pub fn absolute(&self) -> i64 {
        (self.take - self.supply).abs() * GRAINS_OF_KVARH
    }

    pub fn shares(&self) -> Shares {
        if self.take == self.supply {
            Shares::default()
        } else if self.role == ACTIVE {
            self.active()
        } else {
            self.semi_active()
        }
    }

    fn active(&self) -> Shares {
        let all = self.absolute();
        let (w, u, s) = (self.take - self.supply, self.actual, self.set);
        let t = if self.level == 0 { 100 } else { 200 };
        let f = 100;
        let none = Shares::default();
        if self.lamp == 0 {
            Shares { disconnected: all, ..none }
        } else if (w < 0 && u < s + t) || (w > 0 && u > s - t) {
            Shares { paid: all, ..none }
        } else if (w < 0 && u >= s + t + f) || (w > 0 && u <= s - t - f) {
            Shares { billed: all, ..none }
        } else {
            Shares { free: all, ..none }
        }
    }

    fn semi_active(&self) -> Shares {
        let (all, b) = (self.absolute(), self.band);
        let (w, u, s) = (self.take - self.supply, self.actual, self.set);
        let f = if self.level == 0 { 200 } else { 300 };
        let none = Shares::default();
        if all <= b || (s - f <= u && u <= s + f) {
            Shares { free: all, ..none }
        } else if (w < 0 && u < s - f) || (w > 0 && u > s + f) {
            Shares { allowance: b, paid: all - b, ..none }
        } else {
            Shares { allowance: b, billed: all - b, ..none }
        }
    }

    /// The ranges of the C call's arguments.
    pub fn is_in_range(&self) -> bool {
        let bands = if self.role == ACTIVE { 0..=0 } else { 1..=320_000_000 };
        [self.role, self.level, self.lamp].iter().all(|bit| (0..=1).contains(bit))
            && bands.contains(&self.band)
            && [self.take, self.supply].iter().all(|energy| (0..=1_000_000).contains(energy))
            && [self.actual, self.set].iter().all(|voltage| (0..=50_000).contains(voltage))
    }
}

/// What the C call answers, and what it leaves in the slice lent to it.
pub fn c_call(quarter: &Quarter, slice: &mut [u8]) -> u32 {
    if !quarter.is_in_range() {
        return 5;
    }
    if slice.len() < SHARES_SIZE {
        return 13;
    }
    for (place, share) in slice.chunks_mut(8).zip(quarter.shares().list()) {
        place.copy_from_slice(&share.to_be_bytes());
    }
    0
}
