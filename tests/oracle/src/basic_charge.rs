//! The charge of the fixed basic tariff: 02, Ticket 3, and of 002 the factor K as the line that 002 describes, from 0
//! to 1. There is no table and nothing is counted in 600ths: the points are weighted and added in fractions, and the
//! share and the charge are sought digit by digit.
use crate::fraction::{fraction, greatest, whole, Fraction};

/// The number answered if the points are turned away.
pub const OUT_OF_RANGE: u32 = 16;

/// What is settled, in the order of the call.
#[derive(Clone, Copy, Debug)]
pub struct SupplyPoints<'a> {
    /// Rappen.
    pub fixed_tariff: u32,
    pub points: u32,
    /// kWh of the last 12 months, a place for each point. There may be more places.
    pub drawn: &'a [u64],
    pub fed_in: &'a [u64],
}

/// Of one point, in kWh.
#[derive(Clone, Copy)]
struct Energies {
    drawn: u64,
    fed_in: u64,
}

impl Energies {
    fn is_in_range(&self) -> bool {
        [self.drawn, self.fed_in].iter().all(|&energy| energy <= 1_000_000_000_000)
            && [self.drawn, self.fed_in] != [0, 0]
    }

    /// "The drawn part of their sum [...] in thousandths, rounded down".
    fn share(&self) -> i64 {
        let (drawn, fed_in) = (self.drawn as i64, self.fed_in as i64);
        let part = fraction(drawn, drawn + fed_in);
        greatest(1_000, |share| fraction(share, 1_000) <= part)
    }
}

/// K of 002 at a share in thousandths: 0 up to 0.2, 1 from 0.8 on, and between them on the line.
pub fn factor(share: i64) -> Fraction {
    let (share, low, high) = (fraction(share, 1_000), fraction(2, 10), fraction(8, 10));
    if share <= low {
        whole(0)
    } else if share >= high {
        whole(1)
    } else {
        (share - low) / (high - low)
    }
}

impl SupplyPoints<'_> {
    /// None if a slice has fewer places than there are points.
    fn counted(&self) -> Option<Vec<Energies>> {
        let count = self.points as usize;
        let (drawn, fed_in) = (self.drawn.get(..count)?, self.fed_in.get(..count)?);
        Some(drawn.iter().zip(fed_in).map(|(&drawn, &fed_in)| Energies { drawn, fed_in }).collect())
    }

    /// In rappen, or the number answered instead.
    pub fn charge(&self) -> Result<u64, u32> {
        let counted = self.counted().ok_or(OUT_OF_RANGE)?;
        let is_in_range = self.fixed_tariff <= 100_000_000 && (1..=8).contains(&self.points);
        if !is_in_range || !counted.iter().all(Energies::is_in_range) {
            return Err(OUT_OF_RANGE);
        }
        let weighted = counted.iter().fold(whole(0), |sum, point| (sum + factor(point.share())).reduced());
        let exact = whole(self.fixed_tariff.into()) * weighted;
        Ok(greatest(100_000_000, |charge| whole(charge) <= exact) as u64)
    }
}
