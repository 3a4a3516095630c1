//! Fractions of whole numbers, exact, and reduced only where that is asked for.
use std::cmp::Ordering;
use std::ops::{Add, Div, Mul, Sub};

/// The lower number is above 0.
#[derive(Clone, Copy, Debug)]
pub struct Fraction {
    upper: i128,
    lower: i128,
}

pub fn fraction(upper: i64, lower: i64) -> Fraction {
    Fraction { upper: upper.into(), lower: lower.into() }
}

pub fn whole(number: i64) -> Fraction {
    fraction(number, 1)
}

/// The greatest number from 0 on that is low enough, sought one decimal digit after the other, from this power of ten
/// down.
pub fn greatest(power: i64, is_low_enough: impl Fn(i64) -> bool) -> i64 {
    let (mut number, mut digit) = (0, power);
    while digit > 0 {
        while is_low_enough(number + digit) {
            number += digit;
        }
        digit /= 10;
    }
    number
}

impl Fraction {
    pub fn squared(self) -> Fraction {
        self * self
    }

    /// The nearest whole number, halves up.
    pub fn rounded(self) -> i64 {
        let sum = self + fraction(1, 2);
        sum.upper.div_euclid(sum.lower) as i64
    }

    /// In lowest terms, so that a long sum fits.
    pub fn reduced(self) -> Fraction {
        let (mut divisor, mut rest) = (self.lower, self.upper.abs());
        while rest > 0 {
            (divisor, rest) = (rest, divisor % rest);
        }
        Fraction { upper: self.upper / divisor, lower: self.lower / divisor }
    }
}

impl Add for Fraction {
    type Output = Fraction;
    fn add(self, other: Fraction) -> Fraction {
        Fraction { upper: self.upper * other.lower + other.upper * self.lower, lower: self.lower * other.lower }
    }
}

impl Sub for Fraction {
    type Output = Fraction;
    fn sub(self, other: Fraction) -> Fraction {
        self + Fraction { upper: -other.upper, lower: other.lower }
    }
}

impl Mul for Fraction {
    type Output = Fraction;
    fn mul(self, other: Fraction) -> Fraction {
        Fraction { upper: self.upper * other.upper, lower: self.lower * other.lower }
    }
}

/// By a fraction above 0.
impl Div for Fraction {
    type Output = Fraction;
    fn div(self, other: Fraction) -> Fraction {
        self * Fraction { upper: other.lower, lower: other.upper }
    }
}

impl PartialEq for Fraction {
    fn eq(&self, other: &Fraction) -> bool {
        self.partial_cmp(other) == Some(Ordering::Equal)
    }
}

impl PartialOrd for Fraction {
    fn partial_cmp(&self, other: &Fraction) -> Option<Ordering> {
        (self.upper * other.lower).partial_cmp(&(other.upper * self.lower))
    }
}
