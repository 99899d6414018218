//! Exact rates (01, "Fractions"): a numerator and a denominator in lowest terms, zero is 0/1.
//! Assumes that no part of a value passes 128 bits. The rates of document 01 stay far below, and
//! the build stops at an overflow instead of wrapping.

use std::cmp::Ordering;

/// A fraction of at least zero. The parts are private, so that every value is in lowest terms and
/// two equal values have equal parts.
#[derive(Clone, Copy, Debug, PartialEq, Eq)]
pub struct Fraction {
    num: u128,
    den: u128,
}

impl Fraction {
    /// 01, "Fractions": zero is 0/1.
    pub const ZERO: Fraction = Fraction { num: 0, den: 1 };

    /// `num / den` in lowest terms, or nothing where the denominator is 0.
    pub fn new(num: u128, den: u128) -> Option<Fraction> {
        (den != 0).then(|| lowest(num, den))
    }

    /// A whole number as a fraction over 1.
    pub fn whole(value: u64) -> Fraction {
        Fraction {
            num: u128::from(value),
            den: 1,
        }
    }

    /// The numerator in lowest terms.
    pub fn num(self) -> u128 {
        self.num
    }

    /// The denominator in lowest terms, at least 1.
    pub fn den(self) -> u128 {
        self.den
    }

    /// The sum, in lowest terms (01, "Added here": each partial sum in lowest terms).
    pub fn plus(self, other: Fraction) -> Fraction {
        lowest(
            self.num * other.den + other.num * self.den,
            self.den * other.den,
        )
    }

    /// What each of `members` gets of a capacity of which `taken` is used:
    /// (capacity - taken) / members (001, Figure 1, line 4, and section III.C). Nothing where
    /// nobody is there to share, or where more is taken than there is.
    pub fn share(capacity: u64, taken: Fraction, members: usize) -> Option<Fraction> {
        let left = (u128::from(capacity) * taken.den).checked_sub(taken.num)?;
        Fraction::new(left, taken.den * members as u128)
    }
}

// Rates are compared exactly (01, "Fractions"): by cross multiplication, never after a division.
impl Ord for Fraction {
    fn cmp(&self, other: &Fraction) -> Ordering {
        (self.num * other.den).cmp(&(other.num * self.den))
    }
}

impl PartialOrd for Fraction {
    fn partial_cmp(&self, other: &Fraction) -> Option<Ordering> {
        Some(self.cmp(other))
    }
}

/// The greatest common divisor, by recursion on remainders (01, "Fractions").
pub fn common_divisor(a: u128, b: u128) -> u128 {
    if b == 0 {
        a
    } else {
        common_divisor(b, a % b)
    }
}

// A fraction whose denominator is known to be positive.
fn lowest(num: u128, den: u128) -> Fraction {
    let divisor = common_divisor(num, den);
    Fraction {
        num: num / divisor,
        den: den / divisor,
    }
}
