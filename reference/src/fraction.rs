//! A fraction: a whole number over a whole number above 0, compared by cross products.

use crate::big::{Integer, Natural};
use std::cmp::Ordering;

#[derive(Clone, Debug)]
pub struct Fraction {
    pub numerator: Integer,
    pub denominator: Natural,
}

impl Fraction {
    pub fn new(numerator: Integer, denominator: Natural) -> Fraction {
        assert!(!denominator.is_zero(), "a fraction over 0");
        Fraction {
            numerator,
            denominator,
        }
    }

    /// A fraction from small parts.
    pub fn of(numerator: i128, denominator: u128) -> Fraction {
        Fraction::new(Integer::from(numerator), Natural::from(denominator))
    }

    pub fn whole(value: i128) -> Fraction {
        Fraction::of(value, 1)
    }

    pub fn compare(&self, other: &Fraction) -> Ordering {
        let left = self.numerator.mul_natural(&other.denominator);
        let right = other.numerator.mul_natural(&self.denominator);
        left.compare(&right)
    }

    pub fn at_most(&self, other: &Fraction) -> bool {
        self.compare(other) != Ordering::Greater
    }

    pub fn below(&self, other: &Fraction) -> bool {
        self.compare(other) == Ordering::Less
    }

    pub fn add(&self, other: &Fraction) -> Fraction {
        let left = self.numerator.mul_natural(&other.denominator);
        let right = other.numerator.mul_natural(&self.denominator);
        Fraction::new(left.add(&right), self.denominator.mul(&other.denominator))
    }

    pub fn sub(&self, other: &Fraction) -> Fraction {
        self.add(&Fraction::new(
            other.numerator.negated(),
            other.denominator.clone(),
        ))
    }

    pub fn mul(&self, other: &Fraction) -> Fraction {
        Fraction::new(
            self.numerator.mul(&other.numerator),
            self.denominator.mul(&other.denominator),
        )
    }

    pub fn mul_whole(&self, factor: u64) -> Fraction {
        Fraction::new(
            self.numerator.mul_natural(&Natural::from(factor)),
            self.denominator.clone(),
        )
    }

    /// Rounded down.
    pub fn floor(&self) -> Integer {
        self.numerator.div_rem_floor(&self.denominator).0
    }

    /// Lowest terms.
    pub fn reduced(&self) -> Fraction {
        let divisor = self.numerator.magnitude().gcd(&self.denominator);
        let numerator = Integer::new(
            self.numerator.is_negative(),
            self.numerator.magnitude().div_rem(&divisor).0,
        );
        Fraction::new(numerator, self.denominator.div_rem(&divisor).0)
    }
}

#[cfg(test)]
mod tests {
    use super::*;

    #[test]
    fn small_fractions() {
        assert!(Fraction::of(1, 3).below(&Fraction::of(34, 100)));
        assert!(Fraction::of(-1, 3).below(&Fraction::of(-33, 100)));
        assert_eq!(
            Fraction::of(2, 6).compare(&Fraction::of(1, 3)),
            Ordering::Equal
        );
        let sum = Fraction::of(1, 6).add(&Fraction::of(1, 3)).reduced();
        assert_eq!(
            (sum.numerator.to_decimal(), sum.denominator.to_decimal()),
            ("1".into(), "2".into())
        );
        assert_eq!(Fraction::of(-7, 2).floor(), Integer::from(-4));
        assert_eq!(Fraction::of(7, 2).floor(), Integer::from(3));
        assert_eq!(
            Fraction::of(1, 2)
                .sub(&Fraction::of(1, 3))
                .compare(&Fraction::of(1, 6)),
            Ordering::Equal
        );
        assert_eq!(
            Fraction::of(2, 3)
                .mul(&Fraction::of(-3, 4))
                .compare(&Fraction::of(-1, 2)),
            Ordering::Equal
        );
    }
}
