//! Whole numbers without a size limit: `Natural` (0 and up) and `Integer` (signed).

use std::cmp::Ordering;

/// A whole number of 0 or more: limbs of 32 bits, lowest first, no zero limb on top.
#[derive(Clone, Debug, PartialEq, Eq, Default)]
pub struct Natural {
    limbs: Vec<u32>,
}

impl From<u64> for Natural {
    fn from(value: u64) -> Natural {
        Natural::from(value as u128)
    }
}

impl From<u128> for Natural {
    fn from(mut value: u128) -> Natural {
        let mut limbs = Vec::new();
        while value > 0 {
            limbs.push(value as u32);
            value >>= 32;
        }
        Natural { limbs }
    }
}

impl Natural {
    pub fn zero() -> Natural {
        Natural { limbs: Vec::new() }
    }

    pub fn one() -> Natural {
        Natural::from(1u64)
    }

    pub fn is_zero(&self) -> bool {
        self.limbs.is_empty()
    }

    fn from_limbs(mut limbs: Vec<u32>) -> Natural {
        while limbs.last() == Some(&0) {
            limbs.pop();
        }
        Natural { limbs }
    }

    /// The value, if it fits.
    pub fn to_u128(&self) -> Option<u128> {
        if self.limbs.len() > 4 {
            return None;
        }
        Some(
            self.limbs
                .iter()
                .rev()
                .fold(0u128, |value, limb| (value << 32) | *limb as u128),
        )
    }

    pub fn to_u64(&self) -> Option<u64> {
        self.to_u128().and_then(|value| u64::try_from(value).ok())
    }

    pub fn bits(&self) -> usize {
        match self.limbs.last() {
            None => 0,
            Some(top) => self.limbs.len() * 32 - top.leading_zeros() as usize,
        }
    }

    pub fn compare(&self, other: &Natural) -> Ordering {
        if self.limbs.len() != other.limbs.len() {
            return self.limbs.len().cmp(&other.limbs.len());
        }
        for (left, right) in self.limbs.iter().rev().zip(other.limbs.iter().rev()) {
            if left != right {
                return left.cmp(right);
            }
        }
        Ordering::Equal
    }

    pub fn add(&self, other: &Natural) -> Natural {
        let (long, short) = if self.limbs.len() >= other.limbs.len() {
            (self, other)
        } else {
            (other, self)
        };
        let mut limbs = Vec::with_capacity(long.limbs.len() + 1);
        let mut carry = 0u64;
        for (index, limb) in long.limbs.iter().enumerate() {
            let sum = *limb as u64 + short.limbs.get(index).copied().unwrap_or(0) as u64 + carry;
            limbs.push(sum as u32);
            carry = sum >> 32;
        }
        if carry > 0 {
            limbs.push(carry as u32);
        }
        Natural { limbs }
    }

    /// `self - other`; `None` if that is below 0.
    pub fn checked_sub(&self, other: &Natural) -> Option<Natural> {
        if self.compare(other) == Ordering::Less {
            return None;
        }
        let mut limbs = Vec::with_capacity(self.limbs.len());
        let mut borrow = 0i64;
        for (index, limb) in self.limbs.iter().enumerate() {
            let mut difference =
                *limb as i64 - other.limbs.get(index).copied().unwrap_or(0) as i64 - borrow;
            borrow = 0;
            if difference < 0 {
                difference += 1 << 32;
                borrow = 1;
            }
            limbs.push(difference as u32);
        }
        Some(Natural::from_limbs(limbs))
    }

    /// `self - other`, which must not be below 0.
    pub fn sub(&self, other: &Natural) -> Natural {
        self.checked_sub(other)
            .expect("a natural difference below 0")
    }

    /// The larger less the smaller.
    pub fn distance(&self, other: &Natural) -> Natural {
        match self.checked_sub(other) {
            Some(difference) => difference,
            None => other.sub(self),
        }
    }

    pub fn mul(&self, other: &Natural) -> Natural {
        if self.is_zero() || other.is_zero() {
            return Natural::zero();
        }
        let mut limbs = vec![0u32; self.limbs.len() + other.limbs.len()];
        for (i, left) in self.limbs.iter().enumerate() {
            let mut carry = 0u64;
            for (j, right) in other.limbs.iter().enumerate() {
                let sum = limbs[i + j] as u64 + *left as u64 * *right as u64 + carry;
                limbs[i + j] = sum as u32;
                carry = sum >> 32;
            }
            limbs[i + other.limbs.len()] = carry as u32;
        }
        Natural::from_limbs(limbs)
    }

    pub fn mul_u64(&self, factor: u64) -> Natural {
        self.mul(&Natural::from(factor))
    }

    /// Quotient and remainder; the divisor must not be 0.
    pub fn div_rem(&self, divisor: &Natural) -> (Natural, Natural) {
        assert!(!divisor.is_zero(), "division by 0");
        if self.compare(divisor) == Ordering::Less {
            return (Natural::zero(), self.clone());
        }
        if divisor.limbs.len() == 1 {
            let small = divisor.limbs[0] as u64;
            let mut quotient = vec![0u32; self.limbs.len()];
            let mut rest = 0u64;
            for index in (0..self.limbs.len()).rev() {
                let part = (rest << 32) | self.limbs[index] as u64;
                quotient[index] = (part / small) as u32;
                rest = part % small;
            }
            return (Natural::from_limbs(quotient), Natural::from(rest));
        }
        // Long division by limbs: the divisor is shifted so that its top bit is set,
        // then each trial digit from the top two limbs is at most 2 too large.
        let shift = divisor.limbs[divisor.limbs.len() - 1].leading_zeros();
        let v = divisor.shift_left(shift).limbs;
        let mut u = self.shift_left(shift).limbs;
        let n = v.len();
        if u.len() == self.limbs.len() {
            u.push(0);
        }
        let m = u.len() - n - 1;
        let base = 1u64 << 32;
        let mut quotient = vec![0u32; m + 1];
        for j in (0..=m).rev() {
            let top = ((u[j + n] as u64) << 32) | u[j + n - 1] as u64;
            let mut digit = top / v[n - 1] as u64;
            let mut rest = top % v[n - 1] as u64;
            while digit >= base || digit * v[n - 2] as u64 > (rest << 32) + u[j + n - 2] as u64 {
                digit -= 1;
                rest += v[n - 1] as u64;
                if rest >= base {
                    break;
                }
            }
            let mut borrow = 0i64;
            let mut carry = 0u64;
            for i in 0..n {
                let product = digit * v[i] as u64 + carry;
                carry = product >> 32;
                let difference = u[i + j] as i64 - borrow - (product & 0xffff_ffff) as i64;
                u[i + j] = difference as u32;
                borrow = if difference < 0 { 1 } else { 0 };
            }
            let difference = u[j + n] as i64 - borrow - carry as i64;
            u[j + n] = difference as u32;
            if difference < 0 {
                digit -= 1;
                let mut carry = 0u64;
                for i in 0..n {
                    let sum = u[i + j] as u64 + v[i] as u64 + carry;
                    u[i + j] = sum as u32;
                    carry = sum >> 32;
                }
                u[j + n] = (u[j + n] as u64 + carry) as u32;
            }
            quotient[j] = digit as u32;
        }
        u.truncate(n);
        (
            Natural::from_limbs(quotient),
            Natural::from_limbs(u).shift_right(shift),
        )
    }

    /// Shift left by less than 32 bits.
    fn shift_left(&self, shift: u32) -> Natural {
        let mut limbs = Vec::with_capacity(self.limbs.len() + 1);
        let mut carry = 0u64;
        for limb in &self.limbs {
            let part = ((*limb as u64) << shift) | carry;
            limbs.push(part as u32);
            carry = part >> 32;
        }
        if carry > 0 {
            limbs.push(carry as u32);
        }
        Natural { limbs }
    }

    /// Shift right by less than 32 bits.
    fn shift_right(&self, shift: u32) -> Natural {
        let mut limbs = vec![0u32; self.limbs.len()];
        let mut carry = 0u64;
        for index in (0..self.limbs.len()).rev() {
            let part = (carry << 32) | self.limbs[index] as u64;
            limbs[index] = (part >> shift) as u32;
            carry = part & ((1u64 << shift) - 1);
        }
        Natural::from_limbs(limbs)
    }

    /// Greatest common divisor.
    pub fn gcd(&self, other: &Natural) -> Natural {
        let (mut left, mut right) = (self.clone(), other.clone());
        while !right.is_zero() {
            let rest = left.div_rem(&right).1;
            left = right;
            right = rest;
        }
        left
    }

    /// Decimal digits only, at least one.
    pub fn from_decimal(text: &str) -> Option<Natural> {
        if text.is_empty() {
            return None;
        }
        let mut value = Natural::zero();
        for byte in text.bytes() {
            if !byte.is_ascii_digit() {
                return None;
            }
            value = value.mul_u64(10).add(&Natural::from((byte - b'0') as u64));
        }
        Some(value)
    }

    pub fn to_decimal(&self) -> String {
        if self.is_zero() {
            return "0".to_string();
        }
        let billion = Natural::from(1_000_000_000u64);
        let mut groups = Vec::new();
        let mut rest = self.clone();
        while !rest.is_zero() {
            let (quotient, group) = rest.div_rem(&billion);
            groups.push(group.to_u64().unwrap());
            rest = quotient;
        }
        let mut text = groups.pop().unwrap().to_string();
        for group in groups.iter().rev() {
            text.push_str(&format!("{group:09}"));
        }
        text
    }
}

/// A signed whole number; 0 is never negative.
#[derive(Clone, Debug, PartialEq, Eq, Default)]
pub struct Integer {
    negative: bool,
    magnitude: Natural,
}

impl From<i128> for Integer {
    fn from(value: i128) -> Integer {
        Integer::new(value < 0, Natural::from(value.unsigned_abs()))
    }
}

impl From<Natural> for Integer {
    fn from(value: Natural) -> Integer {
        Integer::new(false, value)
    }
}

impl Integer {
    pub fn new(negative: bool, magnitude: Natural) -> Integer {
        Integer {
            negative: negative && !magnitude.is_zero(),
            magnitude,
        }
    }

    pub fn is_negative(&self) -> bool {
        self.negative
    }

    pub fn is_zero(&self) -> bool {
        self.magnitude.is_zero()
    }

    pub fn magnitude(&self) -> &Natural {
        &self.magnitude
    }

    pub fn negated(&self) -> Integer {
        Integer::new(!self.negative, self.magnitude.clone())
    }

    pub fn compare(&self, other: &Integer) -> Ordering {
        match (self.negative, other.negative) {
            (false, false) => self.magnitude.compare(&other.magnitude),
            (true, true) => other.magnitude.compare(&self.magnitude),
            (false, true) => Ordering::Greater,
            (true, false) => Ordering::Less,
        }
    }

    pub fn add(&self, other: &Integer) -> Integer {
        if self.negative == other.negative {
            return Integer::new(self.negative, self.magnitude.add(&other.magnitude));
        }
        match self.magnitude.checked_sub(&other.magnitude) {
            Some(difference) => Integer::new(self.negative, difference),
            None => Integer::new(other.negative, other.magnitude.sub(&self.magnitude)),
        }
    }

    pub fn sub(&self, other: &Integer) -> Integer {
        self.add(&other.negated())
    }

    pub fn mul(&self, other: &Integer) -> Integer {
        Integer::new(
            self.negative != other.negative,
            self.magnitude.mul(&other.magnitude),
        )
    }

    pub fn mul_natural(&self, other: &Natural) -> Integer {
        Integer::new(self.negative, self.magnitude.mul(other))
    }

    /// Quotient rounded down and the remainder, which is from 0 to below the divisor.
    pub fn div_rem_floor(&self, divisor: &Natural) -> (Integer, Natural) {
        let (quotient, rest) = self.magnitude.div_rem(divisor);
        if !self.negative {
            (Integer::new(false, quotient), rest)
        } else if rest.is_zero() {
            (Integer::new(true, quotient), rest)
        } else {
            (
                Integer::new(true, quotient.add(&Natural::one())),
                divisor.sub(&rest),
            )
        }
    }

    /// Decimal digits with a minus before, if any.
    pub fn from_decimal(text: &str) -> Option<Integer> {
        match text.strip_prefix('-') {
            Some(digits) => Natural::from_decimal(digits).map(|value| Integer::new(true, value)),
            None => Natural::from_decimal(text).map(|value| Integer::new(false, value)),
        }
    }

    pub fn to_decimal(&self) -> String {
        let sign = if self.negative { "-" } else { "" };
        format!("{sign}{}", self.magnitude.to_decimal())
    }
}

#[cfg(test)]
mod tests {
    use super::*;

    struct Draw(u64);
    impl Draw {
        fn next(&mut self) -> u64 {
            self.0 ^= self.0 << 13;
            self.0 ^= self.0 >> 7;
            self.0 ^= self.0 << 17;
            self.0
        }
        /// Numbers of all sizes, with runs of ones and zeros among them.
        fn wide(&mut self) -> u128 {
            let raw = ((self.next() as u128) << 64) | self.next() as u128;
            let value = raw >> (self.next() % 128);
            match self.next() % 4 {
                0 => value | 0xffff_ffff,
                1 => value & !0xffff_ffff,
                2 => value | (0xffff_ffffu128 << 32),
                _ => value,
            }
        }
    }

    #[test]
    fn naturals_against_u128() {
        let mut draw = Draw(0x9e37_79b9_7f4a_7c15);
        for _ in 0..20_000 {
            let (a, b) = (draw.wide(), draw.wide());
            let (x, y) = (Natural::from(a), Natural::from(b));
            assert_eq!(x.to_u128(), Some(a));
            assert_eq!(x.compare(&y), a.cmp(&b));
            if let Some(sum) = a.checked_add(b) {
                assert_eq!(x.add(&y).to_u128(), Some(sum));
            }
            assert_eq!(
                x.checked_sub(&y).and_then(|d| d.to_u128()),
                a.checked_sub(b)
            );
            if let Some(product) = a.checked_mul(b) {
                assert_eq!(x.mul(&y).to_u128(), Some(product));
            }
            if b > 0 {
                let (quotient, rest) = x.div_rem(&y);
                assert_eq!(
                    (quotient.to_u128(), rest.to_u128()),
                    (Some(a / b), Some(a % b))
                );
            }
            assert_eq!(x.to_decimal(), a.to_string());
            assert_eq!(Natural::from_decimal(&a.to_string()), Some(x));
        }
    }

    #[test]
    fn long_division_multiplies_back() {
        let mut draw = Draw(77);
        for _ in 0..5_000 {
            let a = Natural::from(draw.wide())
                .mul(&Natural::from(draw.wide()))
                .mul(&Natural::from(draw.wide()));
            let b = Natural::from(draw.wide()).mul(&Natural::from(draw.wide()));
            if b.is_zero() {
                continue;
            }
            let (quotient, rest) = a.div_rem(&b);
            assert_eq!(rest.compare(&b), Ordering::Less);
            assert_eq!(quotient.mul(&b).add(&rest), a);
            assert_eq!(Natural::from_decimal(&a.to_decimal()), Some(a));
        }
    }

    #[test]
    fn the_rare_correction_of_a_trial_digit() {
        // Divisors just below a power of the limb, where the trial digit is too large.
        let power = |n: u32| (0..n).fold(Natural::one(), |value, _| value.mul_u64(1 << 32));
        for n in 3..8u32 {
            let a = power(n).sub(&Natural::one());
            for m in 2..n {
                for less in [1u64, 2, 0xffff_ffff, 0x1_0000_0000, 0x1_0000_0001] {
                    let b = power(m).sub(&Natural::from(less));
                    for top in [
                        a.clone(),
                        a.sub(&power(n - 1)),
                        a.sub(&power(n - 2)),
                        power(n - 1).mul_u64(0x8000_0000),
                    ] {
                        let (quotient, rest) = top.div_rem(&b);
                        assert_eq!(rest.compare(&b), Ordering::Less);
                        assert_eq!(quotient.mul(&b).add(&rest), top);
                    }
                }
            }
        }
    }

    #[test]
    fn integers_against_i128() {
        let mut draw = Draw(5);
        for _ in 0..20_000 {
            let (a, b) = ((draw.wide() >> 66) as i128, (draw.wide() >> 66) as i128);
            let a = if draw.next() % 2 == 0 { -a } else { a };
            let b = if draw.next() % 2 == 0 { -b } else { b };
            let (x, y) = (Integer::from(a), Integer::from(b));
            assert_eq!(x.add(&y), Integer::from(a + b));
            assert_eq!(x.sub(&y), Integer::from(a - b));
            assert_eq!(x.mul(&y), Integer::from(a * b));
            assert_eq!(x.compare(&y), a.cmp(&b));
            assert_eq!(x.to_decimal(), a.to_string());
            assert_eq!(Integer::from_decimal(&a.to_string()), Some(x.clone()));
            if b > 0 {
                let (quotient, rest) = x.div_rem_floor(y.magnitude());
                assert_eq!(quotient, Integer::from(a.div_euclid(b)));
                assert_eq!(rest.to_u128(), Some(a.rem_euclid(b) as u128));
            }
        }
    }

    #[test]
    fn common_divisors() {
        assert_eq!(
            Natural::from(61u64 * 167).gcd(&Natural::from(61u64 * 100)),
            Natural::from(61u64)
        );
        assert_eq!(
            Natural::zero().gcd(&Natural::from(7u64)),
            Natural::from(7u64)
        );
    }
}
