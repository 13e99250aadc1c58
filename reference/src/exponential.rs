//! Steps 1, 2 and 4, and change 2026-04's ages: everything that needs e^(-w). Whole numbers decide,
//! never a float.
//!
//! The one fact used: for a fraction w of 0 or more, e^(-w) lies at or below each sum
//! 1 - w + w²/2 - ... that ends on a plus term and at or above each that ends on a minus term.
//!
//! Change 2026-04's ages and change 2026-03's number of terms, which is as include/rothc.h counts
//! them, stand below step 4.

use crate::big::{Integer, Natural};
use crate::fraction::Fraction;
use std::cmp::Ordering;
use std::sync::OnceLock;

/// Parts of a survival number: 1,000,000,000 is the whole pool.
pub const BILLION: u64 = 1_000_000_000;

/// w = N × K / this.
pub const EXPONENT_PARTS: u64 = 1_200_000_000_000;

/// The sums of the series for e^(-w), one term more with each `advance`.
pub struct Sums {
    p: Natural,
    q: Natural,
    power: Natural,
    sum: Integer,
    denominator: Natural,
    term: u64,
}

impl Sums {
    /// The sum with the one term 1. w must not be negative.
    pub fn new(w: &Fraction) -> Sums {
        assert!(!w.numerator.is_negative(), "w is 0 or more");
        Sums {
            p: w.numerator.magnitude().clone(),
            q: w.denominator.clone(),
            power: Natural::one(),
            sum: Integer::from(1),
            denominator: Natural::one(),
            term: 0,
        }
    }

    /// Takes in the next term: over the denominator q^m × m! it is p^m.
    pub fn advance(&mut self) {
        self.term += 1;
        let step = self.q.mul_u64(self.term);
        self.power = self.power.mul(&self.p);
        self.denominator = self.denominator.mul(&step);
        let term = Integer::new(self.term % 2 == 1, self.power.clone());
        self.sum = self.sum.mul_natural(&step).add(&term);
    }

    pub fn ends_on_plus(&self) -> bool {
        self.term % 2 == 0
    }

    pub fn value(&self) -> Fraction {
        Fraction::new(self.sum.clone(), self.denominator.clone())
    }

    pub fn term(&self) -> u64 {
        self.term
    }
}

/// below <= e^(-w) <= above: two neighbouring sums.
#[derive(Clone, Debug)]
pub struct Bracket {
    pub below: Fraction,
    pub above: Fraction,
}

/// The sums that end on term `last` (made even) and on the minus term after it.
pub fn bracket(w: &Fraction, last: u64) -> Bracket {
    let mut sums = Sums::new(w);
    while sums.term < last || !sums.ends_on_plus() {
        sums.advance();
    }
    let above = sums.value();
    sums.advance();
    Bracket {
        below: sums.value(),
        above,
    }
}

/// Narrows the bracket until `read` says the same at both ends.
/// `read` must be monotone (rising or falling) in its argument, so what it says
/// at both ends holds for every number between them, e^(-w) included.
fn decide<T: PartialEq>(w: &Fraction, read: impl Fn(&Fraction) -> T) -> T {
    let mut sums = Sums::new(w);
    // Past 2w terms each is less than half of the one before it.
    let size = w.floor().magnitude().to_u64().expect("w is small");
    let enough = 2 * size + 24;
    loop {
        while sums.term < enough || !sums.ends_on_plus() {
            sums.advance();
        }
        let above = sums.value();
        sums.advance();
        let below = sums.value();
        if !below.numerator.is_negative() {
            let answer = read(&below);
            if answer == read(&above) {
                return answer;
            }
        }
    }
}

/// The whole number nearest to numerator / denominator, halves up.
fn nearest_whole(numerator: &Natural, denominator: &Natural) -> u64 {
    let twice = denominator.mul_u64(2);
    numerator
        .mul_u64(2)
        .add(denominator)
        .div_rem(&twice)
        .0
        .to_u64()
        .expect("a small quotient")
}

/// Step 1 for T from -50 to 500, straight from the bracket.
/// u = 10,606 / (10 T + 1,827); with x = e^(-u) the number is 479,100 × x / (x + 1), rising in x.
pub fn temperature_from_series(temperature: i64) -> u64 {
    assert!((-50..=500).contains(&temperature));
    let u = Fraction::of(10_606, (10 * temperature + 1_827) as u128);
    decide(&u, |x| {
        let top = x.numerator.magnitude();
        nearest_whole(&top.mul_u64(479_100), &top.add(&x.denominator))
    })
}

/// Step 2, straight from the bracket.
/// 1 + z = (40,895 + 26,720 × x) / 10,000 with x = e^(-786 C / 100,000); the number falls in x.
pub fn clay_from_series(clay: i64) -> u64 {
    assert!((0..=1000).contains(&clay));
    let w = Fraction::of(786 * clay as i128, 100_000);
    decide(&w, |x| {
        let top = x.denominator.mul(&Natural::from(10_000_000_000u64));
        let bottom = x
            .denominator
            .mul_u64(40_895)
            .add(&x.numerator.magnitude().mul_u64(26_720));
        nearest_whole(&top, &bottom)
    })
}

/// Step 1: A for T up to 500; 0 below -50.
pub fn temperature_factor(temperature: i64) -> u64 {
    static TABLE: OnceLock<Vec<u64>> = OnceLock::new();
    if temperature < -50 {
        return 0;
    }
    let table = TABLE.get_or_init(|| (-50..=500).map(temperature_from_series).collect());
    table[usize::try_from(temperature + 50).unwrap()]
}

/// Step 2: R for C from 0 to 1000.
pub fn clay_factor(clay: i64) -> u64 {
    static TABLE: OnceLock<Vec<u64>> = OnceLock::new();
    let table = TABLE.get_or_init(|| (0..=1000).map(clay_from_series).collect());
    table[usize::try_from(clay).unwrap()]
}

// ---- Step 4 ----

const POINT: u32 = 72;

/// A bracket of 2^72 × e^(-w), w = top / bottom of at most 8, in whole numbers.
///
/// Rigorous: `low` and `high` enclose each term w^m / m! × 2^72. From one term to the next the
/// enclosure is multiplied by top / (bottom × m), `low` rounded down and `high` up. A sum ending on
/// a minus term is at least the low plus terms less the high minus terms, one ending on a plus term
/// at most the high plus terms less the low minus terms.
/// Terms are at most 8^8 / 8! < 2^9, and a bottom of up to 1,200,000,000,000 has a top below 2^44,
/// so high × top < 2^(81 + 44) fits in 128 bits (and the build checks for overflow).
fn point_bracket(top: u128, bottom: u128) -> (i128, i128) {
    let (mut low, mut high) = (1u128 << POINT, 1u128 << POINT);
    let (mut plus_low, mut plus_high) = (low, high);
    let (mut minus_low, mut minus_high) = (0u128, 0u128);
    let mut term = 0u128;
    loop {
        // A minus term, then a plus term.
        term += 1;
        let divisor = bottom * term;
        low = low * top / divisor;
        high = (high * top).div_ceil(divisor);
        minus_low += low;
        minus_high += high;
        let below = plus_low as i128 - minus_high as i128;
        term += 1;
        let divisor = bottom * term;
        low = low * top / divisor;
        high = (high * top).div_ceil(divisor);
        plus_low += low;
        plus_high += high;
        let above = plus_high as i128 - minus_low as i128;
        // Enough once a term is at most one unit; any stop would be sound.
        if high <= 1 {
            return (below, above);
        }
    }
}

/// A fraction w of 0 or more: top / bottom.
pub type Exponent = (u128, u128);

/// w of step 4.
fn of_rate(n: u64, k: u64) -> Exponent {
    (n as u128 * k as u128, EXPONENT_PARTS as u128)
}

fn fraction((top, bottom): Exponent) -> Fraction {
    Fraction::new(Integer::from(Natural::from(top)), Natural::from(bottom))
}

/// x = factor × e^(-w) for w above 0: the whole number f with f < x < f + 1.
/// (e^(-w) is irrational, so x is never whole; both ends of the bracket must agree strictly.)
fn open_floor(w: Exponent, factor: u64) -> u64 {
    let (top, bottom) = w;
    assert!(top > 0);
    if top > 30 * bottom {
        // e^(-w) falls in w, and 2,000,000,000 × e^(-30) is below 1 (tested from its bracket).
        assert!(factor <= 2 * BILLION);
        return 0;
    }
    if top <= 8 * bottom {
        let (below, above) = point_bracket(top, bottom);
        if below > 0 {
            let one = 1u128 << POINT;
            let low = below as u128 * factor as u128;
            let high = above as u128 * factor as u128;
            let floor = low / one;
            if low % one > 0 && high < (floor + 1) * one {
                return floor as u64;
            }
        }
    }
    open_floor_by_sums(w, factor)
}

/// The same from the paper's sums alone, in fractions.
fn open_floor_by_sums(w: Exponent, factor: u64) -> u64 {
    let (floor, whole) = decide(&fraction(w), |x| {
        let (floor, rest) = x.mul_whole(factor).numerator.div_rem_floor(&x.denominator);
        (floor, rest.is_zero())
    });
    assert!(!whole);
    floor.magnitude().to_u64().expect("a small floor")
}

/// 1,000,000,000 × e^(-w) rounded down.
fn floor_of(w: Exponent) -> u64 {
    if w.0 == 0 {
        return BILLION;
    }
    open_floor(w, BILLION)
}

/// The whole number nearest to 1,000,000,000 × e^(-w).
pub fn nearest_of(w: Exponent) -> u64 {
    if w.0 == 0 {
        return BILLION;
    }
    // Half of the doubled number, rounded up: floor(2x) is 2f or 2f + 1.
    open_floor(w, 2 * BILLION).div_ceil(2)
}

/// The lowest and the highest whole number from 0 to 1,000,000,000 at most `distance` from x, which
/// lies between this floor and the next whole number.
fn range_around(floor: u64, distance: u64) -> (u64, u64) {
    // f < x < f + 1: the whole numbers within d of x run from f + 1 - d to f + d.
    (
        (floor + 1).saturating_sub(distance),
        (floor + distance).min(BILLION),
    )
}

/// 1,000,000,000 × e^(-w) rounded down.
pub fn survival_floor(n: u64, k: u64) -> u64 {
    floor_of(of_rate(n, k))
}

/// The survival number nearest to 1,000,000,000 × e^(-w).
pub fn survival_nearest(n: u64, k: u64) -> u64 {
    nearest_of(of_rate(n, k))
}

/// Step 4: the lowest and the highest survival number at most `distance` from the exact one.
/// Every whole number between them is one too. At w = 0 only 1,000,000,000.
pub fn survival_range(n: u64, k: u64, distance: u64) -> (u64, u64) {
    if n == 0 || k == 0 {
        return (BILLION, BILLION);
    }
    range_around(survival_floor(n, k), distance)
}

/// The numbers that step 4 allows: at most 3 from.
pub fn allowed_range(n: u64, k: u64) -> (u64, u64) {
    survival_range(n, k, 3)
}

/// Is s at most d from 1,000,000,000 × e^(-w), from 0 to 1,000,000,000, and exact at w = 0?
pub fn within(s: u64, n: u64, k: u64, d: u64) -> bool {
    let (lowest, highest) = survival_range(n, k, d);
    (lowest..=highest).contains(&s)
}

/// Does step 4 allow s?
pub fn allowed(s: u64, n: u64, k: u64) -> bool {
    within(s, n, k, 3)
}

/// The paper's words, sum by sum, up to the given last term: s - d passes no sum that ends on a
/// plus term and s + d falls below none that ends on a minus term. For the tests.
pub fn within_by_sums(s: u64, n: u64, k: u64, d: u64, last: u64) -> bool {
    if s > BILLION || ((n == 0 || k == 0) && s != BILLION) {
        return false;
    }
    let low = Fraction::whole(s as i128 - d as i128);
    let high = Fraction::whole(s as i128 + d as i128);
    let mut sums = Sums::new(&fraction(of_rate(n, k)));
    loop {
        let sum = sums.value().mul_whole(BILLION);
        if sums.ends_on_plus() && low.compare(&sum) == Ordering::Greater {
            return false;
        }
        if !sums.ends_on_plus() && high.compare(&sum) == Ordering::Less {
            return false;
        }
        if sums.term() >= last {
            return true;
        }
        sums.advance();
    }
}

// ---- Change 2026-04: survival numbers of ages ----

/// w = years / this: radiocarbon's mean life in years.
pub const MEAN_LIFE: u64 = 8_035;

/// The oldest age that is given.
pub const OLDEST: u64 = 60_000;

fn of_age(years: u64) -> Exponent {
    (years as u128, MEAN_LIFE as u128)
}

/// An age's survival number rounded down and the nearest, for every age that is given.
fn age_numbers(years: u64) -> (u64, u64) {
    static TABLE: OnceLock<Vec<(u64, u64)>> = OnceLock::new();
    let table = TABLE.get_or_init(|| {
        let numbers = |years| (floor_of(of_age(years)), nearest_of(of_age(years)));
        (0..=OLDEST).map(numbers).collect()
    });
    table[usize::try_from(years).expect("an age that is given")]
}

/// 1,000,000,000 × e^(-years / 8035) rounded down.
pub fn age_floor(years: u64) -> u64 {
    age_numbers(years).0
}

/// The whole number nearest to 1,000,000,000 × e^(-years / 8035).
pub fn age_nearest(years: u64) -> u64 {
    age_numbers(years).1
}

/// The lowest and the highest number at most `distance` from the exact one; exact at age 0.
pub fn age_range(years: u64, distance: u64) -> (u64, u64) {
    if years == 0 {
        return (BILLION, BILLION);
    }
    range_around(age_floor(years), distance)
}

/// Is s at most d from 1,000,000,000 × e^(-years / 8035), from 0 to 1,000,000,000, and exact at 0?
pub fn age_within(s: u64, years: u64, d: u64) -> bool {
    let (lowest, highest) = age_range(years, d);
    (lowest..=highest).contains(&s)
}

/// Is e^(-years / 8035) at most part / whole? By the paper's sums alone, in fractions.
pub fn age_at_most(years: u64, part: u64, whole: u64) -> bool {
    assert!(whole > 0, "a fraction");
    if years == 0 {
        return part >= whole;
    }
    let bound = Fraction::of(part as i128, whole as u128);
    decide(&fraction(of_age(years)), |x| x.at_most(&bound))
}

// ---- Change 2026-03: how many terms of the series are summed ----
//
// The papers ask for a number of terms without saying how they are counted; include/rothc.h says
// it, and these are its words in whole numbers.

/// The most terms that document 02 allows for any w.
pub const MOST_TERMS: u64 = 40;

/// Term 0 of the series: 1 in parts of 2^37.
const ONE_PARTS: u128 = 1 << 37;

/// What the remainder is taken by: 1/32 in parts of 2^37.
pub const STEP_PARTS: u128 = 1 << 32;

/// w in parts of 2^37: n / 1,200,000,000,000 in parts of 2^44, rounded down, times k, over 2^7,
/// rounded down.
/// n × 2^44 is below 2^108, over 1,200,000,000,000 below 2^68, and times k below 2^78: all fit.
pub fn exponent_parts(n: u64, k: u64) -> u128 {
    assert!(k <= 1_000, "a rate of step 4");
    let parts = ((n as u128) << 44) / EXPONENT_PARTS as u128;
    (parts * k as u128) >> 7
}

/// r: what w is above a multiple of 1/32, in parts of 2^37.
pub fn series_remainder(n: u64, k: u64) -> u128 {
    exponent_parts(n, k) % STEP_PARTS
}

/// The terms before the first that is 0, for an r below 2^32. Term 0 is 2^37, and each is the one
/// before it times r, over 2^37 times its own number, rounded down.
/// No term is above 2^37, so term × r is below 2^69 and fits.
pub fn terms_of_remainder(r: u128) -> u64 {
    assert!(r < STEP_PARTS, "a remainder");
    let mut term = ONE_PARTS;
    let mut count = 0;
    while term > 0 {
        count += 1;
        assert!(count <= MOST_TERMS, "r {r}");
        term = term * r / (ONE_PARTS * u128::from(count));
    }
    count
}

/// How many terms are summed for the survival number of n and k.
pub fn terms(n: u64, k: u64) -> u64 {
    terms_of_remainder(series_remainder(n, k))
}

/// The least number from `low` to `high` that `holds` says yes to, if it keeps to that from there
/// on; `high` where none below it does.
fn least(mut low: u64, mut high: u64, holds: impl Fn(u64) -> bool) -> u64 {
    while low < high {
        let middle = low + (high - low) / 2;
        if holds(middle) {
            high = middle;
        } else {
            low = middle + 1;
        }
    }
    low
}

/// The least r with so many terms; 2^32 where no r has as many. (Each term rises with r.)
pub fn least_remainder(count: u64) -> u128 {
    let least = least(0, STEP_PARTS as u64, |r| {
        terms_of_remainder(u128::from(r)) >= count
    });
    u128::from(least)
}

/// The least n whose w has at least so many parts of 2^37, or `most` if that has fewer.
pub fn least_n(k: u64, parts: u128, most: u64) -> u64 {
    least(0, most, |n| exponent_parts(n, k) >= parts)
}

#[cfg(test)]
mod tests {
    use super::*;

    const RATES: [u64; 4] = [1000, 30, 66, 2];

    /// e^(-1) to 40 digits, known from elsewhere.
    #[test]
    fn bracket_of_one() {
        let known = Natural::from_decimal("3678794411714423215955237701614608674458").unwrap();
        let scale = Natural::from_decimal(&format!("1{}", "0".repeat(40))).unwrap();
        let low = Fraction::new(Integer::from(known.clone()), scale.clone());
        let high = Fraction::new(Integer::from(known.add(&Natural::one())), scale);
        let tight = bracket(&Fraction::whole(1), 60);
        assert!(
            low.at_most(&tight.below)
                && tight.below.at_most(&tight.above)
                && tight.above.at_most(&high)
        );
    }

    #[test]
    fn brackets_nest() {
        for (p, q) in [(0, 1), (1, 7), (697, 100), (8, 1), (10606, 1327)] {
            let w = Fraction::of(p, q);
            for last in [0, 2, 4, 10, 20] {
                let wide = bracket(&w, last);
                let tight = bracket(&w, 60);
                assert!(wide.below.at_most(&tight.below));
                assert!(tight.below.at_most(&tight.above));
                assert!(tight.above.at_most(&wide.above));
            }
        }
    }

    #[test]
    fn e_to_the_minus_thirty_is_small() {
        let above = bracket(&Fraction::whole(30), 150).above;
        assert!(above.mul_whole(2 * BILLION).below(&Fraction::whole(1)));
    }

    #[test]
    fn known_factors() {
        for (t, a) in [
            (-51, 0),
            (-400, 0),
            (-50, 162),
            (34, 3561),
            (93, 10013),
            (500, 83639),
        ] {
            assert_eq!(temperature_factor(t), a, "T {t}");
        }
        for (c, r) in [(0, 147_896), (234, 221_524), (1000, 244_467)] {
            assert_eq!(clay_factor(c), r, "C {c}");
        }
    }

    /// The entries closest to a half: T 133 is 16090.50009735, C 658 is 243625.49987, C 17 is
    /// 155586.50027.
    #[test]
    fn tightest_entries() {
        assert_eq!(temperature_factor(133), 16_091);
        assert_eq!(clay_factor(658), 243_625);
        assert_eq!(clay_factor(17), 155_587);
        let between = |low: Fraction, value: &Fraction, high: Fraction| {
            low.below(value) && value.below(&high)
        };
        let x = bracket(&Fraction::of(10_606, 10 * 133 + 1_827), 60);
        for end in [&x.below, &x.above] {
            let top = end.numerator.mul(&Integer::from(479_100));
            let value = Fraction::new(top, end.numerator.magnitude().add(&end.denominator));
            assert!(between(
                Fraction::of(1_609_050_009_734, 100_000_000),
                &value,
                Fraction::of(1_609_050_009_736, 100_000_000)
            ));
        }
        for (c, low, high) in [
            (658, 24_362_549_986i128, 24_362_549_988i128),
            (17, 15_558_650_026, 15_558_650_028),
        ] {
            let x = bracket(&Fraction::of(786 * c, 100_000), 60);
            for end in [&x.below, &x.above] {
                let bottom = end
                    .denominator
                    .mul_u64(40_895)
                    .add(&end.numerator.magnitude().mul_u64(26_720));
                let value = Fraction::new(
                    Integer::from(end.denominator.mul_u64(10_000_000_000)),
                    bottom,
                );
                assert!(
                    between(
                        Fraction::of(low, 100_000),
                        &value,
                        Fraction::of(high, 100_000)
                    ),
                    "C {c}"
                );
            }
        }
    }

    /// Far from a half a float must agree: a check on the formulas, not on the rounding.
    #[test]
    fn tables_against_floats() {
        let mut near = 0;
        for t in -50..=500i64 {
            let exact = 479_100.0 / (1.0 + (106.06 / (t as f64 / 10.0 + 18.27)).exp());
            let distance = (exact - temperature_factor(t) as f64).abs();
            assert!(distance < 0.500_001, "T {t}");
            near += usize::from(distance > 0.499_9);
        }
        for c in 0..=1000i64 {
            let z = 1.67 * (1.85 + 1.60 * (-0.00786 * c as f64).exp());
            let distance = (1_000_000.0 / (1.0 + z) - clay_factor(c) as f64).abs();
            assert!(distance < 0.500_001, "C {c}");
            near += usize::from(distance > 0.499_9);
        }
        assert!(near < 10);
    }

    #[test]
    fn survival_at_zero() {
        for k in RATES {
            assert_eq!(survival_nearest(0, k), BILLION);
            assert_eq!(allowed_range(0, k), (BILLION, BILLION));
            assert!(
                allowed(BILLION, 0, k)
                    && !allowed(BILLION - 1, 0, k)
                    && !allowed(BILLION + 1, 0, k)
            );
        }
    }

    #[test]
    fn survival_against_the_sums() {
        let mut seed = 12_345u64;
        for round in 0..400 {
            seed = seed
                .wrapping_mul(6_364_136_223_846_793_005)
                .wrapping_add(1_442_695_040_888_963_407);
            let n = match round {
                0 => 1,
                1 => 83_639 * 10_000 * 10,
                2 => 162 * 2_000 * 6,
                3 => 9_600_000_000,
                4 => 20_000_000_000,
                _ => (seed >> 20) % 8_363_900_001,
            };
            for k in RATES {
                if n == 0 {
                    continue;
                }
                assert_eq!(
                    survival_floor(n, k),
                    open_floor_by_sums(of_rate(n, k), BILLION)
                );
                assert_eq!(
                    survival_nearest(n, k),
                    open_floor_by_sums(of_rate(n, k), 2 * BILLION).div_ceil(2)
                );
                let (lowest, highest) = allowed_range(n, k);
                let nearest = survival_nearest(n, k);
                assert!(allowed(nearest, n, k) && within(nearest, n, k, 1));
                if round < 60 {
                    let last = 100;
                    for d in 1..=3 {
                        for s in lowest.saturating_sub(2)..=highest + 2 {
                            assert_eq!(
                                within(s, n, k, d),
                                within_by_sums(s, n, k, d, last),
                                "s {s} n {n} k {k} d {d}"
                            );
                        }
                    }
                }
            }
        }
    }

    /// Survival numbers of ages against the sums, and their distance.
    #[test]
    fn ages_against_the_sums() {
        assert_eq!(
            (age_floor(0), age_range(0, 3)),
            (BILLION, (BILLION, BILLION))
        );
        assert!(age_within(BILLION, 0, 1) && !age_within(BILLION - 1, 0, 1));
        for years in (1..=OLDEST)
            .step_by(997)
            .chain([1, 2, 8_035, 49_935, OLDEST])
        {
            let w = of_age(years);
            let floor = age_floor(years);
            assert_eq!(floor, open_floor_by_sums(w, BILLION), "age {years}");
            let doubled = open_floor_by_sums(w, 2 * BILLION);
            assert_eq!(age_nearest(years), doubled.div_ceil(2), "age {years}");
            assert_eq!(age_range(years, 1), (floor, floor + 1));
            for (s, near) in [(floor - 1, 0), (floor, 1), (floor + 1, 1), (floor + 2, 0)] {
                assert_eq!(age_within(s, years, 1), near == 1);
            }
            // Between the two whole numbers beside it.
            assert!(age_at_most(years, floor + 1, BILLION) && !age_at_most(years, floor, BILLION));
        }
        assert!(age_at_most(0, 5, 5) && !age_at_most(0, 4, 5));
        // e^(-1): 0.36787944117.
        assert_eq!(age_floor(MEAN_LIFE), 367_879_441);
    }

    #[test]
    fn survival_far_out() {
        assert_eq!(survival_floor(u64::MAX, u64::MAX), 0);
        assert_eq!(allowed_range(u64::MAX, 1000), (0, 3));
        assert_eq!(survival_nearest(u64::MAX, 1000), 0);
        // e^(-10): 45399.9297 billionths.
        assert_eq!(survival_floor(12_000_000_000, 1000), 45_399);
        assert_eq!(survival_nearest(12_000_000_000, 1000), 45_400);
        // Tiny w: the range is cut at 1,000,000,000.
        assert_eq!(allowed_range(1, 1), (BILLION - 3, BILLION));
    }

    /// The largest N of step 4.
    const LARGEST: u64 = 8_363_900_000;

    /// The header's words once more, in numbers without a size limit, every term kept.
    fn terms_in_naturals(n: u64, k: u64) -> Vec<Natural> {
        let power = |exponent: u32| Natural::from(1u128 << exponent);
        let down = |top: &Natural, bottom: &Natural| top.div_rem(bottom).0;
        let parts = down(
            &Natural::from(n).mul(&power(44)),
            &Natural::from(EXPONENT_PARTS),
        );
        let w = down(&parts.mul_u64(k), &power(7));
        let r = w.div_rem(&power(32)).1;
        let mut terms = vec![power(37)];
        for number in 1.. {
            let last = terms.last().expect("term 0");
            let next = down(&last.mul(&r), &power(37).mul_u64(number));
            if next.is_zero() {
                break;
            }
            terms.push(next);
        }
        terms
    }

    #[test]
    fn terms_by_hand() {
        for k in RATES {
            assert_eq!(terms(0, k), 1);
        }
        // n 1: 14.66 parts of 2^44, rounded down 14. DPM 14,000 / 128 = 109.4: r is 109, and
        // 109² / 2^38 is 0. RPM 420 / 128 and BIO 924 / 128 leave 3 and 7. HUM 28 / 128 is 0.
        for (k, r, count) in [(1000, 109, 2), (30, 3, 2), (66, 7, 2), (2, 0, 1)] {
            assert_eq!((series_remainder(1, k), terms(1, k)), (r, count), "{k}");
        }
        // HUM: 58 × 2 / 128 is 0, 73 × 2 / 128 is 1.
        assert_eq!((terms(4, 2), terms(5, 2)), (1, 2));
        // n 37,500,000 is 1/32 of 1,200,000,000: w is 1/32 for DPM, but its parts of 2^44,
        // 549,755,813.888, are rounded down: 549,755,813,000 / 128 = 4,294,967,289.06, 7 short.
        assert_eq!(series_remainder(37_500_000, 1000), STEP_PARTS - 7);
        assert_eq!(terms(37_500_000, 1000), 6);
        // One n more: 549,755,828,000 / 128 = 4,294,967,406.25, 110 above.
        assert_eq!(series_remainder(37_500_001, 1000), 110);
        assert_eq!(terms(37_500_001, 1000), 2);
        // January 1852, n 356,100,000: 5,220,481,208 parts of 2^44. DPM has 40,785,009,437 of
        // 2^37, 9 × 2^32 and r; its terms are r, 16,509,854, 85,300, 330, 1 and 0. RPM's are r,
        // 5,446,328, 16,161, 35 and 0, HUM's r, 24,205, 4 and 0.
        for (k, r, count) in [
            (1000, 2_130_303_773, 6),
            (30, 1_223_550_283, 5),
            (66, 2_691_810_622, 6),
            (2, 81_570_018, 4),
        ] {
            let n = 356_100_000;
            assert_eq!((series_remainder(n, k), terms(n, k)), (r, count), "{k}");
        }
    }

    /// Where each count begins: r² reaches 2^38 at 2^19, and so on up to 6.
    #[test]
    fn remainders_of_counts() {
        assert_eq!(least_remainder(1), 0);
        assert_eq!(least_remainder(2), 1);
        assert_eq!(least_remainder(3), 1 << 19);
        for count in 2..=6 {
            let first = least_remainder(count);
            assert_eq!(terms_of_remainder(first), count);
            assert_eq!(terms_of_remainder(first - 1), count - 1);
        }
        // At 2^32 - 1 the terms are r, 67,108,863, 699,050, 5,461, 34 and 0.
        assert_eq!(terms_of_remainder(STEP_PARTS - 1), 6);
        assert_eq!(least_remainder(7), STEP_PARTS);
    }

    #[test]
    fn terms_against_naturals() {
        let mut seed = 2_603u64;
        let mut seen = [[0u64; 8]; 4];
        for round in 0..6_000 {
            seed = seed
                .wrapping_mul(6_364_136_223_846_793_005)
                .wrapping_add(1_442_695_040_888_963_407);
            let n = match round {
                0..40 => round,
                40..80 => LARGEST - (round - 40),
                80 => u64::MAX,
                // Of every size.
                _ if round % 2 == 0 => (seed >> 31) >> (round / 2 % 33),
                _ => (seed >> 20) % (LARGEST + 1),
            };
            for (pool, k) in RATES.into_iter().enumerate() {
                let count = terms(n, k);
                assert!((1..=MOST_TERMS).contains(&count));
                assert_eq!(count, terms_in_naturals(n, k).len() as u64, "n {n} k {k}");
                if n <= LARGEST {
                    seen[pool][count as usize] += 1;
                }
            }
        }
        for (pool, seen) in seen.iter().enumerate() {
            let most = if pool == 3 { 5 } else { 6 };
            for (count, times) in seen.iter().enumerate() {
                let occurs = (1..=most).contains(&count);
                assert_eq!(*times > 0, occurs, "pool {pool} count {count}");
            }
        }
    }

    /// All n beside every multiple of 1/32, and beside every n where the count changes.
    #[test]
    fn terms_beside_multiples() {
        let mut zeros = Vec::new();
        for (k, most) in RATES.into_iter().zip([223, 6, 14, 0]) {
            let multiples = exponent_parts(LARGEST, k) / STEP_PARTS;
            assert_eq!(multiples, most);
            for multiple in 0..=multiples {
                // w has more parts with each n but for HUM: only this n can have r = 0.
                let first = least_n(k, multiple * STEP_PARTS, LARGEST);
                if first > 0 && series_remainder(first, k) == 0 {
                    zeros.push((first, k));
                }
                for count in 1..=6 {
                    let parts = multiple * STEP_PARTS + least_remainder(count);
                    let first = least_n(k, parts, LARGEST);
                    if exponent_parts(first, k) < parts {
                        continue;
                    }
                    if count > 1 {
                        assert_eq!(terms(first, k), count);
                        // From 6 to 2, where no n has r = 0 at the multiple.
                        let before = terms(first - 1, k);
                        let fell = count == 2 && multiple > 0 && before == 6;
                        assert!(before == count - 1 || fell, "n {first} k {k}");
                    }
                    for n in first.saturating_sub(3)..=(first + 3).min(LARGEST) {
                        assert_eq!(terms(n, k), terms_in_naturals(n, k).len() as u64);
                    }
                }
            }
        }
        assert_eq!(zeros, [(4_687_500_000, 1000), (2_840_909_091, 66)]);
    }
}
