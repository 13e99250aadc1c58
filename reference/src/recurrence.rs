//! The exact recurrence and demand 3, (a) the carbon sum and (b) the distance: of carbon alone.

use crate::big::{Integer, Natural};
use crate::exponential::BILLION;
use crate::fraction::Fraction;
use crate::model::{
    check_call, check_entries, factors, list_entries, month, plant_share, Cause, Entries, Field,
    Refusal, Row, Soil, State, Survival, BIO, DPM, HUM, OUTPUT_NUMBERS, RATES, RPM,
};
use std::cmp::Ordering;

/// Distance allowed for each accepted call, in grams.
pub const GRAMS_A_CALL: u64 = 20;
/// The recurrence's q is at most this many billionths from S / 1,000,000,000.
pub const LATITUDE: u64 = 4;

/// One single month call of demand 3's list as the program under test answered it.
#[derive(Clone, Copy, Debug, PartialEq, Eq)]
pub struct Call {
    pub entries: Entries,
    pub accepted: bool,
}

/// What a test of (b) found.
#[derive(Clone, Copy, Debug, PartialEq, Eq)]
pub enum Decision {
    Holds,
    Fails,
    /// The enclosure is too wide to say.
    Undecided,
}

/// May the recurrence use q where the program's number is s?
pub fn q_allowed(q: &Fraction, s: u64) -> bool {
    let low = Fraction::of(s as i128 - LATITUDE as i128, BILLION as u128);
    let high = Fraction::of(s as i128 + LATITUDE as i128, BILLION as u128);
    !q.numerator.is_negative()
        && q.at_most(&Fraction::whole(1))
        && low.at_most(q)
        && q.at_most(&high)
}

/// The lowest q allowed, in billionths.
pub fn q_lowest(s: u64) -> u64 {
    s.saturating_sub(LATITUDE)
}

/// The highest q allowed, in billionths.
pub fn q_highest(s: u64) -> u64 {
    (s + LATITUDE).min(BILLION)
}

/// The exact recurrence: its own deficit and four pools as fractions over one denominator.
#[derive(Clone, Debug)]
pub struct Exact {
    soil: Soil,
    pub deficit: i128,
    pub numerators: [Natural; 4],
    pub denominator: Natural,
    pub accepted: u64,
}

impl Exact {
    /// From an accepted soil. The denominator starts with the factors of step 6's shares,
    /// so additions are always whole over it.
    pub fn new(soil: &Soil) -> Exact {
        let denominator = Natural::from(61u64 * 167 * 5 * 100);
        Exact {
            soil: soil.clone(),
            deficit: 0,
            numerators: soil.pools.map(|grams| denominator.mul_u64(grams)),
            denominator,
            accepted: 0,
        }
    }

    /// N of the next accepted call, for S.
    pub fn n(&self, entries: &Entries) -> u64 {
        factors(&self.soil, self.deficit, entries).n
    }

    pub fn pool(&self, pool: usize) -> Fraction {
        Fraction::new(
            Integer::from(self.numerators[pool].clone()),
            self.denominator.clone(),
        )
    }

    /// An accepted call, with q by pool.
    pub fn accept(&mut self, entries: &Entries, q: &[Fraction; 4]) {
        let factors = factors(&self.soil, self.deficit, entries);
        self.deficit = factors.deficit;
        self.accepted += 1;
        // One denominator for the four q.
        let mut common = Natural::one();
        for fraction in q {
            let divisor = common.gcd(&fraction.denominator);
            common = common.mul(&fraction.denominator.div_rem(&divisor).0);
        }
        // Kept and lost, over denominator × common.
        let mut pools: [Natural; 4] = Default::default();
        let mut lost = Natural::zero();
        for pool in 0..4 {
            let whole = self.numerators[pool].mul(&common);
            let share = q[pool]
                .numerator
                .magnitude()
                .mul(&common.div_rem(&q[pool].denominator).0);
            pools[pool] = self.numerators[pool].mul(&share);
            lost = lost.add(&whole.sub(&pools[pool]));
        }
        // BIO and HUM gain 46 and 54 hundredths of lost × R / 1,000,000: another 100,000,000 below.
        let formed = lost.mul_u64(factors.clay);
        let scale = 100_000_000;
        self.denominator = self.denominator.mul(&common).mul_u64(scale);
        for pool in &mut pools {
            *pool = pool.mul_u64(scale);
        }
        pools[BIO] = pools[BIO].add(&formed.mul_u64(46));
        pools[HUM] = pools[HUM].add(&formed.mul_u64(54));
        // Step 6, unrounded.
        let part = |grams: i64, top: u64, bottom: u64| {
            let (unit, rest) = self.denominator.div_rem(&Natural::from(bottom));
            assert!(rest.is_zero());
            unit.mul_u64(top).mul_u64(grams as u64)
        };
        let (top, bottom) = plant_share(self.soil.kind);
        pools[DPM] =
            pools[DPM]
                .add(&part(entries.plant, top, bottom))
                .add(&part(entries.manure, 49, 100));
        pools[RPM] = pools[RPM]
            .add(&part(entries.plant, bottom - top, bottom))
            .add(&part(entries.manure, 49, 100));
        pools[HUM] = pools[HUM].add(&part(entries.manure, 2, 100));
        self.numerators = pools;
    }

    /// The four distances from the program's pools, added up.
    pub fn distance(&self, pools: &[u64; 4]) -> Fraction {
        let mut sum = Natural::zero();
        for pool in 0..4 {
            sum = sum.add(
                &self
                    .denominator
                    .mul_u64(pools[pool])
                    .distance(&self.numerators[pool]),
            );
        }
        Fraction::new(Integer::from(sum), self.denominator.clone())
    }
}

/// A pool as an interval in units of 2^-64 g.
#[derive(Clone, Copy, Debug, PartialEq, Eq)]
pub struct Interval {
    pub low: u128,
    pub high: u128,
}

/// a × b / c, rounded down or up, whatever the size of the product.
fn scaled(a: u128, b: u128, c: u128, up: bool) -> u128 {
    match a.checked_mul(b) {
        Some(product) => {
            if up {
                product.div_ceil(c)
            } else {
                product / c
            }
        }
        None => {
            let (quotient, rest) = Natural::from(a)
                .mul(&Natural::from(b))
                .div_rem(&Natural::from(c));
            let floor = quotient.to_u128().expect("a pool below 2^64 g");
            floor + u128::from(up && !rest.is_zero())
        }
    }
}

impl Interval {
    pub fn whole(grams: u64) -> Interval {
        Interval {
            low: (grams as u128) << 64,
            high: (grams as u128) << 64,
        }
    }

    pub fn add(self, other: Interval) -> Interval {
        Interval {
            low: self.low + other.low,
            high: self.high + other.high,
        }
    }

    /// Times a fraction from low / below to high / below, rounded outward.
    pub fn times(self, low: u64, high: u64, below: u64) -> Interval {
        Interval {
            low: scaled(self.low, low as u128, below as u128, false),
            high: scaled(self.high, high as u128, below as u128, true),
        }
    }
}

/// The recurrence in intervals, for lists of any length.
///
/// Why it decides (b). Say that a recurrence's four pools lie in the four intervals and its q in
/// [q_low, q_high]. Each of its operations is a product or a sum of numbers of 0 or more, so it
/// never falls as an operand rises: kept Y × q lies between low × q_low and high × q_high, lost
/// Y × (1 - q) between low × (1 - q_high) and high × (1 - q_low), and likewise the gains and the
/// additions. The bounds are rounded outward, lows down and highs up. So the new pools lie in
/// the new intervals, and by induction over the accepted calls the last pools lie in the last
/// ones (they start as the soil's grams exactly; the deficit and A, R, B, N are whole numbers
/// and exact). The distance of a pool from the program's p grams is then at most the larger of
/// |p - low| and |p - high|, and at least the gap between p and the interval. If the upper
/// bounds add up to at most 20 n grams, (b) holds for every such q; if the lower bounds add up to
/// more, it fails for every such q; else this test is undecided.
///
/// With q_low = q_high the intervals stay thin: an accepted call turns the widths into at most
/// q × width + (46 + 54) / 100 × R / 1,000,000 × (1 - q) × width, which is no more than before,
/// plus less than 24 units of rounding in all (8 for what is kept, 2 for what is lost, 4 for the
/// gains, 10 for the additions). After 120,000 calls that is below 2,880,000 × 2^-64 g, about
/// 1.6 × 10^-13 g: only a distance that close to 20 n stays undecided.
///
/// With q_low and q_high the lowest and highest allowed, one run covers every choice of q in
/// each month and for each pool. It is never undecided on a program that follows the paper: for
/// each accepted call the upper bounds grow by at most 4 g (latitude of q on 1,000,000,000 g)
/// and 4 g (what is kept, rounded down), both again by R in the gains, R below 0.2445: 9.96 g;
/// 2 g (formed and BIO's share, rounded down); 2 g (plant); 4 g (manure): 17.96 g. What stood
/// before is multiplied by at most q_high + R × (1 - q_low), above 1 by less than 2 × 10^-9:
/// below 0.01 g on 2,400,000 g. Together less than 20 g.
#[derive(Clone, Debug)]
pub struct Enclosure {
    soil: Soil,
    pub deficit: i128,
    pub pools: [Interval; 4],
    pub accepted: u64,
}

impl Enclosure {
    pub fn new(soil: &Soil) -> Enclosure {
        Enclosure {
            soil: soil.clone(),
            deficit: 0,
            pools: soil.pools.map(Interval::whole),
            accepted: 0,
        }
    }

    pub fn n(&self, entries: &Entries) -> u64 {
        factors(&self.soil, self.deficit, entries).n
    }

    /// An accepted call; q by pool as lowest and highest numerator over `below`.
    pub fn accept(&mut self, entries: &Entries, q: &[(u64, u64); 4], below: u64) {
        let factors = factors(&self.soil, self.deficit, entries);
        self.deficit = factors.deficit;
        self.accepted += 1;
        let mut pools = [Interval::whole(0); 4];
        let mut lost = Interval::whole(0);
        for pool in 0..4 {
            let (low, high) = q[pool];
            assert!(low <= high && high <= below);
            pools[pool] = self.pools[pool].times(low, high, below);
            lost = lost.add(self.pools[pool].times(below - high, below - low, below));
        }
        let gain = |hundredths: u64| {
            let top = factors.clay * hundredths;
            lost.times(top, top, 100_000_000)
        };
        pools[BIO] = pools[BIO].add(gain(46));
        pools[HUM] = pools[HUM].add(gain(54));
        let (top, bottom) = plant_share(self.soil.kind);
        let plant = Interval::whole(entries.plant as u64);
        let manure = Interval::whole(entries.manure as u64);
        pools[DPM] = pools[DPM]
            .add(plant.times(top, top, bottom))
            .add(manure.times(49, 49, 100));
        pools[RPM] = pools[RPM]
            .add(plant.times(bottom - top, bottom - top, bottom))
            .add(manure.times(49, 49, 100));
        pools[HUM] = pools[HUM].add(manure.times(2, 2, 100));
        self.pools = pools;
    }

    /// Lower and upper bound of the four distances added up, in 2^-64 g.
    pub fn distance(&self, pools: &[u64; 4]) -> (Natural, Natural) {
        let (mut least, mut most) = (Natural::zero(), Natural::zero());
        for pool in 0..4 {
            let grams = (pools[pool] as u128) << 64;
            let Interval { low, high } = self.pools[pool];
            let gap = low.saturating_sub(grams).max(grams.saturating_sub(high));
            let reach = grams.abs_diff(low).max(grams.abs_diff(high));
            least = least.add(&Natural::from(gap));
            most = most.add(&Natural::from(reach));
        }
        (least, most)
    }

    pub fn decide(&self, pools: &[u64; 4]) -> Decision {
        let (least, most) = self.distance(pools);
        let limit = Natural::from((GRAMS_A_CALL as u128 * self.accepted as u128) << 64);
        if most.compare(&limit) != Ordering::Greater {
            Decision::Holds
        } else if least.compare(&limit) == Ordering::Greater {
            Decision::Fails
        } else {
            Decision::Undecided
        }
    }
}

/// Runs calls (month number and entries) from the new state, each given the state that the last
/// one returned: what was accepted, and the last state.
pub fn run_calls(
    soil: &Soil,
    calls: &[(i128, Entries)],
    survival: &mut dyn Survival,
) -> (Vec<Call>, State) {
    let mut state = State::new(soil.clone());
    let mut answered = Vec::with_capacity(calls.len());
    for (number, entries) in calls {
        let (next, answer) = month(&state, *number, entries, survival);
        state = next;
        answered.push(Call {
            entries: *entries,
            accepted: answer.is_ok(),
        });
    }
    (answered, state)
}

/// A list of calls with months taken back in it, begun with none kept: the field, and the accepted
/// months that remain.
#[derive(Clone, Debug)]
pub struct Remaining {
    soil: Soil,
    pub field: Field,
    pub months: Vec<Entries>,
}

impl Remaining {
    pub fn new(soil: &Soil) -> Remaining {
        Remaining {
            soil: soil.clone(),
            field: Field::new(soil.clone()),
            months: Vec::new(),
        }
    }

    /// A single month call.
    pub fn month(
        &mut self,
        number: i128,
        entries: &Entries,
        survival: &mut dyn Survival,
    ) -> Result<Row, Refusal> {
        let row = self.field.month(number, entries, survival)?;
        self.months.push(*entries);
        Ok(row)
    }

    /// A list; refused at month j it leaves its j - 1 months.
    pub fn list(
        &mut self,
        weather: &[i64],
        land: &[i64],
        survival: &mut dyn Survival,
    ) -> Result<(), Refusal> {
        let before = self.field.state.months;
        let mut output = vec![0; land.len() * OUTPUT_NUMBERS];
        let answer = self.field.list(weather, land, &mut output, survival);
        let ran = (self.field.state.months - before) as usize;
        self.months
            .extend((1..=ran).map(|j| list_entries(weather, land, j)));
        answer
    }

    pub fn take_back(&mut self) -> Result<(), Cause> {
        self.field.take_back()?;
        self.months.pop().expect("a kept month remains");
        Ok(())
    }

    /// The months that remain as calls, all of them accepted.
    pub fn calls(&self) -> Vec<Call> {
        let accepted = |entries: &Entries| Call {
            entries: *entries,
            accepted: true,
        };
        self.months.iter().map(accepted).collect()
    }

    /// Does the field stand where the months that remain, run alone, end? Kept months aside.
    pub fn is_alone(&self, survival: &mut dyn Survival) -> bool {
        let numbered: Vec<(i128, Entries)> = (1..).zip(self.months.iter().copied()).collect();
        let (answered, last) = run_calls(&self.soil, &numbered, survival);
        answered == self.calls() && last == self.field.state
    }

    /// Demand 3 for it.
    pub fn demand_three(&self, survival: &mut dyn Survival) -> DemandThree {
        demand_three(&self.soil, &self.calls(), &self.field.state, survival)
    }
}

/// Are the recorded answers those of the paper? `numbers` by call; `states` as each call was given.
pub fn acceptance_right(states: &[State], numbers: &[i128], calls: &[Call]) -> bool {
    calls.iter().enumerate().all(|(index, call)| {
        check_call(&states[index], 0, numbers[index], &call.entries).is_ok() == call.accepted
    })
}

/// Can steps 1 to 6 be done with these entries? An accepted call where they can't is a fault.
fn defined(entries: &Entries) -> bool {
    check_entries(entries, 0).is_ok()
}

/// Demand 3 (a): active pools plus CO2 to date are, to the gram, the starting active pools plus
/// the plant and manure carbon of the accepted calls.
pub fn carbon_closes(soil: &Soil, calls: &[Call], last: &State) -> bool {
    let added: i128 = calls
        .iter()
        .filter(|call| call.accepted)
        .map(|call| call.entries.plant as i128 + call.entries.manure as i128)
        .sum();
    last.soil.active() as i128 + last.co2 as i128 == soil.active() as i128 + added
}

/// Demand 3 for the whole list: (a), and (b) for every choice of q.
#[derive(Clone, Copy, Debug, PartialEq, Eq)]
pub struct DemandThree {
    pub carbon_closes: bool,
    pub distance: Decision,
}

/// Demand 3 on the calls as the program answered them and its last state; `survival` is the
/// program's own S.
pub fn demand_three(
    soil: &Soil,
    calls: &[Call],
    last: &State,
    survival: &mut dyn Survival,
) -> DemandThree {
    DemandThree {
        carbon_closes: carbon_closes(soil, calls, last),
        distance: distance_every_q(soil, calls, last, survival),
    }
}

/// Demand 3 (b) in fractions for one choice of q: `q(accepted call from 1, pool, S)`.
pub fn distance_exact(
    soil: &Soil,
    calls: &[Call],
    last: &State,
    survival: &mut dyn Survival,
    q: &mut dyn FnMut(u64, usize, u64) -> Fraction,
) -> Decision {
    let mut exact = Exact::new(soil);
    for call in calls.iter().filter(|call| call.accepted) {
        if !defined(&call.entries) {
            return Decision::Fails;
        }
        let n = exact.n(&call.entries);
        let number = exact.accepted + 1;
        let fractions = std::array::from_fn(|pool| {
            let s = survival.survival(n, RATES[pool]);
            let fraction = q(number, pool, s);
            assert!(q_allowed(&fraction, s), "q is too far from S");
            fraction
        });
        exact.accept(&call.entries, &fractions);
    }
    let limit = Fraction::whole((GRAMS_A_CALL * exact.accepted) as i128);
    if exact.distance(&last.soil.pools).at_most(&limit) {
        Decision::Holds
    } else {
        Decision::Fails
    }
}

/// Demand 3 (b) in intervals for one choice of q in billionths: `q(accepted call from 1, pool, S)`.
pub fn distance_interval(
    soil: &Soil,
    calls: &[Call],
    last: &State,
    survival: &mut dyn Survival,
    q: &mut dyn FnMut(u64, usize, u64) -> u64,
) -> Decision {
    enclose(soil, calls, last, survival, &mut |number, pool, s| {
        let billionths = q(number, pool, s);
        assert!(
            (q_lowest(s)..=q_highest(s)).contains(&billionths),
            "q is too far from S"
        );
        (billionths, billionths)
    })
}

/// Demand 3 (b) in intervals for every choice of q at once. `Holds` is for all of them.
pub fn distance_every_q(
    soil: &Soil,
    calls: &[Call],
    last: &State,
    survival: &mut dyn Survival,
) -> Decision {
    enclose(soil, calls, last, survival, &mut |_, _, s| {
        (q_lowest(s), q_highest(s))
    })
}

fn enclose(
    soil: &Soil,
    calls: &[Call],
    last: &State,
    survival: &mut dyn Survival,
    q: &mut dyn FnMut(u64, usize, u64) -> (u64, u64),
) -> Decision {
    let mut enclosure = Enclosure::new(soil);
    for call in calls.iter().filter(|call| call.accepted) {
        if !defined(&call.entries) {
            return Decision::Fails;
        }
        let n = enclosure.n(&call.entries);
        let number = enclosure.accepted + 1;
        let bounds = std::array::from_fn(|pool| q(number, pool, survival.survival(n, RATES[pool])));
        enclosure.accept(&call.entries, &bounds, BILLION);
    }
    enclosure.decide(&last.soil.pools)
}

#[cfg(test)]
mod tests {
    use super::*;
    use crate::exponential::{allowed_range, survival_nearest};
    use crate::model::{Nearest, EVAPOTRANSPIRATION, OPEN_PAN};

    struct Draw(u64);
    impl Draw {
        fn below(&mut self, limit: u64) -> u64 {
            self.0 ^= self.0 << 13;
            self.0 ^= self.0 >> 7;
            self.0 ^= self.0 << 17;
            (self.0 >> 11) % limit
        }
    }

    fn some_entries(draw: &mut Draw, largest: u64) -> Entries {
        Entries {
            temperature: draw.below(560) as i64 - 60,
            rain: draw.below(1200) as i64,
            evaporation: draw.below(1600) as i64,
            source: draw.below(2) as i64,
            cover: draw.below(2) as i64,
            plant: draw.below(largest) as i64,
            manure: draw.below(largest) as i64,
            activity: draw.below(2_001) as i64,
        }
    }

    fn some_calls(draw: &mut Draw, count: u64, largest: u64) -> Vec<(i128, Entries)> {
        let mut number = 1;
        (0..count)
            .map(|_| {
                let mut entries = some_entries(draw, largest);
                match draw.below(12) {
                    0 => (number + 1 + draw.below(3) as i128, entries),
                    1 => {
                        entries.rain = -1;
                        (number, entries)
                    }
                    _ => {
                        number += 1;
                        (number - 1, entries)
                    }
                }
            })
            .collect()
    }

    #[test]
    fn demand_three_on_short_lists() {
        let mut draw = Draw(3);
        for round in 0..60u64 {
            let soil = Soil {
                clay: draw.below(1001) as i128,
                depth: 1 + draw.below(100) as i128,
                kind: 1 + draw.below(3) as i128,
                pools: std::array::from_fn(|_| draw.below(200_000_000)),
                inert: 7,
            };
            let calls = some_calls(&mut draw, 30, 2_000_000);
            let mut lowest = |n, k| allowed_range(n, k).0;
            let mut highest = |n, k| allowed_range(n, k).1;
            let survivals: [&mut dyn Survival; 3] = [&mut Nearest, &mut lowest, &mut highest];
            for survival in survivals {
                let (answered, last) = run_calls(&soil, &calls, survival);
                assert!(
                    answered.iter().any(|call| call.accepted)
                        && answered.iter().any(|call| !call.accepted)
                );
                let demand = demand_three(&soil, &answered, &last, survival);
                assert_eq!(
                    demand,
                    DemandThree {
                        carbon_closes: true,
                        distance: Decision::Holds
                    }
                );
                let turns = [0, 4, 8, round % 9];
                for turn in turns {
                    let mut billionths = |number: u64, pool: usize, s: u64| {
                        let shift = if turn == 8 {
                            (number * 5 + pool as u64) % 9
                        } else {
                            turn
                        };
                        (s + shift).saturating_sub(4).min(BILLION)
                    };
                    assert_eq!(
                        distance_interval(&soil, &answered, &last, survival, &mut billionths),
                        Decision::Holds
                    );
                    let mut fraction = |number: u64, pool: usize, s: u64| {
                        Fraction::of(billionths(number, pool, s) as i128, BILLION as u128)
                    };
                    assert_eq!(
                        distance_exact(&soil, &answered, &last, survival, &mut fraction),
                        Decision::Holds
                    );
                }
                // A q between billionths.
                let mut between = |_: u64, _: usize, s: u64| {
                    let q = Fraction::of(s as i128 * 7 - 13, 7 * BILLION as u128);
                    if q_allowed(&q, s) {
                        q
                    } else {
                        Fraction::of(s as i128, BILLION as u128)
                    }
                };
                assert_eq!(
                    distance_exact(&soil, &answered, &last, survival, &mut between),
                    Decision::Holds
                );
            }
        }
    }

    /// Months, lists and takings-back, refused ones among them: the list ends where its months that
    /// remain end alone, balances and stays near the recurrence.
    #[test]
    fn demand_three_with_months_taken_back() {
        let mut draw = Draw(2602);
        let mut none_kept = 0;
        for _ in 0..60 {
            let soil = Soil {
                clay: draw.below(1001) as i128,
                depth: 1 + draw.below(100) as i128,
                kind: 1 + draw.below(3) as i128,
                pools: std::array::from_fn(|_| draw.below(200_000_000)),
                inert: 7,
            };
            let mut lowest = |n, k| allowed_range(n, k).0;
            let mut highest = |n, k| allowed_range(n, k).1;
            let survivals: [&mut dyn Survival; 3] = [&mut Nearest, &mut lowest, &mut highest];
            for survival in survivals {
                let mut list = Remaining::new(&soil);
                let mut all = Vec::new();
                let mut taken = 0;
                for _ in 0..40 {
                    let mut entries = some_entries(&mut draw, 2_000_000);
                    let number = list.field.state.months as i128 + 1;
                    match draw.below(12) {
                        0 => assert!(list.month(number + 1, &entries, survival).is_err()),
                        1 => {
                            entries.rain = -1;
                            assert!(list.month(number, &entries, survival).is_err());
                        }
                        // Its last month is refused.
                        2 => {
                            let weather = [50, 400, 300, 1, 501, 0, 0, 0];
                            let land = [0, 5_000, 7_000, 1_000, 1, 0, 0, 2_000];
                            let refused = list.list(&weather, &land, survival).unwrap_err();
                            assert_eq!(refused.place, 2);
                            all.push(list.months[list.months.len() - 1]);
                        }
                        3..=5 => {
                            for _ in 0..1 + draw.below(3) {
                                match list.take_back() {
                                    Ok(()) => taken += 1,
                                    Err(cause) => {
                                        assert_eq!(cause.number(), 20);
                                        none_kept += 1;
                                    }
                                }
                            }
                        }
                        _ => {
                            list.month(number, &entries, survival).expect("in turn");
                            all.push(entries);
                        }
                    }
                }
                assert!(taken > 0 && list.months.len() + taken == all.len());
                assert!(list.is_alone(survival));
                let holds = DemandThree {
                    carbon_closes: true,
                    distance: Decision::Holds,
                };
                assert_eq!(list.demand_three(survival), holds);
                let mut between = |number: u64, pool: usize, s: u64| {
                    let shift = (number * 5 + pool as u64) as i128 % 57 - 28;
                    let top = (s as i128 * 7 + shift).clamp(0, 7 * BILLION as i128);
                    Fraction::of(top, 7 * BILLION as u128)
                };
                let (calls, last) = (list.calls(), &list.field.state);
                let exact = distance_exact(&soil, &calls, last, survival, &mut between);
                assert_eq!(exact, Decision::Holds);
                // With the months taken back it doesn't balance.
                let all = all.iter().map(|entries| Call {
                    entries: *entries,
                    accepted: true,
                });
                assert!(!carbon_closes(&soil, &all.collect::<Vec<_>>(), last));
            }
        }
        assert!(none_kept > 0);
    }

    /// The exact pools lie in the enclosure.
    #[test]
    fn enclosure_holds_the_exact_pools() {
        let mut draw = Draw(11);
        let soil = Soil {
            clay: 300,
            depth: 40,
            kind: 2,
            pools: [1_234_567, 40_000_000, 999_999, 123_456_789],
            inert: 0,
        };
        let (mut exact, mut thin, mut wide) = (
            Exact::new(&soil),
            Enclosure::new(&soil),
            Enclosure::new(&soil),
        );
        let unit = Natural::from(1u128 << 64);
        for _ in 0..80 {
            let entries = some_entries(&mut draw, 1_000_000);
            let n = exact.n(&entries);
            let s: [u64; 4] = RATES.map(|k| survival_nearest(n, k));
            let q: [u64; 4] = std::array::from_fn(|pool| {
                (s[pool] + draw.below(9)).saturating_sub(4).min(BILLION)
            });
            exact.accept(
                &entries,
                &q.map(|part| Fraction::of(part as i128, BILLION as u128)),
            );
            thin.accept(&entries, &q.map(|part| (part, part)), BILLION);
            wide.accept(&entries, &s.map(|s| (q_lowest(s), q_highest(s))), BILLION);
            assert_eq!((exact.deficit, exact.deficit), (thin.deficit, wide.deficit));
            for pool in 0..4 {
                let value = exact.numerators[pool].mul(&unit);
                for enclosure in [&thin, &wide] {
                    let Interval { low, high } = enclosure.pools[pool];
                    assert!(
                        exact.denominator.mul(&Natural::from(low)).compare(&value)
                            != Ordering::Greater
                    );
                    assert!(
                        exact.denominator.mul(&Natural::from(high)).compare(&value)
                            != Ordering::Less
                    );
                }
                assert!(thin.pools[pool].high - thin.pools[pool].low < 24 * 80);
            }
        }
    }

    /// Nothing is lost in the recurrence but CO2; a month by hand.
    #[test]
    fn one_month_by_hand() {
        // Clay 0: R 147,896. All of DPM 1,000,000 halves: lost 500,000, formed 73,948.
        let soil = Soil {
            clay: 0,
            depth: 1,
            kind: 3,
            pools: [1_000_000, 0, 0, 0],
            inert: 0,
        };
        let entries = Entries {
            temperature: 0,
            rain: 0,
            evaporation: 0,
            source: OPEN_PAN,
            cover: 0,
            plant: 10,
            manure: 100,
            activity: 1_000,
        };
        let mut exact = Exact::new(&soil);
        let one = Fraction::whole(1);
        exact.accept(
            &entries,
            &[Fraction::of(1, 2), one.clone(), one.clone(), one],
        );
        // DPM 500,000 + 2 + 49; RPM 8 + 49; BIO 46 hundredths of formed; HUM 54 hundredths, and 2.
        let expected = [
            Fraction::whole(500_051),
            Fraction::whole(57),
            Fraction::of(3_401_608, 100),
            Fraction::of(3_993_392, 100),
        ];
        for pool in 0..4 {
            assert_eq!(
                exact.pool(pool).compare(&expected[pool]),
                Ordering::Equal,
                "pool {pool}"
            );
        }
    }

    /// The slips of earlier programs are caught.
    #[test]
    fn slips_fail() {
        let soil = Soil {
            clay: 234,
            depth: 23,
            kind: 1,
            pools: [153_300, 4_485_200, 667_100, 25_857_600],
            inert: 0,
        };
        let entries = Entries {
            temperature: 93,
            rain: 500,
            evaporation: 500,
            source: OPEN_PAN,
            cover: 0,
            plant: 0,
            manure: 50_000,
            activity: 1_000,
        };
        let calls: Vec<(i128, Entries)> = (1..=24).map(|number| (number, entries)).collect();
        let (answered, last) = run_calls(&soil, &calls, &mut Nearest);
        assert_eq!(
            distance_every_q(&soil, &answered, &last, &mut Nearest),
            Decision::Holds
        );
        // Carbon one gram off.
        let mut off = last.clone();
        off.soil.pools[HUM] -= 1;
        assert!(!carbon_closes(&soil, &answered, &off));
        // A thirteenth month.
        let more: Vec<(i128, Entries)> = (1..=25).map(|number| (number, entries)).collect();
        let (_, later) = run_calls(&soil, &more, &mut Nearest);
        assert_eq!(
            distance_every_q(&soil, &answered, &later, &mut Nearest),
            Decision::Fails
        );
        let mut same = |_: u64, _: usize, s: u64| Fraction::of(s as i128, BILLION as u128);
        assert_eq!(
            distance_exact(&soil, &answered, &later, &mut Nearest, &mut same),
            Decision::Fails
        );
        // Evapotranspiration taken for an open pan's: the recurrence, fed the pan, stays wet where
        // the program's months dry out.
        let dry = Entries {
            evaporation: 600,
            source: EVAPOTRANSPIRATION,
            cover: 1,
            ..entries
        };
        let dry: Vec<(i128, Entries)> = (1..=24).map(|number| (number, dry)).collect();
        let (office, dried) = run_calls(&soil, &dry, &mut Nearest);
        let mut pan = office.clone();
        for call in &mut pan {
            call.entries.source = OPEN_PAN;
        }
        for (calls, decision) in [(&office, Decision::Holds), (&pan, Decision::Fails)] {
            assert_eq!(
                distance_every_q(&soil, calls, &dried, &mut Nearest),
                decision
            );
        }
        // No decay at all.
        let mut idle = State::new(soil.clone());
        idle.soil.pools[RPM] += 24 * 50_000;
        idle.months = 24;
        assert!(carbon_closes(&soil, &answered, &idle));
        assert_eq!(
            distance_every_q(&soil, &answered, &idle, &mut Nearest),
            Decision::Fails
        );
        // No call at all: the distance is 0.
        assert_eq!(
            distance_every_q(&soil, &[], &State::new(soil.clone()), &mut Nearest),
            Decision::Holds
        );
        assert_eq!(
            distance_every_q(&soil, &[], &idle, &mut Nearest),
            Decision::Fails
        );
    }
}
