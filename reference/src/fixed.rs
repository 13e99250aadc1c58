//! "The same for every allowed S": is the outcome free of S's latitude?
//!
//! A month is fixed if each pool keeps the same grams for every S that step 4 allows. What a
//! pool keeps never falls as S rises, so the lowest and the highest allowed S decide. After a
//! fixed month every allowed choice of S stands at the same state; so if each month that runs
//! is fixed, all choices give the same rows, refusal and state, whatever S is in each month.
//! Modern grams are fixed in the same way. A book shows none, and carbon doesn't depend on them.
//!
//! A report is fixed if it is the same with the lowest and with the highest survival number of
//! every age: another choice gives an age between the two.

use crate::book::{self, Answer};
use crate::exponential::{age_range, allowed_range, survival_range};
use crate::model::{
    factors, kept, list_watched, month_left, report, spin_up_watched, Asked, Cause, Entries,
    Nearest, Refusal, Report, Spun, State, Survival, RATES,
};

/// Do all allowed S keep the same of these grams in a month of this N?
pub fn keeps_fixed(n: u64, pool: usize, grams: u64) -> bool {
    let (lowest, highest) = allowed_range(n, RATES[pool]);
    kept(grams, lowest) == kept(grams, highest)
}

/// Do all allowed S give the same kept grams in each pool? For a month that no check refuses.
pub fn carbon_fixed(state: &State, entries: &Entries) -> bool {
    let n = factors(&state.soil, state.deficit, entries).n;
    (0..4).all(|pool| keeps_fixed(n, pool, state.soil.pools[pool]))
}

/// The same for grams and modern grams.
pub fn month_fixed(state: &State, entries: &Entries) -> bool {
    let n = factors(&state.soil, state.deficit, entries).n;
    let modern = state.modern.map(month_left);
    carbon_fixed(state, entries) && (0..4).all(|pool| keeps_fixed(n, pool, modern[pool]))
}

/// The lowest or the highest survival number at most `distance` from the exact one, of months and
/// of ages.
pub struct AtEnd {
    pub highest: bool,
    pub distance: u64,
}

impl AtEnd {
    fn pick(&self, (lowest, highest): (u64, u64)) -> u64 {
        if self.highest {
            highest
        } else {
            lowest
        }
    }
}

impl Survival for AtEnd {
    fn survival(&mut self, n: u64, k: u64) -> u64 {
        self.pick(survival_range(n, k, self.distance))
    }

    fn age(&mut self, years: u64) -> u64 {
        self.pick(age_range(years, self.distance))
    }
}

/// A report's answer, and whether it is the same for survival numbers at most 1 from the exact.
pub fn report_fixed(state: &State, kept: u64, asked: Asked) -> (Result<Report, Cause>, bool) {
    let [low, high] = [false, true].map(|highest| {
        let distance = 1;
        report(state, kept, asked, &mut AtEnd { highest, distance })
    });
    (report(state, kept, asked, &mut Nearest), low == high)
}

/// A book's answer and whether it is fixed.
pub fn book_fixed(bytes: &[u8]) -> (Answer, bool) {
    let mut fixed = true;
    let answer = book::read_watched(bytes, &mut Nearest, &mut |state, entries| {
        fixed &= carbon_fixed(state, entries)
    });
    (answer, fixed)
}

/// A list's answer, none kept, and whether it is fixed.
pub fn list_fixed(
    state: &State,
    weather: &[i64],
    land: &[i64],
    output: &mut [u64],
) -> ((State, Result<(), Refusal>), bool) {
    let mut fixed = true;
    let answer = list_watched(
        state,
        0,
        weather,
        land,
        output,
        &mut Nearest,
        &mut |state, entries| fixed &= month_fixed(state, entries),
    );
    (answer, fixed)
}

/// A spin-up's answer, none kept, and whether it is fixed.
pub fn spin_up_fixed(
    state: &State,
    weather: &[i64],
    land: &[i64],
    years: i128,
) -> ((State, Result<Spun, Refusal>), bool) {
    let mut fixed = true;
    let answer = spin_up_watched(
        state,
        0,
        weather,
        land,
        years,
        &mut Nearest,
        &mut |state, entries| fixed &= month_fixed(state, entries),
    );
    (answer, fixed)
}

#[cfg(test)]
mod tests {
    use super::*;
    use crate::exponential::allowed_range;
    use crate::model::{Dated, Soil};

    fn book(dpm: u64) -> Vec<u8> {
        format!(
            "SOIL 1\n234 23 1 {dpm} 4485200 667100 25857600 2700000\nWEATHER 1\n34 740 80\n\
             LAND 1\n0 0 0\n"
        )
        .into_bytes()
    }

    #[test]
    fn january_1852_is_fixed() {
        assert!(book_fixed(&book(153_300)).1);
    }

    #[test]
    fn full_pools_are_not_fixed_unless_frozen() {
        assert!(!book_fixed(&book(900_000_000)).1);
        let frozen = b"SOIL 1\n234 23 1 900000000 0 0 0 0\nWEATHER 1\n-51 740 80\nLAND 1\n0 0 0\n";
        assert!(book_fixed(frozen).1);
        let mild = b"SOIL 1\n234 23 1 900000000 0 0 0 0\nWEATHER 1\n-50 740 80\nLAND 1\n0 0 0\n";
        assert!(!book_fixed(mild).1);
    }

    /// Modern grams count for a month and not for a book; reports at the edge of an age aren't
    /// fixed.
    #[test]
    fn modern_grams_and_ages() {
        let soil = Soil {
            clay: 234,
            depth: 23,
            kind: 1,
            pools: [153_300, 4_485_200, 667_100, 25_857_600],
            inert: 2_700_000,
        };
        let january = Entries {
            temperature: 34,
            rain: 740,
            evaporation: 80,
            source: 0,
            cover: 0,
            plant: 0,
            manure: 0,
            activity: 1_000,
        };
        let mut state = State::new(soil);
        assert!(month_fixed(&state, &january));
        state.modern[3] = 900_000_000;
        assert!(carbon_fixed(&state, &january) && !month_fixed(&state, &january));
        let frost = Entries {
            temperature: -60,
            ..january
        };
        assert!(month_fixed(&state, &frost));
        // 1,000,000,000 g: the two survival numbers that age 100 may have, and beside them.
        state.soil.pools = [0, 0, 0, 1_000_000_000];
        let (lowest, highest) = age_range(100, 1);
        for (modern, age) in [
            (lowest - 1, Some(101)),
            (lowest, None),
            (highest, Some(100)),
            (1_000_000_000, Some(0)),
        ] {
            state.modern = [0, 0, 0, modern];
            let (answer, fixed) = report_fixed(&state, 0, Asked::Active(3));
            assert_eq!(fixed, age.is_some(), "{modern}");
            if let Some(age) = age {
                assert_eq!(answer.map(|report| report.dated), Ok(Dated::Age(age)));
            }
        }
        state.modern[3] += 1;
        assert_eq!(
            report_fixed(&state, 0, Asked::Active(3)),
            (Err(Cause::State), true)
        );
    }

    /// A fixed book runs the same with the lowest, the highest and mixed allowed S.
    #[test]
    fn fixed_books_do_not_move() {
        let mut fixed = 0;
        for dpm in 153_300..153_500 {
            let bytes = book(dpm);
            let (answer, same) = book_fixed(&bytes);
            let lowest = book::read(&bytes, &mut |n, k| allowed_range(n, k).0);
            let highest = book::read(&bytes, &mut |n, k| allowed_range(n, k).1);
            if same {
                fixed += 1;
                assert_eq!((&answer, &answer), (&lowest, &highest));
            } else {
                assert_ne!(lowest, highest);
            }
        }
        assert!(fixed > 100);
    }
}
