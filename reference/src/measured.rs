//! Years made to measure: pools that a year leaves as many grams from where it began as is asked,
//! each by itself. What such a year shows is whether it settles.

use crate::exponential::BILLION;
use crate::model::{
    added, factors, list_entries, Soil, Survival, BIO, HUM, LAND_NUMBERS, RATES, WEATHER_NUMBERS,
};

/// The pools with which a year begins that changes them by so many grams. Its first month decays,
/// the others are frozen; the soil's own pools don't count. `None` where a pool would have to lose
/// less than nothing, or where its month keeps all.
pub fn pools(
    soil: &Soil,
    deficit: i128,
    weather: &[i64],
    land: &[i64],
    changes: [i64; 4],
    survival: &mut dyn Survival,
) -> Option<[u64; 4]> {
    assert!(weather.len() == 12 * WEATHER_NUMBERS && land.len() == 12 * LAND_NUMBERS);
    let first = factors(soil, deficit, &list_entries(weather, land, 1));
    let survivals = RATES.map(|k| survival.survival(first.n, k));
    let brought = (1..=12).fold([0; 4], |pools, j| {
        let entries = list_entries(weather, land, j);
        added(
            pools,
            soil.kind,
            entries.plant as u64,
            entries.manure as u64,
        )
    });
    // CO2 is what comes in less what stays. It is the lost less the formed, so the lost follow.
    let sum = brought.iter().sum::<u64>() as i64 - changes.iter().sum::<i64>();
    let co2 = u64::try_from(sum).ok()?;
    let lost = (co2 as u128 * 1_000_000 / (1_000_000 - first.clay as u128)) as u64;
    let formed = lost - co2;
    let mut comes = brought;
    let to_bio = formed * 46 / 100;
    comes[BIO] += to_bio;
    comes[HUM] += formed - to_bio;
    let mut pools = [0; 4];
    for pool in 0..4 {
        let loss = u64::try_from(comes[pool] as i64 - changes[pool]).ok()?;
        pools[pool] = losing(loss, BILLION - survivals[pool])?;
    }
    Some(pools)
}

/// Grams that lose so much where this many of a billion go: those that are the furthest from losing
/// a gram more or less, so that a survival number one off changes nothing.
fn losing(loss: u64, going: u64) -> Option<u64> {
    if loss == 0 {
        return Some(0);
    }
    if going == 0 {
        return None;
    }
    let (going, halves) = (going as u128, 2 * loss as u128 - 1);
    let grams = (halves * BILLION as u128 + going) / (2 * going);
    u64::try_from(grams).ok()
}

#[cfg(test)]
mod tests {
    use super::*;
    use crate::model::{run_years, year_settles, Nearest, Spun, State};
    use crate::vectors::Draw;

    /// Drawn years end where they are to.
    #[test]
    fn years_end_where_they_are_to() {
        let mut draw = Draw::new(2605);
        let mut made = 0;
        while made < 400 {
            let mut soil = Soil {
                clay: draw.between(0, 1000) as i128,
                depth: draw.between(1, 100) as i128,
                kind: draw.between(1, 3) as i128,
                pools: [0; 4],
                inert: draw.below(1_000_000),
            };
            let deficit = draw.below(soil.deficit_limit() as u64 + 1) as i128;
            let mut weather = [-60, 500, 300, 0].repeat(12);
            weather[0] = draw.between(-50, 350);
            let land: Vec<i64> = (0..12)
                .flat_map(|_| {
                    [
                        draw.between(0, 1),
                        draw.between(0, 9_000),
                        draw.between(0, 2_000),
                        0,
                    ]
                })
                .collect();
            let changes = [0; 4].map(|_| draw.between(-3_000, 3_000));
            let own = pools(&soil, deficit, &weather, &land, changes, &mut Nearest);
            let Some(own) = own.filter(|own| own.iter().sum::<u64>() <= 500_000_000) else {
                continue;
            };
            made += 1;
            soil.pools = own;
            let mut state = State::new(soil);
            state.deficit = deficit;
            let (next, answer) = run_years(
                year_settles,
                &state,
                &weather,
                &land,
                1,
                &mut Nearest,
                &mut |_, _| (),
            );
            let ends: [i64; 4] =
                std::array::from_fn(|pool| next.soil.pools[pool] as i64 - own[pool] as i64);
            assert_eq!(ends, changes);
            let settles = changes.iter().all(|change| change.abs() <= 1_000)
                && changes.iter().sum::<i64>().abs() <= 1_000;
            let wanted = if settles {
                Spun::Settled(1)
            } else {
                Spun::Unsettled(1)
            };
            assert_eq!(answer, Ok(wanted));
        }
    }
}
