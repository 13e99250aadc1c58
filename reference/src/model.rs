//! Soil, state, months, lists, spin-up and radiocarbon reports, with every refusal in the paper's
//! order.
//! Lent numbers can be of any size; sums are taken in 128 bits, so nothing wraps.

use crate::exponential::{
    age_nearest, clay_factor, survival_nearest, temperature_factor, BILLION, OLDEST,
};

/// Ceiling of the active pools together, and of IOM, in grams (7, 17).
pub const CARBON_CEILING: u128 = 1_000_000_000;
/// Most months a state may have done (10, 12).
pub const MONTH_LIMIT: u64 = 120_000;
/// Most carbon that a month can add, plant and manure together (10).
pub const MONTH_ADDITIONS: u128 = 200_000_000;
/// Most modern grams that a month can add: those additions at the highest activity (10).
pub const MONTH_MODERN: u128 = 400_000_000;
/// What a month leaves of an active pool's modern grams before they decay, in billionths.
pub const MONTH_LEFT: u128 = 999_989_629;
/// The activity of carbon that has as many modern grams as grams, in thousandths.
pub const FRESH: i64 = 1_000;
/// The highest activity (21).
pub const HIGHEST_ACTIVITY: i64 = 2_000;
/// The activity of IOM, in thousandths.
pub const INERT_ACTIVITY: u128 = 2;
/// Most rows of a list, and the highest count in a book (3).
pub const ROW_LIMIT: usize = 1_200;
/// Numbers in a weather row: temperature, rain, evaporation and its source.
pub const WEATHER_NUMBERS: usize = 4;
/// Numbers in a land row: cover, plant, manure, activity.
pub const LAND_NUMBERS: usize = 4;
/// Numbers in an output row: five pools, the month's CO2, D.
pub const OUTPUT_NUMBERS: usize = 7;
/// Most years of a spin-up (9).
pub const YEAR_LIMIT: i128 = 10_000;
/// Most states kept beside the current one (10).
pub const KEPT_LIMIT: usize = 24;
/// A spin-up's year settles where the total and each pool end it at most so many grams from where
/// it began.
pub const SETTLED: u128 = 1_000;

/// The sources of a month's evaporation (19): an open pan, as in books, or potential
/// evapotranspiration, as in the weather office's tables.
pub const OPEN_PAN: i64 = 0;
pub const EVAPOTRANSPIRATION: i64 = 1;

/// The active pools by index.
pub const DPM: usize = 0;
pub const RPM: usize = 1;
pub const BIO: usize = 2;
pub const HUM: usize = 3;

/// Rates K in hundredths a year, by pool.
pub const RATES: [u64; 4] = [1000, 30, 66, 2];

#[derive(Clone, Debug, PartialEq, Eq)]
pub struct Soil {
    /// Tenths of a percent.
    pub clay: i128,
    /// Whole cm.
    pub depth: i128,
    /// 1, 2 or 3.
    pub kind: i128,
    /// DPM, RPM, BIO, HUM in grams.
    pub pools: [u64; 4],
    /// IOM in grams.
    pub inert: u64,
}

#[derive(Clone, Debug, PartialEq, Eq)]
pub struct State {
    pub soil: Soil,
    /// D in parts.
    pub deficit: i128,
    /// Months done.
    pub months: u64,
    /// CO2 to date, in grams.
    pub co2: u64,
    /// Modern grams of DPM, RPM, BIO, HUM: carbon times activity.
    pub modern: [u64; 4],
}

/// A field: its state, and the states before its latest months, from the oldest to the latest.
#[derive(Clone, Debug, PartialEq, Eq)]
pub struct Field {
    pub state: State,
    pub kept: Vec<State>,
}

/// What a month is given. Any numbers at all; the checks are the month's.
#[derive(Clone, Copy, Debug, PartialEq, Eq)]
pub struct Entries {
    pub temperature: i64,
    pub rain: i64,
    pub evaporation: i64,
    /// Where the evaporation comes from: 0 open pan, 1 potential evapotranspiration.
    pub source: i64,
    pub cover: i64,
    pub plant: i64,
    pub manure: i64,
    /// Of plant and manure, in thousandths.
    pub activity: i64,
}

/// Each refusal's cause; `as u8` is its number in the paper.
#[derive(Clone, Copy, Debug, PartialEq, Eq, PartialOrd, Ord)]
pub enum Cause {
    BookTooLong = 1,
    Form = 2,
    Count = 3,
    Clay = 4,
    Depth = 5,
    Kind = 6,
    Pools = 7,
    OutputTooShort = 8,
    Years = 9,
    State = 10,
    Turn = 11,
    MonthsDone = 12,
    Temperature = 13,
    Water = 14,
    Cover = 15,
    Addition = 16,
    Ceiling = 17,
    TableLine = 18,
    Source = 19,
    NoneKept = 20,
    Activity = 21,
    NoCarbon = 22,
}

impl Cause {
    pub fn number(self) -> u8 {
        self as u8
    }
}

/// A cause with its place: line in a book or table, month in a list or spin-up, else 0.
#[derive(Clone, Copy, Debug, PartialEq, Eq)]
pub struct Refusal {
    pub cause: Cause,
    pub place: u64,
}

/// Seven numbers: DPM, RPM, BIO, HUM, IOM, the month's CO2, D.
pub type Row = [u64; OUTPUT_NUMBERS];

/// Where S comes from: it alone has latitude. A function of N and K, and one of an age.
pub trait Survival {
    fn survival(&mut self, n: u64, k: u64) -> u64;

    /// The survival number of an age up to 60,000: the nearest, unless it comes from elsewhere.
    fn age(&mut self, years: u64) -> u64 {
        age_nearest(years)
    }
}

impl<F: FnMut(u64, u64) -> u64> Survival for F {
    fn survival(&mut self, n: u64, k: u64) -> u64 {
        self(n, k)
    }
}

/// The survival number nearest to the exact one.
pub struct Nearest;

impl Survival for Nearest {
    fn survival(&mut self, n: u64, k: u64) -> u64 {
        survival_nearest(n, k)
    }
}

impl Soil {
    pub fn active(&self) -> u128 {
        self.pools.iter().map(|grams| *grams as u128).sum()
    }

    /// Five pools.
    pub fn total(&self) -> u128 {
        self.active() + self.inert as u128
    }

    /// Refusals 4 to 7.
    pub fn check(&self) -> Result<(), Cause> {
        if !(0..=1000).contains(&self.clay) {
            return Err(Cause::Clay);
        }
        if !(1..=100).contains(&self.depth) {
            return Err(Cause::Depth);
        }
        if !(1..=3).contains(&self.kind) {
            return Err(Cause::Kind);
        }
        if self.active() > CARBON_CEILING || self.inert as u128 > CARBON_CEILING {
            return Err(Cause::Pools);
        }
        Ok(())
    }

    /// M of step 3, for a soil that 4 and 5 don't refuse.
    pub fn deficit_limit(&self) -> i128 {
        9 * self.depth * (200_000 + 1_300 * self.clay - self.clay * self.clay)
    }
}

impl State {
    /// A new state: deficit, months and CO2 are 0, and the pools have activity 1000.
    pub fn new(soil: Soil) -> State {
        let modern = soil.pools;
        State {
            soil,
            deficit: 0,
            months: 0,
            co2: 0,
            modern,
        }
    }

    /// The modern grams of the active pools together.
    pub fn active_modern(&self) -> u128 {
        self.modern.iter().map(|grams| *grams as u128).sum()
    }

    /// The modern grams of IOM: they follow from its carbon.
    pub fn inert_modern(&self) -> u128 {
        self.soil.inert as u128 * INERT_ACTIVITY / 1_000
    }

    /// Refusal 10, for a soil that 4 to 7 don't refuse. `kept`: how many states are kept.
    pub fn check_numbers(&self, kept: u64) -> Result<(), Cause> {
        let carbon = self.co2 as u128 + self.soil.active();
        let months = self.months as u128;
        if self.deficit < 0
            || self.deficit > self.soil.deficit_limit()
            || self.months > MONTH_LIMIT
            || carbon > CARBON_CEILING + MONTH_ADDITIONS * months
            || self.active_modern() > CARBON_CEILING + MONTH_MODERN * months
            || kept > KEPT_LIMIT as u64
        {
            return Err(Cause::State);
        }
        Ok(())
    }
}

/// Refusals 13 and 14.
pub fn check_weather(temperature: i64, rain: i64, evaporation: i64) -> Result<(), Cause> {
    if !(-400..=500).contains(&temperature) {
        return Err(Cause::Temperature);
    }
    if !(0..=20_000).contains(&rain) || !(0..=20_000).contains(&evaporation) {
        return Err(Cause::Water);
    }
    Ok(())
}

/// Refusals of a land row in their order: 15, 16, 21, 17. `active`: the active pools before the
/// month.
pub fn check_land(row: [i64; LAND_NUMBERS], active: u128) -> Result<(), Cause> {
    let [cover, plant, manure, activity] = row;
    if cover != 0 && cover != 1 {
        return Err(Cause::Cover);
    }
    if !(0..=100_000_000).contains(&plant) || !(0..=100_000_000).contains(&manure) {
        return Err(Cause::Addition);
    }
    if !(0..=HIGHEST_ACTIVITY).contains(&activity) {
        return Err(Cause::Activity);
    }
    if active + plant as u128 + manure as u128 > CARBON_CEILING {
        return Err(Cause::Ceiling);
    }
    Ok(())
}

/// Refusals of a month's entries in their order: 13, 14, 19, 15, 16, 21, 17. `active`: the active
/// pools before the month.
pub fn check_entries(entries: &Entries, active: u128) -> Result<(), Cause> {
    check_weather(entries.temperature, entries.rain, entries.evaporation)?;
    if ![OPEN_PAN, EVAPOTRANSPIRATION].contains(&entries.source) {
        return Err(Cause::Source);
    }
    let row = [
        entries.cover,
        entries.plant,
        entries.manure,
        entries.activity,
    ];
    check_land(row, active)
}

/// Refusal 12 and those of the entries, as a month of a list or spin-up meets them.
fn check_month(state: &State, entries: &Entries) -> Result<(), Cause> {
    if state.months >= MONTH_LIMIT {
        return Err(Cause::MonthsDone);
    }
    check_entries(entries, state.soil.active())
}

/// Steps 1 to 4 without S: the month's rate factors and its new deficit.
#[derive(Clone, Copy, Debug, PartialEq, Eq)]
pub struct Factors {
    /// A of step 1.
    pub temperature: u64,
    /// R of step 2.
    pub clay: u64,
    /// B of step 3.
    pub moisture: u64,
    /// N of step 4.
    pub n: u64,
    /// The new D.
    pub deficit: i128,
}

/// Step 3: the month's drying in parts. A tenth of potential evapotranspiration dries as a tenth of
/// rain wets; an open pan's dries 0.75 of that.
pub fn drying(entries: &Entries) -> i128 {
    let a_tenth = match entries.source {
        OPEN_PAN => 155_250,
        EVAPOTRANSPIRATION => 207_000,
        _ => panic!("a source that 19 doesn't refuse"),
    };
    a_tenth * entries.evaporation as i128 - 207_000 * entries.rain as i128
}

/// Step 3: the new deficit.
pub fn new_deficit(soil: &Soil, deficit: i128, drying: i128, cover: i64) -> i128 {
    let limit = soil.deficit_limit();
    // 5/9 of M is whole: M has the factor 9.
    let cap = if cover == 1 {
        limit
    } else {
        deficit.max(limit / 9 * 5)
    };
    (deficit + drying).max(0).min(cap)
}

/// Step 3: B for the new deficit.
pub fn moisture_factor(soil: &Soil, deficit: i128) -> u64 {
    let limit = soil.deficit_limit();
    if 1000 * deficit < 444 * limit {
        return 10_000;
    }
    // 2,000 + 8,000,000 × (M - D) / (556 × M), halves up.
    let (top, bottom) = (8_000_000 * (limit - deficit), 556 * limit);
    (2_000 + (2 * top + bottom).div_euclid(2 * bottom)) as u64
}

/// Steps 1 to 4 for entries that 13, 14, 19 and 15 don't refuse.
pub fn factors(soil: &Soil, deficit: i128, entries: &Entries) -> Factors {
    let temperature = temperature_factor(entries.temperature);
    let clay = clay_factor(soil.clay as i64);
    let deficit = new_deficit(soil, deficit, drying(entries), entries.cover);
    let moisture = moisture_factor(soil, deficit);
    let n = temperature * moisture * if entries.cover == 1 { 6 } else { 10 };
    Factors {
        temperature,
        clay,
        moisture,
        n,
        deficit,
    }
}

/// Step 5: what a pool keeps.
pub fn kept(grams: u64, survival: u64) -> u64 {
    (grams as u128 * survival as u128 / BILLION as u128) as u64
}

/// Step 6: the share of DPM in plant carbon, as numerator and denominator.
pub fn plant_share(kind: i128) -> (u64, u64) {
    match kind {
        1 => (36, 61),
        2 => (67, 167),
        3 => (1, 5),
        _ => panic!("kind is 1, 2 or 3"),
    }
}

/// Step 6: DPM and RPM of plant carbon.
pub fn split_plant(kind: i128, plant: u64) -> (u64, u64) {
    let (top, bottom) = plant_share(kind);
    let dpm = plant * top / bottom;
    (dpm, plant - dpm)
}

/// Step 6: DPM, RPM and HUM of manure.
pub fn split_manure(manure: u64) -> (u64, u64, u64) {
    let (dpm, hum) = (manure * 49 / 100, manure * 2 / 100);
    (dpm, manure - dpm - hum, hum)
}

/// Step 5 on four pools, with their survival numbers and R: what is in them after it, and what is
/// lost and not formed, CO2 where the pools are carbon.
pub fn decayed(before: [u64; 4], survivals: &[u64; 4], clay: u64) -> ([u64; 4], u64) {
    let mut pools: [u64; 4] = std::array::from_fn(|pool| kept(before[pool], survivals[pool]));
    let lost: u64 = (0..4).map(|pool| before[pool] - pools[pool]).sum();
    let formed = (lost as u128 * clay as u128 / 1_000_000) as u64;
    let to_bio = (formed as u128 * 46 / 100) as u64;
    pools[BIO] += to_bio;
    pools[HUM] += formed - to_bio;
    (pools, lost - formed)
}

/// Step 6: the pools with plant and manure added.
pub fn added(mut pools: [u64; 4], kind: i128, plant: u64, manure: u64) -> [u64; 4] {
    let (dpm, rpm) = split_plant(kind, plant);
    pools[DPM] += dpm;
    pools[RPM] += rpm;
    let (dpm, rpm, hum) = split_manure(manure);
    pools[DPM] += dpm;
    pools[RPM] += rpm;
    pools[HUM] += hum;
    pools
}

/// What a month leaves of an active pool's modern grams before they decay.
pub fn month_left(modern: u64) -> u64 {
    (modern as u128 * MONTH_LEFT / BILLION as u128) as u64
}

/// The modern grams that grams of this activity bring.
pub fn brought(grams: u64, activity: i64) -> u64 {
    (grams as u128 * activity as u128 / 1_000) as u64
}

/// An accepted month, all checks done: steps 1 to 6, and the same on the modern grams.
pub fn run_month(state: &State, entries: &Entries, survival: &mut dyn Survival) -> (State, Row) {
    let soil = &state.soil;
    let factors = factors(soil, state.deficit, entries);
    let survivals = RATES.map(|k| {
        let s = survival.survival(factors.n, k);
        assert!(s <= BILLION, "S is from 0 to 1,000,000,000");
        s
    });
    let (plant, manure) = (entries.plant as u64, entries.manure as u64);

    let (pools, co2) = decayed(soil.pools, &survivals, factors.clay);
    let pools = added(pools, soil.kind, plant, manure);

    // The month's radioactive loss comes first, so that the additions have none.
    let modern = state.modern.map(month_left);
    let (modern, _) = decayed(modern, &survivals, factors.clay);
    let [plant, manure] = [plant, manure].map(|grams| brought(grams, entries.activity));
    let modern = added(modern, soil.kind, plant, manure);

    let next = State {
        soil: Soil {
            pools,
            ..soil.clone()
        },
        deficit: factors.deficit,
        months: state.months + 1,
        co2: state.co2 + co2,
        modern,
    };
    let row = [
        pools[0],
        pools[1],
        pools[2],
        pools[3],
        soil.inert,
        co2,
        factors.deficit as u64,
    ];
    (next, row)
}

/// Refusals of a single month call, in order: 4 to 7, 10, 11, 12, then those of its entries.
/// `kept`: how many states are kept.
pub fn check_call(state: &State, kept: u64, number: i128, entries: &Entries) -> Result<(), Cause> {
    state.soil.check()?;
    state.check_numbers(kept)?;
    if number != state.months as i128 + 1 {
        return Err(Cause::Turn);
    }
    check_month(state, entries)
}

/// A single month call with none kept: the state returned and the month's row or the refusal (place
/// 0).
pub fn month(
    state: &State,
    number: i128,
    entries: &Entries,
    survival: &mut dyn Survival,
) -> (State, Result<Row, Refusal>) {
    match check_call(state, 0, number, entries) {
        Err(cause) => (state.clone(), Err(Refusal { cause, place: 0 })),
        Ok(()) => {
            let (next, row) = run_month(state, entries, survival);
            (next, Ok(row))
        }
    }
}

/// Called with the state before each month that runs, and its entries.
pub type Watch<'a> = &'a mut dyn FnMut(&State, &Entries);

/// The entries of month j (from 1) of a list: land row j, weather row ((j - 1) mod rows) + 1.
pub fn list_entries(weather: &[i64], land: &[i64], j: usize) -> Entries {
    let rows = weather.len() / WEATHER_NUMBERS;
    let w = (j - 1) % rows * WEATHER_NUMBERS;
    let l = (j - 1) * LAND_NUMBERS;
    Entries {
        temperature: weather[w],
        rain: weather[w + 1],
        evaporation: weather[w + 2],
        source: weather[w + 3],
        cover: land[l],
        plant: land[l + 1],
        manure: land[l + 2],
        activity: land[l + 3],
    }
}

/// Refusal 3 for one list with so many numbers a row.
fn list_count(numbers: &[i64], a_row: usize) -> Result<(), Cause> {
    if numbers.len() % a_row != 0 || !(1..=ROW_LIMIT).contains(&(numbers.len() / a_row)) {
        return Err(Cause::Count);
    }
    Ok(())
}

/// Step 7: a list of months with none kept. Rows go to the front of `output`; the rest stays as it
/// was. Order: 3, 4 to 7, 8, 10 with place 0, then month by month 12 and those of its entries.
/// Refused at month j it returns the state after j - 1 months, with those rows written.
pub fn list(
    state: &State,
    weather: &[i64],
    land: &[i64],
    output: &mut [u64],
    survival: &mut dyn Survival,
) -> (State, Result<(), Refusal>) {
    list_watched(state, 0, weather, land, output, survival, &mut |_, _| ())
}

pub fn list_watched(
    state: &State,
    kept: u64,
    weather: &[i64],
    land: &[i64],
    output: &mut [u64],
    survival: &mut dyn Survival,
    watch: Watch,
) -> (State, Result<(), Refusal>) {
    let rows = land.len() / LAND_NUMBERS;
    let outside = || -> Result<(), Cause> {
        list_count(weather, WEATHER_NUMBERS)?;
        list_count(land, LAND_NUMBERS)?;
        state.soil.check()?;
        if output.len() < rows * OUTPUT_NUMBERS {
            return Err(Cause::OutputTooShort);
        }
        state.check_numbers(kept)
    };
    if let Err(cause) = outside() {
        return (state.clone(), Err(Refusal { cause, place: 0 }));
    }
    let mut current = state.clone();
    for j in 1..=rows {
        let entries = list_entries(weather, land, j);
        if let Err(cause) = check_month(&current, &entries) {
            return (
                current,
                Err(Refusal {
                    cause,
                    place: j as u64,
                }),
            );
        }
        watch(&current, &entries);
        let (next, row) = run_month(&current, &entries, survival);
        output[(j - 1) * OUTPUT_NUMBERS..j * OUTPUT_NUMBERS].copy_from_slice(&row);
        current = next;
    }
    (current, Ok(()))
}

/// How a spin-up ended, with the years run.
#[derive(Clone, Copy, Debug, PartialEq, Eq)]
pub enum Spun {
    Settled(u64),
    Unsettled(u64),
}

/// A rule for which years settle, of the soils with which a year begins and ends.
pub type Settles = fn(&Soil, &Soil) -> bool;

/// The total of the five pools alone: the whole rule before change 2026-05, kept for comparing.
pub fn total_settles(start: &Soil, end: &Soil) -> bool {
    start.total().abs_diff(end.total()) <= SETTLED
}

/// Each of the five pools.
pub fn pools_settle(start: &Soil, end: &Soil) -> bool {
    let active = (0..4).all(|pool| start.pools[pool].abs_diff(end.pools[pool]) as u128 <= SETTLED);
    active && start.inert.abs_diff(end.inert) as u128 <= SETTLED
}

/// The rule: the total and each of the five pools.
pub fn year_settles(start: &Soil, end: &Soil) -> bool {
    total_settles(start, end) && pools_settle(start, end)
}

/// Spin-up with none kept. Order: 3, 4 to 7, 9, 10 with place 0, then month by month 12 and those
/// of its entries, the place counted over all years. A refusal returns the starting state.
pub fn spin_up(
    state: &State,
    weather: &[i64],
    land: &[i64],
    years: i128,
    survival: &mut dyn Survival,
) -> (State, Result<Spun, Refusal>) {
    spin_up_watched(state, 0, weather, land, years, survival, &mut |_, _| ())
}

pub fn spin_up_watched(
    state: &State,
    kept: u64,
    weather: &[i64],
    land: &[i64],
    years: i128,
    survival: &mut dyn Survival,
    watch: Watch,
) -> (State, Result<Spun, Refusal>) {
    let outside = || -> Result<(), Cause> {
        if weather.len() != 12 * WEATHER_NUMBERS || land.len() != 12 * LAND_NUMBERS {
            return Err(Cause::Count);
        }
        state.soil.check()?;
        if !(1..=YEAR_LIMIT).contains(&years) {
            return Err(Cause::Years);
        }
        state.check_numbers(kept)
    };
    if let Err(cause) = outside() {
        return (state.clone(), Err(Refusal { cause, place: 0 }));
    }
    let years = years as u64;
    run_years(year_settles, state, weather, land, years, survival, watch)
}

/// The years of a spin-up that nothing outside its months refuses, up to the first that settles by
/// this rule.
pub fn run_years(
    settles: Settles,
    state: &State,
    weather: &[i64],
    land: &[i64],
    years: u64,
    survival: &mut dyn Survival,
    watch: Watch,
) -> (State, Result<Spun, Refusal>) {
    let mut current = state.clone();
    for year in 1..=years {
        let start = current.soil.clone();
        for j in 1..=12 {
            let entries = list_entries(weather, land, j);
            if let Err(cause) = check_month(&current, &entries) {
                return (
                    state.clone(),
                    Err(Refusal {
                        cause,
                        place: (year - 1) * 12 + j as u64,
                    }),
                );
            }
            watch(&current, &entries);
            current = run_month(&current, &entries, survival).0;
        }
        if settles(&start, &current.soil) {
            return (current, Ok(Spun::Settled(year)));
        }
    }
    (current, Ok(Spun::Unsettled(years)))
}

/// What a radiocarbon report can be asked of: a pool, or all five together.
#[derive(Clone, Copy, Debug, PartialEq, Eq)]
pub enum Asked {
    /// DPM, RPM, BIO or HUM by index.
    Active(usize),
    Inert,
    All,
}

/// Whether a report has an age.
#[derive(Clone, Copy, Debug, PartialEq, Eq)]
pub enum Dated {
    Age(u64),
    /// No age up to 60,000 does it.
    Older,
    /// More modern grams than grams.
    Newer,
}

#[derive(Clone, Copy, Debug, PartialEq, Eq)]
pub struct Report {
    /// In hundredths of a per mille.
    pub delta: i128,
    pub dated: Dated,
}

impl State {
    /// Grams and modern grams of what is asked; all five are added up first.
    pub fn weighed(&self, asked: Asked) -> (u128, u128) {
        match asked {
            Asked::Active(pool) => (self.soil.pools[pool] as u128, self.modern[pool] as u128),
            Asked::Inert => (self.soil.inert as u128, self.inert_modern()),
            Asked::All => (
                self.soil.total(),
                self.active_modern() + self.inert_modern(),
            ),
        }
    }
}

/// Where carbon with these modern grams stands among the ages: year after year from 0, until a
/// survival number is at most 1,000,000,000 × modern / carbon, compared by cross products.
pub fn dated(carbon: u128, modern: u128, survival: &mut dyn Survival) -> Dated {
    if modern > carbon {
        return Dated::Newer;
    }
    let does_it = |years: &u64| survival.age(*years) as u128 * carbon <= BILLION as u128 * modern;
    (0..=OLDEST).find(does_it).map_or(Dated::Older, Dated::Age)
}

/// A radiocarbon report. Refusals in order: 4 to 7, 10, 22. `kept`: how many states are kept.
pub fn report(
    state: &State,
    kept: u64,
    asked: Asked,
    survival: &mut dyn Survival,
) -> Result<Report, Cause> {
    state.soil.check()?;
    state.check_numbers(kept)?;
    let (carbon, modern) = state.weighed(asked);
    if carbon == 0 {
        return Err(Cause::NoCarbon);
    }
    Ok(Report {
        delta: (100_000 * modern / carbon) as i128 - 100_000,
        dated: dated(carbon, modern, survival),
    })
}

/// The calls on a field. A month that runs keeps the state before it; a refusal keeps nothing.
impl Field {
    /// The new state of a soil, none kept.
    pub fn new(soil: Soil) -> Field {
        Field {
            state: State::new(soil),
            kept: Vec::new(),
        }
    }

    fn keep(&mut self, before: State) {
        self.kept.push(before);
        if self.kept.len() > KEPT_LIMIT {
            self.kept.remove(0);
        }
    }

    pub fn month(
        &mut self,
        number: i128,
        entries: &Entries,
        survival: &mut dyn Survival,
    ) -> Result<Row, Refusal> {
        let kept = self.kept.len() as u64;
        check_call(&self.state, kept, number, entries)
            .map_err(|cause| Refusal { cause, place: 0 })?;
        let (next, row) = run_month(&self.state, entries, survival);
        let before = std::mem::replace(&mut self.state, next);
        self.keep(before);
        Ok(row)
    }

    /// Refused at month j it has kept the states before its j - 1 months.
    pub fn list(
        &mut self,
        weather: &[i64],
        land: &[i64],
        output: &mut [u64],
        survival: &mut dyn Survival,
    ) -> Result<(), Refusal> {
        let mut befores = Vec::new();
        let (next, answer) = list_watched(
            &self.state,
            self.kept.len() as u64,
            weather,
            land,
            output,
            survival,
            &mut |before, _| befores.push(before.clone()),
        );
        for before in befores {
            self.keep(before);
        }
        self.state = next;
        answer
    }

    /// Ends with none kept unless it is refused.
    pub fn spin_up(
        &mut self,
        weather: &[i64],
        land: &[i64],
        years: i128,
        survival: &mut dyn Survival,
    ) -> Result<Spun, Refusal> {
        let (next, answer) = spin_up_watched(
            &self.state,
            self.kept.len() as u64,
            weather,
            land,
            years,
            survival,
            &mut |_, _| (),
        );
        if answer.is_ok() {
            self.state = next;
            self.kept.clear();
        }
        answer
    }

    /// Takes the latest month back. Refusals: 20, then 10 for the kept count, nothing else.
    pub fn take_back(&mut self) -> Result<(), Cause> {
        if self.kept.len() > KEPT_LIMIT {
            return Err(Cause::State);
        }
        self.state = self.kept.pop().ok_or(Cause::NoneKept)?;
        Ok(())
    }
}

#[cfg(test)]
mod tests {
    use super::*;

    fn soil(clay: i128, depth: i128, kind: i128, pools: [u64; 4], inert: u64) -> Soil {
        Soil {
            clay,
            depth,
            kind,
            pools,
            inert,
        }
    }

    fn hoosfield() -> Soil {
        soil(
            234,
            23,
            1,
            [153_300, 4_485_200, 667_100, 25_857_600],
            2_700_000,
        )
    }

    const JANUARY: Entries = Entries {
        temperature: 34,
        rain: 740,
        evaporation: 80,
        source: OPEN_PAN,
        cover: 0,
        plant: 0,
        manure: 0,
        activity: FRESH,
    };

    fn cause(state: &State, number: i128, entries: &Entries) -> Option<u8> {
        let (next, answer) = month(state, number, entries, &mut Nearest);
        match answer {
            Ok(_) => None,
            Err(refusal) => {
                assert_eq!((&next, refusal.place), (state, 0));
                Some(refusal.cause.number())
            }
        }
    }

    #[test]
    fn january_1852() {
        let (state, row) = month(&State::new(hoosfield()), 1, &JANUARY, &mut Nearest);
        assert_eq!(
            row,
            Ok([113_937, 4_445_447, 665_104, 25_855_106, 2_700_000, 83_606, 0])
        );
        assert_eq!((state.months, state.co2, state.deficit), (1, 83_606, 0));
        assert_eq!(state.soil.total(), 33_779_594);
    }

    #[test]
    fn moisture() {
        let rothamsted = hoosfield();
        assert_eq!(rothamsted.deficit_limit(), 93_034_908);
        assert_eq!(moisture_factor(&rothamsted, 2_070_000 * 55 / 2), 7_585);
        assert_eq!(
            moisture_factor(&rothamsted, rothamsted.deficit_limit()),
            2_000
        );
        assert_eq!(moisture_factor(&rothamsted, 0), 10_000);
        // The edge itself: 0.444 of M is not below 0.444 of M, and gives 10,000 by the formula too.
        let round = soil(0, 100, 1, [0; 4], 0);
        assert_eq!(round.deficit_limit(), 180_000_000);
        assert_eq!(moisture_factor(&round, 79_920_000), 10_000);
        assert_eq!(moisture_factor(&round, 79_919_999), 10_000);
        assert_eq!(moisture_factor(&round, 80_000_000), 9_994);
    }

    /// The new deficit of a month by open pan.
    fn by_pan(soil: &Soil, deficit: i128, rain: i64, evaporation: i64, cover: i64) -> i128 {
        let entries = Entries {
            rain,
            evaporation,
            ..JANUARY
        };
        new_deficit(soil, deficit, drying(&entries), cover)
    }

    #[test]
    fn exact_half_goes_up() {
        let half = soil(100, 23, 1, [0; 4], 0);
        let (m, d) = (half.deficit_limit(), 59_046_750);
        assert_eq!(m, 66_240_000);
        // 8,000,000 × (M - D) / (556 × M) is 1562.5 exactly.
        assert_eq!(2 * 8_000_000 * (m - d), 3_125 * 556 * m);
        assert_eq!(moisture_factor(&half, d), 3_563);
        assert_eq!(moisture_factor(&half, d + 1), 3_562);
        // One month under a crop reaches it.
        assert_eq!(by_pan(&half, 0, 2, 383, 1), d);
    }

    #[test]
    fn bare_soil_keeps_a_drier_deficit() {
        let s = hoosfield();
        let (m, bare) = (s.deficit_limit(), s.deficit_limit() / 9 * 5);
        assert_eq!(bare * 9, m * 5);
        assert_eq!(by_pan(&s, 0, 0, 20_000, 0), bare);
        assert_eq!(by_pan(&s, 0, 0, 20_000, 1), m);
        assert_eq!(by_pan(&s, m, 0, 500, 0), m);
        assert_eq!(by_pan(&s, m - 5, 0, 500, 0), m - 5);
        assert_eq!(by_pan(&s, m, 100, 0, 0), m - 20_700_000);
        assert_eq!(by_pan(&s, m, 20_000, 0, 0), 0);
        assert_eq!(by_pan(&s, bare, 0, 0, 0), bare);
    }

    /// Evapotranspiration dries without the 0.75: 3 of its tenths as 4 of the pan's.
    #[test]
    fn sources_of_evaporation() {
        let entries = |rain: i64, evaporation: i64, source: i64| Entries {
            rain,
            evaporation,
            source,
            ..JANUARY
        };
        assert_eq!(drying(&entries(0, 1, OPEN_PAN)), 155_250);
        assert_eq!(drying(&entries(0, 1, EVAPOTRANSPIRATION)), 207_000);
        assert_eq!(drying(&entries(7, 7, EVAPOTRANSPIRATION)), 0);
        assert_eq!(drying(&entries(20_000, 0, 1)), -4_140_000_000);
        assert_eq!(drying(&entries(0, 20_000, 1)), 4_140_000_000);
        let state = State::new(hoosfield());
        for threes in 0..=5_000 {
            let (pan, other) = (
                entries(50, 4 * threes, OPEN_PAN),
                entries(50, 3 * threes, EVAPOTRANSPIRATION),
            );
            assert_eq!(drying(&pan), drying(&other));
            assert_eq!(
                month(&state, 1, &pan, &mut Nearest),
                month(&state, 1, &other, &mut Nearest)
            );
        }
    }

    #[test]
    fn splits() {
        assert_eq!(split_plant(1, 61), (36, 25));
        assert_eq!(split_plant(2, 167), (67, 100));
        assert_eq!(split_plant(3, 9), (1, 8));
        assert_eq!(split_manure(99), (48, 50, 1));
    }

    #[test]
    fn ceiling_of_a_month() {
        let full = State::new(soil(234, 23, 1, [250_000_000; 4], 0));
        assert_eq!(cause(&full, 1, &JANUARY), None);
        assert_eq!(
            cause(
                &full,
                1,
                &Entries {
                    plant: 1,
                    ..JANUARY
                }
            ),
            Some(17)
        );
        assert_eq!(
            cause(
                &full,
                1,
                &Entries {
                    manure: 1,
                    ..JANUARY
                }
            ),
            Some(17)
        );
    }

    #[test]
    fn order_of_a_call() {
        let good = State::new(hoosfield());
        let max = u64::MAX;
        let mut bad = good.clone();
        bad.soil = soil(1001, 0, 4, [max; 4], max);
        bad.deficit = -1;
        bad.months = max;
        bad.co2 = max;
        let wrong = Entries {
            temperature: i64::MIN,
            rain: i64::MIN,
            evaporation: i64::MAX,
            source: i64::MIN,
            cover: i64::MIN,
            plant: i64::MAX,
            manure: i64::MAX,
            activity: i64::MIN,
        };
        bad.modern = [max; 4];
        assert_eq!(cause(&bad, 0, &wrong), Some(4));
        bad.soil.clay = 1000;
        assert_eq!(cause(&bad, 0, &wrong), Some(5));
        bad.soil.depth = 100;
        assert_eq!(cause(&bad, 0, &wrong), Some(6));
        bad.soil.kind = 3;
        assert_eq!(cause(&bad, 0, &wrong), Some(7));
        bad.soil.pools = [1, 0, 0, 0];
        assert_eq!(cause(&bad, 0, &wrong), Some(7));
        bad.soil.inert = 1_000_000_000;
        assert_eq!(cause(&bad, 0, &wrong), Some(10));
        bad.deficit = bad.soil.deficit_limit();
        assert_eq!(cause(&bad, 0, &wrong), Some(10));
        bad.months = 120_000;
        assert_eq!(cause(&bad, 0, &wrong), Some(10));
        bad.co2 = 24_000_999_999_999;
        assert_eq!(cause(&bad, 0, &wrong), Some(10));
        bad.modern = [1, 48_000_999_999_997, 1, 1];
        assert_eq!(cause(&bad, 0, &wrong), Some(11));
        bad.modern[2] += 1;
        assert_eq!(cause(&bad, 0, &wrong), Some(10));
        // These wrap to 0 and to 1.
        for modern in [[1 << 62; 4], [max, 1, 0, 1]] {
            bad.modern = modern;
            assert_eq!(cause(&bad, 0, &wrong), Some(10));
        }
        bad.modern = [0; 4];
        bad.co2 += 1;
        assert_eq!(cause(&bad, 0, &wrong), Some(10));
        bad.co2 -= 1;
        assert_eq!(cause(&bad, 120_000, &wrong), Some(11));
        assert_eq!(cause(&bad, 120_001, &wrong), Some(12));
        bad.months = 119_999;
        assert_eq!(cause(&bad, 120_000, &wrong), Some(10));
        bad.co2 = 0;
        assert_eq!(cause(&bad, 120_000, &wrong), Some(13));
        let wrong = Entries {
            temperature: 500,
            ..wrong
        };
        assert_eq!(cause(&bad, 120_000, &wrong), Some(14));
        let wrong = Entries { rain: 0, ..wrong };
        assert_eq!(cause(&bad, 120_000, &wrong), Some(14));
        let wrong = Entries {
            evaporation: 20_000,
            ..wrong
        };
        for source in [i64::MIN, -1, 2, i64::MAX] {
            let wrong = Entries { source, ..wrong };
            assert_eq!(cause(&bad, 120_000, &wrong), Some(19));
        }
        let wrong = Entries { source: 1, ..wrong };
        assert_eq!(cause(&bad, 120_000, &wrong), Some(15));
        let wrong = Entries { cover: 1, ..wrong };
        assert_eq!(cause(&bad, 120_000, &wrong), Some(16));
        let wrong = Entries {
            plant: 100_000_000,
            ..wrong
        };
        assert_eq!(cause(&bad, 120_000, &wrong), Some(16));
        bad.soil.pools = [800_000_001, 0, 0, 0];
        let wrong = Entries {
            manure: 100_000_000,
            ..wrong
        };
        for activity in [i64::MIN, -1, 2_001, i64::MAX] {
            let wrong = Entries { activity, ..wrong };
            assert_eq!(cause(&bad, 120_000, &wrong), Some(21));
        }
        let wrong = Entries {
            activity: 2_000,
            ..wrong
        };
        assert_eq!(cause(&bad, 120_000, &wrong), Some(17));
        bad.soil.pools = [800_000_000, 0, 0, 0];
        assert_eq!(cause(&bad, 120_000, &wrong), None);
    }

    #[test]
    fn lists() {
        let state = State::new(soil(0, 1, 2, [10, 20, 30, 40], 5));
        let weather = [-60, 0, 0, 0, 501, 0, 0, 0];
        let land = [0, 1, 2, 1000, 1, 0, 0, 0];
        let run = |state: &State, weather: &[i64], land: &[i64], output: &mut [u64]| {
            let (next, answer) = list(state, weather, land, output, &mut Nearest);
            (
                next,
                answer
                    .err()
                    .map(|refusal| (refusal.cause.number(), refusal.place)),
            )
        };
        // One month uses one weather row: the faulty second is not checked.
        let mut output = [9; 16];
        let (next, refused) = run(&state, &weather, &land[..4], &mut output);
        assert_eq!(refused, None);
        assert_eq!(output, [10, 23, 30, 40, 5, 0, 0, 9, 9, 9, 9, 9, 9, 9, 9, 9]);
        assert_eq!(next.months, 1);
        // Two months: refused at 2, the first row written.
        let mut output = [9; 16];
        let (next, refused) = run(&state, &weather, &land, &mut output);
        assert_eq!((refused, next.months), (Some((13, 2)), 1));
        assert_eq!(output, [10, 23, 30, 40, 5, 0, 0, 9, 9, 9, 9, 9, 9, 9, 9, 9]);
        // 19 has its month's place, after 14 and before 15.
        let mut output = [9; 16];
        let sources = [-60, 0, 0, 1, -60, 0, 0, 2];
        let faulty = [0, 1, 2, 0, 2, -1, 0, 0];
        let (next, refused) = run(&state, &sources, &faulty, &mut output);
        assert_eq!((refused, next.months), (Some((19, 2)), 1));
        let sources = [-60, 0, 0, 1, -60, 0, -1, 2];
        let (_, refused) = run(&state, &sources, &faulty, &mut output);
        assert_eq!(refused, Some((14, 2)));
        // 21 after 16 and before 17, with its month's place.
        for (row, number) in [([1, 0, 0, 2_001], 21), ([1, -1, 0, -1], 16)] {
            let faulty = [
                land[0], land[1], land[2], 2_000, row[0], row[1], row[2], row[3],
            ];
            let (next, refused) = run(&state, &[-60, 0, 0, 1], &faulty, &mut output);
            assert_eq!((refused, next.months), (Some((number, 2)), 1));
            assert_eq!(next.modern, [10, 24, 29, 39]);
        }
        // 3 before all, 8 before 10.
        let none: [i64; 0] = [];
        for (w, l) in [
            (&weather[..3], &land[..]),
            (&weather[..5], &land[..]),
            (&weather[..6], &land[..]),
            (&weather[..], &land[..3]),
            (&weather[..], &land[..6]),
            (&none[..], &land[..]),
            (&weather[..], &none[..]),
        ] {
            assert_eq!(run(&state, w, l, &mut []).1, Some((3, 0)));
        }
        let long = vec![0; 4 * 1201];
        assert_eq!(run(&state, &long, &land, &mut output).1, Some((3, 0)));
        let long = vec![0; 4 * 1201];
        assert_eq!(run(&state, &weather, &long, &mut output).1, Some((3, 0)));
        let dry = State {
            deficit: -1,
            ..state.clone()
        };
        assert_eq!(run(&dry, &weather, &land, &mut [9; 13]).1, Some((8, 0)));
        assert_eq!(run(&dry, &weather, &land, &mut output).1, Some((10, 0)));
        let deep = State {
            soil: soil(0, 101, 2, [0; 4], 0),
            deficit: -1,
            ..state.clone()
        };
        assert_eq!(run(&deep, &weather, &land, &mut [9; 13]).1, Some((5, 0)));
        // 12 is a fault of its month.
        let late = State {
            months: 119_999,
            ..state.clone()
        };
        let mut output = [9; 16];
        let (next, refused) = run(&late, &weather, &land, &mut output);
        assert_eq!((refused, next.months), (Some((12, 2)), 120_000));
        let done = State {
            months: 120_000,
            ..state.clone()
        };
        let (next, refused) = run(&done, &weather, &land, &mut output);
        assert_eq!((refused, next), (Some((12, 1)), done));
        // Weather wraps round.
        let weather = [-60, 0, 100, 0, -60, 0, 1, 0];
        let land = [1, 0, 0, 1000].repeat(3);
        let mut output = [0; 21];
        assert_eq!(run(&state, &weather, &land, &mut output).1, None);
        assert_eq!(output[6], 1_800_000);
        let deep = State {
            soil: soil(0, 100, 2, [0; 4], 0),
            ..state
        };
        assert_eq!(run(&deep, &weather, &land, &mut output).1, None);
        assert_eq!(
            [output[6], output[13], output[20]],
            [15_525_000, 15_680_250, 31_205_250]
        );
        // The second row by evapotranspiration.
        let weather = [-60, 0, 100, 0, -60, 0, 1, 1];
        assert_eq!(run(&deep, &weather, &land, &mut output).1, None);
        assert_eq!([output[6], output[13]], [15_525_000, 15_732_000]);
    }

    #[test]
    fn spin_ups() {
        let frost: Vec<i64> = [-60, 0, 0, 0].repeat(12);
        let bare: Vec<i64> = [0, 0, 0, 1000].repeat(12);
        let state = State::new(soil(0, 1, 2, [10, 20, 30, 40], 5));
        let (next, answer) = spin_up(&state, &frost, &bare, 10, &mut Nearest);
        assert_eq!((answer, next.months), (Ok(Spun::Settled(1)), 12));
        // 1,000 g a year settles, 1,001 doesn't. No pool gets as much.
        let mut land = bare.clone();
        land[1] = 1_000;
        assert_eq!(
            spin_up(&state, &frost, &land, 10, &mut Nearest).1,
            Ok(Spun::Settled(1))
        );
        land[1] = 1_001;
        let (next, answer) = spin_up(&state, &frost, &land, 10, &mut Nearest);
        assert_eq!(
            (answer, next.months, next.soil.total()),
            (Ok(Spun::Unsettled(10)), 120, 105 + 10_010)
        );
        let refused = |state: &State, w: &[i64], l: &[i64], years: i128| {
            let (next, answer) = spin_up(state, w, l, years, &mut Nearest);
            assert_eq!(&next, state);
            answer
                .err()
                .map(|refusal| (refusal.cause.number(), refusal.place))
        };
        assert_eq!(refused(&state, &frost[..44], &bare, 0), Some((3, 0)));
        assert_eq!(refused(&state, &frost[..36], &bare, 0), Some((3, 0)));
        assert_eq!(refused(&state, &frost, &[0; 36], 0), Some((3, 0)));
        assert_eq!(refused(&state, &frost, &[0; 52], 0), Some((3, 0)));
        let deep = State {
            soil: soil(0, 101, 2, [0; 4], 0),
            deficit: -1,
            ..state.clone()
        };
        assert_eq!(refused(&deep, &frost, &bare, 0), Some((5, 0)));
        let dry = State {
            deficit: -1,
            ..state.clone()
        };
        for years in [0, -1, 10_001, u64::MAX as i128] {
            assert_eq!(refused(&dry, &frost, &bare, years), Some((9, 0)));
        }
        assert_eq!(refused(&dry, &frost, &bare, 10_000), Some((10, 0)));
        let mut other = frost.clone();
        other[4 * 4 + 3] = 2;
        assert_eq!(refused(&state, &other, &bare, 10), Some((19, 5)));
        // Year 4, month 5 is 41: 300 grams short of the ceiling after three years and four months.
        let mut land = bare.clone();
        land[16 + 1] = 100_000_000;
        let full = State::new(soil(0, 1, 2, [600_000_001, 0, 0, 0], 0));
        assert_eq!(refused(&full, &frost, &land, 10), Some((17, 41)));
        let late = State {
            months: 119_990,
            ..state
        };
        assert_eq!(refused(&late, &frost, &land, 10), Some((12, 11)));
        // Ten thousand years of months are 120,000: the last runs from a new state.
        land[17] = 0;
        land[1] = 1_001;
        let (next, answer) = spin_up(
            &State::new(soil(0, 1, 2, [0; 4], 0)),
            &frost,
            &land,
            10_000,
            &mut Nearest,
        );
        assert_eq!(
            (answer, next.months),
            (Ok(Spun::Unsettled(10_000)), 120_000)
        );
    }

    /// Which years settle, by each pool alone and by the total alone, up and down.
    #[test]
    fn years_that_settle() {
        let start = soil(234, 23, 1, [5_000, 6_000, 7_000, 8_000], 9_000);
        // Five changes, IOM's last, one way and the other.
        let rules = |changes: [i64; 5]| {
            let both = [1, -1].map(|sign| {
                let after = |grams: u64, change: i64| grams.saturating_add_signed(sign * change);
                let mut end = start.clone();
                end.pools = std::array::from_fn(|pool| after(start.pools[pool], changes[pool]));
                end.inert = after(start.inert, changes[4]);
                let rules: [Settles; 3] = [total_settles, pools_settle, year_settles];
                rules.map(|rule| {
                    // Where a year begins and where it ends can be changed over.
                    assert_eq!(rule(&start, &end), rule(&end, &start));
                    rule(&start, &end)
                })
            });
            assert_eq!(both[0], both[1], "{changes:?}");
            both[0]
        };
        assert_eq!(rules([0; 5]), [true; 3]);
        // Each of the five pools at 1,000 and 1,001, the total within 1,000 by the next pool.
        for pool in 0..5 {
            for (change, holds) in [(1_000, true), (1_001, false), (3_000, false)] {
                for total in [0, 1_000, -1_000] {
                    let mut changes = [0i64; 5];
                    changes[pool] = change;
                    changes[(pool + 1) % 5] = (total - change) / 2;
                    changes[(pool + 2) % 5] = total - change - (total - change) / 2;
                    if changes.iter().any(|other| other.abs() > change) {
                        continue;
                    }
                    assert_eq!(rules(changes), [true, holds, holds], "{changes:?}");
                }
            }
        }
        // Each pool within 1,000, the total 1,000 and more.
        for (changes, holds) in [
            ([200, 200, 200, 200, 200], true),
            ([200, 200, 200, 201, 200], false),
            ([1_000, 0, 0, 0, 0], true),
            ([1_000, 0, 0, 1, 0], false),
            ([1_000, 1_000, -1_000, 0, 0], true),
            ([1_000, 1_000, -999, 0, 0], false),
            ([0, 0, 1_000, 1_000, 0], false),
            ([1_000, 1_000, 0, 1_000, 0], false),
            ([1_000, 1_000, 1_000, 1_000, 0], false),
            ([1_000, 1_000, 1_000, 1_000, 1_000], false),
        ] {
            assert_eq!(rules(changes), [holds, true, holds], "{changes:?}");
        }
        // Neither, and residue that falls while humus rises by as much.
        assert_eq!(rules([0, 1_001, 0, 0, 0]), [false; 3]);
        for (changes, holds) in [
            ([0, -1_000, 0, 1_000, 0], true),
            ([0, -1_001, 0, 1_001, 0], false),
            ([0, -2_500, 500, 2_000, 0], false),
        ] {
            assert_eq!(rules(changes), [true, holds, holds], "{changes:?}");
        }
        // Nothing else of a soil is asked, and no difference wraps.
        let other = soil(0, 1, 3, start.pools, start.inert);
        assert!(year_settles(&start, &other));
        let most = soil(0, 1, 3, [u64::MAX, 0, u64::MAX, 0], 0);
        let none = soil(0, 1, 3, [0, u64::MAX, 0, u64::MAX], 0);
        assert!(total_settles(&most, &none) && !pools_settle(&most, &none));
    }

    /// One loop by both rules: a field whose residue falls while its humus rises.
    #[test]
    fn years_by_both_rules() {
        // July in the first month, frost in the others, 40 kg of plant carbon.
        let weather = [&[160, 500, 0, 0], &[-60, 0, 0, 0].repeat(11)[..]].concat();
        let land = [&[1, 40_000, 0, 1_000], &[0, 0, 0, 1_000].repeat(11)[..]].concat();
        let state = State::new(soil(60, 23, 1, [36_000, 700_000, 54_000, 1_400_000], 9));
        let rules: [Settles; 3] = [total_settles, year_settles, |_, _| false];
        let mut ends = Vec::new();
        for settles in rules {
            let mut starts = Vec::new();
            let (next, answer) = run_years(
                settles,
                &state,
                &weather,
                &land,
                400,
                &mut Nearest,
                &mut |before, _| {
                    if before.months % 12 == 0 {
                        starts.push(before.soil.clone());
                    }
                },
            );
            let (Ok(Spun::Settled(years)) | Ok(Spun::Unsettled(years))) = answer else {
                panic!("{answer:?}")
            };
            assert_eq!((next.months, starts.len()), (12 * years, years as usize));
            starts.push(next.soil.clone());
            // The first year that settles, and no year before it.
            let first = starts
                .windows(2)
                .position(|year| settles(&year[0], &year[1]));
            let settled = (answer == Ok(Spun::Settled(years))).then_some(years as usize - 1);
            assert_eq!(first, settled);
            ends.push((next, answer));
        }
        assert!(ends[0].0.months < ends[1].0.months && ends[1].0.months < ends[2].0.months);
        assert_eq!(ends[2].1, Ok(Spun::Unsettled(400)));
        assert_eq!(spin_up(&state, &weather, &land, 400, &mut Nearest), ends[1]);
    }

    #[test]
    fn months_taken_back() {
        let mut field = Field::new(hoosfield());
        assert_eq!(field.take_back(), Err(Cause::NoneKept));
        let mut states = Vec::new();
        let refused = |answer: Result<Row, Refusal>| answer.unwrap_err().cause.number();
        for number in 1..=30 {
            states.push(field.state.clone());
            assert!(field.month(number, &JANUARY, &mut Nearest).is_ok());
            // A refused month keeps nothing.
            assert_eq!(refused(field.month(number, &JANUARY, &mut Nearest)), 11);
            assert_eq!(field.kept, states[states.len().saturating_sub(24)..]);
        }
        let mut back = field.clone();
        for left in (0..24).rev() {
            assert_eq!(back.take_back(), Ok(()));
            assert_eq!((&back.state, back.kept.len()), (&states[6 + left], left));
        }
        assert_eq!(back.take_back(), Err(Cause::NoneKept));
        assert_eq!(back.state, states[6]);
        // Booked afresh: the same field again.
        for number in 7..=30 {
            assert!(back.month(number, &JANUARY, &mut Nearest).is_ok());
        }
        assert_eq!(back, field);
        // By a list, and by one that is refused at its fourth month.
        let mut listed = Field::new(hoosfield());
        let january = [34, 740, 80, 0];
        let bare = [0, 0, 0, 1000].repeat(30);
        let mut rows = [0; 210];
        let answer = listed.list(&january, &bare, &mut rows, &mut Nearest);
        assert_eq!((answer, &listed), (Ok(()), &field));
        let mut wrong = bare.clone();
        wrong[12] = 2;
        let answer = listed.list(&january, &wrong, &mut rows, &mut Nearest);
        assert_eq!(answer.unwrap_err().place, 4);
        for number in 31..=33 {
            assert!(field.month(number, &JANUARY, &mut Nearest).is_ok());
        }
        assert_eq!(listed, field);
        // Spin-up: refused it keeps all, else none.
        let year = january.repeat(12);
        let spun = listed.spin_up(&year, &wrong[..48], 3, &mut Nearest);
        assert_eq!((spun.unwrap_err().place, &listed), (4, &field));
        assert!(listed.spin_up(&year, &bare[..48], 3, &mut Nearest).is_ok());
        assert!(listed.kept.is_empty() && listed.state.months > 33);
        assert_eq!(listed.take_back(), Err(Cause::NoneKept));
    }

    /// A kept count above 24 is 10, in its turn; taking back asks nothing else.
    #[test]
    fn too_many_kept() {
        let mut field = Field::new(hoosfield());
        field.kept = vec![field.state.clone(); 25];
        let given = field.clone();
        assert_eq!(field.take_back(), Err(Cause::State));
        let mut numbers = Vec::new();
        for clay in [1_001, 234] {
            field.state.soil.clay = clay;
            let months = field.month(9, &JANUARY, &mut Nearest).map(drop);
            let lists = [6, 7].map(|room| {
                let mut rows = vec![0; room];
                field.list(&[34, 740, 80, 0], &[0; 4], &mut rows, &mut Nearest)
            });
            let years = [0, 1].map(|years| {
                let (sky, land) = ([34, 740, 80, 0].repeat(12), [0; 48]);
                let spun = field.spin_up(&sky, &land, years, &mut Nearest);
                spun.map(drop)
            });
            let answers = [months, lists[0], lists[1], years[0], years[1]];
            numbers.push(answers.map(|answer| answer.unwrap_err().cause.number()));
        }
        assert_eq!(numbers, [[4; 5], [10, 8, 10, 9, 10]]);
        assert_eq!(field, given);
        field.kept.pop();
        field.state.soil = soil(5_000, 0, 9, [u64::MAX; 4], u64::MAX);
        field.state.months = u64::MAX;
        assert_eq!(field.take_back(), Ok(()));
        assert_eq!((&field.state, field.kept.len()), (&given.state, 23));
    }

    /// January 1852 with the modern grams by hand: each pool first by 999,989,629 billionths.
    #[test]
    fn modern_grams_of_january() {
        let state = State::new(hoosfield());
        assert_eq!(state.modern, [153_300, 4_485_200, 667_100, 25_857_600]);
        let left = state.modern.map(month_left);
        // 153,298.41, 4,485,153.48, 667,093.08 and 25,857,331.83.
        assert_eq!(left, [153_298, 4_485_153, 667_093, 25_857_331]);
        let (next, _) = month(&state, 1, &JANUARY, &mut Nearest);
        let kept: [u64; 4] = std::array::from_fn(|pool| {
            kept(left[pool], survival_nearest(356_100_000, RATES[pool]))
        });
        let lost = left.iter().sum::<u64>() - kept.iter().sum::<u64>();
        let formed = lost * 221_524 / 1_000_000;
        let to_bio = formed * 46 / 100;
        let wanted = [
            kept[0],
            kept[1],
            kept[2] + to_bio,
            kept[3] + formed - to_bio,
        ];
        assert_eq!(next.modern, wanted);
        assert_eq!(next.modern, [113_935, 4_445_401, 665_097, 25_854_836]);
    }

    /// Additions in frost: plant and manure by activity one by one, then the shares, no loss.
    #[test]
    fn modern_grams_of_additions() {
        let empty = State::new(soil(0, 23, 1, [0; 4], 0));
        let frost = |plant: i64, manure: i64, activity: i64| {
            let entries = Entries {
                temperature: -60,
                plant,
                manure,
                activity,
                ..JANUARY
            };
            month(&empty, 1, &entries, &mut Nearest).0.modern
        };
        assert_eq!(frost(61, 0, 1_000), [36, 25, 0, 0]);
        assert_eq!(frost(61, 0, 2_000), [72, 50, 0, 0]);
        assert_eq!(frost(61, 99, 0), [0; 4]);
        // 91 x 1.099 is 100.009: 49, 49 and 2, not 1.099 times the carbon's 44, 46 and 1.
        assert_eq!(frost(0, 91, 1_099), [49, 49, 0, 2]);
        // 1.999 and 1.999: 1 and 1, not 3 together.
        assert_eq!(frost(1, 1, 1_999), [0, 2, 0, 0]);
        // Large ones lose nothing in their own month.
        let most = 100_000_000;
        let (dpm, hum) = (2 * most as u64 * 36 / 61 + 98_000_000, 4_000_000);
        assert_eq!(
            frost(most, most, 2_000),
            [dpm, 4 * most as u64 - dpm - hum, 0, hum]
        );
    }

    fn told(state: &State, asked: Asked) -> Result<(i128, Dated), u8> {
        match report(state, 0, asked, &mut Nearest) {
            Ok(report) => Ok((report.delta, report.dated)),
            Err(cause) => Err(cause.number()),
        }
    }

    #[test]
    fn reports() {
        let mut state = State::new(hoosfield());
        // A new state's pools are fresh; IOM has 2 thousandths, and its age is 49,935 years.
        for pool in 0..4 {
            assert_eq!(told(&state, Asked::Active(pool)), Ok((0, Dated::Age(0))));
        }
        assert_eq!(
            told(&state, Asked::Inert),
            Ok((-99_800, Dated::Age(49_935)))
        );
        // 31,168,600 of 33,863,200: 92,042.66, and 8035 x 0.08292 is 666.25.
        assert_eq!(told(&state, Asked::All), Ok((-7_958, Dated::Age(667))));
        state.modern[1] = 0;
        let older = Ok((-100_000, Dated::Older));
        assert_eq!(told(&state, Asked::Active(1)), older);
        state.modern[1] = 4_485_199;
        // 99,999.98 rounded down, and a year does it.
        assert_eq!(told(&state, Asked::Active(1)), Ok((-1, Dated::Age(1))));
        state.modern[1] = 4_485_201;
        assert_eq!(told(&state, Asked::Active(1)), Ok((0, Dated::Newer)));
        state.modern[1] = 8_970_400;
        assert_eq!(told(&state, Asked::Active(1)), Ok((100_000, Dated::Newer)));
        // IOM below 500 g has no modern grams.
        for (inert, wanted) in [
            (499, older),
            (500, Ok((-99_800, Dated::Age(49_935)))),
            (0, Err(22)),
        ] {
            state.soil.inert = inert;
            assert_eq!(told(&state, Asked::Inert), wanted);
        }
        // 22 after 10, and for all five only where none has carbon.
        state.soil.pools = [0; 4];
        for asked in [Asked::Active(0), Asked::Active(3), Asked::All] {
            assert_eq!(told(&state, asked), Err(22));
        }
        state.modern = [u64::MAX; 4];
        assert_eq!(told(&state, Asked::All), Err(10));
        state.soil.depth = 0;
        assert_eq!(told(&state, Asked::All), Err(5));
        // One gram of carbon beside all the modern grams that 10 allows.
        let mut most = State::new(soil(0, 1, 2, [0, 0, 0, 1], 0));
        most.months = 120_000;
        most.modern = [0, 0, 0, 48_001_000_000_000];
        let delta = 4_800_099_999_999_900_000;
        assert_eq!(told(&most, Asked::Active(3)), Ok((delta, Dated::Newer)));
        assert_eq!(told(&most, Asked::All), Ok((delta, Dated::Newer)));
        most.modern[0] = 1;
        assert_eq!(told(&most, Asked::All), Err(10));
    }

    /// Modern grams never touch carbon.
    #[test]
    fn carbon_is_its_own() {
        let mut seed = 41u64;
        let mut draw = |limit: u64| {
            seed = seed
                .wrapping_mul(6_364_136_223_846_793_005)
                .wrapping_add(1_442_695_040_888_963_407);
            (seed >> 20) % limit
        };
        for _ in 0..300 {
            let mut one = State::new(hoosfield());
            let mut other = State {
                modern: std::array::from_fn(|_| draw(250_000_000)),
                ..one.clone()
            };
            for number in 1..=40 {
                let entries = Entries {
                    temperature: draw(300) as i64 - 60,
                    plant: draw(900_000) as i64,
                    manure: draw(900_000) as i64,
                    activity: draw(2_001) as i64,
                    ..JANUARY
                };
                let again = Entries {
                    activity: draw(2_001) as i64,
                    ..entries
                };
                let (next, row) = month(&one, number, &entries, &mut Nearest);
                let (beside, same) = month(&other, number, &again, &mut Nearest);
                assert_eq!(row, same);
                (one, other) = (next, beside);
                let as_one = State {
                    modern: one.modern,
                    ..other.clone()
                };
                assert_eq!(as_one, one);
                // What 10 allows is never left.
                assert!(other.check_numbers(0).is_ok());
            }
        }
    }

    /// Numbers of any size end in an answer, and a refused call returns what it was given.
    #[test]
    fn any_numbers_at_all() {
        let mut seed = 99u64;
        let mut draw = |limit: u64| {
            seed = seed
                .wrapping_mul(6_364_136_223_846_793_005)
                .wrapping_add(1_442_695_040_888_963_407);
            (seed >> 33) % limit
        };
        let mut seen = [0u32; 22];
        for _ in 0..20_000 {
            let mut any = |common: u64| match draw(12) {
                0 => u64::MAX - draw(3),
                1 => 1 << draw(64),
                2 => common + draw(3),
                _ => draw(common + 1),
            };
            let state = State {
                soil: soil(
                    any(1000) as i128,
                    any(100) as i128,
                    any(3) as i128,
                    [any(990_000_000), any(9_000), any(9_000), any(9_000)],
                    any(1_000_000_000),
                ),
                deficit: any(1_800_000) as i128,
                months: any(120_000),
                co2: any(1_000_000_000),
                modern: [any(990_000_000), any(9_000), any(9_000), any(9_000)],
            };
            let entries = Entries {
                temperature: any(500) as i64,
                rain: any(20_000) as i64,
                evaporation: any(20_000) as i64,
                source: any(1) as i64,
                cover: any(1) as i64,
                plant: any(100_000_000) as i64,
                manure: any(100_000_000) as i64,
                activity: any(2_000) as i64,
            };
            let number = state.months as i128 + i128::from(any(9) > 0);
            seen[cause(&state, number, &entries).unwrap_or(0) as usize] += 1;
            let weather = [
                entries.temperature,
                entries.rain,
                entries.evaporation,
                entries.source,
            ]
            .repeat(12);
            let land = [
                entries.cover,
                entries.plant,
                entries.manure,
                entries.activity,
            ]
            .repeat(12);
            let mut output = [7; 90];
            let (next, answer) = list(&state, &weather, &land, &mut output, &mut Nearest);
            let ran = match answer {
                Ok(()) => 12,
                Err(refusal) => refusal.place.saturating_sub(1) as usize,
            };
            assert_eq!(next.months as u128, state.months as u128 + ran as u128);
            assert!(output[ran * 7..].iter().all(|number| *number == 7));
            let (next, answer) = spin_up(&state, &weather, &land, any(3) as i128, &mut Nearest);
            match answer {
                Err(_) => assert_eq!(next, state),
                Ok(Spun::Settled(years)) | Ok(Spun::Unsettled(years)) => {
                    assert_eq!(next.months, state.months + 12 * years)
                }
            }
        }
        for number in [0, 4, 5, 6, 7, 10, 11, 13, 14, 19, 15, 16, 21, 17] {
            assert!(seen[number] > 0, "refusal {number}");
        }
    }
}
