//! Another program held against the reference, call by call and number by number.
//!
//! The reference takes S from the other program, as S alone has latitude. Each S is asked for with
//! the reference's own brackets: at most 1 from the exact number, and exactly 1,000,000,000 at
//! w = 0. So are the survival numbers of the 60,001 ages. Everything else must then be equal:
//! numbers, places, rows, states, reports, bytes, and lent memory that stays as it was.

use crate::book::{self, Answer};
use crate::calls::{
    close, close_age, entries_of, rate, soil_of, state_of, Act, Call, EntryNumbers, LandRow,
    SoilNumbers, StateNumbers, WeatherRow, ACTIVITY, ALL, CLAY, CO2, COVER, DEFICIT, DEPTH,
    ENTRY_NUMBERS, EVAPORATION, INERT, KEPT, KIND, LARGEST_N, MANURE, MODERN, MONTHS, NO_SURVIVAL,
    OWN_NUMBERS, PLACES, PLANT, POOLS, RAIN, REPORT_NUMBERS, SOIL_NUMBERS, SOURCE, STATE_NUMBERS,
    TEMPERATURE, WRONG_SHAPE,
};
use crate::exponential::{
    age_within, exponent_parts, least_n, least_remainder, temperature_factor, terms, within,
    BILLION, MOST_TERMS, OLDEST, STEP_PARTS,
};
use crate::fraction::Fraction;
use crate::light;
use crate::measured;
use crate::memory;
use crate::model::{
    pools_settle, total_settles, Field, Nearest, Soil, Survival, Watch, EVAPOTRANSPIRATION, FRESH,
    HIGHEST_ACTIVITY, KEPT_LIMIT, LAND_NUMBERS, MONTH_LIMIT, OPEN_PAN, OUTPUT_NUMBERS, RATES,
    WEATHER_NUMBERS, YEAR_LIMIT,
};
use crate::recurrence::{
    carbon_closes, demand_three, distance_exact, q_highest, q_lowest, Call as Answered, Decision,
    DemandThree, Enclosure,
};
use crate::table;
use crate::vectors::{vectors, Draw};
use std::collections::HashMap;

/// The most bytes that are written for a book.
pub const LONGEST_TEXT: usize = 204_800;

/// The program under test, as include/rothc.h has it. Slices are lent memory of any length; each
/// function that isn't for a survival number returns the refusal's number, 0 or `WRONG_SHAPE`.
pub trait Program {
    fn start(&mut self, soil: &[u64], state: &mut [u64]) -> u64;
    fn month(&mut self, state: &mut [u64], number: u64, entries: &[i64], row: &mut [u64]) -> u64;
    fn list(
        &mut self,
        state: &mut [u64],
        weather: &[i64],
        land: &[i64],
        rows: &mut [u64],
        place: &mut u64,
    ) -> u64;
    /// `result`: settled, then the years run or the place.
    fn spin_up(
        &mut self,
        state: &mut [u64],
        weather: &[i64],
        land: &[i64],
        years: u64,
        result: &mut [u64],
    ) -> u64;
    fn take_back(&mut self, state: &mut [u64]) -> u64;
    /// `report`: delta, whether there is an age, the age. `WRONG_SHAPE` for a pool above 5.
    fn radiocarbon(&mut self, state: &[u64], pool: u64, report: &mut [i64]) -> u64;
    /// `length`: of the text, also where `out` is too short for it (8).
    fn book(&mut self, book: &[u8], out: &mut [u8], length: &mut u64) -> u64;
    /// `rows`: how many were written; `place`: the line, 0 for 3 and 8 and where it was read.
    fn table(&mut self, table: &[u8], weather: &mut [i64], rows: &mut u64, place: &mut u64) -> u64;
    /// `NO_SURVIVAL` for a pool above 3 or an n above `LARGEST_N`.
    fn survival(&mut self, n: u64, pool: u64) -> u64;
    /// The same number. `terms`: how many were summed; where there is no number they stay.
    fn survival_terms(&mut self, n: u64, pool: u64, terms: &mut u64) -> u64;
    /// `NO_SURVIVAL` above 60,000 years.
    fn age_survival(&mut self, years: u64) -> u64;
}

/// How much to compare.
#[derive(Clone, Copy, Debug)]
pub struct Counts {
    pub months: u64,
    pub lists: u64,
    pub spin_ups: u64,
    pub books: u64,
    pub tables: u64,
    /// Months by an open pan beside the same months by evapotranspiration.
    pub pairs: u64,
    /// Calls in histories.
    pub histories: u64,
    /// Takings-back on any memory.
    pub takings_back: u64,
    /// Survival numbers with their terms.
    pub terms: u64,
    /// Radiocarbon reports.
    pub reports: u64,
    /// Months, lists and spin-ups beside the same without activities and modern grams.
    pub beside: u64,
    /// Accepted months of the long chain.
    pub chain: u64,
    /// Acts of each long chain with takings-back.
    pub taken_chain: u64,
}

impl Default for Counts {
    fn default() -> Counts {
        Counts {
            months: 120_000,
            lists: 1_000,
            spin_ups: 40_000,
            books: 10_000,
            tables: 24_000,
            pairs: 6_000,
            histories: 60_000,
            takings_back: 40_000,
            terms: 24_000,
            reports: 40_000,
            beside: 12_000,
            chain: MONTH_LIMIT,
            taken_chain: 8_000,
        }
    }
}

/// The other program's S, asked for each time: is it close enough, and the same as before?
struct Asked<'a> {
    program: &'a mut dyn Program,
    known: &'a mut HashMap<(u64, u64), u64>,
    ages: &'a mut Vec<u64>,
    faults: &'a mut Vec<String>,
}

impl Survival for Asked<'_> {
    fn survival(&mut self, n: u64, k: u64) -> u64 {
        let pool = RATES.iter().position(|rate| *rate == k).unwrap() as u64;
        let s = self.program.survival(n, pool);
        match self.known.get(&(n, pool)) {
            Some(before) if *before == s => (),
            Some(before) => self
                .faults
                .push(format!("S of n {n} pool {pool}: {before}, then {s}")),
            None => {
                self.known.insert((n, pool), s);
                if !within(s, n, k, 1) {
                    self.faults
                        .push(format!("S of n {n} pool {pool}: {s} is not within 1"));
                }
            }
        }
        s.min(BILLION)
    }

    /// As the program gave it when all ages were asked for.
    fn age(&mut self, years: u64) -> u64 {
        if self.ages.is_empty() {
            let all = (0..=OLDEST).map(|years| self.program.age_survival(years));
            self.ages.extend(all);
        }
        self.ages[years as usize]
    }
}

/// The comparison: counts, the first inputs that differ, and what it needs to go on.
pub struct Differ<'a> {
    program: &'a mut dyn Program,
    draw: Draw,
    known: HashMap<(u64, u64), u64>,
    /// The program's survival numbers of the ages.
    ages: Vec<u64>,
    progress: &'a mut dyn FnMut(&str),
    pub compared: u64,
    pub differ: u64,
    pub first: Vec<String>,
    /// Calls by name and number of their answer, to see that the draws reach everything.
    pub seen: HashMap<(&'static str, u64), u64>,
    /// Month calls by open pan, by evapotranspiration and by another source.
    pub sources: [u64; 3],
    pub rules: Rules,
}

/// What the years of spin-ups show of the rule and of the total alone.
#[derive(Clone, Copy, Debug, Default)]
pub struct Rules {
    /// Whole years.
    pub years: u64,
    /// Those in which a pool alone is too far from its start.
    pub pools_alone: u64,
    /// Those in which the total alone is.
    pub total_alone: u64,
    /// Those with a pool or the total just at the limit, or one gram past it.
    pub beside: u64,
    /// Spin-ups that the total alone would have ended in an earlier year.
    pub earlier: u64,
    /// Spin-ups unsettled in their last year, which the total alone would have settled.
    pub instead: u64,
    /// Spin-ups that settled, in their first year and later.
    pub first: u64,
    pub later: u64,
    /// Spin-ups refused at a month after their first year.
    pub refused_later: u64,
}

/// What a long chain is made of.
#[derive(Clone, Copy, Debug)]
enum Plan {
    /// In turns of 500 months: full pools in heat and cold, a farm, frost, anything.
    Mixed,
    /// Nothing decays, so that roundings and q add up over the whole list.
    Frost,
    /// Next to nothing decays: the same with the roundings of step 5.
    Thaw,
}

/// Inputs shown in full.
const SHOWN: usize = 5;
/// Numbers beside lent memory, to see that nothing is written there.
const MARGIN: usize = 3;
const GUARD: u64 = 0x5a5a_a5a5_1234_4321;

/// Numbers that are lent, and what stands beside them.
trait Number: Copy + PartialEq {
    const GUARD: Self;
}

impl Number for u64 {
    const GUARD: u64 = GUARD;
}

impl Number for i64 {
    const GUARD: i64 = GUARD as i64;
}

/// Numbers with a margin on both sides.
#[derive(Debug)]
struct Lent<T = u64> {
    numbers: Vec<T>,
}

impl<T: Number> Lent<T> {
    fn new(numbers: &[T]) -> Lent<T> {
        Lent {
            numbers: [&[T::GUARD; MARGIN], numbers, &[T::GUARD; MARGIN]].concat(),
        }
    }

    fn filled(fill: T, count: usize) -> Lent<T> {
        Lent::new(&vec![fill; count])
    }

    fn get(&mut self) -> &mut [T] {
        let end = self.numbers.len() - MARGIN;
        &mut self.numbers[MARGIN..end]
    }

    /// The numbers lent; the margins must stand.
    fn take(&self) -> Result<&[T], String> {
        let end = self.numbers.len() - MARGIN;
        let margins = self.numbers[..MARGIN].iter().chain(&self.numbers[end..]);
        if margins.into_iter().any(|number| *number != T::GUARD) {
            return Err("memory beside the lent memory was written".into());
        }
        Ok(&self.numbers[MARGIN..end])
    }
}

/// The other program's answer to a call, in the layout of `Call::answer`.
pub fn program_answer(
    program: &mut dyn Program,
    call: &Call,
    fill: u64,
) -> Result<Vec<u64>, String> {
    match call {
        Call::New { soil } => {
            let mut state = Lent::filled(fill, STATE_NUMBERS);
            let number = program.start(soil, state.get());
            Ok([&[number], state.take()?].concat())
        }
        Call::Month {
            state,
            number,
            entries,
        } => {
            let mut state = Lent::new(state);
            let mut row = Lent::filled(fill, OUTPUT_NUMBERS);
            let number = program.month(state.get(), *number, entries, row.get());
            Ok([&[number], row.take()?, state.take()?].concat())
        }
        Call::List {
            weather,
            land,
            output,
            state,
        } => {
            let mut state = Lent::new(state);
            let mut rows = Lent::filled(fill, *output);
            let mut place = Lent::filled(fill, 1);
            let number = program.list(state.get(), weather, land, rows.get(), &mut place.get()[0]);
            Ok([&[number], place.take()?, state.take()?, rows.take()?].concat())
        }
        Call::SpinUp {
            weather,
            land,
            years,
            state,
        } => {
            let mut state = Lent::new(state);
            let mut result = Lent::filled(fill, 2);
            let number = program.spin_up(state.get(), weather, land, *years, result.get());
            Ok([&[number], result.take()?, state.take()?].concat())
        }
        Call::TakeBack { state } => {
            let mut state = Lent::new(state);
            let number = program.take_back(state.get());
            Ok([&[number], state.take()?].concat())
        }
        Call::History { soil, acts } => {
            let mut state = Lent::filled(fill, STATE_NUMBERS);
            let mut numbers = vec![program.start(soil, state.get())];
            for act in acts {
                numbers.push(program_act(program, act, &mut state, fill)?);
            }
            Ok([&numbers, state.take()?].concat())
        }
        Call::Report { state, pool } => {
            let mut lent = Lent::new(state);
            let mut report = Lent::filled(fill as i64, REPORT_NUMBERS);
            let number = program.radiocarbon(lent.get(), *pool, report.get());
            if lent.take()? != state {
                return Err("the lent state was written".into());
            }
            let report = report.take()?.iter().map(|number| *number as u64);
            Ok([number].into_iter().chain(report).collect())
        }
        Call::Table { room, table } => {
            let mut weather = Lent::filled(fill as i64, *room);
            let (mut rows, mut place) = (Lent::filled(fill, 1), Lent::filled(fill, 1));
            let number = program.table(
                table,
                weather.get(),
                &mut rows.get()[0],
                &mut place.get()[0],
            );
            let weather: Vec<u64> = weather
                .take()?
                .iter()
                .map(|tenths| *tenths as u64)
                .collect();
            Ok([&[number], rows.take()?, place.take()?, &weather].concat())
        }
        Call::Survival { n, pool, s } => {
            let own = program.survival(*n, *pool as u64);
            Ok(vec![close(own, *s)])
        }
        Call::Terms { n, pool, s } => {
            let mut terms = Lent::filled(fill, 1);
            let own = program.survival_terms(*n, *pool, &mut terms.get()[0]);
            let same = own == program.survival(*n, *pool);
            Ok([&[close(own, *s), u64::from(same)], terms.take()?].concat())
        }
        Call::Age { years, s } => {
            let own = program.age_survival(*years);
            Ok(vec![close_age(*years, own, *s)])
        }
    }
}

/// The number that the other program returns for an act of a history.
fn program_act(
    program: &mut dyn Program,
    act: &Act,
    state: &mut Lent,
    fill: u64,
) -> Result<u64, String> {
    let rows_of = |entries: &EntryNumbers, skies: usize, fields: usize| {
        let (sky, field) = entries.split_at(WEATHER_NUMBERS);
        (sky.repeat(skies), field.repeat(fields))
    };
    match act {
        Act::TakeBack => Ok(program.take_back(state.get())),
        Act::Month { number, entries } => {
            let mut row = Lent::filled(fill, OUTPUT_NUMBERS);
            let number = program.month(state.get(), *number, entries, row.get());
            row.take().map(|_| number)
        }
        Act::List { months, entries } => {
            let (weather, land) = rows_of(entries, 1, *months);
            let mut rows = Lent::filled(fill, months * OUTPUT_NUMBERS);
            let mut place = Lent::filled(fill, 1);
            let at = &mut place.get()[0];
            let number = program.list(state.get(), &weather, &land, rows.get(), at);
            rows.take().and(place.take()).map(|_| number)
        }
        Act::SpinUp { years, entries } => {
            let (weather, land) = rows_of(entries, 12, 12);
            let mut result = Lent::filled(fill, 2);
            let number = program.spin_up(state.get(), &weather, &land, *years, result.get());
            result.take().map(|_| number)
        }
    }
}

/// Bytes as text: what isn't printed stands as \x and two digits.
fn shown(bytes: &[u8]) -> String {
    bytes
        .iter()
        .flat_map(|byte| std::ascii::escape_default(*byte))
        .map(char::from)
        .collect()
}

/// Where two answers first differ, and the numbers there; long answers aren't shown in full.
fn difference<T: PartialEq + std::fmt::Debug>(wanted: &[T], given: &[T]) -> String {
    let place = wanted
        .iter()
        .zip(given)
        .position(|(wanted, given)| wanted != given)
        .unwrap_or(wanted.len().min(given.len()));
    let from = place.saturating_sub(20);
    let part = |numbers: &[T]| format!("{:?}", &numbers[from..numbers.len().min(from + 60)]);
    format!(
        "first at {place}; from {from} on\nwanted: {}\ngiven:  {}",
        part(wanted),
        part(given)
    )
}

impl<'a> Differ<'a> {
    pub fn new(
        program: &'a mut dyn Program,
        seed: u64,
        progress: &'a mut dyn FnMut(&str),
    ) -> Differ<'a> {
        Differ {
            program,
            // Small seeds far apart.
            draw: Draw::new(seed.wrapping_mul(0x9e37_79b9_7f4a_7c15) ^ 0x1852),
            known: HashMap::new(),
            ages: Vec::new(),
            progress,
            compared: 0,
            differ: 0,
            first: Vec::new(),
            seen: HashMap::new(),
            sources: [0; 3],
            rules: Rules::default(),
        }
    }

    /// Everything.
    pub fn run(&mut self, counts: &Counts) {
        self.age_numbers();
        self.test_lines();
        self.factors();
        self.months(counts.months);
        self.lists(counts.lists);
        self.spin_ups(counts.spin_ups);
        self.books(counts.books);
        self.tables(counts.tables);
        self.pairs(counts.pairs);
        self.takings_back(counts.takings_back);
        self.histories(counts.histories);
        self.survival_terms(counts.terms);
        self.reports(counts.reports);
        self.beside(counts.beside);
        self.wrong_lengths();
        self.short_chains();
        self.long_chain(counts.chain, Plan::Mixed);
        self.long_chain(counts.chain, Plan::Frost);
        self.long_chain(counts.chain, Plan::Thaw);
        for plan in [Plan::Mixed, Plan::Frost, Plan::Thaw] {
            self.taken_chain(counts.taken_chain, plan);
        }
    }

    fn say(&mut self, text: String) {
        (self.progress)(&text);
    }

    /// How often calls of this name were answered with each number, the test lines among them.
    fn answers(&self, name: &str) -> String {
        let seen = self.seen.iter().filter(|((own, _), _)| *own == name);
        let mut numbers: Vec<(u64, u64)> =
            seen.map(|((_, number), times)| (*number, *times)).collect();
        numbers.sort_unstable();
        let words: Vec<String> = numbers
            .iter()
            .map(|(number, times)| format!("{number}: {times}"))
            .collect();
        format!("answers so far {}", words.join(", "))
    }

    /// Counts a comparison.
    fn outcome(&mut self, same: bool, text: impl FnOnce() -> String) {
        self.compared += 1;
        if !same {
            self.differ += 1;
            if self.first.len() < SHOWN {
                self.first.push(text());
            }
        }
    }

    /// What lent memory holds before a call.
    fn fill(&mut self) -> u64 {
        match self.draw.below(4) {
            0 => 0,
            1 => u64::MAX,
            2 => self.draw.next(),
            _ => 7,
        }
    }

    /// One call; the other program's state after it, where it has one.
    fn call(&mut self, call: &Call) -> Option<StateNumbers> {
        self.call_watched(call, &mut |_, _| ())
    }

    /// The same; `watch` sees each month that the reference runs.
    fn call_watched(&mut self, call: &Call, watch: Watch) -> Option<StateNumbers> {
        let fill = self.fill();
        let given = program_answer(self.program, call, fill);
        let mut faults = Vec::new();
        let mut asked = Asked {
            program: &mut *self.program,
            known: &mut self.known,
            ages: &mut self.ages,
            faults: &mut faults,
        };
        let wanted = call.answer(fill, &mut asked, watch);
        *self.seen.entry((call.name(), wanted[0])).or_default() += 1;
        if let Call::Month { entries, .. } = call {
            let source = [OPEN_PAN, EVAPOTRANSPIRATION]
                .iter()
                .position(|source| *source == entries[SOURCE]);
            self.sources[source.unwrap_or(2)] += 1;
        }
        let same = given.as_ref() == Ok(&wanted) && faults.is_empty();
        self.outcome(same, || {
            let numbers = match &given {
                Ok(given) => difference(&wanted, given),
                Err(text) => text.clone(),
            };
            format!(
                "call:   {}\nplaces: {:?}\nfill:   {fill}\n{numbers}\nS:      {faults:?}",
                shown(&call.input()),
                call.state().map(|state| &state[PLACES..])
            )
        });
        let at = call.state_at()?;
        given
            .ok()
            .map(|given| std::array::from_fn(|index| given[at + index]))
    }

    /// The new state of an accepted soil, if the program gives the right one.
    fn new_state(&mut self, soil: SoilNumbers) -> Option<StateNumbers> {
        let mut right = [0; PLACES];
        right[..SOIL_NUMBERS].copy_from_slice(&soil);
        right[MODERN..KEPT].copy_from_slice(&soil[POOLS..INERT]);
        self.call(&Call::New { soil })
            .filter(|state| state[..PLACES] == right)
    }

    // ---- Draws ----

    fn pick<T: Copy>(&mut self, from: &[T]) -> T {
        from[self.draw.below(from.len() as u64) as usize]
    }

    /// From 0 to `most`, of every size, often near the ends.
    fn sized(&mut self, most: u64) -> u64 {
        match self.draw.below(6) {
            0 => self.draw.below(4).min(most),
            1 => most - self.draw.below(4).min(most),
            2 => {
                let size = self.draw.below(64);
                self.draw.below((1u64 << size).min(most).saturating_add(1))
            }
            _ => self.draw.below(most.saturating_add(1)),
        }
    }

    fn signed(&mut self, most: i64) -> i64 {
        self.sized(most as u64) as i64
    }

    /// Parts that add up to the total, some of them often 0.
    fn parts(&mut self, total: u64) -> [u64; 4] {
        let mut cuts = [0; 3].map(|_| self.sized(total));
        cuts.sort_unstable();
        let mut parts = [
            cuts[0],
            cuts[1] - cuts[0],
            cuts[2] - cuts[1],
            total - cuts[2],
        ];
        let turn = self.draw.below(4) as usize;
        parts.rotate_left(turn);
        parts
    }

    /// A soil that nothing refuses.
    fn soil(&mut self) -> SoilNumbers {
        let clay = match self.draw.below(6) {
            0 => self.pick(&[0, 1, 17, 100, 234, 658, 650, 999, 1000]),
            _ => self.draw.below(1001),
        };
        let depth = match self.draw.below(6) {
            0 => self.pick(&[1, 23, 100]),
            _ => 1 + self.draw.below(100),
        };
        let active = match self.draw.below(3) {
            0 => self.draw.below(100_000_000),
            _ => self.sized(1_000_000_000),
        };
        let pools = self.parts(active);
        let inert = self.sized(1_000_000_000);
        [
            clay,
            depth,
            1 + self.draw.below(3),
            pools[0],
            pools[1],
            pools[2],
            pools[3],
            inert,
        ]
    }

    /// A state that nothing refuses, reached by a run or not, with anything in its places.
    fn state(&mut self) -> StateNumbers {
        let mut state = [0; STATE_NUMBERS];
        self.own_numbers(&mut state);
        state[KEPT] = match self.draw.below(4) {
            0 => self.pick(&[0, 1, 23, 24]),
            _ => self.draw.below(25),
        };
        self.places(&mut state);
        state
    }

    /// What stands in the places: one number, anything, or states like this one.
    fn places(&mut self, state: &mut StateNumbers) {
        let fill = self.fill();
        let (own, places) = state.split_at_mut(PLACES);
        match self.draw.below(3) {
            0 => places.fill(fill),
            1 => places.fill_with(|| self.draw.next()),
            _ => {
                for (place, kept) in places.chunks_mut(OWN_NUMBERS).enumerate() {
                    kept.copy_from_slice(&own[..OWN_NUMBERS]);
                    // The months done of the state that a run would have left here.
                    let back = own[MONTHS].wrapping_sub(place as u64) % KEPT_LIMIT as u64;
                    kept[MONTHS] = kept[MONTHS].wrapping_sub(back);
                    kept[CO2] /= 1 + back;
                }
            }
        }
    }

    /// Modern grams of a state that 10 doesn't take: none, as many as grams, of any activity, or
    /// anything up to the most.
    fn modern(&mut self, state: &StateNumbers) -> [u64; 4] {
        let most = most_modern(state[MONTHS]);
        let pools: [u64; 4] = std::array::from_fn(|pool| state[POOLS + pool]);
        let modern = match self.draw.below(8) {
            0 => [0; 4],
            1 => pools,
            2 => {
                let total = self.sized(most);
                self.parts(total)
            }
            3 => self.parts(most),
            _ => pools.map(|grams| grams * self.draw.below(2_001) / 1_000),
        };
        if modern.iter().sum::<u64>() > most {
            pools
        } else {
            modern
        }
    }

    /// The fifteen numbers of such a state itself.
    fn own_numbers(&mut self, state: &mut StateNumbers) {
        self.carbon_numbers(state);
        let modern = self.modern(state);
        state[MODERN..KEPT].copy_from_slice(&modern);
    }

    /// The numbers before the modern grams.
    fn carbon_numbers(&mut self, state: &mut StateNumbers) {
        state[..SOIL_NUMBERS].copy_from_slice(&self.soil());
        if self.draw.below(8) == 0 {
            return;
        }
        let limit = deficit_limit(state);
        let point = (444 * limit).div_ceil(1000);
        let bare = limit / 9 * 5;
        state[DEFICIT] = match self.draw.below(4) {
            0 => self.pick(&[
                0,
                1,
                point - 1,
                point,
                bare - 1,
                bare,
                bare + 1,
                limit - 1,
                limit,
            ]),
            _ => self.draw.below(limit + 1),
        };
        state[MONTHS] = match self.draw.below(6) {
            0 => self.pick(&[0, 1, 11, 119_988, 119_998, 119_999]),
            _ => self.draw.below(MONTH_LIMIT),
        };
        let most = 1_000_000_000 + 200_000_000 * state[MONTHS] - active(state);
        state[CO2] = self.sized(most);
    }

    fn weather(&mut self) -> WeatherRow {
        let temperature = match self.draw.below(8) {
            0 => self.pick(&[-400, -399, -52, -51, -50, -49, 0, 133, 499, 500]),
            1 => self.draw.between(-400, 500),
            2 => self.draw.between(-60, 500),
            _ => self.draw.between(-60, 300),
        };
        let (rain, evaporation) = match self.draw.below(6) {
            0 => (self.signed(20_000), self.signed(20_000)),
            1 => (0, 0),
            _ => (self.draw.between(0, 1_500), self.draw.between(0, 1_800)),
        };
        let source = self.draw.between(OPEN_PAN, EVAPOTRANSPIRATION);
        [temperature, rain, evaporation, source]
    }

    /// An activity that nothing refuses.
    fn activity(&mut self) -> i64 {
        match self.draw.below(4) {
            0 => self.pick(&[0, 1, 999, 1_000, 1_001, 1_999, 2_000]),
            1 => FRESH,
            _ => self.draw.between(0, HIGHEST_ACTIVITY),
        }
    }

    /// Cover, plant and manure, together at most `room` grams, often just that; and activity.
    fn land(&mut self, room: u64) -> LandRow {
        const MOST: u64 = 100_000_000;
        let (plant, manure) = match self.draw.below(8) {
            0 => (0, 0),
            1 => {
                let plant = self.sized(room.min(MOST));
                (plant, (room - plant).min(MOST))
            }
            2 => {
                let manure = self.sized(room.min(MOST));
                ((room - manure).min(MOST), manure)
            }
            3 => (self.sized(room.min(MOST)), 0),
            _ => {
                let plant = self.draw.below(room.min(3_000_000) + 1);
                (plant, self.sized((room - plant).min(3_000_000)))
            }
        };
        let cover = self.draw.between(0, 1);
        [cover, plant as i64, manure as i64, self.activity()]
    }

    fn entries(&mut self, state: &StateNumbers) -> EntryNumbers {
        let room = 1_000_000_000u64.saturating_sub(active(state));
        let [temperature, rain, evaporation, source] = self.weather();
        let [cover, plant, manure, activity] = self.land(room);
        [
            temperature,
            rain,
            evaporation,
            source,
            cover,
            plant,
            manure,
            activity,
        ]
    }

    /// An unsigned number that may be out of its bounds: beside a bound, or at an end.
    fn wild(&mut self, bounds: &[u64]) -> u64 {
        match self.draw.below(3) {
            0 => {
                let bound = self.pick(bounds);
                self.pick(&[bound.saturating_sub(1), bound, bound.saturating_add(1)])
            }
            1 => self.pick(&[
                0,
                1,
                u64::MAX,
                u64::MAX - 1,
                1 << 63,
                (1 << 63) - 1,
                1 << 62,
                1 << 32,
                (1 << 32) + 1,
            ]),
            _ => self.sized(u64::MAX - 1),
        }
    }

    fn wild_signed(&mut self, bounds: &[i64]) -> i64 {
        match self.draw.below(3) {
            0 => {
                let bound = self.pick(bounds);
                self.pick(&[bound - 1, bound, bound + 1])
            }
            1 => self.pick(&[
                -1,
                0,
                i64::MIN,
                i64::MIN + 1,
                i64::MAX,
                i64::MAX - 1,
                1 << 32,
                -(1 << 32),
                1 << 62,
            ]),
            _ => self.draw.next() as i64,
        }
    }

    /// One number of a state made wild, the kept count among them.
    fn spoil_state(&mut self, state: &mut StateNumbers) {
        let place = self.draw.below(PLACES as u64) as usize;
        state[place] = match place {
            KEPT => self.wild(&[KEPT_LIMIT as u64]),
            CLAY => self.wild(&[0, 1000]),
            DEPTH => self.wild(&[1, 100]),
            KIND => self.wild(&[1, 3]),
            INERT => self.wild(&[1_000_000_000]),
            DEFICIT if (0..=1000).contains(&state[CLAY]) && state[DEPTH] <= 100 => {
                let limit = deficit_limit(state);
                self.wild(&[limit, limit / 9 * 5])
            }
            DEFICIT => self.wild(&[0]),
            MONTHS => self.wild(&[120_000, 0]),
            CO2 => {
                let bound = 200_000_000u64
                    .wrapping_mul(state[MONTHS])
                    .wrapping_add(1_000_000_000);
                let pools = state[POOLS..INERT]
                    .iter()
                    .fold(0u64, |sum, grams| sum.wrapping_add(*grams));
                self.wild(&[bound.wrapping_sub(pools), bound, 0u64.wrapping_sub(pools)])
            }
            // Modern grams: beside what the limit leaves, or such that the sum wraps.
            MODERN..KEPT => {
                let bound = 400_000_000u64
                    .wrapping_mul(state[MONTHS])
                    .wrapping_add(1_000_000_000);
                let rest = state[MODERN..KEPT]
                    .iter()
                    .fold(0u64, |sum, grams| sum.wrapping_add(*grams))
                    .wrapping_sub(state[place]);
                let left = bound.wrapping_sub(rest);
                self.wild(&[left, left, 0u64.wrapping_sub(rest)])
            }
            // A pool: beside what the ceiling leaves, or such that the sum wraps.
            _ => {
                let rest = state[POOLS..INERT]
                    .iter()
                    .fold(0u64, |sum, grams| sum.wrapping_add(*grams))
                    .wrapping_sub(state[place]);
                self.wild(&[1_000_000_000u64.wrapping_sub(rest), 0u64.wrapping_sub(rest)])
            }
        };
    }

    fn spoil_entries(&mut self, state: &StateNumbers, entries: &mut EntryNumbers) {
        let place = self.draw.below(ENTRY_NUMBERS as u64) as usize;
        entries[place] = match place {
            TEMPERATURE => self.wild_signed(&[-400, 500, -50]),
            RAIN | EVAPORATION => self.wild_signed(&[0, 20_000]),
            SOURCE | COVER => self.wild_signed(&[0, 1]),
            ACTIVITY => self.wild_signed(&[0, HIGHEST_ACTIVITY]),
            _ => {
                let other = entries[PLANT + MANURE - place];
                let pools = state[POOLS..INERT]
                    .iter()
                    .fold(0u64, |sum, grams| sum.wrapping_add(*grams));
                let room = 1_000_000_000i64
                    .wrapping_sub(pools as i64)
                    .wrapping_sub(other)
                    .clamp(i64::MIN + 1, i64::MAX - 1);
                self.wild_signed(&[0, 100_000_000, room, room])
            }
        };
    }

    /// A month call: nothing faulty, or one or a few numbers made wild.
    fn month_call(&mut self) -> Call {
        let mut state = self.state();
        let mut entries = self.entries(&state);
        let faults = match self.draw.below(10) {
            0..=5 => 0,
            6..=7 => 1,
            8 => 2,
            _ => 1 + self.draw.below(6),
        };
        let mut turn = 0;
        for _ in 0..faults {
            match self.draw.below(20) {
                0..=10 => self.spoil_state(&mut state),
                11..=17 => self.spoil_entries(&state, &mut entries),
                _ => turn = 1 + self.draw.below(6),
            }
        }
        let next = state[MONTHS].wrapping_add(1);
        let number = match turn {
            0 => next,
            1 => next.wrapping_sub(1),
            2 => next.wrapping_add(1),
            3 => next ^ (1 << 32),
            4 => next ^ (1 << 63),
            5 => self.pick(&[0, 1, u64::MAX, 120_000, 120_001]),
            _ => self.draw.next(),
        };
        Call::Month {
            state,
            number,
            entries,
        }
    }

    // ---- Comparisons ----

    /// The lines of the vectors over numbers, run here as well.
    fn test_lines(&mut self) {
        for group in crate::call_lines::groups() {
            for line in &group.lines {
                self.call(&line.call);
                // Their answers are fixed, so they hold whatever S the program has.
                let given = program_answer(self.program, &line.call, crate::calls::FILL);
                let same = given.as_ref() == Ok(&line.answer);
                self.outcome(same, || {
                    let numbers = match &given {
                        Ok(given) => difference(&line.answer, given),
                        Err(text) => text.clone(),
                    };
                    format!("line:   {}\n{numbers}", shown(&line.call.input()))
                });
            }
        }
        self.say("test lines over numbers".into());
    }

    /// Every temperature and every clay, with pools near the ceiling: A and R each show.
    fn factors(&mut self) {
        for clay in 0..=1000u64 {
            let mut state = self.state();
            state[CLAY] = clay;
            state[DEFICIT] = self.sized(deficit_limit(&state));
            let total = 1_000_000_000 - self.draw.below(1_000_000);
            let pools = self.parts(total);
            state[POOLS..INERT].copy_from_slice(&pools);
            state[CO2] = 0;
            let mut entries = self.entries(&state);
            entries[TEMPERATURE] = (clay % 551) as i64 - 50;
            self.call(&Call::Month {
                state,
                number: state[MONTHS] + 1,
                entries,
            });
        }
        self.say("every temperature from -50 to 500 and every clay".into());
    }

    /// Month calls: drawn ones, and chains of calls on one state.
    fn months(&mut self, count: u64) {
        let chained = count / 3;
        for done in 0..count - chained {
            let call = self.month_call();
            self.call(&call);
            if done % 20_000 == 19_999 {
                self.say(format!("month calls: {}", done + 1));
            }
        }
        let mut done = 0;
        while done < chained {
            let length = (10 + self.draw.below(300)).min(chained - done);
            self.chain(length);
            done += length;
        }
        let [pan, office, other] = self.sources;
        self.say(format!(
            "month calls: {count}, {chained} of them in chains; so far {pan} by open pan, \
             {office} by evapotranspiration, {other} by another source; {}",
            self.answers("month")
        ));
    }

    /// Calls on one state, each given the state that the last one returned.
    fn chain(&mut self, length: u64) {
        let mut state = if self.draw.below(2) == 0 {
            let soil = self.soil();
            match self.call(&Call::New { soil }) {
                Some(state) => state,
                None => return,
            }
        } else {
            self.state()
        };
        for _ in 0..length {
            let mut entries = self.entries(&state);
            let mut number = state[MONTHS].wrapping_add(1);
            match self.draw.below(12) {
                0 => self.spoil_entries(&state, &mut entries),
                1 => number = self.wild(&[number]),
                _ => (),
            }
            match self.call(&Call::Month {
                state,
                number,
                entries,
            }) {
                Some(next) => state = next,
                None => return,
            }
        }
    }

    /// Weather rows and land rows as plain numbers, one in `faulty` of them wild.
    fn row_numbers(&mut self, rows: usize, faulty: u64, weather: bool, largest: u64) -> Vec<i64> {
        let mut numbers = Vec::with_capacity(rows * WEATHER_NUMBERS);
        for _ in 0..rows {
            let mut row = if weather {
                self.weather().to_vec()
            } else {
                let room = self.draw.below(largest + 1);
                self.land(room).to_vec()
            };
            if faulty > 0 && self.draw.below(faulty) == 0 {
                self.spoil_row(&mut row, weather);
            }
            numbers.extend(row);
        }
        numbers
    }

    /// One number of a weather row or land row made wild.
    fn spoil_row(&mut self, row: &mut [i64], weather: bool) {
        let place = self.draw.below(row.len() as u64) as usize;
        row[place] = match (weather, place) {
            (true, TEMPERATURE) => self.wild_signed(&[-400, 500]),
            (true, SOURCE) | (false, 0) => self.wild_signed(&[0, 1]),
            (true, _) => self.wild_signed(&[0, 20_000]),
            (false, 3) => self.wild_signed(&[0, HIGHEST_ACTIVITY]),
            (false, _) => self.wild_signed(&[0, 100_000_000]),
        };
    }

    /// A start for a list or spin-up.
    fn start(&mut self) -> StateNumbers {
        let mut state = self.state();
        match self.draw.below(8) {
            0 => state[MONTHS] = MONTH_LIMIT - self.draw.below(40),
            1 => self.spoil_state(&mut state),
            _ => (),
        }
        state
    }

    fn lists(&mut self, count: u64) {
        for done in 0..count {
            let long = done % 100 == 0;
            let months = match self.draw.below(12) {
                _ if long => self.pick(&[1_199, 1_200, 1_201, 1_200]),
                0 => 0,
                1 => 1,
                _ => 1 + self.draw.below(60) as usize,
            };
            let rows = match self.draw.below(12) {
                _ if long => self.pick(&[1, 12, 1_200, 1_201]),
                0 => 0,
                1 => 12,
                _ => 1 + self.draw.below(20) as usize,
            };
            let faulty = match self.draw.below(3) {
                0 => 1 + 2 * months as u64,
                _ => 0,
            };
            let largest = self.pick(&[1_000, 1_000_000, 10_000_000, 200_000_000]);
            let mut weather = self.row_numbers(rows, faulty, true, 0);
            let mut land = self.row_numbers(months, faulty, false, largest);
            if self.draw.below(30) == 0 {
                let extra = self.draw.next() as i64;
                match self.draw.below(6) {
                    0 => weather.push(extra),
                    1 => land.push(extra),
                    2 => drop(weather.pop()),
                    3 => drop(land.pop()),
                    // Three numbers a row.
                    4 => weather.truncate(rows * 3),
                    _ => land.truncate(months * 3),
                }
            }
            let exact = months * OUTPUT_NUMBERS;
            let output = match self.draw.below(12) {
                0 => exact.saturating_sub(1),
                1 => self.draw.below(exact as u64 + 1) as usize,
                2 => exact + self.draw.below(30) as usize,
                _ => exact,
            };
            let state = self.start();
            self.call(&Call::List {
                weather,
                land,
                output,
                state,
            });
        }
        self.say(format!("lists: {count}; {}", self.answers("list")));
    }

    // ---- Spin-ups ----

    /// Most are short and aimed at the rule; one in 200 is of any kind and length.
    fn spin_ups(&mut self, count: u64) {
        for done in 0..count {
            let mut call = match done % 200 {
                0 => self.any_spin_up(done % 1_000 == 0),
                turn if turn % 2 == 1 => self.measured_spin_up(),
                _ => self.light_spin_up(),
            };
            if done % 200 > 0 && self.draw.below(6) == 0 {
                self.spoil_spin_up(&mut call);
            }
            self.spun(&call);
            if done % 5_000 == 4_999 {
                self.say(format!("spin-ups: {}", done + 1));
            }
        }
        let Rules {
            years,
            pools_alone,
            total_alone,
            beside,
            earlier,
            instead,
            first,
            later,
            refused_later,
        } = self.rules;
        self.say(format!(
            "spin-ups: {count}; {first} settled in their first year, {later} later; \
             {refused_later} refused after their first year; {}",
            self.answers("spin-up")
        ));
        self.say(format!(
            "the total alone would have ended {earlier} spin-ups in an earlier year and settled \
             {instead} more in their last, where they ended unsettled; of {years} years, a pool \
             alone kept {pools_alone} from settling, the total alone {total_alone}; {beside} had a \
             pool or the total at the limit or a gram past it"
        ));
    }

    /// A spin-up, and what its years say of the rule: the soils with which they begin and end.
    fn spun(&mut self, call: &Call) -> Vec<Soil> {
        let (mut soils, mut months) = (Vec::new(), 0u64);
        let next = self.call_watched(call, &mut |state, _| {
            if months % 12 == 0 {
                soils.push(state.soil.clone());
            }
            months += 1;
        });
        let from = call.state().expect("a spin-up is lent a state")[MONTHS];
        let mut after = next.filter(|after| after[MONTHS] != from);
        let refused = after.is_none();
        if refused && months > 0 && months % 12 == 0 {
            // Refused in a year's first month: the years before it.
            let mut call = call.clone();
            if let Call::SpinUp { years, .. } = &mut call {
                *years = months / 12;
            }
            after = self.call(&call);
        }
        soils.extend(after.map(|after| soil_of(&after)));
        let whole = soils.len().saturating_sub(1);
        let mut by_total = None;
        let mut settled = false;
        for (index, year) in soils.windows(2).enumerate() {
            let (start, end) = (&year[0], &year[1]);
            let (total, pools) = (total_settles(start, end), pools_settle(start, end));
            let at_limit = |one: u128, other: u128| (1_000..=1_001).contains(&one.abs_diff(other));
            let grams = start.pools.iter().zip(&end.pools);
            let beside = at_limit(start.total(), end.total())
                || grams
                    .into_iter()
                    .any(|(one, other)| at_limit(*one as u128, *other as u128));
            self.rules.years += 1;
            self.rules.pools_alone += u64::from(total && !pools);
            self.rules.total_alone += u64::from(pools && !total);
            self.rules.beside += u64::from(beside);
            if total && by_total.is_none() {
                by_total = Some(index + 1);
            }
            settled = total && pools;
        }
        let rules = &mut self.rules;
        match by_total {
            Some(year) if year < whole || refused => rules.earlier += 1,
            Some(_) if !settled => rules.instead += 1,
            _ => (),
        }
        match whole {
            _ if refused => rules.refused_later += u64::from(months >= 12),
            1 => rules.first += u64::from(settled),
            _ => rules.later += u64::from(settled),
        }
        soils
    }

    /// Any weather and land, up to 120 years and now and then 10,000.
    fn any_spin_up(&mut self, long: bool) -> Call {
        let mut rows = || match self.draw.below(16) {
            // 9 rows are 36 numbers, three a month.
            0 => self.pick(&[0, 9, 11, 13, 16, 24]),
            _ => 12,
        };
        let (skies, fields) = (rows(), rows());
        let faulty = if self.draw.below(6) == 0 { 24 } else { 0 };
        let largest = self.pick(&[0, 300, 100_000, 1_000_000, 50_000_000]);
        let weather = self.row_numbers(skies, faulty, true, 0);
        let land = self.row_numbers(fields, faulty, false, largest);
        let years = match self.draw.below(10) {
            0 => self.wild(&[1, 10_000]),
            1 | 2 if long => 10_000,
            _ => 1 + self.draw.below(120),
        };
        let mut state = self.start();
        if self.draw.below(2) == 0 {
            // Small pools settle, some of them late.
            let total = self.draw.below(3_000_000);
            let pools = self.parts(total);
            state[POOLS..INERT].copy_from_slice(&pools);
        }
        Call::SpinUp {
            weather,
            land,
            years,
            state,
        }
    }

    /// A state that nothing refuses with these active pools.
    fn state_with(&mut self, pools: [u64; 4]) -> StateNumbers {
        let mut state = self.state();
        self.put_pools(&mut state, pools);
        state
    }

    /// Puts these active pools into it, CO2 and modern grams as 10 allows.
    fn put_pools(&mut self, state: &mut StateNumbers, pools: [u64; 4]) {
        state[POOLS..INERT].copy_from_slice(&pools);
        let most = 1_000_000_000 + 200_000_000 * state[MONTHS] - active(state);
        state[CO2] = state[CO2].min(most);
        let modern = self.modern(state);
        state[MODERN..KEPT].copy_from_slice(&modern);
    }

    /// Years to run for a spin-up that is aimed at the rule.
    fn few_years(&mut self) -> u64 {
        match self.draw.below(16) {
            0 => self.pick(&[1, 2, 150, 10_000]),
            1..=5 => 1 + self.draw.below(3),
            _ => 1 + self.draw.below(60),
        }
    }

    /// What the first year is to change: a pool or the total at the limit or beside it, pools that
    /// move against each other, or anything not far from it.
    fn changes(&mut self) -> [i64; 4] {
        let sign = self.pick(&[1, -1]);
        let edge = sign * self.pick(&[999, 1_000, 1_001, 1_002]);
        let [one, two, three] = [0; 3].map(|_| self.draw.between(-1_000, 1_000));
        let mut changes = match self.draw.below(8) {
            // A pool, with a total within the limit.
            0 => {
                let total = self.pick(&[0, one, 1_000, -1_000]);
                let rest = total - edge;
                let part = self.draw.between(rest.min(0), rest.max(0)) / 2;
                [
                    edge,
                    part,
                    (rest - part) / 2,
                    rest - part - (rest - part) / 2,
                ]
            }
            // The total, with pools within the limit as far as they go.
            1 => [one, two / 2, three / 2, edge - one - two / 2 - three / 2],
            2 => [edge, one / 8, two / 8, three / 8],
            // One against another.
            3 => [edge, -edge, 0, 0],
            4 => [edge, -edge, one / 4, two / 4],
            // Each within the limit.
            5 => [one, two, three, self.draw.between(-1_000, 1_000)],
            6 => [0; 4].map(|_| sign * self.draw.between(300, 1_000)),
            _ => [0; 4].map(|_| self.draw.between(-4_000, 4_000)),
        };
        for pool in 0..4 {
            changes.swap(pool, pool + self.draw.below(4 - pool as u64) as usize);
        }
        changes
    }

    /// One warm month a year and eleven frozen ones, from pools that its first year changes by just
    /// what is asked.
    fn measured_spin_up(&mut self) -> Call {
        loop {
            let mut weather = Vec::new();
            for month in 0..12 {
                let [temperature, rain, evaporation, source] = self.weather();
                let temperature = match month {
                    0 => temperature.clamp(-50, 500),
                    _ => self.draw.between(-400, -51),
                };
                weather.extend([temperature, rain, evaporation, source]);
            }
            let largest = self.pick(&[200, 5_000, 20_000]);
            let land = self.row_numbers(12, 0, false, largest);
            let mut state = self.state();
            let (soil, deficit) = (soil_of(&state), state[DEFICIT] as i128);
            let changes = self.changes();
            let own = measured::pools(&soil, deficit, &weather, &land, changes, &mut Nearest);
            let Some(own) = own.filter(|own| own.iter().sum::<u64>() <= 900_000_000) else {
                continue;
            };
            self.put_pools(&mut state, own);
            return Call::SpinUp {
                weather,
                land,
                years: self.few_years(),
                state,
            };
        }
    }

    /// A small light field, or its opposite: residue and humus far from where the year's plant
    /// carbon holds them, on either side.
    fn light_spin_up(&mut self) -> Call {
        let mut weather = Vec::new();
        for _ in 0..12 {
            let temperature = self.draw.between(-70, 200);
            let (rain, evaporation) = (self.draw.between(0, 1_200), self.draw.between(0, 1_200));
            let source = self.draw.between(OPEN_PAN, EVAPOTRANSPIRATION);
            weather.extend([temperature, rain, evaporation, source]);
        }
        let most = self.pick(&[0, 300, 1_000, 3_000, 10_000]);
        let mut land = Vec::new();
        for _ in 0..12 {
            let plant = self.draw.between(0, most);
            let manure = self.pick(&[0, 0, 0, most / 2]);
            land.extend([self.draw.between(0, 1), plant, manure, self.activity()]);
        }
        let size = most as u64 + 100;
        let pools = [size, 40 * size, 3 * size, 40 * size].map(|most| self.draw.below(most));
        Call::SpinUp {
            weather,
            land,
            years: self.few_years(),
            state: self.state_with(pools),
        }
    }

    /// A fault outside the months or in one of them, or a limit that a later year comes to.
    fn spoil_spin_up(&mut self, call: &mut Call) {
        let Call::SpinUp {
            weather,
            land,
            years,
            state,
        } = call
        else {
            panic!("a spin-up")
        };
        match self.draw.below(14) {
            0 => {
                let numbers = self.pick(&[0, 4, 36, 44, 47, 49, 52, 96]);
                let rows = if self.draw.below(2) == 0 {
                    weather
                } else {
                    land
                };
                rows.resize(numbers, 0);
            }
            1 => *years = self.pick(&[0, 10_001]),
            2 => *years = self.wild(&[1, 10_000]),
            3..=5 => self.spoil_state(state),
            6..=9 => {
                let of_weather = self.draw.below(2) == 0;
                let rows = if of_weather { weather } else { land };
                let from = 4 * self.draw.below(12) as usize;
                self.spoil_row(&mut rows[from..from + 4], of_weather);
            }
            10 | 11 => {
                // 12 in one of the years, or just not.
                let months = 1 + self.draw.below(12 * (*years).min(70));
                state[MONTHS] = MONTH_LIMIT - self.pick(&[months, months / 12 * 12]);
            }
            _ => {
                // 17 in one of the years, or just not: nothing decays.
                for row in weather.chunks_mut(WEATHER_NUMBERS) {
                    row[TEMPERATURE] = -51;
                }
                let a_year: i64 = land.chunks(LAND_NUMBERS).map(|row| row[1] + row[2]).sum();
                let before = self.draw.below(40) * a_year as u64 + self.draw.below(2_000);
                let total = 1_000_000_000 - before.min(1_000_000_000);
                let pools = self.parts(total);
                self.put_pools(state, pools);
            }
        }
        // Two faults at once now and then.
        if self.draw.below(5) == 0 {
            self.spoil_state(state);
        }
    }

    /// A light field's spin-up in full, and with as many years as end it before, at and after the
    /// first year that the total alone would have settled, and the first that settles.
    pub fn light(&mut self, field: &light::Field) {
        let soils = self.spun(&field.spin_up(YEAR_LIMIT as u64));
        let years = soils.len() as u64 - 1;
        let by_total = soils
            .windows(2)
            .position(|year| total_settles(&year[0], &year[1]));
        let by_total = by_total.map_or(years, |year| year as u64 + 1);
        for last in [by_total, years] {
            for years in [last - 1, last, last + 1] {
                self.spun(&field.spin_up(years));
            }
        }
        self.say(format!(
            "{}: {years} years, {by_total} by the total alone",
            field.name
        ));
    }

    // ---- Books ----

    /// One book with this much output memory.
    fn book(&mut self, bytes: &[u8], room: Option<usize>) {
        let mut faults = Vec::new();
        let mut asked = Asked {
            program: &mut *self.program,
            known: &mut self.known,
            ages: &mut self.ages,
            faults: &mut faults,
        };
        let answer = book::read(bytes, &mut asked);
        let text = book::write(&answer);
        let room = room.unwrap_or(text.len() + self.draw.below(40) as usize);
        let fill = self.draw.next() as u8;
        let margin = 16;
        let mut wanted = vec![fill; room + 2 * margin];
        let wanted_number = match &answer {
            // Too short for its text: 8, nothing written.
            _ if room < text.len() => 8,
            Answer::Ran { .. } => 0,
            Answer::Refused(refusal) => refusal.cause.number() as u64,
        };
        if wanted_number != 8 {
            wanted[margin..margin + text.len()].copy_from_slice(&text);
        }
        let mut given = vec![fill; room + 2 * margin];
        let mut length = Lent::filled(fill as u64, 1);
        let out = &mut given[margin..margin + room];
        let given_number = self.program.book(bytes, out, &mut length.get()[0]);
        let given_length = length.take().map(|numbers| numbers[0]);
        *self.seen.entry(("book", wanted_number)).or_default() += 1;
        let same = given == wanted
            && given_number == wanted_number
            && given_length == Ok(text.len() as u64)
            && text.len() <= LONGEST_TEXT
            && faults.is_empty();
        self.outcome(same, || {
            format!(
                "book:   {}\nroom:   {room}\nnumber and length wanted {wanted_number} {}, \
                 given {given_number} {given_length:?}\nS: {faults:?}\nwanted: {}\ngiven:  {}",
                shown(bytes),
                text.len(),
                shown(&wanted[..wanted.len().min(4_000)]),
                shown(&given[..given.len().min(4_000)])
            )
        });
    }

    /// An example book with the output that stands beside it: the reference, with the program's S,
    /// has to write the same.
    pub fn example(&mut self, name: &str, bytes: &[u8], output: &[u8]) {
        let mut faults = Vec::new();
        let mut asked = Asked {
            program: &mut *self.program,
            known: &mut self.known,
            ages: &mut self.ages,
            faults: &mut faults,
        };
        let text = book::run(bytes, &mut asked);
        let same = text == output && faults.is_empty();
        self.outcome(same, || {
            format!(
                "example {name}\nS: {faults:?}\n{}",
                difference(&text, output)
            )
        });
        self.book(bytes, None);
        self.say(format!("example {name}"));
    }

    /// A book that nothing refuses, unless its pools reach the ceiling.
    fn valid_book(&mut self) -> Vec<u8> {
        let soil = self.soil();
        let mut text = String::from("SOIL 1\n");
        push_row(&mut text, &soil);
        let (skies, fields) = match self.draw.below(40) {
            0 => (12, 300),
            1 => (300, 5),
            _ => (1 + self.draw.below(14), 1 + self.draw.below(26)),
        };
        text += &format!("WEATHER {skies}\n");
        for _ in 0..skies {
            push_row(&mut text, &self.weather()[..SOURCE]);
        }
        text += &format!("LAND {fields}\n");
        let largest = self.pick(&[1_000, 1_000_000, 30_000_000]);
        for _ in 0..fields {
            let room = self.draw.below(largest + 1);
            push_row(&mut text, &self.land(room)[..3]);
        }
        text.into_bytes()
    }

    /// Damage that any text can take, with these bytes: bytes changed, cut, inserted, copied or put
    /// at the end, lines doubled, dropped or changed over.
    fn damage_text(&mut self, text: &mut Vec<u8>, bytes: &[u8]) {
        if text.is_empty() {
            text.push(self.pick(bytes));
            return;
        }
        let place = self.draw.below(text.len() as u64) as usize;
        let mut lines = lines_of(text);
        let line = self.draw.below(lines.len() as u64) as usize;
        let other = self.draw.below(lines.len() as u64) as usize;
        match self.draw.below(10) {
            0 => text[place] ^= 1 << self.draw.below(8),
            1 => text[place] = self.pick(bytes),
            2 => text.truncate(place),
            3 => {
                let end = (place + 1 + self.draw.below(9) as usize).min(text.len());
                drop(text.drain(place..end));
            }
            4 => text.insert(place, self.pick(bytes)),
            5 => {
                let again = lines[line].clone();
                lines.insert(line, again);
                *text = lines.concat();
            }
            6 => {
                lines.remove(line);
                *text = lines.concat();
            }
            7 => {
                lines.swap(line, other);
                *text = lines.concat();
            }
            8 => {
                let end = (place + self.draw.below(40) as usize).min(text.len());
                let copy = text[place..end].to_vec();
                let to = self.draw.below(text.len() as u64) as usize;
                drop(text.splice(to..to, copy));
            }
            _ => text.extend(std::iter::repeat_n(
                self.pick(bytes),
                1 + self.draw.below(3) as usize,
            )),
        }
    }

    /// The words of one of a text's lines changed, if it has lines; `change` is also told which.
    fn change_some_line(
        &mut self,
        text: &mut Vec<u8>,
        between: &str,
        change: impl FnOnce(&mut Self, usize, &mut Vec<String>),
    ) {
        let lines = lines_of(text).len() as u64;
        if lines > 0 {
            let line = self.draw.below(lines) as usize;
            change_line(text, line, between, |words| change(self, line, words));
        }
    }

    /// One of a line's words changed to one of these values.
    fn change_value(&mut self, text: &mut Vec<u8>, between: &str, values: &[&str]) {
        self.change_some_line(text, between, |own, _, words| {
            let word = own.draw.below(words.len() as u64) as usize;
            words[word] = own.pick(values).to_string();
        });
    }

    fn damage(&mut self, book: &mut Vec<u8>) {
        const BYTES: &[u8] = b"0123456789 -\n\r\t+.SOILWEATHERAND\x00\x7f\x80\xffxs";
        const VALUES: [&str; 32] = [
            "0",
            "1",
            "2",
            "3",
            "4",
            "-1",
            "-0",
            "00",
            "01",
            "+1",
            "--5",
            "",
            "-",
            "5 ",
            "1.0",
            "100",
            "101",
            "1000",
            "1001",
            "500",
            "501",
            "-400",
            "-401",
            "20000",
            "20001",
            "100000000",
            "100000001",
            "1000000000",
            "1000000001",
            "9999999999",
            "10000000000",
            "18446744073709551617",
        ];
        match self.draw.below(16) {
            0..=9 => self.damage_text(book, BYTES),
            // A head's count.
            10 | 11 => {
                let heads: Vec<usize> = lines_of(book)
                    .iter()
                    .enumerate()
                    .filter(|(_, line)| line.first().is_some_and(u8::is_ascii_uppercase))
                    .map(|(index, _)| index)
                    .collect();
                if heads.is_empty() {
                    return;
                }
                let head = self.pick(&heads);
                change_line(book, head, " ", |words| {
                    let word = words.last_mut().expect("a head has words");
                    let count: i64 = word.parse().unwrap_or(1);
                    *word = match self.draw.below(3) {
                        0 => (count + 1).to_string(),
                        1 => (count - 1).to_string(),
                        _ => self
                            .pick(&["0", "1", "2", "1200", "1201", "9999999999", "03", "-1", ""])
                            .to_string(),
                    };
                });
            }
            _ => self.change_value(book, " ", &VALUES),
        }
    }

    fn books(&mut self, count: u64) {
        let shelf: Vec<Vec<u8>> = vectors().into_iter().map(|vector| vector.book).collect();
        for book in &shelf {
            self.book(book, None);
        }
        for size in [65_535, 65_536, 65_537, 65_538, 100_000] {
            let mut book = shelf[0].clone();
            book.resize(size, b'0');
            self.book(&book, None);
        }
        let small: Vec<&Vec<u8>> = shelf.iter().filter(|book| book.len() < 3_000).collect();
        for done in 0..count {
            let mut book = match self.draw.below(4) {
                0 => small[self.draw.below(small.len() as u64) as usize].clone(),
                _ => self.valid_book(),
            };
            let damages = match self.draw.below(10) {
                0 => 0,
                1..=6 => 1,
                7 | 8 => 2,
                _ => 3 + self.draw.below(5),
            };
            for _ in 0..damages {
                self.damage(&mut book);
            }
            self.book(&book, None);
            if done % 10 == 0 {
                self.short_outputs(&book);
            }
            if done % 2_000 == 1_999 {
                self.say(format!("damaged books: {}", done + 1));
            }
        }
    }

    /// Output memory too short by one byte, by any, and none at all; and just enough.
    fn short_outputs(&mut self, book: &[u8]) {
        let mut asked = Asked {
            program: &mut *self.program,
            known: &mut self.known,
            ages: &mut self.ages,
            faults: &mut Vec::new(),
        };
        let length = book::run(book, &mut asked).len();
        let less = self.draw.below(length as u64) as usize;
        for room in [length - 1, less, 0, length] {
            self.book(book, Some(room));
        }
    }

    // ---- Tables ----

    /// A table of so many lines that nothing refuses.
    fn valid_table(&mut self, lines: usize) -> Vec<u8> {
        (1..=lines)
            .map(|month| {
                let [temperature, rain, evaporation, _] = self.weather();
                table::line(month, [temperature, rain, evaporation])
            })
            .collect::<String>()
            .into_bytes()
    }

    /// Other ends of lines, and commas or other marks, in one place or everywhere.
    fn change_marks(&mut self, text: &mut Vec<u8>) {
        let (from, to): (u8, &[u8]) = self.pick(&[
            (b'\n', b"\r\n"),
            (b'\n', b"\r"),
            (b'\n', b"\n\n"),
            (b'.', b","),
            (b';', b","),
            (b';', b"; "),
            (b'.', b""),
        ]);
        let parts: Vec<&[u8]> = text.split(|byte| *byte == from).collect();
        let one = match self.draw.below(2) {
            0 => None,
            _ => Some(self.draw.below(parts.len() as u64) as usize),
        };
        let mut changed = parts[0].to_vec();
        for (index, part) in parts[1..].iter().enumerate() {
            let mark = if one.is_none_or(|one| one == index) {
                to
            } else {
                &[from]
            };
            changed.extend([mark, part].concat());
        }
        *text = changed;
    }

    fn damage_table(&mut self, text: &mut Vec<u8>) {
        const BYTES: &[u8] = b"0123456789;;..-\n\n\r\t ,:/+\x00\x7f\x80\xb1\xffx";
        // Ends of the ranges and of the form, with their neighbours.
        const ENDS: [&str; 25] = [
            "0.0",
            "0.1",
            "-0.1",
            "-0.0",
            "-0.5",
            "-39.9",
            "-40.0",
            "-40.1",
            "49.9",
            "50.0",
            "50.1",
            "500.0",
            "-400.0",
            "1999.9",
            "2000.0",
            "2000.1",
            "20000.0",
            "999999999.9",
            "1000000000.0",
            "9999999999.9",
            "-9999999999.9",
            "10000000000.0",
            "-10000000000.0",
            "429496729.6",
            "429496730.1",
        ];
        // Months, and other forms.
        const VALUES: [&str; 27] = [
            "922337203685477580.8",
            "1844674407370955161.6",
            "18446744073709551617.0",
            "1",
            "2",
            "0",
            "01",
            "-1",
            "12",
            "1200",
            "1201",
            "4294967297",
            "18446744073709551617",
            "",
            "-",
            ".",
            "5.",
            ".5",
            "-.5",
            "05.0",
            "1.25",
            "+1.0",
            "1,0",
            "--1.0",
            " 1.0",
            "1.0 ",
            "1.0;1.0",
        ];
        match self.draw.below(20) {
            0..=5 => self.damage_text(text, BYTES),
            // The last byte 10 dropped.
            6 => drop(text.pop()),
            7 | 8 => self.change_marks(text),
            // A line's month, by one or to another number.
            9 | 10 => self.change_some_line(text, ";", |own, line, words| {
                let month = line as u64 + 1;
                let other = match own.draw.below(3) {
                    0 => month - 1,
                    1 => month + 1,
                    _ => own.wild(&[month]),
                };
                words[0] = other.to_string();
            }),
            // One of a line's numbers.
            11..=17 => self.change_some_line(text, ";", |own, _, words| {
                let field = 1 + own.draw.below(3) as usize;
                if let Some(word) = words.get_mut(field) {
                    *word = own.pick(&ENDS).to_string();
                }
            }),
            _ => self.change_value(text, ";", &VALUES),
        }
    }

    /// Drawn tables, good and damaged, each with one room or more.
    fn tables(&mut self, count: u64) {
        let mut kinds = [0u64; 4];
        for done in 0..count {
            let long = done % 400 == 0;
            let lines = match self.draw.below(20) {
                _ if long => self.pick(&[1_199, 1_200, 1_201, 1_200]),
                0 => 0,
                1 => 41 + self.draw.below(160) as usize,
                _ => 1 + self.draw.below(40) as usize,
            };
            let mut text = self.valid_table(lines);
            let damages = match self.draw.below(10) {
                0..=2 => 0,
                3..=7 => 1,
                8 => 2,
                _ => 3 + self.draw.below(5),
            };
            for _ in 0..damages {
                self.damage_table(&mut text);
            }
            kinds[usize::from(damages > 0)] += 1;
            let exact = table::lines(&text).len() * WEATHER_NUMBERS;
            let room = match self.draw.below(12) {
                0 => exact.saturating_sub(1),
                1 => self.draw.below(exact as u64 + 1) as usize,
                2 => exact + self.draw.below(30) as usize,
                3 => exact / WEATHER_NUMBERS * 3,
                _ => exact,
            };
            kinds[2 + usize::from(room < exact)] += 1;
            self.call(&Call::Table { room, table: text });
        }
        let [good, damaged, enough, short] = kinds;
        self.say(format!(
            "tables: {count}, {good} good and {damaged} damaged, {enough} with room enough and \
             {short} without; {}",
            self.answers("table")
        ));
    }

    /// Months by an open pan and by evapotranspiration that dry the same, 4 tenths as 3: the
    /// program gives one answer to both.
    fn pairs(&mut self, count: u64) {
        for _ in 0..count {
            let state = self.state();
            let number = state[MONTHS] + 1;
            let mut pan = self.entries(&state);
            let threes = match self.draw.below(4) {
                0 => self.pick(&[0, 1, 4_999, 5_000]),
                _ => self.draw.between(0, 500),
            };
            (pan[EVAPORATION], pan[SOURCE]) = (4 * threes, OPEN_PAN);
            let mut office = pan;
            (office[EVAPORATION], office[SOURCE]) = (3 * threes, EVAPOTRANSPIRATION);
            let fill = self.fill();
            let calls = [pan, office].map(|entries| Call::Month {
                state,
                number,
                entries,
            });
            for call in &calls {
                self.call(call);
            }
            let [one, other] = calls
                .each_ref()
                .map(|call| program_answer(self.program, call, fill));
            let same = one.is_ok() && one == other;
            self.outcome(same, || {
                format!(
                    "pan and evapotranspiration: {}\npan:    {one:?}\nother:  {other:?}",
                    calls[0].line()
                )
            });
        }
        self.say(format!(
            "months by open pan and the same by evapotranspiration: {count} pairs"
        ));
    }

    // ---- Taking back ----

    /// Takings-back on any memory at all.
    fn takings_back(&mut self, count: u64) {
        for _ in 0..count {
            let mut state = self.state();
            if self.draw.below(2) == 0 {
                for index in 0..OWN_NUMBERS {
                    if self.draw.below(3) == 0 {
                        state[index] = self.wild(&[24, 1_000, 120_000]);
                    }
                }
            }
            match self.draw.below(4) {
                0 => state[MONTHS] = self.draw.below(60),
                1 => state[MONTHS] = self.wild(&[24, 120_000]),
                2 => state[MONTHS] = self.draw.next(),
                _ => (),
            }
            match self.draw.below(6) {
                0 => state[KEPT] = 0,
                1 => state[KEPT] = self.wild(&[24]),
                2 => state[KEPT] = 1 + self.draw.below(25),
                _ => (),
            }
            self.call(&Call::TakeBack { state });
        }
        self.say(format!(
            "takings-back on any memory: {count}; {}",
            self.answers("taking-back")
        ));
    }

    /// Histories of months, lists, spin-ups and takings-back on one lent state, of all its numbers
    /// each time. Where they begin with none kept, the paper's list of kept states is held against
    /// the places too.
    fn histories(&mut self, count: u64) {
        let mut done = 0;
        let mut kinds: HashMap<&'static str, u64> = HashMap::new();
        let (mut begun, mut listed) = (0, 0);
        while done < count {
            let (start, length) = match self.draw.below(4) {
                0 => {
                    let soil = self.soil();
                    (self.new_state(soil), 20 + self.draw.below(180))
                }
                // Any state: what it restores may be refused by all that follows.
                _ => (Some(self.start()), 1 + self.draw.below(30)),
            };
            let Some(mut state) = start else { return };
            self.places(&mut state);
            let mut field = (state[KEPT] == 0).then(|| memory::field_of(&state));
            begun += 1;
            let mut backs = 0;
            for _ in 0..length.min(count - done) {
                if backs == 0 && self.draw.below(5) == 0 {
                    backs = match self.draw.below(8) {
                        0 => 20 + self.draw.below(10),
                        _ => 1 + self.draw.below(4),
                    };
                }
                let call = match backs {
                    0 => self.act(&state),
                    _ => Call::TakeBack { state },
                };
                backs = backs.saturating_sub(1);
                *kinds.entry(call.name()).or_default() += 1;
                done += 1;
                let Some(next) = self.call(&call) else { return };
                if let Some(field) = &mut field {
                    self.act_on(field, &call);
                    listed += 1;
                    let same = next[KEPT] <= KEPT_LIMIT as u64 && memory::field_of(&next) == *field;
                    self.outcome(same, || {
                        format!(
                            "history: {}\nlist: {field:?}\nnumbers: {next:?}",
                            call.line()
                        )
                    });
                }
                state = next;
            }
        }
        let mut kinds: Vec<String> = kinds
            .iter()
            .map(|(name, times)| format!("{name} {times}"))
            .collect();
        kinds.sort_unstable();
        self.say(format!(
            "histories: {begun} of {done} calls ({}), {listed} of them beside the list of kept \
             states; {}",
            kinds.join(", "),
            self.answers("taking-back")
        ));
    }

    /// A month, a list or a spin-up of few years on this state, some of them faulty.
    fn act(&mut self, state: &StateNumbers) -> Call {
        let state = *state;
        let faulty = if self.draw.below(4) == 0 { 20 } else { 0 };
        let largest = self.pick(&[1_000, 1_000_000, 10_000_000, 100_000_000]);
        match self.draw.below(16) {
            0..=2 => {
                let months = match self.draw.below(12) {
                    0 => self.pick(&[0, 1, 23, 24, 25]),
                    _ => 1 + self.draw.below(40) as usize,
                };
                let skies = 1 + self.draw.below(14) as usize;
                let weather = self.row_numbers(skies, faulty, true, 0);
                let land = self.row_numbers(months, faulty, false, largest);
                let short = usize::from(self.draw.below(20) == 0);
                Call::List {
                    weather,
                    land,
                    output: (months * OUTPUT_NUMBERS).saturating_sub(short),
                    state,
                }
            }
            3 => Call::SpinUp {
                weather: self.row_numbers(12, faulty, true, 0),
                land: self.row_numbers(12, faulty, false, largest),
                years: match self.draw.below(8) {
                    0 => self.pick(&[0, 10_001]),
                    _ => 1 + self.draw.below(4),
                },
                state,
            },
            _ => {
                let mut entries = self.entries(&state);
                let mut number = state[MONTHS].wrapping_add(1);
                match self.draw.below(12) {
                    0 => self.spoil_entries(&state, &mut entries),
                    1 => number = self.wild(&[number]),
                    _ => (),
                }
                Call::Month {
                    state,
                    number,
                    entries,
                }
            }
        }
    }

    /// The same call on the paper's list of kept states.
    fn act_on(&mut self, field: &mut Field, call: &Call) {
        let mut asked = Asked {
            program: &mut *self.program,
            known: &mut self.known,
            ages: &mut self.ages,
            faults: &mut Vec::new(),
        };
        match call {
            Call::Month {
                number, entries, ..
            } => {
                let entries = entries_of(entries);
                let _ = field.month(*number as i128, &entries, &mut asked);
            }
            Call::List {
                weather,
                land,
                output,
                ..
            } => {
                let _ = field.list(weather, land, &mut vec![0; *output], &mut asked);
            }
            Call::SpinUp {
                weather,
                land,
                years,
                ..
            } => {
                let _ = field.spin_up(weather, land, *years as i128, &mut asked);
            }
            Call::TakeBack { .. } => {
                let _ = field.take_back();
            }
            _ => panic!("no act of a history"),
        }
    }

    // ---- Survival terms ----

    /// A survival number with its terms, the lent terms holding anything. The number is what the
    /// call without terms returns, at most 1 from the exact one and exact at w = 0; the count is
    /// the reference's own. Where there is no number, the terms stay.
    fn number_and_terms(&mut self, n: u64, pool: u64) {
        let fill = self.fill();
        let mut lent = Lent::filled(fill, 1);
        let number = self.program.survival_terms(n, pool, &mut lent.get()[0]);
        let given = lent.take().map(|numbers| numbers[0]);
        let plain = self.program.survival(n, pool);
        let count = rate(n, pool).map(|k| terms(n, k));
        let right = match rate(n, pool) {
            Some(k) => within(number, n, k, 1),
            None => number == NO_SURVIVAL,
        };
        *self.seen.entry(("terms", count.unwrap_or(0))).or_default() += 1;
        let same = right
            && number == plain
            && given == Ok(count.unwrap_or(fill))
            && count.is_none_or(|count| count <= MOST_TERMS);
        self.outcome(same, || {
            format!(
                "terms of n {n} pool {pool}, {fill} before: wanted {count:?}, given {given:?}\n\
                 S: {number}, without terms {plain}, right: {right}"
            )
        });
    }

    /// An n of every size, beside one where the count changes, of a month, or beyond all.
    fn rate_number(&mut self, k: u64) -> u64 {
        match self.draw.below(8) {
            0..=2 => self.sized(LARGEST_N),
            3..=5 => {
                let multiples = exponent_parts(LARGEST_N, k) / STEP_PARTS;
                let multiple = u128::from(self.draw.below(multiples as u64 + 1));
                let parts = multiple * STEP_PARTS + least_remainder(1 + self.draw.below(6));
                let n = least_n(k, parts, LARGEST_N) + self.draw.below(5);
                n.saturating_sub(2).min(LARGEST_N)
            }
            6 => {
                let moisture = 2_000 + self.draw.below(8_001);
                let cover = self.pick(&[6, 10]);
                temperature_factor(self.draw.between(-60, 500)) * moisture * cover
            }
            _ => self.wild(&[LARGEST_N]),
        }
    }

    /// Survival numbers with their terms: ends, drawn ones, and every temperature's on moist soil,
    /// bare and under a crop.
    fn survival_terms(&mut self, count: u64) {
        let ends = [0, 1, LARGEST_N - 1, LARGEST_N, LARGEST_N + 1];
        for n in ends
            .into_iter()
            .chain([1 << 32, 1 << 34, 1 << 63, u64::MAX])
        {
            for pool in [0, 1, 2, 3, 4, 5, 1 << 32, 1 << 63, u64::MAX] {
                self.number_and_terms(n, pool);
            }
        }
        for _ in 0..count {
            let pool = match self.draw.below(10) {
                0 => self.wild(&[3]),
                _ => self.draw.below(4),
            };
            let n = self.rate_number(RATES[pool as usize % 4]);
            self.number_and_terms(n, pool);
        }
        for temperature in -50..=500 {
            for cover in [10, 6] {
                for pool in 0..4 {
                    let n = temperature_factor(temperature) * 10_000 * cover;
                    self.number_and_terms(n, pool);
                }
            }
        }
        self.say(format!(
            "survival terms: {count}, the ends and every temperature besides; by terms, 0 where \
             there is no number: {}",
            self.answers("terms")
        ));
    }

    // ---- Radiocarbon ----

    /// The survival numbers of all 60,001 ages: at most 1 from the exact one, exact at 0 and never
    /// rising; none beyond.
    fn age_numbers(&mut self) {
        self.ages.clear();
        let mut before = BILLION;
        for years in 0..=OLDEST {
            let s = self.program.age_survival(years);
            let same = age_within(s, years, 1) && s <= before;
            self.outcome(same, || {
                format!("S of age {years}: {s}, {before} the year before")
            });
            self.ages.push(s);
            before = s;
        }
        for years in [
            OLDEST + 1,
            OLDEST + 2,
            65_536,
            120_000,
            1 << 32,
            (1 << 32) + 1,
        ]
        .into_iter()
        .chain([1 << 63, u64::MAX - 1, u64::MAX])
        {
            let s = self.program.age_survival(years);
            self.outcome(s == NO_SURVIVAL, || format!("S of age {years}: {s}"));
        }
        self.say("the survival numbers of all ages".into());
    }

    /// A state that nothing refuses and that has so many grams and modern grams in what is asked.
    /// IOM has its own, so only grams count there.
    fn weighed_state(&mut self, pool: u64, carbon: u64, modern: u64) -> StateNumbers {
        let mut state = self.state();
        state[CO2] = 0;
        let (mut pools, mut weights) = ([0; 4], [0; 4]);
        match pool {
            ALL => {
                // IOM takes what the active pools can't hold, or more.
                let least = carbon.saturating_sub(1_000_000_000);
                let most = carbon.min(1_000_000_000);
                let mut inert = least + self.sized(most - least);
                if self.draw.below(3) == 0 || inert * 2 / 1_000 > modern {
                    inert = least;
                }
                state[INERT] = inert;
                pools = self.parts(carbon - inert);
                weights = self.parts(modern.saturating_sub(inert * 2 / 1_000));
            }
            4 => state[INERT] = carbon,
            _ => {
                let others = self.sized(1_000_000_000 - carbon);
                let rest = self.parts(others);
                for index in 0..4 {
                    pools[index] = if rest[pool as usize] == 0 {
                        rest[index]
                    } else {
                        0
                    };
                }
                pools[pool as usize] = carbon;
                weights[pool as usize] = modern;
            }
        }
        state[POOLS..INERT].copy_from_slice(&pools);
        state[MODERN..KEPT].copy_from_slice(&weights);
        if weights.iter().sum::<u64>() > most_modern(state[MONTHS]) {
            state[MONTHS] = MONTH_LIMIT;
        }
        state
    }

    /// Grams and modern grams whose ratio is at or beside the survival number of an age, or at the
    /// ends of what has an age.
    fn at_an_age(&mut self, most: u64) -> (u64, u64) {
        let carbon = match self.draw.below(8) {
            0 => most,
            1 => 1_000_000_000,
            _ => self.sized(most).max(1),
        };
        let modern = match self.draw.below(10) {
            0 => self.pick(&[carbon - 1, carbon, carbon + 1]),
            1 => self.draw.below(4),
            2 => self.sized(most_modern(MONTH_LIMIT)),
            _ => {
                let years = match self.draw.below(4) {
                    0 => self.pick(&[0, 1, 2, 5_569, 49_934, 49_935, 59_999, 60_000]),
                    _ => self.draw.below(OLDEST + 1),
                };
                let product = self.ages[years as usize].min(BILLION) as u128 * carbon as u128;
                let floor = (product / BILLION as u128) as u64;
                let edge = floor + self.draw.below(2) * u64::from(product % BILLION as u128 > 0);
                match self.draw.below(6) {
                    0 => edge + 1,
                    1 => edge.saturating_sub(1),
                    _ => edge,
                }
            }
        };
        (carbon, modern)
    }

    /// Reports: at the edges of ages, of states as they come, of states that are refused, of pools
    /// without carbon and of pools that there aren't.
    fn reports(&mut self, count: u64) {
        if self.ages.is_empty() {
            self.age_numbers();
        }
        let mut kinds = [0u64; 3];
        for _ in 0..count {
            let pool = self.draw.below(6);
            let (mut state, mut asked) = match self.draw.below(8) {
                0..=4 => {
                    let most = if pool == ALL {
                        2_000_000_000
                    } else {
                        1_000_000_000
                    };
                    let (carbon, modern) = self.at_an_age(most);
                    (self.weighed_state(pool, carbon, modern), pool)
                }
                5 => (self.weighed_state(pool, 0, 0), pool),
                _ => (self.start(), pool),
            };
            match self.draw.below(12) {
                0 => self.spoil_state(&mut state),
                1 => asked = self.wild(&[5]),
                2 if self.draw.below(4) == 0 => state[MONTHS] = MONTH_LIMIT,
                _ => (),
            }
            let call = Call::Report { state, pool: asked };
            self.call(&call);
            let Ok(answer) = program_answer(self.program, &call, 7) else {
                continue;
            };
            if answer[0] == 0 && answer[2] < 3 {
                kinds[answer[2] as usize] += 1;
                // The survival numbers beside the age are still the same.
                let years = answer[3].min(OLDEST);
                for years in [years.saturating_sub(1), years] {
                    let s = self.program.age_survival(years);
                    let same = s == self.ages[years as usize];
                    self.outcome(same, || format!("S of age {years} is now {s}"));
                }
            }
        }
        let [dated, older, newer] = kinds;
        self.say(format!(
            "reports: {count}, {dated} with an age, {older} older, {newer} newer; {}",
            self.answers("report")
        ));
    }

    /// Modern grams never touch carbon: months, lists and spin-ups, each beside the same without
    /// activities and modern grams (1000 and 0). Up to the first refusal by 21, or by 10 for modern
    /// grams, all numbers but the modern grams are equal.
    fn beside(&mut self, count: u64) {
        let mut cut = [0u64; 2];
        for round in 0..count {
            let call = if round % 2 == 0 {
                self.month_call()
            } else {
                let state = self.start();
                self.act(&state)
            };
            let plain = self.reweighed(&call, false);
            let other = self.reweighed(&call, true);
            let fill = self.fill();
            for call in [&plain, &other] {
                self.call(call);
            }
            let answers = [&plain, &other].map(|call| program_answer(self.program, call, fill));
            let [Ok(one), Ok(two)] = &answers else {
                self.outcome(false, || format!("{answers:?}"));
                continue;
            };
            let before = other.state().expect("a state was lent");
            let same = match two[0] {
                21 => {
                    cut[0] += 1;
                    self.same_before(&plain, &other, one, two)
                }
                10 if one[0] != 10 => {
                    cut[1] += 1;
                    let modern = before[MODERN..KEPT].iter().map(|grams| *grams as u128);
                    let limit = 1_000_000_000 + 400_000_000 * before[MONTHS] as u128;
                    let at = other.state_at().expect("an answer with a state");
                    modern.sum::<u128>() > limit && two[at..at + STATE_NUMBERS] == before[..]
                }
                _ => without_modern(&plain, one) == without_modern(&other, two),
            };
            self.outcome(same, || {
                format!(
                    "without activities: {}
{one:?}
with them: {}
{two:?}",
                    plain.line(),
                    other.line()
                )
            });
        }
        let [by_activity, by_modern] = cut;
        self.say(format!(
            "calls beside the same without activities: {count}, {by_activity} cut short by 21 and \
             {by_modern} by 10 for modern grams"
        ));
    }

    /// The call with activity 1000 everywhere and no modern grams, or with others, some of them
    /// refused.
    fn reweighed(&mut self, call: &Call, others: bool) -> Call {
        let mut call = call.clone();
        let wild = self.draw.below(6);
        let (state, activities): (&mut StateNumbers, Vec<&mut i64>) = match &mut call {
            Call::Month { state, entries, .. } => (state, vec![&mut entries[ACTIVITY]]),
            Call::List { state, land, .. } | Call::SpinUp { state, land, .. } => (
                state,
                land.iter_mut().skip(3).step_by(LAND_NUMBERS).collect(),
            ),
            _ => panic!("a call with entries"),
        };
        let one = self.draw.below(activities.len().max(1) as u64) as usize;
        for (index, activity) in activities.into_iter().enumerate() {
            *activity = match others {
                false => FRESH,
                true if wild == 0 && index == one => self.wild_signed(&[0, HIGHEST_ACTIVITY]),
                true => self.activity(),
            };
        }
        state[MODERN..KEPT].fill(0);
        if others {
            // States that are refused for another number may have any months.
            let mut sound = *state;
            sound[MONTHS] = sound[MONTHS].min(MONTH_LIMIT);
            for pool in 0..4 {
                sound[POOLS + pool] = sound[POOLS + pool].min(250_000_000);
            }
            let modern = self.modern(&sound);
            state[MODERN..KEPT].copy_from_slice(&modern);
            if wild == 1 {
                let pool = self.draw.below(4) as usize;
                let bound = most_modern(sound[MONTHS]);
                state[MODERN + pool] = self.wild(&[bound]);
            }
        }
        call
    }

    /// A call refused by 21 at its month j: its rows before j, and the carbon of its state, are
    /// those of the first j - 1 months without activities.
    fn same_before(&mut self, plain: &Call, other: &Call, one: &[u64], two: &[u64]) -> bool {
        let before = other.state().expect("a state was lent");
        let at = other.state_at().expect("an answer with a state");
        let kept = &two[at..at + STATE_NUMBERS];
        let Call::List {
            weather,
            land,
            state,
            ..
        } = plain
        else {
            // A month and a spin-up leave the state that they were given.
            return kept == &before[..];
        };
        let ran = two[1] as usize - 1;
        let rows = |answer: &[u64]| {
            let from = at + STATE_NUMBERS;
            answer[from..from + ran * OUTPUT_NUMBERS].to_vec()
        };
        if rows(one) != rows(two) {
            return false;
        }
        if ran == 0 {
            return kept == &before[..];
        }
        let short = Call::List {
            weather: weather.clone(),
            land: land[..ran * LAND_NUMBERS].to_vec(),
            output: ran * OUTPUT_NUMBERS,
            state: *state,
        };
        let Ok(alone) = program_answer(self.program, &short, 0) else {
            return false;
        };
        let mut with = [&[0, 0][..], kept].concat();
        with.extend(rows(two));
        without_modern(&short, &alone) == without_modern(&short, &with)
    }

    // ---- Wrong lengths ----

    /// Lent memory of a fixed layout with another length: 100, and nothing written, whatever the
    /// numbers in it; so too a report on a pool above 5. And n or a pool for which there is no
    /// survival number.
    fn wrong_lengths(&mut self) {
        for round in 0..40 {
            let mut state = self.state();
            let mut entries = self.entries(&state);
            let mut rows_each = (12, 12);
            if round % 2 == 1 {
                self.spoil_state(&mut state);
                self.spoil_entries(&state, &mut entries);
                rows_each = (self.draw.below(14) as usize, self.draw.below(14) as usize);
            }
            let weather = self.row_numbers(rows_each.0, 20, true, 0);
            let land = self.row_numbers(rows_each.1, 20, false, 1_000);
            for length in [
                0, 1, 2, 3, 4, 5, 6, 7, 8, 9, 11, 12, 14, 15, 16, 17, 100, 276, 375, 376, 377, 752,
            ] {
                let numbers: Vec<u64> = state.iter().cycle().take(length).copied().collect();
                let signed: Vec<i64> = entries.iter().cycle().take(length).copied().collect();
                let number = state[MONTHS].wrapping_add(1);
                let fill = self.draw.next();
                // Which memory has the wrong length; 11: which pool there isn't.
                for which in 0..12 {
                    let right = match which {
                        0 => SOIL_NUMBERS,
                        3 => ENTRY_NUMBERS,
                        4 => OUTPUT_NUMBERS,
                        7 => 2,
                        10 => REPORT_NUMBERS,
                        _ => STATE_NUMBERS,
                    };
                    if length == right {
                        continue;
                    }
                    let soil = &state[..SOIL_NUMBERS];
                    let mut own = Lent::new(&state);
                    let mut given = Lent::new(&numbers);
                    let mut row = Lent::filled(fill, OUTPUT_NUMBERS);
                    let mut rows = Lent::filled(fill, 84);
                    let mut place = Lent::filled(fill, 1);
                    let mut result = Lent::filled(fill, 2);
                    let mut report = Lent::filled(fill as i64, REPORT_NUMBERS);
                    let mut other = Lent::new(&signed);
                    let pool = self.draw.below(6);
                    let none = 6 + self.draw.below(u64::MAX - 5);
                    let program = &mut *self.program;
                    let answer = match which {
                        0 => program.start(&numbers, own.get()),
                        1 => program.start(soil, given.get()),
                        2 => program.month(given.get(), number, &entries, row.get()),
                        3 => program.month(own.get(), number, &signed, row.get()),
                        4 => program.month(own.get(), number, &entries, given.get()),
                        5 => {
                            let place = &mut place.get()[0];
                            program.list(given.get(), &weather, &land, rows.get(), place)
                        }
                        6 => program.spin_up(given.get(), &weather, &land, 2, result.get()),
                        8 => program.take_back(given.get()),
                        9 => program.radiocarbon(given.get(), pool, report.get()),
                        10 => program.radiocarbon(own.get(), pool, other.get()),
                        11 => {
                            let pool = [6, 7, none, u64::MAX][length % 4];
                            program.radiocarbon(own.get(), pool, report.get())
                        }
                        _ => program.spin_up(own.get(), &weather, &land, 2, given.get()),
                    };
                    let same = answer == WRONG_SHAPE
                        && own.take() == Ok(&state)
                        && given.take() == Ok(&numbers)
                        && row.take() == Ok(&[fill; OUTPUT_NUMBERS])
                        && rows.take() == Ok(&[fill; 84])
                        && place.take() == Ok(&[fill])
                        && result.take() == Ok(&[fill; 2])
                        && report.take() == Ok(&[fill as i64; REPORT_NUMBERS])
                        && other.take() == Ok(&signed);
                    self.outcome(same, || {
                        format!(
                            "length {length} for memory {which}: {answer}, state {state:?}, \
                             entries {entries:?}, {given:?} {row:?} {place:?} {result:?} {report:?}"
                        )
                    });
                }
            }
        }
        for n in [0, 1, LARGEST_N, LARGEST_N + 1, u64::MAX, 1 << 63, 1 << 34] {
            for pool in [0, 1, 2, 3, 4, 5, 1 << 32, u64::MAX] {
                let s = self.program.survival(n, pool);
                let same = if pool > 3 || n > LARGEST_N {
                    s == NO_SURVIVAL
                } else {
                    within(s, n, RATES[pool as usize], 1)
                };
                self.outcome(same, || format!("S of n {n} pool {pool}: {s}"));
            }
        }
        self.say("wrong lengths".into());
    }

    // ---- Demand 3 ----

    /// Chains of some 30 calls against the recurrence in fractions; months are taken back in every
    /// second one.
    fn short_chains(&mut self) {
        for round in 0..30 {
            let soil = self.soil();
            let Some(mut state) = self.new_state(soil) else {
                return;
            };
            let mut answered = Vec::new();
            for _ in 0..self.draw.below(40) {
                let mut entries = self.entries(&state);
                let mut number = state[MONTHS].wrapping_add(1);
                match self.draw.below(8) {
                    0 => self.spoil_entries(&state, &mut entries),
                    1 => number = self.wild(&[number]),
                    _ => (),
                }
                let call = match self.draw.below(6) {
                    0 if round % 2 == 1 => Call::TakeBack { state },
                    _ => Call::Month {
                        state,
                        number,
                        entries,
                    },
                };
                let Some(next) = self.call(&call) else { return };
                // The number isn't among the results here: an accepted month adds 1, and one that
                // is taken back leaves the accepted calls.
                if next[MONTHS] < state[MONTHS] {
                    let latest = answered.iter().rposition(|call: &Answered| call.accepted);
                    answered.remove(latest.expect("a month that remains"));
                } else if matches!(call, Call::Month { .. }) {
                    answered.push(Answered {
                        entries: entries_of(&entries),
                        accepted: next[MONTHS] != state[MONTHS],
                    });
                }
                state = next;
            }
            let (soil, last) = (soil_of(&soil), state_of(&state));
            let closes = carbon_closes(&soil, &answered, &last);
            self.outcome(closes, || {
                format!("demand 3 (a): {soil:?} {answered:?} {last:?}")
            });
            let turns: [u64; 3] = [0, 8, self.draw.next()];
            for turn in turns {
                let mut faults = Vec::new();
                let mut asked = Asked {
                    program: &mut *self.program,
                    known: &mut self.known,
                    ages: &mut self.ages,
                    faults: &mut faults,
                };
                let mut mix = Draw::new(turn ^ round);
                // In sevenths of a billionth, all at one end or at random.
                let mut q = |_: u64, _: usize, s: u64| {
                    let shift = match turn {
                        0 => -28,
                        8 => 28,
                        _ => mix.between(-28, 28) as i128,
                    };
                    let top = (s as i128 * 7 + shift).clamp(0, 7 * BILLION as i128);
                    Fraction::of(top, 7 * BILLION as u128)
                };
                let decision = distance_exact(&soil, &answered, &last, &mut asked, &mut q);
                let same = decision == Decision::Holds && faults.is_empty();
                self.outcome(same, || {
                    format!("demand 3 (b), turn {turn}: {soil:?} {answered:?} {last:?} {faults:?}")
                });
            }
        }
        self.say("demand 3 on short chains, in fractions".into());
    }

    /// The next entries of a long chain.
    fn hostile_entries(&mut self, state: &StateNumbers, plan: Plan) -> EntryNumbers {
        const MOST: u64 = 100_000_000;
        let room = 1_000_000_000u64.saturating_sub(active(state));
        let mut entries = self.entries(state);
        let full = |entries: &mut EntryNumbers, first: usize, second: usize| {
            entries[first] = room.min(MOST) as i64;
            entries[second] = (room - entries[first] as u64).min(MOST) as i64;
        };
        match plan {
            Plan::Frost => {
                entries[TEMPERATURE] = self.draw.between(-400, -51);
                // 22 g of kind 1 and 99 g of manure round off most: 36 x 22 is 60 over a multiple
                // of 61, 49 x 99 is 51 and 2 x 99 is 98 over a multiple of 100.
                (entries[PLANT], entries[MANURE]) = (22, 99);
            }
            Plan::Thaw => {
                entries[TEMPERATURE] = self.draw.between(-50, -45);
                (entries[RAIN], entries[EVAPORATION], entries[COVER]) = (0, 20_000, 1);
                full(&mut entries, PLANT, MANURE);
            }
            Plan::Mixed => match state[MONTHS] / 500 % 6 {
                // Full to the ceiling, in great heat.
                0 => {
                    entries[TEMPERATURE] = self.draw.between(300, 500);
                    (entries[RAIN], entries[COVER]) = (20_000, 0);
                    full(&mut entries, PLANT, MANURE);
                }
                // Full, cool.
                1 => {
                    entries[TEMPERATURE] = self.draw.between(-50, 60);
                    full(&mut entries, PLANT, MANURE);
                }
                // Full, by manure first.
                2 => full(&mut entries, MANURE, PLANT),
                // A farm.
                3 => {
                    entries[TEMPERATURE] = self.draw.between(-20, 220);
                    entries[PLANT] = room.min(self.draw.below(1_200_000)) as i64;
                    entries[MANURE] = 0;
                }
                // Frost.
                4 => {
                    entries[TEMPERATURE] = self.draw.between(-400, -51);
                    full(&mut entries, PLANT, MANURE);
                }
                _ => (),
            },
        }
        entries
    }

    /// The next call of a long chain, now and then one that is refused.
    fn hostile_call(&mut self, state: &StateNumbers, plan: Plan) -> Call {
        let mut entries = self.hostile_entries(state, plan);
        let mut number = state[MONTHS].wrapping_add(1);
        match self.draw.below(40) {
            // In frost nothing makes room again: what is spoilt must be refused.
            0 if matches!(plan, Plan::Frost) => entries[MANURE] = 1_000_000_000,
            0 => self.spoil_entries(state, &mut entries),
            1 => number = self.wild(&[number]),
            _ => (),
        }
        Call::Month {
            state: *state,
            number,
            entries,
        }
    }

    /// The soil of a long chain.
    fn full_soil(&mut self, plan: Plan) -> SoilNumbers {
        let mut soil = self.soil();
        let pools = match plan {
            Plan::Frost => [0, 985_000_000, 0, 0],
            Plan::Thaw => [0, 300_000_000, 0, 700_000_000],
            Plan::Mixed => self.parts(1_000_000_000),
        };
        soil[POOLS..INERT].copy_from_slice(&pools);
        if matches!(plan, Plan::Frost) {
            soil[KIND] = 1;
        }
        soil
    }

    /// Demand 3 on one list of so many acts, months taken back in it, a few at once or more than
    /// are kept: it balances, stays near the recurrence and ends in the same state as the accepted
    /// months that remain, run alone.
    fn taken_chain(&mut self, acts: u64, plan: Plan) {
        let soil = self.full_soil(plan);
        let Some(mut state) = self.new_state(soil) else {
            return;
        };
        let mut remain: Vec<EntryNumbers> = Vec::new();
        let [mut taken, mut none_kept, mut backs] = [0u64; 3];
        for act in 1..=acts {
            if backs == 0 {
                backs = match self.draw.below(300) {
                    0..=19 => 1 + self.draw.below(4),
                    20 => 20 + self.draw.below(10),
                    _ => 0,
                };
            }
            let call = match backs {
                0 => self.hostile_call(&state, plan),
                _ => Call::TakeBack { state },
            };
            backs = backs.saturating_sub(1);
            let Some(next) = self.call(&call) else {
                return;
            };
            match call {
                Call::Month { entries, .. } if next[MONTHS] != state[MONTHS] => {
                    remain.push(entries)
                }
                Call::TakeBack { .. } if next[KEPT] == state[KEPT] => none_kept += 1,
                Call::TakeBack { .. } => {
                    remain.pop();
                    taken += 1;
                }
                _ => (),
            }
            state = next;
            if act % 1_000 == 0 || act == acts || act < 60 {
                self.remaining(soil, &remain, &state);
            }
        }
        self.say(format!(
            "chain with takings-back ({plan:?}): {acts} acts, {taken} months taken back, \
             {none_kept} times none kept, {} months remain",
            remain.len()
        ));
    }

    /// Demand 3 on the months that remain, and they run alone by the program.
    fn remaining(&mut self, soil: SoilNumbers, remain: &[EntryNumbers], state: &StateNumbers) {
        let months = remain.len();
        let calls: Vec<Answered> = remain
            .iter()
            .map(|entries| Answered {
                entries: entries_of(entries),
                accepted: true,
            })
            .collect();
        let mut faults = Vec::new();
        let mut asked = Asked {
            program: &mut *self.program,
            known: &mut self.known,
            ages: &mut self.ages,
            faults: &mut faults,
        };
        let demand = demand_three(&soil_of(&soil), &calls, &state_of(state), &mut asked);
        let holds = DemandThree {
            carbon_closes: true,
            distance: Decision::Holds,
        };
        self.outcome(demand == holds && faults.is_empty(), || {
            format!("{demand:?}, {months} months remain: {soil:?}, {state:?} {faults:?}")
        });
        let mut alone = [0; STATE_NUMBERS];
        let mut answers = vec![self.program.start(&soil, &mut alone)];
        for (number, entries) in (1..).zip(remain) {
            let mut row = [0; OUTPUT_NUMBERS];
            answers.push(self.program.month(&mut alone, number, entries, &mut row));
        }
        let accepted = answers.iter().all(|number| *number == 0);
        let same = accepted && alone[..OWN_NUMBERS] == state[..OWN_NUMBERS];
        self.outcome(same, || {
            format!("{months} months that remain, alone: {alone:?}\nwith others: {state:?}")
        });
    }

    /// Demand 3 on one list with so many accepted calls and refused ones among them: (a), and (b)
    /// in rigorous intervals at hostile q: each pool 4 billionths up or down in all 16 ways, in the
    /// direction that drives each pool further from the program's, at random, and all q at once.
    fn long_chain(&mut self, length: u64, plan: Plan) {
        let soil = self.full_soil(plan);
        let Some(mut state) = self.new_state(soil) else {
            return;
        };
        let soil = soil_of(&soil);
        // 0 to 15: by pattern; 16: apart; 17: random ends; 18: random; 19: S itself; 20: every q.
        const RUNS: usize = 21;
        const BELOW: u64 = 7 * BILLION;
        let mut runs: Vec<Enclosure> = (0..RUNS).map(|_| Enclosure::new(&soil)).collect();
        let mut answered = Vec::new();
        let mut accepted = 0;
        let mut by_office = 0;
        let mut refused_in_turn = 0;
        // The largest distance a call, in thousandths of a gram, at one q and at every q.
        let mut largest = [0u128; 2];
        while accepted < length && refused_in_turn < 1_000 {
            let call = self.hostile_call(&state, plan);
            let Some(next) = self.call(&call) else {
                return;
            };
            let Call::Month { entries, .. } = call else {
                unreachable!()
            };
            let entries = entries_of(&entries);
            let took = next[MONTHS] != state[MONTHS];
            answered.push(Answered {
                entries,
                accepted: took,
            });
            state = next;
            if !took {
                refused_in_turn += 1;
                continue;
            }
            refused_in_turn = 0;
            accepted += 1;
            by_office += u64::from(entries.source == EVAPOTRANSPIRATION);
            // N is the recurrence's own.
            let n = runs[0].n(&entries);
            let mut faults = Vec::new();
            let mut asked = Asked {
                program: &mut *self.program,
                known: &mut self.known,
                ages: &mut self.ages,
                faults: &mut faults,
            };
            let s: [u64; 4] = RATES.map(|k| asked.survival(n, k));
            let (low, high) = (s.map(|s| 7 * q_lowest(s)), s.map(|s| 7 * q_highest(s)));
            for (index, run) in runs.iter_mut().enumerate() {
                let q: [(u64, u64); 4] = std::array::from_fn(|pool| {
                    let ends = [low[pool], high[pool]];
                    let one = match index {
                        0..=15 => ends[index >> pool & 1],
                        16 => {
                            let program = (state[POOLS + pool] as u128) << 64;
                            ends[usize::from(run.pools[pool].low >= program)]
                        }
                        17 => ends[self.draw.below(2) as usize],
                        18 => ends[0] + self.draw.below(ends[1] - ends[0] + 1),
                        19 => 7 * s[pool],
                        _ => return (ends[0], ends[1]),
                    };
                    (one, one)
                });
                run.accept(&entries, &q, BELOW);
            }
            if !faults.is_empty() {
                self.outcome(false, || format!("S: {faults:?}"));
            }
            // Each start of the list is such a list too.
            if accepted % 500 == 0 || accepted == length || accepted < 50 {
                let grams = std::array::from_fn(|pool| state[POOLS + pool]);
                for (index, run) in runs.iter().enumerate() {
                    let holds = run.decide(&grams) == Decision::Holds;
                    self.outcome(holds, || {
                        format!(
                            "demand 3 (b), {plan:?}, q {index}, after {accepted} accepted: \
                             {soil:?}, {state:?}"
                        )
                    });
                    let most = run.distance(&grams).1.to_u128().unwrap_or(u128::MAX);
                    let a_call = (most >> 32) * 1_000 / accepted as u128 >> 32;
                    let largest = &mut largest[index / 20];
                    *largest = a_call.max(*largest);
                }
                let last = state_of(&state);
                let closes = carbon_closes(&soil, &answered, &last);
                self.outcome(closes, || {
                    format!(
                        "demand 3 (a), {plan:?}, after {accepted} accepted: {soil:?}, {state:?}"
                    )
                });
            }
            if accepted % 40_000 == 0 || accepted == length {
                self.say(format!(
                    "long chain ({plan:?}): {accepted} accepted of {} calls, {by_office} of them \
                     by evapotranspiration, distance up to {} thousandths of a gram a call, all q \
                     at once {} (20000 allowed)",
                    answered.len(),
                    largest[0],
                    largest[1]
                ));
            }
        }
        self.outcome(accepted == length, || {
            format!("the long chain stopped after {accepted} accepted: {state:?}")
        });
    }
}

/// A text with one line's words changed.
fn change_line(
    text: &mut Vec<u8>,
    line: usize,
    between: &str,
    change: impl FnOnce(&mut Vec<String>),
) {
    let mut lines = lines_of(text);
    let own = String::from_utf8_lossy(&lines[line]).into_owned();
    let words = own.trim_end_matches('\n').split(between);
    let mut words: Vec<String> = words.map(str::to_string).collect();
    change(&mut words);
    lines[line] = (words.join(between) + "\n").into_bytes();
    *text = lines.concat();
}

/// A text's lines, each with the byte 10 that ends it.
fn lines_of(text: &[u8]) -> Vec<Vec<u8>> {
    text.split_inclusive(|byte| *byte == 10)
        .map(<[u8]>::to_vec)
        .collect()
}

fn push_row<T: ToString>(text: &mut String, row: &[T]) {
    let words: Vec<String> = row.iter().map(T::to_string).collect();
    text.push_str(&words.join(" "));
    text.push('\n');
}

/// An answer with 0 for all modern grams of its state, current and kept.
fn without_modern(call: &Call, answer: &[u64]) -> Vec<u64> {
    let at = call.state_at().expect("an answer with a state");
    let mut answer = answer.to_vec();
    let state = &mut answer[at..at + STATE_NUMBERS];
    state[MODERN..KEPT].fill(0);
    for place in state[PLACES..].chunks_mut(OWN_NUMBERS) {
        place[MODERN..].fill(0);
    }
    answer
}

/// The most modern grams of a state with so many months, at most 120,000, that 10 doesn't take.
fn most_modern(months: u64) -> u64 {
    1_000_000_000 + 400_000_000 * months.min(MONTH_LIMIT)
}

fn deficit_limit(state: &[u64]) -> u64 {
    soil_of(state).deficit_limit() as u64
}

fn active(state: &StateNumbers) -> u64 {
    state[POOLS..INERT]
        .iter()
        .fold(0u64, |sum, grams| sum.saturating_add(*grams))
}

#[cfg(test)]
mod tests {
    use super::*;
    use crate::call_lines::Line;
    use crate::calls::numbers_of;
    use crate::exponential::{age_floor, survival_floor};
    use crate::model::{run_years, year_settles, Settles, Spun};

    /// The reference itself with S rounded down, and on request with a slip.
    struct Own {
        slip: &'static str,
    }

    impl Own {
        fn answer(&self, call: &Call) -> Vec<u64> {
            let far = self.slip == "S two off";
            call.answer(GUARD, &mut OwnSurvival { far }, &mut |_, _| ())
        }
    }

    /// Rounded down, of months and of ages.
    struct OwnSurvival {
        far: bool,
    }

    impl Survival for OwnSurvival {
        fn survival(&mut self, n: u64, k: u64) -> u64 {
            own_survival(n, k, self.far)
        }

        fn age(&mut self, years: u64) -> u64 {
            age_floor(years)
        }
    }

    fn own_survival(n: u64, k: u64, far: bool) -> u64 {
        let floor = survival_floor(n, k);
        if far && n % 1_000 == 0 {
            floor.saturating_sub(2)
        } else {
            floor
        }
    }

    /// Writes what the answer has written.
    fn write(to: &mut [u64], from: &[u64]) {
        for (to, from) in to.iter_mut().zip(from) {
            if *from != GUARD {
                *to = *from;
            }
        }
    }

    /// A rule that is wrong in one thing.
    fn slipped_rule(slip: &str) -> Option<Settles> {
        let rule: Settles = match slip {
            "the total alone" => total_settles,
            "the pools alone" => pools_settle,
            "DPM isn't asked" => |start, end| asking([1, 2, 3], start, end),
            "RPM isn't asked" => |start, end| asking([0, 2, 3], start, end),
            "BIO isn't asked" => |start, end| asking([0, 1, 3], start, end),
            "HUM isn't asked" => |start, end| asking([0, 1, 2], start, end),
            "1,000 g don't settle" => |start, end| {
                let apart = |pool: usize| start.pools[pool].abs_diff(end.pools[pool]);
                year_settles(start, end) && (0..4).all(|pool| apart(pool) < 1_000)
            },
            "1,001 g settle" => |start, end| {
                let apart = |pool: usize| start.pools[pool].abs_diff(end.pools[pool]);
                total_settles(start, end) && (0..4).all(|pool| apart(pool) <= 1_001)
            },
            "1,001 g of the total settle" => |start, end| {
                start.total().abs_diff(end.total()) <= 1_001 && pools_settle(start, end)
            },
            "falls aren't asked" => |start, end| {
                total_settles(start, end)
                    && (0..4).all(|pool| end.pools[pool] <= start.pools[pool] + 1_000)
            },
            "rises aren't asked" => |start, end| {
                total_settles(start, end)
                    && (0..4).all(|pool| start.pools[pool] <= end.pools[pool] + 1_000)
            },
            "residue is one pool" => |start, end| {
                let residue = |soil: &Soil| soil.pools[0] + soil.pools[1];
                asking([2, 3, 3], start, end) && residue(start).abs_diff(residue(end)) <= 1_000
            },
            _ => return None,
        };
        Some(rule)
    }

    fn asking(asked: [usize; 3], start: &Soil, end: &Soil) -> bool {
        let apart = |pool: usize| start.pools[pool].abs_diff(end.pools[pool]);
        total_settles(start, end) && asked.into_iter().all(|pool| apart(pool) <= 1_000)
    }

    /// The answer by another rule to a spin-up that has this one.
    fn spun_by(settles: Settles, call: &Call, answer: Vec<u64>) -> Vec<u64> {
        let Call::SpinUp {
            weather,
            land,
            years,
            state,
        } = call
        else {
            panic!("a spin-up")
        };
        // Refused outside the months.
        if answer[0] != 0 && answer[2] == 0 {
            return answer;
        }
        let (next, spun) = run_years(
            settles,
            &state_of(state),
            weather,
            land,
            *years,
            &mut OwnSurvival { far: false },
            &mut |_, _| (),
        );
        let mut state = *state;
        let head = match spun {
            Err(refusal) => [refusal.cause.number() as u64, 0, refusal.place],
            Ok(Spun::Settled(years)) => [0, 1, years],
            Ok(Spun::Unsettled(years)) => [0, 0, years],
        };
        if head[0] == 0 {
            state[..OWN_NUMBERS].copy_from_slice(&numbers_of(&next));
            state[KEPT] = 0;
        }
        [&head[..], &state].concat()
    }

    impl Program for Own {
        fn start(&mut self, soil: &[u64], state: &mut [u64]) -> u64 {
            let (Ok(soil), STATE_NUMBERS) = (soil.try_into(), state.len()) else {
                return WRONG_SHAPE;
            };
            let answer = self.answer(&Call::New { soil });
            write(state, &answer[1..]);
            answer[0]
        }

        fn month(
            &mut self,
            state: &mut [u64],
            number: u64,
            entries: &[i64],
            row: &mut [u64],
        ) -> u64 {
            if self.slip == "length" && row.len() == 8 {
                row[7] = 1;
            }
            let (Ok(lent), Ok(entries), 7) = (
                <StateNumbers>::try_from(&*state),
                <EntryNumbers>::try_from(entries),
                row.len(),
            ) else {
                return WRONG_SHAPE;
            };
            let answer = self.answer(&Call::Month {
                state: lent,
                number,
                entries,
            });
            write(row, &answer[1..8]);
            write(state, &answer[8..]);
            if self.slip == "source" && entries[SOURCE] == 1 && answer[0] == 0 {
                state[DEFICIT] = state[DEFICIT].saturating_sub(1);
            }
            if self.slip == "a gram" && answer[0] == 0 && lent[CLAY] == 77 {
                state[CO2] += 1;
            }
            if answer[0] == 0 {
                match self.slip {
                    "a modern gram" if lent[MODERN + 3] % 7 == 3 => state[MODERN + 3] += 1,
                    "modern in carbon" if entries[ACTIVITY] > 1_990 => state[CO2] += 1,
                    "kept modern" => {
                        let place = memory::place(lent[MONTHS]);
                        state[place][MODERN..].copy_from_slice(&lent[MODERN - 1..KEPT - 1]);
                    }
                    _ => (),
                }
            }
            let room = 1_000_000_000u64.saturating_sub(active(&lent)) as i64;
            let wrapped = lent[MODERN..KEPT]
                .iter()
                .fold(0u64, |sum, grams| sum.wrapping_add(*grams));
            match (self.slip, answer[0]) {
                ("21 after 17", 21) if entries[PLANT] + entries[MANURE] > room => return 17,
                ("10 wraps", 10) if wrapped < 1_000_000_000 && lent[MONTHS] <= 120_000 => {
                    return 11
                }
                ("activity 2001", 21) if entries[ACTIVITY] == 2_001 => return 0,
                _ => (),
            }
            if self.slip == "refused row" && answer[0] == 17 {
                row[0] = lent[POOLS];
            }
            if self.slip == "refused month kept" && answer[0] == 13 {
                state[memory::place(lent[MONTHS])].copy_from_slice(&lent[..OWN_NUMBERS]);
            }
            if self.slip == "25 kept" && answer[0] == 0 && lent[KEPT] == 24 {
                state[KEPT] = 25;
            }
            if self.slip == "order" && answer[0] == 11 && lent[MONTHS] == 120_000 {
                return 12;
            }
            answer[0]
        }

        fn list(
            &mut self,
            state: &mut [u64],
            weather: &[i64],
            land: &[i64],
            rows: &mut [u64],
            place: &mut u64,
        ) -> u64 {
            let Ok(lent) = <StateNumbers>::try_from(&*state) else {
                return WRONG_SHAPE;
            };
            let answer = self.answer(&Call::List {
                weather: weather.to_vec(),
                land: land.to_vec(),
                output: rows.len(),
                state: lent,
            });
            *place = answer[1];
            write(state, &answer[2..2 + STATE_NUMBERS]);
            write(rows, &answer[2 + STATE_NUMBERS..]);
            if self.slip == "modern in rows" && answer[0] == 0 && lent[MODERN] > lent[POOLS] {
                rows[0] += 1;
            }
            if self.slip == "list's count" && answer[0] == 17 && *place > 1 {
                state[KEPT] -= 1;
            }
            if self.slip == "rest" && answer[0] == 0 && rows.len() > land.len() / LAND_NUMBERS * 7 {
                *rows.last_mut().unwrap() ^= 1;
            }
            answer[0]
        }

        fn spin_up(
            &mut self,
            state: &mut [u64],
            weather: &[i64],
            land: &[i64],
            years: u64,
            result: &mut [u64],
        ) -> u64 {
            let (Ok(lent), 2) = (<StateNumbers>::try_from(&*state), result.len()) else {
                return WRONG_SHAPE;
            };
            let call = Call::SpinUp {
                weather: weather.to_vec(),
                land: land.to_vec(),
                years,
                state: lent,
            };
            let answer = match slipped_rule(self.slip) {
                Some(settles) => spun_by(settles, &call, self.answer(&call)),
                None => self.answer(&call),
            };
            result.copy_from_slice(&answer[1..3]);
            write(state, &answer[3..]);
            if self.slip == "spin-up's count" && answer[..2] == [0, 0] {
                state[KEPT] = lent[KEPT];
            }
            answer[0]
        }

        fn take_back(&mut self, state: &mut [u64]) -> u64 {
            let Ok(lent) = <StateNumbers>::try_from(&*state) else {
                return WRONG_SHAPE;
            };
            match self.slip {
                "taking back asks the soil" if lent[KEPT] > 0 && lent[CLAY] > 1_000 => return 4,
                "20 after 10" if lent[KEPT] == 0 && lent[MONTHS] > 120_000 => return 10,
                _ => (),
            }
            let answer = self.answer(&Call::TakeBack { state: lent });
            write(state, &answer[1..]);
            if self.slip == "months that wrap" && answer[0] == 0 && lent[MONTHS] > u64::MAX - 23 {
                let wrapped = memory::place(lent[MONTHS].wrapping_add(23));
                state[..OWN_NUMBERS].copy_from_slice(&lent[wrapped]);
            }
            if self.slip == "place cleared" && answer[0] == 0 {
                state[memory::place(lent[MONTHS] % 24 + 23)].fill(0);
            }
            answer[0]
        }

        fn radiocarbon(&mut self, state: &[u64], pool: u64, report: &mut [i64]) -> u64 {
            let (Ok(state), 3) = (<StateNumbers>::try_from(state), report.len()) else {
                return WRONG_SHAPE;
            };
            let pool = match (self.slip, pool) {
                ("pool 6", 6) => ALL,
                _ => pool,
            };
            let answer = self.answer(&Call::Report { state, pool });
            if self.slip == "22 before 10" && answer[0] == 10 && pool < 4 {
                if state[POOLS + pool as usize] == 0 {
                    return 22;
                }
            }
            if answer[0] != 0 {
                return answer[0];
            }
            for (to, from) in report.iter_mut().zip(&answer[1..]) {
                *to = *from as i64;
            }
            match self.slip {
                "delta towards 0" if report[0] < 0 && pool < 4 => report[0] += 1,
                "age a year late" if report[1] == 0 && report[2] % 977 == 5 => report[2] += 1,
                "60,000 is older" if report[1..] == [0, 60_000] => report[1..].fill(1),
                "age where newer" if report[1] == 2 => report[2] = 1,
                "equal is newer" if report[..2] == [0, 0] => report[1] = 2,
                "IOM rounded up" if pool == 4 && state[INERT] % 500 > 0 => report[0] += 1,
                _ => (),
            }
            0
        }

        fn age_survival(&mut self, years: u64) -> u64 {
            match (self.slip, years) {
                (_, OLDEST..) if years > OLDEST => NO_SURVIVAL,
                ("an age's S two off", 31_415) => age_floor(years) - 2,
                ("an age's S rises", 59_990) => age_floor(years) + 80,
                _ => age_floor(years),
            }
        }

        fn book(&mut self, book: &[u8], out: &mut [u8], length: &mut u64) -> u64 {
            let far = self.slip == "S two off";
            let answer = book::read(book, &mut |n, k| own_survival(n, k, far));
            let text = book::write(&answer);
            *length = text.len() as u64;
            if text.len() > out.len() {
                return 8;
            }
            out[..text.len()].copy_from_slice(&text);
            let number = match answer {
                Answer::Ran { .. } => 0,
                Answer::Refused(refusal) => refusal.cause.number() as u64,
            };
            if self.slip == "line" && number == 17 {
                out[text.len() - 2] ^= 1;
            }
            number
        }

        fn table(
            &mut self,
            table: &[u8],
            weather: &mut [i64],
            rows: &mut u64,
            place: &mut u64,
        ) -> u64 {
            let answer = table::read(table, weather);
            let refusal = answer.err();
            *rows = answer.unwrap_or(0);
            *place = refusal.map_or(0, |refusal| refusal.place);
            if self.slip == "table's row" && *place > 1 {
                weather[0] = 0;
            }
            if self.slip == "table's end" && *place == table::lines(table).len() as u64 {
                *place += 1;
            }
            refusal.map_or(0, |refusal| refusal.cause.number() as u64)
        }

        fn survival(&mut self, n: u64, pool: u64) -> u64 {
            if pool > 3 || n > LARGEST_N {
                return NO_SURVIVAL;
            }
            own_survival(n, RATES[pool as usize], self.slip == "S two off")
        }

        fn survival_terms(&mut self, n: u64, pool: u64, count: &mut u64) -> u64 {
            let number = self.survival(n, pool);
            let Some(k) = rate(n, pool) else {
                if self.slip == "terms of no number" {
                    *count = 0;
                }
                return number;
            };
            *count = match self.slip {
                "a term too many" => terms(n, k) + u64::from(terms(n, k) == 6),
                "terms of the n before" => terms(n.saturating_sub(1), k),
                "terms of another pool" => terms(n, RATES[(pool as usize + 1) % 4]),
                _ => terms(n, k),
            };
            if self.slip == "another S with terms" && n > 0 {
                // Close enough, but not the number without terms.
                return number + 1;
            }
            number
        }
    }

    fn compare(slip: &'static str) -> (u64, u64, HashMap<(&'static str, u64), u64>) {
        let mut own = Own { slip };
        let mut quiet = |_: &str| ();
        let mut differ = Differ::new(&mut own, 5, &mut quiet);
        differ.run(&Counts {
            months: 9_000,
            lists: 200,
            spin_ups: 400,
            books: 1_000,
            tables: 2_000,
            pairs: 300,
            histories: 3_000,
            takings_back: 2_000,
            terms: 2_000,
            reports: 3_000,
            beside: 1_500,
            chain: 1_500,
            taken_chain: 1_000,
        });
        if slip.is_empty() {
            assert!(differ.first.is_empty(), "{}", differ.first[0]);
        }
        (differ.compared, differ.differ, differ.seen)
    }

    #[test]
    fn nothing_differs_and_everything_is_reached() {
        let (compared, differ, seen) = compare("");
        assert_eq!(differ, 0);
        assert!(compared > 15_000);
        let months = [0, 4, 5, 6, 7, 10, 11, 12, 13, 14, 19, 15, 16, 21, 17];
        let lists = [0, 3, 4, 5, 6, 7, 8, 10, 12, 13, 14, 19, 15, 16, 21, 17];
        let spin_ups = [0, 3, 4, 5, 6, 7, 9, 10, 12, 13, 14, 19, 15, 16, 21, 17];
        let books = [0, 1, 2, 3, 4, 5, 6, 7, 8, 13, 14, 15, 16, 17];
        let wanted: [(&str, &[u64]); 9] = [
            ("report", &[0, 4, 5, 6, 7, 10, 22, 100]),
            ("new state", &[0, 4, 5, 6, 7]),
            ("month", &months),
            ("list", &lists),
            ("spin-up", &spin_ups),
            ("taking-back", &[0, 10, 20]),
            ("table", &[0, 3, 8, 13, 14, 18]),
            ("book", &books),
            // 0 where there is no number.
            ("terms", &[0, 1, 2, 3, 4, 5, 6]),
        ];
        for (name, numbers) in wanted {
            for number in numbers {
                assert!(seen.contains_key(&(name, *number)), "{name} {number}");
            }
        }
    }

    /// Slips in when a year settles are found by the drawn spin-ups alone, and by the test lines
    /// alone.
    #[test]
    fn slips_of_the_rule_differ() {
        let groups = crate::call_lines::groups();
        let lines = groups.iter().flat_map(|group| &group.lines);
        let spin_ups = |line: &&Line| matches!(line.call, Call::SpinUp { .. });
        let lines: Vec<&Line> = lines.filter(spin_ups).collect();
        for slip in [
            "",
            "the total alone",
            "the pools alone",
            "DPM isn't asked",
            "RPM isn't asked",
            "BIO isn't asked",
            "HUM isn't asked",
            "1,000 g don't settle",
            "1,001 g settle",
            "1,001 g of the total settle",
            "falls aren't asked",
            "rises aren't asked",
            "residue is one pool",
        ] {
            let mut own = Own { slip };
            let mut quiet = |_: &str| ();
            let mut differ = Differ::new(&mut own, 5, &mut quiet);
            differ.spin_ups(if slip.is_empty() { 3_000 } else { 1_200 });
            assert_eq!(
                differ.differ > 0,
                !slip.is_empty(),
                "{slip}: {:?}",
                differ.first
            );
            if slip.is_empty() {
                reaches_all(&differ);
            }
            let found = |line: &&&Line| {
                let given = program_answer(&mut Own { slip }, &line.call, crate::calls::FILL);
                given.as_ref() != Ok(&line.answer)
            };
            let found = lines.iter().filter(found).count();
            assert_eq!(found > 0, !slip.is_empty(), "{slip} in the test lines");
        }
    }

    /// The draws reach each thing that is counted, and every number that refuses a spin-up.
    fn reaches_all(differ: &Differ) {
        let Rules {
            years,
            pools_alone,
            total_alone,
            beside,
            earlier,
            instead,
            first,
            later,
            refused_later,
        } = differ.rules;
        let by_rule = [pools_alone, total_alone, beside, earlier, instead];
        let by_end = [first, later, refused_later];
        let mut times = by_rule.iter().chain(&by_end);
        assert!(
            years > 10_000 && times.all(|times| *times >= 20),
            "{:?}",
            differ.rules
        );
        for number in [0, 3, 4, 5, 6, 7, 9, 10, 12, 13, 14, 15, 16, 17, 19, 21] {
            assert!(differ.seen.contains_key(&("spin-up", number)), "{number}");
        }
    }

    /// Slips in keeping and taking back are found without the test lines.
    #[test]
    fn slips_of_kept_months_differ() {
        for slip in [
            "list's count",
            "spin-up's count",
            "taking back asks the soil",
            "20 after 10",
            "months that wrap",
            "place cleared",
            "refused month kept",
            "25 kept",
        ] {
            let mut own = Own { slip };
            let mut quiet = |_: &str| ();
            let mut differ = Differ::new(&mut own, 5, &mut quiet);
            differ.takings_back(3_000);
            differ.histories(6_000);
            assert!(differ.differ > 0, "{slip}");
        }
    }

    /// Slips in modern grams and reports are found without the test lines.
    #[test]
    fn slips_of_radiocarbon_differ() {
        for slip in [
            "",
            "a modern gram",
            "modern in carbon",
            "modern in rows",
            "kept modern",
            "21 after 17",
            "10 wraps",
            "activity 2001",
            "pool 6",
            "22 before 10",
            "delta towards 0",
            "age a year late",
            "60,000 is older",
            "age where newer",
            "equal is newer",
            "IOM rounded up",
            "an age's S two off",
            "an age's S rises",
        ] {
            let mut own = Own { slip };
            let mut quiet = |_: &str| ();
            let mut differ = Differ::new(&mut own, 5, &mut quiet);
            differ.reports(3_000);
            differ.beside(3_000);
            assert_eq!(
                differ.differ > 0,
                !slip.is_empty(),
                "{slip}: {:?}",
                differ.first
            );
        }
    }

    /// The comparison without activities finds carbon that moves with them by itself.
    #[test]
    fn carbon_beside_differs() {
        for slip in ["modern in carbon", "modern in rows"] {
            let mut own = Own { slip };
            let mut quiet = |_: &str| ();
            let mut differ = Differ::new(&mut own, 5, &mut quiet);
            differ.beside(3_000);
            let beside = differ.first.iter().any(|text| text.starts_with("without"));
            assert!(differ.differ > 0 && beside, "{slip}");
        }
    }

    /// Slips in the terms are found by their section alone, and by the test lines alone.
    #[test]
    fn slips_of_terms_differ() {
        for slip in [
            "a term too many",
            "terms of the n before",
            "terms of another pool",
            "another S with terms",
            "terms of no number",
        ] {
            let mut quiet = |_: &str| ();
            let mut own = Own { slip };
            let mut differ = Differ::new(&mut own, 5, &mut quiet);
            differ.survival_terms(3_000);
            assert!(differ.compared > 7_000 && differ.differ > 0, "{slip}");
            let mut quiet = |_: &str| ();
            let mut own = Own { slip };
            let mut differ = Differ::new(&mut own, 5, &mut quiet);
            differ.test_lines();
            assert!(differ.differ > 0, "{slip} in the test lines");
        }
    }

    #[test]
    fn slips_differ() {
        for slip in [
            "S two off",
            "a gram",
            "refused row",
            "order",
            "rest",
            "line",
            "length",
            "source",
            "table's row",
            "table's end",
        ] {
            let (_, differ, _) = compare(slip);
            assert!(differ > 0, "{slip}");
        }
    }
}
