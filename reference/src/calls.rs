//! Calls over plain numbers: the layouts, a call's line, and the numbers that answer it.
//!
//! A line is a letter and numbers; its answer is a line of numbers.
//!
//! - `N` soil(8), a soil's new state: number, the 16 of the lent state.
//! - `M` state(16) number entries(8), a single month call: number, the 7 of the lent row, the 16 of
//!   the state.
//! - `L` w weather(w) l land(l) o state(16), a list with an output of o numbers: number, place, the
//!   16 of the state, the o of the output.
//! - `S` w weather(w) l land(l) years state(16), a spin-up: number, settled, years run or place,
//!   the 16 of the state.
//! - `B` state(16) base(15), a taking-back: number, the 16 of the state.
//! - `H` soil(8) n acts(n), a history, which is a new state and then acts on it: the new state's
//!   number, each act's, all 376 of the state.
//! - `R` state(16) pool, a radiocarbon report: number, the 3 of the lent report.
//! - `T` room length, a table with an output of room numbers: number, rows, place, the room of the
//!   output.
//! - `D` n pool s, a survival number: 1 where it is at most 1 from s, else 0.
//! - `K` n pool s, a survival number with its terms: 1 or 0 as for `D`, 1 where the call without
//!   terms returns the same, else 0, the lent terms.
//! - `A` y s, the survival number of an age of y years: 1 where it is at most 1 from s, else 0.
//!
//! soil: clay, depth, kind, DPM, RPM, BIO, HUM, IOM. state: these 8, deficit, months done, CO2 to
//! date, the modern grams of DPM, RPM, BIO, HUM, kept count; a lent state has 24 places of 15
//! numbers more, for kept states. Before a call they hold 7 as all memory does that a call writes,
//! but for a taking-back: there place p (from 0) holds base + p, a sum that may wrap. entries: a
//! weather row and a land row. weather row: temperature, rain, evaporation, source (0 open pan, 1
//! evapotranspiration). land row: cover, plant, manure, activity. row: the five pools, the month's
//! CO2, deficit. report, of signed numbers: delta, 0 where there is an age, 1 for older, 2 for
//! newer, and the age, 0 where there is none. number: the refusal's, 0 where nothing is refused,
//! 100 where a report's pool is above 5. A table's bytes follow its line, exactly as many as its
//! length says, and one byte 10 follows them.
//!
//! n and pool of a `K` line are any numbers: where the pool is above 3 or n above 8,363,900,000
//! both calls return 2^64 - 1, which is then the line's s, and the terms stay 7. The call of an `A`
//! line returns it where y is above 60,000; the line's s is then 2^64 - 1, and no other will do.
//!
//! An act is ten numbers: 0 for a taking-back, with nine zeros; 1 for a month, 2 for a list, 3 for
//! a spin-up, with the month's number, the list's land rows or the years, and the entries. A list's
//! land rows are all alike and its weather row is one; a spin-up has twelve of each.

use crate::exponential::{age_range, survival_range, terms, OLDEST};
use crate::fixed::{month_fixed, report_fixed};
use crate::memory;
use crate::model::{
    Asked, Dated, Entries, Nearest, Refusal, Soil, Spun, State, Survival, Watch, KEPT_LIMIT,
    LAND_NUMBERS, OUTPUT_NUMBERS, RATES, WEATHER_NUMBERS,
};
use crate::table;

pub const SOIL_NUMBERS: usize = 8;
/// A state itself, current or kept.
pub const OWN_NUMBERS: usize = 15;
/// A lent state: itself, the kept count, the places.
pub const STATE_NUMBERS: usize = PLACES + KEPT_LIMIT * OWN_NUMBERS;
pub const ENTRY_NUMBERS: usize = WEATHER_NUMBERS + LAND_NUMBERS;
/// A radiocarbon report: delta, whether there is an age, the age.
pub const REPORT_NUMBERS: usize = 3;
/// Kind, number, entries.
pub const ACT_NUMBERS: usize = 2 + ENTRY_NUMBERS;
/// Most acts of a history's line.
pub const MOST_ACTS: usize = 80;

/// Numbers of a table's answer before its output: the refusal's number, rows, place.
const TABLE_HEAD: usize = 3;

/// What a call returns where lent memory of a fixed layout has another length, or where a report's
/// pool is above 5.
pub const WRONG_SHAPE: u64 = 100;

/// What lent memory holds before a call of the test lines.
pub const FILL: u64 = 7;

/// What the calls for a survival number return where they have none to give.
pub const NO_SURVIVAL: u64 = u64::MAX;
/// The largest N of step 4: A at 500, 10,000 and 10.
pub const LARGEST_N: u64 = 8_363_900_000;

pub type SoilNumbers = [u64; SOIL_NUMBERS];
pub type OwnNumbers = [u64; OWN_NUMBERS];
pub type StateNumbers = [u64; STATE_NUMBERS];
pub type EntryNumbers = [i64; ENTRY_NUMBERS];
pub type WeatherRow = [i64; WEATHER_NUMBERS];
pub type LandRow = [i64; LAND_NUMBERS];

/// Places in a state's numbers.
pub const CLAY: usize = 0;
pub const DEPTH: usize = 1;
pub const KIND: usize = 2;
/// DPM; RPM, BIO and HUM follow.
pub const POOLS: usize = 3;
pub const INERT: usize = 7;
pub const DEFICIT: usize = 8;
pub const MONTHS: usize = 9;
pub const CO2: usize = 10;
/// The modern grams of DPM; those of RPM, BIO and HUM follow.
pub const MODERN: usize = 11;
/// The kept count.
pub const KEPT: usize = 15;
/// The first number of the first place.
pub const PLACES: usize = 16;

/// Places in the entries; the first four also in a weather row.
pub const TEMPERATURE: usize = 0;
pub const RAIN: usize = 1;
pub const EVAPORATION: usize = 2;
pub const SOURCE: usize = 3;
pub const COVER: usize = 4;
pub const PLANT: usize = 5;
pub const MANURE: usize = 6;
pub const ACTIVITY: usize = 7;

/// What a report is asked of, by number: all five together.
pub const ALL: u64 = 5;

pub fn soil_of(numbers: &[u64]) -> Soil {
    Soil {
        clay: numbers[CLAY] as i128,
        depth: numbers[DEPTH] as i128,
        kind: numbers[KIND] as i128,
        pools: std::array::from_fn(|pool| numbers[POOLS + pool]),
        inert: numbers[INERT],
    }
}

/// The state in the first fifteen of these numbers.
pub fn state_of(numbers: &[u64]) -> State {
    State {
        soil: soil_of(numbers),
        deficit: numbers[DEFICIT] as i128,
        months: numbers[MONTHS],
        co2: numbers[CO2],
        modern: std::array::from_fn(|pool| numbers[MODERN + pool]),
    }
}

pub fn numbers_of(state: &State) -> OwnNumbers {
    let soil = &state.soil;
    let whole = |number: i128| u64::try_from(number).expect("a number that was lent");
    [
        whole(soil.clay),
        whole(soil.depth),
        whole(soil.kind),
        soil.pools[0],
        soil.pools[1],
        soil.pools[2],
        soil.pools[3],
        soil.inert,
        whole(state.deficit),
        state.months,
        state.co2,
        state.modern[0],
        state.modern[1],
        state.modern[2],
        state.modern[3],
    ]
}

/// What a report's pool number asks of, or nothing where it is above 5.
pub fn asked_of(pool: u64) -> Option<Asked> {
    match pool {
        0..=3 => Some(Asked::Active(pool as usize)),
        4 => Some(Asked::Inert),
        ALL => Some(Asked::All),
        _ => None,
    }
}

pub fn entries_of(numbers: &EntryNumbers) -> Entries {
    Entries {
        temperature: numbers[TEMPERATURE],
        rain: numbers[RAIN],
        evaporation: numbers[EVAPORATION],
        source: numbers[SOURCE],
        cover: numbers[COVER],
        plant: numbers[PLANT],
        manure: numbers[MANURE],
        activity: numbers[ACTIVITY],
    }
}

/// A lent state with these numbers and this kept count, the places filled.
pub const fn lent_state(own: OwnNumbers, kept: u64) -> StateNumbers {
    let mut numbers = [FILL; STATE_NUMBERS];
    let mut index = 0;
    while index < OWN_NUMBERS {
        numbers[index] = own[index];
        index += 1;
    }
    numbers[KEPT] = kept;
    numbers
}

/// One act of a history.
#[derive(Clone, Copy, Debug, PartialEq, Eq)]
pub enum Act {
    TakeBack,
    Month {
        number: u64,
        entries: EntryNumbers,
    },
    List {
        months: usize,
        entries: EntryNumbers,
    },
    SpinUp {
        years: u64,
        entries: EntryNumbers,
    },
}

impl Act {
    pub fn numbers(&self) -> [i128; ACT_NUMBERS] {
        let (kind, number, entries) = match *self {
            Act::TakeBack => (0, 0, [0; ENTRY_NUMBERS]),
            Act::Month { number, entries } => (1, number, entries),
            Act::List { months, entries } => (2, months as u64, entries),
            Act::SpinUp { years, entries } => (3, years, entries),
        };
        std::array::from_fn(|index| match index {
            0 => kind,
            1 => number as i128,
            _ => entries[index - 2] as i128,
        })
    }

    /// The number that it returns; other memory that it writes holds `fill` before it.
    pub fn make(
        &self,
        state: &mut StateNumbers,
        fill: u64,
        survival: &mut dyn Survival,
        watch: Watch,
    ) -> u64 {
        match self {
            Act::TakeBack => refusal(&memory::take_back(state)).0,
            Act::Month { number, entries } => {
                refusal(&memory::month(state, *number, entries, survival, watch)).0
            }
            Act::List { months, entries } => {
                let (sky, land) = (&entries[..WEATHER_NUMBERS], &entries[WEATHER_NUMBERS..]);
                let mut rows = vec![fill; months * OUTPUT_NUMBERS];
                let land = land.repeat(*months);
                refusal(&memory::list(state, sky, &land, &mut rows, survival, watch)).0
            }
            Act::SpinUp { years, entries } => {
                let (sky, land) = (&entries[..WEATHER_NUMBERS], &entries[WEATHER_NUMBERS..]);
                let (sky, land) = (sky.repeat(12), land.repeat(12));
                refusal(&memory::spin_up(
                    state, &sky, &land, *years, survival, watch,
                ))
                .0
            }
        }
    }
}

#[derive(Clone, Debug, PartialEq, Eq)]
pub enum Call {
    New {
        soil: SoilNumbers,
    },
    Month {
        state: StateNumbers,
        number: u64,
        entries: EntryNumbers,
    },
    List {
        weather: Vec<i64>,
        land: Vec<i64>,
        /// Numbers of the lent output.
        output: usize,
        state: StateNumbers,
    },
    SpinUp {
        weather: Vec<i64>,
        land: Vec<i64>,
        years: u64,
        state: StateNumbers,
    },
    TakeBack {
        state: StateNumbers,
    },
    History {
        soil: SoilNumbers,
        acts: Vec<Act>,
    },
    Report {
        state: StateNumbers,
        pool: u64,
    },
    Table {
        /// Numbers of the lent output.
        room: usize,
        table: Vec<u8>,
    },
    Survival {
        n: u64,
        pool: usize,
        s: u64,
    },
    Terms {
        n: u64,
        pool: u64,
        s: u64,
    },
    Age {
        years: u64,
        s: u64,
    },
}

/// The rate of a survival number that is asked for, or nothing where the call has none to give.
pub fn rate(n: u64, pool: u64) -> Option<u64> {
    let pool = usize::try_from(pool).ok()?;
    RATES.get(pool).copied().filter(|_| n <= LARGEST_N)
}

/// 1 where the survival number of an age is at most 1 from s, else 0; where there is no number, 1
/// only for what stands for none.
pub fn close_age(years: u64, own: u64, s: u64) -> u64 {
    if years > OLDEST {
        u64::from(own == NO_SURVIVAL && s == NO_SURVIVAL)
    } else {
        close(own, s)
    }
}

/// 1 where two numbers are at most 1 apart, else 0.
pub fn close(one: u64, other: u64) -> u64 {
    u64::from(one.abs_diff(other) <= 1)
}

fn words<T: ToString>(numbers: &[T]) -> String {
    let words: Vec<String> = numbers.iter().map(T::to_string).collect();
    words.join(" ")
}

/// A list's length and numbers.
fn counted<T: ToString>(numbers: &[T]) -> String {
    let mut text = numbers.len().to_string();
    for number in numbers {
        text.push(' ');
        text.push_str(&number.to_string());
    }
    text
}

/// Number and place of an answer; 0 and 0 where nothing is refused.
fn refusal<T>(answer: &Result<T, Refusal>) -> (u64, u64) {
    match answer {
        Ok(_) => (0, 0),
        Err(refusal) => (refusal.cause.number() as u64, refusal.place),
    }
}

/// What a line says of a lent state.
fn said(state: &StateNumbers) -> &[u64] {
    &state[..PLACES]
}

impl Call {
    pub fn name(&self) -> &'static str {
        match self {
            Call::New { .. } => "new state",
            Call::Month { .. } => "month",
            Call::List { .. } => "list",
            Call::SpinUp { .. } => "spin-up",
            Call::TakeBack { .. } => "taking-back",
            Call::History { .. } => "history",
            Call::Report { .. } => "report",
            Call::Table { .. } => "table",
            Call::Survival { .. } => "survival",
            Call::Terms { .. } => "survival and terms",
            Call::Age { .. } => "age",
        }
    }

    /// The lent state, where a call is lent one.
    pub fn state(&self) -> Option<&StateNumbers> {
        match self {
            Call::Month { state, .. }
            | Call::List { state, .. }
            | Call::SpinUp { state, .. }
            | Call::TakeBack { state }
            | Call::Report { state, .. } => Some(state),
            _ => None,
        }
    }

    /// Where the state begins in the answer, if it has one.
    pub fn state_at(&self) -> Option<usize> {
        match self {
            Call::New { .. } | Call::TakeBack { .. } => Some(1),
            Call::Month { .. } => Some(1 + OUTPUT_NUMBERS),
            Call::List { .. } => Some(2),
            Call::SpinUp { .. } => Some(3),
            Call::History { acts, .. } => Some(1 + acts.len()),
            Call::Report { .. }
            | Call::Table { .. }
            | Call::Survival { .. }
            | Call::Terms { .. }
            | Call::Age { .. } => None,
        }
    }

    /// Does the line say all? It doesn't say the places of a lent state.
    pub fn is_said(&self) -> bool {
        let base = |index: usize| match self {
            Call::TakeBack { state } => {
                let first = state[PLACES + index % OWN_NUMBERS];
                first.wrapping_add((index / OWN_NUMBERS) as u64)
            }
            _ => FILL,
        };
        match self {
            Call::History { acts, .. } => acts.len() <= MOST_ACTS,
            _ => self.state().is_none_or(|state| {
                (0..STATE_NUMBERS - PLACES).all(|index| state[PLACES + index] == base(index))
            }),
        }
    }

    /// The call's line, without byte 10 and without a table's bytes.
    pub fn line(&self) -> String {
        match self {
            Call::New { soil } => format!("N {}", words(soil)),
            Call::Month {
                state,
                number,
                entries,
            } => format!("M {} {number} {}", words(said(state)), words(entries)),
            Call::List {
                weather,
                land,
                output,
                state,
            } => format!(
                "L {} {} {output} {}",
                counted(weather),
                counted(land),
                words(said(state))
            ),
            Call::SpinUp {
                weather,
                land,
                years,
                state,
            } => format!(
                "S {} {} {years} {}",
                counted(weather),
                counted(land),
                words(said(state))
            ),
            Call::TakeBack { state } => {
                let base = &state[PLACES..PLACES + OWN_NUMBERS];
                format!("B {} {}", words(said(state)), words(base))
            }
            Call::History { soil, acts } => {
                let acts: Vec<i128> = acts.iter().flat_map(Act::numbers).collect();
                format!("H {} {}", words(soil), counted(&acts))
            }
            Call::Report { state, pool } => format!("R {} {pool}", words(said(state))),
            Call::Table { room, table } => format!("T {room} {}", table.len()),
            Call::Survival { n, pool, s } => format!("D {n} {pool} {s}"),
            Call::Terms { n, pool, s } => format!("K {n} {pool} {s}"),
            Call::Age { years, s } => format!("A {years} {s}"),
        }
    }

    /// All that stands for the call in the test input: its line and byte 10; then a table's bytes
    /// and one byte 10 more.
    pub fn input(&self) -> Vec<u8> {
        let mut bytes = self.line().into_bytes();
        bytes.push(b'\n');
        if let Call::Table { table, .. } = self {
            bytes.extend(table);
            bytes.push(b'\n');
        }
        bytes
    }

    /// The line of an answer to this call, without byte 10. The numbers of a table's output and of
    /// a report are signed. The places of a state stand only in a history's.
    pub fn answer_line(&self, answer: &[u64]) -> String {
        match self {
            Call::Table { .. } | Call::Report { .. } => {
                let table = matches!(self, Call::Table { .. });
                let (head, output) = answer.split_at(if table { TABLE_HEAD } else { 1 });
                let output = output.iter().map(|number| i128::from(*number as i64));
                let head = head.iter().map(|number| i128::from(*number));
                words(&head.chain(output).collect::<Vec<i128>>())
            }
            Call::History { .. }
            | Call::Survival { .. }
            | Call::Terms { .. }
            | Call::Age { .. } => words(answer),
            _ => {
                let at = self.state_at().expect("all others have a state");
                let (head, rest) = answer.split_at(at + PLACES);
                words(&[head, &rest[STATE_NUMBERS - PLACES..]].concat())
            }
        }
    }

    /// The numbers of the answer, signed ones by their 64 bits. Lent memory that is written holds
    /// `fill` before the call; `watch` sees each month that runs.
    pub fn answer(&self, fill: u64, survival: &mut dyn Survival, watch: Watch) -> Vec<u64> {
        match self {
            Call::New { soil } => {
                let mut state = [fill; STATE_NUMBERS];
                let answer = memory::start(&mut state, soil);
                [&[refusal(&answer).0], &state[..]].concat()
            }
            Call::Month {
                state,
                number,
                entries,
            } => {
                let mut state = *state;
                let answer = memory::month(&mut state, *number, entries, survival, watch);
                let row = answer.unwrap_or([fill; OUTPUT_NUMBERS]);
                [&[refusal(&answer).0], &row[..], &state].concat()
            }
            Call::List {
                weather,
                land,
                output,
                state,
            } => {
                let (mut state, mut rows) = (*state, vec![fill; *output]);
                let answer = memory::list(&mut state, weather, land, &mut rows, survival, watch);
                let (number, place) = refusal(&answer);
                [&[number, place], &state[..], &rows].concat()
            }
            Call::SpinUp {
                weather,
                land,
                years,
                state,
            } => {
                let mut state = *state;
                let answer = memory::spin_up(&mut state, weather, land, *years, survival, watch);
                let (number, place) = refusal(&answer);
                let (settled, years) = match answer {
                    Ok(Spun::Settled(years)) => (1, years),
                    Ok(Spun::Unsettled(years)) => (0, years),
                    Err(_) => (0, place),
                };
                [&[number, settled, years], &state[..]].concat()
            }
            Call::TakeBack { state } => {
                let mut state = *state;
                let answer = memory::take_back(&mut state);
                [&[refusal(&answer).0], &state[..]].concat()
            }
            Call::History { soil, acts } => {
                let mut state = [fill; STATE_NUMBERS];
                let mut answer = vec![refusal(&memory::start(&mut state, soil)).0];
                for act in acts {
                    answer.push(act.make(&mut state, fill, survival, watch));
                }
                answer.extend(state);
                answer
            }
            Call::Report { state, pool } => {
                let Some(asked) = asked_of(*pool) else {
                    return [&[WRONG_SHAPE][..], &[fill; REPORT_NUMBERS]].concat();
                };
                let answer = memory::radiocarbon(state, asked, survival);
                let number = refusal(&answer).0;
                let numbers = answer.map_or([fill; REPORT_NUMBERS], |report| {
                    let (dated, age) = match report.dated {
                        Dated::Age(years) => (0, years),
                        Dated::Older => (1, 0),
                        Dated::Newer => (2, 0),
                    };
                    let delta = i64::try_from(report.delta).expect("what 10 allows");
                    [delta as u64, dated, age]
                });
                [&[number], &numbers[..]].concat()
            }
            Call::Table { room, table } => {
                let mut output = vec![fill as i64; *room];
                let answer = table::read(table, &mut output);
                let (number, place) = refusal(&answer);
                let output = output.iter().map(|number| *number as u64);
                let head: [u64; TABLE_HEAD] = [number, answer.unwrap_or(0), place];
                head.into_iter().chain(output).collect()
            }
            Call::Survival { n, pool, s } => {
                let own = survival.survival(*n, RATES[*pool]);
                vec![close(own, *s)]
            }
            Call::Terms { n, pool, s } => {
                let (own, terms) = match rate(*n, *pool) {
                    Some(k) => (survival.survival(*n, k), terms(*n, k)),
                    None => (NO_SURVIVAL, fill),
                };
                // Both calls return the one number.
                vec![close(own, *s), 1, terms]
            }
            Call::Age { years, s } => {
                let own = match *years {
                    0..=OLDEST => survival.age(*years),
                    _ => NO_SURVIVAL,
                };
                vec![close_age(*years, own, *s)]
            }
        }
    }

    /// The answer, and whether it is the same for every allowed S. For a survival number and for
    /// the ages of a report: for every S at most 1 from the exact number.
    pub fn fixed_answer(&self) -> (Vec<u64>, bool) {
        let asked = match self {
            Call::Survival { n, pool, s } => Some((*n, RATES[*pool], *s)),
            Call::Terms { n, pool, s } => rate(*n, *pool).map(|k| (*n, k, *s)),
            _ => None,
        };
        let mut fixed = asked.is_none_or(|(n, k, s)| {
            let (lowest, highest) = survival_range(n, k, 1);
            close(lowest, s) == close(highest, s)
        });
        match self {
            Call::Age { years, s } if *years <= OLDEST => {
                let (lowest, highest) = age_range(*years, 1);
                fixed = close(lowest, *s) == close(highest, *s);
            }
            Call::Report { state, pool } => {
                fixed = asked_of(*pool)
                    .is_none_or(|asked| report_fixed(&state_of(state), state[KEPT], asked).1);
            }
            _ => (),
        }
        let answer = self.answer(FILL, &mut Nearest, &mut |state, entries| {
            fixed &= month_fixed(state, entries)
        });
        (answer, fixed)
    }
}

#[cfg(test)]
mod tests {
    use super::*;
    use crate::exponential::BILLION;
    use crate::model::{month, Field};
    use crate::vectors::Draw;

    fn text(call: &Call) -> (String, String, bool) {
        let (answer, fixed) = call.fixed_answer();
        (call.line(), call.answer_line(&answer), fixed)
    }

    #[test]
    fn layouts() {
        let soil = [
            234, 23, 1, 153_300, 4_485_200, 667_100, 25_857_600, 2_700_000,
        ];
        let mut own = [0; OWN_NUMBERS];
        own[..SOIL_NUMBERS].copy_from_slice(&soil);
        own[MODERN..].copy_from_slice(&[153_300, 4_485_200, 667_100, 25_857_600]);
        let state = lent_state(own, 0);
        assert_eq!(
            text(&Call::New { soil }),
            (
                "N 234 23 1 153300 4485200 667100 25857600 2700000".into(),
                "0 234 23 1 153300 4485200 667100 25857600 2700000 0 0 0 \
                 153300 4485200 667100 25857600 0"
                    .into(),
                true
            )
        );
        // January 1852.
        assert_eq!(
            text(&Call::Month {
                state,
                number: 1,
                entries: [34, 740, 80, 0, 0, 0, 0, 1_000]
            }),
            (
                "M 234 23 1 153300 4485200 667100 25857600 2700000 0 0 0 \
                 153300 4485200 667100 25857600 0 1 34 740 80 0 0 0 0 1000"
                    .into(),
                "0 113937 4445447 665104 25855106 2700000 83606 0 \
                 234 23 1 113937 4445447 665104 25855106 2700000 0 1 83606 \
                 113935 4445401 665097 25854836 1"
                    .into(),
                true
            )
        );
        assert_eq!(
            text(&Call::List {
                weather: vec![34, 740, 60, 1],
                land: vec![0, 0, 0, 1_000, 2, 0, 0, 0],
                output: 15,
                state: lent_state(own, 23)
            }),
            (
                "L 4 34 740 60 1 8 0 0 0 1000 2 0 0 0 15 \
                 234 23 1 153300 4485200 667100 25857600 2700000 0 0 0 \
                 153300 4485200 667100 25857600 23"
                    .into(),
                "15 2 234 23 1 113937 4445447 665104 25855106 2700000 0 1 83606 \
                 113935 4445401 665097 25854836 24 \
                 113937 4445447 665104 25855106 2700000 83606 0 7 7 7 7 7 7 7 7"
                    .into(),
                true
            )
        );
        assert_eq!(
            text(&Call::SpinUp {
                weather: vec![],
                land: vec![-1],
                years: 3,
                state: lent_state([9; 15], 25)
            }),
            (
                "S 0 1 -1 3 9 9 9 9 9 9 9 9 9 9 9 9 9 9 9 25".into(),
                "3 0 0 9 9 9 9 9 9 9 9 9 9 9 9 9 9 9 25".into(),
                true
            )
        );
        // Place (5 + 23) mod 24 is 4; the last sum wraps.
        let mut state = lent_state([9, 9, 9, 9, 9, 9, 9, 9, 9, 5, 9, 9, 9, 9, 9], 24);
        for index in 0..KEPT_LIMIT * OWN_NUMBERS {
            let base = [0, 1, 2, 3, 4, 5, 6, 7, 8, 100, 10, 11, 12, 13, u64::MAX - 3];
            let base = base[index % OWN_NUMBERS];
            state[PLACES + index] = base.wrapping_add((index / OWN_NUMBERS) as u64);
        }
        assert_eq!(
            text(&Call::TakeBack { state }),
            (
                "B 9 9 9 9 9 9 9 9 9 5 9 9 9 9 9 24 \
                 0 1 2 3 4 5 6 7 8 100 10 11 12 13 18446744073709551612"
                    .into(),
                "0 4 5 6 7 8 9 10 11 12 104 14 15 16 17 0 23".into(),
                true
            )
        );
        assert!(Call::TakeBack { state }.is_said());
        state[STATE_NUMBERS - 1] ^= 1;
        assert!(!Call::TakeBack { state }.is_said());
        let entries = [34, 740, 80, 0, 0, 0, 0, 1_000];
        let history = Call::History {
            soil,
            acts: vec![
                Act::Month { number: 1, entries },
                Act::Month { number: 1, entries },
                Act::TakeBack,
                Act::TakeBack,
                Act::List { months: 0, entries },
                Act::SpinUp { years: 0, entries },
            ],
        };
        let new = "234 23 1 153300 4485200 667100 25857600 2700000 0 0 0 \
                   153300 4485200 667100 25857600";
        assert_eq!(
            text(&history),
            (
                "H 234 23 1 153300 4485200 667100 25857600 2700000 60 \
                 1 1 34 740 80 0 0 0 0 1000 1 1 34 740 80 0 0 0 0 1000 \
                 0 0 0 0 0 0 0 0 0 0 0 0 0 0 0 0 0 0 0 0 \
                 2 0 34 740 80 0 0 0 0 1000 3 0 34 740 80 0 0 0 0 1000"
                    .into(),
                format!(
                    "0 0 11 0 20 3 9 {new} 0 {new}{}",
                    " 7".repeat(23 * OWN_NUMBERS)
                ),
                true
            )
        );
        let report = |pool: u64| text(&Call::Report { state, pool }).1;
        assert_eq!(report(0), "6 7 7 7");
        assert_eq!(
            (report(6), report(u64::MAX)),
            (report(7), "100 7 7 7".into())
        );
        own[MODERN + 1] = 0;
        own[MODERN + 2] *= 2;
        let state = lent_state(own, 3);
        let report = |pool: u64| text(&Call::Report { state, pool });
        assert_eq!(
            report(0),
            (
                "R 234 23 1 153300 4485200 667100 25857600 2700000 0 0 0 \
                 153300 0 1334200 25857600 3 0"
                    .into(),
                "0 0 0 0".into(),
                true
            )
        );
        assert_eq!(report(1).1, "0 -100000 1 0");
        assert_eq!(report(2).1, "0 100000 2 0");
        assert_eq!(report(4).1, "0 -99800 0 49935");
        let age = |years: u64, s: u64| text(&Call::Age { years, s });
        assert_eq!(age(0, BILLION).0, "A 0 1000000000");
        for (years, s, close) in [
            (0, BILLION + 1, 1),
            (0, BILLION + 2, 0),
            (1, 999_875_552, 1),
            (1, u64::MAX, 0),
            (60_000, 571_310, 0),
            (60_001, u64::MAX, 1),
            (60_001, u64::MAX - 1, 0),
            (u64::MAX, u64::MAX, 1),
        ] {
            let (line, answer, fixed) = age(years, s);
            assert_eq!(answer, close.to_string(), "{line}");
            assert!(fixed, "{line}");
        }
        let table = |room: usize, bytes: &[u8]| Call::Table {
            room,
            table: bytes.to_vec(),
        };
        let good = table(6, b"1;-0.5;74.0;8.0\n");
        assert_eq!(good.input(), b"T 6 16\n1;-0.5;74.0;8.0\n\n");
        assert_eq!(text(&good).1, "0 1 0 -5 740 80 1 7 7");
        let bad = table(5, b"\xff");
        assert_eq!(bad.input(), b"T 5 1\n\xff\n");
        assert_eq!(text(&bad).1, "18 0 1 7 7 7 7 7");
        let s = |s| text(&Call::Survival { n: 0, pool: 3, s });
        assert_eq!(
            s(1_000_000_001),
            ("D 0 3 1000000001".into(), "1".into(), true)
        );
        assert_eq!(s(1_000_000_002).1, "0");
        assert_eq!(s(u64::MAX).1, "0");
        let terms = |n, pool, s| text(&Call::Terms { n, pool, s });
        assert_eq!(
            terms(0, 3, 1_000_000_001),
            ("K 0 3 1000000001".into(), "1 1 1".into(), true)
        );
        assert_eq!(terms(0, 0, 999_999_998).1, "0 1 1");
        // January 1852: two beyond the numbers at most 1 away is too far from both.
        let (lowest, highest) = survival_range(356_100_000, 1000, 1);
        let january = |s| {
            text(&Call::Terms {
                n: 356_100_000,
                pool: 0,
                s,
            })
        };
        for s in [lowest, highest] {
            assert_eq!(january(s).1, "1 1 6");
            assert!(january(s).2);
        }
        for s in [lowest - 2, highest + 2, 0, u64::MAX] {
            assert_eq!(january(s).1, "0 1 6");
            assert!(january(s).2);
        }
        assert!(!january(lowest - 1).2 && !january(highest + 1).2);
        for (n, pool) in [
            (0, 4),
            (0, u64::MAX),
            (LARGEST_N + 1, 0),
            (u64::MAX, 3),
            (u64::MAX, u64::MAX),
        ] {
            let (line, answer, fixed) = terms(n, pool, u64::MAX);
            assert_eq!(line, format!("K {n} {pool} 18446744073709551615"));
            assert!(answer == "1 1 7" && fixed);
        }
    }

    /// The places hold what the paper's list of kept states does, on drawn histories from a new
    /// state; and the months that remain, run alone, end in the same state.
    #[test]
    fn places_and_the_list_agree() {
        let mut draw = Draw::new(2602);
        let mut seen = std::collections::BTreeMap::new();
        for round in 0..300 {
            let soil = [draw.below(1001), 1 + draw.below(100), 1 + draw.below(3)];
            let pools: [u64; 5] = std::array::from_fn(|_| draw.below(200_000_000));
            let soil: SoilNumbers = std::array::from_fn(|index| match index {
                0..=2 => soil[index],
                _ => pools[index - 3],
            });
            let mut memory: StateNumbers = std::array::from_fn(|_| draw.next());
            memory::start(&mut memory, &soil).expect("an accepted soil");
            let mut field = Field::new(soil_of(&soil));
            // The state before the months that remain: the new one, or a spin-up's.
            let mut first = field.state.clone();
            let mut remain: Vec<Entries> = Vec::new();
            for _ in 0..120 {
                let mut entries = [
                    draw.between(-60, 300),
                    draw.between(0, 900),
                    draw.between(0, 1_200),
                    draw.between(0, 1),
                    draw.between(0, 1),
                    draw.between(0, 3_000_000),
                    draw.between(0, 3_000_000),
                    draw.between(0, 2_000),
                ];
                if draw.below(8) == 0 {
                    entries[draw.below(8) as usize] = -401;
                }
                let act = match draw.below(16) {
                    0..=3 => Act::Month {
                        number: memory[MONTHS] + 1 + draw.below(6) / 5,
                        entries,
                    },
                    4 => Act::List {
                        months: draw.below(40) as usize,
                        entries,
                    },
                    5 if round % 2 == 0 => Act::SpinUp {
                        years: draw.below(3),
                        entries,
                    },
                    _ => Act::TakeBack,
                };
                let sky = &entries[..WEATHER_NUMBERS];
                let land = &entries[WEATHER_NUMBERS..];
                let mut rows = vec![FILL; 40 * OUTPUT_NUMBERS];
                let before = field.state.months;
                let wanted = match act {
                    Act::TakeBack => match field.take_back() {
                        Ok(()) => {
                            remain.pop().expect("a month that remains");
                            0
                        }
                        Err(cause) => cause.number() as u64,
                    },
                    Act::Month { number, entries } => {
                        let own = entries_of(&entries);
                        refusal(&field.month(number as i128, &own, &mut Nearest)).0
                    }
                    Act::List { months, .. } => {
                        let land = land.repeat(months);
                        refusal(&field.list(sky, &land, &mut rows, &mut Nearest)).0
                    }
                    Act::SpinUp { years, .. } => {
                        let (sky, land) = (sky.repeat(12), land.repeat(12));
                        let answer = field.spin_up(&sky, &land, years as i128, &mut Nearest);
                        if answer.is_ok() {
                            (first, remain) = (field.state.clone(), Vec::new());
                        }
                        refusal(&answer).0
                    }
                };
                if matches!(act, Act::Month { .. } | Act::List { .. }) {
                    let more = field.state.months - before;
                    remain.extend((0..more).map(|_| entries_of(&entries)));
                }
                let given = act.make(&mut memory, FILL, &mut Nearest, &mut |_, _| ());
                assert_eq!(given, wanted, "{act:?}");
                assert_eq!(memory::field_of(&memory), field);
                *seen.entry((act.numbers()[0], given)).or_insert(0) += 1;
            }
            let mut alone = first;
            for entries in &remain {
                let number = alone.months as i128 + 1;
                let (next, answer) = month(&alone, number, entries, &mut Nearest);
                answer.expect("accepted before");
                alone = next;
            }
            assert_eq!(alone, field.state);
        }
        for wanted in [
            (0, 0),
            (0, 20),
            (1, 0),
            (1, 11),
            (1, 13),
            (1, 21),
            (2, 0),
            (2, 3),
            (3, 0),
            (3, 9),
        ] {
            assert!(seen.contains_key(&wanted), "{wanted:?} {seen:?}");
        }
    }

    /// Taking back: 20 before 10, nothing else asked, the place by the months done.
    #[test]
    fn taking_back() {
        for (months, place) in [
            (0, 23),
            (1, 0),
            (23, 22),
            (24, 23),
            (25, 0),
            (120_000, 23),
            // 2^64 is 16 over a multiple of 24.
            (u64::MAX, 14),
        ] {
            let mut memory: StateNumbers = std::array::from_fn(|index| 1_000 + index as u64);
            (memory[MONTHS], memory[KEPT]) = (months, 1);
            let before = memory;
            assert_eq!(memory::take_back(&mut memory), Ok(()));
            let from = PLACES + place * OWN_NUMBERS;
            assert_eq!(memory[..OWN_NUMBERS], before[from..from + OWN_NUMBERS]);
            assert_eq!((memory[KEPT], &memory[PLACES..]), (0, &before[PLACES..]));
            let restored = memory;
            assert_eq!(refusal(&memory::take_back(&mut memory)), (20, 0));
            assert_eq!(memory, restored);
            for kept in [25, 26, 1 << 32, u64::MAX] {
                memory[KEPT] = kept;
                let given = memory;
                assert_eq!(refusal(&memory::take_back(&mut memory)), (10, 0));
                assert_eq!(memory, given);
            }
        }
    }
}
