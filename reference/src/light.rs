//! The two light fields of change 2026-05, from their books, and Hoosfield: how many years their
//! spin-ups run by the total alone and by the rule, and what the fields end with.
//!
//! A book's SOIL is the field as it stands; its twelve WEATHER and twelve LAND rows are the year
//! that is repeated.

use crate::book;
use crate::calls::{lent_state, numbers_of, Call};
use crate::exponential::{survival_nearest, BILLION};
use crate::fixed::AtEnd;
use crate::model::{
    run_years, total_settles, year_settles, Nearest, Settles, Soil, Spun, State, Survival, HUM,
    YEAR_LIMIT,
};
use std::collections::HashMap;
use std::path::Path;

/// A field and the year that its spin-up repeats.
pub struct Field {
    pub name: &'static str,
    /// In the repository.
    pub path: &'static str,
    pub state: State,
    pub weather: Vec<i64>,
    pub land: Vec<i64>,
}

/// Names of the fields and their books.
const BOOKS: [(&str, &str); 2] = [
    ("Warren Close", "examples/light/warren-close.book"),
    ("Heath Piece", "examples/light/heath-piece.book"),
];

/// Both fields, from the books of the repository.
pub fn fields() -> std::io::Result<Vec<Field>> {
    let repository = Path::new(env!("CARGO_MANIFEST_DIR")).join("..");
    BOOKS
        .into_iter()
        .map(|(name, path)| Ok(field(name, path, &std::fs::read(repository.join(path))?)))
        .collect()
}

fn field(name: &'static str, path: &'static str, bytes: &[u8]) -> Field {
    let (mut first, mut weather, mut land) = (None, Vec::new(), Vec::new());
    // Each month that the book runs has a weather row and a land row of the year.
    let answer = book::read_watched(bytes, &mut Nearest, &mut |state, entries| {
        first.get_or_insert_with(|| state.clone());
        weather.extend([
            entries.temperature,
            entries.rain,
            entries.evaporation,
            entries.source,
        ]);
        land.extend([
            entries.cover,
            entries.plant,
            entries.manure,
            entries.activity,
        ]);
    });
    assert!(
        matches!(answer, book::Answer::Ran { .. }),
        "{name}: {answer:?}"
    );
    assert_eq!(weather.len(), 48, "{name}: twelve months");
    let state = first.expect("twelve months");
    Field {
        name,
        path,
        state,
        weather,
        land,
    }
}

/// Hoosfield before 1852, from bare inert carbon: examples/python/spinup.py.
pub fn hoosfield() -> Field {
    let temperature = [34, 36, 51, 73, 110, 139, 160, 160, 135, 102, 61, 46];
    let rain = [740, 590, 620, 510, 520, 570, 340, 550, 580, 560, 750, 710];
    let evaporation = [80, 100, 270, 490, 830, 990, 1030, 910, 690, 340, 160, 80];
    let soil = Soil {
        clay: 234,
        depth: 23,
        kind: 1,
        pools: [0; 4],
        inert: 2_700_000,
    };
    let sky = |j: usize| [temperature[j], rain[j], evaporation[j], 0];
    // A crop from January to July and in December.
    let field = |j: usize| match j {
        7..=10 => [0, 0, 0, 1_000],
        _ => [1, 212_000, 0, 1_000],
    };
    Field {
        name: "Hoosfield",
        path: "examples/python/spinup.py",
        state: State::new(soil),
        weather: (0..12).flat_map(sky).collect(),
        land: (0..12).flat_map(field).collect(),
    }
}

/// Survival numbers from elsewhere, each asked for once: a year has few rate numbers, and they come
/// back.
pub struct Known<'a> {
    from: &'a mut dyn Survival,
    known: HashMap<(u64, u64), u64>,
}

impl Known<'_> {
    pub fn new(from: &mut dyn Survival) -> Known<'_> {
        let known = HashMap::new();
        Known { from, known }
    }
}

impl Survival for Known<'_> {
    fn survival(&mut self, n: u64, k: u64) -> u64 {
        let ask = || self.from.survival(n, k);
        *self.known.entry((n, k)).or_insert_with(ask)
    }
}

/// The survival numbers nearest to the exact ones, all one higher or lower where they may be.
pub fn shifted(shift: i64) -> impl FnMut(u64, u64) -> u64 {
    move |n, k| {
        let shift = if n == 0 { 0 } else { shift };
        let number = survival_nearest(n, k).saturating_add_signed(shift);
        number.min(BILLION)
    }
}

/// How a field's spin-up ends by a rule, and the soils with which its years began and ended.
pub struct Run {
    pub spun: Spun,
    pub soils: Vec<Soil>,
}

impl Run {
    pub fn years(&self) -> usize {
        self.soils.len() - 1
    }

    fn end(&self) -> &Soil {
        &self.soils[self.years()]
    }
}

impl Field {
    /// The spin-up from the new state, with all the years that may be allowed.
    pub fn run(&self, settles: Settles, survival: &mut dyn Survival) -> Run {
        let mut soils = Vec::new();
        let (state, answer) = run_years(
            settles,
            &self.state,
            &self.weather,
            &self.land,
            YEAR_LIMIT as u64,
            survival,
            &mut |before, _| {
                if before.months % 12 == 0 {
                    soils.push(before.soil.clone());
                }
            },
        );
        let spun = answer.expect("a field that nothing refuses");
        soils.push(state.soil);
        Run { spun, soils }
    }

    /// The call for a spin-up from the new state, with so many years allowed.
    pub fn spin_up(&self, years: u64) -> Call {
        Call::SpinUp {
            weather: self.weather.clone(),
            land: self.land.clone(),
            years,
            state: lent_state(numbers_of(&self.state), 0),
        }
    }

    /// How many years the spin-up runs by the total alone, and by the rule.
    pub fn years(&self, survival: &mut dyn Survival) -> [Spun; 2] {
        [total_settles as Settles, year_settles].map(|rule| self.run(rule, survival).spun)
    }

    /// What examples/light/settled.out says of this field.
    fn account(&self, survival: &mut dyn Survival) -> String {
        let never: Settles = |_, _| false;
        let mut survival = Known::new(survival);
        let [alone, each, all] = [total_settles as Settles, year_settles, never]
            .map(|rule| self.run(rule, &mut survival));
        let mut text = format!(
            "{} ({}), carbon in kilograms a hectare:\n",
            self.name, self.path
        );
        text += &line(
            "rule",
            &["years", "DPM", "RPM", "BIO", "HUM", "IOM", "total"].map(String::from),
        );
        let start = &alone.soils[0];
        for (rule, years, soil) in [
            ("start", 0, start),
            ("total alone", alone.years(), alone.end()),
            ("each pool too", each.years(), each.end()),
            ("no stop", all.years(), all.end()),
        ] {
            let [dpm, rpm, bio, hum] = soil.pools;
            let grams = [dpm, rpm, bio, hum, soil.inert].map(u128::from);
            let mut words = vec![years.to_string()];
            words.extend(
                grams
                    .iter()
                    .chain([&soil.total()])
                    .map(|grams| kilograms(*grams as i128).to_string()),
            );
            text += &line(rule, &words);
        }
        for run in [&alone, &each] {
            text += &changes(run);
        }
        let [from_alone, from_each] = [&alone, &each].map(|run| {
            let end = all.end().pools[HUM] as i128;
            kilograms(end - run.end().pools[HUM] as i128)
        });
        text += &format!(
            "HUM is {from_alone} from its end by the total alone, {from_each} by each pool too.\n"
        );
        text
    }
}

/// What the last year of a run changed.
fn changes(run: &Run) -> String {
    let years = run.years();
    let [start, end] = [years - 1, years].map(|year| {
        let soil = &run.soils[year];
        let [dpm, rpm, bio, hum] = soil.pools.map(i128::from);
        [dpm, rpm, bio, hum, soil.total() as i128]
    });
    let words: Vec<String> = ["DPM", "RPM", "BIO", "HUM", "total"]
        .iter()
        .enumerate()
        .map(|(at, name)| format!("{name} {:+}", kilograms(end[at] - start[at])))
        .collect();
    format!("In year {years}: {}.\n", words.join(", "))
}

/// Grams as kilograms, to the nearest, halves up.
fn kilograms(grams: i128) -> i128 {
    (grams + 500).div_euclid(1_000)
}

/// A line of the table: what it is, then its numbers in columns.
fn line(rule: &str, words: &[String]) -> String {
    let mut text = format!("{rule:<14}{:>8}", words[0]);
    for word in &words[1..] {
        text += &format!("{word:>7}");
    }
    text + "\n"
}

/// The one figure that changes, by a kilogram, when all survival numbers are one lower: Heath Piece
/// ends with 34,323,512 g, and then with 34,323,497.
const ONE_LOWER: (&str, [&str; 2]) = ("Heath Piece", ["34324", "34323"]);

/// examples/light/settled.out: both fields, an empty line between them. The text is the same with
/// the lowest and with the highest survival numbers at most 1 from the exact ones. With all of the
/// nearest one lower or one higher, each year is the same, and each kilogram but one.
pub fn settled(fields: &[Field]) -> String {
    let accounts: Vec<String> = fields
        .iter()
        .map(|field| {
            let text = field.account(&mut Nearest);
            for highest in [false, true] {
                let mut end = AtEnd {
                    highest,
                    distance: 1,
                };
                assert_eq!(field.account(&mut end), text, "highest: {highest}");
            }
            for shift in [-1, 1] {
                let mut wanted = Vec::new();
                if (field.name, shift) == (ONE_LOWER.0, -1) {
                    wanted.push(ONE_LOWER.1);
                }
                let other = field.account(&mut shifted(shift));
                assert_eq!(apart(&text, &other), wanted, "all S shifted by {shift}");
            }
            text
        })
        .collect();
    accounts.join("\n")
}

/// The words in which two texts differ.
fn apart<'a>(one: &'a str, other: &'a str) -> Vec<[&'a str; 2]> {
    assert_eq!(one.len(), other.len());
    let words = one.split_whitespace().zip(other.split_whitespace());
    let words = words.map(|(one, other)| [one, other]);
    words.filter(|[one, other]| one != other).collect()
}

#[cfg(test)]
mod tests {
    use super::*;

    #[test]
    fn kilograms_of_grams() {
        for (grams, wanted) in [
            (0, 0),
            (499, 0),
            (500, 1),
            (1_499, 1),
            (-1, 0),
            (-500, 0),
            (-501, -1),
            (-1_500, -1),
            (-1_501, -2),
        ] {
            assert_eq!(kilograms(grams), wanted, "{grams}");
        }
        // What rounds to 0 has a plus.
        assert_eq!(
            format!("{:+} {:+}", kilograms(-400), kilograms(400)),
            "+0 +0"
        );
    }

    #[test]
    fn columns() {
        let words = ["3", "188", "6904"].map(String::from);
        assert_eq!(
            line("total alone", &words),
            "total alone          3    188   6904\n"
        );
        assert_eq!(line("rule", &["years".into()]), "rule             years\n");
    }
}
