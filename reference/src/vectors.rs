//! Test books with the output that the specification asks. Made the same way each time.
//! Each book's name says what it shows. Every accepted book is fixed: its output is the same
//! for every allowed S. Every refusal is stated here by hand and held against the reference.

use crate::book::{self, Answer};
use crate::fixed::book_fixed;
use std::fmt::Write;

/// A named book and its output.
#[derive(Clone, Debug)]
pub struct Vector {
    pub name: String,
    pub book: Vec<u8>,
    pub output: Vec<u8>,
}

/// A small seeded generator (64-bit xorshift with a final multiplication).
pub struct Draw(u64);

impl Draw {
    pub fn new(seed: u64) -> Draw {
        Draw(seed.max(1))
    }

    pub fn next(&mut self) -> u64 {
        self.0 ^= self.0 >> 12;
        self.0 ^= self.0 << 25;
        self.0 ^= self.0 >> 27;
        self.0.wrapping_mul(0x2545_f491_4f6c_dd1d)
    }

    /// From 0 to below the limit.
    pub fn below(&mut self, limit: u64) -> u64 {
        (self.next() >> 16) % limit
    }

    /// From low to high, both included.
    pub fn between(&mut self, low: i64, high: i64) -> i64 {
        low + self.below((high - low + 1) as u64) as i64
    }
}

struct Shelf {
    vectors: Vec<Vector>,
}

impl Shelf {
    fn put(&mut self, name: &str, book: Vec<u8>, answer: &Answer) {
        assert!(
            self.vectors.iter().all(|vector| vector.name != name),
            "two books named {name}"
        );
        self.vectors.push(Vector {
            name: name.to_string(),
            output: book::write(answer),
            book,
        });
    }

    /// A book that runs and is fixed.
    fn runs(&mut self, name: &str, book: impl Into<Vec<u8>>) {
        let book = book.into();
        let (answer, fixed) = book_fixed(&book);
        assert!(matches!(answer, Answer::Ran { .. }), "{name}: {answer:?}");
        assert!(fixed, "{name} is not fixed");
        self.put(name, book, &answer);
    }

    /// A book that runs, is fixed, and has this output.
    fn shows(&mut self, name: &str, book: &str, output: &str) {
        self.runs(name, book);
        let got = String::from_utf8_lossy(&self.vectors.last().unwrap().output).into_owned();
        assert_eq!(got, output, "{name}");
    }

    /// A book that is refused with this number on this line, whatever S the months before it had.
    fn refused(&mut self, name: &str, book: impl Into<Vec<u8>>, number: u8, line: u64) {
        let book = book.into();
        let (answer, fixed) = book_fixed(&book);
        assert_eq!(
            String::from_utf8_lossy(&book::write(&answer)),
            format!("REFUSED {number} {line}\n"),
            "{name}"
        );
        assert!(fixed, "{name} is not fixed");
        self.put(name, book, &answer);
    }

    /// The first drawn book that is fixed.
    fn drawn(&mut self, name: &str, draw: &mut Draw, make: impl Fn(&mut Draw) -> String) {
        for _ in 0..10_000 {
            let book = make(draw);
            let (answer, fixed) = book_fixed(book.as_bytes());
            if fixed && matches!(answer, Answer::Ran { .. }) {
                self.put(name, book.into_bytes(), &answer);
                return;
            }
        }
        panic!("{name}: no fixed book found");
    }
}

/// The book that most faults are put into: lines 1 to 9, small pools.
const LINES: [&str; 9] = [
    "SOIL 1",
    "234 23 1 1533 44852 6671 258576 27000",
    "WEATHER 2",
    "34 740 80",
    "93 520 830",
    "LAND 3",
    "0 0 0",
    "1 610 0",
    "0 0 990",
];

/// That book with some lines replaced.
fn with(changes: &[(usize, &[u8])]) -> Vec<u8> {
    let mut bytes = Vec::new();
    for (index, line) in LINES.iter().enumerate() {
        match changes.iter().find(|(number, _)| *number == index + 1) {
            Some((_, other)) => bytes.extend_from_slice(other),
            None => bytes.extend_from_slice(line.as_bytes()),
        }
        bytes.push(10);
    }
    bytes
}

fn line(number: usize, text: &str) -> Vec<u8> {
    with(&[(number, text.as_bytes())])
}

fn lines(changes: &[(usize, &str)]) -> Vec<u8> {
    let changes: Vec<(usize, &[u8])> = changes
        .iter()
        .map(|(number, text)| (*number, text.as_bytes()))
        .collect();
    with(&changes)
}

/// That book cut after so many lines.
fn cut(count: usize) -> Vec<u8> {
    LINES[..count]
        .iter()
        .map(|line| format!("{line}\n"))
        .collect::<String>()
        .into_bytes()
}

fn whole(soil: &str, weather: &[&str], land: &[&str]) -> String {
    let mut text = format!("SOIL 1\n{soil}\nWEATHER {}\n", weather.len());
    for row in weather {
        text.push_str(row);
        text.push('\n');
    }
    let _ = writeln!(text, "LAND {}", land.len());
    for row in land {
        text.push_str(row);
        text.push('\n');
    }
    text
}

/// The weather table of Rothamsted: rain and evaporation as 001 has them, temperatures near 9.3 °C
/// a year.
pub const ROTHAMSTED: [&str; 12] = [
    "34 740 80",
    "36 590 100",
    "51 620 270",
    "77 510 490",
    "110 520 830",
    "140 570 990",
    "160 340 1030",
    "158 550 910",
    "136 580 690",
    "100 560 340",
    "62 750 160",
    "44 710 80",
];

/// All test books, in order.
pub fn vectors() -> Vec<Vector> {
    let mut shelf = Shelf {
        vectors: Vec::new(),
    };
    known_figures(&mut shelf);
    accepted_bounds(&mut shelf);
    refusals_of_soil(&mut shelf);
    refusals_of_weather(&mut shelf);
    refusals_of_land(&mut shelf);
    heads_and_counts(&mut shelf);
    form(&mut shelf);
    ends(&mut shelf);
    which_fault_wins(&mut shelf);
    length(&mut shelf);
    drawn_books(&mut shelf);
    shelf.vectors
}

fn known_figures(shelf: &mut Shelf) {
    // January 1852, byte by byte as document 01 has it.
    shelf.shows(
        "January 1852",
        "SOIL 1\n234 23 1 153300 4485200 667100 25857600 2700000\nWEATHER 1\n34 740 80\n\
         LAND 1\n0 0 0\n",
        "POOLS 1\n1 113937 4445447 665104 25855106 2700000 83606 0\nTOTAL 33779594 83606\n",
    );
    // Frost keeps S exact, so full pools are fixed too.
    shelf.shows(
        "active 1,000,000,000 with no additions runs (frost)",
        &whole(
            "234 23 1 100000000 200000000 300000000 400000000 1000000000",
            &["-51 740 80"],
            &["0 0 0"],
        ),
        "POOLS 1\n1 100000000 200000000 300000000 400000000 1000000000 0 0\nTOTAL 2000000000 0\n",
    );
    let full = "234 23 1 1000000000 0 0 0 0";
    shelf.refused(
        "active 1,000,000,000 and one gram of plant is 17",
        whole(full, &["34 740 80"], &["0 1 0"]),
        17,
        6,
    );
    shelf.refused(
        "active 1,000,000,000 and one gram of manure is 17",
        whole(full, &["34 740 80"], &["1 0 1"]),
        17,
        6,
    );
    shelf.shows(
        "61 g plant of kind 1: 36 and 25",
        &whole("234 23 1 0 0 0 0 0", &["93 520 830"], &["1 61 0"]),
        "POOLS 1\n1 36 25 0 0 0 0 21217500\nTOTAL 61 0\n",
    );
    shelf.shows(
        "99 g manure: DPM 48, RPM 50, HUM 1",
        &whole("234 23 1 0 0 0 0 0", &["93 740 80"], &["0 0 99"]),
        "POOLS 1\n1 48 50 0 1 0 0 0\nTOTAL 99 0\n",
    );
    shelf.shows(
        "plant of kind 2: 67 of 167, rounded down",
        &whole(
            "234 23 2 0 0 0 0 0",
            &["-60 0 0"],
            &["0 167 0", "0 166 0", "0 1 0"],
        ),
        "POOLS 3\n1 67 100 0 0 0 0 0\n2 133 200 0 0 0 0 0\n3 133 201 0 0 0 0 0\nTOTAL 334 0\n",
    );
    shelf.shows(
        "plant of kind 3: a fifth, rounded down",
        &whole(
            "234 23 3 0 0 0 0 0",
            &["-60 0 0"],
            &["0 9 0", "0 5 0", "0 4 0"],
        ),
        "POOLS 3\n1 1 8 0 0 0 0 0\n2 2 12 0 0 0 0 0\n3 2 16 0 0 0 0 0\nTOTAL 18 0\n",
    );
    // January to December under a crop; the last number of each row is 001's deficit table in
    // parts.
    shelf.runs(
        "Rothamsted deficit table, cropped all year",
        whole("234 23 1 0 0 0 0 0", &ROTHAMSTED, &["1 0 0"; 12]),
    );
    shelf.runs(
        "Rothamsted year, bare all year: bare limit",
        whole(
            "234 23 1 5000 70000 8000 90000 1000",
            &ROTHAMSTED,
            &["0 0 0"; 12],
        ),
    );
    // 155,250 × 740 - 207,000 × 280 is 27.50 mm exactly in one month: B 7585.
    shelf.runs(
        "deficit 27.50 mm: B 7585",
        whole(
            "234 23 1 900000 800000 700000 600000 0",
            &["93 280 740"],
            &["1 0 0"],
        ),
    );
    shelf.runs(
        "deficit at M: B 2000",
        whole(
            "234 23 1 900000 800000 700000 600000 0",
            &["93 0 20000"],
            &["1 0 0"],
        ),
    );
    shelf.runs(
        "B's exact half under a crop goes up: 3562.5",
        whole(
            "100 23 1 999999 999000 990000 900000 0",
            &["500 2 383"],
            &["1 0 0"; 1],
        ),
    );
    // M is 180,000,000: 0.444 of it is reached from both sides.
    shelf.runs(
        "deficit about 0.444 of M, below and above",
        whole(
            "0 100 1 500000 400000 300000 200000 1",
            &["200 0 514", "200 0 0", "200 0 1", "200 1 0"],
            &["1 0 0"; 4],
        ),
    );
    shelf.runs(
        "bare soil drier than its limit stays, is not wetted to it",
        whole(
            "234 23 1 0 0 0 0 0",
            &["93 0 20000", "93 0 100", "93 0 0", "93 100 0", "93 0 500"],
            &["1 0 0", "0 0 0", "0 0 0", "0 0 0", "0 0 0"],
        ),
    );
    shelf.runs(
        "bare soil dries to 5/9 of M and a crop dries on",
        whole(
            "234 23 1 100 100 100 100 0",
            &["93 0 20000"],
            &["0 0 0", "0 0 0", "1 0 0", "0 0 0"],
        ),
    );
    shelf.runs(
        "rain beats evaporation only after the 0.75",
        whole(
            "234 23 1 0 0 0 0 0",
            &["93 75 100", "93 76 100", "93 74 100"],
            &["1 0 0"; 6],
        ),
    );
    // -51 is frost, -50 isn't.
    shelf.shows(
        "T -51: no decay",
        &whole(
            "234 23 1 1000000 1000000 1000000 1000000 5",
            &["-51 0 0"],
            &["0 0 0"],
        ),
        "POOLS 1\n1 1000000 1000000 1000000 1000000 5 0 0\nTOTAL 4000005 0\n",
    );
    shelf.runs(
        "T -50: A is 162",
        whole(
            "234 23 1 987654 1234567 765432 3456789 5",
            &["-50 0 0"],
            &["0 0 0"],
        ),
    );
    shelf.runs(
        "T 500: A is 83639, the fastest decay",
        whole(
            "234 23 1 987654 1234567 765432 3456789 5",
            &["500 740 0"],
            &["0 0 0"],
        ),
    );
    shelf.runs(
        "T 133: A is 16091, its closest half",
        whole(
            "234 23 1 987654 1234567 765432 3456789 5",
            &["133 740 0"],
            &["0 0 0"],
        ),
    );
    shelf.runs(
        "C 658: R is 243625, its closest half",
        whole(
            "658 23 1 9876543 1234567 765432 3456789 5",
            &["133 740 0"],
            &["0 0 0"],
        ),
    );
    shelf.runs(
        "C 17: R is 155587",
        whole(
            "17 23 1 9876543 1234567 765432 3456789 5",
            &["133 740 0"],
            &["0 0 0"],
        ),
    );
    shelf.runs(
        "additions don't decay in their own month",
        whole(
            "234 23 1 0 0 0 0 0",
            &["500 740 0"],
            &["0 100000 0", "0 0 0", "0 0 100000", "0 0 0"],
        ),
    );
}

fn accepted_bounds(shelf: &mut Shelf) {
    for (name, soil) in [
        ("clay 0", "0 23 1 9000 80000 7000 60000 500"),
        ("clay 1000", "1000 23 2 9000 80000 7000 60000 500"),
        (
            "clay 650: the largest M",
            "650 100 2 9000 80000 7000 60000 500",
        ),
        (
            "clay 0, depth 1: the smallest M",
            "0 1 1 9000 80000 7000 60000 500",
        ),
    ] {
        shelf.runs(
            name,
            whole(
                soil,
                &["93 0 20000", "160 340 1030", "-60 20000 0"],
                &["1 100 0", "0 0 100", "0 7 8", "1 0 0"],
            ),
        );
    }
    shelf.runs(
        "IOM 1,000,000,000 and no active pools",
        whole("1 2 3 0 0 0 0 1000000000", &["0 0 0"], &["0 0 0"]),
    );
    shelf.runs(
        "T -400, rain 20000, evaporation 20000",
        whole(
            "234 23 1 5 6 7 8 9",
            &["-400 20000 20000", "500 20000 0", "-1 0 20000"],
            &["0 0 0"; 3],
        ),
    );
    shelf.runs(
        "pools of one gram",
        whole(
            "234 23 1 1 1 1 1 1",
            &["-50 0 0", "200 0 0"],
            &["0 1 0", "0 0 1", "1 1 1", "0 0 0"],
        ),
    );
    shelf.runs(
        "plant and manure 100,000,000 each (frost)",
        whole(
            "234 23 1 0 0 0 0 0",
            &["-51 0 0"],
            &["0 100000000 100000000"; 5],
        ),
    );
    shelf.runs(
        "plant and manure up to 1,000,000,000 exactly",
        whole(
            "234 23 2 799999999 0 0 1 0",
            &["-100 0 0"],
            &["0 100000000 100000000", "0 0 0"],
        ),
    );
    shelf.runs(
        "weather longer than land: rows that no month uses",
        whole(
            "234 23 1 900 800 700 600 0",
            &ROTHAMSTED,
            &["0 0 0", "1 50 0"],
        ),
    );
    shelf.runs(
        "weather shorter than land: it starts again",
        whole(
            "234 23 1 900 800 700 600 0",
            &["34 740 80", "93 0 830", "-5 0 90"],
            &["1 9 8"; 8],
        ),
    );
    shelf.runs(
        "one month",
        whole("300 30 3 10 20 30 40 50", &["1 2 3"], &["1 4 5"]),
    );
    shelf.runs("the common book of the faults below", cut(9));
}

fn refusals_of_soil(shelf: &mut Shelf) {
    for (name, soil, number) in [
        (
            "clay 1001 is 4",
            "1001 23 1 1533 44852 6671 258576 27000",
            4,
        ),
        (
            "clay 4294967296 is 4",
            "4294967296 23 1 1533 44852 6671 258576 27000",
            4,
        ),
        ("depth 0 is 5", "234 0 1 1533 44852 6671 258576 27000", 5),
        (
            "depth 101 is 5",
            "234 101 1 1533 44852 6671 258576 27000",
            5,
        ),
        ("kind 0 is 6", "234 23 0 1533 44852 6671 258576 27000", 6),
        ("kind 4 is 6", "234 23 4 1533 44852 6671 258576 27000", 6),
        (
            "kind 4294967297 is 6",
            "234 23 4294967297 1533 44852 6671 258576 27000",
            6,
        ),
        (
            "active pools one gram above the ceiling are 7",
            "234 23 1 250000000 250000000 250000000 250000001 0",
            7,
        ),
        (
            "IOM above the ceiling is 7",
            "234 23 1 1 1 1 1 1000000001",
            7,
        ),
        (
            "four pools of ten digits are 7",
            "234 23 1 9999999999 9999999999 9999999999 9999999999 0",
            7,
        ),
        (
            "pools that add up to 2^32 are 7",
            "234 23 1 1073741824 1073741824 1073741824 1073741824 0",
            7,
        ),
        (
            "all soil values wrong: 4 is the lowest",
            "1001 0 4 9999999999 9 9 9 1000000001",
            4,
        ),
    ] {
        shelf.refused(name, line(2, soil), number, 2);
    }
}

fn refusals_of_weather(shelf: &mut Shelf) {
    for (name, number, row, refusal) in [
        ("T -401 is 13", 4, "-401 740 80", 13),
        ("T 501 is 13", 4, "501 740 80", 13),
        ("T of ten digits is 13", 5, "9999999999 0 0", 13),
        ("T of ten digits below 0 is 13", 5, "-9999999999 0 0", 13),
        ("T -4294967286 is 13", 5, "-4294967286 0 0", 13),
        ("rain 20001 is 14", 4, "34 20001 80", 14),
        ("evaporation 20001 is 14", 5, "34 740 20001", 14),
        (
            "rain and evaporation of ten digits are 14",
            5,
            "34 9999999999 9999999999",
            14,
        ),
        (
            "T, rain and evaporation wrong: 13",
            5,
            "501 20001 20001",
            13,
        ),
    ] {
        shelf.refused(name, line(number, row), refusal, number as u64);
    }
    // Twelve weather rows, one month: the faults are in rows that no month uses.
    for (name, text, refusal) in [
        ("13 in a weather row that no month uses", "501 0 0", 13),
        ("2 in a weather row that no month uses", "0 0 00", 2),
    ] {
        let mut rows = ROTHAMSTED;
        rows[11] = text;
        shelf.refused(
            name,
            whole("234 23 1 9 9 9 9 9", &rows, &["0 0 0"]),
            refusal,
            15,
        );
    }
}

fn refusals_of_land(shelf: &mut Shelf) {
    for (name, number, row, refusal) in [
        ("cover 2 is 15", 7, "2 0 0", 15),
        ("cover 4294967297 is 15", 9, "4294967297 0 0", 15),
        ("plant 100,000,001 is 16", 7, "0 100000001 0", 16),
        ("manure 100,000,001 is 16", 8, "1 0 100000001", 16),
        (
            "plant and manure of ten digits are 16",
            9,
            "1 9999999999 9999999999",
            16,
        ),
        ("cover and plant wrong: 15", 9, "3 100000001 0", 15),
    ] {
        shelf.refused(name, line(number, row), refusal, number as u64);
    }
    let near = "234 23 1 900000000 0 0 0 7";
    shelf.runs(
        "exactly at the ceiling of 17: plant 100,000,000 to 900,000,000",
        whole(near, &["-51 0 0"], &["0 100000000 0"]),
    );
    shelf.refused(
        "17 by a gram of manure beside the plant",
        whole(near, &["-51 0 0"], &["0 100000000 1"]),
        17,
        6,
    );
    shelf.refused(
        "16 before 17 on a line",
        whole(near, &["-51 0 0"], &["0 100000001 1"]),
        16,
        6,
    );
    shelf.refused(
        "17 in the third month, after two that fill the pools",
        whole(
            "234 23 1 999999900 0 0 0 1000000000",
            &["-51 0 0"],
            &["0 50 0", "0 0 50", "0 1 0", "0 0 0"],
        ),
        17,
        8,
    );
    shelf.runs(
        "the same without the last gram runs",
        whole(
            "234 23 1 999999900 0 0 0 1000000000",
            &["-51 0 0"],
            &["0 50 0", "0 0 50", "0 0 0", "0 0 0"],
        ),
    );
    shelf.refused(
        "IOM doesn't count for 17, active pools do",
        whole(
            "234 23 1 0 0 0 1000000000 1000000000",
            &["-51 0 0"],
            &["0 0 0", "1 1 0"],
        ),
        17,
        7,
    );
}

fn heads_and_counts(shelf: &mut Shelf) {
    for (name, number, head, refusal, at) in [
        ("SOIL 0 is 3", 1, "SOIL 0", 3, 1),
        ("SOIL 2 is 3", 1, "SOIL 2", 3, 1),
        ("SOIL 9999999999 is 3", 1, "SOIL 9999999999", 3, 1),
        ("SOIL 01 is 2", 1, "SOIL 01", 2, 1),
        ("SOIL without a count", 1, "SOIL", 2, 1),
        ("SOIL with a space and no count", 1, "SOIL ", 2, 1),
        ("soil in lower case", 1, "soil 1", 2, 1),
        ("SOIL with a double space", 1, "SOIL  1", 2, 1),
        ("WEATHER 0 is 3", 3, "WEATHER 0", 3, 3),
        ("WEATHER 1201 is 3", 3, "WEATHER 1201", 3, 3),
        ("WEATHER 4294967298 is 3", 3, "WEATHER 4294967298", 3, 3),
        (
            "WEATHER of eleven digits is 2",
            3,
            "WEATHER 99999999999",
            2,
            3,
        ),
        ("Weather in lower case", 3, "Weather 2", 2, 3),
        ("WEATHER with a space at its end", 3, "WEATHER 2 ", 2, 3),
        ("LAND where WEATHER was due", 3, "LAND 2", 2, 3),
        (
            "WEATHER 3 for two rows: the LAND head is no row",
            3,
            "WEATHER 3",
            2,
            6,
        ),
        (
            "WEATHER 1 for two rows: a row where LAND was due",
            3,
            "WEATHER 1",
            2,
            5,
        ),
        ("LAND 0 is 3", 6, "LAND 0", 3, 6),
        ("LAND 1201 is 3", 6, "LAND 1201", 3, 6),
        ("LAND 9999999999 is 3", 6, "LAND 9999999999", 3, 6),
        ("LAND -3 is 2", 6, "LAND -3", 2, 6),
        ("LAND 4 for three rows: past the end", 6, "LAND 4", 2, 10),
        (
            "LAND 2 for three rows: bytes after the end",
            6,
            "LAND 2",
            2,
            9,
        ),
    ] {
        shelf.refused(name, line(number, head), refusal, at);
    }
}

fn form(shelf: &mut Shelf) {
    // Text that departs from the form, each on its line.
    for (name, number, text) in [
        (
            "soil: a leading zero",
            2,
            "0234 23 1 1533 44852 6671 258576 27000",
        ),
        ("soil: a minus", 2, "-234 23 1 1533 44852 6671 258576 27000"),
        ("soil: seven values", 2, "234 23 1 1533 44852 6671 258576"),
        (
            "soil: eleven digits",
            2,
            "234 23 1 1533 44852 6671 258576 10000000000",
        ),
        (
            "soil: a space at the front",
            2,
            " 234 23 1 1533 44852 6671 258576 27000",
        ),
        (
            "soil: clay 1001 and a malformed value: 2",
            2,
            "1001 0 4 x 44852 6671 258576 27000",
        ),
        ("weather: -0", 4, "-0 740 80"),
        ("weather: -05", 4, "-05 740 80"),
        ("weather: --5", 5, "--5 740 80"),
        ("weather: +5", 5, "+5 740 80"),
        ("weather: a lone minus", 5, "- 740 80"),
        ("weather: rain with a minus", 4, "34 -740 80"),
        (
            "weather: eleven digits after a minus",
            4,
            "-10000000000 740 80",
        ),
        ("weather: two values", 5, "34 740"),
        ("weather: T 501 and a malformed value: 2", 5, "501 740 8O"),
        ("land: cover with a minus", 7, "-1 0 0"),
        ("land: plant with a minus", 8, "0 -1 0"),
        ("land: manure -0", 9, "0 0 -0"),
        ("land: cover 2 and a malformed value: 2", 8, "2 0 0x"),
        ("land: a space at the end", 8, "1 610 0 "),
    ] {
        shelf.refused(name, line(number, text), 2, number as u64);
    }
    // Bytes that no line may have.
    for (name, number, bytes) in [
        ("CR before byte 10 on the first line", 1, &b"SOIL 1\r"[..]),
        ("CR before byte 10 on the last line", 9, &b"0 0 990\r"[..]),
        ("a tab for a space", 4, &b"34\t740 80"[..]),
        ("a NUL at the end of a value", 8, &b"1 610\0 0"[..]),
        ("a byte order mark", 1, &b"\xef\xbb\xbfSOIL 1"[..]),
        ("a byte above 127 for a digit", 7, &b"\xb0 0 0"[..]),
        ("the byte after digit 9", 9, &b"0 0 1:"[..]),
    ] {
        shelf.refused(name, with(&[(number, bytes)]), 2, number as u64);
    }
}

fn ends(shelf: &mut Shelf) {
    shelf.refused("empty book", "", 2, 1);
    shelf.refused("a lone byte 10", "\n", 2, 1);
    shelf.refused("SOIL 2 without byte 10: 2 before 3", "SOIL 2", 2, 1);
    for (count, name) in [
        (1, "the book ends after the SOIL head"),
        (3, "the book ends after the WEATHER head"),
        (5, "the book ends after the weather"),
        (6, "the book ends after the LAND head"),
        (8, "the book ends inside the land"),
    ] {
        shelf.refused(name, cut(count), 2, count as u64 + 1);
    }
    let mut short = cut(9);
    short.pop();
    shelf.refused("the last line has no byte 10", short, 2, 9);
    for (name, more) in [
        ("a byte after the last line", &b"x"[..]),
        ("a lone byte 10 after the last line", &b"\n"[..]),
        ("another land row after the last line", &b"0 0 0\n"[..]),
    ] {
        let mut book = cut(9);
        book.extend_from_slice(more);
        shelf.refused(name, book, 2, 10);
    }
    let mut double = cut(9);
    double.insert(6, 10);
    shelf.refused("an empty line after the SOIL head", double, 2, 2);
    shelf.refused(
        "a second soil where WEATHER was due",
        lines(&[(3, LINES[1])]),
        2,
        3,
    );
    let spaces: Vec<u8> = cut(9)
        .into_iter()
        .map(|byte| if byte == 10 { b' ' } else { byte })
        .collect();
    shelf.refused("no byte 10 at all", spaces, 2, 1);
}

fn which_fault_wins(shelf: &mut Shelf) {
    let full = "234 23 1 1000000000 0 0 0 0";
    let frost = &["-51 0 0"];
    shelf.refused(
        "17 before a malformed later line",
        whole(full, frost, &["0 1 0", "x"]),
        17,
        6,
    );
    shelf.refused(
        "17 before a missing later line",
        "SOIL 1\n1 1 1 1000000000 0 0 0 0\nWEATHER 1\n-51 0 0\nLAND 2\n0 0 1\n",
        17,
        6,
    );
    shelf.refused(
        "17 before 15 on a later line",
        whole(full, frost, &["0 1 0", "2 0 0"]),
        17,
        6,
    );
    shelf.refused(
        "17 before bytes after the end",
        whole(full, frost, &["0 0 0", "0 1 0"]) + "\n",
        17,
        7,
    );
    shelf.refused(
        "17 before a later line without byte 10",
        whole(full, frost, &["0 1 0", "0 0 0"]).trim_end(),
        17,
        6,
    );
    shelf.refused(
        "2 before 17 on a line without byte 10",
        whole(full, frost, &["0 0 0", "0 1 0"]).trim_end(),
        2,
        7,
    );
    shelf.refused(
        "2 before 17 on a line with a malformed value",
        whole(full, frost, &["0 100000000 0 0"]),
        2,
        6,
    );
    shelf.refused(
        "an earlier 16 before a later 2",
        lines(&[(7, "0 0 100000001"), (9, "x")]),
        16,
        7,
    );
    shelf.refused(
        "4 before a later 2",
        lines(&[(2, "1001 23 1 0 0 0 0 0"), (3, "x")]),
        4,
        2,
    );
    shelf.refused(
        "3 before a later 4",
        lines(&[(1, "SOIL 2"), (2, "1001 23 1 0 0 0 0 0")]),
        3,
        1,
    );
    shelf.refused(
        "3 of LAND before rows that would be refused",
        lines(&[(6, "LAND 1201"), (7, "9 9 9")]),
        3,
        6,
    );
    shelf.refused("SOIL 2 and nothing else is 3", "SOIL 2\n", 3, 1);
}

/// The longest book of right form: 46,892 bytes.
fn longest_form() -> String {
    whole(
        "1000 100 1 100000000 100000000 100000000 100000000 1000000000",
        &["-400 20000 20000"; 1200],
        &["1 100000000 100000000"; 1200],
    )
}

fn length(shelf: &mut Shelf) {
    // A good book, then filling: at 65,536 bytes the fault is the line after the last.
    let mut book = cut(9);
    book.resize(65_536, b'\n');
    shelf.refused("65,536 bytes: no fault of length", book.clone(), 2, 10);
    book.push(b'\n');
    shelf.refused("65,537 bytes: 1 before anything else", book, 1, 0);
    let longest = longest_form();
    assert_eq!(longest.len(), 46_892);
    shelf.refused(
        "the longest book of right form: 17 in its fourth month",
        longest,
        17,
        1208,
    );
}

/// A drawn book: soil, weather and land within the bounds.
struct Plan {
    months: usize,
    weather: usize,
    /// Pools from 0 to this.
    pools: i64,
    /// Plant and manure from 0 to this, in about half of the months.
    additions: i64,
    coldest: i64,
    hottest: i64,
    rain: i64,
    evaporation: i64,
    kind: i64,
}

fn draw_book(draw: &mut Draw, plan: &Plan) -> String {
    let mut text = format!(
        "SOIL 1\n{} {} {}",
        draw.between(0, 1000),
        draw.between(1, 100),
        plan.kind
    );
    for _ in 0..5 {
        let _ = write!(text, " {}", draw.between(0, plan.pools));
    }
    let _ = write!(text, "\nWEATHER {}\n", plan.weather);
    for _ in 0..plan.weather {
        let temperature = draw.between(plan.coldest, plan.hottest);
        let _ = writeln!(
            text,
            "{temperature} {} {}",
            draw.between(0, plan.rain),
            draw.between(0, plan.evaporation)
        );
    }
    let _ = writeln!(text, "LAND {}", plan.months);
    for _ in 0..plan.months {
        let cover = draw.between(0, 1);
        let mut addition = || {
            if draw.below(2) == 0 {
                0
            } else {
                draw.between(0, plan.additions)
            }
        };
        let (plant, manure) = (addition(), addition());
        let _ = writeln!(text, "{cover} {plant} {manure}");
    }
    text
}

fn drawn_books(shelf: &mut Shelf) {
    let mut draw = Draw::new(1852);
    // Months, weather rows, size of pools and additions, climate.
    let climates = [
        ("mild", -60, 250, 1200, 1400),
        ("frost", -400, 60, 900, 600),
        ("dry", 50, 500, 200, 3000),
        ("wet", 0, 300, 5000, 800),
    ];
    let sizes = [
        (1, 1, 30_000_000, 9_000_000),
        (6, 4, 5_000_000, 400_000),
        (24, 12, 900_000, 90_000),
        (60, 12, 300_000, 20_000),
    ];
    for (index, (months, weather, pools, additions)) in sizes.into_iter().enumerate() {
        for (climate, coldest, hottest, rain, evaporation) in climates {
            let kind = (shelf.vectors.len() + index) as i64 % 3 + 1;
            let name =
                format!("drawn: {months} months, {weather} weather rows, {climate}, kind {kind}");
            let plan = Plan {
                months,
                weather,
                pools,
                additions,
                coldest,
                hottest,
                rain,
                evaporation,
                kind,
            };
            shelf.drawn(&name, &mut draw, |draw| draw_book(draw, &plan));
        }
    }
    // Hoosfield from January 1852 with the additions of 001, pools a little off so that it is
    // fixed.
    let hoosfield = |draw: &mut Draw, land: &[&str]| {
        let pools =
            [153_300, 4_485_200, 667_100, 25_857_600].map(|grams| grams + draw.below(20_000));
        let soil = format!(
            "234 23 1 {} {} {} {} 2700000",
            pools[0], pools[1], pools[2], pools[3]
        );
        whole(&soil, &ROTHAMSTED, land)
    };
    let mut land = ["0 0 0"; 12];
    land[3..7].copy_from_slice(&["1 160000 0", "1 320000 0", "1 480000 0", "1 640000 0"]);
    shelf.drawn("Hoosfield, unmanured year", &mut draw, |draw| {
        hoosfield(draw, &land)
    });
    land[3..7].copy_from_slice(&["1 280000 0", "1 560000 0", "1 840000 0", "1 1120000 0"]);
    land[1] = "0 0 3000000";
    shelf.drawn(
        "Hoosfield, year with manure in February",
        &mut draw,
        |draw| hoosfield(draw, &land),
    );
    let long = Plan {
        months: 1200,
        weather: 12,
        pools: 6_000,
        additions: 300,
        coldest: -80,
        hottest: 220,
        rain: 1200,
        evaporation: 1500,
        kind: 1,
    };
    shelf.drawn("1,200 months, small pools", &mut draw, |draw| {
        draw_book(draw, &long)
    });
    let unused = Plan {
        months: 2,
        weather: 1200,
        pools: 6_000,
        additions: 300,
        coldest: -400,
        hottest: 500,
        rain: 20_000,
        evaporation: 20_000,
        kind: 2,
    };
    shelf.drawn("1,200 weather rows, two months", &mut draw, |draw| {
        draw_book(draw, &unused)
    });
    // Months of decay run before the fault is met.
    let mut text = whole("234 23 1 10 20 30 40 50", &["93 520 830"], &["0 0 0"; 3]);
    text = text.replace("LAND 3", "LAND 4");
    shelf.refused("months run, then a land row is missing", text.clone(), 2, 9);
    shelf.refused("months run, then cover 2", text + "2 0 0\n", 15, 9);
}

#[cfg(test)]
mod tests {
    use super::*;
    use crate::exponential::allowed_range;

    #[test]
    fn books_and_their_size() {
        let vectors = vectors();
        let total: usize = vectors.iter().map(|vector| vector.book.len()).sum();
        assert!(vectors.len() >= 150, "{} books", vectors.len());
        assert!(total < 400_000, "{total} bytes");
        // Every refusal that a book can meet is there.
        for number in [1, 2, 3, 4, 5, 6, 7, 13, 14, 15, 16, 17] {
            let start = format!("REFUSED {number} ");
            assert!(
                vectors
                    .iter()
                    .any(|vector| vector.output.starts_with(start.as_bytes())),
                "refusal {number}"
            );
        }
        // The outputs don't move with S.
        for vector in &vectors {
            let lowest = book::run(&vector.book, &mut |n, k| allowed_range(n, k).0);
            let highest = book::run(&vector.book, &mut |n, k| allowed_range(n, k).1);
            assert_eq!(
                (&vector.output, &vector.output),
                (&lowest, &highest),
                "{}",
                vector.name
            );
        }
    }

    #[test]
    fn rothamsted_deficits() {
        let vectors = vectors();
        let vector = vectors
            .iter()
            .find(|vector| vector.name.starts_with("Rothamsted deficit table"))
            .unwrap();
        let text = String::from_utf8(vector.output.clone()).unwrap();
        let parts: Vec<u64> = text
            .lines()
            .skip(1)
            .take(12)
            .map(|row| row.split(' ').last().unwrap().parse().unwrap())
            .collect();
        // Hundredths of a millimetre, nearest.
        let hundredths: Vec<u64> = parts
            .iter()
            .map(|parts| (parts * 100 + 1_035_000) / 2_070_000)
            .collect();
        assert_eq!(
            hundredths,
            [0, 0, 0, 0, 1025, 2750, 4494, 4494, 3869, 819, 0, 0]
        );
    }
}
