//! The book: bytes in, output bytes out, in one pass. The earliest faulty line wins.

use crate::model::{
    check_land, check_weather, run_month, Cause, Entries, Refusal, Row, Soil, State, Survival,
    Watch, FRESH, OPEN_PAN,
};

/// The longest book (1).
pub const BOOK_LIMIT: usize = 65_536;

/// What a book gives: a row a month and the state reached, or the refusal with its line.
#[derive(Clone, Debug, PartialEq, Eq)]
pub enum Answer {
    Ran { rows: Vec<Row>, last: State },
    Refused(Refusal),
}

/// Lines of a book in turn. A line is what stands before the next byte 10.
struct Lines<'a> {
    rest: &'a [u8],
    /// Number of the line last asked for.
    line: u64,
}

impl<'a> Lines<'a> {
    /// The next line; `None` if it is missing or has no byte 10 at its end.
    fn next(&mut self) -> Option<&'a [u8]> {
        self.line += 1;
        let end = self.rest.iter().position(|byte| *byte == 10)?;
        let line = &self.rest[..end];
        self.rest = &self.rest[end + 1..];
        Some(line)
    }

    fn refuse(&self, cause: Cause) -> Refusal {
        Refusal {
            cause,
            place: self.line,
        }
    }

    /// A head: its name, a space, its count.
    fn head(&mut self, name: &str, fits: impl Fn(i64) -> bool) -> Result<usize, Refusal> {
        let count = self.next().and_then(|line| {
            let rest = line.strip_prefix(name.as_bytes())?;
            value(rest.strip_prefix(b" ")?)
        });
        match count {
            None => Err(self.refuse(Cause::Form)),
            Some(count) if !fits(count) => Err(self.refuse(Cause::Count)),
            Some(count) => Ok(count as usize),
        }
    }

    /// A row of values, one space between; `minus` if the first may have one.
    fn row<const N: usize>(&mut self, minus: bool) -> Result<[i64; N], Refusal> {
        let line = self.next();
        line.and_then(|line| values(line, minus))
            .ok_or_else(|| self.refuse(Cause::Form))
    }
}

/// A value: 0, or a digit 1 to 9 and up to nine more digits.
pub fn value(text: &[u8]) -> Option<i64> {
    if text == b"0" {
        return Some(0);
    }
    let (first, more) = text.split_first()?;
    if !(b'1'..=b'9').contains(first) || more.len() > 9 || !more.iter().all(u8::is_ascii_digit) {
        return None;
    }
    Some(
        text.iter()
            .fold(0i64, |number, digit| number * 10 + (digit - b'0') as i64),
    )
}

/// A number of this form that may have a minus, not before 0.
pub fn signed(text: &[u8], form: impl Fn(&[u8]) -> Option<i64>) -> Option<i64> {
    match text.strip_prefix(b"-") {
        None => form(text),
        Some(digits) => form(digits)
            .filter(|number| *number != 0)
            .map(|number| -number),
    }
}

fn values<const N: usize>(line: &[u8], minus: bool) -> Option<[i64; N]> {
    let mut numbers = [0; N];
    let mut parts = line.split(|byte| *byte == b' ');
    for (index, number) in numbers.iter_mut().enumerate() {
        let part = parts.next()?;
        *number = if index == 0 && minus {
            signed(part, value)?
        } else {
            value(part)?
        };
    }
    match parts.next() {
        None => Some(numbers),
        Some(_) => None,
    }
}

/// Reads and runs a book.
pub fn read(book: &[u8], survival: &mut dyn Survival) -> Answer {
    read_watched(book, survival, &mut |_, _| ())
}

/// The same; `watch` sees each month that runs, of a book refused later too.
pub fn read_watched(book: &[u8], survival: &mut dyn Survival, watch: Watch) -> Answer {
    match pass(book, survival, watch) {
        Ok((rows, last)) => Answer::Ran { rows, last },
        Err(refusal) => Answer::Refused(refusal),
    }
}

fn pass(
    book: &[u8],
    survival: &mut dyn Survival,
    watch: Watch,
) -> Result<(Vec<Row>, State), Refusal> {
    if book.len() > BOOK_LIMIT {
        return Err(Refusal {
            cause: Cause::BookTooLong,
            place: 0,
        });
    }
    let mut lines = Lines {
        rest: book,
        line: 0,
    };
    let fits = |count: i64| (1..=1_200).contains(&count);

    lines.head("SOIL", |count| count == 1)?;
    let [clay, depth, kind, dpm, rpm, bio, hum, iom] = lines.row(false)?;
    let soil = Soil {
        clay: clay as i128,
        depth: depth as i128,
        kind: kind as i128,
        pools: [dpm as u64, rpm as u64, bio as u64, hum as u64],
        inert: iom as u64,
    };
    soil.check().map_err(|cause| lines.refuse(cause))?;

    let weather_rows = lines.head("WEATHER", fits)?;
    let mut weather = Vec::with_capacity(weather_rows);
    for _ in 0..weather_rows {
        let [temperature, rain, evaporation] = lines.row(true)?;
        check_weather(temperature, rain, evaporation).map_err(|cause| lines.refuse(cause))?;
        weather.push([temperature, rain, evaporation]);
    }

    let land_rows = lines.head("LAND", fits)?;
    let mut state = State::new(soil);
    let mut rows = Vec::with_capacity(land_rows);
    for month in 0..land_rows {
        let [cover, plant, manure] = lines.row(false)?;
        check_land([cover, plant, manure, FRESH], state.soil.active())
            .map_err(|cause| lines.refuse(cause))?;
        let [temperature, rain, evaporation] = weather[month % weather_rows];
        let entries = Entries {
            temperature,
            rain,
            evaporation,
            source: OPEN_PAN,
            cover,
            plant,
            manure,
            activity: FRESH,
        };
        watch(&state, &entries);
        let (next, row) = run_month(&state, &entries, survival);
        state = next;
        rows.push(row);
    }
    if !lines.rest.is_empty() {
        lines.line += 1;
        return Err(lines.refuse(Cause::Form));
    }
    Ok((rows, state))
}

/// The program's output for an answer.
pub fn write(answer: &Answer) -> Vec<u8> {
    let text = match answer {
        Answer::Refused(refusal) => {
            format!("REFUSED {} {}\n", refusal.cause.number(), refusal.place)
        }
        Answer::Ran { rows, last } => {
            let mut text = format!("POOLS {}\n", rows.len());
            for (index, row) in rows.iter().enumerate() {
                text.push_str(&(index + 1).to_string());
                for number in row {
                    text.push_str(&format!(" {number}"));
                }
                text.push('\n');
            }
            text.push_str(&format!("TOTAL {} {}\n", last.soil.total(), last.co2));
            text
        }
    };
    text.into_bytes()
}

/// The program: a book's bytes to its output.
pub fn run(book: &[u8], survival: &mut dyn Survival) -> Vec<u8> {
    write(&read(book, survival))
}

#[cfg(test)]
mod tests {
    use super::*;
    use crate::model::Nearest;

    fn out(book: &str) -> String {
        String::from_utf8(run(book.as_bytes(), &mut Nearest)).unwrap()
    }

    #[test]
    fn values_and_their_form() {
        for (text, number) in [
            ("0", 0),
            ("1", 1),
            ("9999999999", 9_999_999_999),
            ("1000000000", 1_000_000_000),
        ] {
            assert_eq!(value(text.as_bytes()), Some(number));
        }
        for text in [
            "",
            "00",
            "01",
            "-1",
            "+1",
            "10000000000",
            "1 ",
            " 1",
            "1a",
            "\u{663}",
            "1.0",
            "0x1",
        ] {
            assert_eq!(value(text.as_bytes()), None, "{text:?}");
        }
        assert_eq!(signed(b"-5", value), Some(-5));
        assert_eq!(signed(b"-9999999999", value), Some(-9_999_999_999));
        for text in ["-0", "-05", "--5", "-", "+5", "- 5", "-00"] {
            assert_eq!(signed(text.as_bytes(), value), None, "{text:?}");
        }
    }

    #[test]
    fn january_1852() {
        let book = "SOIL 1\n234 23 1 153300 4485200 667100 25857600 2700000\nWEATHER 1\n\
            34 740 80\nLAND 1\n0 0 0\n";
        assert_eq!(
            out(book),
            "POOLS 1\n1 113937 4445447 665104 25855106 2700000 83606 0\nTOTAL 33779594 83606\n"
        );
    }

    #[test]
    fn lines_of_refusals() {
        let full = "SOIL 1\n234 23 1 1000000000 0 0 0 0\nWEATHER 1\n-60 0 0\n";
        assert_eq!(
            out(&format!("{full}LAND 1\n0 0 0\n")),
            "POOLS 1\n1 1000000000 0 0 0 0 0 0\nTOTAL 1000000000 0\n"
        );
        assert_eq!(out(&format!("{full}LAND 1\n0 1 0\n")), "REFUSED 17 6\n");
        assert_eq!(
            out(&format!("{full}LAND 2\n0 0 0\n0 0 1\n")),
            "REFUSED 17 7\n"
        );
        assert_eq!(out(&format!("{full}LAND 2\n0 0 1\nx\n")), "REFUSED 17 6\n");
        assert_eq!(out(&format!("{full}LAND 1\n0 1 0")), "REFUSED 2 6\n");
        assert_eq!(out(&format!("{full}LAND 1\n0 0 0\n\n")), "REFUSED 2 7\n");
        assert_eq!(out(&format!("{full}LAND 2\n0 0 0\n")), "REFUSED 2 7\n");
        assert_eq!(out(""), "REFUSED 2 1\n");
        assert_eq!(out("SOIL 2\n"), "REFUSED 3 1\n");
        assert_eq!(out("SOIL 2"), "REFUSED 2 1\n");
        assert_eq!(out(&"x".repeat(65_536)), "REFUSED 2 1\n");
        assert_eq!(out(&"x".repeat(65_537)), "REFUSED 1 0\n");
    }

    /// Any bytes end in one refusal line or in a full output.
    #[test]
    fn any_bytes_at_all() {
        let good = b"SOIL 1\n234 23 1 1533 44852 6671 258576 27000\nWEATHER 2\n-34 740 80\n\
            93 520 830\nLAND 2\n0 0 0\n1 610 9\n";
        let mut seed = 7u64;
        let mut draw = |limit: usize| {
            seed = seed
                .wrapping_mul(6_364_136_223_846_793_005)
                .wrapping_add(1_442_695_040_888_963_407);
            (seed >> 33) as usize % limit
        };
        let (mut ran, mut refused) = (0, 0);
        for _ in 0..20_000 {
            let mut book = good.to_vec();
            for _ in 0..1 + draw(2) {
                let place = draw(book.len());
                let byte = b"0123456789 -\n\r\tSx\x00\xff+"[draw(20)];
                match draw(3) {
                    0 => book[place] = byte,
                    1 => book.insert(place, byte),
                    _ => drop(book.remove(place)),
                }
            }
            let output = String::from_utf8(run(&book, &mut Nearest)).unwrap();
            assert!(output.ends_with('\n'));
            if output.starts_with("POOLS ") {
                ran += 1;
            } else {
                assert!(output.starts_with("REFUSED ") && output.lines().count() == 1);
                refused += 1;
            }
        }
        assert!(ran > 1_000 && refused > 1_000);
    }
}
