//! The weather office's table: bytes in, weather rows out. A line is
//! `month;temperature;rain;evapotranspiration`, and the earliest faulty line wins.

use crate::book::{signed, value};
use crate::model::{check_weather, Cause, Refusal, EVAPOTRANSPIRATION, ROW_LIMIT, WEATHER_NUMBERS};

/// Lines of a table, each with the byte 10 that ends it. Bytes after the last byte 10 are a line
/// too.
pub fn lines(table: &[u8]) -> Vec<&[u8]> {
    table.split_inclusive(|byte| *byte == b'\n').collect()
}

/// Reads a table: its rows go to the front of `output`, the rest stays as it was; says how many
/// there are. Order: 3 and 8 with place 0, then line by line 18, 13, 14. A refused table leaves
/// `output` as it was.
pub fn read(table: &[u8], output: &mut [i64]) -> Result<u64, Refusal> {
    let lines = lines(table);
    let outside = if !(1..=ROW_LIMIT).contains(&lines.len()) {
        Some(Cause::Count)
    } else if output.len() < lines.len() * WEATHER_NUMBERS {
        Some(Cause::OutputTooShort)
    } else {
        None
    };
    if let Some(cause) = outside {
        return Err(Refusal { cause, place: 0 });
    }
    let mut numbers = Vec::with_capacity(lines.len() * WEATHER_NUMBERS);
    for (line, place) in lines.iter().zip(1..) {
        numbers.extend(row(line, place).map_err(|cause| Refusal { cause, place })?);
    }
    output[..numbers.len()].copy_from_slice(&numbers);
    Ok(lines.len() as u64)
}

/// The weather row of a line: 18 for its form or its month, then 13 and 14.
fn row(line: &[u8], place: u64) -> Result<[i64; WEATHER_NUMBERS], Cause> {
    let (month, [temperature, rain, evaporation]) = fields(line).ok_or(Cause::TableLine)?;
    if month as u64 != place {
        return Err(Cause::TableLine);
    }
    check_weather(temperature, rain, evaporation)?;
    Ok([temperature, rain, evaporation, EVAPOTRANSPIRATION])
}

/// A line's month and its three numbers in tenths, if it has that form. The month has the book's
/// form of a value.
fn fields(line: &[u8]) -> Option<(i64, [i64; 3])> {
    let text = line.strip_suffix(b"\n")?;
    let parts: Vec<&[u8]> = text.split(|byte| *byte == b';').collect();
    let [month, temperature, rain, evaporation] = parts[..] else {
        return None;
    };
    Some((
        value(month)?,
        [
            signed(temperature, tenths)?,
            tenths(rain)?,
            tenths(evaporation)?,
        ],
    ))
}

/// A value, a dot and one digit: the number in tenths.
fn tenths(text: &[u8]) -> Option<i64> {
    let [whole @ .., b'.', digit @ b'0'..=b'9'] = text else {
        return None;
    };
    Some(value(whole)? * 10 + (digit - b'0') as i64)
}

/// A number in tenths as a table has it.
pub fn decimal(tenths: i64) -> String {
    let sign = if tenths < 0 { "-" } else { "" };
    let size = tenths.unsigned_abs();
    format!("{sign}{}.{}", size / 10, size % 10)
}

/// A table's line for this month, with its byte 10; the numbers are in tenths.
pub fn line(month: usize, numbers: [i64; 3]) -> String {
    let [temperature, rain, evaporation] = numbers.map(decimal);
    format!("{month};{temperature};{rain};{evaporation}\n")
}

#[cfg(test)]
mod tests {
    use super::*;

    /// Number and place of the refusal, or 0 and the rows; and the output, 9 before the call.
    fn given(table: &[u8], room: usize) -> (u8, u64, Vec<i64>) {
        let mut output = vec![9; room];
        let (number, place) = match read(table, &mut output) {
            Ok(rows) => (0, rows),
            Err(refusal) => (refusal.cause.number(), refusal.place),
        };
        (number, place, output)
    }

    fn refused(table: impl AsRef<[u8]>, room: usize) -> (u8, u64) {
        let (number, place, output) = given(table.as_ref(), room);
        assert!(number != 0 && output == vec![9; room]);
        (number, place)
    }

    #[test]
    fn tenths_and_their_form() {
        for (text, number) in [
            ("0.0", 0),
            ("0.5", 5),
            ("12.3", 123),
            ("10.0", 100),
            ("9999999999.9", 99_999_999_999),
        ] {
            assert_eq!(tenths(text.as_bytes()), Some(number));
            assert_eq!(signed(text.as_bytes(), tenths), Some(number));
            assert_eq!(decimal(number), text);
        }
        for (text, number) in [
            ("-0.5", -5),
            ("-12.3", -123),
            ("-10.0", -100),
            ("-9999999999.9", -99_999_999_999),
        ] {
            assert_eq!(signed(text.as_bytes(), tenths), Some(number));
            assert_eq!(tenths(text.as_bytes()), None);
            assert_eq!(decimal(number), text);
        }
        for text in [
            "",
            ".",
            "-",
            "-.",
            "-0.0",
            ".5",
            "-.5",
            "5",
            "-5",
            "5.",
            "05.0",
            "00.0",
            "-05.0",
            "1.25",
            "+1.0",
            "--1.0",
            "- 1.0",
            "1,0",
            "1.x",
            "1.-5",
            "1..0",
            "1.0.0",
            " 1.0",
            "1.0 ",
            "1e1.0",
            "10000000000.0",
            "\u{661}.0",
        ] {
            assert_eq!(signed(text.as_bytes(), tenths), None, "{text:?}");
            assert_eq!(tenths(text.as_bytes()), None, "{text:?}");
        }
    }

    #[test]
    fn tables() {
        let two = b"1;12.3;74.0;8.0\n2;-0.5;0.0;2000.0\n";
        let rows = [123, 740, 80, 1, -5, 0, 20_000, 1];
        assert_eq!(given(two, 8), (0, 2, rows.to_vec()));
        assert_eq!(given(two, 10), (0, 2, [&rows[..], &[9, 9]].concat()));
        assert_eq!(given(two, 7), (8, 0, vec![9; 7]));
        assert_eq!(line(2, [-5, 0, 20_000]).as_bytes(), &two[16..]);
        // No lines, and more than 1,200: before 8.
        assert_eq!(refused("", 0), (3, 0));
        assert_eq!(refused("\n".repeat(1_201), 0), (3, 0));
        assert_eq!(refused("\n".repeat(1_200) + "x", 0), (3, 0));
        assert_eq!(refused("\n".repeat(1_200), 4_799), (8, 0));
        assert_eq!(refused("\n".repeat(1_200), 4_800), (18, 1));
        let most: String = (1..=1_200).map(|month| line(month, [0; 3])).collect();
        let (number, rows, output) = given(most.as_bytes(), 4_800);
        assert_eq!(
            (number, rows, output),
            (0, 1_200, [0, 0, 0, 1].repeat(1_200))
        );
        // An unended line is counted for 8, and is 18 in its turn.
        let good = "1;1.0;1.0;1.0\n";
        assert_eq!(refused(format!("{good}2;1.0;1.0;1.0"), 7), (8, 0));
        assert_eq!(refused(format!("{good}2;1.0;1.0;1.0"), 8), (18, 2));
        assert_eq!(refused(format!("{good}{good}x"), 12), (18, 2));
        assert_eq!(refused(format!("{good}2;50.1;1.0;1.0\nx"), 12), (13, 2));
        assert_eq!(refused("x", 4), (18, 1));
        // Each line's 18, 13, 14; the month is the line's number.
        for (text, number) in [
            ("1;50.1;-1.0;0.0", 18),
            ("1;50.1;2000.1;0.0", 13),
            ("1;-40.1;0.0;0.0", 13),
            ("1;50.0;2000.1;0.0", 14),
            ("1;-40.0;0.0;2000.1", 14),
            ("1;9999999999.9;0.0;0.0", 13),
            ("1;0.0;9999999999.9;0.0", 14),
            ("2;0.0;0.0;0.0", 18),
            ("0;0.0;0.0;0.0", 18),
            ("01;0.0;0.0;0.0", 18),
            ("-1;0.0;0.0;0.0", 18),
            ("1.0;0.0;0.0;0.0", 18),
            ("1;0.0;0.0", 18),
            ("1;0.0;0.0;0.0;", 18),
            ("1;0.0;0.0;0.0;0.0", 18),
            ("1;0.0;0.0;0.0\r", 18),
            ("1;0.0;0.0;", 18),
            ("", 18),
        ] {
            assert_eq!(refused(format!("{text}\n"), 4), (number, 1), "{text}");
        }
    }
}
