//! Drives the C library through include/rothc.h with the reference beside it:
//! `differ [seed [times]]`. The last line is `N compared, N differ`; status 1 if any differ.

use reference::differ::{Counts, Differ, Program};
use reference::light;
use std::path::{Path, PathBuf};
use std::process::ExitCode;
use std::time::Instant;

extern "C" {
    fn rothc_survival(n: u64, pool: u64) -> u64;
    fn rothc_survival_terms(n: u64, pool: u64, terms: *mut u64) -> u64;
    fn rothc_start(soil: *const u64, soil_len: usize, state: *mut u64, state_len: usize) -> u64;
    fn rothc_month(
        state: *mut u64,
        state_len: usize,
        number: u64,
        entries: *const i64,
        entries_len: usize,
        row: *mut u64,
        row_len: usize,
    ) -> u64;
    fn rothc_list(
        state: *mut u64,
        state_len: usize,
        weather: *const i64,
        weather_len: usize,
        land: *const i64,
        land_len: usize,
        rows: *mut u64,
        rows_len: usize,
        place: *mut u64,
    ) -> u64;
    fn rothc_spin_up(
        state: *mut u64,
        state_len: usize,
        weather: *const i64,
        weather_len: usize,
        land: *const i64,
        land_len: usize,
        years: u64,
        result: *mut u64,
        result_len: usize,
    ) -> u64;
    fn rothc_take_back(state: *mut u64, state_len: usize) -> u64;
    fn rothc_radiocarbon(
        state: *const u64,
        state_len: usize,
        pool: u64,
        report: *mut i64,
        report_len: usize,
    ) -> u64;
    fn rothc_age_survival(years: u64) -> u64;
    fn rothc_book(
        book: *const u8,
        book_len: usize,
        out: *mut u8,
        out_len: usize,
        length: *mut u64,
    ) -> u64;
    fn rothc_table(
        table: *const u8,
        table_len: usize,
        weather: *mut i64,
        weather_len: usize,
        rows: *mut u64,
        place: *mut u64,
    ) -> u64;
}

/// The C library. Each slice is lent with its own length, and none overlap: that is all the
/// header asks of the caller.
struct Library;

impl Program for Library {
    fn start(&mut self, soil: &[u64], state: &mut [u64]) -> u64 {
        unsafe { rothc_start(soil.as_ptr(), soil.len(), state.as_mut_ptr(), state.len()) }
    }

    fn month(&mut self, state: &mut [u64], number: u64, entries: &[i64], row: &mut [u64]) -> u64 {
        unsafe {
            rothc_month(
                state.as_mut_ptr(),
                state.len(),
                number,
                entries.as_ptr(),
                entries.len(),
                row.as_mut_ptr(),
                row.len(),
            )
        }
    }

    fn list(
        &mut self,
        state: &mut [u64],
        weather: &[i64],
        land: &[i64],
        rows: &mut [u64],
        place: &mut u64,
    ) -> u64 {
        unsafe {
            rothc_list(
                state.as_mut_ptr(),
                state.len(),
                weather.as_ptr(),
                weather.len(),
                land.as_ptr(),
                land.len(),
                rows.as_mut_ptr(),
                rows.len(),
                place,
            )
        }
    }

    fn spin_up(
        &mut self,
        state: &mut [u64],
        weather: &[i64],
        land: &[i64],
        years: u64,
        result: &mut [u64],
    ) -> u64 {
        unsafe {
            rothc_spin_up(
                state.as_mut_ptr(),
                state.len(),
                weather.as_ptr(),
                weather.len(),
                land.as_ptr(),
                land.len(),
                years,
                result.as_mut_ptr(),
                result.len(),
            )
        }
    }

    fn take_back(&mut self, state: &mut [u64]) -> u64 {
        unsafe { rothc_take_back(state.as_mut_ptr(), state.len()) }
    }

    fn radiocarbon(&mut self, state: &[u64], pool: u64, report: &mut [i64]) -> u64 {
        unsafe {
            rothc_radiocarbon(
                state.as_ptr(),
                state.len(),
                pool,
                report.as_mut_ptr(),
                report.len(),
            )
        }
    }

    fn book(&mut self, book: &[u8], out: &mut [u8], length: &mut u64) -> u64 {
        unsafe {
            rothc_book(
                book.as_ptr(),
                book.len(),
                out.as_mut_ptr(),
                out.len(),
                length,
            )
        }
    }

    fn table(&mut self, table: &[u8], weather: &mut [i64], rows: &mut u64, place: &mut u64) -> u64 {
        unsafe {
            rothc_table(
                table.as_ptr(),
                table.len(),
                weather.as_mut_ptr(),
                weather.len(),
                rows,
                place,
            )
        }
    }

    fn survival(&mut self, n: u64, pool: u64) -> u64 {
        unsafe { rothc_survival(n, pool) }
    }

    fn survival_terms(&mut self, n: u64, pool: u64, terms: &mut u64) -> u64 {
        unsafe { rothc_survival_terms(n, pool, terms) }
    }

    fn age_survival(&mut self, years: u64) -> u64 {
        unsafe { rothc_age_survival(years) }
    }
}

/// The example books of the repository, each with its output beside it.
fn examples() -> std::io::Result<Vec<(String, Vec<u8>, Vec<u8>)>> {
    let folder = Path::new(env!("CARGO_MANIFEST_DIR")).join("../examples");
    let mut found = Vec::new();
    for part in [
        folder.clone(),
        folder.join("light"),
        folder.join("refused"),
        folder.join("tables"),
    ] {
        let mut books: Vec<PathBuf> = std::fs::read_dir(part)?
            .map(|entry| Ok(entry?.path()))
            .collect::<std::io::Result<_>>()?;
        books.retain(|path| path.extension().is_some_and(|word| word == "book"));
        books.sort();
        for path in books {
            let name = path
                .file_stem()
                .unwrap_or_default()
                .to_string_lossy()
                .into_owned();
            found.push((
                name,
                std::fs::read(&path)?,
                std::fs::read(path.with_extension("out"))?,
            ));
        }
    }
    Ok(found)
}

fn main() -> ExitCode {
    let mut numbers = std::env::args().skip(1).map(|word| word.parse::<u64>());
    let (seed, times) = match (numbers.next(), numbers.next(), numbers.next()) {
        (None, None, None) => (1, 1),
        (Some(Ok(seed)), None, None) => (seed, 1),
        (Some(Ok(seed)), Some(Ok(times)), None) => (seed, times),
        _ => {
            eprintln!("differ [seed [times]]");
            return ExitCode::from(2);
        }
    };
    let counts = Counts::default();
    let counts = Counts {
        months: counts.months * times,
        lists: counts.lists * times,
        spin_ups: counts.spin_ups * times,
        books: counts.books * times,
        tables: counts.tables * times,
        pairs: counts.pairs * times,
        histories: counts.histories * times,
        takings_back: counts.takings_back * times,
        terms: counts.terms * times,
        reports: counts.reports * times,
        beside: counts.beside * times,
        ..counts
    };
    let start = Instant::now();
    let mut progress = |text: &str| eprintln!("{:6.1} s  {text}", start.elapsed().as_secs_f64());
    let mut library = Library;
    let (examples, fields) = match (examples(), light::fields()) {
        (Ok(examples), Ok(fields)) => (examples, fields),
        (Err(error), _) | (_, Err(error)) => {
            eprintln!("the examples: {error}");
            return ExitCode::from(2);
        }
    };
    let mut differ = Differ::new(&mut library, seed, &mut progress);
    for (name, book, output) in &examples {
        differ.example(name, book, output);
    }
    for field in fields.iter().chain([&light::hoosfield()]) {
        differ.light(field);
    }
    differ.run(&counts);
    for input in &differ.first {
        println!("{input}\n");
    }
    println!("{} compared, {} differ", differ.compared, differ.differ);
    if differ.differ == 0 {
        ExitCode::SUCCESS
    } else {
        ExitCode::FAILURE
    }
}
