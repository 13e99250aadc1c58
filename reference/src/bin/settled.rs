//! Writes examples/light/settled.out: the two light fields of change 2026-05, from their books, by
//! the total alone, by the rule, and without a stop.

use reference::light;
use std::process::ExitCode;

fn main() -> ExitCode {
    match light::fields() {
        Ok(fields) => {
            print!("{}", light::settled(&fields));
            ExitCode::SUCCESS
        }
        Err(error) => {
            eprintln!("the light fields' books: {error}");
            ExitCode::FAILURE
        }
    }
}
