//! Writes the test lines over numbers: `input` (a call a line, a table's bytes after its line),
//! `output` (its answer), `names` (a line for each group: how many lines it has and what they
//! show).

use reference::call_lines::groups;
use std::io::{self, BufWriter, Write};
use std::process::ExitCode;

fn main() -> ExitCode {
    let mode = std::env::args().nth(1).unwrap_or_default();
    if !["input", "output", "names"].contains(&mode.as_str()) {
        eprintln!("vectors input | output | names");
        return ExitCode::from(2);
    }
    let mut out = BufWriter::new(io::stdout().lock());
    let mut write = || -> io::Result<()> {
        for group in groups() {
            if mode == "names" {
                writeln!(out, "{} lines | {}", group.lines.len(), group.shows)?;
                continue;
            }
            for line in &group.lines {
                if mode == "input" {
                    out.write_all(&line.call.input())?;
                } else {
                    writeln!(out, "{}", line.call.answer_line(&line.answer))?;
                }
            }
        }
        out.flush()
    };
    match write() {
        Ok(()) => ExitCode::SUCCESS,
        Err(error) => {
            eprintln!("{error}");
            ExitCode::FAILURE
        }
    }
}
