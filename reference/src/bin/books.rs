//! Writes the test books: `input` (framed books), `output` (what the specification asks), `names`.

use reference::vectors::vectors;
use std::io::{self, BufWriter, Write};
use std::process::ExitCode;

fn main() -> ExitCode {
    let mode = std::env::args().nth(1).unwrap_or_default();
    if !["input", "output", "names"].contains(&mode.as_str()) {
        eprintln!("books input | output | names");
        return ExitCode::from(2);
    }
    let mut out = BufWriter::new(io::stdout().lock());
    let written = vectors()
        .iter()
        .enumerate()
        .try_for_each(|(index, vector)| match mode.as_str() {
            // The length in bytes, byte 10, the bytes of the book.
            "input" => {
                writeln!(out, "{}", vector.book.len())?;
                out.write_all(&vector.book)
            }
            "output" => out.write_all(&vector.output),
            _ => {
                let text = String::from_utf8_lossy(&vector.output);
                writeln!(
                    out,
                    "{} | {} | {}",
                    index + 1,
                    vector.name,
                    text.lines().next().unwrap_or("")
                )
            }
        });
    match written.and_then(|()| out.flush()) {
        Ok(()) => ExitCode::SUCCESS,
        Err(error) => {
            eprintln!("{error}");
            ExitCode::FAILURE
        }
    }
}
