//! Turns the specification's notation into the bytes of a trace and back, and
//! into steps to be written.

use ferozhak_compare::text;
use ferozhak_compare::trace::Refusal;
use std::io::{self, Read, Write};
use std::process::ExitCode;

const USAGE: &str = "Usage:
  tracetext encode < text > trace    the bytes of a trace from its text
  tracetext decode < trace > text    the text of a trace that is not refused
  tracetext operations < trace       its operations, a line each, by number
  tracetext steps < text > steps     the first serial and the steps, as `writer` reads them; of edition 1
  tracetext --help                   this, and how the text is written
";

fn main() -> ExitCode {
    let arguments: Vec<String> = std::env::args().skip(1).collect();
    let words: Vec<&str> = arguments.iter().map(String::as_str).collect();
    let done = match words[..] {
        ["encode"] => turn(text::encode),
        ["steps"] => turn(text::steps),
        ["decode"] => show(text::decode),
        ["operations"] => show(text::operations),
        ["--help" | "-h"] => io::stdout()
            .write_all(format!("{USAGE}\n{}", text::GRAMMAR).as_bytes())
            .map_err(|error| error.to_string()),
        _ => {
            eprint!("{USAGE}");
            return ExitCode::from(2);
        }
    };
    match done {
        Ok(()) => ExitCode::SUCCESS,
        Err(message) => {
            eprintln!("tracetext: {message}");
            ExitCode::FAILURE
        }
    }
}

/// Turns the text on standard input into bytes on standard output.
fn turn(into: fn(&[u8]) -> Result<Vec<u8>, text::TextError>) -> Result<(), String> {
    let mut input = Vec::new();
    io::stdin()
        .read_to_end(&mut input)
        .map_err(|error| error.to_string())?;
    let bytes = into(&input).map_err(|error| error.to_string())?;
    io::stdout()
        .write_all(&bytes)
        .map_err(|error| error.to_string())
}

/// Turns the trace on standard input into text on standard output.
fn show(into: fn(&[u8]) -> Result<String, Refusal>) -> Result<(), String> {
    let bytes =
        ferozhak_compare::read_bounded(io::stdin().lock()).map_err(|error| error.to_string())?;
    let text = into(&bytes).map_err(|refusal| {
        let (number, place, meaning) = (refusal.number, refusal.place, refusal.meaning());
        format!("the trace is refused {number} at byte {place}: {meaning}")
    })?;
    io::stdout()
        .write_all(text.as_bytes())
        .map_err(|error| error.to_string())
}
