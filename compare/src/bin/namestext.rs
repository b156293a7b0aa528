//! Turns lines into the bytes of a names file and back.

use ferozhak_compare::name_text;
use std::io::{self, Read, Write};
use std::process::ExitCode;

const USAGE: &str = "Usage:
  namestext encode < lines > names    the bytes of a names file from its lines
  namestext decode < names > lines    the lines of a names file that is not refused
  namestext --help                    this, and how the lines are written
";

fn main() -> ExitCode {
    let arguments: Vec<String> = std::env::args().skip(1).collect();
    let words: Vec<&str> = arguments.iter().map(String::as_str).collect();
    let done = match words[..] {
        ["encode"] => encode(),
        ["decode"] => decode(),
        ["--help" | "-h"] => put(format!("{USAGE}\n{}", name_text::GRAMMAR).as_bytes()),
        _ => {
            eprint!("{USAGE}");
            return ExitCode::from(2);
        }
    };
    match done {
        Ok(()) => ExitCode::SUCCESS,
        Err(message) => {
            eprintln!("{message}");
            ExitCode::FAILURE
        }
    }
}

/// Turns the lines on standard input into bytes on standard output.
fn encode() -> Result<(), String> {
    let mut lines = Vec::new();
    io::stdin().read_to_end(&mut lines).map_err(failed)?;
    let bytes = name_text::encode(&lines).map_err(|error| format!("namestext: {error}"))?;
    put(&bytes)
}

/// Turns the names file on standard input into lines on standard output.
fn decode() -> Result<(), String> {
    let bytes = ferozhak_compare::read_bounded(io::stdin().lock()).map_err(failed)?;
    let lines = name_text::decode(&bytes)
        .map_err(|refusal| format!("refused {} {}", refusal.number, refusal.place))?;
    put(lines.as_bytes())
}

fn put(bytes: &[u8]) -> Result<(), String> {
    io::stdout().write_all(bytes).map_err(failed)
}

fn failed(error: io::Error) -> String {
    format!("namestext: {error}")
}
