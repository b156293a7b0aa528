//! The programs `judge` and `stream`, by the independent judge: standard input
//! is a trace, or with `--stream` traces behind their lengths (2 bytes
//! little-endian); standard output is the answer, or each answer before a line
//! `--`. If the last trace of a stream is cut, what there is of it is judged.
//!
//! With two files as arguments, a host's own names file and the shared one, each line
//! `read` ends in the name of its key, or else in the key.
//!
//! With `--lists` it says what the program `lists` does of the trace's lists. With
//! `--calls` it answers items as a program that makes the calls of the upper library,
//! with `--daemon` it decides about the files of a directory as the program `daemon`,
//! and with `--claim` it says what the program `claim` does of a claimed order on the
//! trace.

use ferozhak_compare::claiming::{self, claim};
use ferozhak_compare::names::judge_named;
use ferozhak_compare::report::Level;
use ferozhak_compare::{calls, daemon};
use std::fs::File;
use std::io::{self, BufReader, BufWriter, Read, Write};
use std::path::Path;
use std::process::ExitCode;

const USAGE: &str = "usage: rustjudge [OWN SHARED | --stream | --lists | --calls | --daemon LEVEL DIRECTORY | --claim rc|ra|tcc T..]";

fn main() -> ExitCode {
    let words: Vec<String> = std::env::args().skip(1).collect();
    let words: Vec<&str> = words.iter().map(String::as_str).collect();
    let done = match words[..] {
        [] => Some(run(ferozhak_compare::judge_text)),
        ["--lists"] => Some(run(ferozhak_compare::list_text)),
        ["--stream"] => Some(stream()),
        ["--calls"] => Some(calls::serve(
            BufReader::new(io::stdin().lock()),
            BufWriter::new(io::stdout().lock()),
        )),
        ["--daemon", level, directory] => Some(decide(level, Path::new(directory))),
        ["--claim", ref words @ ..] => {
            claiming::arguments(words).map(|(level, order)| answer(level, &order))
        }
        [own, shared] if !own.starts_with("--") => Some(name(own, shared)),
        _ => None,
    };
    match done {
        Some(Ok(())) => ExitCode::SUCCESS,
        Some(Err(error)) => {
            eprintln!("rustjudge: {error}");
            ExitCode::from(2)
        }
        None => {
            eprintln!("{USAGE}");
            ExitCode::from(2)
        }
    }
}

/// Prints what is said of the one trace on standard input.
fn run(said: fn(&[u8]) -> String) -> io::Result<()> {
    let bytes = ferozhak_compare::read_bounded(io::stdin().lock())?;
    io::stdout().write_all(said(&bytes).as_bytes())
}

/// Prints what is said of the one trace on standard input with the names of these two
/// files, both of which are read before anything is said.
fn name(own: &str, shared: &str) -> io::Result<()> {
    let (own_bytes, shared_bytes) = (read_names(own)?, read_names(shared)?);
    let trace = ferozhak_compare::read_bounded(io::stdin().lock())?;
    let said = judge_named(&own_bytes, &shared_bytes, &trace);
    if let Some(refused) = &said.refused {
        io::stderr().write_all(refused.line([own, shared]).as_bytes())?;
    }
    io::stdout().write_all(said.output.as_bytes())
}

/// What is kept of a names file; what goes wrong is said with its path.
fn read_names(path: &str) -> io::Result<Vec<u8>> {
    File::open(path)
        .and_then(ferozhak_compare::read_beginning)
        .map_err(|error| io::Error::other(format!("{path}: {error}")))
}

fn stream() -> io::Result<()> {
    let mut input = BufReader::new(io::stdin().lock());
    let mut output = BufWriter::new(io::stdout().lock());
    let mut trace = Vec::new();
    loop {
        let mut length = [0; 2];
        match input.read_exact(&mut length) {
            Err(error) if error.kind() == io::ErrorKind::UnexpectedEof => return output.flush(),
            other => other?,
        }
        trace.clear();
        let length = u16::from_le_bytes(length);
        input.by_ref().take(length.into()).read_to_end(&mut trace)?;
        output.write_all(ferozhak_compare::judge_text(&trace).as_bytes())?;
        output.write_all(b"--\n")?;
        // Where no more has come yet, somebody may be waiting for the answer.
        if input.buffer().is_empty() {
            output.flush()?;
        }
    }
}

fn decide(level: &str, directory: &Path) -> io::Result<()> {
    let number = level.parse().map_err(io::Error::other)?;
    let level = Level::of_number(number).ok_or(io::Error::other("no such level"))?;
    let output = BufWriter::new(io::stdout().lock());
    daemon::print_directory(level, directory, output)
}

fn answer(level: Level, order: &[u8]) -> io::Result<()> {
    let bytes = ferozhak_compare::read_bounded(io::stdin().lock())?;
    let claimed = claim(&bytes, level.number(), order);
    io::stdout().write_all(claimed.line().as_bytes())
}
