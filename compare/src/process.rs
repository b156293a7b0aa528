//! Running the programs under comparison.

use crate::trace::MAX_BYTES;
use std::ffi::OsStr;
use std::io::{self, Write};
use std::process::{Child, Command, Stdio};
use std::thread;

/// The command with its input and output piped; its standard error is passed
/// through.
pub fn spawn(command: &str) -> Result<Child, String> {
    start(command, &mut piped(command))
}

/// The same, not yet started.
fn piped(command: &str) -> Command {
    let mut words = command.split_whitespace();
    let mut piped = Command::new(words.next().unwrap_or_default());
    piped.args(words);
    piped.stdin(Stdio::piped()).stdout(Stdio::piped());
    piped
}

fn start(command: &str, piped: &mut Command) -> Result<Child, String> {
    piped.spawn().map_err(|error| format!("{command}: {error}"))
}

/// What the programs keep of their input: a byte above the limit is enough to
/// know that a trace is too long.
pub fn kept(trace: &[u8]) -> &[u8] {
    &trace[..trace.len().min(MAX_BYTES + 1)]
}

/// Bytes as the programs that take or give many at a time have them: behind
/// their length, 2 bytes little-endian.
pub fn behind_length(bytes: &[u8]) -> Vec<u8> {
    let length = u16::try_from(bytes.len()).expect("what is asked or answered is short");
    [&length.to_le_bytes(), bytes].concat()
}

/// What a program that has ended left behind.
pub struct Ended {
    pub output: Vec<u8>,
    /// What it has on standard error; empty where that was passed through.
    pub error: Vec<u8>,
    /// Why its output cannot be taken for an answer, if it cannot.
    pub failure: Option<String>,
}

impl Ended {
    /// Its standard output, if that can be taken for an answer.
    fn answer(self) -> Result<Vec<u8>, String> {
        match self.failure {
            None => Ok(self.output),
            Some(message) => Err(message),
        }
    }
}

/// Runs the program with these bytes as its standard input, and answers its
/// standard output.
pub fn run_once(command: &str, input: &[u8]) -> Result<Vec<u8>, String> {
    run_to_end(command, input)?.answer()
}

/// Runs the program with these arguments behind its own and nothing to read, and
/// answers its standard output.
pub fn run_with(command: &str, arguments: &[&OsStr]) -> Result<Vec<u8>, String> {
    let child = start(command, piped(command).args(arguments))?;
    feed(child, &[])?.answer()
}

/// Runs the program with these bytes as its standard input, and answers what it
/// printed even where it then failed.
pub fn run_to_end(command: &str, input: &[u8]) -> Result<Ended, String> {
    feed(spawn(command)?, input)
}

/// The same, with these arguments behind its own, and with its standard error kept as
/// a part of what it answers.
pub fn run_keeping_error(command: &str, arguments: &[&str], input: &[u8]) -> Result<Ended, String> {
    let mut piped = piped(command);
    piped.args(arguments).stderr(Stdio::piped());
    feed(start(command, &mut piped)?, input)
}

/// One run of the program `stream` over so many traces. Whether it answers each
/// at once or all at the end does not matter.
pub fn stream_answers(command: &str, traces: &[u8], asked: usize) -> Result<Vec<String>, String> {
    let output = run_once(command, traces)?;
    let text = String::from_utf8(output).map_err(|_| "its answer is no text")?;
    let texts: Vec<String> = text.split_terminator("--\n").map(String::from).collect();
    match texts.len() == asked && text.ends_with("--\n") {
        true => Ok(texts),
        false => Err(format!("{} answers", texts.len())),
    }
}

/// Gives the program its input, and waits for its end.
fn feed(mut child: Child, input: &[u8]) -> Result<Ended, String> {
    let mut stdin = child.stdin.take().expect("standard input is piped");
    thread::scope(|scope| {
        // Written beside the reading, so that neither side can block the
        // other, however much each has to say.
        let writing = scope.spawn(move || stdin.write_all(input));
        let output = child
            .wait_with_output()
            .map_err(|error| error.to_string())?;
        let failure = match writing.join().expect("the writer does not panic") {
            // A program may stop reading when it has seen enough.
            Err(error) if error.kind() != io::ErrorKind::BrokenPipe => {
                Some(format!("writing its input: {error}"))
            }
            // The specification gives no exit numbers, so any will do; but a
            // program that a signal ended has not answered.
            _ if output.status.code().is_none() => Some(format!("ended by {}", output.status)),
            _ => None,
        };
        Ok(Ended {
            output: output.stdout,
            error: output.stderr,
            failure,
        })
    })
}
