//! The programs `scribe`, `writer`, `rewrite`, `to_edition_1` and `to_edition_2`,
//! by the independent writer and mover.
//!
//! Without arguments standard input has items: what is asked ('s', 'l', 'r', '1'
//! or '2'), the room and the length (2 bytes little-endian each), and that many
//! bytes. Each answer stands behind its length (2 bytes little-endian); behind an
//! answer to '2' stands the number of notes that the trace had (2 bytes
//! little-endian), 0 with a refusal. With `--writer` standard input is a starting
//! serial and steps, with `--rewrite`, `--to-1` and `--to-2` a trace, and standard
//! output is the one answer; with `--to-2` standard error is the line `notes N`,
//! or with a refusal nothing. If the last item is cut, what there is of its bytes
//! is taken; without all of its head it is none.

use ferozhak_compare::scribes::Way;
use ferozhak_compare::writing;
use std::io::{self, BufReader, Read, Write};
use std::process::ExitCode;

fn main() -> ExitCode {
    let words: Vec<String> = std::env::args().skip(1).collect();
    let way = match words.as_slice() {
        [option] => Way::of_option(option),
        _ => None,
    };
    let done = match way {
        Some(way) => once(way),
        None if words.is_empty() => scribe(),
        None => {
            eprintln!("usage: rustscribe [--writer | --rewrite | --to-1 | --to-2]");
            return ExitCode::from(2);
        }
    };
    match done {
        Ok(()) => ExitCode::SUCCESS,
        Err(error) => {
            eprintln!("rustscribe: {error}");
            ExitCode::from(2)
        }
    }
}

fn once(way: Way) -> io::Result<()> {
    let mut input = Vec::new();
    io::stdin().read_to_end(&mut input)?;
    let answer = way.answer(&input, usize::MAX);
    io::stdout().write_all(&writing::print(&answer.written))?;
    io::stderr().write_all(&answer.on_standard_error())
}

fn scribe() -> io::Result<()> {
    let mut input = BufReader::new(io::stdin().lock());
    let mut output = io::stdout().lock();
    let mut bytes = Vec::new();
    loop {
        let mut head = [0; 5];
        match input.read_exact(&mut head) {
            Err(error) if error.kind() == io::ErrorKind::UnexpectedEof => return Ok(()),
            other => other?,
        }
        let [asked, room @ .., _, _] = head;
        let length = u16::from_le_bytes([head[3], head[4]]);
        let way = Way::of_letter(asked)
            .ok_or_else(|| io::Error::other(format!("nothing is asked by byte {asked}")))?;
        bytes.clear();
        input.by_ref().take(length.into()).read_to_end(&mut bytes)?;
        let answer = way.answer(&bytes, u16::from_le_bytes(room).into());
        // One write an answer, seen at once by whoever waits for it.
        output.write_all(&answer.in_scribe())?;
        output.flush()?;
    }
}
