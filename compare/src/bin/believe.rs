//! Prints what a reader has to believe, in one piece, or checks that it is closed. To be
//! run at the project's root.

use ferozhak_compare::believe::{compare_with, compose, parse_list, Project};
use std::fs;
use std::io::{self, Write};
use std::path::Path;
use std::process::ExitCode;

const USAGE: &str = "Usage:
  believe            the conditions and the definitions that they are made of, in reading order
  believe --lines    how many lines each chapter has
  believe --check    whether that text is closed, has nothing else, and is as long as PROMISES says
";

fn main() -> ExitCode {
    let arguments: Vec<String> = std::env::args().skip(1).collect();
    let words: Vec<&str> = arguments.iter().map(String::as_str).collect();
    match run(&words) {
        Ok(Some(text)) => match io::stdout().write_all(text.as_bytes()) {
            Ok(()) => ExitCode::SUCCESS,
            Err(_) => ExitCode::FAILURE,
        },
        Ok(None) => {
            eprint!("{USAGE}");
            ExitCode::from(2)
        }
        Err(faults) => {
            eprintln!("{faults}");
            ExitCode::FAILURE
        }
    }
}

fn run(words: &[&str]) -> Result<Option<String>, String> {
    let read = |path: &str| fs::read_to_string(path).map_err(|error| format!("{path}: {error}"));
    let list = parse_list(&read("docs/believe.txt")?)?;
    let project = Project::load(Path::new(".")).map_err(|error| format!("crates: {error}"))?;
    let text = compose(&project, &list);
    let lines = text.lines();
    match words {
        [] => Ok(Some(lines.join("\n") + "\n")),
        ["--lines"] => {
            let each = text.chapters.iter();
            let each = each.map(|(heading, lines)| format!("{:5} {heading}\n", lines.len()));
            Ok(Some(
                each.collect::<String>() + &format!("{:5} in all\n", lines.len()),
            ))
        }
        ["--check"] => {
            let mut faults = text.faults.clone();
            faults.extend(compare_with(&read("docs/PROMISES.md")?, &project, &text));
            match faults.is_empty() {
                true => Ok(Some(format!("believe: {} lines, closed\n", lines.len()))),
                false => Err(format!("believe:\n  {}", faults.join("\n  "))),
            }
        }
        _ => Ok(None),
    }
}
