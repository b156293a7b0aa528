//! Compares the program `daemon`, which decides about the files of a directory by
//! the calls of the upper library, with the independent decisions, and with what
//! the program `stream` prints of the same traces.

use crate::calls::Decisions;
use crate::cases::{self, Case};
use crate::deciding::{strongest_of, Counts, Outcome, Rooms};
use crate::directory::Directory;
use crate::generate;
use crate::process::{self, behind_length, kept};
use crate::random::Random;
use crate::report::{self, Level, Verdict};
use crate::trace::has_list_records;
use crate::workers::{Difference, Extent};
use crate::{judge_all, read_bounded, Answer};
use std::ffi::{OsStr, OsString};
use std::fs;
use std::io::{self, Write};
use std::path::Path;

/// How many traces go through one run of the program `stream`.
const TOGETHER: usize = 500;

/// Names of files beside those that are numbered. By their bytes, without signs,
/// they sort as they stand here: before the numbers or behind them all. Those that
/// have control bytes or a backslash are not printed as they are.
const OTHER_NAMES: [&str; 12] = [
    "\n00000: promote, findings 0",
    "\u{1f}\r",
    "!",
    "# hold, findings 1",
    "-1.trace",
    "00000",
    "B.trace",
    "_",
    "a b.trace",
    "b.trace",
    "b\\x0a\u{7f}",
    "é.trace",
];
/// A file that is left out for its name.
const HIDDEN_NAME: &str = ".00000.trace";
/// A file that is too long to be handed over whole.
const LONG_NAME: &str = "long.trace";
const LONG: usize = 100_000;

/// A name as the daemon prints it: control bytes and backslashes are escaped, so
/// that no name makes a line of its own.
pub fn printable(name: &[u8]) -> Vec<u8> {
    let shown = |&byte: &u8| match byte {
        0..=31 | 127 | b'\\' => format!("\\x{byte:02x}").into_bytes(),
        _ => vec![byte],
    };
    name.iter().flat_map(shown).collect()
}

/// What the daemon prints of a file, from behind its name on.
pub fn print(level: Level, answer: &Answer) -> String {
    let outcome = Outcome::of(answer, level.number(), &Rooms::AMPLE);
    let Counts {
        findings,
        pairs,
        order,
        refusal,
        place,
    } = outcome.counts();
    let decision = outcome.decision().name();
    let strongest = strongest_of(answer);
    let mut out = format!(
        ": {decision}, findings {findings}, pairs {pairs}, order {order}, \
         refusal {refusal}, place {place}, strongest {strongest}\n"
    );
    match outcome.0 {
        Ok(Verdict::Accepted(order)) => {
            let places = report::places(order);
            out += &format!("order{places}\n");
        }
        Ok(Verdict::Rejected { findings, pairs }) => report::print_lists(&mut out, findings, pairs),
        Err(_) => {}
    }
    out
}

/// What the daemon prints of a directory.
pub fn print_directory(level: Level, directory: &Path, mut output: impl Write) -> io::Result<()> {
    for name in visible_names(directory)? {
        let trace = read_bounded(fs::File::open(directory.join(&name))?)?;
        output.write_all(&printable(name.as_encoded_bytes()))?;
        output.write_all(print(level, &judge_all(&trace)).as_bytes())?;
    }
    output.flush()
}

/// The names in a directory that do not begin with a dot, sorted by their bytes.
fn visible_names(directory: &Path) -> io::Result<Vec<OsString>> {
    let mut names = Vec::new();
    for entry in fs::read_dir(directory)? {
        let name = entry?.file_name();
        if !name.as_encoded_bytes().starts_with(b".") {
            names.push(name);
        }
    }
    names.sort_by(|one, other| one.as_encoded_bytes().cmp(other.as_encoded_bytes()));
    Ok(names)
}

/// What `judge` prints of a trace, and a line with its strongest level, from what
/// the daemon prints of it behind the name at each of the levels; nothing where
/// no daemon prints so.
pub fn as_judged(printed: &[&str]) -> Option<String> {
    let printed: Option<Vec<Printed>> = printed.iter().map(|text| Printed::read(text)).collect();
    let printed = printed?;
    let strongest = printed.first()?.strongest;
    if printed.iter().any(|other| other.strongest != strongest) {
        return None;
    }
    let levels = Level::ALL.iter().zip(&printed);
    let blocks: Option<Vec<String>> = levels
        .map(|(level, printed)| printed.block(level.name()))
        .collect();
    let mut blocks = blocks?;
    // A refusal is printed once. No two other blocks are the same, since each
    // begins with its level's name.
    blocks.dedup();
    Some(with_strongest(&blocks.concat(), strongest))
}

fn with_strongest(judged: &str, strongest: u32) -> String {
    format!("{judged}strongest {strongest}\n")
}

/// What the daemon prints of a file at a level.
struct Printed<'a> {
    decision: &'a str,
    findings: u32,
    pairs: u32,
    order: u32,
    refusal: u32,
    place: u32,
    strongest: u32,
    /// The lines behind the first.
    lines: &'a str,
}

impl<'a> Printed<'a> {
    fn read(text: &'a str) -> Option<Printed<'a>> {
        let (head, lines) = text.strip_prefix(": ")?.split_once('\n')?;
        let mut fields = head.split(", ");
        let decision = fields.next()?;
        let mut number = |name| -> Option<u32> {
            let number = fields.next()?.strip_prefix(name)?.strip_prefix(' ')?;
            number.parse().ok()
        };
        Some(Printed {
            decision,
            findings: number("findings")?,
            pairs: number("pairs")?,
            order: number("order")?,
            refusal: number("refusal")?,
            place: number("place")?,
            strongest: number("strongest")?,
            lines,
        })
    }

    /// What `judge` prints at the level with this name, or of a refused trace.
    fn block(&self, level: &str) -> Option<String> {
        let (findings, pairs, lines) = (self.findings, self.pairs, self.lines);
        match self.decision {
            "promote" => {
                let places = lines.strip_prefix("order")?;
                let length = places.split_whitespace().count();
                (length == self.order as usize).then(|| format!("{level} accepted{places}"))
            }
            "hold" => Some(format!("{level} rejected {findings} {pairs}\n{lines}")),
            "no trace" => Some(format!("refused {} {}\n", self.refusal, self.place)),
            _ => None,
        }
    }
}

/// The programs that are compared.
pub struct Programs {
    /// Decides; the command of one that takes a level and a directory.
    pub daemon: String,
    /// Judges; the command of one that takes traces as `stream` does.
    pub stream: String,
}

/// Compares what is printed of all files, up to the first difference. Answers what
/// there is to be said, and the difference.
pub fn compare(programs: &Programs, extent: &Extent) -> (String, Option<Box<Difference>>) {
    let files = files(extent);
    let mut decisions = Decisions::default();
    let checked = check(programs, &files, &mut decisions);
    let mut lines = vec![format!(
        "{} files of seed {}, decided by '{}' at each level and in Rust, judged by '{}'",
        files.len(),
        extent.seed,
        programs.daemon,
        programs.stream
    )];
    let with_lists = files.iter().filter(|file| has_list_records(&file.trace));
    lines.push(format!("files with lists: {}", with_lists.count()));
    lines.extend(decisions.describe());
    (lines.join("\n") + "\n", checked.err())
}

/// A trace that the daemon finds in its directory.
struct File {
    name: String,
    /// Where the trace comes from.
    origin: String,
    trace: Vec<u8>,
    answer: Answer,
}

impl File {
    fn new(name: String, origin: String, trace: Vec<u8>) -> File {
        let answer = judge_all(&trace);
        File {
            name,
            origin,
            trace,
            answer,
        }
    }

    fn known(name: String, case: &Case) -> File {
        File::new(name, format!("case '{}'", case.name), case.bytes.clone())
    }

    /// Each number has its own random stream.
    fn random(name: String, number: usize, seed: u64) -> File {
        let (origin, trace) = generate::any(&mut Random::new(seed, number as u64));
        let origin = origin.describe();
        File::new(
            name,
            format!("trace {number} of seed {seed}, {origin}"),
            trace,
        )
    }

    /// What the daemon prints at the levels is what the judge prints.
    fn check_judged(&self, printed: &[&str], judged: &str) -> Result<(), Box<Difference>> {
        let strongest = report::read(judged).map(|answer| strongest_of(&answer));
        let expected = strongest.map(|strongest| with_strongest(judged, strongest));
        let rebuilt = as_judged(printed);
        if rebuilt.is_some() && rebuilt == expected {
            return Ok(());
        }
        let answers = [
            (
                "the daemon, printed as by the judge,",
                rebuilt.unwrap_or("no answer of a daemon\n".into()),
            ),
            ("the judge", expected.unwrap_or(judged.into())),
        ];
        Err(self.differs("decided and judged", answers))
    }

    fn differs(&self, what: &str, answers: [(&'static str, String); 2]) -> Box<Difference> {
        Box::new(Difference {
            name: format!("{}, the file '{}', {what}", self.origin, self.name),
            bytes: self.trace.clone(),
            file: self.name.clone(),
            beside: vec![],
            answers,
        })
    }
}

/// All files that the daemon has to find, in its order.
fn files(extent: &Extent) -> Vec<File> {
    let cases = cases::all();
    let numbered = cases.len() + extent.traces;
    // As many digits as make the names sort by number.
    let digits = numbered.to_string().len().max(5);
    let file = |number| {
        let name = format!("{number:0digits$}.trace");
        match cases.get(number) {
            Some(case) => File::known(name, case),
            None => File::random(name, number, extent.seed),
        }
    };
    let mut files: Vec<File> = (0..numbered).map(file).collect();
    for (number, name) in (numbered..).zip(OTHER_NAMES) {
        files.push(File::random(name.into(), number, extent.seed));
    }
    let long = File::new(LONG_NAME.into(), "a long file".into(), vec![0; LONG]);
    files.push(long);
    files.sort_by(|one, other| one.name.as_bytes().cmp(other.name.as_bytes()));
    files
}

/// A directory with just these files, and the hidden one.
fn directory_with(files: &[File]) -> io::Result<Directory> {
    let directory = Directory::new()?;
    for file in files {
        directory.write(&file.name, &file.trace)?;
    }
    directory.write(HIDDEN_NAME, &[])?;
    Ok(directory)
}

/// Asks both programs about all files, and compares.
fn check(
    programs: &Programs,
    files: &[File],
    decisions: &mut Decisions,
) -> Result<(), Box<Difference>> {
    let directory = directory_with(files).map_err(|error| {
        let said = ("the temporary folder", format!("{error}\n"));
        let asked = ("what was asked", format!("{} files\n", files.len()));
        run_differs(files, vec![], [said, asked])
    })?;
    let mut printed = Vec::new();
    for level in Level::ALL {
        let command = &programs.daemon;
        printed.push(check_decided(command, level, &directory, files, decisions)?);
    }
    let mut judged = Vec::new();
    for together in files.chunks(TOGETHER) {
        judged.extend(stream_answers(&programs.stream, together)?);
    }
    for (index, (file, text)) in files.iter().zip(&judged).enumerate() {
        let at_levels: Vec<&str> = printed.iter().map(|level| level[index].as_str()).collect();
        file.check_judged(&at_levels, text)?;
        decisions.count_strongest(&file.answer);
    }
    Ok(())
}

/// What the daemon prints of each file at this level, from behind the name on: it
/// is what has to be printed.
fn check_decided(
    command: &str,
    level: Level,
    directory: &Directory,
    files: &[File],
    decisions: &mut Decisions,
) -> Result<Vec<String>, Box<Difference>> {
    let number = level.number();
    let at_level = number.to_string();
    let arguments = [OsStr::new(&at_level), directory.path().as_os_str()];
    let text = match process::run_with(command, &arguments) {
        Ok(output) => String::from_utf8_lossy(&output).into_owned(),
        Err(message) => format!("did not run: {message}\n"),
    };
    let mut theirs = by_file(&text).into_iter();
    let mut printed = Vec::new();
    for file in files {
        let shown = printable(file.name.as_bytes());
        let name = String::from_utf8(shown).expect("names are text");
        let ours = name.clone() + &print(level, &file.answer);
        let said = theirs.next().unwrap_or("nothing more\n".into());
        if said != ours {
            let answers = [("the daemon", said), ("the Rust side", ours)];
            return Err(file.differs(&format!("at level {number}"), answers));
        }
        decisions.count(number, &Outcome::of(&file.answer, number, &Rooms::AMPLE));
        printed.push(said[name.len()..].into());
    }
    match (theirs.next(), files.last()) {
        (Some(more), Some(last)) => {
            let nothing = "nothing more\n".into();
            let answers = [("the daemon", more), ("the Rust side", nothing)];
            Err(last.differs(&format!("at level {number}, and behind it"), answers))
        }
        _ => Ok(printed),
    }
}

/// What is printed of each file: orders and lists belong to the file before them.
fn by_file(text: &str) -> Vec<String> {
    let mut files: Vec<String> = Vec::new();
    for line in text.split_inclusive('\n') {
        let words = ["order ", "read ", "pair "];
        let goes_on = words.iter().any(|word| line.starts_with(word));
        match files.last_mut() {
            Some(file) if goes_on => file.push_str(line),
            _ => files.push(line.into()),
        }
    }
    files
}

/// What the program `stream` prints of each of these files.
fn stream_answers(command: &str, files: &[File]) -> Result<Vec<String>, Box<Difference>> {
    let items = files
        .iter()
        .flat_map(|file| behind_length(kept(&file.trace)));
    let input: Vec<u8> = items.collect();
    process::stream_answers(command, &input, files.len()).map_err(|message| {
        let said = ("the judge", message + "\n");
        let asked = ("what was asked", format!("{} traces\n", files.len()));
        run_differs(files, input, [said, asked])
    })
}

/// A difference that no single one of the files accounts for.
fn run_differs(
    files: &[File],
    bytes: Vec<u8>,
    answers: [(&'static str, String); 2],
) -> Box<Difference> {
    let name = |file: Option<&File>| file.map_or("none", |file| &file.name).to_string();
    let (first, last) = (name(files.first()), name(files.last()));
    Box::new(Difference {
        name: format!("the files from '{first}' to '{last}'"),
        bytes,
        file: "traces".into(),
        beside: vec![],
        answers,
    })
}
