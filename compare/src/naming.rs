//! Compares what the program `judge` says when it is given two names files with what is
//! said here, a run for each pair of files, and with arguments that are no such files.

use crate::directory::Directory;
use crate::judge_text;
use crate::name_cases::{self, NameCase};
use crate::name_files::{file_with, Damage, Drawn, MAX_RECORDS};
use crate::names::{judge_named, BothNames, NamedText, Names, RefusedFile, Whose};
use crate::process;
use crate::random::Random;
use crate::report::{Finding, Level};
use crate::text;
use crate::trace::{Edition, Refusal, Trace, MAX_BYTES, MAX_OPERATIONS};
use crate::workers::{self, add_each, Difference, Extent, Tally};
use crate::{graph, judge_all};
use std::io;

/// What the two files are called where nothing else is said.
const OWN: &str = "own.names";
const SHARED: &str = "shared.names";
const FILES: [&str; 2] = [OWN, SHARED];
/// Other names, as users may give their files, one file for both, and what is no file of
/// a disk but can be read: nothing is in it.
const OTHER_FILES: [[&str; 2]; 6] = [
    ["own names", "  shared  names "],
    ["-", "--"],
    ["'own' \"names\"", "$HOME *"],
    ["n\u{e4}mes", "names refused 3 0"],
    ["both.names", "both.names"],
    ["/dev/null", "/dev/null"],
];
/// What there is no file of.
const MISSING: &str = "missing.names";
/// The refusals that a names file can get.
const NUMBERS: [usize; 6] = [2, 3, 4, 6, 8, 18];

/// Compares all pairs, up to the first difference. Answers what there is to be said, and
/// the difference.
pub fn compare(command: &str, extent: &Extent) -> (String, Option<Box<Difference>>) {
    let known = known_runs();
    let total = known.len() + extent.traces;
    let check = |index: usize, held: &mut io::Result<Directory>, tally: &mut Outcomes| {
        // Each pair has its own random stream, so that a run is the same whatever the
        // number of threads.
        let random;
        let run = match known.get(index) {
            Some(run) => run,
            None => {
                random = Run::random(index, extent.seed);
                &random
            }
        };
        match held {
            Ok(directory) => run.check(command, directory, tally),
            Err(error) => Err(run.no_files(error)),
        }
    };
    let (tally, difference) = workers::share(total, extent.threads, Directory::new, check);
    (tally.describe(command, extent), difference)
}

/// A run of the program.
struct Run {
    name: String,
    own: Vec<u8>,
    shared: Vec<u8>,
    trace: Vec<u8>,
    way: Way,
}

/// What the program is given, and what is known beforehand of what it has to say.
enum Way {
    /// The two files by these names, and all that must be said.
    Known(&'static [&'static str; 2], NamedText),
    /// The two files, each with a damage or with none.
    Drawn([Damage; 2]),
    /// Something else, with which nothing is judged.
    NoPair(&'static NoPair),
}

/// Arguments that are not two files that can be read.
struct NoPair {
    /// Each is the name of a file in the directory, or of none; the empty one stands for
    /// the directory itself.
    given: &'static [&'static str],
    /// Those of them that cannot be read, one of which must be named.
    unread: &'static [&'static str],
}

const NO_PAIRS: [NoPair; 10] = {
    const fn no_pair(given: &'static [&'static str], unread: &'static [&'static str]) -> NoPair {
        NoPair { given, unread }
    }
    [
        no_pair(&[OWN], &[]),
        no_pair(&[MISSING], &[]),
        no_pair(&[OWN, SHARED, OWN], &[]),
        no_pair(&[OWN, SHARED, MISSING], &[]),
        no_pair(&[OWN, SHARED, OWN, SHARED], &[]),
        no_pair(&[MISSING, SHARED], &[MISSING]),
        no_pair(&[OWN, MISSING], &[MISSING]),
        no_pair(&["", SHARED], &[""]),
        no_pair(&[OWN, ""], &[""]),
        no_pair(&[MISSING, ""], &[MISSING, ""]),
    ]
};

/// The known pairs, those of files with other names, and what is no pair.
fn known_runs() -> Vec<Run> {
    let mut runs: Vec<Run> = name_cases::all().into_iter().map(Run::known).collect();
    runs.extend(OTHER_FILES.iter().flat_map(Run::with_other_files));
    // With nothing amiss otherwise, and with a file that would be refused.
    for own in [file_with(&[(1, "own")]), vec![7]] {
        runs.extend(
            NO_PAIRS
                .iter()
                .map(|no_pair| Run::no_pair(own.clone(), no_pair)),
        );
    }
    runs
}

impl Run {
    fn known(case: NameCase) -> Run {
        Run {
            name: format!("case '{}'", case.name),
            own: case.own,
            shared: case.shared,
            trace: case.trace,
            way: Way::Known(
                &FILES,
                NamedText {
                    output: case.output,
                    refused: case.refused,
                },
            ),
        }
    }

    /// A lawful file and one that is refused, by these names: both ways round, or in one
    /// file that stands for both.
    fn with_other_files(names: &'static [&'static str; 2]) -> Vec<Run> {
        let [lawful, cut] = [file_with(&[(1, "one")]), vec![7]];
        let run = |own: &[u8], shared: &[u8]| {
            let trace = text::encode(b"T1 r1=9").expect("a read");
            Run {
                name: format!("files with the names {names:?}"),
                way: Way::Known(names, judge_named(own, shared, &trace)),
                own: own.to_vec(),
                shared: shared.to_vec(),
                trace,
            }
        };
        match names {
            ["/dev/null", _] => vec![run(&[], &[])],
            [one, other] if one == other => vec![run(&lawful, &lawful), run(&cut, &cut)],
            _ => vec![run(&lawful, &cut), run(&cut, &lawful), run(&[], &lawful)],
        }
    }

    fn no_pair(own: Vec<u8>, no_pair: &'static NoPair) -> Run {
        Run {
            name: format!("arguments {:?} in a directory of names", no_pair.given),
            own,
            shared: file_with(&[(2, "shared")]),
            trace: text::encode(b"T1 w1=5; T2 r1=5 r2=9").expect("two transactions"),
            way: Way::NoPair(no_pair),
        }
    }

    fn random(number: usize, seed: u64) -> Run {
        let drawn = Drawn::new(&mut Random::new(seed, number as u64));
        let [own, shared] = drawn.damages.map(Damage::describe);
        Run {
            name: format!("pair {number} of seed {seed}, damage: own {own}, shared {shared}"),
            own: drawn.own,
            shared: drawn.shared,
            trace: drawn.trace,
            way: Way::Drawn(drawn.damages),
        }
    }

    fn check(
        &self,
        command: &str,
        directory: &Directory,
        tally: &mut Outcomes,
    ) -> Result<(), Box<Difference>> {
        let ours = judge_named(&self.own, &self.shared, &self.trace);
        self.check_here(&ours)?;
        let files = match self.way {
            Way::Known(files, _) => files,
            _ => &FILES,
        };
        self.put(directory, files)
            .map_err(|error| self.no_files(&error))?;
        let path = |name: &&str| directory.path_of(name).to_string_lossy().into_owned();
        match self.way {
            Way::NoPair(NoPair { given, unread }) => {
                let [given, unread] = [given, unread].map(|names| names.iter().map(path).collect());
                self.check_silent(command, given, unread)?;
                tally.no_pairs += 1;
            }
            _ => {
                let paths = files.each_ref().map(path);
                self.check_said(command, &paths, &ours)?;
                tally.count(self, &ours);
            }
        }
        Ok(())
    }

    fn put(&self, directory: &Directory, [own, shared]: &[&str; 2]) -> io::Result<()> {
        directory.write(own, &self.own)?;
        directory.write(shared, &self.shared)
    }

    /// What is known beforehand is said here; and without the ends of its lines it is what
    /// is said without names.
    fn check_here(&self, ours: &NamedText) -> Result<(), Box<Difference>> {
        let show = |text: &NamedText| {
            let error = text.refused.map(|refused| refused.line(FILES));
            Said::new(text.output.clone(), error.unwrap_or_default()).show()
        };
        match &self.way {
            Way::Known(_, expected) if expected != ours => {
                return Err(self.differs("the expected answer", show(expected), show(ours)));
            }
            _ => {}
        }
        let (plain, bare) = (judge_text(&self.trace), without_ends(&ours.output));
        match plain == bare {
            true => Ok(()),
            false => Err(self.differs("the judge without names", plain, bare)),
        }
    }

    /// The program says what is said here, on standard output and on standard error.
    fn check_said(
        &self,
        command: &str,
        paths: &[String; 2],
        ours: &NamedText,
    ) -> Result<(), Box<Difference>> {
        let line = |refused: RefusedFile| refused.line(paths.each_ref().map(String::as_str));
        let error = ours.refused.map(line).unwrap_or_default();
        let expected = Said::new(ours.output.clone(), error);
        let said = Said::of(command, paths, &self.trace);
        match said == expected {
            true => Ok(()),
            false => Err(self.differs("the program", said.show(), expected.show())),
        }
    }

    /// The program says nothing on standard output and something on standard error, which
    /// names one of these paths if there are any.
    fn check_silent(
        &self,
        command: &str,
        arguments: Vec<String>,
        unread: Vec<String>,
    ) -> Result<(), Box<Difference>> {
        let said = Said::of(command, &arguments, &self.trace);
        let is_named = unread.is_empty() || unread.iter().any(|path| said.error.contains(path));
        if said.output.is_empty() && !said.error.is_empty() && is_named && said.failure.is_none() {
            return Ok(());
        }
        let expected = match &unread[..] {
            [] => "nothing, and something on standard error\n".into(),
            some => format!("nothing, and on standard error one of {some:?}\n"),
        };
        Err(self.differs("the program", said.show(), expected))
    }

    fn no_files(&self, error: &io::Error) -> Box<Difference> {
        let asked = "two files to be written\n".into();
        self.differs("the temporary folder", format!("{error}\n"), asked)
    }

    fn differs(&self, one: &'static str, said: String, ours: String) -> Box<Difference> {
        let [own, shared] = FILES.map(String::from);
        Box::new(Difference {
            name: self.name.clone(),
            bytes: self.trace.clone(),
            file: "names.trace".into(),
            beside: vec![(own, self.own.clone()), (shared, self.shared.clone())],
            answers: [(one, said), ("the Rust judge", ours)],
        })
    }
}

/// What is printed with names, each line `read` up to its fourth number.
fn without_ends(text: &str) -> String {
    let lines = text.split_inclusive('\n').map(|line| {
        let ends_at = line.match_indices(' ').nth(4).map(|(at, _)| at);
        match ends_at.filter(|_| line.starts_with("read ")) {
            Some(at) => format!("{}\n", &line[..at]),
            None => line.into(),
        }
    });
    lines.collect()
}

/// What a run of the program comes to.
#[derive(PartialEq, Eq)]
struct Said {
    output: String,
    error: String,
    failure: Option<String>,
}

impl Said {
    fn new(output: String, error: String) -> Said {
        Said {
            output,
            error,
            failure: None,
        }
    }

    fn of(command: &str, arguments: &[String], trace: &[u8]) -> Said {
        let arguments: Vec<&str> = arguments.iter().map(String::as_str).collect();
        match process::run_keeping_error(command, &arguments, trace) {
            Ok(ended) => Said {
                output: shown(&ended.output),
                error: shown(&ended.error),
                failure: ended.failure,
            },
            Err(message) => Said {
                failure: Some(message),
                ..Said::new(String::new(), String::new())
            },
        }
    }

    fn show(&self) -> String {
        let Said {
            output,
            error,
            failure,
        } = self;
        let mut out = format!("{output}and on standard error:\n{error}");
        if let Some(message) = failure {
            out += &format!("did not run to its end: {message}\n");
        }
        out
    }
}

/// Bytes as text; those that are none are shown, so that they differ from any text.
fn shown(bytes: &[u8]) -> String {
    match std::str::from_utf8(bytes) {
        Ok(text) => text.into(),
        Err(_) => format!("no text: {}\n", bytes.escape_ascii()),
    }
}

/// How often each thing occurred.
#[derive(Default)]
struct Outcomes {
    known: usize,
    drawn: usize,
    /// What was done to each of the drawn files, own and shared.
    damages: [[usize; Damage::ALL.len()]; 2],
    /// Pairs of which none is refused.
    lawful: usize,
    /// The others, by file and number.
    refused: [[usize; Refusal::NUMBERS]; 2],
    /// Pairs that are both refused, of which the own one is told.
    both_refused: usize,
    /// Lines `read` that end in an own name, in a shared one and in a number.
    ends: [usize; 3],
    /// The own names among these that hide a shared one.
    hiding: usize,
    /// Lines whose keys are the least and the greatest.
    least: usize,
    greatest: usize,
    traces: Traces,
    /// Lawful files of as many records and of as many bytes as there can be.
    most_records: usize,
    most_bytes: usize,
    /// Runs with arguments that are not two files.
    no_pairs: usize,
}

/// What the traces are like.
#[derive(Default)]
struct Traces {
    refused: usize,
    accepted: usize,
    with_findings: usize,
    most_findings: usize,
    edition_2: usize,
}

impl Tally for Outcomes {
    fn add(&mut self, other: &Outcomes) {
        self.known += other.known;
        self.drawn += other.drawn;
        self.lawful += other.lawful;
        let rows = self.damages.iter_mut().zip(&other.damages);
        rows.for_each(|(to, from)| add_each(to, from));
        let rows = self.refused.iter_mut().zip(&other.refused);
        rows.for_each(|(to, from)| add_each(to, from));
        self.both_refused += other.both_refused;
        add_each(&mut self.ends, &other.ends);
        self.hiding += other.hiding;
        self.least += other.least;
        self.greatest += other.greatest;
        self.traces.add(&other.traces);
        self.most_records += other.most_records;
        self.most_bytes += other.most_bytes;
        self.no_pairs += other.no_pairs;
    }
}

impl Traces {
    fn add(&mut self, other: &Traces) {
        self.refused += other.refused;
        self.accepted += other.accepted;
        self.with_findings += other.with_findings;
        self.most_findings += other.most_findings;
        self.edition_2 += other.edition_2;
    }

    fn count(&mut self, bytes: &[u8]) {
        self.edition_2 += usize::from(Edition::of(bytes) == Edition::Two);
        match judge_all(bytes) {
            Err(_) => self.refused += 1,
            Ok(verdicts) => {
                let findings = verdicts[0].findings().len();
                let is_accepted = verdicts.iter().all(|verdict| verdict.is_accepted());
                self.accepted += usize::from(is_accepted);
                self.with_findings += usize::from(findings > 0);
                self.most_findings += usize::from(findings == MAX_OPERATIONS);
            }
        }
    }
}

impl Outcomes {
    fn count(&mut self, run: &Run, ours: &NamedText) {
        match run.way {
            Way::Drawn(damages) => {
                self.drawn += 1;
                for (row, damage) in self.damages.iter_mut().zip(damages) {
                    row[damage as usize] += 1;
                }
            }
            _ => self.known += 1,
        }
        match ours.refused {
            None => self.lawful += 1,
            Some(RefusedFile { whose, refusal }) => {
                self.refused[whose as usize][usize::from(refusal.number)] += 1;
                let is_other = whose == Whose::Own && Names::parse(&run.shared).is_err();
                self.both_refused += usize::from(is_other);
            }
        }
        self.traces.count(&run.trace);
        self.count_files(run);
        self.count_ends(run);
    }

    fn count_files(&mut self, run: &Run) {
        for file in [&run.own, &run.shared] {
            if let Ok(names) = Names::parse(file) {
                self.most_records += usize::from(names.entries().len() == MAX_RECORDS);
                self.most_bytes += usize::from(file.len() == MAX_BYTES);
            }
        }
    }

    /// Each line is there once a level.
    fn count_ends(&mut self, run: &Run) {
        let Ok(trace) = Trace::parse(&run.trace) else {
            return;
        };
        let names = BothNames::parse(&run.own, &run.shared).ok();
        let history = graph::History::new(&trace);
        let key = |finding: &Finding| trace.operation(finding.operation).key;
        for key in history.findings().iter().map(key) {
            let lines = Level::ALL.len();
            let found = names.as_ref().and_then(|names| names.find(key));
            let end = found.map_or(2, |(whose, _)| whose as usize);
            self.ends[end] += lines;
            let shared = names.as_ref().and_then(|names| names.shared.find(key));
            let is_hidden = end == Whose::Own as usize && shared.is_some();
            self.hiding += if is_hidden { lines } else { 0 };
            self.least += if key == 0 { lines } else { 0 };
            self.greatest += if key == u32::MAX { lines } else { 0 };
        }
    }

    fn describe(&self, command: &str, extent: &Extent) -> String {
        let pairs = self.known + self.drawn;
        let mut lines = vec![
            format!(
                "{pairs} pairs of names files of seed {}, {} of them random, read by '{command}' and in Rust",
                extent.seed, self.drawn
            ),
            format!("{:<28}{:>9}{:>9}", "random files:", "own", "shared"),
        ];
        let [own, shared] = &self.damages;
        for damage in Damage::ALL {
            let (own, shared) = (own[damage as usize], shared[damage as usize]);
            lines.push(format!("  {:<26}{own:>9}{shared:>9}", damage.describe()));
        }
        lines.push(format!("{:<28}{:>9}", "lawful pairs:", self.lawful));
        lines.push(format!("{:<28}{:>9}{:>9}", "refused:", "own", "shared"));
        let [own, shared] = &self.refused;
        for number in NUMBERS {
            lines.push(format!(
                "  {number:>2}{:>33}{:>9}",
                own[number], shared[number]
            ));
        }
        lines.push(format!(
            "  {:<26}{:>9}",
            "both, the own one told", self.both_refused
        ));
        let [own, shared, numbers] = self.ends;
        let traces = &self.traces;
        for (name, counts) in [
            (
                "lines 'read' that end:",
                vec![
                    ("in an own name", own),
                    ("that hides a shared one", self.hiding),
                    ("in a shared name", shared),
                    ("in a number", numbers),
                    ("of key 0", self.least),
                    ("of key 4294967295", self.greatest),
                ],
            ),
            (
                "traces:",
                vec![
                    ("refused", traces.refused),
                    ("accepted at all levels", traces.accepted),
                    ("with unclean reads", traces.with_findings),
                    ("with 1,024 of them", traces.most_findings),
                    ("of edition 2", traces.edition_2),
                ],
            ),
            (
                "lawful files:",
                vec![
                    ("of 3,640 records", self.most_records),
                    ("of 32,768 bytes", self.most_bytes),
                ],
            ),
        ] {
            lines.push(name.into());
            let each = |(name, count)| format!("  {name:<26}{count:>9}");
            lines.extend(counts.into_iter().map(each));
        }
        lines.push(format!(
            "runs with arguments that are not two files: {}",
            self.no_pairs
        ));
        lines.join("\n") + "\n"
    }
}
