//! Compares a program `judge` with the independent judge on many traces, the
//! independent judge's two deciders with each other, the programs that write and
//! move traces with the independent writer and mover, the verdicts of traces with
//! those of the moved ones, the programs that decide about traces, by the calls of
//! the upper library, with the independent decisions, what is said of claimed orders
//! with the independent answers, what is said of lists with what is said of them
//! here, and what is said with names with what is said so here.

use ferozhak_compare::cases::{self, Case};
use ferozhak_compare::encode::Writer;
use ferozhak_compare::generate::{self, Origin};
use ferozhak_compare::listing::listing_of;
use ferozhak_compare::moves;
use ferozhak_compare::process::{behind_length, kept, run_once, spawn};
use ferozhak_compare::random::Random;
use ferozhak_compare::report::{self, Finding, Level, Verdict};
use ferozhak_compare::scribes::Way;
use ferozhak_compare::trace::{has_list_records, Edition, Refusal, Status, Trace};
use ferozhak_compare::vectors::Vectors;
use ferozhak_compare::weave::{self, Judged};
use ferozhak_compare::workers::{self, add_each, Difference, Extent, Tally};
use ferozhak_compare::{brute, calls, claims, daemon, graph, laws, lists, naming, scribes};
use ferozhak_compare::{judge_text, judge_trace, Answer};
use std::io::{self, BufRead, BufReader, Write};
use std::process::{Child, ChildStdin, ChildStdout, ExitCode};

const USAGE: &str = "Usage:
  compare --judge COMMAND [options]    compares the program with the Rust judge: a run for each trace
  compare --stream COMMAND [options]   the same with the program `stream`: many traces a run
  compare --self [options]             compares the Rust judge's two deciders only, also on what counts as committed
                                       and on the writes of unclean reads, and its answers of the same transactions
                                       in both editions and woven together in another way, and what leads to what
                                       with what vectors say, and what is said of claimed orders and of lists
  compare --scribe COMMAND [options]   compares the program `scribe` with the Rust writer and mover: many items a run
  compare --writer COMMAND [options]   the same with the program `writer`: a run for each sequence of steps
  compare --rewrite COMMAND [options]  the same with the program `rewrite`: a run for each trace
  compare --to-1 COMMAND [options]     the same with the program `to_edition_1`
  compare --to-2 COMMAND [options]     the same with the program `to_edition_2`, whose standard error is compared too:
                                       it tells the number of notes
  compare --moves COMMAND --stream COMMAND [options]
                                       moves traces to both editions and back, by the program `scribe` and in Rust,
                                       and compares what the program `stream` says before and after; those that have
                                       notes also with other texts in them, and without them: many traces a run
  compare --calls COMMAND [options]    compares a program that makes the calls of the upper library with the decisions
                                       of the Rust judge, with all that the buffers hold: many items a run
  compare --daemon COMMAND --stream COMMAND [options]
                                       compares what the program `daemon` prints of a directory of traces, at each
                                       level, with the decisions of the Rust judge and with what the program `stream`
                                       says of each trace: a run a level
  compare --claims COMMAND [options]   compares what a program that makes the calls says of claimed orders with the
                                       answers of the Rust judge, with all that the buffer holds: many items a run
  compare --claim COMMAND [options]    the same with the program `claim`: a run for each claim, and some with arguments
                                       that say none
  compare --lists COMMAND [options]    compares what the program `lists` says of traces, most of them with lists, with
                                       the two answers of the Rust judge: a run for each trace
  compare --names COMMAND [options]    compares what the program `judge` says when it is given two names files, the own
                                       one and the shared one, with what the Rust judge says then, standard error too: a
                                       run for each pair of files, and some with arguments that are not two files
  compare --help                       this
A COMMAND is a program and its arguments, parted by spaces.
Half of the random traces are of edition 2, with transactions that overlap.
Options:
  --traces N    at least this many traces (default 100000); with --scribe, --writer, --rewrite, --to-1 and
                --to-2 this many random sequences and as many random traces, besides the known cases
                (default 300 for all of these but --scribe); with --calls, --claims, --claim, --lists and
                --daemon this many random traces, besides the known cases (default 120 for --claim, 300 for
                --lists, 2000 for --daemon); with --names this many random pairs of files, each with a trace,
                besides the known ones (default 300)
  --seed S      the seed of the random traces (default 1)
  --threads K   how many threads, each running one program at a time (default 1); not with --daemon, which
                has its own
";

/// What is compared.
enum Compared {
    Judges(Program),
    Writers(scribes::Program),
    Moves(moves::Programs),
    /// The command of a program that makes the calls.
    Calls(String),
    /// The same, for claimed orders.
    Claims(String),
    /// The command of the program `claim`.
    Claim(String),
    /// The command of the program `lists`.
    Lists(String),
    /// The command of the program `judge`, to be given names files.
    Names(String),
    Daemon(daemon::Programs),
}

/// What the Rust judge is compared with.
enum Program {
    /// Only its own second decider.
    None,
    /// A program that judges its standard input.
    Each(String),
    /// A program that judges a stream of traces.
    Stream(String),
}

/// A program that is compared with the help of the program `stream`, by its
/// command.
enum BesideStream {
    Moves(String),
    Daemon(String),
}

impl BesideStream {
    fn with(self, stream: String) -> Compared {
        match self {
            BesideStream::Moves(scribe) => {
                let scribe = scribes::Program::Scribe(scribe);
                Compared::Moves(moves::Programs { scribe, stream })
            }
            BesideStream::Daemon(daemon) => Compared::Daemon(daemon::Programs { daemon, stream }),
        }
    }
}

struct Options {
    compared: Compared,
    extent: Extent,
}

fn main() -> ExitCode {
    if std::env::args().nth(1).is_some_and(|word| word == "--help") {
        // Whether or not anyone still reads this.
        let _ = io::stdout().write_all(USAGE.as_bytes());
        return ExitCode::SUCCESS;
    }
    let options = match parse_options(std::env::args().skip(1)) {
        Ok(options) => options,
        Err(message) => {
            eprint!("compare: {message}\n{USAGE}");
            return ExitCode::from(2);
        }
    };
    let Options { compared, extent } = &options;
    let (mut out, difference) = match compared {
        Compared::Judges(program) => {
            let (summary, difference) = run(program, extent);
            (summary.describe(program, extent), difference)
        }
        Compared::Writers(program) => scribes::compare(program, extent),
        Compared::Moves(programs) => moves::compare(programs, extent),
        Compared::Calls(command) => calls::compare(command, extent),
        Compared::Claims(command) => claims::compare_calls(command, extent),
        Compared::Claim(command) => claims::compare_program(command, extent),
        Compared::Lists(command) => lists::compare(command, extent),
        Compared::Names(command) => naming::compare(command, extent),
        Compared::Daemon(programs) => daemon::compare(programs, extent),
    };
    if let Some(difference) = &difference {
        out.push_str(&difference.describe());
    }
    // Whether or not anyone still reads this, the exit number says the rest.
    let _ = io::stdout().write_all(out.as_bytes());
    match difference {
        None => ExitCode::SUCCESS,
        Some(_) => ExitCode::FAILURE,
    }
}

fn parse_options(mut words: impl Iterator<Item = String>) -> Result<Options, String> {
    let (mut compared, mut beside_stream) = (None, None);
    let (mut traces, mut seed, mut threads) = (None, 1, 1);
    let mut only_self = false;
    while let Some(word) = words.next() {
        if word == "--self" {
            only_self = true;
            continue;
        }
        let value = words.next().ok_or(format!("{word} needs a value"))?;
        let wrong = |_| format!("{word} {value} is not a number");
        let judges = |program| Some(Compared::Judges(program));
        let writers = |program| Some(Compared::Writers(program));
        match word.as_str() {
            "--judge" => compared = judges(Program::Each(value)),
            "--stream" => compared = judges(Program::Stream(value)),
            "--scribe" => compared = writers(scribes::Program::Scribe(value)),
            "--calls" => compared = Some(Compared::Calls(value)),
            "--claims" => compared = Some(Compared::Claims(value)),
            "--claim" => compared = Some(Compared::Claim(value)),
            "--lists" => compared = Some(Compared::Lists(value)),
            "--names" => compared = Some(Compared::Names(value)),
            "--moves" => beside_stream = Some(BesideStream::Moves(value)),
            "--daemon" => beside_stream = Some(BesideStream::Daemon(value)),
            "--traces" => traces = Some(value.parse().map_err(wrong)?),
            "--seed" => seed = value.parse().map_err(wrong)?,
            "--threads" => threads = value.parse::<usize>().map_err(wrong)?.max(1),
            _ => match Way::of_option(&word) {
                Some(way) => compared = writers(scribes::Program::Once(way, value)),
                None => return Err(format!("unknown option {word}")),
            },
        }
    }
    let compared = match (compared, beside_stream) {
        (None, None) if only_self => Compared::Judges(Program::None),
        (Some(compared), None) if !only_self => compared,
        (Some(Compared::Judges(Program::Stream(stream))), Some(beside)) if !only_self => {
            beside.with(stream)
        }
        _ => {
            return Err("give one of --judge COMMAND, --stream COMMAND, --self, \
                        --scribe COMMAND, --writer COMMAND, --rewrite COMMAND, \
                        --to-1 COMMAND, --to-2 COMMAND, --calls COMMAND, \
                        --claims COMMAND, --claim COMMAND, --lists COMMAND and \
                        --names COMMAND, or \
                        --stream COMMAND and one of --moves COMMAND and --daemon COMMAND"
                .into())
        }
    };
    // A run for each item takes its time.
    let usual = match compared {
        Compared::Writers(scribes::Program::Once(..)) => 300,
        Compared::Lists(_) | Compared::Names(_) => 300,
        Compared::Claim(_) => 120,
        // So does a file for each trace.
        Compared::Daemon(_) => 2_000,
        _ => 100_000,
    };
    let extent = Extent {
        traces: traces.unwrap_or(usual),
        seed,
        threads,
    };
    Ok(Options { compared, extent })
}

/// Judges all traces, up to the first difference.
fn run(program: &Program, extent: &Extent) -> (Summary, Option<Box<Difference>>) {
    let cases = cases::all();
    let start = || Judge::of(program);
    let check = |index: usize, judge: &mut Judge, summary: &mut Summary| {
        // Each trace has its own random stream, so that a run is the same
        // whatever the number of threads.
        let subject = match cases.get(index) {
            Some(case) => Subject::known(index, case),
            None => Subject::random(index, extent.seed),
        };
        subject.check(judge, summary)
    };
    let total = extent.traces.max(cases.len());
    workers::share(total, extent.threads, start, check)
}

/// A trace to be judged.
struct Subject {
    index: usize,
    name: String,
    origin: Origin,
    bytes: Vec<u8>,
    /// What must be printed, where that is known beforehand.
    expected: Option<String>,
}

impl Subject {
    fn known(index: usize, case: &Case) -> Subject {
        Subject {
            index,
            name: format!("case '{}'", case.name),
            origin: Origin::Case,
            bytes: case.bytes.clone(),
            expected: Some(case.output.clone()),
        }
    }

    fn random(index: usize, seed: u64) -> Subject {
        let (origin, bytes) = generate::any(&mut Random::new(seed, index as u64));
        Subject {
            index,
            name: format!("trace {index} of seed {seed}, {}", origin.describe()),
            origin,
            bytes,
            expected: None,
        }
    }

    fn check(self, judge: &mut Judge, summary: &mut Summary) -> Result<(), Box<Difference>> {
        let parsed = Trace::parse(&self.bytes);
        let answer = parsed.as_ref().map(judge_trace).map_err(|r| *r);
        let ours = report::print(&answer);
        summary.count(self.origin, &answer);
        summary.editions.count(&self.bytes, &answer);
        if let Some(expected) = &self.expected {
            if *expected != ours {
                let expected = expected.clone();
                return Err(self.differs("the expected answer", expected, "the graph", ours));
            }
        }
        if let (Ok(trace), Ok(verdicts)) = (&parsed, &answer) {
            let checked = check_counted(trace, summary)
                .and_then(|()| check_findings(trace, verdicts))
                .and_then(|()| check_orders(trace, verdicts, summary))
                .and_then(|()| check_choices(trace, verdicts, summary))
                .and_then(|()| self.check_vectors(trace, summary))
                .and_then(|()| self.check_claims(trace, verdicts, summary))
                .and_then(|()| self.check_lists(trace));
            if let Err(Deciders {
                tried,
                brute,
                graph,
            }) = checked
            {
                return Err(self.differs(tried, brute, "the graph", graph));
            }
            self.check_relatives(trace, verdicts, judge, summary)?;
        }
        self.check_program(judge, ours)
    }

    /// Vectors say the same as the graph of what leads to what, in some of the traces.
    fn check_vectors(&self, trace: &Trace, summary: &mut Summary) -> Result<(), Deciders> {
        const EACH: usize = 8;
        if !self.index.is_multiple_of(EACH) {
            return Ok(());
        }
        let pairs = graph::History::new(trace).basic_pairs();
        let vectors = Vectors::new(trace, &pairs);
        summary.vectors += 1;
        summary.vectors_cyclic += usize::from(pairs.form_cycle());
        let numbers = 1..=trace.transactions.len() as u8;
        let twos = numbers
            .clone()
            .flat_map(|a| numbers.clone().map(move |b| (a, b)));
        let mut different = twos.filter(|(a, b)| a != b);
        let other = different.find(|&(a, b)| vectors.says(a, b) != pairs.leads(a, b));
        let is_merged = match Vectors::merged(trace, &pairs) {
            Some(merged) => merged == vectors,
            None => pairs.form_cycle(),
        };
        match other.is_none() && is_merged {
            true => Ok(()),
            false => Err(Deciders {
                tried: "the latest known of every session",
                brute: format!("{vectors:?}\n"),
                graph: format!("otherwise of {other:?}, merged alike {is_merged}\n"),
            }),
        }
    }

    /// Claimed orders are answered as they have to be.
    fn check_claims(
        &self,
        trace: &Trace,
        verdicts: &[Verdict; 3],
        summary: &mut Summary,
    ) -> Result<(), Deciders> {
        let mut random = Random::new(3, self.index as u64);
        let checked = laws::check(&self.bytes, trace, verdicts, &mut random);
        let tried = checked.map_err(|message| Deciders {
            tried: "what has to hold of claimed orders",
            brute: message,
            graph: format!("{verdicts:?}\n"),
        })?;
        summary.claims.add(&tried);
        Ok(())
    }

    /// What is said of lists is what has to be said of them.
    fn check_lists(&self, trace: &Trace) -> Result<(), Deciders> {
        let listing = listing_of(trace);
        lists::check_listing(&self.bytes, trace, &listing).map_err(|message| Deciders {
            tried: "what has to hold of lists",
            brute: message,
            graph: format!("{listing:?}\n"),
        })
    }

    /// What the program prints is what the Rust judge prints.
    fn check_program(self, judge: &mut Judge, ours: String) -> Result<(), Box<Difference>> {
        let theirs = match judge.judge(&self.bytes) {
            Ok(None) => return Ok(()),
            Ok(Some(theirs)) if theirs == ours.as_bytes() => return Ok(()),
            Ok(Some(theirs)) => String::from_utf8_lossy(&theirs).into_owned(),
            Err(message) => format!("did not run: {message}\n"),
        };
        Err(self.differs("the program", theirs, "the Rust judge", ours))
    }

    /// The same transactions get the same text as blocks of either edition, and
    /// the same answer but for operation numbers however they overlap, and without
    /// their lists, which edition 1 has not. The program is asked of some of these
    /// traces too.
    fn check_relatives(
        &self,
        trace: &Trace,
        verdicts: &[Verdict; 3],
        judge: &mut Judge,
        summary: &mut Summary,
    ) -> Result<(), Box<Difference>> {
        const EACH_FOR_PROGRAM: usize = 8;
        let relatives = relatives(trace, self.index);
        let [one, two, woven] = relatives.each_ref().map(|bytes| judge_text(bytes));
        summary.relatives += 1;
        summary.relatives_woven += usize::from(weave::most_open(&relatives[2]) > 1);
        let judged = Judged { trace, verdicts };
        let names = ["blocks of edition 1", "blocks of edition 2", "woven anew"];
        for (name, bytes) in names.into_iter().zip(&relatives) {
            if !is_like(&judged, bytes) {
                let (said, ours) = (judge_text(bytes), format!("{verdicts:?}\n"));
                return Err(self
                    .relative(name, bytes)
                    .differs(name, said, "the trace", ours));
            }
        }
        if one != two && !trace.has_lists() {
            let relative = self.relative(names[1], &relatives[1]);
            return Err(relative.differs(names[1], two, names[0], one));
        }
        if self.index.is_multiple_of(EACH_FOR_PROGRAM) {
            for ((name, bytes), ours) in names.into_iter().zip(&relatives).zip([one, two, woven]) {
                self.relative(name, bytes).check_program(judge, ours)?;
            }
        }
        Ok(())
    }

    /// A trace that has the same transactions.
    fn relative(&self, name: &str, bytes: &[u8]) -> Subject {
        Subject {
            index: self.index,
            name: format!("{}, {name}", self.name),
            origin: self.origin,
            bytes: bytes.to_vec(),
            expected: None,
        }
    }

    fn differs(
        self,
        one: &'static str,
        said: String,
        other: &'static str,
        ours: String,
    ) -> Box<Difference> {
        Box::new(Difference {
            name: self.name,
            bytes: self.bytes,
            file: format!("{}.trace", self.index),
            beside: vec![],
            answers: [(one, said), (other, ours)],
        })
    }
}

/// The transactions of a trace as blocks of edition 1, without lists, as blocks of
/// edition 2, and woven together at random.
fn relatives(trace: &Trace, stream: usize) -> [Vec<u8>; 3] {
    let mut random = Random::new(2, stream as u64);
    let wholes = weave::wholes(trace);
    let serial = random.draw() as u32;
    let most = random.from_to(2, 16);
    let turns = weave::at_random(&mut random, most, 50);
    [
        weave::blocks(Edition::One, serial, &weave::without_lists(&wholes)),
        weave::blocks(Edition::Two, serial, &wholes),
        weave::weave(Writer::edition_2(serial), &wholes, turns),
    ]
}

/// Whether the bytes are a trace with the same answer but for numbers.
fn is_like(judged: &Judged, bytes: &[u8]) -> bool {
    let Ok(other) = Trace::parse(bytes) else {
        return false;
    };
    judged.is_like(&Judged {
        trace: &other,
        verdicts: &judge_trace(&other),
    })
}

/// What the graph says, and what was tried to contradict it.
struct Deciders {
    tried: &'static str,
    brute: String,
    graph: String,
}

/// What counts as committed is the smallest closed choice of outcomes. Where
/// there are too many to try, each unanswered one counts at least exactly if
/// another that counts reads it.
fn check_counted(trace: &Trace, summary: &mut Summary) -> Result<(), Deciders> {
    let ours = graph::counted(trace);
    for unanswered in trace.with_status(Status::Unanswered) {
        match ours.contains(&unanswered) {
            true => summary.counted += 1,
            false => summary.uncounted += 1,
        }
    }
    let differs = |tried, brute| Deciders {
        tried,
        brute,
        graph: format!("counted {ours:?}\n"),
    };
    if !brute::counts_exactly(trace, &ours) {
        let brute = "one counts that no other reads, or the reverse\n".into();
        return Err(differs("looking for readers", brute));
    }
    let Some(smallest) = brute::counted(trace) else {
        return Ok(());
    };
    summary.brute_counted += 1;
    match smallest == ours {
        true => Ok(()),
        false => Err(differs(
            "trying every set",
            format!("counted {smallest:?}\n"),
        )),
    }
}

/// The findings are those of plain search, and the last field of each is the
/// write that its kind speaks of, or 0; the trace may have any size.
fn check_findings(trace: &Trace, verdicts: &[Verdict; 3]) -> Result<(), Deciders> {
    let counted = graph::counted(trace);
    let searched = brute::findings(trace, &counted);
    for verdict in verdicts {
        let found = verdict.findings();
        if found != searched {
            return Err(Deciders {
                tried: "searching for each write",
                brute: format!("{searched:?}\n"),
                graph: format!("{found:?}\n"),
            });
        }
        let is_wrong = |finding: &&Finding| !brute::tells_write(trace, &counted, finding);
        if let Some(wrong) = found.iter().find(is_wrong) {
            return Err(Deciders {
                tried: "looking at each finding's write",
                brute: "not the only write of the value, or not where the kind says\n".into(),
                graph: format!("{wrong:?}\n"),
            });
        }
    }
    Ok(())
}

/// Each verdict is the one that trying every order gives, and it is acceptance
/// exactly if some choice of outcomes is accepted.
fn check_orders(
    trace: &Trace,
    verdicts: &[Verdict; 3],
    summary: &mut Summary,
) -> Result<(), Deciders> {
    for (level, verdict) in Level::ALL.into_iter().zip(verdicts) {
        let Some(outcome) = brute::judge(trace, level) else {
            break;
        };
        summary.brute += 1;
        // An order exists exactly if no pair is listed, whether or not there
        // are findings.
        let no_pair = match &outcome.verdict {
            Verdict::Accepted(_) => true,
            Verdict::Rejected { pairs, .. } => pairs.is_empty(),
        };
        if outcome.verdict != *verdict
            || outcome.order_exists != no_pair
            || outcome.some_choice != verdict.is_accepted()
        {
            let (exists, choice) = (outcome.order_exists, outcome.some_choice);
            let brute = &outcome.verdict;
            return Err(Deciders {
                tried: "trying every order",
                brute: format!("{level:?} {brute:?} order {exists} choice {choice}\n"),
                graph: format!("{level:?} {verdict:?}\n"),
            });
        }
    }
    Ok(())
}

/// A trace is accepted exactly if some choice of outcomes is; here each choice
/// is judged by the graph, as a trace without unanswered commits, so that the
/// trace may have any size.
fn check_choices(
    trace: &Trace,
    verdicts: &[Verdict; 3],
    summary: &mut Summary,
) -> Result<(), Deciders> {
    // Each more doubles the time.
    const MOST_UNANSWERED: usize = 5;
    let unanswered = trace.with_status(Status::Unanswered).count();
    if !(1..=MOST_UNANSWERED).contains(&unanswered) {
        return Ok(());
    }
    let mut some_choice = [false; 3];
    for choice in brute::answered(trace).into_iter().flatten() {
        let verdicts = judge_trace(&choice);
        for (some, verdict) in some_choice.iter_mut().zip(&verdicts) {
            *some |= verdict.is_accepted();
        }
    }
    summary.choices += 1;
    let accepted = verdicts.each_ref().map(Verdict::is_accepted);
    match some_choice == accepted {
        true => Ok(()),
        false => Err(Deciders {
            tried: "judging every choice of outcomes",
            brute: format!("accepted {some_choice:?}\n"),
            graph: format!("accepted {accepted:?}\n"),
        }),
    }
}

/// The program under comparison, as one worker holds it.
enum Judge {
    None,
    Each(String),
    Stream(Result<Stream, String>),
}

impl Judge {
    fn of(program: &Program) -> Judge {
        match program {
            Program::None => Judge::None,
            Program::Each(command) => Judge::Each(command.clone()),
            Program::Stream(command) => Judge::Stream(Stream::start(command)),
        }
    }

    /// What the program prints of the trace; None where there is no program.
    fn judge(&mut self, trace: &[u8]) -> Result<Option<Vec<u8>>, String> {
        match self {
            Judge::None => Ok(None),
            Judge::Each(command) => run_once(command, trace).map(Some),
            Judge::Stream(Ok(stream)) => stream.judge(trace).map(Some),
            Judge::Stream(Err(message)) => Err(message.clone()),
        }
    }
}

/// A run of the program `stream`: each trace goes in behind its length, 2 bytes
/// little-endian, and its answer comes out before a line `--`.
struct Stream {
    child: Child,
    input: ChildStdin,
    output: BufReader<ChildStdout>,
}

impl Stream {
    fn start(command: &str) -> Result<Stream, String> {
        let mut child = spawn(command)?;
        let input = child.stdin.take().expect("standard input is piped");
        let output = child.stdout.take().expect("standard output is piped");
        let output = BufReader::new(output);
        Ok(Stream {
            child,
            input,
            output,
        })
    }

    fn judge(&mut self, trace: &[u8]) -> Result<Vec<u8>, String> {
        let failed = |error: io::Error| error.to_string();
        let input = behind_length(kept(trace));
        self.input.write_all(&input).map_err(failed)?;
        self.input.flush().map_err(failed)?;
        let mut answer = Vec::new();
        loop {
            let from = answer.len();
            if self.output.read_until(b'\n', &mut answer).map_err(failed)? == 0 {
                return Err("ended before its answer did".into());
            }
            if &answer[from..] == b"--\n" {
                answer.truncate(from);
                return Ok(answer);
            }
        }
    }
}

impl Drop for Stream {
    fn drop(&mut self) {
        // Nothing is asked of it any more.
        let _ = self.child.kill();
        let _ = self.child.wait();
    }
}

/// How often each thing occurred.
#[derive(Default)]
struct Summary {
    origins: [usize; Origin::ALL.len()],
    accepted: [usize; 3],
    rejected: [usize; 3],
    editions: Editions,
    /// Findings by kind, in all traces.
    kinds: [usize; 7],
    /// Findings by where their write is.
    writes: Writes,
    /// Listed pairs by level and sum of reasons.
    reasons: [[usize; 16]; 3],
    /// Verdicts checked by trying every order.
    brute: usize,
    /// Traces whose counted transactions were checked by trying every set.
    brute_counted: usize,
    /// Traces of which each choice of outcomes was judged.
    choices: usize,
    /// Unanswered transactions that count as committed, and that do not.
    counted: usize,
    uncounted: usize,
    /// Traces whose transactions were judged in both editions and woven anew,
    /// and those of which two were open at once then.
    relatives: usize,
    relatives_woven: usize,
    /// Traces of which vectors were asked what leads to what, and those of them whose
    /// basic pairs form a cycle.
    vectors: usize,
    vectors_cyclic: usize,
    claims: laws::Tried,
}

/// How many traces are of edition 2, and what there is in each edition.
#[derive(Default)]
struct Editions {
    two: usize,
    /// Of edition 2, not refused, with two transactions open at once.
    overlapping: usize,
    /// The same, with eight.
    overlapping_8: usize,
    /// With lists, and those of them that are not refused.
    lists: usize,
    lists_read: usize,
    /// Refusals by edition and number.
    refusals: [[usize; Refusal::NUMBERS]; 2],
}

impl Editions {
    fn count(&mut self, bytes: &[u8], answer: &Answer) {
        let edition = Edition::of(bytes);
        match answer {
            Err(refusal) => self.refusals[edition as usize][usize::from(refusal.number)] += 1,
            Ok(_) if edition == Edition::Two => {
                let most_open = weave::most_open(bytes);
                self.overlapping += usize::from(most_open >= 2);
                self.overlapping_8 += usize::from(most_open >= 8);
            }
            Ok(_) => {}
        }
        self.two += usize::from(edition == Edition::Two);
        let has_lists = has_list_records(bytes);
        self.lists += usize::from(has_lists);
        self.lists_read += usize::from(has_lists && answer.is_ok());
    }

    fn add(&mut self, other: &Editions) {
        self.two += other.two;
        self.overlapping += other.overlapping;
        self.overlapping_8 += other.overlapping_8;
        self.lists += other.lists;
        self.lists_read += other.lists_read;
        for (to, from) in self.refusals.iter_mut().zip(&other.refusals) {
            add_each(to, from);
        }
    }

    fn describe(&self) -> Vec<String> {
        let [one, two] = &self.refusals;
        let refused: usize = two.iter().sum();
        let mut lines = vec![
            format!(
                "of edition 2: {} traces, {refused} of them refused; of the others {} have two \
                 transactions open at once, {} have eight",
                self.two, self.overlapping, self.overlapping_8
            ),
            format!(
                "with lists: {} traces, {} of them not refused",
                self.lists, self.lists_read
            ),
            "refusals by edition (1 and 12 to 14 cannot be given by the program):".into(),
        ];
        // Edition 1 has no lists.
        let of_lists = Some(17);
        for number in (2..=11).chain(of_lists) {
            let (one, two) = (one[number], two[number]);
            lines.push(format!("  {number:>2} {one:>9} {two:>9}"));
        }
        for (edition, refusals, more) in [(1, one, None), (2, two, of_lists)] {
            let missing: Vec<String> = (2..=11)
                .chain(more)
                .filter(|&number| refusals[number] == 0)
                .map(|number| number.to_string())
                .collect();
            lines.push(match missing.is_empty() {
                true => format!("  edition {edition}: every one occurred that can"),
                false => format!("  edition {edition}: did not occur: {}", missing.join(" ")),
            });
        }
        lines
    }
}

/// How many findings have no write, one before the read, one behind it, and one
/// whose number takes more than a byte.
#[derive(Default)]
struct Writes {
    none: usize,
    before: usize,
    behind: usize,
    above_255: usize,
}

impl Writes {
    fn count(&mut self, finding: &Finding) {
        let place = match finding.write {
            0 => &mut self.none,
            write if write < finding.operation => &mut self.before,
            _ => &mut self.behind,
        };
        *place += 1;
        self.above_255 += usize::from(finding.write > 255);
    }

    fn add(&mut self, other: &Writes) {
        self.none += other.none;
        self.before += other.before;
        self.behind += other.behind;
        self.above_255 += other.above_255;
    }

    fn describe(&self) -> String {
        format!(
            "  their writes: none {}, before the read {}, behind it {}; number above 255: {}",
            self.none, self.before, self.behind, self.above_255
        )
    }
}

impl Tally for Summary {
    fn add(&mut self, other: &Summary) {
        add_each(&mut self.origins, &other.origins);
        add_each(&mut self.accepted, &other.accepted);
        add_each(&mut self.rejected, &other.rejected);
        self.editions.add(&other.editions);
        add_each(&mut self.kinds, &other.kinds);
        self.writes.add(&other.writes);
        for (to, from) in self.reasons.iter_mut().zip(&other.reasons) {
            add_each(to, from);
        }
        self.brute += other.brute;
        self.brute_counted += other.brute_counted;
        self.choices += other.choices;
        self.counted += other.counted;
        self.uncounted += other.uncounted;
        self.relatives += other.relatives;
        self.relatives_woven += other.relatives_woven;
        self.vectors += other.vectors;
        self.vectors_cyclic += other.vectors_cyclic;
        self.claims.add(&other.claims);
    }
}

impl Summary {
    fn count(&mut self, origin: Origin, answer: &Answer) {
        self.origins[origin as usize] += 1;
        let Ok(verdicts) = answer else {
            return;
        };
        for (level, verdict) in verdicts.iter().enumerate() {
            match verdict {
                Verdict::Accepted(_) => self.accepted[level] += 1,
                Verdict::Rejected { findings, pairs } => {
                    self.rejected[level] += 1;
                    // Findings are the same at each level: counted once.
                    for finding in findings.iter().filter(|_| level == 0) {
                        self.kinds[usize::from(finding.kind)] += 1;
                        self.writes.count(finding);
                    }
                    for pair in pairs {
                        self.reasons[level][usize::from(pair.reasons)] += 1;
                    }
                }
            }
        }
    }

    fn describe(&self, program: &Program, extent: &Extent) -> String {
        let traces: usize = self.origins.iter().sum();
        let judges = match program {
            Program::Each(command) | Program::Stream(command) => {
                format!("by '{command}' and in Rust")
            }
            Program::None => "in Rust only".into(),
        };
        let mut lines = vec![
            format!("{traces} traces of seed {}, judged {judges}", extent.seed),
            format!("{} verdicts also by trying every order", self.brute),
            format!(
                "what counts in {} traces also by trying every set",
                self.brute_counted
            ),
            format!(
                "{} traces also by judging every choice of outcomes",
                self.choices
            ),
            format!(
                "{} traces also as blocks of both editions and woven anew, {} of these with two open at once",
                self.relatives, self.relatives_woven
            ),
            format!(
                "what leads to what in {} traces also by vectors, {} of these with a cycle",
                self.vectors, self.vectors_cyclic
            ),
            format!(
                "{} claims tried, {} with a yes, {} of all also by the axioms",
                self.claims.claims, self.claims.yes, self.claims.by_axioms
            ),
            "origins:".into(),
        ];
        for origin in Origin::ALL {
            let count = self.origins[origin as usize];
            lines.push(format!("  {:<26}{count:>9}", origin.describe()));
        }
        lines.push("verdicts:".into());
        for (index, level) in Level::ALL.iter().enumerate() {
            let (accepted, rejected) = (self.accepted[index], self.rejected[index]);
            let name = level.name();
            lines.push(format!(
                "  {name:<4}accepted {accepted:>9}, rejected {rejected:>9}"
            ));
        }
        lines.push(format!(
            "unanswered transactions: counted {}, not counted {}",
            self.counted, self.uncounted
        ));
        lines.extend(self.editions.describe());
        lines.push("findings by kind:".into());
        for kind in 1..=6 {
            lines.push(format!("  {kind:>2} {:>9}", self.kinds[kind]));
        }
        lines.push(self.writes.describe());
        lines.push("listed pairs by reason (1 start, 2 session, 4 read, 8 rival):".into());
        for (level, sums) in Level::ALL.iter().zip(&self.reasons) {
            let by_reason = [1, 2, 4, 8].map(|reason| {
                let with = |sum: &usize| sum & reason != 0;
                let count: usize = (0..16).filter(with).map(|sum| sums[sum]).sum();
                format!("{reason}: {count}")
            });
            lines.push(format!("  {:<4}{}", level.name(), by_reason.join(", ")));
        }
        let by_sum: Vec<String> = (1..16)
            .map(|sum| {
                (
                    sum,
                    self.reasons.iter().map(|sums| sums[sum]).sum::<usize>(),
                )
            })
            .filter(|&(_, count)| count != 0)
            .map(|(sum, count)| format!("{sum}: {count}"))
            .collect();
        lines.push(format!("  by sum, all levels: {}\n", by_sum.join(", ")));
        lines.join("\n")
    }
}
