//! Compares what is said of claimed orders with the independent answers: by a program
//! that makes the calls of the upper library, byte for byte, and by the program `claim`.
//!
//! [`crate::items`] says how the first is asked. The letter `c` asks about a claim: its
//! numbers are the level and the room of the numbers that come with the answer, and the
//! claimed order and the trace follow. The second has the level and the claimed order as
//! its arguments, and the trace as its standard input.

use crate::cases::{self, Case};
use crate::claiming::{claim, Claimed};
use crate::generate;
use crate::items::{check_run, drawn_level, drawn_numbers_room, Item};
use crate::items::{head, number, put_bytes, read_bytes, read_number, replied};
use crate::items::{LONGEST, NO_LEVELS, NUMBERS_ROOMS, NUMBERS_SIZE, UNTOUCHED};
use crate::orders::{Basis, Way};
use crate::process;
use crate::random::Random;
use crate::report::{self, Level};
use crate::text;
use crate::trace::{has_list_records, Refusal, Trace, MAX_TRANSACTIONS};
use crate::workers::{self, add_each, Difference, Extent, Tally};
use std::io::{self, Read};

/// How many traces go through one run of the program that makes the calls.
const TOGETHER: usize = 100;
/// The most transactions besides 0 of a known trace that is asked about all orders.
const MOST_FOR_ALL: usize = 3;

/// Arguments of the program `claim` that say no claim.
const NO_CLAIMS: [&[&str]; 12] = [
    &[],
    &["xx", "0"],
    &["RA", "0"],
    &["1", "0"],
    &["0", "rc"],
    &["ra", ""],
    &["ra", "256"],
    &["ra", "0", "-1"],
    &["ra", "0", "+1"],
    &["ra", "0", "01"],
    &["rc", "0", "1x"],
    &["tcc", "0", "1000"],
];

/// What is asked about a trace.
pub struct Claim {
    pub level: u32,
    /// The claimed order, a byte a transaction.
    pub order: Vec<u8>,
    /// Bytes for the numbers that come with the answer.
    pub room: usize,
}

impl Claim {
    /// The item as the program reads it.
    pub fn item(&self, trace: &[u8]) -> Vec<u8> {
        let mut item = head(b'c', &[self.level, number(self.room)]);
        put_bytes(&mut item, &self.order);
        put_bytes(&mut item, trace);
        item
    }

    /// Reads an item from behind its letter up to the trace's length.
    pub fn read(input: &mut impl Read) -> io::Result<Claim> {
        Ok(Claim {
            level: read_number(input)?,
            room: read_number(input)? as usize,
            order: read_bytes(input)?,
        })
    }

    /// What has to be answered.
    pub fn answer(&self, trace: &[u8]) -> Vec<u8> {
        self.reply(&claim(trace, self.level, &self.order))
    }

    /// The reply that says so.
    fn reply(&self, claimed: &Claimed) -> Vec<u8> {
        let mut numbers = vec![UNTOUCHED; self.room];
        claimed.write(&mut numbers);
        replied(claimed.number(), &[&numbers])
    }
}

/// Compares a program that makes the calls, up to the first difference. Answers what
/// there is to be said, and the difference.
pub fn compare_calls(command: &str, extent: &Extent) -> (String, Option<Box<Difference>>) {
    let cases = cases::all();
    let total = cases.len() + extent.traces;
    let check = |run: usize, _: &mut (), tally: &mut Outcomes| {
        let numbers = run * TOGETHER..total.min((run + 1) * TOGETHER);
        let subject = |number| match cases.get(number) {
            Some(case) => Subject::known(case),
            None => Subject::random(number, extent.seed, drawn_level),
        };
        let subjects: Vec<Subject> = numbers.map(subject).collect();
        let items: Vec<Asked> = subjects.iter().flat_map(Subject::items).collect();
        check_run(command, &items, |item| tally.count(item.posed))?;
        tally.traces += subjects.len();
        let with_lists = subjects.iter().filter(|s| has_list_records(&s.trace));
        tally.with_lists += with_lists.count();
        Ok(())
    };
    let runs = total.div_ceil(TOGETHER);
    let (tally, difference) = workers::share(runs, extent.threads, || (), check);
    let cut = format!("numbers cut: {}\n", tally.cut);
    (tally.describe(command, extent) + &cut, difference)
}

/// A trace with all that is claimed about it.
struct Subject {
    name: String,
    trace: Vec<u8>,
    claims: Vec<Posed>,
}

/// A claim, how it came about, and what has to be said of it.
struct Posed {
    way: Way,
    claim: Claim,
    claimed: Claimed,
}

impl Posed {
    fn new(trace: &[u8], level: u32, room: usize, (way, order): (Way, Vec<u8>)) -> Posed {
        Posed {
            way,
            claimed: claim(trace, level, &order),
            claim: Claim { level, order, room },
        }
    }

    fn describe(&self) -> String {
        let (level, way) = (self.claim.level, self.way.describe());
        let order = shown(&self.claim.order);
        format!("at level {level} the claim, {way}:{order}")
    }
}

impl Subject {
    fn known(case: &Case) -> Subject {
        Subject {
            name: format!("case '{}'", case.name),
            trace: case.bytes.clone(),
            claims: telling_claims(&case.bytes),
        }
    }

    /// Each number has its own random stream, so that a run is the same whatever the
    /// number of threads.
    fn random(number: usize, seed: u64, draw_level: impl Fn(&mut Random) -> u32) -> Subject {
        let mut random = Random::new(seed, number as u64);
        let (origin, mut trace) = match random.percent(60) {
            true => generate::sound(&mut random),
            false => generate::any(&mut random),
        };
        trace.truncate(LONGEST);
        let level = draw_level(&mut random);
        // At no level a claim that would be right at one of them.
        let basis_level = Level::of_number(level).unwrap_or(*random.pick(&Level::ALL));
        let basis = Basis::new(&Trace::parse(&trace), basis_level);
        let drawn = basis.drawn(&mut random);
        let room = drawn_numbers_room(&mut random);
        Subject {
            name: format!("trace {number} of seed {seed}, {}", origin.describe()),
            claims: vec![Posed::new(&trace, level, room, drawn)],
            trace,
        }
    }

    fn items(&self) -> impl Iterator<Item = Asked<'_>> {
        let item = |posed| Asked {
            subject: self,
            posed,
        };
        self.claims.iter().map(item)
    }
}

/// One claim on one trace.
struct Asked<'a> {
    subject: &'a Subject,
    posed: &'a Posed,
}

impl Item for Asked<'_> {
    fn name(&self) -> String {
        let (name, claim) = (&self.subject.name, self.posed.describe());
        let room = self.posed.claim.room;
        format!("{name}, asked 'c' with room {room} {claim}")
    }

    fn to_bytes(&self) -> Vec<u8> {
        self.posed.claim.item(&self.subject.trace)
    }

    fn reply(&self) -> Vec<u8> {
        self.posed.claim.reply(&self.posed.claimed)
    }

    fn buffers(&self) -> Vec<(&'static str, usize)> {
        vec![("numbers", self.posed.claim.room)]
    }
}

/// A claimed order in print, of a long one the beginning: each byte behind a space.
fn shown(order: &[u8]) -> String {
    const MOST: usize = 200;
    match order.split_at_checked(MOST) {
        Some((first, rest)) => format!("{} and {} more", report::places(first), rest.len()),
        None => report::places(order),
    }
}

/// All that is asked about a known case: at each level claims of every way and, if
/// there are few, all orders; at other levels the right order; and with every room.
fn telling_claims(trace: &[u8]) -> Vec<Posed> {
    let mut random = Random::new(trace.len() as u64, 0);
    let parsed = Trace::parse(trace);
    let pose = |level, room, order| Posed::new(trace, level, room, order);
    let mut claims = Vec::new();
    for level in Level::ALL {
        let basis = Basis::new(&parsed, level);
        let ways = Way::ALL.map(|way| basis.made(&mut random, way));
        let all = all_orders(&basis.own).into_iter();
        let orders = ways
            .into_iter()
            .chain(all.map(|order| (Way::Shuffled, order)));
        claims.extend(orders.map(|order| pose(level.number(), NUMBERS_SIZE, order)));
    }
    let own = Basis::new(&parsed, Level::ReadCommitted).own;
    for level in NO_LEVELS {
        claims.push(pose(level, NUMBERS_SIZE, (Way::Own, own.clone())));
    }
    let mut backwards = own.clone();
    backwards[1..].reverse();
    for (room, level) in NUMBERS_ROOMS.zip((1..=3).cycle()) {
        claims.push(pose(level, room, (Way::Own, own.clone())));
        claims.push(pose(level, room, (Way::Shuffled, backwards.clone())));
    }
    claims
}

/// All orders of the same transactions that have 0 first; none if they are many.
fn all_orders(own: &[u8]) -> Vec<Vec<u8>> {
    if own.len() > 1 + MOST_FOR_ALL {
        return vec![];
    }
    let mut orders = vec![vec![0]];
    for _ in 1..own.len() {
        let longer = |order: Vec<u8>| {
            let left: Vec<u8> = own.iter().copied().filter(|t| !order.contains(t)).collect();
            left.into_iter().map(move |t| [&order[..], &[t]].concat())
        };
        orders = orders.into_iter().flat_map(longer).collect();
    }
    orders
}

/// Compares the program `claim`, up to the first difference: a run for each claim.
pub fn compare_program(command: &str, extent: &Extent) -> (String, Option<Box<Difference>>) {
    let known = known_runs();
    let total = known.len() + extent.traces;
    let check = |index: usize, _: &mut (), tally: &mut Outcomes| match known.get(index) {
        Some(run) => run.check(command, tally),
        None => {
            let at_level = |random: &mut Random| random.from_to(1, 3) as u32;
            let subject = Subject::random(index, extent.seed, at_level);
            Run::each(subject).try_for_each(|run| run.check(command, tally))
        }
    };
    let (tally, difference) = workers::share(total, extent.threads, || (), check);
    let no_claims = format!("runs whose arguments say no claim: {}\n", tally.no_claims);
    (tally.describe(command, extent) + &no_claims, difference)
}

/// A run of the program `claim`.
struct Run {
    name: String,
    trace: Vec<u8>,
    arguments: Vec<String>,
    /// The claim that the arguments say; nothing where they say none, so that there is
    /// nothing on standard output and something on standard error.
    posed: Option<Posed>,
}

impl Run {
    /// Each claim on this trace.
    fn each(subject: Subject) -> impl Iterator<Item = Run> {
        let Subject {
            name,
            trace,
            claims,
        } = subject;
        claims.into_iter().map(move |posed| {
            let level = Level::of_number(posed.claim.level).expect("a level that has a name");
            let mut arguments = vec![level.name().to_string()];
            arguments.extend(posed.claim.order.iter().map(u8::to_string));
            Run {
                name: format!("{name}, {}", posed.describe()),
                trace: trace.clone(),
                arguments,
                posed: Some(posed),
            }
        })
    }

    fn check(&self, command: &str, tally: &mut Outcomes) -> Result<(), Box<Difference>> {
        let (said, expected) = (self.said(command), self.expected());
        if said != expected {
            return Err(Box::new(Difference {
                name: self.name.clone(),
                bytes: self.trace.clone(),
                file: "claim.trace".into(),
                beside: vec![],
                answers: [
                    ("the program", said.show()),
                    ("the Rust side", expected.show()),
                ],
            }));
        }
        match &self.posed {
            Some(posed) => {
                tally.traces += 1;
                tally.with_lists += usize::from(has_list_records(&self.trace));
                tally.count(posed);
            }
            None => tally.no_claims += 1,
        }
        Ok(())
    }

    fn said(&self, command: &str) -> Said {
        let arguments: Vec<&str> = self.arguments.iter().map(String::as_str).collect();
        match process::run_keeping_error(command, &arguments, &self.trace) {
            Ok(ended) => Said {
                output: String::from_utf8_lossy(&ended.output).into_owned(),
                has_error: !ended.error.is_empty(),
                failure: ended.failure,
            },
            Err(message) => Said {
                failure: Some(message),
                ..Said::default()
            },
        }
    }

    fn expected(&self) -> Said {
        match &self.posed {
            Some(posed) => Said {
                output: posed.claimed.line(),
                ..Said::default()
            },
            None => Said {
                has_error: true,
                ..Said::default()
            },
        }
    }
}

/// What a run of the program comes to.
#[derive(Default, PartialEq, Eq)]
struct Said {
    output: String,
    /// Whether there is something on standard error.
    has_error: bool,
    failure: Option<String>,
}

impl Said {
    fn show(&self) -> String {
        let Said {
            output,
            has_error,
            failure,
        } = self;
        let error = match has_error {
            true => "something",
            false => "nothing",
        };
        let output = output.escape_default();
        let mut out = format!("\"{output}\", and {error} on standard error\n");
        if let Some(message) = failure {
            out += &format!("did not run to its end: {message}\n");
        }
        out
    }
}

/// Runs with arguments that say no claim, one with very many, and the traces of the
/// document, each at the three levels.
fn known_runs() -> Vec<Run> {
    let trace = text::encode(b"T1; T2; T3").expect("three transactions");
    let no_claim = |arguments: &&[&str]| Run {
        name: format!("three transactions with the arguments {arguments:?}"),
        trace: trace.clone(),
        arguments: arguments.iter().map(|word| word.to_string()).collect(),
        posed: None,
    };
    let mut runs: Vec<Run> = NO_CLAIMS.iter().map(no_claim).collect();
    let many: Vec<u8> = (0..=3).cycle().take(1_000).collect();
    let mut subjects = vec![Subject {
        name: "three transactions".into(),
        claims: vec![Posed::new(&trace, 1, 0, (Way::Lengthened, many))],
        trace,
    }];
    subjects.extend(cases::document().into_iter().map(own_at_each_level));
    runs.extend(subjects.into_iter().flat_map(Run::each));
    runs
}

/// A case with the judge's own order at each level.
fn own_at_each_level(case: Case) -> Subject {
    let parsed = Trace::parse(&case.bytes);
    let own = Level::ALL.map(|level| {
        let own = Basis::new(&parsed, level).own;
        Posed::new(&case.bytes, level.number(), 0, (Way::Own, own))
    });
    Subject {
        name: format!("case '{}'", case.name),
        trace: case.bytes,
        claims: own.into(),
    }
}

/// How often each thing occurred.
#[derive(Default)]
struct Outcomes {
    traces: usize,
    with_lists: usize,
    /// By level and by answer; the last row is for numbers that are no levels.
    by_level: [[usize; Claimed::NAMES.len()]; 4],
    /// By way of making and by answer.
    by_way: [[usize; Claimed::NAMES.len()]; Way::ALL.len()],
    refused: [usize; Refusal::NUMBERS],
    /// Claims longer than any right one.
    long: usize,
    /// Answers whose numbers were not all written.
    cut: usize,
    /// Runs whose arguments said no claim.
    no_claims: usize,
}

impl Tally for Outcomes {
    fn add(&mut self, other: &Outcomes) {
        self.traces += other.traces;
        self.with_lists += other.with_lists;
        let rows = self.by_level.iter_mut().chain(&mut self.by_way);
        for (to, from) in rows.zip(other.by_level.iter().chain(&other.by_way)) {
            add_each(to, from);
        }
        add_each(&mut self.refused, &other.refused);
        self.long += other.long;
        self.cut += other.cut;
        self.no_claims += other.no_claims;
    }
}

impl Outcomes {
    fn count(&mut self, posed: &Posed) {
        let Posed {
            way,
            claim,
            claimed,
        } = posed;
        let row = Level::of_number(claim.level).map_or(3, |level| level as usize);
        let answer = claimed.number() as usize - 1;
        self.by_level[row][answer] += 1;
        self.by_way[*way as usize][answer] += 1;
        if let Claimed::Refused(refusal) = claimed {
            self.refused[usize::from(refusal.number)] += 1;
        }
        self.long += usize::from(claim.order.len() > MAX_TRANSACTIONS + 1);
        self.cut += usize::from(claim.room < NUMBERS_SIZE);
    }

    fn describe(&self, command: &str, extent: &Extent) -> String {
        let claims: usize = self.by_level.iter().flatten().sum();
        let mut lines = vec![format!(
            "{claims} claims on {} traces of seed {}, answered by '{command}' and in Rust",
            self.traces, extent.seed
        )];
        lines.push(format!("traces with lists: {}", self.with_lists));
        let names = Claimed::NAMES.map(|name| format!("{name:>12}")).concat();
        let row = |name: &str, counts: &[usize]| {
            let each = counts.iter().map(|count| format!("{count:>12}"));
            format!("  {name:<24}{}", each.collect::<String>())
        };
        lines.push(format!("{:<26}{names}", "answers by level:"));
        for (name, counts) in ["1", "2", "3", "other"].iter().zip(&self.by_level) {
            lines.push(row(name, counts));
        }
        lines.push(format!("{:<26}{names}", "by way of making:"));
        for (way, counts) in Way::ALL.iter().zip(&self.by_way) {
            lines.push(row(way.describe(), counts));
        }
        lines.push("refusals:".into());
        for number in (1..=11).chain([17]) {
            lines.push(format!("  {number:>2} {:>9}", self.refused[number]));
        }
        lines.push(format!("claims longer than 128 bytes: {}", self.long));
        lines.join("\n") + "\n"
    }
}
