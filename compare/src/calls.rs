//! Compares a program that makes the calls of the upper library with the
//! independent decisions, byte for byte.
//!
//! [`crate::items`] says how the program is asked. The letter `d` asks for a decision:
//! its numbers are the level and the rooms of the findings, the pairs, the order and
//! the counts, and the trace follows. The letter `s` asks for the strongest level, and
//! the trace follows at once; no buffer is lent. The letter `c`, for a claimed order,
//! is that of [`crate::claims`].

use crate::cases::{self, Case};
use crate::claims::Claim;
use crate::deciding::{decide, strongest, strongest_of};
use crate::deciding::{Buffers, Counts, Decision, Outcome, Rooms, BUFFERS};
use crate::generate;
use crate::items::{check_run, Item, LONGEST, NO_LEVELS, NUMBERS_ROOMS, UNTOUCHED};
use crate::items::{drawn_level, drawn_numbers_room, head, number, put_bytes, replied};
use crate::items::{read_bytes, read_letter, read_number};
use crate::random::Random;
use crate::report::Level;
use crate::trace::{has_list_records, Refusal};
use crate::workers::{self, add_each, Difference, Extent, Tally};
use crate::{judge_all, Answer};
use std::io::{self, Read, Write};

/// How many traces go through one run of the program.
const TOGETHER: usize = 100;

/// What is asked about a trace.
pub enum Call {
    Decide { level: u32, rooms: Rooms },
    Strongest,
}

impl Call {
    /// The item as the program reads it.
    pub fn item(&self, trace: &[u8]) -> Vec<u8> {
        let mut item = match self {
            Call::Decide { level, rooms } => {
                let rooms = rooms.each().map(number);
                head(b'd', &[[*level].as_slice(), &rooms].concat())
            }
            Call::Strongest => head(b's', &[]),
        };
        put_bytes(&mut item, trace);
        item
    }

    /// Reads an item that begins with this letter, up to the trace's length.
    fn read(letter: u8, input: &mut impl Read) -> io::Result<Call> {
        match letter {
            b'd' => {
                let level = read_number(input)?;
                let mut rooms = [0; BUFFERS.len()];
                for room in &mut rooms {
                    *room = read_number(input)? as usize;
                }
                let rooms = Rooms::of_each(rooms);
                Ok(Call::Decide { level, rooms })
            }
            b's' => Ok(Call::Strongest),
            other => {
                let message = format!("nothing is asked by byte {other}");
                Err(io::Error::other(message))
            }
        }
    }

    /// What has to be answered, given what is said of the trace.
    pub fn reply(&self, answer: &Answer) -> Vec<u8> {
        match self {
            Call::Decide { level, rooms } => {
                let outcome = Outcome::of(answer, *level, rooms);
                let mut buffers = Buffers::full_of(UNTOUCHED, rooms);
                outcome.write(&mut buffers);
                replied(outcome.decision() as u32, &buffers.each())
            }
            Call::Strongest => replied(strongest_of(answer), &[]),
        }
    }

    /// The same of a trace that has not been judged: it is, for a decision at the level
    /// that is asked for and at no other.
    fn answer(&self, trace: &[u8]) -> Vec<u8> {
        match self {
            Call::Decide { level, rooms } => {
                let mut buffers = Buffers::full_of(UNTOUCHED, rooms);
                let decision = decide(trace, *level, &mut buffers);
                replied(decision as u32, &buffers.each())
            }
            Call::Strongest => replied(strongest(trace), &[]),
        }
    }

    fn describe(&self) -> String {
        match self {
            Call::Decide { level, rooms } => {
                let rooms = rooms.each().map(|room| room.to_string()).join(" ");
                format!("asked 'd' at level {level} with rooms {rooms}")
            }
            Call::Strongest => "asked 's'".into(),
        }
    }
}

/// Answers items as the program has to, by the independent judge.
pub fn serve(mut input: impl Read, mut output: impl Write) -> io::Result<()> {
    while let Some(letter) = read_letter(&mut input)? {
        let reply = match letter {
            b'c' => Claim::read(&mut input)?.answer(&read_bytes(&mut input)?),
            _ => Call::read(letter, &mut input)?.answer(&read_bytes(&mut input)?),
        };
        output.write_all(&reply)?;
    }
    output.flush()
}

/// Compares all items, up to the first difference. Answers what there is to be
/// said, and the difference.
pub fn compare(command: &str, extent: &Extent) -> (String, Option<Box<Difference>>) {
    let cases = cases::all();
    let total = cases.len() + extent.traces;
    let check = |run: usize, _: &mut (), tally: &mut Outcomes| {
        let numbers = run * TOGETHER..total.min((run + 1) * TOGETHER);
        let subject = |number| match cases.get(number) {
            Some(case) => Subject::known(case),
            None => Subject::random(number, extent.seed),
        };
        let subjects: Vec<Subject> = numbers.map(subject).collect();
        let items: Vec<Asked> = subjects.iter().flat_map(Subject::items).collect();
        check_run(command, &items, |item| tally.count(item))?;
        tally.traces += subjects.len();
        let with_lists = subjects.iter().filter(|s| has_list_records(&s.trace));
        tally.with_lists += with_lists.count();
        Ok(())
    };
    let runs = total.div_ceil(TOGETHER);
    let (tally, difference) = workers::share(runs, extent.threads, || (), check);
    (tally.describe(command, extent), difference)
}

/// A trace with all that is asked about it.
struct Subject {
    name: String,
    trace: Vec<u8>,
    answer: Answer,
    calls: Vec<Call>,
}

impl Subject {
    fn known(case: &Case) -> Subject {
        let answer = judge_all(&case.bytes);
        Subject {
            name: format!("case '{}'", case.name),
            trace: case.bytes.clone(),
            calls: telling_calls(&answer),
            answer,
        }
    }

    /// Each number has its own random stream, so that a run is the same whatever
    /// the number of threads.
    fn random(number: usize, seed: u64) -> Subject {
        let mut random = Random::new(seed, number as u64);
        let (origin, mut trace) = generate::any(&mut random);
        trace.truncate(LONGEST);
        let answer = judge_all(&trace);
        Subject {
            name: format!("trace {number} of seed {seed}, {}", origin.describe()),
            trace,
            calls: vec![drawn_call(&mut random, &answer), Call::Strongest],
            answer,
        }
    }

    fn items(&self) -> impl Iterator<Item = Asked<'_>> {
        let item = |call| Asked {
            subject: self,
            call,
        };
        self.calls.iter().map(item)
    }
}

/// One call on one trace.
struct Asked<'a> {
    subject: &'a Subject,
    call: &'a Call,
}

impl Item for Asked<'_> {
    fn name(&self) -> String {
        format!("{}, {}", self.subject.name, self.call.describe())
    }

    fn to_bytes(&self) -> Vec<u8> {
        self.call.item(&self.subject.trace)
    }

    fn reply(&self) -> Vec<u8> {
        self.call.reply(&self.subject.answer)
    }

    fn buffers(&self) -> Vec<(&'static str, usize)> {
        match self.call {
            Call::Decide { rooms, .. } => BUFFERS.into_iter().zip(rooms.each()).collect(),
            Call::Strongest => vec![],
        }
    }
}

/// All that is asked about a known case: at each level with the rooms that tell,
/// at other levels, and with every size of the counts.
fn telling_calls(answer: &Answer) -> Vec<Call> {
    let mut calls = vec![Call::Strongest];
    for level in Level::ALL.map(Level::number) {
        let rooms = telling_rooms(enough(answer, level));
        let calls_at = rooms.into_iter().map(|rooms| Call::Decide { level, rooms });
        calls.extend(calls_at);
    }
    for level in NO_LEVELS {
        let rooms = enough(answer, level);
        calls.push(Call::Decide { level, rooms });
    }
    for (counts, level) in NUMBERS_ROOMS.zip((1..=3).cycle()) {
        let rooms = enough(answer, level);
        let rooms = Rooms { counts, ..rooms };
        calls.push(Call::Decide { level, rooms });
    }
    calls
}

/// Just enough room for the answer at this level; where it is no level, for that
/// at any, so that it would show if one of them were given.
fn enough(answer: &Answer, level: u32) -> Rooms {
    let Ok(verdicts) = answer else {
        return Rooms::COUNTS_ONLY;
    };
    match Level::of_number(level) {
        Some(level) => Rooms::needed(&verdicts[level as usize]),
        None => {
            let each = verdicts.iter().map(Rooms::needed);
            each.fold(Rooms::COUNTS_ONLY, Rooms::for_both)
        }
    }
}

/// Ample rooms, just enough, a byte too little wherever there can be, and none.
fn telling_rooms(needed: Rooms) -> Vec<Rooms> {
    let byte_less = |room: usize| room.saturating_sub(1);
    let short = Rooms::of_each(needed.each().map(byte_less));
    let mut telling = vec![
        Rooms::AMPLE,
        needed,
        Rooms {
            findings: short.findings,
            ..needed
        },
        Rooms {
            pairs: short.pairs,
            ..needed
        },
        // Both lists: the findings are what is refused.
        Rooms {
            order: needed.order,
            counts: needed.counts,
            ..short
        },
        Rooms {
            order: short.order,
            ..needed
        },
        Rooms::COUNTS_ONLY,
        Rooms::default(),
    ];
    // Where nothing is needed, nothing is too little.
    let mut asked = Vec::new();
    telling.retain(|rooms| {
        let is_new = !asked.contains(rooms);
        asked.push(*rooms);
        is_new
    });
    telling
}

/// A decision at a random level, mostly one of the three, with rooms of all sorts.
fn drawn_call(random: &mut Random, answer: &Answer) -> Call {
    let level = drawn_level(random);
    let needed = enough(answer, level);
    let rooms = Rooms {
        findings: drawn_room(random, needed.findings, Rooms::AMPLE.findings),
        pairs: drawn_room(random, needed.pairs, Rooms::AMPLE.pairs),
        order: drawn_room(random, needed.order, Rooms::AMPLE.order),
        counts: drawn_numbers_room(random),
    };
    Call::Decide { level, rooms }
}

fn drawn_room(random: &mut Random, needed: usize, ample: usize) -> usize {
    match random.below(100) {
        0..=44 => needed,
        45..=52 => needed.saturating_sub(1),
        53..=56 => random.below(needed + 1),
        57..=60 => 0,
        61..=64 => random.below(24),
        65..=84 => needed + random.from_to(1, 24),
        _ => ample,
    }
}

/// How often each thing occurred.
#[derive(Default)]
struct Outcomes {
    traces: usize,
    with_lists: usize,
    decisions: Decisions,
    /// Decisions whose counts were not all written.
    cut: usize,
    /// Refused for one byte.
    byte_short: usize,
}

impl Tally for Outcomes {
    fn add(&mut self, other: &Outcomes) {
        self.traces += other.traces;
        self.with_lists += other.with_lists;
        self.decisions.add(&other.decisions);
        self.cut += other.cut;
        self.byte_short += other.byte_short;
    }
}

impl Outcomes {
    fn count(&mut self, item: &Asked) {
        let answer = &item.subject.answer;
        let Call::Decide { level, rooms } = item.call else {
            self.decisions.count_strongest(answer);
            return;
        };
        let outcome = Outcome::of(answer, *level, rooms);
        self.decisions.count(*level, &outcome);
        self.cut += usize::from(rooms.counts < Counts::SIZE);
        let room = match outcome.0 {
            Err(Refusal { number: 12, .. }) => rooms.findings,
            Err(Refusal { number: 13, .. }) => rooms.pairs,
            Err(Refusal { number: 14, .. }) => rooms.order,
            _ => return,
        };
        let is_byte_short = outcome.counts().place == number(room) + 1;
        self.byte_short += usize::from(is_byte_short);
    }

    fn describe(&self, command: &str, extent: &Extent) -> String {
        let mut lines = vec![format!(
            "{} items on {} traces of seed {}, answered by '{command}' and in Rust",
            self.decisions.items(),
            self.traces,
            extent.seed
        )];
        lines.push(format!("traces with lists: {}", self.with_lists));
        lines.extend(self.decisions.describe());
        lines.push(format!("buffers one byte too short: {}", self.byte_short));
        lines.push(format!("counts cut: {}", self.cut));
        lines.join("\n") + "\n"
    }
}

/// How often each thing was decided.
#[derive(Default)]
pub struct Decisions {
    /// By decision and by level; the last place is for numbers that are none.
    decided: [[usize; 4]; Decision::ALL.len()],
    refused: [usize; Refusal::NUMBERS],
    strongest: [usize; 4],
}

impl Decisions {
    pub fn count(&mut self, level: u32, outcome: &Outcome) {
        let column = Level::of_number(level).map_or(3, |level| level as usize);
        self.decided[outcome.decision() as usize - 1][column] += 1;
        if let Err(refusal) = outcome.0 {
            self.refused[usize::from(refusal.number)] += 1;
        }
    }

    pub fn count_strongest(&mut self, answer: &Answer) {
        self.strongest[strongest_of(answer) as usize] += 1;
    }

    fn add(&mut self, other: &Decisions) {
        for (to, from) in self.decided.iter_mut().zip(&other.decided) {
            add_each(to, from);
        }
        add_each(&mut self.refused, &other.refused);
        add_each(&mut self.strongest, &other.strongest);
    }

    fn items(&self) -> usize {
        let all = self.decided.iter().flatten().chain(&self.strongest);
        all.sum()
    }

    pub fn describe(&self) -> Vec<String> {
        let numbers = |counts: &[usize]| {
            let each = counts.iter().map(|count| format!("{count:>10}"));
            each.collect::<String>()
        };
        let mut lines = vec!["decisions by level:         1         2         3     other".into()];
        for (decision, levels) in Decision::ALL.iter().zip(&self.decided) {
            lines.push(format!("  {:<17}{}", decision.name(), numbers(levels)));
        }
        lines.push("strongest level:            0         1         2         3".into());
        lines.push(format!("  {:<17}{}", "answered", numbers(&self.strongest)));
        lines.push("refusals:".into());
        for number in (1..=14).chain([17]) {
            lines.push(format!("  {number:>2} {:>9}", self.refused[number]));
        }
        lines
    }
}
