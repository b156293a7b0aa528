//! Compares the programs `scribe`, `writer`, `rewrite`, `to_edition_1` and
//! `to_edition_2` with the independent writer and mover, and these with the
//! reader.

use crate::cases;
use crate::generate;
use crate::moving;
use crate::note_cases::{self, NoteCase};
use crate::process::{self, behind_length, kept};
use crate::random::Random;
use crate::sequence_cases;
use crate::sequences::{self, Origin};
use crate::trace::{
    self, Action, Edition, Operation, Refusal, Status, Trace, Transaction, CLOSE, MAX_OPERATIONS,
    MAX_TRANSACTIONS, OPEN, WRITE,
};
use crate::workers::{self, add_each, alike, must, show_bytes, Difference, Extent, Tally};
use crate::writing::{
    first_serial, print, read_unchecked, rewrite, steps_of, steps_to_bytes, write_input, Step,
    STEP_SIZE,
};

/// Room for everything that can be written.
pub const AMPLE: u16 = u16::MAX;
/// Bytes of a number of notes in an answer of the program `scribe`.
const NOTES_SIZE: usize = size_of::<u16>();

/// The program that is compared.
pub enum Program {
    /// `scribe`: many items a run.
    Scribe(String),
    /// One that can be asked in one way only: a run for each sequence or trace,
    /// with ample room.
    Once(Way, String),
}

impl Program {
    pub fn command(&self) -> &str {
        match self {
            Program::Scribe(command) | Program::Once(_, command) => command,
        }
    }

    /// How many numbers are asked together; each gives some items.
    fn together(&self) -> usize {
        match self {
            Program::Scribe(_) => 200,
            Program::Once(..) => 1,
        }
    }

    fn takes(&self, way: Way) -> bool {
        match self {
            Program::Scribe(_) => true,
            Program::Once(its_way, _) => way == *its_way,
        }
    }

    /// The refusals that it can give this way: 16 needs a room of choice, and 17 and 20
    /// need lists.
    fn refusals(&self, way: Way) -> Vec<usize> {
        let mut numbers: Vec<usize> = match way {
            Way::Steps => vec![3, 6, 7, 8, 9, 10],
            Way::List | Way::Rewrite | Way::ToEdition1 | Way::ToEdition2 => (2..=11).collect(),
        };
        if let Program::Scribe(_) = self {
            numbers.push(16);
        }
        numbers.extend((way != Way::Steps).then_some(17));
        numbers.extend((way == Way::ToEdition1).then_some(20));
        numbers
    }

    /// What each of the items gets: an answer, or why there is none.
    fn answers(&self, items: &[Item]) -> Vec<Result<Said, String>> {
        match self {
            Program::Scribe(command) => scribe_answers(command, items),
            Program::Once(way, command) => items
                .iter()
                .map(|item| once_answer(*way, command, &item.bytes))
                .collect(),
        }
    }

    /// What it has to say where this is the answer.
    fn expected(&self, reply: &Reply) -> Said {
        Said {
            written: print(&reply.written),
            notes: match self {
                Program::Scribe(_) => reply.notes_in_scribe(),
                Program::Once(..) => reply.on_standard_error(),
            },
        }
    }
}

/// What a program says of an item.
#[derive(Debug, PartialEq, Eq)]
struct Said {
    /// What is written, or the refusal's line.
    written: Vec<u8>,
    /// Of a move to edition 2 what stands for the number of notes: from `scribe`
    /// the bytes behind the answer, from `to_edition_2` its standard error.
    notes: Vec<u8>,
}

impl Said {
    fn show(&self, way: Way, alike: usize) -> String {
        let mut out = show(&self.written, alike);
        if way.tells_notes() {
            let notes = self.notes.escape_ascii();
            out += &format!("for the number of notes: \"{notes}\"\n");
        }
        out
    }
}

/// One run of a program that is asked in one way only. Standard error is a part
/// of the answer where it tells the number of notes, and passed through elsewhere.
fn once_answer(way: Way, command: &str, input: &[u8]) -> Result<Said, String> {
    let ended = match way.tells_notes() {
        true => process::run_keeping_error(command, &[], input)?,
        false => process::run_to_end(command, input)?,
    };
    match ended.failure {
        None => Ok(Said {
            written: ended.output,
            notes: ended.error,
        }),
        Some(message) if ended.error.is_empty() => Err(message),
        // What was kept may say why.
        Some(message) => {
            let error = ended.error.escape_ascii();
            Err(format!("{message}, on standard error \"{error}\""))
        }
    }
}

/// One run of the program `scribe` over all of the items. Whether it answers
/// each at once or all at the end does not matter.
fn scribe_answers(command: &str, items: &[Item]) -> Vec<Result<Said, String>> {
    let input: Vec<u8> = items.iter().flat_map(Item::to_bytes).collect();
    let ended = match process::run_to_end(command, &input) {
        Ok(ended) => ended,
        Err(message) => return vec![Err(message)],
    };
    let mut answers = Vec::new();
    let mut left = ended.output.as_slice();
    for item in items {
        let Some((said, rest)) = split_answer(item.way, left) else {
            break;
        };
        answers.push(Ok(said));
        left = rest;
    }
    if let Some(message) = ended.failure {
        answers.push(Err(message));
    } else if !left.is_empty() {
        let message = format!("{} bytes are no whole answer to an item", left.len());
        answers.push(Err(message));
    }
    answers
}

/// The answer of the program `scribe` that these bytes begin with, and the rest.
fn split_answer(way: Way, bytes: &[u8]) -> Option<(Said, &[u8])> {
    let (length, rest) = bytes.split_first_chunk()?;
    let (written, rest) = rest.split_at_checked(u16::from_le_bytes(*length).into())?;
    let notes_size = match way.tells_notes() {
        true => NOTES_SIZE,
        false => 0,
    };
    let (notes, rest) = rest.split_at_checked(notes_size)?;
    let [written, notes] = [written, notes].map(<[u8]>::to_vec);
    Some((Said { written, notes }, rest))
}

/// What is asked.
#[derive(Clone, Copy, Debug, PartialEq, Eq)]
pub enum Way {
    /// Steps are to be written.
    Steps,
    /// A trace is to be turned into steps.
    List,
    /// A trace is to be turned into steps and written again.
    Rewrite,
    /// A trace is to be moved to an edition.
    ToEdition1,
    ToEdition2,
}

impl Way {
    pub const ALL: [Way; 5] = [
        Way::Steps,
        Way::List,
        Way::Rewrite,
        Way::ToEdition1,
        Way::ToEdition2,
    ];

    /// How the program `scribe` is asked.
    pub fn letter(self) -> u8 {
        match self {
            Way::Steps => b's',
            Way::List => b'l',
            Way::Rewrite => b'r',
            Way::ToEdition1 => b'1',
            Way::ToEdition2 => b'2',
        }
    }

    pub fn of_letter(letter: u8) -> Option<Way> {
        Way::ALL.into_iter().find(|way| way.letter() == letter)
    }

    /// The way in which a trace is moved to the edition.
    pub fn to(edition: Edition) -> Way {
        match edition {
            Edition::One => Way::ToEdition1,
            Edition::Two => Way::ToEdition2,
        }
    }

    /// The way of a program that is asked in one way only, by the option that
    /// stands for the program.
    pub fn of_option(option: &str) -> Option<Way> {
        match option {
            "--writer" => Some(Way::Steps),
            "--rewrite" => Some(Way::Rewrite),
            "--to-1" => Some(Way::ToEdition1),
            "--to-2" => Some(Way::ToEdition2),
            _ => None,
        }
    }

    /// Whether the number of notes is answered too.
    fn tells_notes(self) -> bool {
        self == Way::ToEdition2
    }

    /// The answer of the independent writer or mover.
    pub fn answer(self, bytes: &[u8], room: usize) -> Reply {
        match self {
            Way::Steps => Reply::of_writing(write_input(bytes, room)),
            Way::List => Reply::of_writing(steps_of(bytes, room)),
            Way::Rewrite => Reply::of_writing(rewrite(bytes, room)),
            Way::ToEdition1 => Reply::of_writing(moving::to_edition_1(bytes, room)),
            Way::ToEdition2 => Reply::to_edition_2(moving::to_edition_2(bytes, room)),
        }
    }
}

/// What has to be answered.
#[derive(Clone, Debug, PartialEq, Eq)]
pub struct Reply {
    pub written: Result<Vec<u8>, Refusal>,
    /// How many notes the trace had: only the move to edition 2 tells, and 0 if
    /// it is refused.
    pub notes: Option<u16>,
}

impl Reply {
    /// The answer of a way that tells of no notes.
    pub fn of_writing(written: Result<Vec<u8>, Refusal>) -> Reply {
        Reply {
            written,
            notes: None,
        }
    }

    /// The answer of the move to edition 2.
    pub fn to_edition_2(moved: Result<(Vec<u8>, u16), Refusal>) -> Reply {
        let notes = moved.as_ref().map_or(0, |&(_, notes)| notes);
        Reply {
            written: moved.map(|(bytes, _)| bytes),
            notes: Some(notes),
        }
    }

    /// The answer as the program `scribe` gives it: behind its length, and behind
    /// it the number of notes, where that is told.
    pub fn in_scribe(&self) -> Vec<u8> {
        let mut bytes = behind_length(&print(&self.written));
        bytes.extend(self.notes_in_scribe());
        bytes
    }

    fn notes_in_scribe(&self) -> Vec<u8> {
        self.notes.map_or(vec![], |n| n.to_le_bytes().to_vec())
    }

    /// What a program that is asked in one way only has on standard error: the
    /// number of notes as a line, where that is told, but nothing on a refusal.
    pub fn on_standard_error(&self) -> Vec<u8> {
        match (&self.written, self.notes) {
            (Ok(_), Some(notes)) => format!("notes {notes}\n").into_bytes(),
            _ => vec![],
        }
    }
}

/// One thing asked of the program.
pub struct Item {
    pub name: String,
    pub way: Way,
    pub room: u16,
    pub bytes: Vec<u8>,
}

impl Item {
    /// The item as the program `scribe` reads it.
    fn to_bytes(&self) -> Vec<u8> {
        let mut item = vec![self.way.letter()];
        item.extend(self.room.to_le_bytes());
        item.extend(behind_length(&self.bytes));
        item
    }
}

/// Something to ask about, with some rooms.
struct Subject {
    name: String,
    way: Way,
    bytes: Vec<u8>,
    rooms: Rooms,
    /// The answer with ample room, where it is known beforehand.
    known: Option<Reply>,
}

enum Rooms {
    /// Those at which the answer changes.
    Telling,
    /// One, drawn with this number.
    Drawn(u64),
}

impl Rooms {
    /// The rooms, given the answer with ample room.
    fn choose(&self, full: &Result<Vec<u8>, Refusal>) -> Vec<u16> {
        // Where the trace or the steps are refused, no room may matter.
        let needed = full.as_ref().map_or(0, |bytes| bytes.len() as u16);
        match self {
            Rooms::Telling => {
                let mut rooms = vec![0, needed.saturating_sub(1), needed, AMPLE];
                rooms.dedup();
                rooms
            }
            Rooms::Drawn(number) => {
                let mut random = Random::new(*number, 0);
                vec![match random.below(100) {
                    0..=34 => needed,
                    35..=46 => needed.saturating_sub(1),
                    47..=53 => random.below(usize::from(needed) + 1) as u16,
                    54..=58 => 0,
                    59..=63 => random.below(12) as u16,
                    64..=69 => needed + 1,
                    _ => AMPLE,
                }]
            }
        }
    }
}

/// Compares all items, up to the first difference. Answers what there is to be
/// said, and the difference.
pub fn compare(program: &Program, extent: &Extent) -> (String, Option<Box<Difference>>) {
    let source = Source {
        traces: cases::all(),
        noted: note_cases::all(),
        sequences: sequence_cases::all(),
        seed: extent.seed,
    };
    let total = source.known() + extent.traces;
    let together = program.together();
    let check = |run: usize, _: &mut (), tally: &mut Outcomes| {
        let numbers = run * together..total.min((run + 1) * together);
        check_run(program, &source, numbers, tally)
    };
    let runs = total.div_ceil(together);
    let (tally, difference) = workers::share(runs, extent.threads, || (), check);
    (tally.describe(program, extent), difference)
}

/// Where the subjects come from.
struct Source {
    traces: Vec<cases::Case>,
    /// Some of the traces, with what moving them to edition 2 has to answer.
    noted: Vec<NoteCase>,
    sequences: Vec<sequence_cases::SequenceCase>,
    seed: u64,
}

impl Source {
    /// So many numbers are known cases.
    fn known(&self) -> usize {
        self.traces.len() + self.sequences.len()
    }

    /// What a known trace has to be answered when it is moved, if that is known.
    fn known_move(&self, name: &str, way: Way) -> Option<Reply> {
        let known = self.noted.iter().find(|known| known.case.name == name)?;
        (way == Way::ToEdition2).then(|| Reply::to_edition_2(known.moved.clone()))
    }

    /// The subjects with this number: a sequence and what it writes, or a
    /// trace, or both. Each number has its own random stream, so that a run is
    /// the same whatever the number of threads.
    fn subjects(&self, number: usize, tally: &mut Outcomes) -> Vec<Subject> {
        if let Some(case) = self.sequences.get(number) {
            tally.origins[Origin::Case as usize] += 1;
            let name = format!("case '{}'", case.name);
            let rooms = || Rooms::Telling;
            let mut subjects = of_sequence(&name, case.input.clone(), rooms);
            subjects[0].known = Some(Reply::of_writing(case.answer.clone()));
            return subjects;
        }
        if let Some(case) = self.traces.get(number - self.sequences.len()) {
            tally.with_lists += usize::from(trace::has_list_records(&case.bytes));
            let name = format!("case '{}'", case.name);
            let rooms = || Rooms::Telling;
            let mut subjects = of_trace(&name, &case.bytes, rooms);
            for subject in &mut subjects {
                subject.known = self.known_move(case.name, subject.way);
            }
            if let Ok(steps) = steps_of(&case.bytes, usize::MAX) {
                tally.origins[Origin::OfTrace as usize] += 1;
                let serial = first_serial(&case.bytes).to_le_bytes();
                subjects.push(Subject {
                    name: format!("the steps of {name}"),
                    way: Way::Steps,
                    bytes: [serial.as_slice(), &steps].concat(),
                    rooms: Rooms::Telling,
                    known: None,
                });
            }
            return subjects;
        }
        let mut random = Random::new(self.seed, number as u64);
        let (_, trace) = generate::any(&mut random);
        tally.with_lists += usize::from(trace::has_list_records(&trace));
        let (origin, input) = sequences::any(&mut random);
        tally.origins[origin as usize] += 1;
        let mut rooms = || Rooms::Drawn(random.draw());
        let of = format!("{number} of seed {}", self.seed);
        let name = format!("sequence {of}, {}", origin.describe());
        let mut subjects = of_sequence(&name, input, &mut rooms);
        subjects.extend(of_trace(&format!("trace {of}"), &trace, &mut rooms));
        subjects
    }
}

/// A sequence, and the trace that it writes if it is not refused.
fn of_sequence(name: &str, input: Vec<u8>, mut rooms: impl FnMut() -> Rooms) -> Vec<Subject> {
    let written = write_input(&input, usize::MAX);
    let mut subjects = vec![Subject {
        name: name.into(),
        way: Way::Steps,
        bytes: input,
        rooms: rooms(),
        known: None,
    }];
    if let Ok(trace) = written {
        subjects.extend(of_trace(&format!("the trace of {name}"), &trace, rooms));
    }
    subjects
}

/// A trace, turned into steps, rewritten, and moved to both editions.
fn of_trace(name: &str, trace: &[u8], mut rooms: impl FnMut() -> Rooms) -> Vec<Subject> {
    let subject = |way| Subject {
        name: name.into(),
        way,
        bytes: kept(trace).to_vec(),
        rooms: rooms(),
        known: None,
    };
    let ways = Way::ALL.into_iter().filter(|&way| way != Way::Steps);
    ways.map(subject).collect()
}

/// Asks the program for all items of these numbers, and compares.
fn check_run(
    program: &Program,
    source: &Source,
    numbers: std::ops::Range<usize>,
    tally: &mut Outcomes,
) -> Result<(), Box<Difference>> {
    let mut items = Vec::new();
    for number in numbers {
        for subject in source.subjects(number, tally) {
            if !program.takes(subject.way) {
                continue;
            }
            let full = subject.way.answer(&subject.bytes, usize::MAX);
            subject.check(&full, tally)?;
            let rooms = match program {
                Program::Scribe(_) => subject.rooms.choose(&full.written),
                _ => vec![AMPLE],
            };
            for room in rooms {
                items.push(Item {
                    name: subject.name.clone(),
                    way: subject.way,
                    room,
                    bytes: subject.bytes.clone(),
                });
            }
        }
    }
    ask(program, &items, |item, ours| tally.count(item, ours))
}

/// Asks the program for all of the items, and compares each answer with that of
/// the independent writer or mover, which is handed on to be counted.
pub fn ask(
    program: &Program,
    items: &[Item],
    mut count: impl FnMut(&Item, &Reply),
) -> Result<(), Box<Difference>> {
    let mut answers = program.answers(items).into_iter();
    for item in items {
        let ours = item.way.answer(&item.bytes, item.room.into());
        count(item, &ours);
        let expected = program.expected(&ours);
        let theirs = match answers.next() {
            Some(Ok(answer)) if answer == expected => continue,
            Some(theirs) => theirs,
            None => Err("ended before its answer did".into()),
        };
        return Err(differs(program, item, &theirs, &expected));
    }
    match (answers.next(), items.last()) {
        (Some(more), Some(item)) => {
            let more = format!("something more behind the last answer: {more:?}");
            let last = program.expected(&item.way.answer(&item.bytes, item.room.into()));
            Err(differs(program, item, &Err(more), &last))
        }
        _ => Ok(()),
    }
}

/// The program's answer is not the expected one. What is kept is the input for
/// another run, with this item alone.
fn differs(
    program: &Program,
    item: &Item,
    theirs: &Result<Said, String>,
    expected: &Said,
) -> Box<Difference> {
    let (bytes, file) = match program {
        Program::Scribe(_) => (item.to_bytes(), "item"),
        Program::Once(..) => (item.bytes.clone(), "input"),
    };
    let (said, alike) = match theirs {
        Ok(answer) => {
            let alike = alike(&answer.written, &expected.written);
            (answer.show(item.way, alike), alike)
        }
        Err(message) => (format!("no answer: {message}\n"), 0),
    };
    let letter = char::from(item.way.letter());
    Box::new(Difference {
        name: format!("{}, asked '{letter}' with room {}", item.name, item.room),
        bytes,
        file: file.into(),
        beside: vec![],
        answers: [
            ("the program", said),
            ("the Rust writer", expected.show(item.way, alike)),
        ],
    })
}

/// An answer in print: a refusal as it is, other bytes in hexadecimal.
pub fn show(answer: &[u8], alike: usize) -> String {
    if answer.starts_with(b"refused ") {
        return String::from_utf8_lossy(answer).into_owned();
    }
    show_bytes(answer, alike)
}

impl Subject {
    /// What the Rust side can check by itself: the answer with ample room
    /// against a known one, and against the reader.
    fn check(&self, full: &Reply, tally: &mut Outcomes) -> Result<(), Box<Difference>> {
        let written = &full.written;
        let checked = match &self.known {
            Some(known) if known != full => Err(format!("the known answer is {known:?}")),
            _ => match self.way {
                Way::Steps => check_steps(&self.bytes, written, tally),
                Way::List | Way::Rewrite => check_trace(self.way, &self.bytes, written, tally),
                Way::ToEdition1 => check_move(Edition::One, &self.bytes, full, tally),
                Way::ToEdition2 => check_move(Edition::Two, &self.bytes, full, tally),
            },
        };
        checked.map_err(|message| {
            Box::new(Difference {
                name: format!("{}, {:?}", self.name, self.way),
                bytes: self.bytes.clone(),
                file: "input".into(),
                beside: vec![],
                answers: [
                    ("the check in Rust", message + "\n"),
                    ("the Rust writer", show(&print(written), 0)),
                ],
            })
        })
    }
}

/// What is written reads back as the steps; what is refused, the reader
/// refuses too, with the same number and at the same step.
fn check_steps(
    input: &[u8],
    full: &Result<Vec<u8>, Refusal>,
    tally: &mut Outcomes,
) -> Result<(), String> {
    let Some((serial, steps)) = input.split_first_chunk() else {
        return must(full.is_err(), "without a serial nothing is written");
    };
    let serial = u32::from_le_bytes(*serial);
    let trace = match full {
        Ok(trace) => trace,
        Err(refusal) => {
            let by_reader = read_unchecked(steps, serial).err();
            tally.refused_by_reader += 1;
            return match by_reader == Some(*refusal) {
                true => Ok(()),
                false => Err(format!("the reader says {by_reader:?}")),
            };
        }
    };
    let read =
        Trace::parse(trace).map_err(|refusal| format!("written, but read as {refusal:?}"))?;
    let steps: Vec<Step> = steps.chunks(STEP_SIZE).flat_map(Step::from_bytes).collect();
    let (transactions, operations) = meant(&steps);
    must(read.transactions == transactions, "other transactions")?;
    must(read.operations == operations, "other operations")?;
    let serials = trace::records(trace).map(|record| record.serial);
    let follow = (0..=steps.len()).map(|n| serial.wrapping_add(n as u32));
    must(serials.eq(follow), "other serials")?;
    let plain: Vec<Step> = steps.iter().map(|step| step.plain()).collect();
    let listed = steps_of(trace, usize::MAX);
    must(listed == Ok(steps_to_bytes(&plain)), "other steps")?;
    must(rewrite(trace, usize::MAX) == *full, "rewritten otherwise")?;
    tally.read_back += 1;
    tally.wrapped += usize::from(serial.checked_add(steps.len() as u32).is_none());
    tally.full_transactions += usize::from(transactions.len() == MAX_TRANSACTIONS);
    tally.full_operations += usize::from(operations.len() == MAX_OPERATIONS);
    tally.full_both +=
        usize::from(transactions.len() == MAX_TRANSACTIONS && operations.len() == MAX_OPERATIONS);
    let is_unanswered = |t: &Transaction| t.status == Status::Unanswered;
    tally.unanswered += usize::from(transactions.iter().any(is_unanswered));
    Ok(())
}

/// The transactions and operations that lawful steps mean.
fn meant(steps: &[Step]) -> (Vec<Transaction>, Vec<Operation>) {
    let mut transactions: Vec<Transaction> = Vec::new();
    let mut operations = Vec::new();
    for step in steps {
        match step.kind {
            OPEN => transactions.push(Transaction {
                session: step.detail,
                status: Status::Aborted, // until it is closed
            }),
            CLOSE => {
                if let Some(last) = transactions.last_mut() {
                    last.status = match step.detail {
                        0 => Status::Aborted,
                        1 => Status::Committed,
                        _ => Status::Unanswered,
                    };
                }
            }
            kind => operations.push(Operation {
                transaction: transactions.len() as u8,
                key: step.key,
                action: match kind {
                    WRITE => Action::Write(step.value),
                    _ => Action::Read(step.value),
                },
            }),
        }
    }
    (transactions, operations)
}

/// A trace of edition 1 that is read has the steps that mean its transactions
/// and operations, and is its own rewriting if it has no notes; one that is
/// refused is refused here too. One of edition 2 that is read is refused where
/// it says so.
fn check_trace(
    way: Way,
    trace: &[u8],
    full: &Result<Vec<u8>, Refusal>,
    tally: &mut Outcomes,
) -> Result<(), String> {
    let (read, bytes) = match (Trace::parse(trace), full) {
        (Err(by_reader), full) => return check_refused(by_reader, full),
        (Ok(read), Err(refusal)) => {
            // No step says an edition, and the record that does stands first.
            let of_edition = Refusal {
                number: 6,
                place: 0,
            };
            tally.of_edition_2 += usize::from(way == Way::Rewrite);
            return match read.edition == Edition::Two && *refusal == of_edition {
                true => Ok(()),
                false => Err(format!("read, but {refusal:?}")),
            };
        }
        (Ok(read), Ok(bytes)) => (read, bytes),
    };
    if way == Way::List {
        let steps: Vec<Step> = bytes.chunks(STEP_SIZE).flat_map(Step::from_bytes).collect();
        let same = meant(&steps) == (read.transactions, read.operations);
        return must(same, "the steps mean something else");
    }
    let again = Trace::parse(bytes).map_err(|refusal| format!("rewritten, but {refusal:?}"))?;
    let same = again.transactions == read.transactions && again.operations == read.operations;
    must(same, "rewritten with other transactions or operations")?;
    let same = first_serial(bytes) == first_serial(trace);
    must(same, "rewritten with another first serial")?;
    must(!trace::has_notes(bytes), "rewritten with a note")?;
    if trace::has_notes(trace) {
        tally.notes_left_out += 1;
    } else {
        must(
            bytes == trace,
            "a trace without notes is not rewritten as it is",
        )?;
        tally.rewritten_alike += 1;
    }
    Ok(())
}

/// What the reader refuses is refused just so.
fn check_refused(by_reader: Refusal, full: &Result<Vec<u8>, Refusal>) -> Result<(), String> {
    match *full == Err(by_reader) {
        true => Ok(()),
        false => Err(format!("the reader says {by_reader:?}")),
    }
}

/// A trace that is read comes out in the wanted edition as it has to, or stays where
/// its lists are; one that is refused is refused here too.
fn check_move(
    wanted: Edition,
    bytes: &[u8],
    full: &Reply,
    tally: &mut Outcomes,
) -> Result<(), String> {
    let (trace, moved) = match (Trace::parse(bytes), &full.written) {
        (Err(by_reader), full) => return check_refused(by_reader, full),
        (Ok(trace), Err(refusal)) => {
            tally.stayed += 1;
            return moving::check_stayed(wanted, bytes, &trace, refusal);
        }
        (Ok(trace), Ok(moved)) => (trace, moved),
    };
    moving::check(wanted, bytes, &trace, moved)?;
    if let Some(notes) = full.notes {
        moving::check_notes(bytes, &trace, moved, notes)?;
        tally.notes.count(notes);
    }
    let count = match (trace.edition == wanted, wanted) {
        (true, _) => &mut tally.copied,
        (false, Edition::One) => &mut tally.moved_to_1,
        (false, Edition::Two) => &mut tally.moved_to_2,
    };
    *count += 1;
    Ok(())
}

/// How often each thing occurred.
#[derive(Default)]
struct Outcomes {
    origins: [usize; Origin::ALL.len()],
    /// What was written, by way.
    written: [usize; Way::ALL.len()],
    /// Written into a buffer that it fills.
    fitting: [usize; Way::ALL.len()],
    /// Refusals by way and number.
    refused: [[usize; Refusal::NUMBERS]; Way::ALL.len()],
    /// Refused for one byte.
    byte_short: [usize; Way::ALL.len()],
    /// Refused since they end inside a transaction, which only steps do.
    ends_inside: [usize; Way::ALL.len()],
    /// What the Rust side checked by itself.
    read_back: usize,
    refused_by_reader: usize,
    rewritten_alike: usize,
    notes_left_out: usize,
    of_edition_2: usize,
    moved_to_1: usize,
    moved_to_2: usize,
    copied: usize,
    /// Traces with lists, and those that did not go to edition 1 for them.
    with_lists: usize,
    stayed: usize,
    /// What the move to edition 2 told.
    notes: Notes,
    /// Sequences written that wrap, or that reach limits.
    wrapped: usize,
    full_transactions: usize,
    full_operations: usize,
    full_both: usize,
    /// Sequences written that have an unanswered commit.
    unanswered: usize,
}

/// How many traces had notes, and what their numbers were like.
#[derive(Default)]
struct Notes {
    some: usize,
    /// Numbers that take more than a byte.
    above_255: usize,
    most: u16,
    /// Items whose number is not told, the buffer being too short.
    untold: usize,
}

impl Notes {
    fn count(&mut self, notes: u16) {
        self.some += usize::from(notes > 0);
        self.above_255 += usize::from(notes > 255);
        self.most = self.most.max(notes);
    }

    fn add(&mut self, other: &Notes) {
        self.some += other.some;
        self.above_255 += other.above_255;
        self.most = self.most.max(other.most);
        self.untold += other.untold;
    }
}

impl Tally for Outcomes {
    fn add(&mut self, other: &Outcomes) {
        add_each(&mut self.origins, &other.origins);
        add_each(&mut self.written, &other.written);
        add_each(&mut self.fitting, &other.fitting);
        add_each(&mut self.byte_short, &other.byte_short);
        for (to, from) in self.refused.iter_mut().zip(&other.refused) {
            add_each(to, from);
        }
        add_each(&mut self.ends_inside, &other.ends_inside);
        self.read_back += other.read_back;
        self.refused_by_reader += other.refused_by_reader;
        self.rewritten_alike += other.rewritten_alike;
        self.notes_left_out += other.notes_left_out;
        self.of_edition_2 += other.of_edition_2;
        self.moved_to_1 += other.moved_to_1;
        self.moved_to_2 += other.moved_to_2;
        self.copied += other.copied;
        self.with_lists += other.with_lists;
        self.stayed += other.stayed;
        self.notes.add(&other.notes);
        self.wrapped += other.wrapped;
        self.full_transactions += other.full_transactions;
        self.full_operations += other.full_operations;
        self.full_both += other.full_both;
        self.unanswered += other.unanswered;
    }
}

impl Outcomes {
    fn count(&mut self, item: &Item, answer: &Reply) {
        let way = item.way as usize;
        match &answer.written {
            Ok(bytes) => {
                self.written[way] += 1;
                self.fitting[way] += usize::from(bytes.len() == usize::from(item.room));
            }
            Err(Refusal { number, place }) => {
                self.refused[way][usize::from(*number)] += 1;
                let byte_short = *number == 16 && *place == usize::from(item.room) + 1;
                self.byte_short[way] += usize::from(byte_short);
                let tells_notes = item.way.tells_notes() && trace::has_notes(&item.bytes);
                self.notes.untold += usize::from(*number == 16 && tells_notes);
                let steps = item.bytes.len().saturating_sub(4) / STEP_SIZE;
                let behind_all = item.way == Way::Steps && *place == steps + 1;
                self.ends_inside[way] += usize::from(*number == 7 && behind_all);
            }
        }
    }

    fn describe(&self, program: &Program, extent: &Extent) -> String {
        let ways = Way::ALL.iter().enumerate();
        let ways: Vec<_> = ways.filter(|(_, way)| program.takes(**way)).collect();
        // A line with a number for each way that the program takes.
        let line = |name: &str, count: &dyn Fn(usize) -> usize| {
            let number = |&(way, _): &(usize, &Way)| format!("{:>10}", count(way));
            let numbers: String = ways.iter().map(number).collect();
            format!("  {name:<26}{numbers}")
        };
        let all = |way: usize| self.written[way] + self.refused[way].iter().sum::<usize>();
        let total: usize = ways.iter().map(|&(way, _)| all(way)).sum();
        let mut lines = vec![
            format!(
                "{total} items of seed {}, answered by '{}' and in Rust",
                extent.seed,
                program.command()
            ),
            "origins of sequences:".into(),
        ];
        for origin in Origin::ALL {
            let count = self.origins[origin as usize];
            lines.push(format!("  {:<26}{count:>10}", origin.describe()));
        }
        let letters: String = ways
            .iter()
            .map(|(_, way)| format!("{:>10}", char::from(way.letter())))
            .collect();
        lines.push(format!("{:<28}{letters}", "answers by way:"));
        lines.push(line("items", &all));
        lines.push(line("written", &|way| self.written[way]));
        lines.push(line("  just fitting", &|way| self.fitting[way]));
        for number in 2..Refusal::NUMBERS {
            if ways
                .iter()
                .any(|(_, way)| program.refusals(**way).contains(&number))
            {
                let name = format!("refused {number}");
                lines.push(line(&name, &|way| self.refused[way][number]));
            }
            if number == 7 {
                lines.push(line("  behind the last step", &|way| self.ends_inside[way]));
            }
        }
        lines.push(line("  one byte too short", &|way| self.byte_short[way]));
        for &(index, way) in &ways {
            let missing: Vec<String> = program
                .refusals(*way)
                .into_iter()
                .filter(|&number| self.refused[index][number] == 0)
                .map(|number| number.to_string())
                .collect();
            if !missing.is_empty() {
                let (letter, missing) = (char::from(way.letter()), missing.join(" "));
                lines.push(format!("  did not occur by way {letter}: {missing}"));
            }
        }
        lines.push("checked in Rust, a sequence or a trace counted once:".into());
        for (name, count) in [
            ("written and read back", self.read_back),
            ("  serials wrap", self.wrapped),
            ("  127 transactions", self.full_transactions),
            ("  1,024 operations", self.full_operations),
            ("  both", self.full_both),
            ("  unanswered commits", self.unanswered),
            ("steps refused by reader too", self.refused_by_reader),
            ("rewritten as they are", self.rewritten_alike),
            ("rewritten without notes", self.notes_left_out),
            ("read, but of edition 2", self.of_edition_2),
            ("moved to edition 1", self.moved_to_1),
            ("moved to edition 2", self.moved_to_2),
            ("  with notes", self.notes.some),
            ("  with more than 255", self.notes.above_255),
            ("  the most notes of a trace", self.notes.most.into()),
            ("items with notes, refused 16", self.notes.untold),
            ("of the wanted edition", self.copied),
            ("traces with lists", self.with_lists),
            ("  not moved to edition 1", self.stayed),
        ] {
            lines.push(format!("  {name:<28}{count:>8}"));
        }
        lines.join("\n") + "\n"
    }
}
