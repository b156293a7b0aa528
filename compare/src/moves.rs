//! Compares traces with what they are moved to, and with those that differ from
//! them in their notes or in their lists only: the program `scribe` moves them, and
//! the program `stream` judges them before and after.

use crate::cases::{self, Case};
use crate::generate;
use crate::list_traces;
use crate::moving;
use crate::notes;
use crate::process::{self, behind_length, kept};
use crate::random::Random;
use crate::report::{self, Finding, Verdict};
use crate::scribes::{self, Item, Program, Reply, Way, AMPLE};
use crate::trace::{self, Edition, Operation, Refusal, Sort, Trace};
use crate::weave::{self, Judged};
use crate::workers::{self, add_each, must, Difference, Extent, Tally};
use crate::writing::{first_serial, print};

/// How many traces go through one run of each program.
const TOGETHER: usize = 500;

/// The programs that are compared.
pub struct Programs {
    /// Moves; one that takes items as `scribe` does.
    pub scribe: Program,
    /// Judges; the command of one that takes traces as `stream` does.
    pub stream: String,
}

/// Moves and judges all traces, up to the first difference. Answers what there is
/// to be said, and the difference.
pub fn compare(programs: &Programs, extent: &Extent) -> (String, Option<Box<Difference>>) {
    let cases = cases::all();
    let total = extent.traces.max(cases.len());
    let check = |run: usize, _: &mut (), tally: &mut Outcomes| {
        let numbers = run * TOGETHER..total.min((run + 1) * TOGETHER);
        let subject = |number| Subject::new(number, extent.seed, cases.get(number));
        let subjects: Vec<Subject> = numbers.map(subject).collect();
        check_run(programs, &subjects, tally)
    };
    let runs = total.div_ceil(TOGETHER);
    let (tally, difference) = workers::share(runs, extent.threads, || (), check);
    (tally.describe(programs, extent), difference)
}

/// A trace to be moved.
struct Subject {
    number: usize,
    name: String,
    bytes: Vec<u8>,
    /// For what is drawn when it is changed.
    drawn: u64,
}

/// A trace that is read, and what it is moved to.
pub struct Moved {
    pub before: Trace,
    pub after: Trace,
    /// Those of the moved trace.
    pub bytes: Vec<u8>,
}

/// What becomes of a trace that is to go to the other edition.
enum Fate {
    Moved(Moved),
    /// It is read, but has lists, and edition 1 has none.
    Stays(Trace, Refusal),
    /// It is refused when it is read.
    Refused(Refusal),
}

impl Subject {
    /// A known case, or a random trace. Each number has its own random stream,
    /// so that a run is the same whatever the number of threads.
    fn new(number: usize, seed: u64, case: Option<&Case>) -> Subject {
        let mut random = Random::new(seed, number as u64);
        let (name, bytes) = match case {
            Some(case) => (format!("case '{}'", case.name), case.bytes.clone()),
            None => {
                let (origin, bytes) = generate::any(&mut random);
                let origin = origin.describe();
                (format!("trace {number} of seed {seed}, {origin}"), bytes)
            }
        };
        Subject {
            number,
            name,
            bytes: kept(&bytes).to_vec(),
            drawn: random.draw(),
        }
    }

    /// Moves it to the other edition, and checks what has to hold of that.
    fn fate(&self) -> Result<Fate, Box<Difference>> {
        let before = match Trace::parse(&self.bytes) {
            Ok(before) => before,
            Err(refusal) => return Ok(Fate::Refused(refusal)),
        };
        let wanted = moving::other(before.edition);
        let reply = Way::to(wanted).answer(&self.bytes, usize::MAX);
        let shown = scribes::show(&print(&reply.written), 0);
        let wrong = |message: String| {
            let answers = [
                ("the check in Rust", message + "\n"),
                ("the Rust mover", shown),
            ];
            self.differs("", answers)
        };
        match reply.written {
            Ok(bytes) => match self.check_move(wanted, &before, &bytes, reply.notes) {
                Ok(after) => Ok(Fate::Moved(Moved {
                    before,
                    after,
                    bytes,
                })),
                Err(message) => Err(wrong(message)),
            },
            Err(refusal) => match moving::check_stayed(wanted, &self.bytes, &before, &refusal) {
                Ok(()) => Ok(Fate::Stays(before, refusal)),
                Err(message) => Err(wrong(message)),
            },
        }
    }

    /// What has to hold of the bytes that it is moved to, and of the number of notes.
    fn check_move(
        &self,
        wanted: Edition,
        before: &Trace,
        moved: &[u8],
        notes: Option<u16>,
    ) -> Result<Trace, String> {
        let after = moving::check(wanted, &self.bytes, before, moved)?;
        if let Some(notes) = notes {
            moving::check_notes(&self.bytes, before, moved, notes)?;
        }
        Ok(after)
    }

    /// The traces that differ from it in their notes only, with other texts, where
    /// there are any that a reader comes to, and without, where it is read; and the
    /// one without its lists.
    fn variants(&self, fate: &Fate) -> Vec<Variant> {
        let mut random = Random::new(self.drawn, 0);
        let mut variants = Vec::new();
        let refusal = match fate {
            Fate::Refused(refusal) => Some(refusal),
            Fate::Moved(_) | Fate::Stays(..) => None,
        };
        let texts = notes::texts(&self.bytes, refusal);
        if !texts.is_empty() {
            variants.push(Variant {
                change: Change::OtherTexts,
                bytes: notes::with_other_texts(&mut random, &self.bytes, &texts),
            });
        }
        if refusal.is_none() && trace::has_notes(&self.bytes) {
            // The first serial is free.
            let serials = [first_serial(&self.bytes), random.draw() as u32];
            variants.push(Variant {
                change: Change::LeftOut,
                bytes: notes::left_out(&self.bytes, *random.pick(&serials)),
            });
        }
        if let Fate::Stays(..) = fate {
            variants.push(Variant {
                change: Change::ListsLeftOut,
                bytes: list_traces::left_out(&self.bytes),
            });
        }
        variants
    }

    fn differs(&self, what: &str, answers: [(&'static str, String); 2]) -> Box<Difference> {
        Box::new(Difference {
            name: format!("{}{what}", self.name),
            bytes: self.bytes.clone(),
            file: format!("{}.trace", self.number),
            beside: vec![],
            answers,
        })
    }
}

/// How a trace differs from another in its notes only, or in its lists only.
#[derive(Clone, Copy)]
enum Change {
    OtherTexts,
    LeftOut,
    ListsLeftOut,
}

impl Change {
    fn describe(self) -> &'static str {
        match self {
            Change::OtherTexts => "with other texts in its notes",
            Change::LeftOut => "without its notes",
            Change::ListsLeftOut => "without its lists",
        }
    }
}

/// A trace that differs from another so.
struct Variant {
    change: Change,
    bytes: Vec<u8>,
}

impl Variant {
    /// What moving it to edition 2 has to answer, given the answer for the trace
    /// that it differs from: of other texts nothing may be seen, and of notes left
    /// out only that there are none, and where the serials begin. What has lists is of
    /// edition 2 already, with them or without.
    fn reply(&self, of_trace: Reply) -> Reply {
        match self.change {
            Change::OtherTexts => of_trace,
            Change::LeftOut => {
                let serial = first_serial(&self.bytes);
                let renumber = |moved: Vec<u8>| notes::left_out(&moved, serial);
                Reply::to_edition_2(of_trace.written.map(|moved| (renumber(moved), 0)))
            }
            Change::ListsLeftOut => Reply::to_edition_2(Ok((self.bytes.clone(), 0))),
        }
    }
}

/// A trace with all that is asked about it.
struct Asked<'a> {
    subject: &'a Subject,
    fate: Fate,
    variants: Vec<Variant>,
}

impl<'a> Asked<'a> {
    /// With what the independent mover makes of it, which is checked.
    fn of(subject: &'a Subject) -> Result<Asked<'a>, Box<Difference>> {
        let fate = subject.fate()?;
        let variants = subject.variants(&fate);
        let asked = Asked {
            subject,
            fate,
            variants,
        };
        asked.check_replies()?;
        Ok(asked)
    }

    /// The independent mover answers alike whatever is in the notes and the lists.
    fn check_replies(&self) -> Result<(), Box<Difference>> {
        let reply = |bytes: &[u8]| Way::ToEdition2.answer(bytes, usize::MAX);
        for variant in &self.variants {
            let expected = variant.reply(reply(&self.subject.bytes));
            let found = reply(&variant.bytes);
            if found != expected {
                let show = |reply: &Reply| {
                    let notes = reply.notes.unwrap_or_default();
                    format!(
                        "{notes} notes\n{}",
                        scribes::show(&print(&reply.written), 0)
                    )
                };
                let answers = [
                    ("the Rust mover", show(&found)),
                    ("the Rust mover, of the trace as it is,", show(&expected)),
                ];
                return Err(self.variant_differs(variant, "moved otherwise", answers));
            }
        }
        Ok(())
    }

    /// What is asked of the mover: both editions of the trace, the way back, edition 2
    /// of the traces with other notes, and both of that without lists.
    fn items(&self) -> Vec<Item> {
        let item = |what: &str, wanted, bytes: &[u8]| Item {
            name: format!("{}{what}", self.subject.name),
            way: Way::to(wanted),
            room: AMPLE,
            bytes: bytes.to_vec(),
        };
        let here = |wanted| item("", wanted, &self.subject.bytes);
        let mut items = vec![here(Edition::One), here(Edition::Two)];
        if let Fate::Moved(moved) = &self.fate {
            items.push(item(", moved", moved.before.edition, &moved.bytes));
        }
        for Variant { change, bytes } in &self.variants {
            let what = format!(", {}", change.describe());
            items.push(item(&what, Edition::Two, bytes));
            if let Change::ListsLeftOut = change {
                items.push(item(&what, Edition::One, bytes));
            }
        }
        items
    }

    /// What is asked of the judge: the trace, the moved one, and those with other
    /// notes or without lists.
    fn traces(&self) -> impl Iterator<Item = &[u8]> {
        let moved = match &self.fate {
            Fate::Moved(moved) => Some(&moved.bytes),
            Fate::Stays(..) | Fate::Refused(_) => None,
        };
        let variants = self.variants.iter().map(|variant| &variant.bytes);
        [&self.subject.bytes]
            .into_iter()
            .chain(moved)
            .chain(variants)
            .map(Vec::as_slice)
    }

    /// What is printed of the trace is what has to be, given what is printed of
    /// the others.
    fn check_texts(
        &self,
        texts: &mut impl Iterator<Item = String>,
        tally: &mut Outcomes,
    ) -> Result<(), Box<Difference>> {
        let mut next = || texts.next().unwrap_or_default();
        let before = next();
        match &self.fate {
            Fate::Moved(moved) => self.check_moved(moved, &before, next(), tally)?,
            // What is judged is compared below with what is without the lists.
            Fate::Stays(_, refusal) => tally.refused[usize::from(refusal.number)] += 1,
            Fate::Refused(refusal) => self.check_refused(refusal, &before, tally)?,
        }
        tally.with_lists += usize::from(trace::has_list_records(&self.subject.bytes));
        for variant in &self.variants {
            self.check_variant(variant, &before, next(), tally)?;
        }
        Ok(())
    }

    /// A trace that is read is judged alike before and after the move.
    fn check_moved(
        &self,
        moved: &Moved,
        before: &str,
        after: String,
        tally: &mut Outcomes,
    ) -> Result<(), Box<Difference>> {
        match check_judged(moved, before, &after) {
            Ok(findings) => {
                tally.count(&self.subject.bytes, moved, findings);
                Ok(())
            }
            Err(message) => {
                let what = format!(", moved to the other edition: {message}");
                let answers = [
                    ("the judge, before,", before.into()),
                    ("the judge, after,", after),
                ];
                Err(self.subject.differs(&what, answers))
            }
        }
    }

    /// A trace that is refused is refused alike when judged and when moved.
    fn check_refused(
        &self,
        refusal: &Refusal,
        before: &str,
        tally: &mut Outcomes,
    ) -> Result<(), Box<Difference>> {
        tally.refused[usize::from(refusal.number)] += 1;
        let mover = String::from_utf8_lossy(&print(&Err(*refusal))).into_owned();
        if before == mover {
            return Ok(());
        }
        let answers = [("the judge", before.into()), ("the mover", mover)];
        Err(self.subject.differs(": refused otherwise", answers))
    }

    /// A trace that differs in its notes only is judged, or refused, just so, and one
    /// without its lists is but for operation numbers.
    fn check_variant(
        &self,
        variant: &Variant,
        before: &str,
        text: String,
        tally: &mut Outcomes,
    ) -> Result<(), Box<Difference>> {
        let is_alike = match &self.fate {
            Fate::Stays(trace, _) => is_judged_alike(trace, &variant.bytes, before, &text),
            Fate::Moved(_) | Fate::Refused(_) => text == before,
        };
        if is_alike {
            tally.count_variant(variant, &self.subject.bytes, &self.fate);
            return Ok(());
        }
        let answers = [
            ("the judge", text),
            ("the judge, of the trace as it is,", before.into()),
        ];
        Err(self.variant_differs(variant, "judged otherwise", answers))
    }

    fn variant_differs(
        &self,
        variant: &Variant,
        what: &str,
        answers: [(&'static str, String); 2],
    ) -> Box<Difference> {
        let what = format!(", {}: {what}", variant.change.describe());
        let difference = self.subject.differs(&what, answers);
        Box::new(Difference {
            bytes: variant.bytes.clone(),
            ..*difference
        })
    }
}

/// Whether both texts are verdicts of a trace with lists and of the same without, and
/// differ in operation numbers only.
fn is_judged_alike(trace: &Trace, without: &[u8], before: &str, after: &str) -> bool {
    let Ok(read) = Trace::parse(without) else {
        return false;
    };
    let pair = Moved {
        before: trace.clone(),
        after: read,
        bytes: without.to_vec(),
    };
    check_judged(&pair, before, after).is_ok()
}

/// Puts the traces through one run of each program, and compares.
fn check_run(
    programs: &Programs,
    subjects: &[Subject],
    tally: &mut Outcomes,
) -> Result<(), Box<Difference>> {
    let asked: Result<Vec<Asked>, _> = subjects.iter().map(Asked::of).collect();
    let asked = asked?;
    let items: Vec<Item> = asked.iter().flat_map(Asked::items).collect();
    // From here on what the program moves to is what the independent mover does.
    scribes::ask(&programs.scribe, &items, |_, _| {})?;
    let traces: Vec<&[u8]> = asked.iter().flat_map(Asked::traces).collect();
    let mut texts = judged(programs, &traces, subjects)?.into_iter();
    for asked in &asked {
        asked.check_texts(&mut texts, tally)?;
    }
    Ok(())
}

/// What the judge prints of each of these traces.
fn judged(
    programs: &Programs,
    traces: &[&[u8]],
    subjects: &[Subject],
) -> Result<Vec<String>, Box<Difference>> {
    let input: Vec<u8> = traces.iter().flat_map(|t| behind_length(t)).collect();
    let asked = traces.len();
    process::stream_answers(&programs.stream, &input, asked).map_err(|message| {
        let first = subjects.first().map_or("", |subject| &subject.name);
        Box::new(Difference {
            name: format!("a run of traces, moved and not, from {first} on"),
            bytes: input,
            file: "traces".into(),
            beside: vec![],
            answers: [
                ("the judge", message + "\n"),
                ("what was asked", format!("{asked} traces\n")),
            ],
        })
    })
}

/// How the findings of a moved trace differ from those before.
#[derive(Clone, Copy, Debug, PartialEq, Eq, PartialOrd, Ord)]
pub enum Findings {
    None,
    Same,
    Renumbered,
    /// Renumbered, and so in another order.
    Reordered,
}

/// Both texts are verdicts, and these differ in operation numbers only.
pub fn check_judged(moved: &Moved, before: &str, after: &str) -> Result<Findings, String> {
    let verdicts = |text| match report::read(text) {
        Some(Ok(verdicts)) => Ok(verdicts),
        Some(Err(_)) => Err("refused when judged"),
        None => Err("no answer of a judge"),
    };
    let (before, after) = (&verdicts(before)?, &verdicts(after)?);
    let renumbering = Renumbering {
        before: &moved.before,
        after: &moved.after,
        numbers: renumbered(&moved.before, &moved.after),
    };
    let mut findings = Findings::None;
    for (one, other) in before.iter().zip(after) {
        findings = findings.max(renumbering.check_level(one, other)?);
    }
    let [before, after] = [(&moved.before, before), (&moved.after, after)]
        .map(|(trace, verdicts)| Judged { trace, verdicts });
    must(before.is_like(&after), "other findings, by their places")?;
    Ok(findings)
}

/// The number after the move of each operation on a single value, by its number before
/// it: the k-th of a transaction stays its k-th. In place of 0, which is no operation,
/// and of those on lists stands 0. The two traces have the same transactions with the
/// same operations on single values.
fn renumbered(before: &Trace, after: &Trace) -> Vec<u16> {
    let mut numbers = vec![0; before.operations.len() + 1];
    for (before, after) in by_transaction(before).zip(by_transaction(after)) {
        numbers[usize::from(before)] = after;
    }
    numbers
}

/// The numbers of the operations on single values, transaction by transaction.
fn by_transaction(trace: &Trace) -> impl Iterator<Item = u16> {
    let mut numbers: Vec<u16> = (1..).take(trace.operations.len()).collect();
    numbers.retain(|&number| trace.operation(number).action.sort() == Sort::Single);
    // Stable: those of one transaction stay in their order.
    numbers.sort_by_key(|&number| trace.operation(number).transaction);
    numbers.into_iter()
}

struct Renumbering<'a> {
    before: &'a Trace,
    after: &'a Trace,
    numbers: Vec<u16>,
}

impl Renumbering<'_> {
    /// Verdict, order and pairs are the same, and so are the findings, but for
    /// their numbers, by which they are sorted.
    fn check_level(&self, before: &Verdict, after: &Verdict) -> Result<Findings, String> {
        match (before, after) {
            (Verdict::Accepted(one), Verdict::Accepted(other)) => {
                must(one == other, "another order")?;
            }
            (Verdict::Rejected { pairs, .. }, Verdict::Rejected { pairs: other, .. }) => {
                must(pairs == other, "other pairs")?;
            }
            _ => return Err("another verdict".into()),
        }
        let (before, after) = (before.findings(), after.findings());
        must(before.len() == after.len(), "another number of findings")?;
        let is_sorted =
            |findings: &[Finding]| findings.is_sorted_by(|a, b| a.operation < b.operation);
        must(is_sorted(before) && is_sorted(after), "findings not sorted")?;
        let mut expected = Vec::new();
        for finding in before {
            let new = self.renumber(finding).ok_or("no such operation")?;
            expected.push((new, finding));
        }
        let stay_sorted = expected.is_sorted_by_key(|(new, _)| new.operation);
        expected.sort_by_key(|(new, _)| new.operation);
        for ((new, old), found) in expected.iter().zip(after) {
            must(new == found, "a finding is not the renumbered one")?;
            self.check_operations(old, found)?;
        }
        Ok(match before == after {
            true if before.is_empty() => Findings::None,
            true => Findings::Same,
            false if stay_sorted => Findings::Renumbered,
            false => Findings::Reordered,
        })
    }

    fn renumber(&self, finding: &Finding) -> Option<Finding> {
        let new = |number: u16| self.numbers.get(usize::from(number)).copied();
        Some(Finding {
            operation: new(finding.operation)?,
            write: new(finding.write)?,
            ..*finding
        })
    }

    /// The read and its write are the same operations, looked up in each trace.
    fn check_operations(&self, old: &Finding, new: &Finding) -> Result<(), String> {
        let (read, write) = (
            find(self.before, old.operation),
            find(self.before, old.write),
        );
        let same_read = read == find(self.after, new.operation);
        let same_write = write == find(self.after, new.write);
        must(same_read && same_write, "a finding of other operations")?;
        let is_own =
            |read: &Operation| read.action.read().is_some() && read.transaction == old.transaction;
        must(
            read.is_some_and(is_own),
            "a finding of no read of its transaction",
        )?;
        let has_value = write.zip(read).is_none_or(|(write, read)| {
            let written = write.action.written();
            written.is_some() && (write.key, written) == (read.key, read.action.read())
        });
        must(has_value, "the write of another value")
    }
}

/// The operation with this number, if there is one.
fn find(trace: &Trace, number: u16) -> Option<&Operation> {
    trace.operations.get(usize::from(number).checked_sub(1)?)
}

/// How often each thing occurred.
#[derive(Default)]
struct Outcomes {
    /// Traces that were read, by their edition.
    moved: [usize; 2],
    /// Of edition 1, by whether notes were left out or came back byte for byte.
    noted: usize,
    came_back: usize,
    /// With two transactions open at once.
    overlapping: usize,
    /// With serials that wrap after the move.
    wrapped: usize,
    /// By what became of their findings.
    findings: [usize; 4],
    refused: [usize; Refusal::NUMBERS],
    /// Traces that were read, also with other texts in their notes, and without.
    other_texts: usize,
    left_out: usize,
    /// Traces with lists, refused ones too, and those that were read, also without.
    with_lists: usize,
    lists_left_out: usize,
    /// Traces that were refused, also with other texts in their notes, and those
    /// of them whose refused record is such a note.
    refused_other_texts: [usize; Refusal::NUMBERS],
    refused_notes: [usize; Refusal::NUMBERS],
}

impl Tally for Outcomes {
    fn add(&mut self, other: &Outcomes) {
        add_each(&mut self.moved, &other.moved);
        self.noted += other.noted;
        self.came_back += other.came_back;
        self.overlapping += other.overlapping;
        self.wrapped += other.wrapped;
        add_each(&mut self.findings, &other.findings);
        add_each(&mut self.refused, &other.refused);
        self.other_texts += other.other_texts;
        self.left_out += other.left_out;
        self.with_lists += other.with_lists;
        self.lists_left_out += other.lists_left_out;
        add_each(&mut self.refused_other_texts, &other.refused_other_texts);
        add_each(&mut self.refused_notes, &other.refused_notes);
    }
}

impl Outcomes {
    fn count(&mut self, bytes: &[u8], moved: &Moved, findings: Findings) {
        self.moved[moved.before.edition as usize] += 1;
        match (moved.before.edition, trace::has_notes(bytes)) {
            (Edition::One, true) => self.noted += 1,
            (Edition::One, false) => self.came_back += 1,
            (Edition::Two, _) => {}
        }
        self.overlapping += usize::from(weave::most_open(bytes) > 1);
        let serial = first_serial(&moved.bytes);
        let wraps = trace::records(&moved.bytes).any(|record| record.serial < serial);
        self.wrapped += usize::from(wraps);
        self.findings[findings as usize] += 1;
    }

    fn count_variant(&mut self, variant: &Variant, bytes: &[u8], fate: &Fate) {
        match (variant.change, fate) {
            (Change::LeftOut, _) => self.left_out += 1,
            (Change::ListsLeftOut, _) => self.lists_left_out += 1,
            (Change::OtherTexts, Fate::Moved(_) | Fate::Stays(..)) => self.other_texts += 1,
            (Change::OtherTexts, Fate::Refused(refusal)) => {
                let number = usize::from(refusal.number);
                self.refused_other_texts[number] += 1;
                let is_note = notes::is_refused_note(bytes, refusal);
                self.refused_notes[number] += usize::from(is_note);
            }
        }
    }

    fn describe(&self, programs: &Programs, extent: &Extent) -> String {
        // Number 20 is given to traces that are read.
        let stayed = self.refused[20];
        let refused = self.refused.iter().sum::<usize>() - stayed;
        let [of_1, of_2] = self.moved;
        let [none, same, renumbered, reordered] = self.findings;
        let mut lines = vec![format!(
            "{} traces of seed {}, moved by '{}' and in Rust, judged by '{}'",
            of_1 + of_2 + stayed + refused,
            extent.seed,
            programs.scribe.command(),
            programs.stream
        )];
        for (name, count) in [
            ("moved from edition 1 to 2", of_1),
            ("  with notes, left out", self.noted),
            ("    also with other texts", self.other_texts),
            ("    also without notes", self.left_out),
            ("  came back byte for byte", self.came_back),
            ("moved from edition 2 to 1", of_2),
            ("  two open at once", self.overlapping),
            ("serials wrap after the move", self.wrapped),
            ("no findings", none),
            ("findings, the same", same),
            ("findings, numbers changed", renumbered + reordered),
            ("  and so their order", reordered),
            ("refused", refused),
            ("with lists", self.with_lists),
            ("  read, not moved to 1", stayed),
            ("    also without lists", self.lists_left_out),
        ] {
            lines.push(format!("  {name:<28}{count:>8}"));
        }
        lines.push("refusals; also with other texts in notes; of these, at such a note:".into());
        for number in (2..=11).chain([17, 20]) {
            let counts = [
                self.refused[number],
                self.refused_other_texts[number],
                self.refused_notes[number],
            ];
            let counts = counts.map(|count| format!("{count:>9}"));
            lines.push(format!("  {number:>2} {}", counts.join(" ")));
        }
        lines.join("\n") + "\n"
    }
}
