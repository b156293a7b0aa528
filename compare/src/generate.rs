//! Random traces, lawful and not, for the comparison.

use crate::encode::Writer;
use crate::list_traces::with_lists;
use crate::random::Random;
use crate::trace::{self, Action, Edition, Sort, Status};
use crate::trace::{MAX_BYTES, MAX_LIST, MAX_NOTE, MAX_TRANSACTIONS};
use crate::vector_cases;
use crate::weave::{self, Access, Whole};
use crate::writing;

/// How a trace came about.
#[derive(Clone, Copy, Debug, PartialEq, Eq)]
pub enum Origin {
    Case,
    Bytes,
    Records,
    Small,
    Medium,
    Large,
    Unclean,
    Unanswered,
    Knowing,
    Noted,
    Damaged,
}

impl Origin {
    pub const ALL: [Origin; 11] = [
        Origin::Case,
        Origin::Bytes,
        Origin::Records,
        Origin::Small,
        Origin::Medium,
        Origin::Large,
        Origin::Unclean,
        Origin::Unanswered,
        Origin::Knowing,
        Origin::Noted,
        Origin::Damaged,
    ];

    pub fn describe(self) -> &'static str {
        match self {
            Origin::Case => "cases with known answers",
            Origin::Bytes => "random bytes",
            Origin::Records => "random records",
            Origin::Small => "plausible, small",
            Origin::Medium => "plausible, medium",
            Origin::Large => "plausible, large",
            Origin::Unclean => "mostly unclean reads",
            Origin::Unanswered => "unanswered, interwoven",
            Origin::Knowing => "who knows whom",
            Origin::Noted => "few or many notes",
            Origin::Damaged => "damaged",
        }
    }
}

/// A random trace of a random origin and edition. A quarter of those of edition 2 have
/// lists, where they can have them.
pub fn any(random: &mut Random) -> (Origin, Vec<u8>) {
    let edition = *random.pick(&[Edition::One, Edition::Two]);
    let lists = drawn_lists(random);
    of_sort(random, edition, lists)
}

/// The same of edition 2, with lists wherever it can have them.
pub fn any_with_lists(random: &mut Random) -> (Origin, Vec<u8>) {
    of_sort(random, Edition::Two, true)
}

/// Whether a trace is to have lists. It is drawn aside, so that any other remains what
/// it was without them.
fn drawn_lists(random: &Random) -> bool {
    random.aside().percent(25)
}

/// A random trace of a random origin. In edition 1 there are no lists, but where there
/// should be, their kinds may stray into it.
fn of_sort(random: &mut Random, edition: Edition, lists: bool) -> (Origin, Vec<u8>) {
    let (origin, bytes) = match random.below(100) {
        0..=3 => return (Origin::Bytes, bytes(random, edition)),
        4..=11 => return (Origin::Records, records(random, edition, lists)),
        12..=29 => (Origin::Small, Shape::small(random, edition).trace(random)),
        30..=37 => (Origin::Knowing, vector_cases::drawn(random, edition)),
        38..=43 => (
            Origin::Unclean,
            Shape::unclean(random, edition).trace(random),
        ),
        44..=53 => (Origin::Medium, Shape::medium(random, edition).trace(random)),
        54..=57 => (Origin::Large, Shape::large(random, edition).trace(random)),
        58..=76 => (
            Origin::Unanswered,
            Web::drawn(random, edition).trace(random),
        ),
        77..=81 => (Origin::Noted, noted(random, edition)),
        _ => return (Origin::Damaged, damaged(random, edition, lists)),
    };
    match lists {
        true => (origin, with_lists(random, &bytes)),
        false => (origin, bytes),
    }
}

/// A random trace of a store that answers rightly or nearly so: most are accepted, and
/// there is much to be ordered in them.
pub fn sound(random: &mut Random) -> (Origin, Vec<u8>) {
    let edition = *random.pick(&[Edition::One, Edition::Two]);
    let lists = drawn_lists(random);
    let (origin, shape) = match random.below(10) {
        0 => (Origin::Large, Shape::large(random, edition)),
        1..=4 => (Origin::Medium, Shape::medium(random, edition)),
        _ => (Origin::Small, Shape::small(random, edition)),
    };
    let shape = Shape {
        stale: *random.pick(&[0, 0, 2, 10]),
        ahead: false,
        wild: 0,
        ..shape
    };
    let bytes = shape.trace(random);
    match lists {
        true => (origin, with_lists(random, &bytes)),
        false => (origin, bytes),
    }
}

/// A random trace of a store that answers most reads with any value at all.
pub fn unclean(random: &mut Random) -> (Origin, Vec<u8>) {
    let edition = *random.pick(&[Edition::One, Edition::Two]);
    let lists = drawn_lists(random);
    let bytes = Shape::unclean(random, edition).trace(random);
    match lists {
        true => (Origin::Unclean, with_lists(random, &bytes)),
        false => (Origin::Unclean, bytes),
    }
}

/// Random bytes, behind the record that the edition begins with; from a small
/// alphabet they get further before they fail.
fn bytes(random: &mut Random, edition: Edition) -> Vec<u8> {
    let size = match random.below(20) {
        0 => random.from_to(MAX_BYTES - 2, MAX_BYTES + 232),
        1..=4 => random.below(2_000),
        _ => random.below(64),
    };
    let alphabet = *random.pick(&[2, 9, 20, 256]);
    let mut bytes = Writer::of_edition(edition, first_serial(random)).bytes;
    bytes.extend((0..size).map(|_| random.below(alphabet) as u8));
    bytes
}

/// Records with lawful frames in a random order that is often lawful too.
fn records(random: &mut Random, edition: Edition, lists: bool) -> Vec<u8> {
    let mut writer = Writer::of_edition(edition, first_serial(random));
    // The sessions of the open transactions.
    let mut open: Vec<u16> = Vec::new();
    // Most of these traces would stop at their first fault, so each trace has
    // its own readiness to make one.
    let fault = *random.pick(&[0, 1, 5, 20]);
    let manner = Manner {
        buckets: Buckets::drawn(random),
        lists,
        fault,
    };
    for _ in 0..random.below(24) {
        let session = random.below(4) as u16;
        let is_inside = match edition {
            Edition::One => !open.is_empty(),
            Edition::Two => open.contains(&session),
        };
        let kind = match random.percent(fault) {
            true => any_kind(random, lists),
            false => lawful_kind(random, edition, is_inside, lists),
        };
        any_record(random, &mut writer, kind, session, manner);
        match (kind, edition) {
            (trace::OPEN, _) => open.push(session),
            (trace::CLOSE, Edition::One) => open.clear(),
            (trace::CLOSE, Edition::Two) => open.retain(|&other| other != session),
            _ => {}
        }
    }
    for session in open {
        if !random.percent(fault) {
            writer.close_in(session, 1);
        }
    }
    if random.percent(fault) {
        writer.end_with(random.below(4) as u16)
    } else {
        writer.end()
    }
}

/// Any kind that there is, or that might be; those of lists only where they are wanted.
fn any_kind(random: &mut Random, lists: bool) -> u16 {
    let kinds = match lists {
        true => 12,
        false => 10,
    };
    match random.below(kinds) {
        9 => trace::EDITION,
        10 => trace::APPEND,
        11 => trace::LIST_READ,
        kind => kind as u16,
    }
}

/// A kind that a record may have, inside a transaction or outside.
fn lawful_kind(random: &mut Random, edition: Edition, is_inside: bool, lists: bool) -> u16 {
    use trace::{APPEND, CLOSE, LIST_READ, NOTE, OPEN, READ, WRITE};
    let lawful: &[u16] = match (edition, is_inside) {
        (Edition::One, true) => &[READ, WRITE, WRITE, CLOSE, NOTE],
        (Edition::One, false) => &[OPEN, OPEN, NOTE],
        (Edition::Two, true) if lists => &[READ, WRITE, APPEND, APPEND, LIST_READ, CLOSE],
        (Edition::Two, true) => &[READ, WRITE, WRITE, CLOSE],
        (Edition::Two, false) => &[OPEN],
    };
    *random.pick(lawful)
}

/// What random records are like.
#[derive(Clone, Copy)]
struct Manner {
    buckets: Option<Buckets>,
    lists: bool,
    /// The chance in percent to make a fault.
    fault: usize,
}

impl Manner {
    /// One of four keys. Where there are lists, two of them have these, and the others
    /// single values, but for a fault.
    fn key(&self, random: &mut Random, sort: Sort) -> u32 {
        let any = random.below(4);
        let place = match sort {
            _ if !self.lists || random.percent(self.fault) => any,
            Sort::Single => any % 2,
            Sort::List => 2 + any % 2,
        };
        numbered(self.buckets, place)
    }

    /// A value to be written or appended.
    fn value(&self, random: &mut Random) -> u64 {
        let lowest = usize::from(!random.percent(self.fault));
        random.from_to(lowest, 30) as u64
    }
}

/// A record of this kind, with the chance to have a fault.
fn any_record(random: &mut Random, writer: &mut Writer, kind: u16, session: u16, manner: Manner) {
    let fault = manner.fault;
    match kind {
        trace::OPEN => writer.open(session),
        trace::READ => {
            let key = manner.key(random, Sort::Single);
            writer.read_in(session, key, random.below(4) as u64);
        }
        trace::WRITE => {
            let value = manner.value(random);
            writer.write_in(session, manner.key(random, Sort::Single), value);
        }
        trace::APPEND if !random.percent(fault / 4) => {
            let value = manner.value(random);
            writer.append_in(session, manner.key(random, Sort::List), value);
        }
        trace::LIST_READ if !random.percent(fault / 4) => {
            any_list_read(random, writer, session, manner);
        }
        trace::CLOSE => {
            let most = if random.percent(fault) { 3 } else { 2 };
            writer.close_in(session, random.from_to(0, most) as u8);
        }
        trace::NOTE if random.percent(fault) => writer.note(&long_note(random)),
        trace::NOTE => writer.note(&note(random)),
        trace::EDITION => writer.record(kind, &[random.from_to(1, 3) as u8, 0]),
        other => writer.record(other, &vec![0; random.below(14)]),
    }
}

/// A list read of few values or many, with the chance to say another number of them.
fn any_list_read(random: &mut Random, writer: &mut Writer, session: u16, manner: Manner) {
    const ABOVE_MOST: usize = 40;
    let most = match random.percent(manner.fault) {
        true => ABOVE_MOST,
        false => *random.pick(&[0, 1, 2, 4, MAX_LIST]),
    };
    let values: Vec<u64> = (0..random.from_to(0, most))
        .map(|_| random.below(31) as u64)
        .collect();
    let number = match random.percent(manner.fault) {
        true => random.from_to(0, ABOVE_MOST),
        false => values.len(),
    };
    let key = manner.key(random, Sort::List);
    writer.numbered_list_in(session, key, number as u16, &values);
}

pub(crate) fn first_serial(random: &mut Random) -> u32 {
    match random.below(4) {
        0 => random.draw() as u32,
        // Near the wrap, so that it happens inside the trace.
        1 => u32::MAX - random.below(20) as u32,
        _ => 0,
    }
}

fn note(random: &mut Random) -> Vec<u8> {
    let size = *random.pick(&[0, 1, 5, 20, MAX_NOTE - 1, MAX_NOTE]);
    text(random, size)
}

/// A note that is refused for its length.
fn long_note(random: &mut Random) -> Vec<u8> {
    let size = *random.pick(&[MAX_NOTE + 1, MAX_NOTE + 1, MAX_NOTE + 2, 100, 300]);
    text(random, size)
}

fn text(random: &mut Random, size: usize) -> Vec<u8> {
    (0..size).map(|_| random.draw() as u8).collect()
}

/// One note, or some in a row.
fn some_notes(random: &mut Random, writer: &mut Writer) {
    for _ in 0..*random.pick(&[1, 1, 1, 2, 3]) {
        writer.note(&note(random));
    }
}

/// The records of a trace, with the chance in percent for notes before each.
fn sprinkled(random: &mut Random, bytes: &[u8], chance: usize) -> Vec<u8> {
    let mut writer = Writer::new(writing::first_serial(bytes));
    for record in trace::records(bytes) {
        if random.percent(chance) {
            some_notes(random, &mut writer);
        }
        writer.record(record.kind, record.payload);
    }
    writer.bytes
}

/// A small trace with notes among its records, up to as many as there is room
/// for, and now and then one more. In edition 2 they are refused, and a trace
/// that one of them begins is no longer of that edition.
fn noted(random: &mut Random, edition: Edition) -> Vec<u8> {
    let plain = match random.below(5) {
        0 => Writer::of_edition(edition, first_serial(random)).end(),
        1 => Web::drawn(random, edition).trace(random),
        _ => Shape::small(random, edition).trace(random),
    };
    let (least, most) = match edition {
        Edition::One => *random.pick(&[(1, 3), (4, 30), (253, 258), (259, 1_100), (4_000, 5_000)]),
        Edition::Two => (1, 3),
    };
    let wanted = random.from_to(least, most);
    let texts = texts_for(random, wanted, MAX_BYTES.saturating_sub(plain.len()));
    with_notes(random, &plain, texts)
}

/// The texts of so many notes, or of as many as have room.
fn texts_for(random: &mut Random, wanted: usize, mut room: usize) -> Vec<Vec<u8>> {
    const HEAD: usize = 8;
    // All of one length, or each of its own.
    let size = *random.pick(&[Some(0), Some(0), Some(MAX_NOTE), None]);
    let mut texts = Vec::new();
    while texts.len() < wanted {
        let text = match size {
            Some(size) => text(random, size),
            None => note(random),
        };
        match room.checked_sub(HEAD + text.len()) {
            Some(left) => room = left,
            None if random.percent(90) => break,
            // One above what has room.
            None => {
                texts.push(text);
                break;
            }
        }
        texts.push(text);
    }
    texts
}

/// The records of a trace with notes before them, each in a place of its own
/// choice.
fn with_notes(random: &mut Random, bytes: &[u8], texts: Vec<Vec<u8>>) -> Vec<u8> {
    let records: Vec<trace::Record> = trace::records(bytes).collect();
    // Mostly few places, so that there are long rows.
    let places = random.from_to(1, records.len());
    let first = random.from_to(0, records.len() - places);
    let mut notes: Vec<(usize, Vec<u8>)> = texts
        .into_iter()
        .map(|text| (first + random.below(places), text))
        .collect();
    notes.sort_by_key(|(place, _)| *place);
    let mut waiting = notes.into_iter().peekable();
    let mut writer = Writer::new(writing::first_serial(bytes));
    for (place, record) in records.iter().enumerate() {
        while let Some((_, text)) = waiting.next_if(|(at, _)| *at == place) {
            writer.note(&text);
        }
        writer.record(record.kind, record.payload);
    }
    writer.bytes
}

/// Numbers of keys by which different keys share a bucket: they are equal modulo
/// 64 or 128, as a judge may sort them to rule out most rivals at once.
#[derive(Clone, Copy, Debug, PartialEq, Eq)]
pub struct Buckets {
    /// From a key to the next one of its bucket.
    step: u32,
    /// How many keys stand side by side before the next step.
    beside: u32,
    /// The number of the first key.
    first: u32,
    /// Whether they count down from 4,294,967,295 and not up from 0.
    downwards: bool,
}

impl Buckets {
    /// For one trace in four. They are drawn aside, so that but for its keys each
    /// trace remains what it was without them.
    fn drawn(random: &Random) -> Option<Buckets> {
        let mut random = random.aside();
        random.percent(25).then(|| Buckets {
            // Half of a bucket, a bucket, two; or only the highest bits differ.
            step: *random.pick(&[64, 128, 128, 128, 256, 1 << 25]),
            beside: *random.pick(&[1, 1, 2, 3]),
            first: match random.percent(30) {
                true => 0,
                false => random.below(128) as u32,
            },
            downwards: random.percent(50),
        })
    }

    /// The key of this place, from 0. Up to 128 of them are all different.
    fn key(&self, place: usize) -> u32 {
        let place = place as u32;
        let (steps, beside) = (place / self.beside, place % self.beside);
        let further = steps.wrapping_mul(self.step).wrapping_add(beside);
        let key = self.first.wrapping_add(further);
        match self.downwards {
            true => !key,
            false => key,
        }
    }
}

/// The key of this place, from 0: by the buckets, or else the place itself.
fn numbered(buckets: Option<Buckets>, place: usize) -> u32 {
    buckets.map_or(place as u32, |buckets| buckets.key(place))
}

/// What a plausible trace is like. The store it imitates answers each read
/// rightly, or with an older value, or with any value at all.
pub struct Shape {
    /// In edition 2 the transactions overlap.
    pub edition: Edition,
    pub transactions: usize,
    pub sessions: usize,
    pub keys: usize,
    /// Few buckets for the keys; without them keys are small or random numbers.
    pub buckets: Option<Buckets>,
    /// Least and most operations of a transaction, and most of the trace.
    pub operations_least: usize,
    pub operations_each: usize,
    pub operations: usize,
    /// Chances in percent.
    pub writes: usize,
    pub aborted: usize,
    /// Of those that do not abort, those whose commit is not answered. Half of
    /// them, by chance, did commit in the store; the others did not.
    pub unanswered: usize,
    /// In edition 1; the other has none.
    pub notes: usize,
    /// A read that gets the last value of some transaction of the store.
    pub stale: usize,
    /// Whether that may be a transaction whose turn is yet to come, which
    /// soon makes a cycle of reads; without, the levels differ more often.
    pub ahead: bool,
    /// A read that gets any written value, 0, or one never written.
    pub wild: usize,
    /// Whether the store runs transactions in an order that is not the
    /// trace's, though still the sessions'.
    pub mixed: bool,
}

impl Shape {
    fn drawn(
        random: &mut Random,
        edition: Edition,
        transactions: usize,
        operations_each: usize,
    ) -> Shape {
        // In one session nothing overlaps.
        let least_sessions = match edition {
            Edition::One => 1,
            Edition::Two => 2,
        };
        Shape {
            edition,
            transactions,
            sessions: random.from_to(least_sessions, transactions.max(least_sessions)),
            keys: random.from_to(1, (transactions / 2).max(3)),
            buckets: Buckets::drawn(random),
            operations_least: 0,
            operations_each,
            operations: trace::MAX_OPERATIONS,
            writes: *random.pick(&[30, 50, 50, 70]),
            aborted: *random.pick(&[0, 5, 15, 30]),
            unanswered: *random.pick(&[0, 0, 10, 30, 60]),
            notes: *random.pick(&[0, 0, 5, 20]),
            stale: *random.pick(&[0, 2, 10, 50, 100]),
            ahead: random.percent(25),
            wild: *random.pick(&[0, 0, 0, 1, 5, 40]),
            mixed: random.percent(50),
        }
    }

    /// Few enough transactions to try every order.
    fn small(random: &mut Random, edition: Edition) -> Shape {
        let transactions = random.from_to(1, 7);
        let each = random.from_to(1, 5);
        Shape::drawn(random, edition, transactions, each)
    }

    fn medium(random: &mut Random, edition: Edition) -> Shape {
        let transactions = random.from_to(8, 40);
        let each = random.from_to(2, 10);
        Shape::drawn(random, edition, transactions, each)
    }

    /// At the limits, and sometimes one above.
    fn large(random: &mut Random, edition: Edition) -> Shape {
        let transactions = *random.pick(&[90, 126, 127, 127, 127, 127, 127, 128]);
        let each = random.from_to(4, 20);
        let mut shape = Shape::drawn(random, edition, transactions, each);
        shape.operations = *random.pick(&[1_023, 1_024, 1_024, 1_024, 1_025]);
        shape.notes = *random.pick(&[0, 0, 2]);
        shape
    }

    /// Of any size, and most reads get any value of few keys: findings of every
    /// kind, with their writes anywhere.
    fn unclean(random: &mut Random, edition: Edition) -> Shape {
        let shape = match random.below(6) {
            0 => Shape::large(random, edition),
            1 | 2 => Shape::medium(random, edition),
            _ => Shape::small(random, edition),
        };
        Shape {
            keys: random.from_to(1, 3),
            wild: *random.pick(&[60, 90, 100]),
            ..shape
        }
    }

    /// A trace of this shape.
    pub fn trace(&self, random: &mut Random) -> Vec<u8> {
        let mut plan = self.plan(random);
        self.answer_reads(random, &mut plan);
        match self.edition {
            Edition::One => self.write(random, &plan),
            Edition::Two => overlapping(random, plan.into_iter().map(|t| t.whole).collect()),
        }
    }

    /// Everything but the values read.
    fn plan(&self, random: &mut Random) -> Vec<Planned> {
        let small_numbers = random.percent(70);
        let keys: Vec<u32> = (0..self.keys)
            .map(|place| {
                let any = if small_numbers {
                    place as u32 + 1
                } else {
                    random.draw() as u32
                };
                self.buckets.map_or(any, |buckets| buckets.key(place))
            })
            .collect();
        // Values count up key by key, so different keys share values.
        let first_value = if small_numbers {
            1
        } else {
            random.draw() >> 1 | 1
        };
        let mut next_value = vec![first_value; self.keys];
        let sessions: Vec<u16> = (1..=self.sessions as u16)
            .map(|n| {
                if small_numbers {
                    n
                } else {
                    random.draw() as u16
                }
            })
            .collect();
        let mut left = self.operations;
        (0..self.transactions)
            .map(|_| {
                let count = random
                    .from_to(self.operations_least, self.operations_each)
                    .min(left);
                left -= count;
                let operations = (0..count)
                    .map(|_| {
                        // Two of the keys may be equal by chance: then the
                        // trace may repeat a write, which is welcome.
                        let key = random.below(self.keys);
                        if !random.percent(self.writes) {
                            return Access::read(keys[key], 0);
                        }
                        let value = next_value[key];
                        next_value[key] += 1;
                        Access::write(keys[key], value)
                    })
                    .collect();
                let session = *random.pick(&sessions);
                let status = self.status(random);
                Planned {
                    in_store: match status {
                        Status::Aborted => false,
                        Status::Committed => true,
                        Status::Unanswered => random.percent(50),
                    },
                    whole: Whole {
                        session,
                        status,
                        operations,
                    },
                }
            })
            .collect()
    }

    fn status(&self, random: &mut Random) -> Status {
        if random.percent(self.aborted) {
            Status::Aborted
        } else if self.unanswered > 0 && random.percent(self.unanswered) {
            // No number is drawn for a chance that there is not, so that the
            // traces for measuring remain what they were without it.
            Status::Unanswered
        } else {
            Status::Committed
        }
    }

    /// Runs the transactions one after another on an imitated store.
    fn answer_reads(&self, random: &mut Random, plan: &mut [Planned]) {
        let turns = if self.mixed {
            turns_within_sessions(random, plan)
        } else {
            (0..plan.len()).collect()
        };
        let all_writes: Vec<Written> = plan
            .iter()
            .flat_map(|t| writes(&t.whole.operations))
            .collect();
        // The last values that the transactions of the store give a key.
        let finals: Vec<Written> = plan
            .iter()
            .filter(|t| t.in_store)
            .flat_map(|t| last_writes(&t.whole.operations))
            .collect();
        // The same, of those whose turn has been; the latest last.
        let mut store: Vec<Written> = Vec::new();
        for turn in turns {
            let own_writes = writes(&plan[turn].whole.operations);
            for index in 0..plan[turn].whole.operations.len() {
                let Access { key, ref action } = plan[turn].whole.operations[index];
                if action.written().is_some() {
                    continue;
                }
                let before = writes(&plan[turn].whole.operations[..index]);
                let own = before.iter().rev().find(|w| w.key == key);
                let value = if random.percent(self.wild) {
                    // Half of them look at the transaction itself, or the
                    // kinds about own writes would be rare.
                    let choice = *random.pick(&[&own_writes, &all_writes]);
                    pick_value(random, choice, key, true)
                } else if let Some(own) = own {
                    own.value
                } else if random.percent(self.stale) {
                    let choice = if self.ahead { &finals } else { &store };
                    pick_value(random, choice, key, false)
                } else {
                    let latest = store.iter().rev().find(|w| w.key == key);
                    latest.map_or(0, |write| write.value)
                };
                plan[turn].whole.operations[index].action = Action::Read(value);
            }
            if plan[turn].in_store {
                store.extend(last_writes(&plan[turn].whole.operations));
            }
        }
    }

    fn write(&self, random: &mut Random, plan: &[Planned]) -> Vec<u8> {
        let mut writer = Writer::new(first_serial(random));
        let maybe_note = |writer: &mut Writer, random: &mut Random| {
            if random.percent(self.notes) {
                some_notes(random, writer);
            }
        };
        maybe_note(&mut writer, random);
        for Planned { whole, .. } in plan {
            writer.open(whole.session);
            for operation in &whole.operations {
                maybe_note(&mut writer, random);
                operation.put(&mut writer, whole.session);
            }
            maybe_note(&mut writer, random);
            writer.close_in(whole.session, whole.status as u8);
            maybe_note(&mut writer, random);
        }
        writer.end()
    }
}

struct Planned {
    /// Whether its writes are there to be read.
    in_store: bool,
    whole: Whole,
}

/// The transactions in edition 2, woven together, few or many open at once.
fn overlapping(random: &mut Random, mut wholes: Vec<Whole>) -> Vec<u8> {
    // Sessions drawn at random soon wait for one another, so some traces have
    // one for each transaction.
    if random.percent(30) {
        for (number, whole) in (1..).zip(&mut wholes) {
            whole.session = number;
        }
    }
    // Other numbers for the same sessions: each of these is one to one. Small
    // numbers come to differ in their high bytes only, or by 128.
    let renumber: fn(u16) -> u16 = match random.below(8) {
        0 => u16::swap_bytes,
        1 => |session| session.rotate_left(7),
        2 => |session| !session,
        _ => |session| session,
    };
    for whole in &mut wholes {
        whole.session = renumber(whole.session);
    }
    let writer = Writer::edition_2(first_serial(random));
    let most = *random.pick(&[2, 4, MAX_TRANSACTIONS, MAX_TRANSACTIONS]);
    let chance = *random.pick(&[10, 30, 60, 90, 100]);
    weave::weave(writer, &wholes, weave::at_random(random, most, chance))
}

/// A write, whoever does it.
#[derive(Clone, Copy)]
struct Written {
    key: u32,
    value: u64,
}

fn writes(operations: &[Access]) -> Vec<Written> {
    let write = |operation: &Access| {
        let value = operation.action.written()?;
        let key = operation.key;
        Some(Written { key, value })
    };
    operations.iter().filter_map(write).collect()
}

/// The last write of each key.
fn last_writes(operations: &[Access]) -> Vec<Written> {
    let all = writes(operations);
    let is_last = |&index: &usize| all[index + 1..].iter().all(|w| w.key != all[index].key);
    (0..all.len())
        .filter(is_last)
        .map(|index| all[index])
        .collect()
}

/// The value of some write of the key, or 0, or, if allowed, one that no
/// write has.
fn pick_value(random: &mut Random, from: &[Written], key: u32, thin_air: bool) -> u64 {
    let of_key: Vec<u64> = from
        .iter()
        .filter(|w| w.key == key)
        .map(|w| w.value)
        .collect();
    if thin_air && random.percent(10) {
        return random.draw() | 1 << 63;
    }
    if of_key.is_empty() || random.percent(15) {
        return 0;
    }
    *random.pick(&of_key)
}

/// A random order of turns in which each session's transactions keep theirs:
/// the sessions' turns are shuffled, then dealt to their transactions in order.
fn turns_within_sessions(random: &mut Random, plan: &[Planned]) -> Vec<usize> {
    let mut session_turns: Vec<u16> = plan.iter().map(|t| t.whole.session).collect();
    random.shuffle(&mut session_turns);
    let mut dealt = vec![false; plan.len()];
    let mut deal = |session| {
        let next = (0..plan.len())
            .find(|&t| !dealt[t] && plan[t].whole.session == session)
            .expect("as many turns as transactions");
        dealt[next] = true;
        next
    };
    session_turns.into_iter().map(&mut deal).collect()
}

/// Transactions of which most are unanswered, woven together by who reads whom:
/// what counts then hangs on long or circular ways from reader to writer, which
/// a store seldom makes.
struct Web {
    edition: Edition,
    transactions: usize,
    sessions: usize,
    /// As many as transactions, or few, so that writers are rivals.
    keys: usize,
    buckets: Option<Buckets>,
    /// Chances in percent.
    aborted: usize,
    unanswered: usize,
    /// A read that gets the first of the two values of its writer, not the last.
    intermediate: usize,
    /// A transaction whose operations stand in any order, not first the reads
    /// of others, then the writes, then the reads of its own.
    shuffled: usize,
    /// Notes before a record, in edition 1; the other has none.
    notes: usize,
}

impl Web {
    fn drawn(random: &mut Random, edition: Edition) -> Web {
        let transactions = match random.below(20) {
            0 => random.from_to(100, MAX_TRANSACTIONS),
            1..=4 => random.from_to(8, 40),
            5..=12 => random.from_to(4, 7),
            _ => random.from_to(2, 7),
        };
        let web = Web {
            edition,
            transactions,
            sessions: *random.pick(&[2, transactions, 10 * transactions]),
            keys: *random.pick(&[1, 2, transactions, transactions, transactions]),
            buckets: Buckets::drawn(random),
            aborted: *random.pick(&[0, 0, 10, 30]),
            unanswered: *random.pick(&[60, 80, 95, 100, 100]),
            intermediate: *random.pick(&[0, 0, 10, 50]),
            shuffled: *random.pick(&[0, 0, 10, 50]),
            notes: *random.pick(&[0, 0, 5, 30]),
        };
        match random.percent(50) {
            true => web,
            // Nothing amiss but what the patterns themselves make so.
            false => Web {
                sessions: usize::from(u16::MAX),
                aborted: 0,
                intermediate: 0,
                shuffled: 0,
                ..web
            },
        }
    }

    fn trace(&self, random: &mut Random) -> Vec<u8> {
        let reads = self.reads(random);
        let statuses = self.statuses(random);
        let wholes: Vec<Whole> = (0..self.transactions)
            .map(|t| Whole {
                session: random.below(self.sessions) as u16,
                status: statuses[t],
                operations: self.operations(random, t, &reads[t]),
            })
            .collect();
        match self.edition {
            Edition::One => {
                let blocks = weave::blocks(Edition::One, first_serial(random), &wholes);
                sprinkled(random, &blocks, self.notes)
            }
            Edition::Two => overlapping(random, wholes),
        }
    }

    /// Reads of others, the writes, reads of its own; or all in any order.
    fn operations(&self, random: &mut Random, reader: usize, sources: &[usize]) -> Vec<Access> {
        let (own, others): (Vec<usize>, Vec<usize>) =
            sources.iter().partition(|&&source| source == reader);
        let mut operations: Vec<Access> = Vec::new();
        operations.extend(others.iter().map(|&source| self.read(random, source)));
        let written = self.writes(reader).into_iter();
        operations.extend(written.map(|w| Access::write(w.key, w.value)));
        operations.extend(own.iter().map(|&source| self.read(random, source)));
        if random.percent(self.shuffled) {
            random.shuffle(&mut operations);
        }
        operations
    }

    /// Whom each transaction reads: one to three patterns, one over another.
    fn reads(&self, random: &mut Random) -> Vec<Vec<usize>> {
        let mut reads = vec![Vec::new(); self.transactions];
        for _ in 0..*random.pick(&[1, 1, 1, 2, 3]) {
            // Mostly a long stretch, or few of the long ways would be tried.
            let last = self.transactions - 1;
            let (first, last) = match random.percent(60) {
                true => (0, last),
                false => {
                    let first = random.below(self.transactions);
                    (first, random.from_to(first, last))
                }
            };
            match random.below(10) {
                0..=2 => (first..last).for_each(|t| reads[t].push(t + 1)),
                3..=5 => (first..last).for_each(|t| reads[t + 1].push(t)),
                6 | 7 => {
                    // A ring: of two, they read each other; of one, itself.
                    let last = last.min(first + random.below(4));
                    (first..last).for_each(|t| reads[t].push(t + 1));
                    reads[last].push(first);
                }
                8 => reads[first].push(first),
                _ => reads[first].push(random.below(self.transactions)),
            }
        }
        reads
    }

    fn statuses(&self, random: &mut Random) -> Vec<Status> {
        let mut statuses: Vec<Status> = (0..self.transactions)
            .map(|_| {
                if random.percent(self.unanswered) {
                    Status::Unanswered
                } else if random.percent(self.aborted) {
                    Status::Aborted
                } else {
                    Status::Committed
                }
            })
            .collect();
        // A chain counts as a whole if the end that reads it did commit.
        match random.below(3) {
            0 => statuses[0] = Status::Committed,
            1 => statuses[self.transactions - 1] = Status::Committed,
            _ => {}
        }
        statuses
    }

    /// Both writes of a transaction are of its key.
    fn writes(&self, writer: usize) -> [Written; 2] {
        [1, 2].map(|which| Written {
            key: numbered(self.buckets, writer % self.keys),
            value: 2 * writer as u64 + which,
        })
    }

    fn read(&self, random: &mut Random, source: usize) -> Access {
        let [first, last] = self.writes(source);
        let Written { key, value } = match random.percent(self.intermediate) {
            true => first,
            false => last,
        };
        Access::read(key, value)
    }
}

/// A plausible trace with one to three faults. Most leave the trace framed and
/// numbered, so that the fault itself is what the judge has to see.
fn damaged(random: &mut Random, edition: Edition, lists: bool) -> Vec<u8> {
    let mut bytes = match random.below(10) {
        0 => Shape::medium(random, edition).trace(random),
        1 if random.percent(20) => Shape::large(random, edition).trace(random),
        2 => Web::drawn(random, edition).trace(random),
        _ => Shape::small(random, edition).trace(random),
    };
    if lists {
        bytes = with_lists(random, &bytes);
    }
    for _ in 0..random.from_to(1, 3) {
        if bytes.is_empty() {
            break;
        }
        damage(random, &mut bytes, lists);
    }
    bytes
}

/// A record that may have anything in it.
#[derive(Clone)]
struct Loose {
    length: u16,
    kind: u16,
    serial: u32,
    payload: Vec<u8>,
}

impl Loose {
    /// One to be numbered with the others.
    fn new(kind: u16, payload: Vec<u8>) -> Loose {
        Loose {
            length: 6 + payload.len() as u16,
            kind,
            serial: 0,
            payload,
        }
    }

    /// The record that edition 2 begins with, mostly with the right number.
    fn edition(random: &mut Random) -> Loose {
        let number = *random.pick(&[2, 2, 2, 0, 1, 3, 0x0102, 0x0200]);
        Loose::new(trace::EDITION, u16::to_le_bytes(number).to_vec())
    }
}

fn loosen(bytes: &[u8]) -> Vec<Loose> {
    trace::records(bytes)
        .map(|record| Loose {
            length: 6 + record.payload.len() as u16,
            kind: record.kind,
            serial: record.serial,
            payload: record.payload.to_vec(),
        })
        .collect()
}

fn tighten(records: &[Loose]) -> Vec<u8> {
    let mut bytes = Vec::new();
    for record in records {
        bytes.extend(record.length.to_le_bytes());
        bytes.extend(record.kind.to_le_bytes());
        bytes.extend(record.serial.to_le_bytes());
        bytes.extend(&record.payload);
    }
    bytes
}

fn damage(random: &mut Random, bytes: &mut Vec<u8>, lists: bool) {
    match random.below(5) {
        0 => {
            let size = random.below(bytes.len());
            bytes.truncate(size);
            return;
        }
        1 => {
            let at = random.below(bytes.len());
            bytes[at] = random.draw() as u8;
            return;
        }
        2 if random.percent(30) => {
            let more = random.from_to(1, 20);
            bytes.extend((0..more).map(|_| random.below(9) as u8));
            return;
        }
        _ => {}
    }
    let mut records = loosen(bytes);
    if records.is_empty() {
        return;
    }
    let at = random.below(records.len());
    let other = random.below(records.len());
    let first_serial = records[0].serial;
    let mut renumber = true;
    let ways = match lists {
        true => 24,
        false => 18,
    };
    match random.below(ways) {
        0 => records.swap(at, other),
        1 => {
            records.swap(at, other);
            renumber = false;
        }
        2 => {
            records.remove(at);
        }
        3 => records.insert(other, records[at].clone()),
        4 => {
            records[at].length = records[at]
                .length
                .wrapping_add(random.below(5) as u16)
                .wrapping_sub(2)
        }
        5 => records[at].kind = any_kind(random, lists),
        6 => {
            records[at].serial = match random.below(3) {
                0 => random.draw() as u32,
                1 => records[at].serial.wrapping_add(1),
                _ => records[at].serial ^ 0x100,
            };
            renumber = false;
        }
        7 => {
            // A value or a status of 0 or 3, an end number off: rows 8 and 10.
            let fill = random.below(4) as u8;
            let start = records[at].payload.len().saturating_sub(8);
            records[at].payload[start..].fill(0);
            if let Some(byte) = records[at].payload.get_mut(start) {
                *byte = fill;
            }
        }
        8 => {
            let payload = records[other].payload.clone();
            if payload.len() == records[at].payload.len() {
                records[at].payload = payload;
            }
        }
        9 => {
            let closes: Vec<usize> = (0..records.len())
                .filter(|&at| records[at].kind == trace::CLOSE)
                .collect();
            if !closes.is_empty() {
                if let Some(status) = records[*random.pick(&closes)].payload.last_mut() {
                    *status = random.below(4) as u8;
                }
            }
        }
        10 => {
            records[at].payload.push(0);
            records[at].length += 1;
        }
        11 => {
            // Another record's session, if both have one.
            let session = records[other].payload.first_chunk::<2>().copied();
            let place = records[at].payload.first_chunk_mut();
            if let (Some(session), Some(place)) = (session, place) {
                *place = session;
            }
        }
        12 => records.insert(at, Loose::edition(random)),
        13 => {
            let text = match random.percent(25) {
                true => long_note(random),
                false => note(random),
            };
            records.insert(at, Loose::new(trace::NOTE, text));
        }
        14 => match records[0].kind {
            trace::EDITION => drop(records.remove(0)),
            _ => records.insert(0, Loose::edition(random)),
        },
        15 | 16 => renumber = spoil_note(random, &mut records),
        17 => {
            if records[at].payload.pop().is_some() {
                records[at].length -= 1;
            }
        }
        _ => spoil_operation(random, &mut records),
    }
    if renumber {
        for (index, record) in records.iter_mut().enumerate() {
            record.serial = first_serial.wrapping_add(index as u32);
        }
    }
    *bytes = tighten(&records);
}

/// Makes one of the notes, if there are any, a record that is refused, or that
/// swallows or loses a byte. Answers whether the serials may be made to follow.
fn spoil_note(random: &mut Random, records: &mut [Loose]) -> bool {
    let notes = records.iter_mut().filter(|r| r.kind == trace::NOTE);
    let mut notes: Vec<&mut Loose> = notes.collect();
    if notes.is_empty() {
        return true;
    }
    let at = random.below(notes.len());
    let note = &mut *notes[at];
    match random.below(3) {
        0 => {
            note.serial = note.serial.wrapping_add(random.from_to(1, 300) as u32);
            return false;
        }
        1 => note.length = note.length.wrapping_add(*random.pick(&[1, u16::MAX])),
        _ => {
            note.payload = long_note(random);
            note.length = 6 + note.payload.len() as u16;
        }
    }
    true
}

/// Makes one of the operations another one, which may be on a list: of another kind, of
/// another's key, with another's value; or makes a list longer or shorter, as its number
/// says or not.
fn spoil_operation(random: &mut Random, records: &mut [Loose]) {
    use trace::{APPEND, LIST_READ, READ, WRITE};
    let is_operation = |record: &Loose| matches!(record.kind, READ | WRITE | APPEND | LIST_READ);
    let operations: Vec<usize> = (0..records.len())
        .filter(|&at| is_operation(&records[at]))
        .collect();
    if operations.is_empty() {
        return;
    }
    let other = records[*random.pick(&operations)].clone();
    let record = &mut records[*random.pick(&operations)];
    match (record.kind, random.below(5)) {
        (LIST_READ, 0..=2) => spoil_list(random, record),
        (LIST_READ, _) | (_, 0) => copy_over(record, &other, 2..6),
        (_, 1) => copy_over(record, &other, 6..14),
        _ => record.kind = *random.pick(&[READ, WRITE, APPEND, APPEND, LIST_READ]),
    }
}

/// Puts what another record has in this stretch in its place, if both have it.
fn copy_over(record: &mut Loose, other: &Loose, stretch: std::ops::Range<usize>) {
    let place = record.payload.get_mut(stretch.clone());
    if let (Some(place), Some(bytes)) = (place, other.payload.get(stretch)) {
        place.copy_from_slice(bytes);
    }
}

/// Gives a list read other values, another number, or a number that fits none of these.
fn spoil_list(random: &mut Random, list: &mut Loose) {
    const HEAD: usize = 8;
    if list.payload.len() < HEAD {
        return;
    }
    let number = random.from_to(0, 40);
    match random.below(4) {
        // As many values as it says, the last ones zeros, or with more of them.
        0 | 1 => {
            list.payload.resize(HEAD + 8 * number, 0);
            list.payload[6..HEAD].copy_from_slice(&(number as u16).to_le_bytes());
        }
        2 => list.payload[6..HEAD].copy_from_slice(&(number as u16).to_le_bytes()),
        // A number as great as it gets, or none at all.
        _ => match random.percent(50) {
            true => list.payload[6..HEAD].fill(0xff),
            false => list.payload.truncate(random.below(HEAD)),
        },
    }
    list.length = 6 + list.payload.len() as u16;
}
