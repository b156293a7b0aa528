//! Random traces with lists, and traces without theirs.
//!
//! A trace of edition 2 is taken, and some of its keys become keys of lists: a write
//! becomes an append of the same value, a read becomes a list read. An imitated store
//! answers each list read rightly, or with another state of the list, or wrongly.

use crate::encode::Writer;
use crate::hash::FastMap;
use crate::random::Random;
use crate::trace::{self, Action, Edition, Operation, Status, Trace};
use crate::trace::{APPEND, LIST_READ, MAX_BYTES, MAX_LIST, MAX_OPERATIONS, READ, WRITE};
use crate::weave::Access;
use crate::writing::first_serial;

/// The same trace with lists, if it is of edition 2 and is read; any other stays what
/// it is.
pub fn with_lists(random: &mut Random, bytes: &[u8]) -> Vec<u8> {
    match Trace::parse(bytes) {
        Ok(trace) if trace.edition == Edition::Two => {
            let accesses = Store::drawn(random, &trace, bytes.len()).accesses(random);
            with_accesses(bytes, &accesses)
        }
        _ => bytes.to_vec(),
    }
}

/// The records of a trace of edition 2 without lists, with these in place of each of its
/// operations.
fn with_accesses(bytes: &[u8], accesses: &[Vec<Access>]) -> Vec<u8> {
    let mut accesses = accesses.iter();
    let mut writer = Writer::edition_2(first_serial(bytes));
    // The first record says the edition, and has been written.
    for record in trace::records(bytes).skip(1) {
        match (record.kind, record.payload) {
            (READ | WRITE, [low, high, ..]) => {
                let session = u16::from_le_bytes([*low, *high]);
                for access in accesses.next().expect("some for each operation") {
                    access.put(&mut writer, session);
                }
            }
            (kind, payload) => writer.record(kind, payload),
        }
    }
    writer.bytes
}

/// The records of a trace without appends and list reads, with serials from its first
/// one on.
pub fn left_out(bytes: &[u8]) -> Vec<u8> {
    let mut writer = Writer::new(first_serial(bytes));
    for record in trace::records(bytes) {
        if !matches!(record.kind, APPEND | LIST_READ) {
            writer.record(record.kind, record.payload);
        }
    }
    writer.bytes
}

/// A store of lists, by which the operations of a trace come about.
struct Store<'a> {
    trace: &'a Trace,
    /// What there is of each key that is one of lists.
    lists: FastMap<u32, List>,
    /// The most values that a list read gets, so that all have room in the trace.
    most: usize,
    /// Chances in percent. A list read that gets the list as some transaction left it,
    /// which may be one whose turn is yet to come.
    stale: usize,
    /// A list read with something wrong in it.
    wrong: usize,
    /// A list that may be longer than is lawful.
    too_long: usize,
    /// The indexes of operations that are of the other sort than their keys.
    mixed: Vec<usize>,
    /// The indexes of operations behind which there is one more, if their keys are those
    /// of lists.
    more: Vec<usize>,
}

impl<'a> Store<'a> {
    /// A store for a trace of so many bytes.
    fn drawn(random: &mut Random, trace: &'a Trace, size: usize) -> Store<'a> {
        let lists = drawn_lists(random, trace);
        let ample = random.percent(3);
        let most = match ample {
            true => MAX_LIST,
            false => most_with_room(trace, &lists, size),
        };
        let count = trace.operations.len();
        // A full trace comes to have too many operations.
        let chance = match count >= MAX_OPERATIONS - 1 {
            true => 40,
            false => 10,
        };
        let mixed = some_indexes(random, 5, count);
        let more = some_indexes(random, chance, count);
        Store {
            trace,
            lists,
            most,
            stale: *random.pick(&[0, 0, 5, 30, 100]),
            wrong: *random.pick(&[0, 0, 0, 3, 15, 60]),
            too_long: *random.pick(&[0, 0, 0, 20]),
            mixed,
            more,
        }
    }

    /// What stands in place of each operation of the trace: those of list keys are on
    /// lists.
    fn accesses(&self, random: &mut Random) -> Vec<Vec<Access>> {
        let mut accesses = Vec::new();
        for (index, operation) in self.trace.operations.iter().enumerate() {
            let key = operation.key;
            let is_list = self.lists.contains_key(&key);
            let action = match (is_list != self.mixed.contains(&index), &operation.action) {
                (true, Action::Write(value)) => Action::Append(*value),
                (true, _) => Action::ReadList(self.answer(random, index)),
                (false, action) => action.clone(),
            };
            let mut here = vec![Access { key, action }];
            if is_list && self.more.contains(&index) {
                let action = match random.percent(50) {
                    true => Action::Append(random.draw() | 1),
                    false => Action::ReadList(self.answer(random, index)),
                };
                here.push(Access { key, action });
            }
            accesses.push(here);
        }
        accesses
    }

    /// The list that the read with this index gets.
    fn answer(&self, random: &mut Random, index: usize) -> Vec<u64> {
        let operation = &self.trace.operations[index];
        let Some(list) = self.lists.get(&operation.key) else {
            return vec![]; // it mixes a key that has no list
        };
        let seen = match random.percent(self.stale) {
            true => *random.pick(&list.ends()),
            false => list.seen_by(operation.transaction, self.own_before(index)),
        };
        let mut values = list.values(list.cut(seen, self.most));
        if random.percent(self.wrong) {
            for _ in 0..*random.pick(&[1, 1, 1, 2, 3]) {
                list.spoil(random, &mut values);
            }
        }
        if !random.percent(self.too_long) {
            values.truncate(MAX_LIST);
        }
        values
    }

    /// How many values the transaction of the read with this index gave its key before.
    fn own_before(&self, index: usize) -> usize {
        let (earlier, read) = (
            &self.trace.operations[..index],
            &self.trace.operations[index],
        );
        let is_own = |o: &&Operation| {
            let is_write = o.action.written().is_some();
            is_write && (o.transaction, o.key) == (read.transaction, read.key)
        };
        earlier.iter().filter(is_own).count()
    }
}

/// One or two of so many indexes, with a chance in percent; or else none.
fn some_indexes(random: &mut Random, chance: usize, count: usize) -> Vec<usize> {
    if count == 0 || !random.percent(chance) {
        return vec![];
    }
    (0..random.from_to(1, 2))
        .map(|_| random.below(count))
        .collect()
}

/// The lists of some keys of a trace, or of all.
fn drawn_lists(random: &mut Random, trace: &Trace) -> FastMap<u32, List> {
    let chance = *random.pick(&[40, 70, 100]);
    // One order for all keys makes no cycle of write dependencies, but reads may; where
    // each key has its own order there soon is one.
    let each_its_own = random.percent(20);
    let is_shuffled = each_its_own || random.percent(30);
    let torn = *random.pick(&[0, 0, 0, 0, 10, 50]);
    let is_there = drawn_members(random, trace);
    let mut turns: Vec<usize> = (0..is_there.len()).collect();
    if is_shuffled {
        random.shuffle(&mut turns);
    }
    let mut keys: Vec<u32> = trace.operations.iter().map(|o| o.key).collect();
    keys.sort_unstable();
    keys.dedup();
    keys.retain(|_| random.percent(chance));
    let mut lists = FastMap::default();
    for key in keys {
        if each_its_own {
            random.shuffle(&mut turns);
        }
        let mut list = List::new(trace, key, &turns, &is_there);
        list.tear(random, torn);
        lists.insert(key, list);
    }
    lists
}

/// Whose appends are there to be read, by number; that of 0 does not matter.
fn drawn_members(random: &mut Random, trace: &Trace) -> Vec<bool> {
    let mut is_there = vec![false];
    for transaction in &trace.transactions {
        is_there.push(match transaction.status {
            Status::Committed => true,
            Status::Unanswered => random.percent(50),
            // Now and then what should be gone is seen by all.
            Status::Aborted => random.percent(3),
        });
    }
    is_there
}

/// The most values for each list read of a trace that has so many bytes without them.
fn most_with_room(trace: &Trace, lists: &FastMap<u32, List>, size: usize) -> usize {
    // A read has so many bytes more than a list read of the empty list.
    const LESS: usize = 6;
    let is_list_read = |o: &&Operation| o.action.read().is_some() && lists.contains_key(&o.key);
    let reads = trace.operations.iter().filter(is_list_read).count();
    let room = MAX_BYTES.saturating_sub(size) / reads.max(1);
    MAX_LIST.min((room + LESS) / 8)
}

/// The list of a key when all have had their turn.
struct List {
    /// When it is each transaction's turn, by number.
    turns: Vec<usize>,
    elements: Vec<Element>,
    /// What was appended, but is not there.
    lost: Vec<Element>,
}

struct Element {
    author: u8,
    value: u64,
}

impl List {
    /// The list of a key that transactions append to by their turns.
    fn new(trace: &Trace, key: u32, turns: &[usize], is_there: &[bool]) -> List {
        let element = |o: &Operation| {
            let value = o.action.written().filter(|_| o.key == key)?;
            Some(Element {
                author: o.transaction,
                value,
            })
        };
        let all = trace.operations.iter().filter_map(element);
        let (mut elements, lost): (Vec<Element>, Vec<Element>) =
            all.partition(|e| is_there[usize::from(e.author)]);
        // Stable: those of one transaction stay in their order.
        elements.sort_by_key(|e| turns[usize::from(e.author)]);
        List {
            turns: turns.to_vec(),
            elements,
            lost,
        }
    }

    /// Swaps neighbours with a chance in percent: what one appends no longer stands
    /// together.
    fn tear(&mut self, random: &mut Random, chance: usize) {
        for at in 1..self.elements.len() {
            if random.percent(chance) {
                self.elements.swap(at - 1, at);
            }
        }
    }

    fn values(&self, seen: usize) -> Vec<u64> {
        self.elements[..seen].iter().map(|e| e.value).collect()
    }

    /// How long the list is wherever what one transaction appended ends.
    fn ends(&self) -> Vec<usize> {
        let author = |at: usize| self.elements.get(at).map(|e| e.author);
        let is_end = |&end: &usize| end == 0 || author(end - 1) != author(end);
        (0..=self.elements.len()).filter(is_end).collect()
    }

    /// How much of it a transaction sees: what was there before its turn, and so many of
    /// its own elements, if they are there.
    fn seen_by(&self, reader: u8, own: usize) -> usize {
        let turn = |t: u8| self.turns[usize::from(t)];
        let is_earlier = |e: &&Element| turn(e.author) < turn(reader);
        let before = self.elements.iter().take_while(is_earlier).count();
        let behind = &self.elements[before..];
        let there = behind.iter().take_while(|e| e.author == reader).count();
        before + own.min(there)
    }

    /// No more than so many elements, up to where those of one transaction end.
    fn cut(&self, seen: usize, most: usize) -> usize {
        match seen <= most {
            true => seen,
            false => {
                let ends = self.ends().into_iter();
                ends.filter(|&end| end <= most).max().unwrap_or(0)
            }
        }
    }

    /// Makes something wrong in a list that was read, or at least unlike the others.
    fn spoil(&self, random: &mut Random, values: &mut Vec<u64>) {
        let (at, other) = (
            random.below(values.len() + 1),
            random.below(values.len() + 1),
        );
        match random.below(8) {
            // Mostly never appended to this key.
            0 => {
                let any = random.draw();
                values.insert(at, *random.pick(&[0, 1, 2, u64::MAX, any]));
            }
            1 => values.extend(values.get(at).copied()),
            2 => {
                if let Some(&again) = values.get(at) {
                    values.insert(other, again);
                }
            }
            3 | 4 if !self.lost.is_empty() => {
                let lost = random.pick(&self.lost).value;
                values.insert(at, lost);
            }
            5 => values.truncate(at),
            6 => {
                if at < values.len() && other < values.len() {
                    values.swap(at, other);
                }
            }
            7 => {
                if at < values.len() {
                    values.remove(at);
                }
            }
            _ => values.extend(self.elements.get(at).map(|e| e.value)),
        }
    }
}
