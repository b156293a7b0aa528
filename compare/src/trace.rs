//! Reading a trace of either edition: rows 2 to 11 of the table of refusals, and 17.
//!
//! Row 1 (the level) and rows 12 to 14 (the buffers) are given in
//! [`crate::deciding`], row 1 also in [`crate::claiming`] and rows 12 and 13 in
//! [`crate::listing`]: elsewhere [`crate::report::Level`] cannot be wrong, and there
//! are no buffers. Number 16 is given in [`crate::writing`] and [`crate::moving`],
//! number 18 in [`crate::names`], number 20 in [`crate::moving`].

use crate::hash::FastMap;

pub const MAX_BYTES: usize = 32_768;
pub const MAX_TRANSACTIONS: usize = 127;
pub const MAX_OPERATIONS: usize = 1_024;
pub const MAX_NOTE: usize = 64;

pub const OPEN: u16 = 1;
pub const READ: u16 = 2;
pub const WRITE: u16 = 3;
pub const CLOSE: u16 = 4;
pub const END: u16 = 5;
pub const NOTE: u16 = 6;
/// The record that edition 2 begins with.
pub const EDITION: u16 = 16;
/// The only lawful payload of that record.
pub const EDITION_2: u16 = 2;
/// An operation on lists, of edition 2 only.
pub const APPEND: u16 = 23;
/// The other one.
pub const LIST_READ: u16 = 24;
/// The most values that a list read has.
pub const MAX_LIST: usize = 32;

/// Bytes of a record that its length does not count: the length field itself.
const LENGTH_FIELD: usize = 2;
/// Bytes that every length counts: kind and serial.
const KIND_AND_SERIAL: usize = 6;
/// Bytes of a read or a write, without the session that it has in edition 2.
const OPERATION_SIZE: usize = 20;
/// Bytes of a session.
const SESSION_SIZE: usize = 2;
/// Bytes of a value.
const VALUE_SIZE: usize = 8;

/// Why a trace is not judged: the number of the row and the place.
#[derive(Clone, Copy, Debug, PartialEq, Eq)]
pub struct Refusal {
    pub number: u8,
    pub place: usize,
}

impl Refusal {
    /// The length of a table that has a place for each number, the greatest
    /// of which is 20.
    pub const NUMBERS: usize = 21;

    /// The row's own words, shortened.
    pub fn meaning(&self) -> &'static str {
        match self.number {
            2 => "the trace is longer than 32,768 bytes",
            3 => "too few bytes are left for a record, or no end record came",
            4 => "length below 6, or not this kind's",
            5 => "serial does not follow",
            6 => "unknown kind",
            7 => "record not lawful here: inside or outside a transaction, or edition not first",
            8 => "written or appended value 0, more than 32 values, status above 2, wrong end number, or unknown edition",
            9 => "128th open or 1,025th operation",
            10 => "a write or an append repeats an earlier one's key and value",
            11 => "bytes follow the end record",
            16 => "output buffer too short",
            17 => "a key with single values and lists",
            20 => "lists in a move to edition 1",
            _ => "not given when reading or writing a trace",
        }
    }
}

/// How the records of a trace are laid out, and whether transactions overlap.
#[derive(Clone, Copy, Debug, PartialEq, Eq)]
pub enum Edition {
    One,
    Two,
}

impl Edition {
    /// "Edition 2 of the trace begins with a kind 16 record. Any other trace is
    /// edition 1": also one that has no first record.
    pub fn of(bytes: &[u8]) -> Edition {
        match Record::at(bytes) {
            Ok(first) if first.kind == EDITION => Edition::Two,
            _ => Edition::One,
        }
    }

    /// The bytes before the other fields of a read, a write or a close: in
    /// edition 2 these "have the session before their other fields".
    pub fn session_size(self) -> usize {
        match self {
            Edition::One => 0,
            Edition::Two => SESSION_SIZE,
        }
    }
}

/// An operation. Its number in the trace is its index plus one.
#[derive(Clone, Debug, PartialEq, Eq)]
pub struct Operation {
    /// The number of its transaction, from 1.
    pub transaction: u8,
    pub key: u32,
    pub action: Action,
}

/// What an operation does to its key.
#[derive(Clone, Debug, PartialEq, Eq)]
pub enum Action {
    Read(u64),
    Write(u64),
    Append(u64),
    ReadList(Vec<u64>),
}

impl Action {
    /// The key of an operation and what it does, from the kind of its record and the
    /// bytes behind the session.
    fn of_record(kind: u16, fields: &[u8]) -> (u32, Action) {
        if kind == LIST_READ {
            let (key, values) = key_and_values(fields);
            return (key, Action::ReadList(values));
        }
        let (key, value) = key_and_value(fields);
        let action = match kind {
            READ => Action::Read(value),
            WRITE => Action::Write(value),
            _ => Action::Append(value),
        };
        (key, action)
    }

    /// The value that is read, of a single one.
    pub fn read(&self) -> Option<u64> {
        match *self {
            Action::Read(value) => Some(value),
            _ => None,
        }
    }

    /// The value that is written.
    pub fn written(&self) -> Option<u64> {
        match *self {
            Action::Write(value) => Some(value),
            _ => None,
        }
    }

    /// The value that is appended.
    pub fn appended(&self) -> Option<u64> {
        match *self {
            Action::Append(value) => Some(value),
            _ => None,
        }
    }

    /// The list that is read.
    pub fn list(&self) -> Option<&[u64]> {
        match self {
            Action::ReadList(values) => Some(values),
            _ => None,
        }
    }

    /// What it makes of its key.
    pub fn sort(&self) -> Sort {
        match self {
            Action::Read(_) | Action::Write(_) => Sort::Single,
            Action::Append(_) | Action::ReadList(_) => Sort::List,
        }
    }
}

/// What a key has. "A key with single values and lists" is refused.
#[derive(Clone, Copy, Debug, PartialEq, Eq)]
pub enum Sort {
    Single,
    List,
}

/// What a close record says of its transaction's commit, by the record's number.
#[derive(Clone, Copy, Debug, PartialEq, Eq)]
pub enum Status {
    Aborted = 0,
    Committed = 1,
    Unanswered = 2,
}

impl Status {
    pub const ALL: [Status; 3] = [Status::Aborted, Status::Committed, Status::Unanswered];

    fn of_byte(byte: u8) -> Option<Status> {
        Status::ALL.into_iter().find(|&status| status as u8 == byte)
    }
}

/// A transaction. Its number is its index plus one.
#[derive(Clone, Copy, Debug, PartialEq, Eq)]
pub struct Transaction {
    pub session: u16,
    pub status: Status,
}

/// A trace that is not refused.
#[derive(Clone, Debug)]
pub struct Trace {
    pub edition: Edition,
    pub transactions: Vec<Transaction>,
    pub operations: Vec<Operation>,
    /// The number of the only operation that writes this key and value.
    writes: FastMap<(u32, u64), u16>,
    /// The same of appends.
    appends: FastMap<(u32, u64), u16>,
    /// What each key has. It is kept from the first operation on a list on: most traces
    /// have none, and then no key can be mixed.
    sorts: Option<FastMap<u32, Sort>>,
}

impl Trace {
    /// Reads the bytes of a trace, checking in the order of the specification.
    pub fn parse(bytes: &[u8]) -> Result<Trace, Refusal> {
        if bytes.len() > MAX_BYTES {
            return Err(Refusal {
                number: 2,
                place: MAX_BYTES,
            });
        }
        let expected_operations = (bytes.len() / OPERATION_SIZE).min(MAX_OPERATIONS);
        let edition = Edition::of(bytes);
        let mut trace = Trace {
            edition,
            transactions: Vec::new(),
            operations: Vec::with_capacity(expected_operations),
            // Most traces have about as many reads as writes.
            writes: FastMap::with_capacity_and_hasher(expected_operations / 2, Default::default()),
            appends: FastMap::default(),
            sorts: None,
        };
        let mut open = Open::none(edition);
        let mut expected_serial = None;
        let mut offset = 0;
        loop {
            let refused = |number| Refusal {
                number,
                place: offset,
            };
            let record = Record::at(&bytes[offset..]).map_err(refused)?;
            if expected_serial.is_some_and(|serial| serial != record.serial) {
                return Err(refused(5));
            }
            expected_serial = Some(record.serial.wrapping_add(1));
            let is_first = offset == 0;
            trace.take(&record, is_first, &mut open).map_err(refused)?;
            offset += record.size();
            if record.kind == END {
                break;
            }
        }
        if offset < bytes.len() {
            return Err(Refusal {
                number: 11,
                place: offset,
            });
        }
        Ok(trace)
    }

    /// The number of the write that has this key and value, whatever became of
    /// its transaction; none for value 0, which no write has.
    pub fn find_write(&self, key: u32, value: u64) -> Option<u16> {
        self.writes.get(&(key, value)).copied()
    }

    /// The number of the append that has this key and value, whatever became of its
    /// transaction; none for value 0, which no append has.
    pub fn find_append(&self, key: u32, value: u64) -> Option<u16> {
        self.appends.get(&(key, value)).copied()
    }

    /// The operation with this number.
    pub fn operation(&self, number: u16) -> &Operation {
        &self.operations[usize::from(number) - 1]
    }

    /// Whether it has appends or list reads.
    pub fn has_lists(&self) -> bool {
        let mut sorts = self.operations.iter().map(|o| o.action.sort());
        sorts.any(|sort| sort == Sort::List)
    }

    /// The numbers of the transactions with this status, ascending.
    pub fn with_status(&self, status: Status) -> impl Iterator<Item = u8> + '_ {
        (1..)
            .zip(&self.transactions)
            .filter_map(move |(number, t)| (t.status == status).then_some(number))
    }

    /// Checks one record from row 6 on, and enters what it says.
    fn take(&mut self, record: &Record, is_first: bool, open: &mut Open) -> Result<(), u8> {
        let payload = record.payload;
        let session_size = self.edition.session_size();
        let lawful_size = match (record.kind, self.edition) {
            (OPEN | END | EDITION, _) => payload.len() == 2,
            (READ | WRITE, _) | (APPEND, Edition::Two) => payload.len() == session_size + 12,
            (LIST_READ, Edition::Two) => has_its_number(payload),
            (CLOSE, _) => payload.len() == session_size + 1,
            // "6 for a note in edition 2"
            (NOTE, Edition::One) => payload.len() <= MAX_NOTE,
            _ => return Err(6),
        };
        if !lawful_size {
            return Err(4);
        }
        // What an open record begins with, and in edition 2 an operation or a
        // close; of other records it is not looked at.
        let session = payload.first_chunk().map_or(0, |s| u16::from_le_bytes(*s));
        let owner = open.of(session);
        let lawful_here = match record.kind {
            NOTE => true,
            EDITION => is_first,
            OPEN => owner.is_none(),
            END => open.is_empty(),
            _ => owner.is_some(),
        };
        if !lawful_here {
            return Err(7);
        }
        match record.kind {
            OPEN => {
                if self.transactions.len() == MAX_TRANSACTIONS {
                    return Err(9);
                }
                self.transactions.push(Transaction {
                    session,
                    status: Status::Aborted, // until it is closed
                });
                open.enter(session, self.transactions.len() as u8);
            }
            READ | WRITE | APPEND | LIST_READ => {
                let owner = owner.expect("an operation of an open transaction");
                let (key, action) = Action::of_record(record.kind, &payload[session_size..]);
                self.enter(owner, key, action)?;
            }
            CLOSE => {
                let status = Status::of_byte(payload[session_size]).ok_or(8)?;
                let closed = owner.expect("a close of an open transaction");
                self.transactions[usize::from(closed) - 1].status = status;
                open.leave(session);
            }
            END => {
                let number = u16::from_le_bytes([payload[0], payload[1]]);
                if usize::from(number) != self.transactions.len() {
                    return Err(8);
                }
            }
            EDITION if u16::from_le_bytes([payload[0], payload[1]]) != EDITION_2 => return Err(8),
            _ => {}
        }
        Ok(())
    }

    /// Checks one operation of an open transaction from row 8 on, and enters it.
    fn enter(&mut self, transaction: u8, key: u32, action: Action) -> Result<(), u8> {
        let is_lawful = match &action {
            Action::Read(_) => true,
            Action::Write(value) | Action::Append(value) => *value != 0,
            Action::ReadList(values) => values.len() <= MAX_LIST,
        };
        if !is_lawful {
            return Err(8);
        }
        if self.operations.len() == MAX_OPERATIONS {
            return Err(9);
        }
        let number = self.operations.len() as u16 + 1;
        // An append of a write's key and value repeats nothing: its key is mixed.
        let repeated = match action {
            Action::Write(value) => self.writes.insert((key, value), number),
            Action::Append(value) => self.appends.insert((key, value), number),
            Action::Read(_) | Action::ReadList(_) => None,
        };
        if repeated.is_some() {
            return Err(10);
        }
        if self.mixes(key, action.sort()) {
            return Err(17);
        }
        self.operations.push(Operation {
            transaction,
            key,
            action,
        });
        Ok(())
    }

    /// Whether an operation that makes this of its key mixes it with an earlier one.
    fn mixes(&mut self, key: u32, sort: Sort) -> bool {
        if self.sorts.is_none() && sort == Sort::List {
            let earlier = self.operations.iter();
            self.sorts = Some(earlier.map(|o| (o.key, o.action.sort())).collect());
        }
        let earlier = self
            .sorts
            .as_mut()
            .and_then(|sorts| sorts.insert(key, sort));
        earlier.is_some_and(|earlier| earlier != sort)
    }
}

/// The transactions that are open.
enum Open {
    /// In edition 1 "transactions do not overlap": all sessions share one place.
    One(Option<u8>),
    /// In edition 2 "each session may have one transaction open".
    BySession(FastMap<u16, u8>),
}

impl Open {
    fn none(edition: Edition) -> Open {
        match edition {
            Edition::One => Open::One(None),
            Edition::Two => Open::BySession(FastMap::default()),
        }
    }

    /// The transaction that a record of this session belongs to.
    fn of(&self, session: u16) -> Option<u8> {
        match self {
            Open::One(transaction) => *transaction,
            Open::BySession(open) => open.get(&session).copied(),
        }
    }

    fn is_empty(&self) -> bool {
        match self {
            Open::One(transaction) => transaction.is_none(),
            Open::BySession(open) => open.is_empty(),
        }
    }

    fn enter(&mut self, session: u16, opened: u8) {
        match self {
            Open::One(transaction) => *transaction = Some(opened),
            Open::BySession(open) => {
                open.insert(session, opened);
            }
        }
    }

    fn leave(&mut self, session: u16) {
        match self {
            Open::One(transaction) => *transaction = None,
            Open::BySession(open) => {
                open.remove(&session);
            }
        }
    }
}

/// Whether a list read, given with its session, has as many bytes as its own number
/// asks for, however great that is: "length 14 plus 8 a value".
fn has_its_number(payload: &[u8]) -> bool {
    match payload {
        [_, _, _, _, _, _, low, high, values @ ..] => {
            let number = usize::from(u16::from_le_bytes([*low, *high]));
            values.len() == VALUE_SIZE * number
        }
        _ => false,
    }
}

/// Key and values from the bytes of a list read behind its session.
fn key_and_values(fields: &[u8]) -> (u32, Vec<u64>) {
    let (key, number_and_values) = fields.split_at(4);
    let (_, values) = number_and_values.split_at(2);
    let (values, _) = values.as_chunks();
    (
        u32::from_le_bytes(key.try_into().expect("4 bytes")),
        values
            .iter()
            .map(|value| u64::from_le_bytes(*value))
            .collect(),
    )
}

/// Key and value from the 12 bytes of a read, a write or an append that have them.
pub fn key_and_value(payload: &[u8]) -> (u32, u64) {
    let (key, value) = payload.split_at(4);
    (
        u32::from_le_bytes(key.try_into().expect("4 bytes")),
        u64::from_le_bytes(value.try_into().expect("8 bytes")),
    )
}

/// One record, framed but not understood.
pub struct Record<'a> {
    pub kind: u16,
    pub serial: u32,
    pub payload: &'a [u8],
}

impl<'a> Record<'a> {
    /// The record that `bytes` begin with, or the number of the refusal.
    fn at(bytes: &'a [u8]) -> Result<Record<'a>, u8> {
        let [low, high, rest @ ..] = bytes else {
            return Err(3);
        };
        let length = usize::from(u16::from_le_bytes([*low, *high]));
        if length < KIND_AND_SERIAL {
            return Err(4);
        }
        if rest.len() < length {
            return Err(3);
        }
        let (head, payload) = rest[..length].split_at(KIND_AND_SERIAL);
        Ok(Record {
            kind: u16::from_le_bytes([head[0], head[1]]),
            serial: u32::from_le_bytes([head[2], head[3], head[4], head[5]]),
            payload,
        })
    }

    /// The bytes it takes in the trace.
    pub fn size(&self) -> usize {
        LENGTH_FIELD + KIND_AND_SERIAL + self.payload.len()
    }
}

/// The records of `bytes` as far as they are framed rightly; for a trace that
/// is not refused, all of them.
pub fn records(bytes: &[u8]) -> impl Iterator<Item = Record<'_>> {
    let mut offset = 0;
    std::iter::from_fn(move || {
        let record = Record::at(&bytes[offset..]).ok()?;
        offset += record.size();
        Some(record)
    })
}

/// The place of the first of them that is an append or a list read, if one is.
pub fn first_list_record(bytes: &[u8]) -> Option<usize> {
    let mut offset = 0;
    records(bytes).find_map(|record| {
        let place = offset;
        offset += record.size();
        matches!(record.kind, APPEND | LIST_READ).then_some(place)
    })
}

/// Whether there is an append or a list read among them.
pub fn has_list_records(bytes: &[u8]) -> bool {
    first_list_record(bytes).is_some()
}

/// Whether there is a note among them.
pub fn has_notes(bytes: &[u8]) -> bool {
    records(bytes).any(|record| record.kind == NOTE)
}
