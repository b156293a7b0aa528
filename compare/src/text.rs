//! The specification's own notation for traces, as text.
//!
//! ```text
//! serial 7
//! note "before all"
//! T1 w1=5 unanswered; T2 s1 r1=5 note "inside" r2=0 aborted
//! ```
//!
//! In edition 2 a transaction may be written in parts, with others between:
//!
//! ```text
//! edition 2; T1 w1=5 ..; T2 r1=5; T1 .. w2=6 aborted
//! ```
//!
//! and lists are appended to and read:
//!
//! ```text
//! edition 2; T1 a1=5; T2 l1=5 a1=6; T3 l1=5,6 l2=
//! ```
//!
//! See [`GRAMMAR`] for the whole of it.

use crate::encode::Writer;
use crate::trace::{self, Action, Edition, Operation, Record, Refusal, Sort, Status, Trace};
use crate::weave::Access;
use crate::writing::{self, Step};
use std::collections::{HashMap, HashSet};
use std::fmt;
use std::str::FromStr;

/// What may be written, for `tracetext --help`.
pub const GRAMMAR: &str = r#"Items, parted by ';' or by line ends:
  serial N          the first serial; only as the first item; default 0
  edition 2         a trace of edition 2, in which transactions may overlap; only
                    as the first item or behind 'serial'; default: edition 1
  T1 ...            a transaction; they are numbered T1, T2, .. in order. Then
                    may follow, parted by blanks and in this order:
      sN            its session; default: one that no other transaction has,
                    its own number or, where that is taken, the next free one
      rK=V  wK=V    reads and writes of key K, value V, in any number
      aK=V          in edition 2: an append of value V to the list of key K
      lK=V,V..      in edition 2: a read of the list of key K; lK= is the empty one
      note "text"   a note, anywhere among the operations
      committed, aborted, unanswered or status N     default: committed
      ..            in place of these, in edition 2: it stays open
  T1 .. ...         in edition 2: T1, which stayed open, goes on. Then may follow
                    operations, and how it ends or '..', as above
  note "text"       a note between transactions
  end N             an end record with this number; only as the last item;
                    default: the number of transactions
In a note's text, \" is a quote, \\ a backslash, \xNN the byte with the
hexadecimal number NN. A value 0 written or appended, a list of more than 32
values, a key that has single values and lists, a status above 2, a wrong end
number or a note of more than 64 bytes is encoded as it stands, to be refused; so
are another edition than 2, and in edition 2 a note, a transaction that is never
closed, and one in a session that has another open. Steps have no notes, no end
record and no edition: a text with 'note', 'end' or 'edition' has no steps.

Example, case 16:  T1 w1=11 w2=21; T2 w1=12 w2=22; T3 r1=12 r2=21
An unanswered commit that counts:  T1 w1=5 unanswered; T2 r1=5
T2 opens and reads while T1 is open, T1 writes and commits, T2 reads and aborts:
  edition 2; T1 w1=5 ..; T2 r1=5 ..; T1 .. w2=6; T2 .. r2=6 aborted
T1 and T2 append to the list of key 1, and T3 reads it:
  edition 2; T1 a1=5; T2 a1=6; T3 l1=5,6
"#;

/// What is wrong with a text, and where: line and byte of the line, from 1.
#[derive(Debug, PartialEq, Eq)]
pub struct TextError {
    pub line: usize,
    pub column: usize,
    pub message: String,
}

impl fmt::Display for TextError {
    fn fmt(&self, f: &mut fmt::Formatter) -> fmt::Result {
        let TextError {
            line,
            column,
            message,
        } = self;
        write!(f, "line {line}, column {column}: {message}")
    }
}

#[derive(Clone, Copy)]
struct Position {
    line: usize,
    column: usize,
}

impl Position {
    fn error(self, message: impl Into<String>) -> TextError {
        TextError {
            line: self.line,
            column: self.column,
            message: message.into(),
        }
    }
}

enum Token {
    Word(String),
    Quoted(Vec<u8>),
    /// `;` or the end of a line or of the text.
    Separator,
}

/// Turns a text into the bytes of a trace.
pub fn encode(text: &[u8]) -> Result<Vec<u8>, TextError> {
    encode_as(text, Form::Trace)
}

/// Turns a text into the input of the program `writer`: the first serial, then
/// the steps. What is not lawful goes into the steps as it stands.
pub fn steps(text: &[u8]) -> Result<Vec<u8>, TextError> {
    let trace = encode_as(text, Form::Steps)?;
    let steps: Vec<Step> = trace::records(&trace)
        .filter_map(|record| Step::of_record(&record))
        .collect();
    Ok(writing::input_of(writing::first_serial(&trace), &steps))
}

/// What a text is turned into.
#[derive(Clone, Copy, PartialEq, Eq)]
enum Form {
    Trace,
    /// Records that steps can say, and the end record that follows from them.
    Steps,
}

fn encode_as(text: &[u8], form: Form) -> Result<Vec<u8>, TextError> {
    let mut encoder = Encoder {
        tokens: Tokens::cut(text)?,
        form,
        writer: Writer::new(0),
        edition: Edition::One,
        transactions: Vec::new(),
    };
    let end = encoder.items()?;
    encoder.choose_sessions();
    Ok(match end {
        None => encoder.writer.end(),
        Some(number) => encoder.writer.end_with(number),
    })
}

/// The text of a trace that is not refused: encoding it gives its bytes again.
pub fn decode(bytes: &[u8]) -> Result<String, Refusal> {
    let trace = Trace::parse(bytes)?;
    let mut decoder = Decoder {
        trace: &trace,
        operations: trace.operations.iter(),
        out: String::new(),
        opened: 0,
        open: HashMap::new(),
        line: None,
    };
    for (index, record) in trace::records(bytes).enumerate() {
        if index == 0 && record.serial != 0 {
            decoder.out.push_str(&format!("serial {}\n", record.serial));
        }
        decoder.take(&record);
    }
    Ok(decoder.out)
}

/// A trace as far as it has been put into text.
struct Decoder<'a> {
    trace: &'a Trace,
    /// Those that are still to come.
    operations: std::slice::Iter<'a, Operation>,
    out: String,
    opened: u16,
    /// The numbers of the open transactions, by what their closes have before the
    /// status: their session in edition 2, nothing in edition 1.
    open: HashMap<Vec<u8>, u16>,
    /// The transaction whose line has not ended.
    line: Option<u16>,
}

impl Decoder<'_> {
    fn take(&mut self, record: &Record) {
        let session_size = self.trace.edition.session_size();
        let payload = record.payload;
        match record.kind {
            trace::EDITION => self.out.push_str("edition 2\n"),
            trace::OPEN => {
                self.opened += 1;
                self.open
                    .insert(payload[..session_size].to_vec(), self.opened);
                self.begin_line(self.opened);
                self.session(u16::from_le_bytes([payload[0], payload[1]]));
            }
            trace::READ | trace::WRITE | trace::APPEND | trace::LIST_READ => {
                let operation = self.operations.next().expect("one for each such record");
                self.go_on(operation.transaction.into());
                self.out.push_str(&format!(" {}", notation(operation)));
            }
            trace::CLOSE => {
                let (session, fields) = payload.split_at(session_size);
                self.go_on(self.open[session]);
                self.open.remove(session);
                self.line = None;
                self.out.push_str(match fields[0] {
                    0 => " aborted\n",
                    1 => "\n",
                    _ => " unanswered\n",
                });
            }
            trace::NOTE if self.line.is_some() => {
                self.out.push_str(&format!(" note {}", quote(payload)))
            }
            trace::NOTE => self.out.push_str(&format!("note {}\n", quote(payload))),
            _ => {} // the end record says nothing that is not known
        }
    }

    /// Begins the line of a transaction; one that stands before it goes on
    /// further down.
    fn begin_line(&mut self, number: u16) {
        if self.line.is_some() {
            self.out.push_str(" ..\n");
        }
        self.line = Some(number);
        self.out.push_str(&format!("T{number}"));
    }

    /// More of a transaction, on its line or on another that goes on with it.
    fn go_on(&mut self, number: u16) {
        if self.line != Some(number) {
            self.begin_line(number);
            self.out.push_str(" ..");
        }
    }

    /// The session of the transaction that was opened last. Encoding chooses
    /// the own number where no other has it.
    fn session(&mut self, session: u16) {
        let all = self.trace.transactions.iter();
        let is_shared = all.filter(|t| t.session == session).count() > 1;
        if session != self.opened || is_shared {
            self.out.push_str(&format!(" s{session}"));
        }
    }
}

/// The operations of a trace that is not refused, a line each: the number by
/// which findings name it, its transaction, and what it does; behind them what
/// became of the transaction, if it did not commit.
pub fn operations(bytes: &[u8]) -> Result<String, Refusal> {
    let trace = Trace::parse(bytes)?;
    let line = |(index, operation): (usize, &Operation)| {
        let (number, t) = (index + 1, operation.transaction);
        let done = notation(operation);
        let end = match trace.transactions[usize::from(t) - 1].status {
            Status::Committed => "",
            Status::Aborted => " aborted",
            Status::Unanswered => " unanswered",
        };
        format!("{number} T{t} {done}{end}\n")
    };
    Ok(trace.operations.iter().enumerate().map(line).collect())
}

/// An operation in the notation, whoever does it.
fn notation(operation: &Operation) -> String {
    let key = operation.key;
    match &operation.action {
        Action::Read(value) => format!("r{key}={value}"),
        Action::Write(value) => format!("w{key}={value}"),
        Action::Append(value) => format!("a{key}={value}"),
        Action::ReadList(values) => {
            let values: Vec<String> = values.iter().map(u64::to_string).collect();
            format!("l{key}={}", values.join(","))
        }
    }
}

fn quote(text: &[u8]) -> String {
    let mut out = String::from('"');
    for &byte in text {
        match byte {
            b'"' => out.push_str("\\\""),
            b'\\' => out.push_str("\\\\"),
            b' '..=b'~' => out.push(char::from(byte)),
            _ => out.push_str(&format!("\\x{byte:02x}")),
        }
    }
    out.push('"');
    out
}

/// The tokens of a text, looked at one by one.
struct Tokens {
    all: Vec<(Position, Token)>,
    next: usize,
}

impl Tokens {
    fn cut(text: &[u8]) -> Result<Tokens, TextError> {
        let mut all = Vec::new();
        let (mut line, mut line_start, mut at) = (1, 0, 0);
        while at < text.len() {
            let here = Position {
                line,
                column: at - line_start + 1,
            };
            match text[at] {
                b'\n' => {
                    all.push((here, Token::Separator));
                    at += 1;
                    (line, line_start) = (line + 1, at);
                }
                b';' => {
                    all.push((here, Token::Separator));
                    at += 1;
                }
                b' ' | b'\t' | b'\r' => at += 1,
                b'"' => {
                    let (quoted, length) = unquote(&text[at..], here)?;
                    all.push((here, Token::Quoted(quoted)));
                    at += length;
                }
                _ => {
                    let word: Vec<u8> = text[at..]
                        .iter()
                        .copied()
                        .take_while(|byte| !b" \t\r\n;\"".contains(byte))
                        .collect();
                    at += word.len();
                    let word = String::from_utf8_lossy(&word).into_owned();
                    all.push((here, Token::Word(word)));
                }
            }
        }
        let end = Position {
            line,
            column: text.len() - line_start + 1,
        };
        all.push((end, Token::Separator));
        Ok(Tokens { all, next: 0 })
    }

    fn peek(&self) -> Option<(Position, &Token)> {
        self.all.get(self.next).map(|(at, token)| (*at, token))
    }

    /// The next token if it is a word, left in its place.
    fn peek_word(&self) -> Option<(Position, String)> {
        match self.peek() {
            Some((at, Token::Word(word))) => Some((at, word.clone())),
            _ => None,
        }
    }

    fn position(&self) -> Position {
        // The last token is a separator that only skipping blank items passes.
        let (at, _) = &self.all[self.next.min(self.all.len() - 1)];
        *at
    }

    fn skip_separators(&mut self) {
        while let Some((_, Token::Separator)) = self.peek() {
            self.next += 1;
        }
    }

    fn end_of_item(&mut self) -> Result<(), TextError> {
        match self.peek() {
            Some((at, Token::Word(word))) => {
                Err(at.error(format!("'{word}' is not expected here")))
            }
            Some((at, Token::Quoted(_))) => Err(at.error("a quoted text is not expected here")),
            _ => Ok(()),
        }
    }

    fn number<N: FromStr + fmt::Display>(&mut self, what: &str, most: N) -> Result<N, TextError> {
        let at = self.position();
        let Some((_, word)) = self.peek_word() else {
            return Err(at.error(format!("a number is missing: {what}")));
        };
        self.next += 1;
        number(&word, at, what, most)
    }

    fn quoted(&mut self) -> Result<Vec<u8>, TextError> {
        let at = self.position();
        let Some((_, Token::Quoted(text))) = self.peek() else {
            return Err(at.error("a note's text in quotes is missing"));
        };
        let text = text.clone();
        self.next += 1;
        // A length field counts to 65,535, 6 of them not the text's.
        if text.len() > 65_529 {
            return Err(at.error("a note's text cannot have more than 65529 bytes"));
        }
        Ok(text)
    }
}

/// Plain decimal digits only: the standard parser would take a sign too.
fn number<N: FromStr + fmt::Display>(
    word: &str,
    at: Position,
    what: &str,
    most: N,
) -> Result<N, TextError> {
    let plain = word.bytes().all(|byte| byte.is_ascii_digit());
    match word.parse() {
        Ok(number) if plain => Ok(number),
        _ => Err(at.error(format!("'{word}' is not a number from 0 to {most}: {what}"))),
    }
}

/// Reads a quoted text, whose first byte is the quote at `start`. Answers what
/// it says and the bytes it takes.
fn unquote(text: &[u8], start: Position) -> Result<(Vec<u8>, usize), TextError> {
    let mut out = Vec::new();
    let mut at = 1;
    loop {
        let here = Position {
            line: start.line,
            column: start.column + at,
        };
        match text.get(at) {
            None | Some(b'\n') => return Err(start.error("the quote is not closed on its line")),
            Some(b'"') => return Ok((out, at + 1)),
            Some(b'\\') => {
                let (byte, length) = match &text[at + 1..] {
                    [byte @ (b'"' | b'\\'), ..] => (*byte, 2),
                    [b'x', high, low, ..] if hex(*high).is_some() && hex(*low).is_some() => {
                        (hex(*high).unwrap_or(0) * 16 + hex(*low).unwrap_or(0), 4)
                    }
                    _ => {
                        return Err(here.error(r#"after '\' comes '"', '\' or 'x' and two digits"#))
                    }
                };
                out.push(byte);
                at += length;
            }
            Some(&byte) => {
                out.push(byte);
                at += 1;
            }
        }
    }
}

fn hex(digit: u8) -> Option<u8> {
    char::from(digit).to_digit(16).map(|value| value as u8)
}

struct Encoder {
    tokens: Tokens,
    form: Form,
    edition: Edition,
    writer: Writer,
    transactions: Vec<Named>,
}

/// A transaction that the text has named.
struct Named {
    /// Its session if it is written out.
    session: Option<u16>,
    /// The bytes at which its records begin that have a session.
    records: Vec<usize>,
    is_open: bool,
}

impl Encoder {
    /// All items. Answers the number of the end record if it is written out.
    fn items(&mut self) -> Result<Option<u16>, TextError> {
        self.heading()?;
        loop {
            self.tokens.skip_separators();
            let Some((at, token)) = self.tokens.peek() else {
                return Ok(None);
            };
            let Token::Word(word) = token else {
                return Err(at.error("a quoted text needs the word 'note' before it"));
            };
            let word = word.clone();
            self.tokens.next += 1;
            match word.as_str() {
                "serial" => return Err(at.error("'serial' can only be the first item")),
                "edition" => {
                    return Err(at.error("'edition' can only be the first item or behind 'serial'"))
                }
                "note" => self.note(at)?,
                "end" => {
                    if self.form == Form::Steps {
                        return Err(at.error("steps have no end record; writing adds it"));
                    }
                    let number = self.tokens.number("end number", u16::MAX)?;
                    self.tokens.end_of_item()?;
                    self.tokens.skip_separators();
                    if let Some((at, _)) = self.tokens.peek() {
                        return Err(at.error("nothing can follow 'end'"));
                    }
                    return Ok(Some(number));
                }
                _ => self.transaction(&word, at)?,
            }
            self.tokens.end_of_item()?;
        }
    }

    /// The items that only stand before all others.
    fn heading(&mut self) -> Result<(), TextError> {
        if self.heading_item("serial").is_some() {
            let serial = self.tokens.number("first serial", u32::MAX)?;
            self.writer = Writer::new(serial);
            self.tokens.end_of_item()?;
        }
        if let Some(at) = self.heading_item("edition") {
            if self.form == Form::Steps {
                return Err(at.error("steps are of edition 1"));
            }
            let number = self.tokens.number("edition", u16::MAX)?;
            self.writer.edition(number);
            self.edition = Edition::Two;
            self.tokens.end_of_item()?;
        }
        Ok(())
    }

    /// Takes the first word of the next item if it is this one; answers where
    /// it stood.
    fn heading_item(&mut self, name: &str) -> Option<Position> {
        self.tokens.skip_separators();
        let (at, _) = self.tokens.peek_word().filter(|(_, word)| word == name)?;
        self.tokens.next += 1;
        Some(at)
    }

    /// A transaction or a part of one, whose name has been taken.
    fn transaction(&mut self, name: &str, at: Position) -> Result<(), TextError> {
        let Some(digits) = name.strip_prefix('T') else {
            return Err(at.error(format!(
                "'{name}' begins no item; expected T1, T2, .., note, serial, edition or end"
            )));
        };
        let given: u16 = number(digits, at, "transaction", u16::MAX)?;
        let next = self.transactions.len() + 1;
        if usize::from(given) == next {
            self.open()?;
        } else {
            self.go_on(given, at)?;
        }
        self.rest_of_part(usize::from(given) - 1)
    }

    /// Goes on with a transaction that is open: its item begins with '..'.
    fn go_on(&mut self, given: u16, at: Position) -> Result<(), TextError> {
        let index = usize::from(given).checked_sub(1);
        let is_open = index
            .and_then(|index| self.transactions.get(index))
            .is_some_and(|transaction| transaction.is_open);
        match (is_open, self.takes_dots()?) {
            (true, true) => Ok(()),
            (true, false) => Err(at.error(format!("T{given} is open; 'T{given} ..' goes on"))),
            (false, true) => Err(at.error(format!("T{given} is not open and cannot go on"))),
            (false, false) => {
                let next = self.transactions.len() + 1;
                Err(at.error(format!("T{given} is out of turn; T{next} comes next")))
            }
        }
    }

    /// Takes '..' if it comes next.
    fn takes_dots(&mut self) -> Result<bool, TextError> {
        let Some((at, _)) = self.tokens.peek_word().filter(|(_, word)| word == "..") else {
            return Ok(false);
        };
        if self.edition == Edition::One {
            return Err(at.error("'..' is for edition 2: in edition 1 transactions do not overlap"));
        }
        self.tokens.next += 1;
        Ok(true)
    }

    /// Opens the next transaction.
    fn open(&mut self) -> Result<(), TextError> {
        let session = self.session()?;
        self.transactions.push(Named {
            session,
            records: vec![self.writer.bytes.len()],
            is_open: true,
        });
        // One that is left out is 0 until all that are written out are known.
        self.writer.open(session.unwrap_or(0));
        Ok(())
    }

    /// The operations of the transaction with this index and what comes behind
    /// them: its status, or '..', or nothing.
    fn rest_of_part(&mut self, index: usize) -> Result<(), TextError> {
        let status = loop {
            if self.takes_dots()? {
                return Ok(());
            }
            let Some((at, word)) = self.tokens.peek_word() else {
                break 1;
            };
            self.tokens.next += 1;
            match word.as_str() {
                "committed" => break 1,
                "aborted" => break 0,
                "unanswered" => break 2,
                "status" => break self.tokens.number("status", u8::MAX)?,
                "note" => self.note(at)?,
                _ => self.operation(index, &word, at)?,
            }
        };
        let session = self.session_of(index);
        self.writer.close_in(session, status);
        self.transactions[index].is_open = false;
        Ok(())
    }

    /// The session for a record of a transaction that begins here; edition 1
    /// has it in no record but the open.
    fn session_of(&mut self, index: usize) -> u16 {
        let transaction = &mut self.transactions[index];
        if self.edition == Edition::Two {
            transaction.records.push(self.writer.bytes.len());
        }
        transaction.session.unwrap_or(0)
    }

    /// A note, whose first word has been taken.
    fn note(&mut self, at: Position) -> Result<(), TextError> {
        if self.form == Form::Steps {
            return Err(at.error("steps have no notes"));
        }
        let text = self.tokens.quoted()?;
        self.writer.note(&text);
        Ok(())
    }

    /// A transaction's session if it is written out.
    fn session(&mut self) -> Result<Option<u16>, TextError> {
        let Some((at, word)) = self.tokens.peek_word() else {
            return Ok(None);
        };
        let Some(digits) = word.strip_prefix('s').filter(|_| word != "status") else {
            return Ok(None);
        };
        self.tokens.next += 1;
        number(digits, at, "session", u16::MAX).map(Some)
    }

    /// Gives each transaction that leaves its session out one that no other
    /// has: its own number or, where that is taken, the next that is free,
    /// 0 coming after 65,535.
    fn choose_sessions(&mut self) {
        let written_out = self.transactions.iter().flat_map(|t| t.session);
        let mut taken: HashSet<u16> = written_out.collect();
        for (number, transaction) in (1..=u16::MAX).zip(&self.transactions) {
            if transaction.session.is_some() {
                continue;
            }
            let session = (number..=u16::MAX)
                .chain(0..number)
                .find(|&session| taken.insert(session))
                .expect("there are more sessions than transactions");
            for &record in &transaction.records {
                self.writer.set_session(record, session);
            }
        }
    }

    fn operation(&mut self, index: usize, word: &str, at: Position) -> Result<(), TextError> {
        let wrong = || {
            at.error(format!(
                "'{word}' is no r<key>=<value>, w<key>=<value>, a<key>=<value>, l<key>=<values>, \
                 note, committed, aborted, unanswered or status"
            ))
        };
        let rest = word.strip_prefix(['r', 'w', 'a', 'l']).ok_or_else(wrong)?;
        let (key, said) = rest.split_once('=').ok_or_else(wrong)?;
        let key = number(key, at, "key", u32::MAX)?;
        let action = match word.as_bytes()[0] {
            b'r' => Action::Read(value(said, at)?),
            b'w' => Action::Write(value(said, at)?),
            b'a' => Action::Append(value(said, at)?),
            _ => Action::ReadList(list(said, at)?),
        };
        if self.edition == Edition::One && action.sort() == Sort::List {
            return Err(at.error(format!("'{word}' is for edition 2: edition 1 has no lists")));
        }
        let session = self.session_of(index);
        Access { key, action }.put(&mut self.writer, session);
        Ok(())
    }
}

fn value(word: &str, at: Position) -> Result<u64, TextError> {
    number(word, at, "value", u64::MAX)
}

/// The values of a list, parted by commas.
fn list(word: &str, at: Position) -> Result<Vec<u64>, TextError> {
    // A length field counts to 65,535, 14 of them not the values'.
    const MOST: usize = (65_535 - 14) / 8;
    if word.is_empty() {
        return Ok(vec![]);
    }
    let values: Result<Vec<u64>, _> = word.split(',').map(|word| value(word, at)).collect();
    let values = values?;
    match values.len() <= MOST {
        true => Ok(values),
        false => Err(at.error(format!("a list cannot have more than {MOST} values"))),
    }
}

#[cfg(test)]
mod tests {
    use super::*;
    use crate::random::Random;

    /// The sessions of the transactions that a text has, lawful or not.
    fn sessions_of(text: &str) -> Vec<u16> {
        trace::records(&encode(text.as_bytes()).unwrap())
            .filter(|record| record.kind == trace::OPEN)
            .map(|record| u16::from_le_bytes([record.payload[0], record.payload[1]]))
            .collect()
    }

    fn error_of(text: &str) -> String {
        encode(text.as_bytes()).unwrap_err().to_string()
    }

    #[test]
    fn case_16_has_187_bytes() {
        let bytes = encode(b"T1 w1=11 w2=21; T2 w1=12 w2=22; T3 r1=12 r2=21").unwrap();
        assert_eq!(bytes.len(), 187);
    }

    #[test]
    fn the_text_comes_back() {
        let text =
            "serial 4294967295\nnote \"a;\\\"\\\\\\x0a\\xff\"\nT1 s9 w1=5 note \"\" aborted\n\
                    T2 r1=0 w4294967295=18446744073709551615\nT3\nnote \"z\"\n\
                    T4 unanswered\nT5 r1=5 note \"\" unanswered\n";
        let bytes = encode(text.as_bytes()).unwrap();
        assert_eq!(decode(&bytes).unwrap(), text);
        assert_eq!(decode(&encode(b"").unwrap()).unwrap(), "");
    }

    #[test]
    fn the_text_of_edition_2_comes_back() {
        for text in [
            "edition 2\n",
            "serial 4294967295\nedition 2\nT1 ..\nT2 s7 w1=5 ..\nT1 .. r1=5 w2=6 ..\n\
             T2 .. aborted\nT3 s7 ..\nT1 .. unanswered\nT3 ..\n",
            // Blocks are written as in edition 1, and each of a session of its own.
            "edition 2\nT1 w1=5\nT2 r1=5 unanswered\n",
        ] {
            let bytes = encode(text.as_bytes()).unwrap();
            assert_eq!(decode(&bytes).unwrap(), text);
        }
    }

    #[test]
    fn the_text_of_lists_comes_back() {
        for text in [
            "edition 2\nT1 a1=5\nT2 l1=5 a1=6 aborted\nT3 l1=5,6 l2= w3=1 r3=1 unanswered\n",
            "serial 7\nedition 2\nT1 s9 a4294967295=18446744073709551615 ..\nT2 l1= ..\n\
             T1 .. l4294967295=18446744073709551615,0,7\nT2 ..\n",
        ] {
            let bytes = encode(text.as_bytes()).unwrap();
            assert_eq!(decode(&bytes).unwrap(), text);
        }
    }

    #[test]
    fn random_traces_with_lists_come_back() {
        let mut with_lists = 0;
        for stream in 0..1_000 {
            let (_, bytes) = crate::generate::any_with_lists(&mut Random::new(6, stream));
            if let Ok(text) = decode(&bytes) {
                assert_eq!(encode(text.as_bytes()), Ok(bytes), "{text}");
                with_lists += usize::from(text.contains(" l"));
            }
        }
        assert!(with_lists > 300, "{with_lists}");
    }

    #[test]
    fn lists_are_of_edition_2() {
        assert_eq!(
            error_of("T1 w1=5 a2=5"),
            "line 1, column 9: 'a2=5' is for edition 2: edition 1 has no lists"
        );
        assert_eq!(
            error_of("T1 l2="),
            "line 1, column 4: 'l2=' is for edition 2: edition 1 has no lists"
        );
        let error = steps(b"T1 a2=5").unwrap_err().to_string();
        let expected = "line 1, column 4: 'a2=5' is for edition 2: edition 1 has no lists";
        assert_eq!(error, expected);
    }

    #[test]
    fn parts_may_be_written_apart_without_need() {
        let apart =
            encode(b"edition 2; T1; T2 s9 ..; T2 .. ..; T2 .. w1=5 ..; T2 .. r1=5").unwrap();
        assert_eq!(decode(&apart).unwrap(), "edition 2\nT1\nT2 s9 w1=5 r1=5\n");
    }

    #[test]
    fn every_record_of_edition_2_has_the_session_that_was_left_out() {
        let bytes = encode(b"edition 2; T1 w1=5 ..; T2 s1 ..; T1 .. r1=5; T2 ..").unwrap();
        let sessions: Vec<u16> = trace::records(&bytes)
            .map(|record| u16::from_le_bytes([record.payload[0], record.payload[1]]))
            .collect();
        // The first and the last are the edition and the number of transactions.
        assert_eq!(sessions, [2, 2, 2, 1, 2, 2, 1, 2]);
    }

    #[test]
    fn a_session_left_out_is_no_other_transactions() {
        // Nothing is taken: the own numbers.
        assert_eq!(sessions_of("T1; T2; T3"), [1, 2, 3]);
        // README's example: taken by one that is written out later.
        assert_eq!(
            sessions_of("T1 w1=5; T2 r1=5 aborted; T3 s1 r1=0"),
            [2, 3, 1]
        );
        // Taken by one that is written out earlier, with a gap behind it.
        assert_eq!(sessions_of("T1 s2; T2; T3 s4; T4"), [2, 3, 4, 5]);
        // A session that is shared stays shared, and 0 is one like others.
        assert_eq!(
            sessions_of("T1 s0; T2 s3; T3; T4 s3; T5 s0"),
            [0, 3, 4, 3, 0]
        );
    }

    #[test]
    fn after_the_last_session_comes_the_first() {
        let left_out: String = (3..=65_535).map(|n| format!("; T{n}")).collect();
        let last = |first_two: &str| {
            *sessions_of(&(first_two.to_owned() + &left_out))
                .last()
                .unwrap()
        };
        assert_eq!(last("T1; T2"), 65_535);
        assert_eq!(last("T1 s65535; T2"), 0);
        assert_eq!(last("T1 s65535; T2 s0"), 1);
    }

    #[test]
    fn sessions_left_out_at_random_are_no_others() {
        for stream in 0..2_000 {
            let mut random = Random::new(5, stream);
            let written: Vec<Option<usize>> = (0..random.from_to(1, 12))
                .map(|_| random.percent(50).then(|| random.below(14)))
                .collect();
            let transaction = |(number, session): (usize, &Option<usize>)| match session {
                Some(session) => format!("T{number} s{session}\n"),
                None => format!("T{number}\n"),
            };
            let text: String = (1..).zip(&written).map(transaction).collect();
            let sessions = sessions_of(&text);
            for (session, written) in sessions.iter().zip(&written) {
                match written {
                    Some(written) => assert_eq!(usize::from(*session), *written, "{text}"),
                    None => {
                        let with_it = sessions.iter().filter(|other| *other == session);
                        assert_eq!(with_it.count(), 1, "{text}");
                    }
                }
            }
            let bytes = encode(text.as_bytes()).unwrap();
            let decoded = decode(&bytes).unwrap();
            assert_eq!(encode(decoded.as_bytes()), Ok(bytes), "{text}");
        }
    }

    #[test]
    fn decoding_leaves_out_only_what_encoding_chooses() {
        for (text, decoded) in [
            ("T1 s1; T2 s2", "T1\nT2\n"),
            ("T1 s1; T2 s2; T3 s1", "T1 s1\nT2\nT3 s1\n"),
            ("T1 s2; T2 s1", "T1 s2\nT2 s1\n"),
            ("T1; T2; T3 s1", "T1 s2\nT2 s3\nT3 s1\n"),
        ] {
            let bytes = encode(text.as_bytes()).unwrap();
            assert_eq!(decode(&bytes).unwrap(), decoded);
            assert_eq!(encode(decoded.as_bytes()).unwrap(), bytes);
        }
    }

    #[test]
    fn wrong_traces_can_be_written() {
        let number = |text: &str| {
            decode(&encode(text.as_bytes()).unwrap())
                .unwrap_err()
                .number
        };
        assert_eq!(number("T1 status 3"), 8);
        assert_eq!(number("T1; end 2"), 8);
        assert_eq!(number("T1 w1=0"), 8);
        assert_eq!(number("T1 w1=1 w1=1"), 10);
        for (text, refused) in [
            ("edition 1", 8),
            ("edition 3; T1", 8),
            ("edition 2; note \"\"", 6),
            ("edition 2; T1 note \"\"", 6),
            ("edition 2; T1 ..", 7),
            ("edition 2; T1 .. ; T2; end 3", 7),
            ("edition 2; T1 s5 ..; T2 s5; T1 ..", 7),
            ("edition 2; T1 w1=0 ..; T1 ..", 8),
            ("edition 2; T1 ..; T1 .. status 3", 8),
            ("edition 2; T1; end 2", 8),
            ("edition 2; T1 w1=1 ..; T2 w1=1; T1 ..", 10),
            ("edition 2; T1 a1=0", 8),
            ("edition 2; T1 a1=1; T2 a1=1", 10),
            ("edition 2; T1 a1=1; T2 r1=1", 17),
        ] {
            assert_eq!(number(text), refused, "{text}");
        }
        let list = |count: usize| format!("edition 2; T1 l1={}", vec!["1"; count].join(","));
        assert_eq!(number(&list(33)), 8);
        assert_eq!(number(&list(4_093)), 2);
        assert!(decode(&encode(list(32).as_bytes()).unwrap()).is_ok());
    }

    #[test]
    fn a_status_has_a_word_or_a_number() {
        for (word, status) in [("aborted", 0), ("committed", 1), ("unanswered", 2)] {
            let by_word = encode(format!("T1 w1=5 {word}").as_bytes());
            let by_number = encode(format!("T1 w1=5 status {status}").as_bytes());
            assert_eq!(by_word, by_number);
        }
        assert_eq!(
            error_of("T1 unanswered r1=0"),
            "line 1, column 15: 'r1=0' is not expected here"
        );
        assert_eq!(
            error_of("T1 answered"),
            "line 1, column 4: 'answered' is no r<key>=<value>, w<key>=<value>, a<key>=<value>, \
             l<key>=<values>, note, committed, aborted, unanswered or status"
        );
    }

    #[test]
    fn steps_say_the_same_as_the_trace() {
        for text in [
            "",
            "T1 w1=5; T2 s7 r1=5 aborted",
            "T1 w1=5 unanswered; T2 r1=5; T3 s1 unanswered",
            "serial 4294967295; T1 s1; T2 s1 w4294967295=18446744073709551615; T3",
        ] {
            let input = steps(text.as_bytes()).unwrap();
            let written = writing::write_input(&input, usize::MAX);
            assert_eq!(written, Ok(encode(text.as_bytes()).unwrap()), "{text}");
        }
        assert_eq!(steps(b"").unwrap(), [0; 4]);
        // Faults that steps can have go into them.
        let number = |text: &str| {
            let input = steps(text.as_bytes()).unwrap();
            writing::write_input(&input, usize::MAX).unwrap_err().number
        };
        assert_eq!(number("T1 status 3"), 8);
        assert_eq!(number("T1 w1=0"), 8);
        assert_eq!(number("T1 w1=1 aborted; T2 w1=1"), 10);
    }

    #[test]
    fn what_steps_cannot_say_is_an_error() {
        let error = |text: &str| steps(text.as_bytes()).unwrap_err().to_string();
        assert_eq!(
            error("T1;\n note \"a\""),
            "line 2, column 2: steps have no notes"
        );
        assert_eq!(
            error("T1 w1=5 note \"\""),
            "line 1, column 9: steps have no notes"
        );
        assert_eq!(
            error("T1; end 1"),
            "line 1, column 5: steps have no end record; writing adds it"
        );
        assert_eq!(
            error("serial 1; edition 2; T1"),
            "line 1, column 11: steps are of edition 1"
        );
    }

    #[test]
    fn errors_say_where() {
        assert_eq!(
            error_of("T1;\n T3"),
            "line 2, column 2: T3 is out of turn; T2 comes next"
        );
        assert_eq!(
            error_of("T1 w1=x"),
            "line 1, column 4: 'x' is not a number from 0 to 18446744073709551615: value"
        );
        assert_eq!(
            error_of("T1 w1=+5"),
            "line 1, column 4: '+5' is not a number from 0 to 18446744073709551615: value"
        );
        assert_eq!(
            error_of("note \"abc"),
            "line 1, column 6: the quote is not closed on its line"
        );
        assert_eq!(
            error_of("note \"a\\n\""),
            "line 1, column 8: after '\\' comes '\"', '\\' or 'x' and two digits"
        );
        assert_eq!(
            error_of("T1 aborted r1=0"),
            "line 1, column 12: 'r1=0' is not expected here"
        );
        assert_eq!(
            error_of("T1; serial 5"),
            "line 1, column 5: 'serial' can only be the first item"
        );
        assert_eq!(
            error_of("T1; edition 2"),
            "line 1, column 5: 'edition' can only be the first item or behind 'serial'"
        );
        assert_eq!(
            error_of("edition 2; serial 5"),
            "line 1, column 12: 'serial' can only be the first item"
        );
        assert_eq!(
            error_of("T1 w1=5 .."),
            "line 1, column 9: '..' is for edition 2: in edition 1 transactions do not overlap"
        );
        assert_eq!(
            error_of("edition 2; T1 .. r1=0"),
            "line 1, column 18: 'r1=0' is not expected here"
        );
        assert_eq!(
            error_of("edition 2; T1 ..; T1 r1=0"),
            "line 1, column 19: T1 is open; 'T1 ..' goes on"
        );
        assert_eq!(
            error_of("edition 2; T1; T1 .. r1=0"),
            "line 1, column 16: T1 is not open and cannot go on"
        );
        assert_eq!(
            error_of("edition 2; T0 .."),
            "line 1, column 12: T0 is not open and cannot go on"
        );
        assert_eq!(
            error_of("edition 2; T1 .. aborted"),
            "line 1, column 18: 'aborted' is not expected here"
        );
        assert_eq!(
            error_of("edition 2; T1 a1=5,6"),
            "line 1, column 15: '5,6' is not a number from 0 to 18446744073709551615: value"
        );
        assert_eq!(
            error_of("edition 2; T1 l1=5,"),
            "line 1, column 15: '' is not a number from 0 to 18446744073709551615: value"
        );
        let long = format!("edition 2; T1 l1=1{}", ",1".repeat(8_190));
        assert_eq!(
            error_of(&long),
            "line 1, column 15: a list cannot have more than 8190 values"
        );
        assert_eq!(
            error_of("serial"),
            "line 1, column 7: a number is missing: first serial"
        );
        assert_eq!(
            error_of("end 0; T1"),
            "line 1, column 8: nothing can follow 'end'"
        );
    }
}
