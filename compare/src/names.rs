//! Names in place of numbers: a names file is read, or it is said why it is refused; two
//! of them, a host's own and the shared one, are asked for the name of a key; and the
//! lines `read` of the program `judge` end in such a name.

use crate::report::{self, Finding};
use crate::trace::{Refusal, Trace, MAX_BYTES};
use crate::{judge_trace, Answer};
use std::ops::RangeInclusive;

/// The kind of every record of a names file.
pub const NAME: u16 = 32;
/// The most bytes of a name, which has at least one.
pub const MAX_NAME: usize = 40;
/// What the bytes of a name are.
pub const NAME_BYTES: RangeInclusive<u8> = 32..=126;

/// Bytes of a record that its length does not count: the length field itself.
const LENGTH_FIELD: usize = 2;
/// Bytes that every length counts: kind and key. There is no serial.
const KIND_AND_KEY: usize = 6;
/// The bytes of a record before its name.
pub const HEAD: usize = LENGTH_FIELD + KIND_AND_KEY;

/// A key and the stretch of the file that is its name.
#[derive(Clone, Copy, Debug, PartialEq, Eq)]
pub struct Entry<'a> {
    pub key: u32,
    pub name: &'a [u8],
}

impl<'a> Entry<'a> {
    /// The record that `bytes` begin with, or the number of the refusal: all rows but
    /// that of keys, for which one has to know the record before.
    fn at(bytes: &'a [u8]) -> Result<Entry<'a>, u8> {
        let [low, high, rest @ ..] = bytes else {
            return Err(3);
        };
        let length = usize::from(u16::from_le_bytes([*low, *high]));
        if !(KIND_AND_KEY + 1..=KIND_AND_KEY + MAX_NAME).contains(&length) {
            return Err(4);
        }
        if rest.len() < length {
            return Err(3);
        }
        let (head, name) = rest[..length].split_at(KIND_AND_KEY);
        if u16::from_le_bytes([head[0], head[1]]) != NAME {
            return Err(6);
        }
        if !name.iter().all(|byte| NAME_BYTES.contains(byte)) {
            return Err(8);
        }
        let key = u32::from_le_bytes([head[2], head[3], head[4], head[5]]);
        Ok(Entry { key, name })
    }

    /// The bytes it takes in the file.
    fn size(&self) -> usize {
        HEAD + self.name.len()
    }
}

/// A names file that is not refused.
#[derive(Clone, Debug, PartialEq, Eq)]
pub struct Names<'a> {
    /// By key, ascending.
    entries: Vec<Entry<'a>>,
}

impl<'a> Names<'a> {
    /// Reads the bytes of a names file, checking in the order of the request. A file
    /// without records is one without names.
    pub fn parse(bytes: &'a [u8]) -> Result<Names<'a>, Refusal> {
        if bytes.len() > MAX_BYTES {
            return Err(Refusal {
                number: 2,
                place: MAX_BYTES,
            });
        }
        let mut entries: Vec<Entry> = Vec::new();
        let mut offset = 0;
        while offset < bytes.len() {
            let refused = |number| Refusal {
                number,
                place: offset,
            };
            let entry = Entry::at(&bytes[offset..]).map_err(refused)?;
            if entries.last().is_some_and(|before| before.key >= entry.key) {
                return Err(refused(18));
            }
            offset += entry.size();
            entries.push(entry);
        }
        Ok(Names { entries })
    }

    /// The name of this key, if the file has one.
    pub fn find(&self, key: u32) -> Option<&'a [u8]> {
        let place = self.entries.binary_search_by_key(&key, |entry| entry.key);
        Some(self.entries[place.ok()?].name)
    }

    /// All keys with their names, ascending.
    pub fn entries(&self) -> &[Entry<'a>] {
        &self.entries
    }
}

/// One of the two files.
#[derive(Clone, Copy, Debug, PartialEq, Eq)]
pub enum Whose {
    Own,
    Shared,
}

/// Why there are no names: the first of the two files that is refused.
#[derive(Clone, Copy, Debug, PartialEq, Eq)]
pub struct RefusedFile {
    pub whose: Whose,
    pub refusal: Refusal,
}

impl RefusedFile {
    /// What `judge` says of it on standard error, the own file and the shared one having
    /// these paths.
    pub fn line(&self, [own, shared]: [&str; 2]) -> String {
        let Refusal { number, place } = self.refusal;
        let path = match self.whose {
            Whose::Own => own,
            Whose::Shared => shared,
        };
        format!("names refused {number} {place} {path}\n")
    }
}

/// Two names files of which none is refused.
#[derive(Clone, Debug, PartialEq, Eq)]
pub struct BothNames<'a> {
    pub own: Names<'a>,
    pub shared: Names<'a>,
}

impl<'a> BothNames<'a> {
    /// Reads both, each whole: "own file first".
    pub fn parse(own: &'a [u8], shared: &'a [u8]) -> Result<BothNames<'a>, RefusedFile> {
        let read =
            |bytes, whose| Names::parse(bytes).map_err(|refusal| RefusedFile { whose, refusal });
        Ok(BothNames {
            own: read(own, Whose::Own)?,
            shared: read(shared, Whose::Shared)?,
        })
    }

    /// The name of this key and whose it is: the own file's, "failing that the shared
    /// file's".
    pub fn find(&self, key: u32) -> Option<(Whose, &'a [u8])> {
        let own = self.own.find(key).map(|name| (Whose::Own, name));
        own.or_else(|| self.shared.find(key).map(|name| (Whose::Shared, name)))
    }
}

/// The stretch of one of the files that is the key's name: "failing that an empty one, as
/// on refusal".
pub fn name_of<'a>(
    own: &'a [u8],
    shared: &'a [u8],
    key: u32,
) -> (&'a [u8], Result<(), RefusedFile>) {
    match BothNames::parse(own, shared) {
        Ok(names) => (names.find(key).map_or(&[], |(_, name)| name), Ok(())),
        Err(refused) => (&[], Err(refused)),
    }
}

/// What `judge` says of a trace when it is given two names files.
#[derive(Clone, Debug, PartialEq, Eq)]
pub struct NamedText {
    /// What it prints.
    pub output: String,
    /// What it tells besides, on standard error.
    pub refused: Option<RefusedFile>,
}

/// Judges a trace with these names files, the own one and the shared one.
pub fn judge_named(own: &[u8], shared: &[u8], trace: &[u8]) -> NamedText {
    let names = BothNames::parse(own, shared);
    let output = match Trace::parse(trace) {
        Ok(trace) => {
            let ending = |finding: &Finding| {
                let key = trace.operation(finding.operation).key;
                format!(" {}", name_or_number(names.as_ref().ok(), key))
            };
            report::print_ending(&Ok(judge_trace(&trace)), &ending)
        }
        Err(refusal) => report::print(&Answer::Err(refusal)),
    };
    NamedText {
        output,
        refused: names.err(),
    }
}

/// "The key's name, else its number"; without names always the number.
fn name_or_number(names: Option<&BothNames>, key: u32) -> String {
    match names.and_then(|names| names.find(key)) {
        Some((_, name)) => name.iter().copied().map(char::from).collect(),
        None => key.to_string(),
    }
}
