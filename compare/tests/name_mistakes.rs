//! Judges that are mistaken in one thing of names each. The known pairs of files and the
//! random ones have to tell every one of them from a right one, which is a second working
//! out of what is said with names.

use ferozhak_compare::name_cases;
use ferozhak_compare::name_files::Drawn;
use ferozhak_compare::names::{judge_named, NamedText, RefusedFile, Whose};
use ferozhak_compare::random::Random;
use ferozhak_compare::trace::{Refusal, Trace};
use ferozhak_compare::{judge_text, text};
use std::collections::{BTreeSet, HashMap};

/// What a judge can have wrong.
#[derive(Clone, Copy, Debug, PartialEq, Eq, PartialOrd, Ord)]
enum Mistake {
    Nothing,
    /// A byte more is lawful, or a byte less is too many.
    LimitAbove,
    LimitBelow,
    /// A name of no byte, of 41; none of 1, none of 40.
    NoByte,
    Byte41,
    NotOne,
    Not40,
    /// Of a number only the low byte is looked at.
    LengthInAByte,
    KindInAByte,
    /// Two rows the other way round.
    BytesBeforeLength,
    KindBeforeBytes,
    ByteBeforeKind,
    KeyBeforeByte,
    /// What is left at the end is not looked at.
    OneLeft,
    CutIsEnd,
    /// Other bytes in a name.
    Control,
    Delete,
    HighBytes,
    NoSpaces,
    NoTilde,
    /// Only some bytes of a name are looked at.
    FirstByteOnly,
    LastByteNot,
    /// How keys ascend.
    EqualKeys,
    AnyKeys,
    SignedKeys,
    KeysAsBytes,
    KeysIn16Bits,
    AboveFirst,
    /// The place is that of the record's end, or counts records.
    PlaceBehind,
    PlaceCounted,
    /// The shared file is told where both are refused.
    SharedFirst,
    /// The shared file's name is taken where both have one.
    SharedHides,
    /// A file that is refused has no names, but the other one has.
    OwnStays,
    SharedStays,
    /// The shared file is read only where a name is not in the own one.
    SharedWhenNeeded,
    /// One of the files is not looked at.
    OwnOnly,
    SharedOnly,
    /// How a key is looked for.
    NotFirst,
    NotLast,
    KeyIn16Bits,
    /// How a name is printed.
    Trimmed,
    Cut,
    /// How a number is.
    SignedNumber,
    NoNumber,
    /// The key is that of the operation behind the read.
    NextOperation,
    /// Only the first level has names.
    FirstLevel,
    /// A file that is refused is told only where there are lines that need it.
    ToldWhenNeeded,
    /// It is not told where the trace is refused too.
    TraceTold,
}

use Mistake::*;

const ALL: [Mistake; 47] = [
    LimitAbove,
    LimitBelow,
    NoByte,
    Byte41,
    NotOne,
    Not40,
    LengthInAByte,
    KindInAByte,
    BytesBeforeLength,
    KindBeforeBytes,
    ByteBeforeKind,
    KeyBeforeByte,
    OneLeft,
    CutIsEnd,
    Control,
    Delete,
    HighBytes,
    NoSpaces,
    NoTilde,
    FirstByteOnly,
    LastByteNot,
    EqualKeys,
    AnyKeys,
    SignedKeys,
    KeysAsBytes,
    KeysIn16Bits,
    AboveFirst,
    PlaceBehind,
    PlaceCounted,
    SharedFirst,
    SharedHides,
    OwnStays,
    SharedStays,
    SharedWhenNeeded,
    OwnOnly,
    SharedOnly,
    NotFirst,
    NotLast,
    KeyIn16Bits,
    Trimmed,
    Cut,
    SignedNumber,
    NoNumber,
    NextOperation,
    FirstLevel,
    ToldWhenNeeded,
    TraceTold,
];

/// The rows of a record, in the request's words.
#[derive(Clone, Copy)]
enum Row {
    LengthField,
    Length,
    Bytes,
    Kind,
    Name,
    Key,
}

impl Mistake {
    /// The rows in the order in which they are tried.
    fn order(self) -> [Row; 6] {
        use Row::*;
        match self {
            BytesBeforeLength => [LengthField, Bytes, Length, Kind, Name, Key],
            KindBeforeBytes => [LengthField, Length, Kind, Bytes, Name, Key],
            ByteBeforeKind => [LengthField, Length, Bytes, Name, Kind, Key],
            KeyBeforeByte => [LengthField, Length, Bytes, Kind, Key, Name],
            _ => [LengthField, Length, Bytes, Kind, Name, Key],
        }
    }

    fn number(self, row: Row) -> u8 {
        match row {
            Row::LengthField | Row::Bytes => 3,
            Row::Length => 4,
            Row::Kind => 6,
            Row::Name => 8,
            Row::Key => 18,
        }
    }

    /// What the length field says, if it is there.
    fn length(self, rest: &[u8]) -> Option<usize> {
        match (self, rest) {
            (LengthInAByte, [low, _, ..]) => Some(usize::from(*low)),
            (_, [low, high, ..]) => Some(usize::from(*low) + 256 * usize::from(*high)),
            _ => None,
        }
    }

    /// Whether a row refuses the record that these bytes begin with, as far as they are
    /// there to be looked at.
    fn refuses(self, row: Row, rest: &[u8], before: &[u32]) -> bool {
        let Some(length) = self.length(rest) else {
            return matches!(row, Row::LengthField) && self != OneLeft;
        };
        let record = &rest[..rest.len().min(2 + length)];
        match row {
            Row::LengthField => false,
            Row::Length => match self {
                NoByte => !(6..=46).contains(&length),
                Byte41 => !(7..=47).contains(&length),
                NotOne => !(8..=46).contains(&length),
                Not40 => !(7..=45).contains(&length),
                _ => !(7..=46).contains(&length),
            },
            Row::Bytes => self != CutIsEnd && rest.len() < 2 + length,
            Row::Kind => match record.get(2..4) {
                Some(kind) if self == KindInAByte => kind[0] != 32,
                Some(kind) => kind != [32, 0],
                None => false,
            },
            Row::Name => record.get(8..).is_some_and(|name| self.is_odd(name)),
            Row::Key => match record.get(4..8) {
                Some(key) => !self.ascends(before, key.try_into().unwrap()),
                None => false,
            },
        }
    }

    fn is_odd(self, name: &[u8]) -> bool {
        let looked_at = match (self, name) {
            (FirstByteOnly, [first, ..]) => std::slice::from_ref(first),
            (LastByteNot, [others @ .., _]) => others,
            _ => name,
        };
        let is_lawful = |byte: &u8| match (self, *byte) {
            (Control, 9 | 10 | 31) | (Delete, 127) | (HighBytes, 128..) => true,
            (NoSpaces, b' ') | (NoTilde, b'~') => false,
            (_, byte) => (32..127).contains(&byte),
        };
        !looked_at.iter().all(is_lawful)
    }

    fn ascends(self, before: &[u32], key: [u8; 4]) -> bool {
        let number = u32::from_le_bytes(key);
        let last = match self {
            AboveFirst => before.first(),
            _ => before.last(),
        };
        let Some(&last) = last else {
            return true;
        };
        match self {
            EqualKeys => last <= number,
            AnyKeys => true,
            SignedKeys => (last as i32) < number as i32,
            KeysAsBytes => last.to_le_bytes() < key,
            KeysIn16Bits => last as u16 <= number as u16,
            _ => last < number,
        }
    }

    /// The keys and names of a file, as far as it is read, and why it goes no further.
    fn read(self, bytes: &[u8]) -> (Vec<(u32, Vec<u8>)>, Option<Refusal>) {
        let mut names = Vec::new();
        let limit = match self {
            LimitAbove => 32_769,
            LimitBelow => 32_767,
            _ => 32_768,
        };
        if bytes.len() > limit {
            let place = 32_768;
            return (names, Some(Refusal { number: 2, place }));
        }
        let mut keys = Vec::new();
        let mut rest = bytes;
        while !rest.is_empty() {
            let at_fault = |row: &Row| self.refuses(*row, rest, &keys);
            let row = self.order().into_iter().find(at_fault);
            let length = self.length(rest).unwrap_or(0);
            if let Some(row) = row {
                let place = match self {
                    PlaceBehind => (bytes.len() - rest.len() + 2 + length).min(bytes.len()),
                    PlaceCounted => names.len(),
                    _ => bytes.len() - rest.len(),
                };
                let number = self.number(row);
                return (names, Some(Refusal { number, place }));
            }
            let Some(record) = rest.get(..2 + length).filter(|record| record.len() >= 8) else {
                break; // what a mistaken one does not mind
            };
            let key = u32::from_le_bytes(record[4..8].try_into().unwrap());
            names.push((key, record[8..].to_vec()));
            keys.push(key);
            rest = &rest[record.len()..];
        }
        (names, None)
    }

    /// The names by what is looked for of their keys, of equal ones the first.
    fn table(self, names: Vec<(u32, Vec<u8>)>) -> HashMap<u32, Vec<u8>> {
        let looked_at = match (self, &names[..]) {
            (NotFirst, [_, rest @ ..]) => rest,
            (NotLast, [rest @ .., _]) => rest,
            (_, all) => all,
        };
        let mut table = HashMap::new();
        for (key, name) in looked_at {
            let name = name.clone();
            table.entry(self.looked_for(*key)).or_insert(name);
        }
        table
    }

    fn looked_for(self, key: u32) -> u32 {
        match self {
            KeyIn16Bits => key & 0xFFFF,
            _ => key,
        }
    }

    /// What such a judge says.
    fn said(self, asked: &Asked) -> NamedText {
        let [(own, of_own), (shared, of_shared)] = [asked.own, asked.shared].map(|file| {
            let (names, refusal) = self.read(file);
            (self.table(names), refusal)
        });
        let told = |whose| move |refusal| RefusedFile { whose, refusal };
        let of_own = of_own.map(told(Whose::Own));
        let mut of_shared = of_shared.map(told(Whose::Shared));
        let keys = self.keys(asked);
        if self == SharedWhenNeeded {
            let is_own = |key: &u32| own.contains_key(key);
            of_shared = of_shared.filter(|_| !keys.iter().all(is_own));
        }
        let refused = match self {
            SharedFirst => of_shared.or(of_own),
            OwnOnly => of_own,
            SharedOnly => of_shared,
            _ => of_own.or(of_shared),
        };
        let name = |key| {
            let [own, shared] = [&own, &shared].map(|names| names.get(&self.looked_for(key)));
            match self {
                OwnStays if of_own.is_none() && of_shared.is_some() => own,
                SharedStays if of_own.is_some() && of_shared.is_none() => shared,
                _ if refused.is_some() => None,
                SharedHides => shared.or(own),
                OwnOnly => own,
                SharedOnly => shared,
                _ => own.or(shared),
            }
        };
        let mut keys_left = keys.iter();
        let mut output = String::new();
        for line in asked.plain.lines() {
            output += line;
            if line.starts_with("read ") {
                let key = *keys_left.next().unwrap();
                output += &self.end(name(key), key);
            }
            output.push('\n');
        }
        let is_told = match self {
            ToldWhenNeeded => !keys.is_empty(),
            TraceTold => asked.trace.is_some(),
            _ => true,
        };
        if self == FirstLevel {
            output = first_level_only(&output, &asked.plain);
        }
        NamedText {
            output,
            refused: refused.filter(|_| is_told),
        }
    }

    /// The keys of the lines `read`.
    fn keys(self, asked: &Asked) -> Vec<u32> {
        let lines = asked.plain.lines();
        let lines = lines.filter(|line| line.starts_with("read "));
        let operation = |line: &str| line.split(' ').nth(2).unwrap().parse().unwrap();
        let operations = lines.map(operation);
        let key = |number: usize| {
            let operations = &asked.trace.as_ref().unwrap().operations;
            let index = match self {
                NextOperation => number.min(operations.len() - 1),
                _ => number - 1,
            };
            operations[index].key
        };
        operations.map(key).collect()
    }

    /// What is behind the numbers of a line.
    fn end(self, name: Option<&Vec<u8>>, key: u32) -> String {
        let name = name.map(|name| String::from_utf8_lossy(name).into_owned());
        let end = match (self, name) {
            (Trimmed, Some(name)) => name.trim().into(),
            (Cut, Some(name)) => name.chars().take(39).collect(),
            (_, Some(name)) => name,
            (SignedNumber, None) => (key as i32).to_string(),
            (NoNumber, None) => String::new(),
            (_, None) => key.to_string(),
        };
        format!(" {end}")
    }
}

/// What is printed with names of the first level only.
fn first_level_only(named: &str, plain: &str) -> String {
    let mut is_first = true;
    let mut output = String::new();
    for (named, bare) in named.lines().zip(plain.lines()) {
        is_first &= !named.starts_with("ra ");
        output += if is_first { named } else { bare };
        output.push('\n');
    }
    output
}

/// What is asked, with what is said of the trace without names.
struct Asked<'a> {
    own: &'a [u8],
    shared: &'a [u8],
    trace: Option<Trace>,
    plain: String,
}

impl<'a> Asked<'a> {
    fn new(own: &'a [u8], shared: &'a [u8], trace: &[u8]) -> Asked<'a> {
        Asked {
            own,
            shared,
            trace: Trace::parse(trace).ok(),
            plain: judge_text(trace),
        }
    }
}

/// The mistakes that show with this pair; a second working out must come to the same.
fn shown(name: &str, own: &[u8], shared: &[u8], trace: &[u8]) -> BTreeSet<Mistake> {
    let right = judge_named(own, shared, trace);
    let asked = Asked::new(own, shared, trace);
    assert_eq!(Nothing.said(&asked), right, "{name}");
    let is_shown = |mistake: &Mistake| mistake.said(&asked) != right;
    ALL.into_iter().filter(is_shown).collect()
}

#[test]
fn known_pairs_show_every_mistake() {
    let mut all = BTreeSet::new();
    for case in name_cases::all() {
        all.extend(shown(&case.name, &case.own, &case.shared, &case.trace));
    }
    let unseen = ALL.into_iter().filter(|mistake| !all.contains(mistake));
    assert_eq!(unseen.collect::<Vec<_>>(), []);
}

#[test]
fn random_pairs_show_every_mistake_again_and_again() {
    const LEAST: usize = 3;
    let mut counts = ALL.map(|mistake| (mistake, 0));
    for stream in 0..800 {
        let Drawn {
            own, shared, trace, ..
        } = Drawn::new(&mut Random::new(71, stream));
        let shown = shown(&format!("pair {stream}"), &own, &shared, &trace);
        for (mistake, count) in &mut counts {
            *count += usize::from(shown.contains(mistake));
        }
    }
    for (mistake, count) in counts {
        assert!(count >= LEAST, "{mistake:?}: {count} in {counts:?}");
    }
}

#[test]
fn a_judge_without_mistakes_says_what_is_worked_out_by_hand() {
    let trace = text::encode(b"T1 w1=5 aborted; T2 r1=5 r2=6 r3=7").unwrap();
    let own = [7, 0, 32, 0, 1, 0, 0, 0, b'a'];
    let shared = [8, 0, 32, 0, 2, 0, 0, 0, b'b', b' '];
    let block = "rejected 3 0\nread 2 2 2 1 a\nread 2 3 1 0 b \nread 2 4 1 0 3\n";
    let text = NamedText {
        output: format!("rc {block}ra {block}tcc {block}"),
        refused: None,
    };
    assert_eq!(Nothing.said(&Asked::new(&own, &shared, &trace)), text);
    assert_eq!(judge_named(&own, &shared, &trace), text);
}
