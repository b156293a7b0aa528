//! Known pairs of names files, each with a trace and what `judge` has to say then: whose
//! name stands where, each row of the refusals, and what stands in one record, in two and
//! in both files.

use crate::cases::{each, same};
use crate::name_files::{file_of, file_with, Loose, MAX_RECORDS};
use crate::names::{RefusedFile, Whose, HEAD, MAX_NAME, NAME};
use crate::text;
use crate::trace::{Refusal, MAX_BYTES, MAX_OPERATIONS};

/// Two names files and a trace, with what must be said then.
pub struct NameCase {
    pub name: String,
    pub own: Vec<u8>,
    pub shared: Vec<u8>,
    pub trace: Vec<u8>,
    /// What `judge` has to print.
    pub output: String,
    /// What it has to tell besides.
    pub refused: Option<RefusedFile>,
}

/// All of them.
pub fn all() -> Vec<NameCase> {
    let mut cases = whose();
    cases.extend(places());
    cases.extend(keys());
    cases.extend(texts());
    cases.extend(full_files());
    cases.extend(kinds());
    cases.extend(traces());
    cases.extend(many_findings());
    cases.extend(rows().into_iter().flat_map(FileCase::in_each_file));
    cases.extend(several_rows().into_iter().flat_map(FileCase::in_each_file));
    cases.extend(both_refused());
    cases
}

/// A trace that says the same with any names: what it prints, and how its lines `read`
/// end.
fn judged(name: &str, files: [Vec<u8>; 2], notation: &str, output: String) -> NameCase {
    let [own, shared] = files;
    NameCase {
        name: name.into(),
        own,
        shared,
        trace: encode(notation),
        output,
        refused: None,
    }
}

fn encode(notation: &str) -> Vec<u8> {
    text::encode(notation.as_bytes()).unwrap_or_else(|e| panic!("{notation}: {e}"))
}

/// The keys that are asked, each by a read from thin air, and how their lines end.
fn asked(name: &str, files: [Vec<u8>; 2], asked: &[(u32, &str)]) -> NameCase {
    let reads: String = asked.iter().map(|(key, _)| format!(" r{key}=9")).collect();
    let ends: Vec<&str> = asked.iter().map(|(_, end)| *end).collect();
    judged(name, files, &format!("T1{reads}"), thin_air(&ends))
}

/// What is printed of reads from thin air whose lines end so.
fn thin_air(ends: &[&str]) -> String {
    let lines = ends.iter().zip(1..);
    let lines: String = lines
        .map(|(end, operation)| format!("\nread 1 {operation} 1 0 {end}"))
        .collect();
    same(&format!("rejected {} 0{lines}", ends.len()))
}

/// The own file and the shared one.
fn files(own: &[(u32, &str)], shared: &[(u32, &str)]) -> [Vec<u8>; 2] {
    [file_with(own), file_with(shared)]
}

/// Which of the files a name comes from.
fn whose() -> Vec<NameCase> {
    vec![
        asked(
            "no names at all",
            files(&[], &[]),
            &[(1, "1"), (4_071, "4071")],
        ),
        asked(
            "a name in the own file",
            files(&[(1, "own")], &[]),
            &[(1, "own")],
        ),
        asked(
            "a name in the shared file",
            files(&[], &[(1, "shared")]),
            &[(1, "shared")],
        ),
        asked(
            "a name in both",
            files(&[(1, "own")], &[(1, "shared")]),
            &[(1, "own")],
        ),
        asked(
            "own, shared, both and none",
            files(
                &[(1, "own 1"), (3, "own 3")],
                &[(2, "shared 2"), (3, "shared 3")],
            ),
            &[(1, "own 1"), (2, "shared 2"), (3, "own 3"), (4, "4")],
        ),
        asked(
            "none, both, shared and own",
            files(
                &[(6, "own 6"), (8, "own 8")],
                &[(6, "shared 6"), (7, "shared 7")],
            ),
            &[(5, "5"), (6, "own 6"), (7, "shared 7"), (8, "own 8")],
        ),
        asked(
            "a short own name hides a long one",
            files(&[(1, "o")], &[(1, "a shared name that is much longer")]),
            &[(1, "o")],
        ),
        asked(
            "the same name for different keys",
            files(&[(1, "same"), (2, "same")], &[(3, "same")]),
            &[(1, "same"), (2, "same"), (3, "same")],
        ),
        asked(
            "a key asked again and again",
            files(&[(7, "seven")], &[(8, "eight")]),
            &[
                (7, "seven"),
                (8, "eight"),
                (7, "seven"),
                (9, "9"),
                (8, "eight"),
                (7, "seven"),
            ],
        ),
    ]
}

/// Where in its file a name stands.
fn places() -> Vec<NameCase> {
    let five = [
        (10, "ten"),
        (20, "twenty"),
        (30, "thirty"),
        (40, "forty"),
        (50, "fifty"),
    ];
    let expected = [
        (9, "9"),
        (10, "ten"),
        (11, "11"),
        (20, "twenty"),
        (25, "25"),
        (30, "thirty"),
        (40, "forty"),
        (49, "49"),
        (50, "fifty"),
        (51, "51"),
    ];
    vec![
        asked(
            "first, last, between and beside, own",
            files(&five, &[]),
            &expected,
        ),
        asked(
            "first, last, between and beside, shared",
            files(&[], &five),
            &expected,
        ),
        asked(
            "the first of one is the last of the other",
            files(&[(1, "a"), (2, "b")], &[(2, "c"), (3, "d")]),
            &[(3, "d"), (2, "b"), (1, "a"), (0, "0")],
        ),
    ]
}

/// Which keys are equal, and which is the greater.
fn keys() -> Vec<NameCase> {
    const MOST: u32 = u32::MAX;
    let bits = [
        (1, "one"),
        (256, "two"),
        (65_536, "three"),
        (16_777_216, "four"),
    ];
    let halves = [
        (5, "five"),
        (0x7FFF_FFFF, "below"),
        (0x8000_0000, "above"),
        (MOST, "most"),
    ];
    vec![
        asked(
            "the least key and the greatest, own",
            files(&[(0, "least"), (MOST, "greatest")], &[]),
            &[
                (0, "least"),
                (1, "1"),
                (MOST - 1, "4294967294"),
                (MOST, "greatest"),
            ],
        ),
        asked(
            "the least key and the greatest, shared",
            files(&[], &[(0, "least"), (MOST, "greatest")]),
            &[
                (0, "least"),
                (1, "1"),
                (MOST - 1, "4294967294"),
                (MOST, "greatest"),
            ],
        ),
        asked(
            "the least key and the greatest without names",
            files(&[(1, "one")], &[(MOST - 1, "near")]),
            &[(0, "0"), (MOST, "4294967295")],
        ),
        asked(
            "each byte of a key counts",
            files(&bits, &[]),
            &[
                (1, "one"),
                (256, "two"),
                (65_536, "three"),
                (16_777_216, "four"),
                (257, "257"),
                (0x0101_0101, "16843009"),
            ],
        ),
        asked(
            "keys have no sign",
            files(&halves, &[]),
            &[
                (0x8000_0000, "above"),
                (0x7FFF_FFFF, "below"),
                (5, "five"),
                (MOST, "most"),
            ],
        ),
        asked(
            "keys ascend as numbers, not as bytes",
            files(&[(2, "b"), (257, "a")], &[(255, "d"), (256, "c")]),
            &[(2, "b"), (255, "d"), (256, "c"), (257, "a")],
        ),
    ]
}

/// What a name may be.
fn texts() -> Vec<NameCase> {
    let longest = "n".repeat(MAX_NAME);
    let spaces = " ".repeat(MAX_NAME);
    let all: String = (32..=126_u8).map(char::from).collect();
    let (first, rest) = all.split_at(40);
    let (second, third) = rest.split_at(40);
    vec![
        asked(
            "names of 1 byte and of 40",
            files(&[(1, "a"), (2, &longest)], &[(3, &longest), (4, "b")]),
            &[(1, "a"), (2, &longest), (3, &longest), (4, "b")],
        ),
        asked(
            "spaces inside and at the ends",
            files(&[(1, " "), (2, "  two  "), (3, &spaces)], &[(4, "a b")]),
            &[(1, " "), (2, "  two  "), (3, &spaces), (4, "a b")],
        ),
        asked(
            "every byte that a name may have",
            files(&[(1, first), (2, second), (3, third)], &[]),
            &[(1, first), (2, second), (3, third)],
        ),
        asked(
            "names that look like something else",
            files(
                &[(1, "2"), (2, "read 1 1 1 0"), (3, "%s%n %d\\n")],
                &[(4, "refused 3 0"), (5, "5"), (6, "$HOME `id` 'x'")],
            ),
            &[
                (1, "2"),
                (2, "read 1 1 1 0"),
                (3, "%s%n %d\\n"),
                (4, "refused 3 0"),
                (5, "5"),
                (6, "$HOME `id` 'x'"),
            ],
        ),
    ]
}

/// A lawful file of exactly this many bytes, of so many records, whose keys are the even
/// numbers from 0 on. Names are a byte long; the last one has what is left.
fn exactly(size: usize, records: usize) -> Vec<u8> {
    let short = HEAD + 1;
    let last = size - (records - 1) * short - HEAD;
    let record = |place: usize| {
        let length = if place + 1 == records { last } else { 1 };
        Loose::new(2 * place as u32, &vec![b'a' + (place % 26) as u8; length])
    };
    file_of(&(0..records).map(record).collect::<Vec<_>>())
}

/// The longest lawful file of long names: 682 of 40 bytes and one of 24.
fn long_names() -> Vec<u8> {
    let record = |place: usize| {
        let left = MAX_BYTES - place * (HEAD + MAX_NAME);
        let size = MAX_NAME.min(left - HEAD);
        Loose::new(2 * place as u32, &vec![b'A' + (place % 26) as u8; size])
    };
    let count = MAX_BYTES.div_ceil(HEAD + MAX_NAME);
    file_of(&(0..count).map(record).collect::<Vec<_>>())
}

/// Files of as many bytes and as many records as there can be, and of a byte more.
fn full_files() -> Vec<NameCase> {
    let full = exactly(MAX_BYTES, MAX_RECORDS);
    let nearly = exactly(MAX_RECORDS * (HEAD + 1), MAX_RECORDS);
    let long = long_names();
    let above = exactly(MAX_BYTES + 1, MAX_RECORDS);
    let last = 2 * (MAX_RECORDS as u32 - 1);
    let expected: &[(u32, &str)] = &[
        (0, "a"),
        (1, "1"),
        (2, "b"),
        (3_640, "a"),
        (3_641, "3641"),
        (last - 2, "y"),
        (last, "zzzzzzzzz"),
        (last + 1, "7279"),
    ];
    let of_long: &[(u32, &str)] = &[
        (0, &"A".repeat(40)),
        (681, "681"),
        (1_362, &"F".repeat(40)),
        (1_364, &"G".repeat(24)),
        (1_366, "1366"),
    ];
    let numbers = &[(0, "0"), (last, "7278")];
    let two = |whose| {
        Some(RefusedFile {
            whose,
            refusal: Refusal {
                number: 2,
                place: MAX_BYTES,
            },
        })
    };
    let refused = |name, files, whose| NameCase {
        refused: two(whose),
        ..asked(name, files, numbers)
    };
    vec![
        asked("32,768 bytes, own", [full.clone(), vec![]], expected),
        asked("32,768 bytes, shared", [vec![], full.clone()], expected),
        asked("32,768 bytes, both", [full.clone(), full.clone()], expected),
        asked(
            "3,640 records of 9 bytes",
            [nearly, vec![]],
            &[(0, "a"), (last - 2, "y"), (last, "z"), (last + 2, "7280")],
        ),
        asked("long names, own", [long.clone(), vec![]], of_long),
        asked("long names, shared", [vec![], long], of_long),
        refused(
            "32,769 bytes, own",
            [above.clone(), full.clone()],
            Whose::Own,
        ),
        refused("32,769 bytes, shared", [full, above.clone()], Whose::Shared),
        refused("32,769 bytes, both", [above.clone(), above], Whose::Own),
    ]
}

/// Every kind of unclean read, and that nothing but their lines changes.
fn kinds() -> Vec<NameCase> {
    let known = || files(&[(1, "own")], &[(1, "hidden"), (2, "shared name")]);
    let found = |name, notation, lines: &str| {
        judged(name, known(), notation, same(&format!("rejected {lines}")))
    };
    let pairs = |finding: &str| {
        let (found, line) = match finding {
            "" => (0, String::new()),
            finding => (1, format!("{finding}\n")),
        };
        let pairs = format!("rejected {found} 2\n{line}pair 1 2 8\npair 2 1 8\n");
        let rc = match finding {
            "" => "accepted 0 2 1 3\n".into(),
            _ => format!("rejected {found} 0\n{line}"),
        };
        format!("rc {rc}ra {pairs}tcc {pairs}")
    };
    vec![
        found("named, kind 1", "T1 r1=5", "1 0\nread 1 1 1 0 own"),
        found(
            "named, kind 2",
            "T1 w1=5 aborted; T2 r1=5",
            "1 0\nread 2 2 2 1 own",
        ),
        found(
            "named, kind 3",
            "T1 r2=5 w2=5",
            "1 0\nread 1 1 3 2 shared name",
        ),
        found(
            "named, kind 4",
            "T1 w2=5 w2=6 r2=5",
            "1 0\nread 1 3 4 1 shared name",
        ),
        found(
            "named, kind 5",
            "T1 w1=5; T2 w1=6 r1=5",
            "1 0\nread 2 3 5 1 own",
        ),
        found(
            "named, kind 5 of value 0",
            "T1 w3=6 r3=0",
            "1 0\nread 1 2 5 0 3",
        ),
        found(
            "named, kind 6",
            "T1 w1=5 w1=6; T2 r1=5",
            "1 0\nread 2 3 6 1 own",
        ),
        found(
            "named among clean reads",
            "T1 w1=5 w2=6; T2 r1=5 r2=7 r1=5 r3=8 r2=6",
            "2 0\nread 2 4 1 0 shared name\nread 2 6 1 0 3",
        ),
        judged(
            "pairs have no names",
            known(),
            "T1 w1=11 w2=21; T2 w1=12 w2=22; T3 r1=12 r2=21",
            pairs(""),
        ),
        judged(
            "findings and pairs",
            known(),
            "T1 w1=11 w2=21; T2 w1=12 w2=22; T3 r1=12 r2=21 r2=9",
            pairs("read 3 7 1 0 shared name"),
        ),
        found(
            "named in edition 2",
            "edition 2; T1 w1=5 ..; T2 w2=6 ..; T1 .. r2=9; T2 .. r1=7 r3=8",
            "3 0\nread 1 3 1 0 shared name\nread 2 4 1 0 own\nread 2 5 1 0 3",
        ),
        found(
            "named beside lists",
            "edition 2; T1 a1=5; T2 l1=9 r2=7 l3=8",
            "1 0\nread 2 3 1 0 shared name",
        ),
    ]
}

/// Traces that have no lines `read`, and those that are refused, with lawful names and
/// with a file that is refused.
fn traces() -> Vec<NameCase> {
    let lawful = || files(&[(1, "own")], &[(2, "shared")]);
    let cut = || [vec![7], file_with(&[(2, "shared")])];
    let three = Some(refused_file(Whose::Own, 3, 0));
    let accepted = |name, files| judged(name, files, "T1 w1=5; T2 r1=5", same("accepted 0 1 2"));
    let of_bytes = |name: &str, files, trace: Vec<u8>, output: &str| NameCase {
        trace,
        output: output.into(),
        ..judged(name, files, "", String::new())
    };
    let names = file_with(&[(1, "own")]);
    vec![
        accepted("an accepted trace", lawful()),
        NameCase {
            refused: three,
            ..accepted("an accepted trace, names refused", cut())
        },
        of_bytes("no trace", lawful(), vec![], "refused 3 0\n"),
        of_bytes(
            "a trace too long",
            lawful(),
            vec![0; 40_000],
            "refused 2 32768\n",
        ),
        of_bytes(
            "names for a trace",
            lawful(),
            names.clone(),
            "refused 6 0\n",
        ),
        NameCase {
            refused: three,
            ..of_bytes(
                "both refused, the trace too",
                cut(),
                vec![8],
                "refused 3 0\n",
            )
        },
        NameCase {
            refused: Some(refused_file(Whose::Shared, 6, 0)),
            ..judged(
                "a trace for names",
                [names, encode("T1 r1=5")],
                "T1 r1=5",
                thin_air(&["1"]),
            )
        },
    ]
}

/// As many lines as there can be, of as many keys, every third of them named by each file.
fn many_findings() -> Vec<NameCase> {
    let names = |first: u32, word: &str| {
        let keys = (first..=MAX_OPERATIONS as u32).step_by(3);
        let record = |key| Loose::new(key, format!("{word} {key}").as_bytes());
        file_of(&keys.map(record).collect::<Vec<_>>())
    };
    let end = |key: usize| match key % 3 {
        0 => key.to_string(),
        1 => format!("own {key}"),
        _ => format!("shared {key}"),
    };
    let ends: Vec<String> = (1..=MAX_OPERATIONS).map(end).collect();
    let ends: Vec<&str> = ends.iter().map(String::as_str).collect();
    let reads = (1..=MAX_OPERATIONS).map(|key| format!(" r{key}=9"));
    let notation = format!("T1{}", reads.collect::<String>());
    let numbers = each("", 1..=MAX_OPERATIONS as u16);
    let numbers: Vec<&str> = numbers.split_whitespace().collect();
    let both = [names(1, "own"), names(2, "shared")];
    let spoilt = [names(1, "own"), [names(2, "shared"), vec![46]].concat()];
    let place = both[1].len();
    vec![
        judged("1,024 lines", both, &notation, thin_air(&ends)),
        NameCase {
            refused: Some(refused_file(Whose::Shared, 3, place)),
            ..judged(
                "1,024 lines, names refused",
                spoilt,
                &notation,
                thin_air(&numbers),
            )
        },
    ]
}

fn refused_file(whose: Whose, number: u8, place: usize) -> RefusedFile {
    let refusal = Refusal { number, place };
    RefusedFile { whose, refusal }
}

/// A names file that is refused, or that is just not.
struct FileCase {
    name: String,
    bytes: Vec<u8>,
    refusal: Option<Refusal>,
}

impl FileCase {
    fn new(name: impl Into<String>, bytes: Vec<u8>, number: u8, place: usize) -> FileCase {
        FileCase {
            name: name.into(),
            bytes,
            refusal: Some(Refusal { number, place }),
        }
    }

    fn lawful(name: impl Into<String>, bytes: Vec<u8>) -> FileCase {
        FileCase {
            name: name.into(),
            bytes,
            refusal: None,
        }
    }

    /// As the own file and as the shared one. Key 3, which only the other has, gets no
    /// name from that either if this one is refused.
    fn in_each_file(self) -> Vec<NameCase> {
        let end = match self.refusal {
            Some(_) => "3",
            None => "three",
        };
        let case = |whose| {
            let other = file_with(&[(3, "three")]);
            let (files, word) = match whose {
                Whose::Own => ([self.bytes.clone(), other], "own"),
                Whose::Shared => ([other, self.bytes.clone()], "shared"),
            };
            NameCase {
                refused: self.refusal.map(|refusal| RefusedFile { whose, refusal }),
                ..asked(&format!("{}, {word}", self.name), files, &[(3, end)])
            }
        };
        vec![case(Whose::Own), case(Whose::Shared)]
    }
}

/// A lawful record of 12 bytes, behind which the faults stand.
fn first() -> Loose {
    Loose::new(5, b"five")
}

/// The record behind it.
fn second() -> Loose {
    Loose::new(7, b"seven")
}

/// The first record, and this one behind it.
fn behind_first(record: Loose) -> Vec<u8> {
    file_of(&[first(), record])
}

/// Each row alone, with what is just lawful.
fn rows() -> Vec<FileCase> {
    let mut cases = lengths();
    cases.extend(missing_bytes());
    cases.extend(other_kinds());
    cases.extend(odd_bytes());
    cases.extend(not_ascending());
    cases
}

/// Number 4. The bytes that a record has besides do not matter.
fn lengths() -> Vec<FileCase> {
    let with_length = |length| behind_first(Loose { length, ..second() });
    let mut cases: Vec<FileCase> = [0, 1, 2, 6, 47, 48, 256 + 11, 11 << 8, u16::MAX]
        .map(|length| FileCase::new(format!("length {length}"), with_length(length), 4, 12))
        .into();
    for size in [0, 41, 42, 256, 263] {
        let bytes = behind_first(Loose::new(7, &vec![b'n'; size]));
        cases.push(FileCase::new(
            format!("a name of {size} bytes"),
            bytes,
            4,
            12,
        ));
    }
    for size in [1, 2, 39, 40] {
        let bytes = behind_first(Loose::new(7, &vec![b'n'; size]));
        cases.push(FileCase::lawful(format!("a name of {size} bytes"), bytes));
    }
    let at_once = file_of(&[Loose::new(5, b"")]);
    cases.push(FileCase::new("no name in the first record", at_once, 4, 0));
    // Its last byte is left, and one byte is no length.
    let shorter = with_length(second().length - 1);
    cases.push(FileCase::new("a byte is not counted", shorter, 3, 24));
    cases
}

/// Number 3, for the length field and for what it says.
fn missing_bytes() -> Vec<FileCase> {
    let whole = behind_first(second());
    let mut cases: Vec<FileCase> = (13..whole.len())
        .map(|size| {
            let name = format!("{} bytes of a record", size - 12);
            FileCase::new(name, whole[..size].to_vec(), 3, 12)
        })
        .collect();
    cases.push(FileCase::new("one byte alone", vec![7], 3, 0));
    cases.push(FileCase::new(
        "one byte of a long file",
        one_left(),
        3,
        MAX_BYTES - 1,
    ));
    cases.push(FileCase::lawful("no byte", vec![]));
    cases.push(FileCase::lawful("a whole record", whole));
    cases
}

/// A file of as many bytes as it may have, the last of which is left over.
fn one_left() -> Vec<u8> {
    let mut bytes = exactly(MAX_BYTES - 1, MAX_RECORDS);
    bytes.push(b'n');
    bytes
}

/// Number 6.
fn other_kinds() -> Vec<FileCase> {
    [0, 1, 2, 6, 16, 31, 33, NAME + 256, NAME << 8, u16::MAX]
        .map(|kind| {
            let bytes = behind_first(Loose { kind, ..second() });
            FileCase::new(format!("kind {kind}"), bytes, 6, 12)
        })
        .into()
}

/// Number 8, in each place of a name.
fn odd_bytes() -> Vec<FileCase> {
    let with_byte = |byte, at| {
        let mut record = second();
        record.name[at] = byte;
        behind_first(record)
    };
    let mut cases: Vec<FileCase> = [0, 9, 10, 13, 31, 127, 128, 160, 255]
        .map(|byte| FileCase::new(format!("byte {byte}"), with_byte(byte, 2), 8, 12))
        .into();
    for at in [0, 4] {
        let name = format!("a line end in place {at}");
        cases.push(FileCase::new(name, with_byte(b'\n', at), 8, 12));
    }
    for byte in [32, 126] {
        cases.push(FileCase::lawful(format!("byte {byte}"), with_byte(byte, 2)));
    }
    let mut longest = Loose::new(7, &[b'n'; MAX_NAME]);
    longest.name[MAX_NAME - 1] = 127;
    let bytes = behind_first(longest);
    cases.push(FileCase::new("an odd byte, the 40th", bytes, 8, 12));
    cases
}

/// Number 18: each key is compared with the one before.
fn not_ascending() -> Vec<FileCase> {
    let with_keys = |keys: &[u32]| {
        let record = |key: &u32| Loose::new(*key, b"n");
        file_of(&keys.iter().map(record).collect::<Vec<_>>())
    };
    let refused = |name: &str, keys: &[u32]| {
        // The last one is at fault, and all have 9 bytes.
        FileCase::new(name, with_keys(keys), 18, 9 * (keys.len() - 1))
    };
    let lawful = |name: &str, keys: &[u32]| FileCase::lawful(name, with_keys(keys));
    let mut full = exactly(MAX_BYTES, MAX_RECORDS);
    // The key of the last record, which has 17 bytes.
    let last = MAX_BYTES - 17;
    full[last + 4..last + 8].copy_from_slice(&0_u32.to_le_bytes());
    vec![
        refused("equal keys", &[5, 5]),
        refused("key 0 twice", &[0, 0]),
        refused("the greatest key twice", &[1, u32::MAX, u32::MAX]),
        refused("a key less by one", &[5, 4]),
        refused("a key that was there before", &[4, 5, 4]),
        refused("greater than the first, but not than the last", &[1, 9, 5]),
        refused("0 behind the greatest key", &[u32::MAX, 0]),
        refused("less in the last byte alone", &[0x0100_0009, 0x0000_00FF]),
        refused(
            "a key above 2,147,483,647, then one below",
            &[0x8000_0000, 1],
        ),
        FileCase::new("the last of 3,640 keys", full, 18, last),
        lawful("greater by one", &[5, 6, 7]),
        lawful(
            "greater in the last byte alone",
            &[0x0000_00FF, 0x0100_0000],
        ),
        lawful(
            "a key below 2,147,483,648, then one above",
            &[1, 0x8000_0000],
        ),
    ]
}

/// What can be wrong with one record at once. The rows stand in the order in which they
/// are tried.
const ROWS: [u8; 5] = [4, 3, 6, 8, 18];

/// Every two rows and more in one record, those of two records, and a file that is too
/// long besides.
fn several_rows() -> Vec<FileCase> {
    let mut cases = Vec::new();
    for chosen in 1..1_u32 << ROWS.len() {
        let of_these = |place: &usize| chosen & 1 << place != 0;
        let rows: Vec<u8> = (0..ROWS.len())
            .filter(of_these)
            .map(|place| ROWS[place])
            .collect();
        let bytes = with_rows(&rows);
        let mut long = bytes.clone();
        long.resize(MAX_BYTES + 1, b'n');
        cases.push(FileCase::new(format!("rows {rows:?}"), bytes, rows[0], 12));
        if rows.len() == 1 {
            let name = format!("rows 2 and {rows:?}");
            cases.push(FileCase::new(name, long, 2, MAX_BYTES));
        }
    }
    cases.extend(two_records());
    cases
}

/// A second record with all these faults.
fn with_rows(rows: &[u8]) -> Vec<u8> {
    let has = |row| rows.contains(&row);
    let mut record = match has(4) {
        true => Loose::new(7, &[b'n'; MAX_NAME + 1]),
        false => second(),
    };
    if has(6) {
        record.kind = NAME + 1;
    }
    if has(8) {
        record.name[0] = 127;
    }
    if has(18) {
        record.key = 5;
    }
    let mut bytes = behind_first(record);
    if has(3) {
        bytes.pop();
    }
    bytes
}

/// The first of two records at fault tells, whatever the rows are.
fn two_records() -> Vec<FileCase> {
    let odd = || Loose::new(7, b"se\nen");
    let other_kind = || Loose {
        kind: 31,
        ..Loose::new(9, b"nine")
    };
    let again = || Loose::new(5, b"again");
    let cut = |records: &[Loose]| {
        let mut bytes = file_of(records);
        bytes.pop();
        bytes
    };
    vec![
        FileCase::new("8, then 6", file_of(&[first(), odd(), other_kind()]), 8, 12),
        FileCase::new("6, then 8", file_of(&[first(), other_kind(), odd()]), 6, 12),
        FileCase::new("18, then 8", file_of(&[first(), again(), odd()]), 18, 12),
        FileCase::new("18, then 3", cut(&[first(), again(), second()]), 18, 12),
        FileCase::new("8, then 3", cut(&[first(), odd(), second()]), 8, 12),
    ]
}

/// The own file is told where both are refused, whatever its row and its place.
fn both_refused() -> Vec<NameCase> {
    let refused = |name: &str, files, number, place| NameCase {
        refused: Some(refused_file(Whose::Own, number, place)),
        ..asked(name, files, &[(5, "5"), (7, "7")])
    };
    let late = || behind_first(first());
    let early = || vec![9];
    let long = || vec![b'n'; MAX_BYTES + 1];
    vec![
        refused("own 18 late, shared 3 early", [late(), early()], 18, 12),
        refused("own 3 early, shared 18 late", [early(), late()], 3, 0),
        refused("own 3, shared too long", [early(), long()], 3, 0),
        refused("own too long, shared 3", [long(), early()], 2, MAX_BYTES),
        refused("the same fault in both", [late(), late()], 18, 12),
    ]
}
