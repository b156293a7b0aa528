//! Names in place of numbers: the rows of refusals, the names of keys, what `judge` says
//! with names, names files as text, the programs, and the comparison.

use ferozhak_compare::directory::Directory;
use ferozhak_compare::name_cases;
use ferozhak_compare::name_files::{file_of, file_with, Damage, Drawn, Loose, MAX_RECORDS};
use ferozhak_compare::name_text::{decode, encode};
use ferozhak_compare::names::{judge_named, name_of, BothNames, Names, RefusedFile, Whose};
use ferozhak_compare::process::{run_keeping_error, Ended};
use ferozhak_compare::random::Random;
use ferozhak_compare::trace::{Edition, Refusal, Trace, MAX_BYTES};
use ferozhak_compare::workers::Extent;
use ferozhak_compare::{judge_all, judge_text, naming, text};
use std::collections::{BTreeMap, BTreeSet};

fn refused(number: u8, place: usize) -> Refusal {
    Refusal { number, place }
}

fn read(bytes: &[u8]) -> Option<Refusal> {
    Names::parse(bytes).err()
}

#[test]
fn every_case_gives_its_answers() {
    for case in name_cases::all() {
        let said = judge_named(&case.own, &case.shared, &case.trace);
        assert_eq!(said.output, case.output, "{}", case.name);
        assert_eq!(said.refused, case.refused, "{}", case.name);
    }
}

#[test]
fn known_pairs_have_names_of_their_own_and_every_refusal_in_each_file() {
    let mut names = BTreeSet::new();
    let mut refusals: [BTreeSet<u8>; 2] = Default::default();
    for case in name_cases::all() {
        if let Some(RefusedFile { whose, refusal }) = case.refused {
            refusals[whose as usize].insert(refusal.number);
        }
        assert!(names.insert(case.name.clone()), "{}", case.name);
    }
    let all = BTreeSet::from([2, 3, 4, 6, 8, 18]);
    assert_eq!(refusals, [all.clone(), all]);
}

/// The bytes of the request, by hand.
#[test]
fn rows_byte_by_byte() {
    let record = [8, 0, 32, 0, 0xE7, 0x0F, 0, 0, b'h', b'i'];
    let names = Names::parse(&record).unwrap();
    assert_eq!(names.find(4_071), Some(b"hi".as_slice()));
    assert_eq!(read(&[]), None);
    for size in 1..record.len() {
        assert_eq!(read(&record[..size]), Some(refused(3, 0)), "{size}");
    }
    let with = |at: usize, byte: u8| {
        let mut bytes = record;
        bytes[at] = byte;
        read(&bytes)
    };
    // One byte of the name is left over then, and is no length field.
    assert_eq!(with(0, 7), Some(refused(3, 9)));
    assert_eq!(with(0, 6), Some(refused(4, 0)));
    assert_eq!(with(0, 9), Some(refused(3, 0)));
    assert_eq!(with(0, 46), Some(refused(3, 0)));
    assert_eq!(with(0, 47), Some(refused(4, 0)));
    assert_eq!(with(1, 1), Some(refused(4, 0)));
    assert_eq!(with(2, 31), Some(refused(6, 0)));
    assert_eq!(with(3, 1), Some(refused(6, 0)));
    for at in 4..8 {
        assert_eq!(with(at, 255), None, "{at}");
    }
    for byte in 0..=255 {
        let expected = (!(32..=126).contains(&byte)).then(|| refused(8, 0));
        assert_eq!(with(8, byte), expected, "{byte}");
        assert_eq!(with(9, byte), expected, "{byte}");
    }
    assert_eq!(read(&[record, record].concat()), Some(refused(18, 10)));
}

#[test]
fn a_file_may_have_32_768_bytes_and_no_more() {
    let mut bytes = Vec::new();
    for key in 0..MAX_RECORDS as u32 {
        Loose::new(key, b"n").put(&mut bytes);
    }
    assert_eq!((bytes.len(), read(&bytes)), (32_760, None));
    // All that can be behind it is too short for a record.
    bytes.extend([7, 0, 32, 0, 0xFF, 0xFF, 0xFF, 0xFF]);
    assert_eq!(bytes.len(), MAX_BYTES);
    assert_eq!(read(&bytes), Some(refused(3, 32_760)));
    bytes.push(b'n');
    assert_eq!(read(&bytes), Some(refused(2, 32_768)));
    assert_eq!(read(&vec![0; 1_000_000]), Some(refused(2, 32_768)));
}

#[test]
fn the_answer_is_a_stretch_of_the_file_that_has_the_name() {
    let own = file_with(&[(1, "same"), (2, "two")]);
    let shared = file_with(&[(1, "same"), (3, "three")]);
    let is_at = |file: &[u8], at: usize, key: u32| {
        let (name, told) = name_of(&own, &shared, key);
        assert_eq!(told, Ok(()));
        std::ptr::eq(name, &file[at..at + name.len()])
    };
    assert!(is_at(&own, 8, 1));
    assert!(is_at(&own, 20, 2));
    assert!(is_at(&shared, 20, 3));
    assert_eq!(name_of(&own, &shared, 0), (&b""[..], Ok(())));
    assert_eq!(name_of(&own, &shared, 4), (&b""[..], Ok(())));
    assert_eq!(name_of(&[], &[], 4), (&b""[..], Ok(())));
}

#[test]
fn a_refusal_of_either_file_leaves_no_key_a_name() {
    let lawful = file_with(&[(1, "one")]);
    let told = |whose, number, place| {
        let refusal = refused(number, place);
        Err(RefusedFile { whose, refusal })
    };
    let name = |own, shared| name_of(own, shared, 1);
    let empty = b"".as_slice();
    assert_eq!(name(&lawful, &[7]), (empty, told(Whose::Shared, 3, 0)));
    assert_eq!(name(&[7], &lawful), (empty, told(Whose::Own, 3, 0)));
    let twice = [lawful.clone(), lawful.clone()].concat();
    assert_eq!(name(&twice, &[7]), (empty, told(Whose::Own, 18, 11)));
}

/// As many as there are, by looking at every record.
#[test]
fn every_key_of_a_random_file_has_its_name_and_no_other_has_one() {
    for stream in 0..150 {
        let drawn = Drawn::new(&mut Random::new(51, stream));
        let Ok(both) = BothNames::parse(&drawn.own, &drawn.shared) else {
            continue;
        };
        let mut names: BTreeMap<u32, (Whose, &[u8])> = BTreeMap::new();
        for entry in both.shared.entries() {
            names.insert(entry.key, (Whose::Shared, entry.name));
        }
        for entry in both.own.entries() {
            names.insert(entry.key, (Whose::Own, entry.name));
        }
        let keys = names
            .keys()
            .flat_map(|&key| [key, key ^ 1, key.swap_bytes(), !key]);
        for key in keys.chain([0, u32::MAX]) {
            assert_eq!(
                both.find(key),
                names.get(&key).copied(),
                "{key} of {stream}"
            );
        }
    }
}

#[test]
fn random_pairs_have_all_that_they_are_to_have() {
    let mut counts: BTreeMap<String, usize> = BTreeMap::new();
    let mut count = |what: String| *counts.entry(what).or_default() += 1;
    for stream in 0..600 {
        let drawn = Drawn::new(&mut Random::new(52, stream));
        for damage in drawn.damages {
            count(damage.describe().into());
        }
        let both = BothNames::parse(&drawn.own, &drawn.shared);
        match &both {
            Ok(_) => count("lawful".into()),
            Err(told) => count(format!("{:?} {}", told.whose, told.refusal.number)),
        }
        count(format!("{:?}", Edition::of(&drawn.trace)));
        let Ok(trace) = Trace::parse(&drawn.trace) else {
            count("refused".into());
            continue;
        };
        let verdicts = judge_all(&drawn.trace).unwrap();
        if verdicts.iter().all(|verdict| verdict.is_accepted()) {
            count("accepted".into());
        }
        let findings = verdicts[0].findings();
        let keys: BTreeSet<u32> = findings
            .iter()
            .map(|f| trace.operation(f.operation).key)
            .collect();
        if keys.len() == 1_024 {
            count("1,024 keys".into());
        }
        if let Ok(both) = both {
            let files = [&both.own, &both.shared];
            let is_full = |names: &&Names| names.entries().len() == MAX_RECORDS;
            if files.iter().any(|names| is_full(names)) {
                count("3,640 records".into());
            }
            for key in keys {
                let [own, shared] = files.map(|names| names.find(key).is_some());
                count(format!("own {own}, shared {shared}"));
                if [0, u32::MAX].contains(&key) {
                    count(format!("key {key}"));
                }
            }
        }
    }
    let refusals =
        ["Own", "Shared"].map(|whose| [2, 3, 4, 6, 8, 18].map(|n| format!("{whose} {n}")));
    let expected = Damage::ALL
        .map(|damage| damage.describe().to_string())
        .into_iter();
    let expected = expected.chain(refusals.into_iter().flatten()).chain(
        [
            "lawful",
            "One",
            "Two",
            "refused",
            "accepted",
            "1,024 keys",
            "3,640 records",
            "own true, shared true",
            "own true, shared false",
            "own false, shared true",
            "own false, shared false",
            "key 0",
            "key 4294967295",
        ]
        .map(String::from),
    );
    for what in expected {
        let count = counts.get(&what).copied().unwrap_or(0);
        assert!(count >= 6, "{what}: {count} in {counts:?}");
    }
}

/// Without lines `read` a trace says the same with names and without.
#[test]
fn only_the_ends_of_read_lines_are_new() {
    for stream in 0..200 {
        let drawn = Drawn::new(&mut Random::new(53, stream));
        let said = judge_named(&drawn.own, &drawn.shared, &drawn.trace).output;
        let plain = judge_text(&drawn.trace);
        assert_eq!(said.lines().count(), plain.lines().count(), "{stream}");
        for (named, bare) in said.lines().zip(plain.lines()) {
            match named.strip_prefix(bare) {
                Some("") => assert!(!bare.starts_with("read "), "{stream}: {named}"),
                Some(end) => {
                    assert!(bare.starts_with("read ") && end.starts_with(' '), "{named}");
                    assert!(end.len() > 1 && end.len() <= 41, "{stream}: {named}");
                }
                None => panic!("{stream}: {named} for {bare}"),
            }
        }
    }
}

/// What is wrong with these lines, in print.
fn error(lines: &[u8]) -> String {
    encode(lines).expect_err("an error").to_string()
}

#[test]
fn lines_make_the_bytes_of_a_file() {
    let bytes = [
        9, 0, 32, 0, 1, 0, 0, 0, b'a', b' ', b'b', 7, 0, 32, 0, 0xFF, 0xFF, 0xFF, 0xFF, b' ',
    ];
    assert_eq!(encode(b"1 a b\n4294967295  \n").as_deref(), Ok(&bytes[..]));
    // The last line needs no end.
    assert_eq!(encode(b"1 a b\n4294967295  ").as_deref(), Ok(&bytes[..]));
    assert_eq!(decode(&bytes).unwrap(), "1 a b\n4294967295  \n");
    assert_eq!(encode(b"").unwrap(), []);
    assert_eq!(decode(&[]).unwrap(), "");
    assert_eq!(decode(&bytes[..19]), Err(refused(3, 11)));
}

#[test]
fn lines_that_say_no_names_file_are_errors() {
    let long = format!("1 a\n2 {}", "n".repeat(41));
    for (lines, expected) in [
        ("\n", "line 1, column 1: no key"),
        ("1 a\n\n2 b\n", "line 2, column 1: no key"),
        (" 1 a", "line 1, column 1: no key"),
        ("name", "line 1, column 1: 'name' is no key"),
        ("-1 a", "line 1, column 1: '-1' is no key"),
        ("+1 a", "line 1, column 1: '+1' is no key"),
        ("1\ta", "line 1, column 1: '1\\ta' is no key"),
        (
            "1 a\n4294967296 b",
            "line 2, column 1: key 4294967296 is too large",
        ),
        (
            "99999999999999999999999 b",
            "line 1, column 1: key 99999999999999999999999 is too large",
        ),
        ("1", "line 1, column 2: key 1 has no name"),
        ("1 a\n12 \n", "line 2, column 4: key 12 has no name"),
        (
            &long,
            "line 2, column 3: the name of key 2 has 41 bytes, the most are 40",
        ),
        ("1 a\tb", "line 1, column 4: byte 9 in the name of key 1"),
        ("1 a\r\n", "line 1, column 4: byte 13 in the name of key 1"),
        (
            "1 \u{e9}",
            "line 1, column 3: byte 195 in the name of key 1",
        ),
        (
            "1 a\u{7f}",
            "line 1, column 4: byte 127 in the name of key 1",
        ),
        (
            "2 b\n1 a",
            "line 2, column 1: key 1 behind key 2: keys must ascend strictly",
        ),
        (
            "2 b\n2 b",
            "line 2, column 1: key 2 behind key 2: keys must ascend strictly",
        ),
    ] {
        let error = error(lines.as_bytes());
        assert!(error.starts_with(expected), "{lines:?}: {error}");
    }
}

#[test]
fn lines_of_too_long_a_file_are_an_error() {
    let lines = |count: usize| -> String { (0..count).map(|key| format!("{key} n\n")).collect() };
    let full = encode(lines(MAX_RECORDS).as_bytes()).unwrap();
    assert_eq!((full.len(), read(&full)), (32_760, None));
    let long = error(lines(MAX_RECORDS + 1).as_bytes());
    let expected = "line 3641, column 1: with this line the file has 32769 bytes";
    assert!(long.starts_with(expected), "{long}");
}

#[test]
fn random_files_come_back_from_their_lines() {
    let mut came_back = 0;
    for stream in 0..300 {
        let drawn = Drawn::new(&mut Random::new(54, stream));
        for file in [&drawn.own, &drawn.shared] {
            match decode(file) {
                Ok(lines) => {
                    assert_eq!(encode(lines.as_bytes()).as_ref(), Ok(file), "{stream}");
                    came_back += 1;
                }
                Err(refusal) => assert_eq!(Some(refusal), read(file), "{stream}"),
            }
        }
    }
    assert!(came_back > 300, "{came_back}");
}

const JUDGE: &str = env!("CARGO_BIN_EXE_rustjudge");
const NAMES_TEXT: &str = env!("CARGO_BIN_EXE_namestext");

/// Standard output and standard error of a run.
fn run(command: &str, arguments: &[&str], input: &[u8]) -> (Vec<u8>, String) {
    let Ended {
        output,
        error,
        failure,
    } = run_keeping_error(command, arguments, input).unwrap();
    assert_eq!(failure, None);
    (output, String::from_utf8(error).unwrap())
}

#[test]
fn a_run_of_the_tool_turns_lines_into_a_file_and_back() {
    let lines = b"0 zero\n1  one \n4294967295 the greatest\n";
    let (bytes, error) = run(NAMES_TEXT, &["encode"], lines);
    assert_eq!(
        (bytes.as_slice(), error.as_str()),
        (&encode(lines).unwrap()[..], "")
    );
    let (back, error) = run(NAMES_TEXT, &["decode"], &bytes);
    assert_eq!((back.as_slice(), error.as_str()), (&lines[..], ""));
    let (output, error) = run(NAMES_TEXT, &["decode"], &bytes[..bytes.len() - 1]);
    assert_eq!(
        (output.as_slice(), error.as_str()),
        (&b""[..], "refused 3 25\n")
    );
    let (output, error) = run(NAMES_TEXT, &["decode"], &[b'n'; 40_000]);
    assert_eq!(
        (output.as_slice(), error.as_str()),
        (&b""[..], "refused 2 32768\n")
    );
    let (output, error) = run(NAMES_TEXT, &["encode"], b"1 a\n1 b\n");
    assert_eq!(output, b"");
    assert!(
        error.starts_with("namestext: line 2, column 1: key 1"),
        "{error}"
    );
    let (output, error) = run(NAMES_TEXT, &["--help"], b"");
    assert!(output.starts_with(b"Usage:") && error.is_empty(), "{error}");
    let (output, error) = run(NAMES_TEXT, &[], b"");
    assert!(output.is_empty() && error.starts_with("Usage:"), "{error}");
}

/// Files by these names in a directory of their own.
fn directory(files: &[(&str, &[u8])]) -> Directory {
    let directory = Directory::new().unwrap();
    for (name, bytes) in files {
        directory.write(name, bytes).unwrap();
    }
    directory
}

#[test]
fn a_run_of_the_judge_ends_its_lines_in_names() {
    let (own, shared) = (
        file_with(&[(1, "own one")]),
        file_with(&[(2, "shared two")]),
    );
    let files = directory(&[("own", &own), ("shared", &shared), ("cut", &own[..9])]);
    let path = |name: &str| files.path_of(name).to_str().unwrap().to_string();
    let trace = text::encode(b"T1 r1=5 r2=6 r3=7").unwrap();
    let judged = |names: [&str; 2]| {
        let [one, other] = names.map(path);
        let (output, error) = run(JUDGE, &[&one, &other], &trace);
        (String::from_utf8(output).unwrap(), error)
    };
    let block = |ends: [&str; 3]| {
        let [one, two, three] = ends;
        let lines = format!("read 1 1 1 0 {one}\nread 1 2 1 0 {two}\nread 1 3 1 0 {three}\n");
        ["rc", "ra", "tcc"]
            .map(|level| format!("{level} rejected 3 0\n{lines}"))
            .concat()
    };
    let named = block(["own one", "shared two", "3"]);
    assert_eq!(judged(["own", "shared"]), (named.clone(), String::new()));
    assert_eq!(judged(["shared", "own"]), (named, String::new()));
    let numbers = block(["1", "2", "3"]);
    let told = |number: &str, name: &str| format!("names refused {number} {}\n", path(name));
    assert_eq!(
        judged(["own", "cut"]),
        (numbers.clone(), told("3 0", "cut"))
    );
    assert_eq!(judged(["cut", "cut"]), (numbers, told("3 0", "cut")));
    // A trace that is refused, too.
    let (output, error) = run(JUDGE, &[&path("cut"), &path("own")], &[]);
    assert_eq!(output, b"refused 3 0\n");
    assert_eq!(error, told("3 0", "cut"));
}

#[test]
fn a_run_of_the_judge_without_two_files_judges_nothing() {
    let files = directory(&[("own", b""), ("shared", &[7])]);
    let path = |name: &str| files.path_of(name).to_str().unwrap().to_string();
    let (own, shared, missing, itself) = (path("own"), path("shared"), path("missing"), path(""));
    let trace = text::encode(b"T1 r1=5").unwrap();
    let silent = |arguments: &[&str]| {
        let (output, error) = run(JUDGE, arguments, &trace);
        assert_eq!(output, b"", "{arguments:?}");
        error
    };
    for arguments in [&[own.as_str()][..], &[&own, &shared, &own]] {
        assert!(silent(arguments).starts_with("usage: "), "{arguments:?}");
    }
    for path in [&missing, &itself] {
        assert!(silent(&[&own, path]).contains(path.as_str()));
        assert!(silent(&[path, &shared]).contains(path.as_str()));
    }
}

/// The story of the module whose update was withdrawn, with the names that stand beside it.
#[test]
fn the_examples_are_what_their_lines_say() {
    let example = |name: &str| {
        let examples = concat!(env!("CARGO_MANIFEST_DIR"), "/../docs/examples/");
        std::fs::read(format!("{examples}{name}")).unwrap()
    };
    let (own, shared) = (example("own.names"), example("shared.names"));
    assert!(decode(&own).is_ok() && decode(&shared).is_ok());
    let trace = b"T1 w1=11 w2=21; T2 w1=12 w2=22 aborted; T3 r1=12 r2=21";
    assert_eq!(example("withdrawn.trace"), text::encode(trace).unwrap());
    let both = BothNames::parse(&own, &shared).unwrap();
    // The host has a name of its own for one of the two keys.
    let [one, two] = [1, 2].map(|key| both.find(key).map(|(whose, _)| whose));
    assert_eq!((one, two), (Some(Whose::Own), Some(Whose::Shared)));
    assert!(both.shared.find(1).is_some());
}

fn extent(traces: usize) -> Extent {
    Extent {
        traces,
        seed: 8,
        threads: 2,
    }
}

#[test]
fn the_comparison_finds_no_difference_from_itself() {
    let (summary, difference) = naming::compare(JUDGE, &extent(60));
    assert!(difference.is_none(), "{summary}{difference:?}");
    assert!(
        summary.contains(" pairs of names files of seed 8, 60 of them random"),
        "{summary}"
    );
}

#[test]
fn the_comparison_finds_programs_that_answer_otherwise() {
    for command in [
        "/bin/cat",
        "/bin/true",
        "/bin/echo",
        "/no/such/program",
        &format!("{JUDGE} --stream"),
        &format!("{JUDGE} --lists"),
    ] {
        let (_, difference) = naming::compare(command, &extent(0));
        let difference = difference.expect(command);
        // The two files are kept beside the trace.
        let kept: Vec<&str> = difference
            .beside
            .iter()
            .map(|(file, _)| file.as_str())
            .collect();
        assert_eq!(kept, ["own.names", "shared.names"], "{command}");
    }
}

/// Nothing that is not in one of the records matters for its answer.
#[test]
fn a_file_of_many_records_is_the_file_of_each() {
    let mut random = Random::new(55, 0);
    let keys: BTreeSet<u32> = (0..500).map(|_| random.draw() as u32).collect();
    let records: Vec<Loose> = keys
        .iter()
        .map(|&key| Loose::new(key, key.to_string().as_bytes()))
        .collect();
    let bytes = file_of(&records);
    let names = Names::parse(&bytes).unwrap();
    for record in &records {
        let alone = file_of(std::slice::from_ref(record));
        let alone = Names::parse(&alone).unwrap();
        assert_eq!(names.find(record.key), alone.find(record.key));
    }
}
