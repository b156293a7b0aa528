//! Notes are counted by the move to edition 2, and have no part in anything else:
//! their number, and traces that differ in their notes only.

use ferozhak_compare::encode::Writer;
use ferozhak_compare::moving::{self, to_edition_1, to_edition_2};
use ferozhak_compare::process::{self, behind_length};
use ferozhak_compare::random::Random;
use ferozhak_compare::report::Level;
use ferozhak_compare::scribes::{self, Item, Program, Reply, Way};
use ferozhak_compare::trace::{self, Edition, Record, Refusal, Trace, MAX_BYTES, MAX_NOTE};
use ferozhak_compare::writing::{first_serial, rewrite, steps_of};
use ferozhak_compare::{cases, generate, judge_one, judge_text, note_cases, notes, text};
use std::collections::{BTreeMap, BTreeSet};
use std::ops::Range;
use std::path::PathBuf;

const AMPLE: usize = 65_535;

fn encode(notation: &str) -> Vec<u8> {
    text::encode(notation.as_bytes()).unwrap()
}

/// Known traces and random ones, with their names.
fn traces(seed: u64, count: u64) -> impl Iterator<Item = (String, Vec<u8>)> {
    let known = cases::all().into_iter();
    let known = known.map(|case| (case.name.to_string(), case.bytes));
    let random = (0..count).map(move |stream| {
        let (_, bytes) = generate::any(&mut Random::new(seed, stream));
        (stream.to_string(), bytes)
    });
    known.chain(random)
}

fn is_note(record: &Record) -> bool {
    record.kind == trace::NOTE
}

/// The number of notes by looking for them.
fn count(bytes: &[u8]) -> usize {
    trace::records(bytes).filter(is_note).count()
}

#[test]
fn every_case_gives_its_number_and_its_verdict() {
    let mut numbers = BTreeSet::new();
    for known in note_cases::all() {
        let name = known.case.name;
        assert_eq!(judge_text(&known.case.bytes), known.case.output, "{name}");
        let moved = to_edition_2(&known.case.bytes, AMPLE);
        assert_eq!(moved, known.moved, "{name}");
        numbers.extend(moved.map(|(_, notes)| notes));
    }
    for number in [0, 1, 2, 255, 256, 257, 1_233, 4_094] {
        assert!(numbers.contains(&number), "{number}");
    }
    assert_eq!(numbers.last(), Some(&4_094));
}

/// By their names the known answers are found.
#[test]
fn the_names_of_known_traces_are_different() {
    let mut names = BTreeSet::new();
    for case in cases::all() {
        assert!(names.insert(case.name), "{}", case.name);
    }
    let mut noted = note_cases::all().into_iter();
    assert!(noted.all(|known| names.contains(known.case.name)));
}

#[test]
fn the_most_notes_that_fit_are_4094() {
    let with = |notes: usize| {
        let mut writer = Writer::new(0);
        for _ in 0..notes {
            writer.note(b"");
        }
        writer.end()
    };
    let most = (MAX_BYTES - 10) / 8;
    assert_eq!(most, 4_094);
    assert_eq!(with(most).len(), 32_762);
    let moved = to_edition_2(&with(most), AMPLE);
    assert_eq!(moved, Ok((encode("edition 2"), 4_094)));
    assert_eq!(to_edition_2(&with(most + 1), AMPLE).unwrap_err().number, 2);
}

#[test]
fn a_buffer_too_short_has_no_number() {
    let noted = encode("note \"a\"; T1 s1 note \"b\" w1=5; note \"c\"");
    let moved = encode("edition 2; T1 s1 w1=5");
    let needed = moved.len();
    for room in [0, needed - 1] {
        let reply = Way::ToEdition2.answer(&noted, room);
        let short = Refusal {
            number: 16,
            place: needed,
        };
        assert_eq!(reply.written, Err(short));
        assert_eq!(reply.notes, Some(0));
    }
    for room in [needed, AMPLE] {
        let reply = Way::ToEdition2.answer(&noted, room);
        assert_eq!(reply.written.as_ref(), Ok(&moved));
        assert_eq!(reply.notes, Some(3));
    }
    // No other way tells.
    for way in Way::ALL {
        let tells = way.answer(&noted, AMPLE).notes.is_some();
        assert_eq!(tells, way == Way::ToEdition2, "{way:?}");
    }
}

#[test]
fn the_number_has_a_form_in_each_program() {
    let refusal = Refusal {
        number: 3,
        place: 7,
    };
    let of = Reply::to_edition_2;
    for (reply, in_scribe, on_standard_error) in [
        (of(Ok((vec![9], 0))), &b"\x01\0\x09\0\0"[..], "notes 0\n"),
        (
            of(Ok((vec![9], 4_094))),
            b"\x01\0\x09\xfe\x0f",
            "notes 4094\n",
        ),
        (of(Err(refusal)), b"\x0c\0refused 3 7\n\0\0", ""),
        (Reply::of_writing(Ok(vec![9])), b"\x01\0\x09", ""),
        (Reply::of_writing(Err(refusal)), b"\x0c\0refused 3 7\n", ""),
    ] {
        assert_eq!(reply.in_scribe(), in_scribe);
        assert_eq!(reply.on_standard_error(), on_standard_error.as_bytes());
    }
}

#[test]
fn the_number_is_that_of_the_records_left_out() {
    let (mut noted, mut above_255, mut of_edition_2) = (0, 0, 0);
    for (name, bytes) in traces(31, 4_000) {
        let Ok(trace) = Trace::parse(&bytes) else {
            assert!(to_edition_2(&bytes, AMPLE).is_err(), "{name}");
            continue;
        };
        let (moved, notes) = to_edition_2(&bytes, AMPLE).unwrap();
        assert_eq!(usize::from(notes), count(&bytes), "{name}");
        let check = |notes| moving::check_notes(&bytes, &trace, &moved, notes);
        assert_eq!(check(notes), Ok(()), "{name}");
        assert!(check(notes + 1).is_err(), "{name}");
        assert!(notes == 0 || check(notes - 1).is_err(), "{name}");
        // What is moved has none left, and so has what was of this edition.
        assert_eq!(to_edition_2(&moved, AMPLE), Ok((moved.clone(), 0)));
        noted += usize::from(notes > 0);
        above_255 += usize::from(notes > 255);
        if trace.edition == Edition::Two {
            assert_eq!((moved, notes), (bytes, 0), "{name}");
            of_edition_2 += 1;
        }
    }
    assert!(noted > 400 && above_255 > 20, "{noted} {above_255}");
    assert!(of_edition_2 > 1_000, "{of_edition_2}");
}

/// The texts that stand in these places.
fn show(bytes: &[u8], texts: &[Range<usize>]) -> Vec<String> {
    let text = |place: &Range<usize>| bytes[place.clone()].escape_ascii().to_string();
    texts.iter().map(text).collect()
}

#[test]
fn texts_are_found_as_far_as_a_reader_comes() {
    let found = |bytes: &[u8]| {
        let refusal = Trace::parse(bytes).err();
        let texts = notes::texts(bytes, refusal.as_ref());
        let at_note = refusal.is_some_and(|refusal| notes::is_refused_note(bytes, &refusal));
        (show(bytes, &texts), at_note)
    };
    let long = "n".repeat(MAX_NOTE + 1);
    let noted = encode("note \"a\"; T1 note \"\" note \"bc\"; note \"d\"");
    assert_eq!(
        found(&noted),
        (vec!["a".into(), "bc".into(), "d".into()], false)
    );
    // A cut note still has a text, if its kind and something of it is left.
    let cut = |bytes: usize| noted[..noted.len() - 10 - bytes].to_vec();
    assert_eq!(found(&cut(0)).0, ["a", "bc", "d"]);
    assert_eq!(found(&cut(1)).0, ["a", "bc"]);
    let secret = encode("note \"secret\"");
    assert_eq!(found(&secret[..12]), (vec!["secr".into()], true));
    assert_eq!(found(&secret[..8]), (vec![], false));
    // What the refusal comes before is not reached.
    for (notation, texts, at_note) in [
        (
            format!("note \"a\"; note \"{long}\"; note \"b\""),
            vec!["a", &long],
            true,
        ),
        (
            "note \"a\"; T1 status 3; note \"b\"".into(),
            vec!["a"],
            false,
        ),
        ("note \"a\"; T1 s1; end 2".into(), vec!["a"], false),
        (
            "edition 2; T1; note \"a\"; note \"b\"".into(),
            vec!["a"],
            true,
        ),
        ("edition 3; note \"a\"".into(), vec![], false),
        ("edition 2; T1".into(), vec![], false),
    ] {
        let texts = texts.into_iter().map(String::from).collect();
        assert_eq!(found(&encode(&notation)), (texts, at_note), "{notation}");
    }
    // Behind the end there are no records.
    let tail = [encode("note \"a\""), encode("note \"b\"")].concat();
    assert_eq!(found(&tail), (vec!["a".into()], false));
}

/// The trace with other texts, if it has any that a reader comes to.
fn with_other_texts(bytes: &[u8], seed: u64) -> Option<Vec<u8>> {
    let bytes = process::kept(bytes);
    let texts = notes::texts(bytes, Trace::parse(bytes).err().as_ref());
    let mut random = Random::new(seed, 0);
    (!texts.is_empty()).then(|| notes::with_other_texts(&mut random, bytes, &texts))
}

#[test]
fn other_texts_are_other_and_nothing_else_is() {
    let mut changed = 0;
    for (name, bytes) in traces(32, 2_000) {
        let Some(other) = with_other_texts(&bytes, 1) else {
            continue;
        };
        let bytes = process::kept(&bytes);
        assert_eq!(other.len(), bytes.len(), "{name}");
        let texts = notes::texts(bytes, Trace::parse(bytes).err().as_ref());
        let mut left = (other.clone(), bytes.to_vec());
        for text in texts {
            assert_ne!(other[text.clone()], bytes[text.clone()], "{name}");
            left.0[text.clone()].fill(0);
            left.1[text].fill(0);
        }
        assert_eq!(left.0, left.1, "{name}");
        changed += 1;
    }
    assert!(changed > 300, "{changed}");
}

/// Everything that is answered of both traces is the same.
fn are_alike(name: &str, one: &[u8], other: &[u8]) {
    let both = [one, other];
    let is_same = |what: &str, same: bool| assert!(same, "{name}: another {what}");
    for level in Level::ALL {
        let [a, b] = both.map(|bytes| judge_one(bytes, level));
        is_same("verdict", a == b);
    }
    let [a, b] = both.map(judge_text);
    is_same("text", a == b);
    for room in [0, 40, AMPLE] {
        let [a, b] = both.map(|bytes| to_edition_2(bytes, room));
        is_same("move or number", a == b);
        let [a, b] = both.map(|bytes| (steps_of(bytes, room), rewrite(bytes, room)));
        is_same("rewriting", a == b);
    }
    // A copy has its own texts, but is refused alike.
    let [a, b] = both.map(|bytes| to_edition_1(bytes, AMPLE).err());
    is_same("refusal", a == b);
}

#[test]
fn nothing_hangs_on_the_text_of_a_note() {
    let mut read = 0;
    let (mut refused, mut at_note) = ([0; Refusal::NUMBERS], [0; Refusal::NUMBERS]);
    for (name, bytes) in traces(33, 6_000) {
        let Some(other) = with_other_texts(&bytes, 2) else {
            continue;
        };
        let bytes = process::kept(&bytes);
        are_alike(&name, bytes, &other);
        match Trace::parse(bytes) {
            Ok(_) => read += 1,
            Err(refusal) => {
                let number = usize::from(refusal.number);
                refused[number] += 1;
                at_note[number] += usize::from(notes::is_refused_note(bytes, &refusal));
            }
        }
    }
    assert!(read > 600, "{read}");
    assert!(
        refused[2..=11].iter().all(|&count| count > 0),
        "{refused:?}"
    );
    // The numbers that a note can be refused with.
    assert!(at_note[3..=6].iter().all(|&count| count > 2), "{at_note:?}");
    assert_eq!(at_note.iter().sum::<usize>(), at_note[3..=6].iter().sum());
}

#[test]
fn nothing_hangs_on_any_byte_of_a_text() {
    let text = |size: usize| "p".repeat(size);
    for notation in [
        "note \"pw\"; T1 w1=5 note \"pw\"; T2 r1=0; T3 r1=5".into(),
        "T1 note \"pw\" r1=5 note \"pw\"".into(),
        format!("note \"{}\"; T1", text(MAX_NOTE)),
        // Refused at the note, or behind it.
        format!("note \"{}\"; T1", text(MAX_NOTE + 1)),
        "note \"pw\"; T1 w1=0".into(),
        "note \"pw\"; T1 w1=5; end 2".into(),
        "edition 2; T1 s1; note \"pw\"".into(),
    ] {
        let bytes = encode(&notation);
        let texts = notes::texts(&bytes, Trace::parse(&bytes).err().as_ref());
        assert!(!texts.is_empty());
        for at in texts.into_iter().flatten() {
            let mut other = bytes.clone();
            for byte in 0..=255 {
                other[at] = byte;
                are_alike(&notation, &bytes, &other);
            }
        }
    }
}

#[test]
fn without_notes_the_verdicts_are_the_same() {
    let (mut accepted, mut rejected, mut findings) = (0, 0, 0);
    for (name, bytes) in traces(34, 6_000) {
        let Ok(trace) = Trace::parse(&bytes) else {
            continue;
        };
        let notes = count(&bytes);
        if notes == 0 {
            continue;
        }
        let text = judge_text(&bytes);
        let (moved, number) = to_edition_2(&bytes, AMPLE).unwrap();
        assert_eq!(usize::from(number), notes, "{name}");
        for serial in [first_serial(&bytes), 0, 1, u32::MAX, u32::MAX - 3] {
            let without = notes::left_out(&bytes, serial);
            assert_eq!(count(&without), 0, "{name}");
            let read = Trace::parse(&without).unwrap();
            assert_eq!(read.transactions, trace.transactions, "{name}");
            assert_eq!(read.operations, trace.operations, "{name}");
            assert_eq!(first_serial(&without), serial, "{name}");
            assert_eq!(judge_text(&without), text, "{name}");
            let renumbered = notes::left_out(&moved, serial);
            assert_eq!(to_edition_2(&without, AMPLE), Ok((renumbered, 0)), "{name}");
        }
        let own = notes::left_out(&bytes, first_serial(&bytes));
        assert_eq!(to_edition_2(&own, AMPLE), Ok((moved, 0)), "{name}");
        accepted += usize::from(text.contains("tcc accepted"));
        rejected += usize::from(text.contains("rc rejected"));
        findings += usize::from(text.contains("\nread "));
    }
    assert!(accepted > 300 && rejected > 200, "{accepted} {rejected}");
    assert!(findings > 100, "{findings}");
}

/// What the notes of a trace that is read are like.
fn describe(bytes: &[u8]) -> BTreeSet<&'static str> {
    let mut found = BTreeSet::new();
    let records: Vec<Record> = trace::records(bytes).collect();
    let mut inside = false;
    for (at, record) in records.iter().enumerate() {
        inside = match record.kind {
            trace::OPEN => true,
            trace::CLOSE => false,
            _ => inside,
        };
        if !is_note(record) {
            continue;
        }
        let (before, behind) = (records.get(at.wrapping_sub(1)), &records[at + 1]);
        let follows = |kind| before.is_some_and(|before| before.kind == kind);
        for (holds, words) in [
            (before.is_none(), "first"),
            (behind.kind == trace::END, "before the end"),
            (inside, "inside"),
            (!inside, "outside"),
            (follows(trace::OPEN), "behind an open"),
            (follows(trace::CLOSE), "behind a close"),
            (follows(trace::NOTE) && inside, "two in a row, inside"),
            (follows(trace::NOTE) && !inside, "two in a row, outside"),
            (
                follows(trace::OPEN) && behind.kind == trace::CLOSE,
                "alone in a transaction",
            ),
            (record.payload.is_empty(), "of 0 bytes"),
            (record.payload.len() == MAX_NOTE, "of 64 bytes"),
            (record.serial == u32::MAX, "the last serial"),
        ] {
            found.extend(holds.then_some(words));
        }
    }
    let notes = count(bytes);
    for (holds, words) in [
        (notes == 1, "one"),
        (notes == 2, "two"),
        (notes == 255 || notes == 256, "255 or 256"),
        (notes > 256, "more than 256"),
        (
            notes > 0 && bytes.len() + 8 > MAX_BYTES,
            "no room for another",
        ),
    ] {
        found.extend(holds.then_some(words));
    }
    found
}

#[test]
fn random_traces_have_notes_in_every_way() {
    let mut found: BTreeMap<&str, usize> = BTreeMap::new();
    let mut of_edition_2 = 0;
    for stream in 0..8_000 {
        let (_, bytes) = generate::any(&mut Random::new(35, stream));
        match Trace::parse(&bytes) {
            Ok(_) => {
                for words in describe(&bytes) {
                    *found.entry(words).or_default() += 1;
                }
            }
            Err(refusal) => {
                let is_stray = refusal.number == 6 && Edition::of(&bytes) == Edition::Two;
                let stray = trace::records(&bytes[refusal.place.min(bytes.len())..]).next();
                of_edition_2 += usize::from(is_stray && stray.is_some_and(|r| is_note(&r)));
            }
        }
    }
    assert_eq!(found.len(), 17, "{found:#?}");
    for (words, count) in &found {
        assert!(*count >= 10, "{words}: {count}");
    }
    assert!(of_edition_2 >= 100, "{of_edition_2}");
}

const SCRIBE: &str = env!("CARGO_BIN_EXE_rustscribe");

#[test]
fn a_run_of_each_program_tells_the_number() {
    let noted = encode("note \"a\"; T1 s1 note \"b\" w1=5");
    let long = encode(&format!("note \"a\"; note \"{}\"", "n".repeat(65)));
    let moved = encode("edition 2; T1 s1 w1=5");
    let run = |input: &[u8]| {
        let ended = process::run_keeping_error(&format!("{SCRIBE} --to-2"), &[], input).unwrap();
        assert_eq!(ended.failure, None);
        (ended.output, ended.error)
    };
    assert_eq!(run(&noted), (moved.clone(), b"notes 2\n".to_vec()));
    assert_eq!(run(&moved), (moved.clone(), b"notes 0\n".to_vec()));
    assert_eq!(run(&long), (b"refused 4 9\n".to_vec(), vec![]));
    let item = |letter: u8, room: u8, bytes: &[u8]| {
        [&[letter, room, 0], behind_length(bytes).as_slice()].concat()
    };
    let input = [
        item(b'2', 200, &noted),
        item(b'2', 20, &noted),
        item(b'1', 200, &noted),
        item(b'r', 20, &noted),
        item(b'2', 200, &long),
    ];
    let output = [
        behind_length(&moved),
        b"\x02\0".to_vec(),
        behind_length(b"refused 16 63\n"),
        b"\0\0".to_vec(),
        behind_length(&noted),
        behind_length(b"refused 16 49\n"),
        behind_length(b"refused 4 9\n"),
        b"\0\0".to_vec(),
    ];
    assert_eq!(
        process::run_once(SCRIBE, &input.concat()),
        Ok(output.concat())
    );
}

/// The command of a program that runs these lines, which are its own.
fn script(name: &str, lines: &str) -> String {
    let path = PathBuf::from(env!("CARGO_TARGET_TMPDIR")).join(name);
    std::fs::write(&path, lines).unwrap();
    format!("/bin/sh {}", path.display())
}

fn items() -> Vec<Item> {
    let item = |way, notation: &str| Item {
        name: notation.into(),
        way,
        room: 65_535,
        bytes: encode(notation),
    };
    vec![
        item(Way::ToEdition2, "note \"a\"; T1 s1; note \"b\""),
        item(Way::ToEdition1, "note \"a\"; T1 s1"),
        item(Way::ToEdition2, "T1 s1 w1=0"),
        item(Way::ToEdition2, "edition 2; T1 s1"),
    ]
}

/// Whether it is seen that the program `scribe` answers the items so.
fn is_found(name: &str, output: &[u8]) -> bool {
    let path = PathBuf::from(env!("CARGO_TARGET_TMPDIR")).join(format!("{name}-output"));
    std::fs::write(&path, output).unwrap();
    let lines = format!("cat > /dev/null; cat '{}'\n", path.display());
    let program = Program::Scribe(script(name, &lines));
    scribes::ask(&program, &items(), |_, _| {}).is_err()
}

#[test]
fn a_wrong_number_of_the_scribe_is_found() {
    let answers: Vec<Vec<u8>> = items()
        .iter()
        .map(|item| item.way.answer(&item.bytes, AMPLE).in_scribe())
        .collect();
    assert!(!is_found("scribe-right", &answers.concat()));
    for (name, at, number) in [
        ("scribe-one-more", 0, [3, 0]),
        ("scribe-high-byte", 0, [2, 1]),
        ("scribe-none", 0, [0, 0]),
        ("scribe-big-endian", 0, [0, 2]),
        ("scribe-refused", 2, [1, 0]),
        ("scribe-edition-2", 3, [1, 0]),
    ] {
        let mut answers = answers.clone();
        let size = answers[at].len();
        answers[at][size - 2..].copy_from_slice(&number);
        assert!(is_found(name, &answers.concat()), "{name}");
    }
    // Missing where it is due, and there where it is not.
    for (name, at, change) in [("scribe-less", 3, -2_isize), ("scribe-more", 1, 2)] {
        let mut answers = answers.clone();
        let size = answers[at].len().checked_add_signed(change).unwrap();
        answers[at].resize(size, 0);
        assert!(is_found(name, &answers.concat()), "{name}");
    }
    assert!(is_found(
        "scribe-tail",
        &[answers.concat(), vec![0]].concat()
    ));
}

#[test]
fn a_wrong_number_on_standard_error_is_found() {
    let moves = |name, line: &str| {
        let lines = line.replace("MOVE", &format!("'{SCRIBE}' --to-2"));
        let program = Program::Once(Way::ToEdition2, script(name, &(lines + "\n")));
        let mut items = items();
        items.retain(|item| item.way == Way::ToEdition2);
        scribes::ask(&program, &items, |_, _| {}).is_err()
    };
    assert!(!moves("to-2-right", "MOVE"));
    for (name, line) in [
        ("to-2-silent", "MOVE 2> /dev/null"),
        ("to-2-more", "MOVE; echo more >&2"),
        ("to-2-before", "echo before >&2; MOVE"),
        ("to-2-elsewhere", "MOVE 2>&1"),
        ("to-2-other", "MOVE 2> /dev/null; echo notes 0 >&2"),
    ] {
        assert!(moves(name, line), "{name}");
    }
}
