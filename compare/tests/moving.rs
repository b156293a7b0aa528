//! The mover: examples by hand, its refusals, what stays the same, and the
//! programs that compare it.

use ferozhak_compare::encode::Writer;
use ferozhak_compare::moves::{self, check_judged, Findings, Moved, Programs};
use ferozhak_compare::moving::{self, move_to};
use ferozhak_compare::random::Random;
use ferozhak_compare::scribes::{self, Program, Way};
use ferozhak_compare::trace::{self, Edition, Refusal, Trace};
use ferozhak_compare::workers::Extent;
use ferozhak_compare::writing::{first_serial, rewrite};
use ferozhak_compare::{cases, generate, judge_text, process, report, text, weave};

const AMPLE: usize = 65_535;

fn encode(notation: &str) -> Vec<u8> {
    text::encode(notation.as_bytes()).unwrap()
}

/// Bytes from hexadecimal digits; a record a line, bars between its fields.
fn hex(records: &[&str]) -> Vec<u8> {
    let bytes = records.iter().flat_map(|record| record.split([' ', '|']));
    bytes
        .filter(|byte| !byte.is_empty())
        .map(|byte| u8::from_str_radix(byte, 16).unwrap())
        .collect()
}

fn to_1(trace: &[u8]) -> Result<Vec<u8>, Refusal> {
    move_to(Edition::One, trace, AMPLE)
}

fn to_2(trace: &[u8]) -> Result<Vec<u8>, Refusal> {
    move_to(Edition::Two, trace, AMPLE)
}

/// The one moves to the other, either way.
fn move_both_ways(one: &[u8], two: &[u8]) {
    assert_eq!(to_2(one).as_deref(), Ok(two));
    assert_eq!(to_1(two).as_deref(), Ok(one));
    assert_eq!(to_1(one).as_deref(), Ok(one));
    assert_eq!(to_2(two).as_deref(), Ok(two));
}

#[test]
fn end_only() {
    let one = hex(&["08 00|05 00|09 00 00 00|00 00"]);
    let two = hex(&[
        "08 00|10 00|09 00 00 00|02 00",
        "08 00|05 00|0a 00 00 00|00 00",
    ]);
    move_both_ways(&one, &two);
}

#[test]
fn blocks_get_their_session_and_lose_it() {
    let one = hex(&[
        "08 00|01 00|04 03 02 01|02 01",
        "12 00|03 00|05 03 02 01|07 00 00 00|05 00 00 00 00 00 00 80",
        "07 00|04 00|06 03 02 01|02",
        "08 00|01 00|07 03 02 01|ff ff",
        "12 00|02 00|08 03 02 01|07 00 00 00|05 00 00 00 00 00 00 80",
        "07 00|04 00|09 03 02 01|01",
        "08 00|01 00|0a 03 02 01|02 01",
        "07 00|04 00|0b 03 02 01|00",
        "08 00|05 00|0c 03 02 01|03 00",
    ]);
    let two = hex(&[
        "08 00|10 00|04 03 02 01|02 00",
        "08 00|01 00|05 03 02 01|02 01",
        "14 00|03 00|06 03 02 01|02 01|07 00 00 00|05 00 00 00 00 00 00 80",
        "09 00|04 00|07 03 02 01|02 01|02",
        "08 00|01 00|08 03 02 01|ff ff",
        "14 00|02 00|09 03 02 01|ff ff|07 00 00 00|05 00 00 00 00 00 00 80",
        "09 00|04 00|0a 03 02 01|ff ff|01",
        "08 00|01 00|0b 03 02 01|02 01",
        "09 00|04 00|0c 03 02 01|02 01|00",
        "08 00|05 00|0d 03 02 01|03 00",
    ]);
    move_both_ways(&one, &two);
}

#[test]
fn notes_are_left_out_and_the_first_one_gives_its_serial() {
    // The serials wrap before the open, and after the move behind it.
    let one = hex(&[
        "08 00|06 00|fe ff ff ff|68 69",
        "06 00|06 00|ff ff ff ff",
        "08 00|01 00|00 00 00 00|05 00",
        "07 00|06 00|01 00 00 00|21",
        "12 00|02 00|02 00 00 00|01 00 00 00|00 00 00 00 00 00 00 00",
        "07 00|04 00|03 00 00 00|00",
        "07 00|06 00|04 00 00 00|21",
        "08 00|05 00|05 00 00 00|01 00",
    ]);
    let two = hex(&[
        "08 00|10 00|fe ff ff ff|02 00",
        "08 00|01 00|ff ff ff ff|05 00",
        "14 00|02 00|00 00 00 00|05 00|01 00 00 00|00 00 00 00 00 00 00 00",
        "09 00|04 00|01 00 00 00|05 00|00",
        "08 00|05 00|02 00 00 00|01 00",
    ]);
    let without = hex(&[
        "08 00|01 00|fe ff ff ff|05 00",
        "12 00|02 00|ff ff ff ff|01 00 00 00|00 00 00 00 00 00 00 00",
        "07 00|04 00|00 00 00 00|00",
        "08 00|05 00|01 00 00 00|01 00",
    ]);
    assert_eq!(to_2(&one).as_ref(), Ok(&two));
    move_both_ways(&without, &two);
    // Already in the wanted edition: notes stay.
    assert_eq!(to_1(&one).as_ref(), Ok(&one));
}

#[test]
fn transactions_become_blocks_in_order_of_opening() {
    // The second closes before the first, and the first to operate is the second.
    let two = hex(&[
        "08 00|10 00|fd ff ff ff|02 00",
        "08 00|01 00|fe ff ff ff|01 00",
        "08 00|01 00|ff ff ff ff|02 00",
        "14 00|03 00|00 00 00 00|02 00|09 00 00 00|04 00 00 00 00 00 00 00",
        "14 00|02 00|01 00 00 00|01 00|09 00 00 00|04 00 00 00 00 00 00 00",
        "14 00|02 00|02 00 00 00|02 00|09 00 00 00|03 00 00 00 00 00 00 00",
        "09 00|04 00|03 00 00 00|02 00|02",
        "08 00|01 00|04 00 00 00|02 00",
        "14 00|03 00|05 00 00 00|01 00|09 00 00 00|03 00 00 00 00 00 00 00",
        "09 00|04 00|06 00 00 00|02 00|01",
        "09 00|04 00|07 00 00 00|01 00|00",
        "08 00|05 00|08 00 00 00|03 00",
    ]);
    let one = hex(&[
        "08 00|01 00|fd ff ff ff|01 00",
        "12 00|02 00|fe ff ff ff|09 00 00 00|04 00 00 00 00 00 00 00",
        "12 00|03 00|ff ff ff ff|09 00 00 00|03 00 00 00 00 00 00 00",
        "07 00|04 00|00 00 00 00|00",
        "08 00|01 00|01 00 00 00|02 00",
        "12 00|03 00|02 00 00 00|09 00 00 00|04 00 00 00 00 00 00 00",
        "12 00|02 00|03 00 00 00|09 00 00 00|03 00 00 00 00 00 00 00",
        "07 00|04 00|04 00 00 00|02",
        "08 00|01 00|05 00 00 00|02 00",
        "07 00|04 00|06 00 00 00|01",
        "08 00|05 00|07 00 00 00|03 00",
    ]);
    assert_eq!(to_1(&two).as_ref(), Ok(&one));
    assert_eq!(to_2(&two).as_ref(), Ok(&two));
    let blocks = encode(
        "serial 4294967293; edition 2; T1 s1 r9=4 w9=3 aborted; T2 s2 w9=4 r9=3 unanswered; T3 s2",
    );
    move_both_ways(&one, &blocks);
}

#[test]
fn the_input_is_refused_before_the_buffer() {
    let one = encode("T1 w1=5 note \"\"; T2 r1=5");
    let two = encode("edition 2; T1 w1=5 ..; T2 r1=5; T1 ..");
    let too_long = vec![0; 32_769];
    for (trace, number, place) in [
        (too_long, 2, 32_768),
        (vec![], 3, 0),
        (one[..one.len() - 1].to_vec(), 3, one.len() - 10),
        (two[..two.len() - 10].to_vec(), 3, two.len() - 10),
        (vec![5, 0, 0, 0, 0, 0, 0], 4, 0),
        // The layout of the other edition.
        (
            hex(&[
                "08 00|10 00|00 00 00 00|02 00",
                "08 00|01 00|01 00 00 00|01 00",
                "07 00|04 00|02 00 00 00|01",
            ]),
            4,
            20,
        ),
        (
            hex(&[
                "08 00|01 00|00 00 00 00|01 00",
                "09 00|04 00|01 00 00 00|01 00|01",
            ]),
            4,
            10,
        ),
        (
            hex(&["06 00|06 00|ff ff ff ff", "08 00|05 00|01 00 00 00|00 00"]),
            5,
            8,
        ),
        (encode("edition 2; note \"\""), 6, 10),
        (encode("edition 2; T1 ..; T2; end 2"), 7, 41),
        (encode("T1 w1=0"), 8, 10),
        (encode("edition 3"), 8, 0),
        (encode("edition 2; T1 s1 status 3"), 8, 20),
        (encode("edition 2; T1 w1=5 ..; T2 w1=5; T1 .."), 10, 52),
        ([&one[..], &[0]].concat(), 11, one.len()),
        ([&two[..], &[0]].concat(), 11, two.len()),
    ] {
        for (wanted, room) in [
            (Edition::One, 0),
            (Edition::One, AMPLE),
            (Edition::Two, 0),
            (Edition::Two, AMPLE),
        ] {
            let refusal = Refusal { number, place };
            assert_eq!(move_to(wanted, &trace, room), Err(refusal), "{trace:?}");
        }
    }
}

#[test]
fn a_buffer_too_short_tells_the_bytes_needed() {
    let noted = "note \"abc\"; T1 w1=5; T2 r1=5 r1=5; T3";
    let overlapping = "edition 2; T1 w1=5 ..; T2 r1=5 ..; T1 .. r1=5; T2 ..; T3";
    let (moved_1, moved_2) = (10 + 19 * 3 + 20 * 3, 20 + 21 * 3 + 22 * 3);
    for (text, wanted, needed) in [
        ("", Edition::One, 10),
        ("", Edition::Two, 20),
        ("edition 2", Edition::One, 10),
        ("edition 2", Edition::Two, 20),
        ("T1", Edition::One, 29),
        ("T1", Edition::Two, 41),
        (noted, Edition::One, moved_1 + 11),
        (noted, Edition::Two, moved_2),
        (overlapping, Edition::One, moved_1),
        (overlapping, Edition::Two, moved_2),
    ] {
        let trace = encode(text);
        for room in [0, 1, needed - 1] {
            let short = Refusal {
                number: 16,
                place: needed,
            };
            assert_eq!(move_to(wanted, &trace, room), Err(short), "{text}");
        }
        for room in [needed, needed + 1] {
            assert_eq!(move_to(wanted, &trace, room).unwrap().len(), needed);
        }
    }
}

#[test]
fn the_limits_fit() {
    let mut writer = Writer::new(u32::MAX - 600);
    for transaction in 0..127_u16 {
        writer.open(transaction);
        let operations = if transaction == 0 { 16 } else { 8 };
        for value in 1..=operations {
            writer.write(transaction.into(), value);
        }
        writer.close(1);
    }
    let one = writer.end();
    assert_eq!(one.len(), 22_903);
    let two = to_2(&one).unwrap();
    assert_eq!(two.len(), 25_215);
    move_both_ways(&one, &two);
    // The longest trace there is stays what it is.
    let mut writer = Writer::new(0);
    for _ in 0..454 {
        writer.note(&[b'n'; 64]);
    }
    writer.note(&[b'n'; 62]);
    let long = writer.end();
    assert_eq!(long.len(), 32_768);
    assert_eq!(to_1(&long).as_ref(), Ok(&long));
    let short = move_to(Edition::One, &long, 32_767).unwrap_err();
    assert_eq!((short.number, short.place), (16, 32_768));
    assert_eq!(to_2(&long), Ok(encode("edition 2")));
}

/// A trace and what it is moved to, read.
fn read(bytes: &[u8], moved: Vec<u8>) -> Moved {
    Moved {
        before: Trace::parse(bytes).unwrap(),
        after: Trace::parse(&moved).unwrap(),
        bytes: moved,
    }
}

/// Known traces and random ones that are read, with their names.
fn traces() -> impl Iterator<Item = (String, Vec<u8>, Trace)> {
    let known = cases::all();
    let known = known
        .into_iter()
        .map(|case| (case.name.to_string(), case.bytes));
    let random = (0..4_000).map(|stream| {
        let (_, bytes) = generate::any(&mut Random::new(9, stream));
        (stream.to_string(), bytes)
    });
    known.chain(random).filter_map(|(name, bytes)| {
        let trace = Trace::parse(&bytes).ok()?;
        Some((name, bytes, trace))
    })
}

#[test]
fn what_is_moved_is_as_it_has_to_be() {
    let (mut noted, mut came_back, mut overlapping, mut reordered) = (0, 0, 0, 0);
    for (name, bytes, trace) in traces() {
        let own = move_to(trace.edition, &bytes, AMPLE);
        assert_eq!(own.as_ref(), Ok(&bytes), "{name}");
        let wanted = moving::other(trace.edition);
        let moved = match move_to(wanted, &bytes, AMPLE) {
            Ok(moved) => moved,
            Err(refusal) => {
                moving::check_stayed(wanted, &bytes, &trace, &refusal).unwrap();
                continue;
            }
        };
        assert_eq!(first_serial(&moved), first_serial(&bytes), "{name}");
        moving::check(wanted, &bytes, &trace, &moved).unwrap();
        if trace.edition == Edition::One {
            // Going back gives what writing it again gives.
            assert_eq!(to_1(&moved), rewrite(&bytes, AMPLE), "{name}");
            match trace::has_notes(&bytes) {
                true => noted += 1,
                false => came_back += 1,
            }
        }
        overlapping += usize::from(weave::most_open(&bytes) > 1);
        let [before, after] = [&bytes, &moved].map(|bytes| judge_text(bytes));
        let findings = check_judged(&read(&bytes, moved), &before, &after);
        let findings = findings.unwrap_or_else(|message| panic!("{name}: {message}"));
        reordered += usize::from(findings == Findings::Reordered);
    }
    assert!(noted > 200 && came_back > 500, "{noted} {came_back}");
    assert!(
        overlapping > 800 && reordered > 30,
        "{overlapping} {reordered}"
    );
}

#[test]
fn the_check_finds_what_is_moved_otherwise() {
    let one = encode("serial 7; T1 s1 w1=5 note \"a\"; T2 s2 r1=5");
    let two = encode("serial 7; edition 2; T1 s1 w1=5 ..; T2 s2 r1=5; T1 ..");
    for (bytes, wanted, moved, message) in [
        (
            &one,
            Edition::Two,
            "serial 8; edition 2; T1 s1 w1=5; T2 s2 r1=5",
            "moved with other serials",
        ),
        (
            &one,
            Edition::Two,
            "serial 7; edition 2; T1 s1 w1=5; T2 s2 r1=5 aborted",
            "moved with other transactions",
        ),
        (
            &one,
            Edition::Two,
            "serial 7; edition 2; T1 s1 w1=5 ..; T2 s2 r1=5; T1 ..",
            "not blocks in order of opening",
        ),
        (
            &one,
            Edition::Two,
            "serial 7; T1 s1 w1=5; T2 s2 r1=5",
            "moved to another edition",
        ),
        (
            &one,
            Edition::One,
            "serial 7; T1 s1 w1=5; T2 s2 r1=5",
            "already in this edition, but changed",
        ),
        (
            &two,
            Edition::One,
            "serial 7; T1 s2 r1=5; T2 s1 w1=5",
            "moved with other transactions",
        ),
        (
            &two,
            Edition::One,
            "serial 7; note \"\"; T1 s1 w1=5; T2 s2 r1=5",
            "moved with a note",
        ),
    ] {
        let trace = Trace::parse(bytes).unwrap();
        let found = moving::check(wanted, bytes, &trace, &encode(moved));
        assert_eq!(found.err().as_deref(), Some(message), "{moved}");
    }
}

/// Unclean reads of which two change places, with the writes of two of them.
fn renumbered() -> (Moved, String, String) {
    let bytes = encode("edition 2; T1 ..; T2 r1=8 w1=8 ..; T1 .. r1=9 w1=5; T2 .. r1=5");
    let moved = to_1(&bytes).unwrap();
    let [before, after] = [&bytes, &moved].map(|bytes| judge_text(bytes));
    (read(&bytes, moved), before, after)
}

#[test]
fn findings_get_the_new_numbers_and_their_order() {
    let (moved, before, after) = renumbered();
    let said =
        |text: &str, findings: &str| text.starts_with(&format!("rc rejected 3 0\n{findings}\nra "));
    assert!(said(&before, "read 2 1 3 2\nread 1 3 1 0\nread 2 5 5 4"));
    assert!(said(&after, "read 1 1 1 0\nread 2 3 3 4\nread 2 5 5 2"));
    assert_eq!(
        check_judged(&moved, &before, &after),
        Ok(Findings::Reordered)
    );
}

#[test]
fn other_findings_than_the_renumbered_are_found() {
    let (moved, before, after) = renumbered();
    for (from, to) in [
        ("read 2 3 3 4", "read 2 3 3 2"),
        ("read 2 5 5 2", "read 2 5 5 4"),
        ("read 2 3 3 4", "read 2 3 3 0"),
        ("read 2 3 3 4", "read 2 3 2 4"),
        ("read 2 3 3 4", "read 2 4 3 4"),
        ("read 2 3 3 4", "read 2 3000 3 4"),
        ("read 1 1 1 0", "read 2 1 1 0"),
        ("read 1 1 1 0\nread 2 3 3 4", "read 2 3 3 4\nread 1 1 1 0"),
        ("rejected 3 0\nread 1 1 1 0", "rejected 2 0"),
        ("rejected 3 0\n", "rejected 3 1\n"),
        ("read 2 5 5 2\nra", "read 2 5 5 2\npair 1 2 4\nra"),
        ("rc", "ra"),
    ] {
        let otherwise = after.replacen(from, to, 1);
        assert_ne!(otherwise, after, "{from}");
        assert!(check_judged(&moved, &before, &otherwise).is_err(), "{to}");
    }
    assert!(check_judged(&moved, &before, &before).is_err());
    assert!(check_judged(&moved, &before, "refused 3 0\n").is_err());
    assert!(check_judged(&moved, &before, "").is_err());
}

#[test]
fn other_verdicts_orders_and_pairs_are_found() {
    let bytes = encode("edition 2; T1 w1=5 ..; T2 w1=6 ..; T1 ..; T3 r1=5 r1=6; T2 ..");
    let moved = to_1(&bytes).unwrap();
    let text = judge_text(&bytes);
    let p10 = "rc accepted 0 1 2 3\nra rejected 0 2\npair 1 2 8\npair 2 1 8\n";
    assert!(text.starts_with(p10));
    let moved = read(&bytes, moved);
    assert_eq!(check_judged(&moved, &text, &text), Ok(Findings::None));
    for (from, to) in [
        ("0 1 2 3", "0 2 1 3"),
        ("rejected 0 2\npair 1 2 8\npair 2 1 8", "accepted 0 1 2 3"),
        ("pair 1 2 8", "pair 1 2 10"),
        ("rejected 0 2\npair 1 2 8", "rejected 0 1"),
    ] {
        let otherwise = text.replacen(from, to, 1);
        assert_ne!(otherwise, text, "{from}");
        assert!(check_judged(&moved, &text, &otherwise).is_err(), "{to}");
    }
}

#[test]
fn what_is_printed_is_read_as_it_was() {
    for case in cases::all() {
        let read = report::read(&case.output).expect(case.name);
        assert_eq!(report::print(&read), case.output);
    }
    for text in [
        "",
        "refused 3\n",
        "refused 3 0",
        "refused 300 0\n",
        "rc accepted 0\nra accepted 0\n",
        "rc accepted 0\nra accepted 0\ntcc accepted 0\nmore\n",
        "rc accepted  0\nra accepted 0\ntcc accepted 0\n",
        "rc rejected 1 0\nra accepted 0\ntcc accepted 0\n",
    ] {
        assert!(report::read(text).is_none(), "{text}");
    }
}

const SCRIBE: &str = env!("CARGO_BIN_EXE_rustscribe");
const JUDGE: &str = env!("CARGO_BIN_EXE_rustjudge");

fn compare_moves(scribe: &str, stream: &str, traces: usize) -> (String, bool) {
    let programs = Programs {
        scribe: Program::Scribe(scribe.into()),
        stream: stream.into(),
    };
    let extent = Extent {
        traces,
        seed: 8,
        threads: 2,
    };
    let (summary, difference) = moves::compare(&programs, &extent);
    (summary, difference.is_some())
}

#[test]
fn the_comparison_finds_no_difference_from_itself() {
    let (summary, differs) = compare_moves(SCRIBE, &format!("{JUDGE} --stream"), 2_000);
    assert!(!differs, "{summary}");
    assert!(summary.starts_with("2000 traces of seed 8"), "{summary}");
    // Traces that differ in their notes only were among what was asked.
    for line in ["also with other texts", "also without notes"] {
        let (_, count) = summary.split_once(line).expect(line);
        let count: usize = count.split_whitespace().next().unwrap().parse().unwrap();
        assert!(count > 150, "{summary}");
    }
    for (option, way) in [("--to-1", Way::ToEdition1), ("--to-2", Way::ToEdition2)] {
        assert_eq!(Way::of_option(option), Some(way));
        let program = Program::Once(way, format!("{SCRIBE} {option}"));
        let extent = Extent {
            traces: 20,
            seed: 8,
            threads: 2,
        };
        let (summary, difference) = scribes::compare(&program, &extent);
        assert!(difference.is_none(), "{summary}{difference:?}");
        assert!(!summary.contains("did not occur"), "{summary}");
    }
}

#[test]
fn the_comparison_finds_programs_that_answer_otherwise() {
    let stream = format!("{JUDGE} --stream");
    for (scribe, stream) in [
        ("/bin/cat", stream.as_str()),
        ("/no/such/program", &stream),
        (SCRIBE, "/bin/cat"),
        (SCRIBE, "/bin/true"),
        (SCRIBE, "/no/such/program"),
        (SCRIBE, JUDGE),
    ] {
        let (_, differs) = compare_moves(scribe, stream, 10);
        assert!(differs, "{scribe} {stream}");
    }
}

#[test]
fn a_run_of_each_program_moves() {
    let one = encode("T1 w1=5");
    let two = encode("edition 2; T1 w1=5");
    let run = |option: &str, input: &[u8]| {
        let command = format!("{SCRIBE} {option}");
        let ended = process::run_keeping_error(&command, &[], input).unwrap();
        assert_eq!(ended.failure, None);
        [ended.output, ended.error].map(|bytes| String::from_utf8(bytes).unwrap())
    };
    let printed = |bytes: &[u8]| String::from_utf8(bytes.to_vec()).unwrap();
    assert_eq!(run("--to-2", &one), [&printed(&two), "notes 0\n"]);
    assert_eq!(run("--to-1", &two), [&printed(&one), ""]);
    assert_eq!(run("--to-1", &two[..9]), ["refused 3 0\n", ""]);
    assert_eq!(run("--to-2", &two[..9]), ["refused 3 0\n", ""]);
    let item = |letter: u8, room: u16, bytes: &[u8]| {
        let [low, high] = room.to_le_bytes();
        [
            &[letter, low, high],
            process::behind_length(bytes).as_slice(),
        ]
        .concat()
    };
    let input = [
        item(b'1', 49, &two),
        item(b'1', 48, &two),
        item(b'2', 63, &one),
        item(b'2', 62, &one),
        item(b'2', 0, &one[1..]),
    ];
    let output = [
        (one.as_slice(), ""),
        (b"refused 16 49\n", ""),
        (&two, "\0\0"),
        (b"refused 16 63\n", "\0\0"),
        (b"refused 3 0\n", "\0\0"),
    ];
    let output = output.map(|(written, notes)| {
        let mut answer = process::behind_length(written);
        answer.extend(notes.bytes());
        answer
    });
    assert_eq!(
        process::run_once(SCRIBE, &input.concat()),
        Ok(output.concat())
    );
}
