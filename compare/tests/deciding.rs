//! The decisions of the index: examples by hand, refusals, what the buffers hold,
//! the strongest level, and the programs that compare them.

use ferozhak_compare::calls::{self, Call};
use ferozhak_compare::deciding::{decide, strongest, Buffers, Decision, Rooms};
use ferozhak_compare::items::NUMBERS_SIZE;
use ferozhak_compare::random::Random;
use ferozhak_compare::report::Level;
use ferozhak_compare::trace::{Trace, MAX_BYTES};
use ferozhak_compare::workers::{Difference, Extent};
use ferozhak_compare::{brute, cases, daemon, generate, judge_all, judge_text, report, text};
use Decision::{Hold, NoTrace, Promote};

/// What every byte of a buffer is before; in these examples none is written so.
const OLD: u8 = 0xEE;

const P1: &str = "";
const P3: &str = "T1 r1=5";
const P10: &str = "T1 w1=5; T2 w1=6; T3 r1=5 r1=6";
const P12: &str = "T1 w1=5; T2 r1=5 w2=7; T3 r2=7 r1=0";
const P13: &str = "T1 r2=7 w1=5; T2 r1=5 w2=7";
const P14: &str = "T1 s1 w1=5; T2 s1 r1=0";
const CASE_16: &str = "T1 w1=11 w2=21; T2 w1=12 w2=22; T3 r1=12 r2=21";
/// P13 with a read of a value that nobody wrote.
const FINDING_AND_PAIRS: &str = "T1 r2=7 w1=5 r3=3; T2 r1=5 w2=7";

fn encode(notation: &str) -> Vec<u8> {
    text::encode(notation.as_bytes()).unwrap()
}

fn rooms(findings: usize, pairs: usize, order: usize) -> Rooms {
    Rooms {
        findings,
        pairs,
        order,
        counts: 20,
    }
}

/// What is decided, and the buffers then.
fn decided(trace: &[u8], level: u32, rooms: &Rooms) -> (Decision, Buffers) {
    let mut buffers = Buffers::full_of(OLD, rooms);
    let decision = decide(trace, level, &mut buffers);
    (decision, buffers)
}

/// These bytes, and old ones up to the buffer's size.
fn filled(bytes: &[u8], size: usize) -> Vec<u8> {
    let mut buffer = bytes.to_vec();
    buffer.resize(size, OLD);
    buffer
}

/// The five numbers, little-endian.
fn counts(numbers: [u8; 5]) -> Vec<u8> {
    numbers.iter().flat_map(|&n| [n, 0, 0, 0]).collect()
}

fn promotes(notation: &str, level: u32, order: &[u8]) {
    let (decision, buffers) = decided(&encode(notation), level, &Rooms::AMPLE);
    assert_eq!(decision, Promote, "{notation} {level}");
    let length = order.len() as u8;
    let expected = Buffers {
        findings: filled(&[], 6_144),
        pairs: filled(&[], 65_024),
        order: filled(order, 128),
        counts: counts([0, 0, length, 0, 0]),
    };
    assert_eq!(buffers, expected, "{notation} {level}");
}

fn holds(notation: &str, level: u32, findings: &[[u8; 6]], pairs: &[[u8; 4]]) {
    let (decision, buffers) = decided(&encode(notation), level, &Rooms::AMPLE);
    assert_eq!(decision, Hold, "{notation} {level}");
    let (found, listed) = (findings.len() as u8, pairs.len() as u8);
    let expected = Buffers {
        findings: filled(findings.as_flattened(), 6_144),
        pairs: filled(pairs.as_flattened(), 65_024),
        order: filled(&[], 128),
        counts: counts([found, listed, 0, 0, 0]),
    };
    assert_eq!(buffers, expected, "{notation} {level}");
}

/// The decision is no trace, with this number and place, and nothing but the
/// counts is written.
fn refuses(trace: &[u8], level: u32, rooms: &Rooms, number: u32, place: u32) {
    let (decision, buffers) = decided(trace, level, rooms);
    assert_eq!(decision, NoTrace, "{number} {place}");
    let numbers = [0, 0, 0, number, place];
    let expected = Buffers {
        counts: numbers.into_iter().flat_map(u32::to_le_bytes).collect(),
        ..Buffers::full_of(OLD, rooms)
    };
    assert_eq!(buffers, expected, "{number} {place}");
}

#[test]
fn decisions_have_the_numbers_of_the_interface() {
    assert_eq!(Decision::ALL.map(|decision| decision as u32), [1, 2, 3]);
    assert_eq!(Decision::ALL, [Promote, Hold, NoTrace]);
}

/// The numbers that the header for C gives to names with this prefix.
fn named<const N: usize>(prefix: &str, names: [&str; N]) -> [usize; N] {
    let header = include_str!("../../include/ferozhak.h");
    names.map(|name| {
        let given = format!("    FEROZHAK_{prefix}{name} = ");
        let number = header.lines().find_map(|line| line.strip_prefix(&given));
        let number = number.and_then(|line| line.split([',', ' ']).next()?.parse().ok());
        number.expect(name)
    })
}

#[test]
fn the_header_has_the_numbers_of_the_documents() {
    assert_eq!(named("", ["PROMOTE", "HOLD", "NO_TRACE"]), [1, 2, 3]);
    assert_eq!(named("", ["RC", "RA", "TCC"]), [1, 2, 3]);
    let rooms = ["FINDINGS_MAX", "PAIRS_MAX", "ORDER_MAX", "COUNTS"];
    assert_eq!(named("", rooms), Rooms::AMPLE.each());
    assert_eq!(named("", ["TRACE_MAX"]), [MAX_BYTES]);
    let counts = ["FINDINGS", "PAIRS", "ORDER", "REFUSAL", "PLACE"];
    assert_eq!(named("COUNT_", counts), [0, 4, 8, 12, 16]);
    let claimed = ["YES", "NO_READ", "NO_MEMBERS", "NO_PAIR", "REFUSED"];
    assert_eq!(named("CLAIM_", claimed), [1, 2, 3, 4, 5]);
    assert_eq!(named("CLAIM_", ["NUMBERS"]), [NUMBERS_SIZE]);
    let numbers = ["OPERATION", "FIRST", "SECOND", "REFUSAL", "PLACE"];
    assert_eq!(named("CLAIM_", numbers), [0, 4, 8, 12, 16]);
    let finding = ["SIZE", "TRANSACTION", "KIND", "OPERATION", "WRITE"];
    assert_eq!(named("FINDING_", finding), [6, 0, 1, 2, 4]);
    let pair = ["SIZE", "FIRST", "SECOND", "REASONS"];
    assert_eq!(named("PAIR_", pair), [4, 0, 1, 2]);
    let kinds = [
        "THIN_AIR",
        "ABORTED",
        "FUTURE",
        "NOT_MY_LAST",
        "NOT_MY_OWN",
        "INTERMEDIATE",
    ];
    assert_eq!(named("KIND_", kinds), [1, 2, 3, 4, 5, 6]);
    let reasons = ["START", "SESSION", "READ", "RIVAL"];
    assert_eq!(named("REASON_", reasons), [1, 2, 4, 8]);
    let of_the_call = ["LEVEL", "FINDINGS", "PAIRS", "ORDER"];
    assert_eq!(named("REFUSED_", of_the_call), [1, 12, 13, 14]);
    let of_the_trace = [
        "LONG",
        "CUT",
        "LENGTH",
        "SERIAL",
        "KIND",
        "MISPLACED",
        "VALUE",
        "EXCESS",
        "REPEATED",
        "BEHIND_END",
    ];
    let numbers = [2, 3, 4, 5, 6, 7, 8, 9, 10, 11];
    assert_eq!(named("REFUSED_", of_the_trace), numbers);
}

#[test]
fn ample_rooms_are_those_of_the_limits() {
    // 1,024 findings; a pair for each of 128 transactions and each other one; 128 in the order.
    assert_eq!(Rooms::AMPLE.each(), [6_144, 65_024, 128, 20]);
}

#[test]
fn traces_of_the_document() {
    for level in 1..=3 {
        promotes(P1, level, &[0]);
        holds(P3, level, &[[1, 1, 1, 0, 0, 0]], &[]);
        holds(P13, level, &[], &[[1, 2, 4, 0], [2, 1, 4, 0]]);
    }
    promotes(P10, 1, &[0, 1, 2, 3]);
    promotes(P12, 1, &[0, 1, 2, 3]);
    promotes(P12, 2, &[0, 1, 2, 3]);
    holds(P12, 3, &[], &[[0, 1, 9, 0], [1, 0, 8, 0]]);
    promotes(P14, 1, &[0, 1, 2]);
    promotes(CASE_16, 1, &[0, 2, 1, 3]);
    for level in 2..=3 {
        let rivals = [[1, 2, 8, 0], [2, 1, 8, 0]];
        holds(P10, level, &[], &rivals);
        holds(P14, level, &[], &[[0, 1, 1, 0], [1, 0, 8, 0]]);
        holds(CASE_16, level, &[], &rivals);
    }
}

#[test]
fn both_lists_are_written() {
    let pairs = [[1, 2, 4, 0], [2, 1, 4, 0]];
    for level in 1..=3 {
        holds(FINDING_AND_PAIRS, level, &[[1, 1, 3, 0, 0, 0]], &pairs);
    }
    // The write of an aborted one, with numbers of two bytes.
    let filler: String = (1..=255).map(|value| format!(" w9={value}")).collect();
    let notation = format!("T1{filler}; T2 w1=5 aborted; T3 r1=5");
    holds(&notation, 1, &[[3, 2, 1, 1, 0, 1]], &[]);
}

#[test]
fn overlapping_and_unanswered_ones_are_decided_alike() {
    promotes("edition 2; T1 w1=5 ..; T2 r1=5; T1 ..", 3, &[0, 1, 2]);
    let again = "edition 2; T1 w1=5 ..; T2 r1=5; T1 .. w1=6";
    holds(again, 1, &[[2, 6, 2, 0, 1, 0]], &[]);
    promotes("T1 w1=5 unanswered; T2 r1=5", 3, &[0, 1, 2]);
    promotes("T1 w1=5 unanswered; T2 r1=0", 3, &[0, 2]);
}

#[test]
fn strongest_levels_of_the_document() {
    for (notation, level) in [
        (P1, 3),
        (P3, 0),
        (P10, 1),
        (P12, 2),
        (P13, 0),
        (P14, 1),
        ("T1 r1=0 w1=5; T2 r1=0 w1=6", 3),
        (CASE_16, 1),
        (FINDING_AND_PAIRS, 0),
    ] {
        assert_eq!(strongest(&encode(notation)), level, "{notation}");
    }
}

#[test]
fn a_refused_trace_has_no_strongest_level() {
    let mut behind_end = encode(P1);
    behind_end.push(0);
    for trace in [vec![], behind_end, vec![0; MAX_BYTES + 1]] {
        assert_eq!(strongest(&trace), 0);
    }
}

#[test]
fn a_refused_trace_is_no_trace() {
    let mut behind_end = encode(P1);
    behind_end.push(0);
    // The end record begins where the transaction's 39 bytes end.
    let cut = &encode("T1 w1=5")[..39];
    for level in 1..=3 {
        for rooms in [Rooms::AMPLE, rooms(0, 0, 0)] {
            refuses(&[], level, &rooms, 3, 0);
            refuses(cut, level, &rooms, 3, 39);
            refuses(&behind_end, level, &rooms, 11, 10);
            refuses(&[0; MAX_BYTES + 1], level, &rooms, 2, 32_768);
            refuses(&[0; MAX_BYTES], level, &rooms, 4, 0);
        }
    }
}

#[test]
fn another_level_is_refused_before_all_else() {
    let long = vec![0; MAX_BYTES + 1];
    for level in [0, 4, 255, 256, 257, 258, 65_537, 1 << 31 | 1, u32::MAX] {
        for trace in [&encode(P1), &encode(P13), &vec![], &long] {
            for rooms in [Rooms::AMPLE, rooms(0, 0, 0)] {
                refuses(trace, level, &rooms, 1, 0);
            }
        }
    }
}

#[test]
fn findings_need_six_bytes_each() {
    let two = encode("T1 r1=5 r1=6");
    for level in 1..=3 {
        refuses(&encode(P3), level, &rooms(5, 0, 0), 12, 6);
        refuses(&encode(P3), level, &rooms(0, 65_024, 128), 12, 6);
        refuses(&two, level, &rooms(11, 0, 0), 12, 12);
        refuses(&two, level, &rooms(8, 0, 0), 12, 12);
        let (decision, buffers) = decided(&two, level, &rooms(12, 0, 0));
        assert_eq!(decision, Hold);
        let findings = [[1, 1, 1, 0, 0, 0], [1, 1, 2, 0, 0, 0]];
        assert_eq!(buffers.findings, findings.as_flattened());
    }
}

#[test]
fn pairs_need_four_bytes_each() {
    for level in 1..=3 {
        refuses(&encode(P13), level, &rooms(0, 7, 0), 13, 8);
        refuses(&encode(P13), level, &rooms(6_144, 0, 128), 13, 8);
        let (decision, buffers) = decided(&encode(P13), level, &rooms(0, 8, 0));
        assert_eq!(decision, Hold);
        assert_eq!(buffers.pairs, [1, 2, 4, 0, 2, 1, 4, 0]);
    }
}

#[test]
fn findings_are_refused_before_pairs() {
    let trace = encode(FINDING_AND_PAIRS);
    refuses(&trace, 1, &rooms(5, 7, 0), 12, 6);
    // The findings, though there is room for them, are not written either.
    refuses(&trace, 1, &rooms(6, 7, 0), 13, 8);
    refuses(&trace, 1, &rooms(5, 8, 0), 12, 6);
    let (decision, buffers) = decided(&trace, 1, &rooms(6, 8, 0));
    assert_eq!(decision, Hold);
    assert_eq!(buffers.counts, counts([1, 2, 0, 0, 0]));
}

#[test]
fn an_order_needs_a_byte_a_committed_transaction() {
    for (notation, needed) in [
        (P1, 1),
        (P10, 4),
        ("T1 w1=5 aborted; T2", 2),
        ("T1 w1=5 unanswered; T2 r1=5", 3),
        ("T1 w1=5 unanswered", 1),
    ] {
        let trace = encode(notation);
        refuses(
            &trace,
            1,
            &rooms(6_144, 65_024, needed - 1),
            14,
            needed as u32,
        );
        refuses(&trace, 1, &rooms(0, 0, 0), 14, needed as u32);
        let (decision, buffers) = decided(&trace, 1, &rooms(0, 0, needed));
        assert_eq!(decision, Promote, "{notation}");
        assert!(!buffers.order.contains(&OLD), "{notation}");
    }
}

#[test]
fn the_counts_that_fit_whole_are_written() {
    let two = encode("T1 r1=5 r1=6");
    for (trace, level, numbers) in [
        (encode(CASE_16), 1, [0, 0, 4, 0, 0]),
        (encode(CASE_16), 2, [0, 2, 0, 0, 0]),
        (two, 3, [2, 0, 0, 0, 0]),
        (encode("T1 w1=5")[..39].to_vec(), 1, [0, 0, 0, 3, 39]),
        (encode(P1), 4, [0, 0, 0, 1, 0]),
    ] {
        let all = counts(numbers);
        for size in 0..=24 {
            let rooms = Rooms {
                counts: size,
                ..Rooms::AMPLE
            };
            let (_, buffers) = decided(&trace, level, &rooms);
            let whole = (size / 4 * 4).min(20);
            assert_eq!(buffers.counts, filled(&all[..whole], size), "{size}");
            // Nothing else hangs on the room of the counts.
            let (_, ample) = decided(&trace, level, &Rooms::AMPLE);
            assert_eq!(buffers.findings, ample.findings);
            assert_eq!(buffers.pairs, ample.pairs);
            assert_eq!(buffers.order, ample.order);
        }
    }
}

#[test]
fn strongest_levels_are_those_of_trying_every_order() {
    let mut by_level = [0; 4];
    for stream in 0..4_000 {
        let (_, bytes) = generate::any(&mut Random::new(21, stream));
        let Ok(trace) = Trace::parse(&bytes) else {
            assert_eq!(strongest(&bytes), 0, "{stream}");
            continue;
        };
        let outcomes = Level::ALL.map(|level| brute::judge(&trace, level));
        let [Some(rc), Some(ra), Some(tcc)] = outcomes else {
            continue;
        };
        let expected = match [rc, ra, tcc].map(|outcome| outcome.verdict.is_accepted()) {
            [_, _, true] => 3,
            [_, true, _] => 2,
            [true, _, _] => 1,
            _ => 0,
        };
        assert_eq!(strongest(&bytes), expected, "{stream}");
        by_level[expected as usize] += 1;
    }
    assert!(by_level.iter().all(|&count| count > 0), "{by_level:?}");
    assert!(by_level.iter().sum::<usize>() > 500, "{by_level:?}");
}

/// What `judge` prints at a level, from the bytes of the buffers.
fn block(level: Level, decision: Decision, buffers: &Buffers) -> String {
    let (numbers, _) = buffers.counts.as_chunks();
    let numbers: Vec<usize> = numbers
        .iter()
        .map(|n| u32::from_le_bytes(*n) as usize)
        .collect();
    let [found, listed, length, number, place] = numbers[..] else {
        panic!("five counts");
    };
    let name = level.name();
    match decision {
        NoTrace => format!("refused {number} {place}\n"),
        Promote => format!(
            "{name} accepted{}\n",
            report::places(&buffers.order[..length])
        ),
        Hold => {
            let (findings, _) = buffers.findings[..6 * found].as_chunks();
            let (pairs, _) = buffers.pairs[..4 * listed].as_chunks();
            let read = findings
                .iter()
                .map(|[t, kind, low, high, write_low, write_high]| {
                    let [operation, write] =
                        [[*low, *high], [*write_low, *write_high]].map(u16::from_le_bytes);
                    format!("read {t} {operation} {kind} {write}\n")
                });
            let pair = pairs.iter().map(|[first, second, reasons, zero]| {
                assert_eq!(*zero, 0);
                format!("pair {first} {second} {reasons}\n")
            });
            let lines: String = read.chain(pair).collect();
            format!("{name} rejected {found} {listed}\n{lines}")
        }
    }
}

#[test]
fn the_buffers_hold_what_is_printed() {
    let known = cases::all().into_iter().map(|case| case.bytes);
    let random = (0..500).map(|stream| generate::any(&mut Random::new(22, stream)).1);
    for trace in known.chain(random) {
        let mut blocks: Vec<String> = Vec::new();
        for level in Level::ALL {
            let (decision, buffers) = decided(&trace, level.number(), &Rooms::AMPLE);
            blocks.push(block(level, decision, &buffers));
        }
        // A refusal is printed once.
        blocks.dedup();
        assert_eq!(blocks.concat(), judge_text(&trace));
    }
}

#[test]
fn what_a_daemon_prints() {
    let print = |notation, level| daemon::print(level, &judge_all(&encode(notation)));
    assert_eq!(
        print(CASE_16, Level::ReadCommitted),
        ": promote, findings 0, pairs 0, order 4, refusal 0, place 0, strongest 1\n\
         order 0 2 1 3\n"
    );
    assert_eq!(
        print(FINDING_AND_PAIRS, Level::ReadAtomicity),
        ": hold, findings 1, pairs 2, order 0, refusal 0, place 0, strongest 0\n\
         read 1 3 1 0\npair 1 2 4\npair 2 1 4\n"
    );
    assert_eq!(
        daemon::print(Level::Causal, &judge_all(&encode("T1 w1=5")[..39])),
        ": no trace, findings 0, pairs 0, order 0, refusal 3, place 39, strongest 0\n"
    );
}

#[test]
fn a_name_is_printed_in_one_line() {
    for (name, shown) in [
        ("a b.trace", "a b.trace"),
        ("é: promote", "é: promote"),
        ("a\npromote", r"a\x0apromote"),
        ("\0\x1f \x7f", r"\x00\x1f \x7f"),
        (r"\x0a", r"\x5cx0a"),
    ] {
        assert_eq!(daemon::printable(name.as_bytes()), shown.as_bytes());
    }
}

#[test]
fn what_a_daemon_prints_is_what_judge_prints() {
    for case in cases::all() {
        let answer = judge_all(&case.bytes);
        let printed = Level::ALL.map(|level| daemon::print(level, &answer));
        let printed = printed.each_ref().map(String::as_str);
        let expected = format!("{}strongest {}\n", case.output, strongest(&case.bytes));
        let rebuilt = daemon::as_judged(&printed);
        assert_eq!(rebuilt, Some(expected), "{}", case.name);
    }
    // Another strongest level at one of the levels, an order cut, no order.
    let one = ": promote, findings 0, pairs 0, order 1, refusal 0, place 0, strongest 3\norder 0\n";
    let other = one.replace("strongest 3", "strongest 2");
    let cut = one.replace("order 1", "order 2");
    let none = one.replace("order 0\n", "");
    assert!(daemon::as_judged(&[one; 3]).is_some());
    for changed in [&other, &cut, &none, ""] {
        assert_eq!(daemon::as_judged(&[one, changed, one]), None);
    }
}

#[test]
fn items_and_replies_byte_by_byte() {
    let trace = encode(P3);
    let bytes_of_numbers = Call::Decide {
        level: 0x0102_0304,
        rooms: Rooms {
            findings: 7,
            pairs: 0x0201,
            order: 2,
            counts: 9,
        },
    };
    let item = bytes_of_numbers.item(&trace);
    let length = [trace.len() as u8, 0, 0, 0];
    let head = [4, 3, 2, 1, 7, 0, 0, 0, 1, 2, 0, 0, 2, 0, 0, 0, 9, 0, 0, 0];
    let expected = [b"d".as_slice(), &head, &length, &trace].concat();
    assert_eq!(item, expected);
    let item = Call::Strongest.item(&trace);
    assert_eq!(item, [b"s".as_slice(), &length, &trace].concat());

    let behind = [0xA5; 16].as_slice();
    let hold = Call::Decide {
        level: 2,
        rooms: Rooms {
            findings: 7,
            pairs: 3,
            order: 0,
            counts: 9,
        },
    };
    let findings = [1, 1, 1, 0, 0, 0, 0xA5].as_slice();
    let pairs = [0xA5; 3].as_slice();
    let counts = [1, 0, 0, 0, 0, 0, 0, 0, 0xA5].as_slice();
    let buffers = [findings, behind, pairs, behind, behind, counts, behind].concat();
    let reply = [[2, 0, 0, 0].as_slice(), &buffers].concat();
    assert_eq!(hold.reply(&judge_all(&trace)), reply);
    let strongest = [3, 0, 0, 0];
    assert_eq!(Call::Strongest.reply(&judge_all(&encode(P1))), strongest);

    // The same by way of reading the items.
    let input = [hold.item(&trace), Call::Strongest.item(&encode(P1))].concat();
    let mut output = Vec::new();
    calls::serve(input.as_slice(), &mut output).unwrap();
    assert_eq!(output, [reply.as_slice(), &strongest].concat());
    // An item that is cut, or that asks for nothing.
    assert!(calls::serve(&input[..input.len() - 1], &mut output).is_err());
    assert!(calls::serve(b"x".as_slice(), &mut output).is_err());
}

const JUDGE: &str = env!("CARGO_BIN_EXE_rustjudge");

fn extent(traces: usize) -> Extent {
    Extent {
        traces,
        seed: 9,
        threads: 2,
    }
}

#[test]
fn the_comparison_of_calls_finds_no_difference_from_itself() {
    let (summary, difference) = calls::compare(&format!("{JUDGE} --calls"), &extent(1_000));
    assert!(difference.is_none(), "{summary}{difference:?}");
    // Each refusal, each decision at each level and each strongest level occurred.
    for row in summary.lines().filter(|line| line.starts_with("  ")) {
        let words = row.split_whitespace();
        let mut counts: Vec<usize> = words.filter_map(|word| word.parse().ok()).collect();
        if row.contains("promote") || row.contains("hold") {
            let at_no_level = counts.pop();
            assert_eq!(at_no_level, Some(0), "{summary}");
        }
        assert!(counts.iter().all(|&count| count > 0), "{summary}");
    }
}

#[test]
fn the_comparison_of_calls_finds_programs_that_answer_otherwise() {
    for command in [
        "/bin/cat",
        "/bin/true",
        "/no/such/program",
        &format!("{JUDGE} --stream"),
    ] {
        let one_by_one = Extent {
            threads: 1,
            ..extent(0)
        };
        let (_, difference) = calls::compare(command, &one_by_one);
        let difference = difference.expect(command);
        // It shows with the case that is asked first, and an item of it is kept.
        assert!(difference.name.contains("case 'P1'"), "{command}");
        assert!(b"ds".contains(&difference.bytes[0]), "{command}");
    }
}

fn compare_daemon(daemon: &str, stream: &str) -> (String, Option<Box<Difference>>) {
    let [daemon, stream] = [daemon, stream].map(String::from);
    let programs = daemon::Programs { daemon, stream };
    daemon::compare(&programs, &extent(150))
}

#[test]
fn the_comparison_of_daemons_finds_no_difference_from_itself() {
    let [daemon, stream] = ["--daemon", "--stream"].map(|option| format!("{JUDGE} {option}"));
    let (summary, difference) = compare_daemon(&daemon, &stream);
    assert!(difference.is_none(), "{summary}{difference:?}");
}

#[test]
fn the_comparison_of_daemons_finds_programs_that_answer_otherwise() {
    let [daemon, stream] = ["--daemon", "--stream"].map(|option| format!("{JUDGE} {option}"));
    for (daemon, stream) in [
        ("/bin/true", stream.as_str()),
        ("/bin/echo", &stream),
        ("/no/such/program", &stream),
        (&daemon, "/bin/cat"),
        (&daemon, "/bin/true"),
        (&daemon, "/no/such/program"),
        (&daemon, JUDGE),
    ] {
        let (_, difference) = compare_daemon(daemon, stream);
        assert!(difference.is_some(), "{daemon} {stream}");
    }
}
