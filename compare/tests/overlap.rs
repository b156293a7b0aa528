//! Edition 2: transactions that overlap, whatever decides, what only the edition
//! changes, and whether the random traces overlap in every way.

use ferozhak_compare::encode::Writer;
use ferozhak_compare::random::Random;
use ferozhak_compare::report::{Level, Verdict};
use ferozhak_compare::trace::{self, Edition, Refusal, Trace, MAX_TRANSACTIONS};
use ferozhak_compare::weave::{self, Judged, Turn};
use ferozhak_compare::{
    brute, generate, graph, judge_all, judge_text, judge_trace, overlap_cases, text,
};
use std::collections::BTreeMap;

fn encode(notation: &str) -> Vec<u8> {
    text::encode(notation.as_bytes()).unwrap()
}

fn read(notation: &str) -> Trace {
    Trace::parse(&encode(notation)).unwrap()
}

/// Random traces that are not refused.
fn random_traces(seed: u64, count: u64) -> impl Iterator<Item = (u64, Vec<u8>, Trace)> {
    (0..count).filter_map(move |stream| {
        let (_, bytes) = generate::any(&mut Random::new(seed, stream));
        let trace = Trace::parse(&bytes).ok()?;
        Some((stream, bytes, trace))
    })
}

/// Those of edition 2 that have two transactions open at once.
fn overlapping(seed: u64, count: u64) -> impl Iterator<Item = (u64, Vec<u8>, Trace)> {
    random_traces(seed, count)
        .filter(|(_, bytes, trace)| trace.edition == Edition::Two && weave::most_open(bytes) > 1)
}

#[test]
fn the_first_record_tells_the_edition() {
    for (bytes, edition) in [
        (vec![], Edition::One),
        (encode(""), Edition::One),
        (encode("note \"\"; T1"), Edition::One),
        (encode("edition 2"), Edition::Two),
        // Its layout is edition 2's, whatever is refused of it.
        (encode("edition 3"), Edition::Two),
        (encode("serial 16"), Edition::One),
        (encode("edition 2")[..9].to_vec(), Edition::One),
    ] {
        assert_eq!(Edition::of(&bytes), edition, "{bytes:?}");
    }
}

#[test]
fn the_records_of_edition_2_are_laid_out_as_requested() {
    let bytes = encode("serial 258; edition 2; T1 s772 r1=2 w3=4 unanswered");
    let records: Vec<(u16, u32, Vec<u8>)> = trace::records(&bytes)
        .map(|record| (record.kind, record.serial, record.payload.to_vec()))
        .collect();
    let expected = [
        (16, 258, vec![2, 0]),
        (1, 259, vec![4, 3]),
        (2, 260, vec![4, 3, 1, 0, 0, 0, 2, 0, 0, 0, 0, 0, 0, 0]),
        (3, 261, vec![4, 3, 3, 0, 0, 0, 4, 0, 0, 0, 0, 0, 0, 0]),
        (4, 262, vec![4, 3, 2]),
        (5, 263, vec![1, 0]),
    ];
    assert_eq!(records, expected);
    let lengths: Vec<usize> = records.iter().map(|(_, _, p)| 6 + p.len()).collect();
    assert_eq!(lengths, [8, 8, 20, 20, 9, 8]);
}

#[test]
fn an_operation_belongs_to_the_open_transaction_of_its_session() {
    let trace = read(
        "edition 2; T1 s1 w1=1 ..; T2 s2 w1=2 ..; T1 .. w1=3; T3 s1 w1=4 ..; T2 .. w1=5; T3 ..",
    );
    let owners: Vec<u8> = trace.operations.iter().map(|op| op.transaction).collect();
    assert_eq!(owners, [1, 2, 1, 3, 2]);
    let sessions: Vec<u16> = trace.transactions.iter().map(|t| t.session).collect();
    assert_eq!(sessions, [1, 2, 1]);
}

#[test]
fn operations_are_listed_by_place_in_both_editions() {
    let listed = |notation: &str| text::operations(&encode(notation)).unwrap();
    assert_eq!(
        listed("edition 2; T1 w1=5 ..; T2 r1=5 ..; T1 .. w2=6 aborted; T2 .. r2=6"),
        "1 T1 w1=5 aborted\n2 T2 r1=5\n3 T1 w2=6 aborted\n4 T2 r2=6\n"
    );
    let blocks = "T1 w1=5 w2=6 aborted; T2 r1=5 r2=6";
    assert_eq!(listed(blocks), listed(&format!("edition 2; {blocks}")));
}

#[test]
fn known_traces_of_edition_2_have_every_refusal() {
    let mut numbers: Vec<u8> = overlap_cases::all()
        .iter()
        .filter_map(|case| judge_all(&case.bytes).err())
        .map(|refusal| refusal.number)
        .collect();
    numbers.sort_unstable();
    numbers.dedup();
    assert_eq!(numbers, (2..=11).collect::<Vec<u8>>());
}

#[test]
fn names_of_known_traces_are_all_different() {
    let mut names: Vec<&str> = ferozhak_compare::cases::all()
        .iter()
        .map(|case| case.name)
        .collect();
    names.sort_unstable();
    let count = names.len();
    names.dedup();
    assert_eq!(names.len(), count);
}

/// A judge that gives each operation to the latest transaction, as blocks would
/// have it, answers otherwise.
#[test]
fn blocks_would_be_judged_otherwise() {
    let mut otherwise = Vec::new();
    for case in overlap_cases::against_blocks() {
        let trace = Trace::parse(&case.bytes).unwrap();
        let mut mistaken = trace.clone();
        let mut latest = 0;
        let mut operations = mistaken.operations.iter_mut();
        for record in trace::records(&case.bytes) {
            match record.kind {
                trace::OPEN => latest += 1,
                trace::READ | trace::WRITE => operations.next().unwrap().transaction = latest,
                _ => {}
            }
        }
        if judge_trace(&trace) != judge_trace(&mistaken) {
            otherwise.push(case.name);
        }
    }
    assert!(otherwise.len() >= 12, "{otherwise:#?}");
}

#[test]
fn both_deciders_agree_on_transactions_that_overlap() {
    let mut checked = 0;
    for (stream, _, trace) in overlapping(21, 6_000) {
        let verdicts = judge_trace(&trace);
        for (level, verdict) in Level::ALL.into_iter().zip(&verdicts) {
            if let Some(outcome) = brute::judge(&trace, level) {
                assert_eq!(outcome.verdict, *verdict, "{stream}");
                checked += 1;
            }
        }
        let counted = graph::counted(&trace);
        let found = verdicts[0].findings();
        assert_eq!(brute::findings(&trace, &counted), found, "{stream}");
        for finding in found {
            assert!(brute::tells_write(&trace, &counted, finding), "{stream}");
        }
    }
    assert!(checked > 3_000, "{checked}");
}

#[test]
fn lists_and_orders_of_more_transactions_that_overlap_follow_their_definitions() {
    let (mut accepted, mut rejected) = (0, 0);
    for (stream, _, trace) in overlapping(22, 4_000) {
        if !(8..=20).contains(&trace.transactions.len()) {
            continue;
        }
        let counted = graph::counted(&trace);
        for (level, verdict) in Level::ALL.into_iter().zip(judge_trace(&trace)) {
            let (findings, pairs) = brute::lists(&trace, &counted, level);
            match verdict {
                Verdict::Accepted(order) => {
                    assert!(findings.is_empty() && pairs.is_empty(), "{stream}");
                    let placed = brute::order(&trace, &counted, level);
                    assert_eq!(placed, Some(order), "{stream}");
                    accepted += 1;
                }
                listed => {
                    assert_eq!(listed, Verdict::Rejected { findings, pairs }, "{stream}");
                    rejected += 1;
                }
            }
        }
    }
    assert!(accepted > 100 && rejected > 100, "{accepted} {rejected}");
}

#[test]
fn blocks_of_either_edition_get_the_same_text() {
    let mut findings = 0;
    for (stream, _, trace) in random_traces(23, 3_000) {
        let wholes = weave::without_lists(&weave::wholes(&trace));
        let [one, two] = [Edition::One, Edition::Two]
            .map(|edition| judge_text(&weave::blocks(edition, stream as u32, &wholes)));
        assert_eq!(one, two, "{stream}");
        findings += one.matches("read").count();
    }
    assert!(findings > 1_000, "{findings}");
}

/// With the opens in the same order and each transaction's own operations in
/// theirs, verdict, order and pairs are equal and findings differ only in
/// operation numbers, so in their order.
#[test]
fn however_transactions_overlap_the_answer_is_the_same_but_for_numbers() {
    let (mut woven_otherwise, mut numbered_otherwise) = (0, 0);
    for (stream, bytes, trace) in random_traces(24, 3_000) {
        let wholes = weave::wholes(&trace);
        let verdicts = judge_trace(&trace);
        let judged = Judged {
            trace: &trace,
            verdicts: &verdicts,
        };
        let mut random = Random::new(25, stream);
        for most in [2, 4, MAX_TRANSACTIONS] {
            let turns = weave::at_random(&mut random, most, 50);
            let woven = weave::weave(Writer::edition_2(0), &wholes, turns);
            let other = Trace::parse(&woven).unwrap();
            assert_eq!(weave::wholes(&other), wholes, "{stream}");
            let other_verdicts = judge_trace(&other);
            let other = Judged {
                trace: &other,
                verdicts: &other_verdicts,
            };
            assert!(judged.is_like(&other) && other.is_like(&judged), "{stream}");
            woven_otherwise += usize::from(woven != bytes);
            numbered_otherwise += usize::from(verdicts != other_verdicts);
        }
    }
    assert!(woven_otherwise > 4_000, "{woven_otherwise}");
    assert!(numbered_otherwise > 400, "{numbered_otherwise}");
}

/// What is like and what is not, so that the check above says something.
#[test]
fn an_answer_that_differs_in_more_than_numbers_is_not_alike() {
    let is_like = |one: &str, other: &str| {
        let [one, other] = [one, other].map(read);
        let [one_verdicts, other_verdicts] = [&one, &other].map(judge_trace);
        let one = Judged {
            trace: &one,
            verdicts: &one_verdicts,
        };
        let other = Judged {
            trace: &other,
            verdicts: &other_verdicts,
        };
        one.is_like(&other)
    };
    let blocks = "T1 w1=5 w1=6; T2 w2=5 r1=5";
    for (other, alike) in [
        (
            "edition 2; T1 w1=5 ..; T2 w2=5 ..; T1 .. w1=6; T2 .. r1=5",
            true,
        ),
        ("edition 2; T1 ..; T2 w2=5 r1=5; T1 .. w1=5 w1=6", true),
        // Own operations in another order: another kind, another own number.
        (
            "edition 2; T1 w1=6 ..; T2 w2=5 ..; T1 .. w1=5; T2 .. r1=5",
            false,
        ),
        (
            "edition 2; T1 w1=5 ..; T2 r1=5 ..; T1 .. w1=6; T2 .. w2=5",
            false,
        ),
        // Another value, so another write; another transaction; none at all.
        (
            "edition 2; T1 w1=5 ..; T2 w2=5 ..; T1 .. w1=6; T2 .. r1=6",
            false,
        ),
        (
            "edition 2; T1 w2=5 ..; T2 w1=5 ..; T1 .. r1=5; T2 .. w1=6",
            false,
        ),
        ("edition 2; T1 w1=5 w1=6; T2 w2=5", false),
    ] {
        assert_eq!(is_like(blocks, other), alike, "{other}");
    }
    // Pairs and orders are compared too.
    assert!(!is_like("T1 w1=5; T2 r1=5", "T1 r1=5; T2 w1=5"));
    assert!(!is_like(
        "T1 r2=7 w1=5; T2 r1=5 w2=7",
        "T1 s1 r2=7 w1=5; T2 s1 r1=5 w2=7"
    ));
}

#[test]
fn weaving_keeps_to_its_turns() {
    let wholes = weave::wholes(&read("T1 s1 w1=1 w1=2; T2 s2 w1=3; T3 s1 w1=4; T4 s3"));
    let woven = |turns: &mut dyn FnMut(usize, bool) -> Turn| {
        text::decode(&weave::weave(Writer::edition_2(0), &wholes, turns)).unwrap()
    };
    assert_eq!(
        woven(&mut weave::in_turn(MAX_TRANSACTIONS)),
        // T3 waits for T1, whose session it has, and T4 for its turn to open.
        "edition 2\nT1 s1 ..\nT2 w1=3 ..\nT1 .. w1=1 ..\nT2 ..\nT1 .. w1=2\n\
         T3 s1 ..\nT4 s3 ..\nT3 .. w1=4 ..\nT4 ..\nT3 ..\n"
    );
    let blocks = weave::blocks(Edition::Two, 0, &wholes);
    let one_by_one = woven(&mut |_, _| Turn::GoOn(0));
    assert_eq!(text::decode(&blocks), Ok(one_by_one));
    assert_eq!(weave::most_open(&blocks), 1);
    assert_eq!(
        weave::blocks(Edition::One, 0, &wholes),
        encode("T1 s1 w1=1 w1=2; T2 w1=3; T3 s1 w1=4; T4 s3")
    );
}

/// What there is to say of a trace with transactions that overlap.
fn describe(bytes: &[u8], trace: &Trace) -> Vec<&'static str> {
    let operations = &trace.operations;
    let owner = |index: usize| operations[index].transaction;
    let most = weave::most_open(bytes);
    // The transactions in the order of their closes.
    let mut open: BTreeMap<[u8; 2], usize> = BTreeMap::new();
    let mut closes: Vec<usize> = Vec::new();
    let mut opened = 0;
    for record in trace::records(bytes) {
        let session = [record.payload[0], record.payload[1]];
        match record.kind {
            trace::OPEN => {
                opened += 1;
                open.insert(session, opened);
            }
            trace::CLOSE => closes.extend(open.remove(&session)),
            _ => {}
        }
    }
    let apart = (2..operations.len()).any(|last| {
        owner(last - 1) != owner(last) && (0..last - 1).any(|first| owner(first) == owner(last))
    });
    let later_stands_first = operations
        .windows(2)
        .any(|w| w[0].transaction > w[1].transaction);
    let sessions: Vec<u16> = trace.transactions.iter().map(|t| t.session).collect();
    let reused = (0..sessions.len()).any(|t| sessions[..t].contains(&sessions[t]));
    let alike = |modulus: u16| {
        let mut pairs = sessions
            .iter()
            .flat_map(|a| sessions.iter().map(move |b| (a, b)));
        pairs.any(|(a, b)| a != b && a % modulus == b % modulus)
    };
    let [verdict, ..] = judge_trace(trace);
    let found = verdict.findings();
    let by_turns = found
        .windows(2)
        .any(|f| f[0].transaction > f[1].transaction);
    // An own write, another's of the key behind it, then the read.
    let between = |kind: u8| {
        found.iter().filter(|f| f.kind == kind).any(|f| {
            let read = usize::from(f.operation) - 1;
            let key = operations[read].key;
            let is_write = |at: usize| operations[at].action.written().is_some();
            let of_key = |&at: &usize| is_write(at) && operations[at].key == key;
            let last = (0..read).rev().find(of_key);
            last.is_some_and(|at| owner(at) != owner(read))
        })
    };
    [
        (most == 2, "two open at once"),
        (most >= 8, "eight open at once"),
        (most >= 64, "64 open at once"),
        (closes.is_sorted(), "closed in the order of opening"),
        (!closes.is_sorted(), "closed in another order"),
        (closes.iter().rev().is_sorted(), "closed in reverse order"),
        (apart, "another's operation between own ones"),
        (later_stands_first, "a later transaction's operation first"),
        (reused, "a session used again"),
        (!reused, "each in a session of its own"),
        (alike(128), "sessions equal modulo 128"),
        (alike(256), "sessions equal modulo 256"),
        (by_turns, "findings of two transactions by turns"),
        (between(4), "kind 4, another's write last"),
        (between(5), "kind 5, another's write last"),
        (!found.is_empty(), "rejected by a finding"),
        (found.is_empty(), "no finding"),
    ]
    .into_iter()
    .filter_map(|(holds, words)| holds.then_some(words))
    .collect()
}

#[test]
fn random_traces_overlap_in_every_way() {
    let mut found: BTreeMap<&str, usize> = BTreeMap::new();
    for (_, bytes, trace) in overlapping(26, 8_000) {
        for words in describe(&bytes, &trace) {
            *found.entry(words).or_default() += 1;
        }
    }
    assert_eq!(found.len(), 17, "{found:#?}");
    for (words, count) in &found {
        assert!(*count >= 20, "{words}: {count}");
    }
}

#[test]
fn half_of_the_random_traces_are_of_edition_2_and_both_have_every_refusal() {
    let mut traces = [0; 2];
    let mut refusals = [[0; Refusal::NUMBERS]; 2];
    for stream in 0..10_000 {
        let (_, bytes) = generate::any(&mut Random::new(27, stream));
        let edition = Edition::of(&bytes) as usize;
        traces[edition] += 1;
        if let Err(refusal) = Trace::parse(&bytes) {
            refusals[edition][usize::from(refusal.number)] += 1;
        }
    }
    assert!(traces.iter().all(|&count| count > 4_700), "{traces:?}");
    for refusals in refusals {
        assert!(
            refusals[2..=11].iter().all(|&count| count > 0),
            "{refusals:?}"
        );
    }
}

/// An edition as an index: 0 for edition 1.
type EditionIndex = usize;

/// Kind 16 is known in both editions, kind 6 in one; each where it should not be.
#[test]
fn stray_records_occur_in_both_editions() {
    let mut found: BTreeMap<(EditionIndex, u16, u8), usize> = BTreeMap::new();
    for stream in 0..20_000 {
        let (_, bytes) = generate::any(&mut Random::new(28, stream));
        if let Err(Refusal { number, place }) = Trace::parse(&bytes) {
            if let Some(kind) = bytes.get(place + 2..place + 4) {
                let kind = u16::from_le_bytes([kind[0], kind[1]]);
                let edition = Edition::of(&bytes) as EditionIndex;
                *found.entry((edition, kind, number)).or_default() += 1;
            }
        }
    }
    for stray in [
        (0, trace::EDITION, 7),
        (0, trace::EDITION, 4),
        (1, trace::EDITION, 7),
        (1, trace::EDITION, 8),
        (1, trace::EDITION, 4),
        (1, trace::NOTE, 6),
    ] {
        let count = found.get(&stray).copied().unwrap_or_default();
        assert!(count >= 5, "{stray:?}: {count}");
    }
}
