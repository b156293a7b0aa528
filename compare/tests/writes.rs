//! The writes of unclean reads: the last field of a finding, whatever works it
//! out, and whether the random traces have it in every way.

use ferozhak_compare::random::Random;
use ferozhak_compare::report::{Finding, Level};
use ferozhak_compare::trace::{Status, Trace};
use ferozhak_compare::{brute, cases, generate, graph, judge_trace, text};
use std::collections::BTreeMap;

fn read(notation: &str) -> Trace {
    Trace::parse(&text::encode(notation.as_bytes()).unwrap()).unwrap()
}

fn findings(trace: &Trace) -> Vec<Finding> {
    let [verdict, ..] = judge_trace(trace);
    verdict.findings().to_vec()
}

fn random_traces(seed: u64, count: u64) -> impl Iterator<Item = (u64, Trace)> {
    (0..count).filter_map(move |stream| {
        let (_, bytes) = generate::any(&mut Random::new(seed, stream));
        Some((stream, Trace::parse(&bytes).ok()?))
    })
}

#[test]
fn operations_are_listed_by_the_numbers_that_findings_have() {
    let notation = "T1 w2=7 w1=5 aborted; T2 w1=6 r2=7 r3=9; T3 w4=1 unanswered";
    let listed = text::operations(&text::encode(notation.as_bytes()).unwrap()).unwrap();
    let lines: Vec<&str> = listed.lines().collect();
    assert_eq!(
        lines,
        [
            "1 T1 w2=7 aborted",
            "2 T1 w1=5 aborted",
            "3 T2 w1=6",
            "4 T2 r2=7",
            "5 T2 r3=9",
            "6 T3 w4=1 unanswered",
        ]
    );
    for finding in findings(&read(notation)) {
        let line = lines[usize::from(finding.operation) - 1];
        let (t, operation) = (finding.transaction, finding.operation);
        assert!(line.starts_with(&format!("{operation} T{t} r")), "{line}");
    }
}

#[test]
fn the_findings_of_the_document_have_six_bytes() {
    for (notation, bytes) in [
        ("T1 r1=5", [1, 1, 1, 0, 0, 0]),
        ("T1 w1=5 aborted; T2 r1=5", [2, 2, 2, 0, 1, 0]),
        ("T1 r1=5 w1=5", [1, 3, 1, 0, 2, 0]),
        ("T1 w1=5 w1=6 r1=5", [1, 4, 3, 0, 1, 0]),
        ("T1 w1=5; T2 w1=6 r1=5", [2, 5, 3, 0, 1, 0]),
        ("T1 w1=5 w1=6; T2 r1=5", [2, 6, 3, 0, 1, 0]),
    ] {
        let found = findings(&read(notation));
        let found: Vec<[u8; 6]> = found.iter().map(Finding::bytes).collect();
        assert_eq!(found, [bytes], "{notation}");
    }
}

#[test]
fn both_numbers_of_a_finding_have_their_low_byte_first() {
    let finding = Finding {
        transaction: 127,
        kind: 6,
        operation: 0x0102,
        write: 0x0304,
    };
    assert_eq!(finding.bytes(), [127, 6, 2, 1, 4, 3]);
}

#[test]
fn a_write_is_found_whatever_became_of_its_transaction() {
    let trace = read("T1 w1=5 aborted; T2 r1=7 w1=6; T3 w2=5 unanswered; T4 r1=0");
    for (key, value, number) in [
        (1, 5, Some(1)),
        (1, 6, Some(3)),
        (2, 5, Some(4)),
        (1, 7, None),
        (2, 6, None),
        (1, 0, None),
    ] {
        assert_eq!(trace.find_write(key, value), number, "{key}={value}");
    }
    assert_eq!(trace.operation(4).transaction, 3);
}

#[test]
fn every_level_tells_the_same_writes() {
    for (stream, trace) in random_traces(12, 2_000) {
        let [rc, ra, tcc] = judge_trace(&trace);
        assert_eq!(rc.findings(), ra.findings(), "{stream}");
        assert_eq!(rc.findings(), tcc.findings(), "{stream}");
    }
}

#[test]
fn writes_are_found_both_ways() {
    let mut compared = 0;
    for (stream, trace) in random_traces(13, 4_000) {
        let found = findings(&trace);
        let counted = graph::counted(&trace);
        assert_eq!(brute::findings(&trace, &counted), found, "{stream}");
        for finding in &found {
            assert!(brute::tells_write(&trace, &counted, finding), "{stream}");
        }
        compared += found.len();
    }
    assert!(compared > 1_000, "{compared}");
}

#[test]
fn the_lists_of_a_level_tell_the_same_writes() {
    let trace = read("T1 w1=5 w1=6 unanswered; T2 w1=7 r1=5; T3 r1=5 r1=0");
    let counted = graph::counted(&trace);
    for level in Level::ALL {
        let (listed, _) = brute::lists(&trace, &counted, level);
        let told: Vec<(u8, u16)> = listed.iter().map(|f| (f.kind, f.write)).collect();
        assert_eq!(told, [(5, 1), (6, 1)], "{level:?}");
        assert_eq!(listed, findings(&trace), "{level:?}");
    }
}

/// The check holds for no number but the right one, and for no kind but the
/// right one, save those that speak of the same write: 5 and 6.
#[test]
fn a_wrong_number_or_kind_is_seen() {
    let trace = read(
        "T1 w1=1 aborted; T2 w2=1 w2=2; \
         T3 r9=9 r1=1 r3=3 w3=3 w3=4 r3=3 r3=0 r2=1 r3=5; T4 w3=5",
    );
    let counted = graph::counted(&trace);
    let found = findings(&trace);
    assert_eq!(found.len(), 7);
    for finding in found {
        for write in 0..=14 {
            let told = Finding { write, ..finding };
            let is_right = write == finding.write;
            let seen = brute::tells_write(&trace, &counted, &told);
            assert_eq!(seen, is_right, "{told:?}");
        }
        for kind in 0..=7 {
            let told = Finding { kind, ..finding };
            let speaks_of_it = match (finding.kind, finding.write) {
                (1, _) => kind == 1,
                // Value 0 has no write, so kind 1 would say of it what 5 says.
                (5, 0) => kind == 1 || kind == 5,
                (5 | 6, _) => kind == 5 || kind == 6,
                (right, _) => kind == right,
            };
            let seen = brute::tells_write(&trace, &counted, &told);
            assert_eq!(seen, speaks_of_it, "{told:?}");
        }
    }
}

/// An unanswered writer counts by the very read that would be judged.
#[test]
fn the_writer_of_kind_2_did_abort() {
    let mut seen = 0;
    for (stream, trace) in random_traces(14, 4_000) {
        for finding in findings(&trace).iter().filter(|f| f.kind == 2) {
            let author = trace.operation(finding.write).transaction;
            let status = trace.transactions[usize::from(author) - 1].status;
            assert_eq!(status, Status::Aborted, "{stream}");
            seen += 1;
        }
    }
    assert!(seen > 100, "{seen}");
}

/// What there is to say of a finding and its write.
fn describe(trace: &Trace, finding: &Finding) -> Vec<String> {
    let kind = finding.kind;
    if finding.write == 0 {
        return vec![format!("{kind}, no write")];
    }
    let place = match finding.write < finding.operation {
        true => "before",
        false => "behind",
    };
    let author = trace.operation(finding.write).transaction;
    let status = trace.transactions[usize::from(author) - 1].status;
    let mut words = vec![
        format!("{kind}, {place}"),
        format!("{kind}, writer {status:?}"),
    ];
    if finding.write > 255 {
        words.push(format!("{kind}, {place}, above 255"));
    }
    words
}

/// In how many traces each description of a finding fits one.
fn described(traces: impl Iterator<Item = Trace>) -> BTreeMap<String, usize> {
    let mut found = BTreeMap::new();
    for trace in traces {
        let findings = findings(&trace);
        let mut words: Vec<String> = findings
            .iter()
            .flat_map(|finding| describe(&trace, finding))
            .collect();
        words.sort_unstable();
        words.dedup();
        for word in words {
            *found.entry(word).or_default() += 1;
        }
    }
    found
}

/// All that a finding can be.
const WAYS: [&str; 27] = [
    "1, no write",
    "2, before",
    "2, before, above 255",
    "2, behind",
    "2, behind, above 255",
    "2, writer Aborted",
    "3, behind",
    "3, behind, above 255",
    "3, writer Committed",
    "3, writer Unanswered",
    "4, before",
    "4, before, above 255",
    "4, writer Committed",
    "4, writer Unanswered",
    "5, before",
    "5, before, above 255",
    "5, behind",
    "5, behind, above 255",
    "5, no write",
    "5, writer Committed",
    "5, writer Unanswered",
    "6, before",
    "6, before, above 255",
    "6, behind",
    "6, behind, above 255",
    "6, writer Committed",
    "6, writer Unanswered",
];

#[test]
fn random_traces_have_every_way() {
    let found = described(random_traces(15, 6_000).map(|(_, trace)| trace));
    let ways: Vec<&str> = found.keys().map(String::as_str).collect();
    assert_eq!(ways, WAYS);
    for (way, count) in &found {
        assert!(*count >= 20, "{way}: {count}");
    }
}

#[test]
fn known_cases_have_every_way() {
    let traces = cases::all().into_iter();
    let found = described(traces.filter_map(|case| Trace::parse(&case.bytes).ok()));
    let ways: Vec<&str> = found.keys().map(String::as_str).collect();
    assert_eq!(ways, WAYS);
}
