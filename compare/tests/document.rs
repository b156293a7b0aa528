//! The specification's own cases and edges, and the two deciders against each
//! other.

use ferozhak_compare::random::Random;
use ferozhak_compare::report::{Level, Verdict};
use ferozhak_compare::trace::Trace;
use ferozhak_compare::{brute, cases, generate, judge_one, judge_text, text};

#[test]
fn every_case_gives_its_answer() {
    for case in cases::all() {
        assert_eq!(judge_text(&case.bytes), case.output, "{}", case.name);
    }
}

#[test]
fn case_16_is_as_printed_in_the_document() {
    let bytes = text::encode(b"T1 w1=11 w2=21; T2 w1=12 w2=22; T3 r1=12 r2=21").unwrap();
    assert_eq!(bytes.len(), 187);
    let expected = "\
rc accepted 0 2 1 3
ra rejected 0 2
pair 1 2 8
pair 2 1 8
tcc rejected 0 2
pair 1 2 8
pair 2 1 8
";
    assert_eq!(judge_text(&bytes), expected);
}

#[test]
fn the_example_of_the_readme_is_accepted() {
    let bytes = text::encode(b"T1 w1=5; T2 r1=5 aborted; T3 s1 r1=0").unwrap();
    let expected = "rc accepted 0 1 3\nra accepted 0 1 3\ntcc accepted 0 1 3\n";
    assert_eq!(judge_text(&bytes), expected);
}

#[test]
fn reasons_that_meet_in_one_pair_are_added() {
    let at_level_2 = |notation: &str| {
        let bytes = text::encode(notation.as_bytes()).unwrap();
        match judge_one(&bytes, Level::ReadAtomicity).unwrap() {
            Verdict::Accepted(_) => Vec::new(),
            Verdict::Rejected { pairs, .. } => pairs
                .iter()
                .map(|pair| (pair.first, pair.second, pair.reasons))
                .collect(),
        }
    };
    // Start and read: 0 is the source of T1's read.
    assert_eq!(
        at_level_2("T1 s1 r2=0 w1=5; T2 s1 r1=0"),
        [(0, 1, 1 + 4), (1, 0, 8)]
    );
    // Start, read and rival: T2 read T1's value though 0 is before T2 too.
    assert_eq!(
        at_level_2("T1 r2=0 w1=5; T2 r1=5 r1=0"),
        [(0, 1, 1 + 4 + 8), (1, 0, 8)]
    );
    // Session and rival: T3 read both.
    assert_eq!(
        at_level_2("T1 s9 w1=5; T2 s9 w1=6; T3 r1=5 r1=6"),
        [(1, 2, 2 + 8), (2, 1, 8)]
    );
}

#[test]
fn the_two_deciders_agree_on_random_traces() {
    let mut checked = 0;
    for stream in 0..4_000 {
        let (_, bytes) = generate::any(&mut Random::new(2, stream));
        let Ok(trace) = Trace::parse(&bytes) else {
            continue;
        };
        for level in Level::ALL {
            if let Some(outcome) = brute::judge(&trace, level) {
                assert_eq!(Ok(outcome.verdict), judge_one(&bytes, level), "{stream}");
                checked += 1;
            }
        }
    }
    assert!(checked > 4_000);
}

#[test]
fn answers_of_more_transactions_follow_their_definitions() {
    let (mut accepted, mut rejected) = (0, 0);
    for stream in 0..3_000 {
        let (_, bytes) = generate::any(&mut Random::new(4, stream));
        let Ok(trace) = Trace::parse(&bytes) else {
            continue;
        };
        if !(8..=20).contains(&trace.transactions.len()) {
            continue;
        }
        let Some(counted) = brute::counted(&trace) else {
            continue;
        };
        for level in Level::ALL {
            let (findings, pairs) = brute::lists(&trace, &counted, level);
            let placed = brute::order(&trace, &counted, level);
            assert_eq!(placed.is_some(), pairs.is_empty(), "{stream}");
            match judge_one(&bytes, level).unwrap() {
                Verdict::Accepted(order) => {
                    assert!(findings.is_empty() && pairs.is_empty());
                    assert_eq!(placed, Some(order), "{stream}");
                    accepted += 1;
                }
                listed => {
                    assert_eq!(listed, Verdict::Rejected { findings, pairs }, "{stream}");
                    rejected += 1;
                }
            }
        }
    }
    assert!(accepted > 100 && rejected > 100);
}

#[test]
fn readable_traces_survive_decoding_and_encoding() {
    let mut readable = 0;
    for stream in 0..4_000 {
        let (_, bytes) = generate::any(&mut Random::new(3, stream));
        if let Ok(notation) = text::decode(&bytes) {
            assert_eq!(text::encode(notation.as_bytes()), Ok(bytes), "{stream}");
            readable += 1;
        }
    }
    assert!(readable > 2_000);
}
