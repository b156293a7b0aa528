//! Traces whose keys share a bucket, known and random.

use ferozhak_compare::cases::Case;
use ferozhak_compare::random::Random;
use ferozhak_compare::report::{Level, Verdict};
use ferozhak_compare::trace::{Action, Edition, Trace};
use ferozhak_compare::weave::{self, Whole};
use ferozhak_compare::{brute, bucket_cases, generate, graph, judge_one, judge_text};
use std::collections::{BTreeSet, HashMap};

/// What a judge would print that takes the keys of a bucket for one key, though it
/// finds the write of each read.
fn judged_by_buckets(trace: &Trace, modulus: u32) -> String {
    let mut written = HashMap::new();
    let mut wholes: Vec<Whole> = weave::without_lists(&weave::wholes(trace));
    for operation in wholes.iter_mut().flat_map(|whole| &mut whole.operations) {
        // Another value for each key and value, or writes would be repeated.
        if let Action::Read(value) | Action::Write(value) = &mut operation.action {
            if *value != 0 {
                let next = written.len() as u64 + 1;
                *value = *written.entry((operation.key, *value)).or_insert(next);
            }
        }
        operation.key %= modulus;
    }
    judge_text(&weave::blocks(Edition::One, 0, &wholes))
}

#[test]
fn known_traces_would_be_judged_otherwise_by_buckets() {
    let mut cases: Vec<Case> = bucket_cases::no_rival();
    cases.extend(bucket_cases::beside_a_rival());
    cases.extend(bucket_cases::many_reads());
    for case in cases {
        let by_buckets = judged_by_buckets(&Trace::parse(&case.bytes).unwrap(), 64);
        assert!(!by_buckets.starts_with("refused"), "{}", case.name);
        assert_ne!(by_buckets, case.output, "{}", case.name);
    }
}

/// The second decider searches for rivals by comparing keys.
#[test]
fn the_two_deciders_agree_on_known_traces() {
    for case in bucket_cases::all() {
        let Ok(trace) = Trace::parse(&case.bytes) else {
            continue;
        };
        for level in Level::ALL {
            let graph = judge_one(&case.bytes, level).unwrap();
            if let Some(outcome) = brute::judge(&trace, level) {
                assert_eq!(outcome.verdict, graph, "{}", case.name);
            }
            let counted = graph::counted(&trace);
            let (findings, pairs) = brute::lists(&trace, &counted, level);
            let searched = match brute::order(&trace, &counted, level) {
                Some(order) if findings.is_empty() => Verdict::Accepted(order),
                _ => Verdict::Rejected { findings, pairs },
            };
            assert_eq!(searched, graph, "{}", case.name);
        }
    }
}

#[test]
fn random_traces_have_keys_that_share_a_bucket() {
    let (mut some_keys, mut sharing_64, mut sharing_128, mut top_bits) = (0, 0, 0, 0);
    let (mut otherwise, mut lowest, mut highest) = (0, 0, 0);
    for stream in 0..4_000 {
        let (_, bytes) = generate::any(&mut Random::new(41, stream));
        let Ok(trace) = Trace::parse(&bytes) else {
            continue;
        };
        let keys: BTreeSet<u32> = trace.operations.iter().map(|o| o.key).collect();
        if keys.len() < 2 {
            continue;
        }
        let modulo = |modulus: u32| {
            let remainders: BTreeSet<u32> = keys.iter().map(|key| key % modulus).collect();
            remainders.len()
        };
        some_keys += 1;
        sharing_64 += usize::from(modulo(64) < modulo(128));
        top_bits += usize::from(modulo(1 << 25) < keys.len());
        lowest += usize::from(keys.contains(&0) && keys.contains(&128));
        highest += usize::from(keys.contains(&u32::MAX) && keys.contains(&(u32::MAX - 128)));
        if modulo(128) < keys.len() {
            sharing_128 += 1;
            let blocks = weave::blocks(Edition::One, 0, &weave::wholes(&trace));
            otherwise += usize::from(judged_by_buckets(&trace, 128) != judge_text(&blocks));
        }
    }
    assert!(some_keys > 1_500);
    assert!(sharing_128 > some_keys / 8 && sharing_128 < some_keys / 2);
    assert!(otherwise > sharing_128 / 3);
    assert!(sharing_64 > 50 && top_bits > 25 && lowest > 10 && highest > 10);
}
