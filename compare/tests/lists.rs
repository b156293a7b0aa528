//! What is said of lists: known answers, two ways to come to them, the buffers of the
//! call, the program, and that lists change nothing for anyone else.

use ferozhak_compare::cases::{self, Case};
use ferozhak_compare::claiming::{claim, Claimed};
use ferozhak_compare::deciding::{decide, strongest, Buffers, Decision, Rooms};
use ferozhak_compare::encode::Writer;
use ferozhak_compare::listing::{list, listing_of, Listing};
use ferozhak_compare::lists::{self, check_listing};
use ferozhak_compare::random::Random;
use ferozhak_compare::report::{Finding, Pair, Verdict};
use ferozhak_compare::trace::{Refusal, Sort, Status, Trace};
use ferozhak_compare::weave::Access;
use ferozhak_compare::workers::Extent;
use ferozhak_compare::{generate, graph, list_cases, list_search, list_traces, process};
use ferozhak_compare::{judge_text, judge_trace, list_text, moving, text, writing};
use std::collections::{BTreeMap, BTreeSet};

fn encode(notation: &str) -> Vec<u8> {
    text::encode(notation.as_bytes()).unwrap()
}

fn read(notation: &str) -> Trace {
    Trace::parse(&encode(notation)).unwrap()
}

/// Random traces with lists, and others, that are not refused.
fn random_traces(seed: u64, count: u64) -> impl Iterator<Item = (u64, Vec<u8>, Trace)> {
    (0..count).filter_map(move |stream| {
        let (_, bytes) = generate::any_with_lists(&mut Random::new(seed, stream));
        let trace = Trace::parse(&bytes).ok()?;
        Some((stream, bytes, trace))
    })
}

#[test]
fn every_case_gives_its_answers() {
    for known in list_cases::all() {
        let (name, bytes) = (known.case.name, &known.case.bytes);
        assert_eq!(list_text(bytes), known.lists, "{name}");
        assert_eq!(judge_text(bytes), known.case.output, "{name}");
    }
}

#[test]
fn known_traces_have_names_of_their_own_and_every_kind_and_refusal() {
    let cases: Vec<Case> = list_cases::all().into_iter().map(|k| k.case).collect();
    let mut names: BTreeSet<&str> = BTreeSet::new();
    let (mut kinds, mut refusals) = (BTreeSet::new(), BTreeSet::new());
    for case in &cases {
        assert!(names.insert(case.name), "{}", case.name);
        match Trace::parse(&case.bytes) {
            Ok(trace) => kinds.extend(listing_of(&trace).findings.iter().map(|f| f.kind)),
            Err(refusal) => drop(refusals.insert(refusal.number)),
        }
    }
    for case in cases::without_lists() {
        assert!(!names.contains(case.name), "{}", case.name);
    }
    assert_eq!(kinds, (7..=11).collect());
    assert_eq!(refusals, (2..=11).chain([17]).collect());
}

#[test]
fn plain_search_comes_to_the_same_on_known_traces() {
    for known in list_cases::all() {
        if let Ok(trace) = Trace::parse(&known.case.bytes) {
            let checked = check_listing(&known.case.bytes, &trace, &listing_of(&trace));
            assert_eq!(checked, Ok(()), "{}", known.case.name);
        }
    }
}

/// How many traces have what there is to be said of lists.
fn said(listing: &Listing, trace: &Trace) -> Vec<&'static str> {
    const KINDS: [&str; 5] = ["kind 7", "kind 8", "kind 9", "kind 10", "kind 11"];
    let kinds: BTreeSet<u8> = listing.findings.iter().map(|f| f.kind).collect();
    let counted = graph::counted(trace);
    let [findings, writes, both] = listing.counts();
    let reads = list_search::clean_lists(trace, &counted);
    let longest = reads.iter().map(|(_, list)| list.len()).max();
    let keys_of = |sort: Sort| trace.operations.iter().any(|o| o.action.sort() == sort);
    let uncounted = |pair: &&Pair| !counted.contains(&pair.first);
    let of_kinds = KINDS
        .into_iter()
        .zip(7..)
        .filter(|(_, k)| kinds.contains(k));
    let others = [
        ("no finding", findings == 0),
        ("a cycle of writes", writes > 0),
        (
            "a cycle of writes, and more over both",
            writes > 0 && both > writes,
        ),
        ("a cycle that needs a read", writes == 0 && both > 0),
        (
            "no cycle, but clean lists of five and more",
            both == 0 && longest >= Some(5),
        ),
        ("a finding and a cycle", findings > 0 && both > 0),
        (
            "reasons 20",
            listing.over_both.iter().any(|pair| pair.reasons == 20),
        ),
        (
            "one that does not count on a cycle",
            listing.over_both.iter().any(|pair| uncounted(&pair)),
        ),
        (
            "both sorts of keys",
            keys_of(Sort::Single) && keys_of(Sort::List),
        ),
        ("a clean list of 32", longest == Some(32)),
    ];
    let others = others.into_iter().filter(|(_, holds)| *holds);
    others
        .chain(of_kinds.map(|(name, _)| (name, true)))
        .map(|(name, _)| name)
        .collect()
}

#[test]
fn plain_search_comes_to_the_same_on_random_traces() {
    let mut found: BTreeMap<&str, usize> = BTreeMap::new();
    for (stream, bytes, trace) in random_traces(51, 6_000) {
        let listing = listing_of(&trace);
        assert_eq!(check_listing(&bytes, &trace, &listing), Ok(()), "{stream}");
        for words in said(&listing, &trace) {
            *found.entry(words).or_default() += 1;
        }
    }
    assert_eq!(found.len(), 15, "{found:#?}");
    for (words, count) in &found {
        assert!(*count >= 20, "{words}: {count}");
    }
}

/// The check finds what is not right, so that it says something.
#[test]
fn an_answer_that_is_not_right_is_seen() {
    let bytes = encode(
        "edition 2; T1 a1=1 a2=1 l3=9; T2 a1=2 a2=2 a1=3; T3 l1=1,2,3 l2=2,1 l1=3 l1=1,2; T4 a1=4",
    );
    let trace = Trace::parse(&bytes).unwrap();
    let right = listing_of(&trace);
    assert_eq!(right.counts(), [3, 2, 2]);
    assert_eq!(check_listing(&bytes, &trace, &right), Ok(()));
    let changes: [fn(&mut Listing); 8] = [
        |listing| listing.findings.truncate(2),
        |listing| listing.findings[0].kind = 8,
        |listing| listing.findings[2].write = 1,
        |listing| listing.findings.swap(0, 1),
        |listing| listing.over_writes.truncate(1),
        |listing| listing.over_both.truncate(1),
        |listing| listing.over_both[0].reasons = 20,
        |listing| listing.over_writes.swap(0, 1),
    ];
    for (number, change) in changes.iter().enumerate() {
        let mut wrong = right.clone();
        change(&mut wrong);
        let checked = check_listing(&bytes, &trace, &wrong);
        assert!(checked.is_err(), "{number}: {wrong:?}");
    }
}

#[test]
fn the_last_field_is_no_other_append() {
    let trace = read(
        "edition 2; T1 a1=1 aborted; T2 a1=2 a1=3; T3 a1=4; \
         T4 l1=9 l1=4,4 l1=1 l1=2 l1=2,3 l1=4",
    );
    let findings = listing_of(&trace).findings;
    assert_eq!(findings.len(), 5);
    for finding in findings {
        for write in 0..=11 {
            let told = Finding { write, ..finding };
            let seen = list_search::tells_append(&trace, &told);
            assert_eq!(seen, write == finding.write, "{told:?}");
        }
    }
}

#[test]
fn the_lists_have_six_and_four_bytes_in_two_buffers() {
    // A finding of 9, a cycle of writes, and over both a pair with two reasons.
    let bytes = encode(
        "edition 2; T1 a1=1 a2=1; T2 l1=1 a1=2 a2=2; T3 l1=1,2 l2=2,1; T4 a3=5 aborted; T5 l3=5",
    );
    let (mut findings, mut pairs) = ([7; 8], [7; 20]);
    assert_eq!(list(&bytes, &mut findings, &mut pairs), Ok([1, 2, 2]));
    assert_eq!(findings, [5, 9, 9, 0, 8, 0, 7, 7]);
    let expected = [1, 2, 16, 0, 2, 1, 16, 0, 1, 2, 20, 0, 2, 1, 16, 0];
    assert_eq!(pairs, [expected.as_slice(), &[7; 4]].concat()[..]);
}

#[test]
fn a_buffer_too_short_is_refused_and_nothing_is_written() {
    let bytes = encode("edition 2; T1 a1=1 a2=1; T2 a1=2 a2=2; T3 l1=1,2 l2=2,1 l4=1 l4=2");
    for (rooms, answer) in [
        ([12, 16], Ok([2, 2, 2])),
        ([13, 17], Ok([2, 2, 2])),
        ([11, 16], Err((12, 12))),
        ([0, 16], Err((12, 12))),
        ([12, 15], Err((13, 16))),
        ([12, 8], Err((13, 16))),
        ([12, 0], Err((13, 16))),
        // The findings first.
        ([11, 15], Err((12, 12))),
        ([0, 0], Err((12, 12))),
    ] {
        let [mut findings, mut pairs] = rooms.map(|room| vec![7; room]);
        let answer = answer.map_err(|(number, place)| Refusal { number, place });
        assert_eq!(list(&bytes, &mut findings, &mut pairs), answer, "{rooms:?}");
        if answer.is_err() {
            assert_eq!([findings, pairs], rooms.map(|room| vec![7; room]));
        }
    }
    // What has nothing to be told needs no room, and what is refused says so first.
    let clean = encode("edition 2; T1 a1=5; T2 l1=5");
    assert_eq!(list(&clean, &mut [], &mut []), Ok([0, 0, 0]));
    let mixed = encode("edition 2; T1 l1=9 r1=0");
    let refusal = Refusal {
        number: 17,
        place: 44,
    };
    assert_eq!(list(&mixed, &mut [], &mut []), Err(refusal));
}

/// The findings of a trace with the numbers that its operations on single values have
/// among themselves.
fn without_numbers_of_lists(trace: &Trace, findings: &[Finding]) -> Vec<Finding> {
    let mut numbers = vec![0];
    for operation in &trace.operations {
        let last = numbers.iter().max().copied().unwrap_or(0);
        numbers.push(match operation.action.sort() {
            Sort::Single => last + 1,
            Sort::List => 0,
        });
    }
    let number = |n: u16| numbers[usize::from(n)];
    let renumbered = findings.iter().map(|finding| Finding {
        operation: number(finding.operation),
        write: number(finding.write),
        ..*finding
    });
    renumbered.collect()
}

/// "Demands 2 and 3 and request Two's set go on reading only the single-value keys":
/// with its lists left out a trace is judged as it is with them.
#[test]
fn lists_change_nothing_that_the_levels_say() {
    let (mut with_lists, mut findings) = (0, 0);
    for (stream, bytes, trace) in random_traces(52, 4_000) {
        let without = Trace::parse(&list_traces::left_out(&bytes)).unwrap();
        assert!(!without.has_lists());
        assert_eq!(graph::counted(&trace), graph::counted(&without), "{stream}");
        for (one, other) in judge_trace(&trace).iter().zip(&judge_trace(&without)) {
            let renumbered = match one.clone() {
                Verdict::Rejected { findings, pairs } => Verdict::Rejected {
                    findings: without_numbers_of_lists(&trace, &findings),
                    pairs,
                },
                accepted => accepted,
            };
            assert_eq!(renumbered, *other, "{stream}");
            findings += one.findings().len();
        }
        with_lists += usize::from(trace.has_lists());
    }
    assert!(
        with_lists > 2_000 && findings > 1_000,
        "{with_lists} {findings}"
    );
}

/// Where all commits are answered, single values change nothing of what is said of
/// lists but numbers.
#[test]
fn single_values_change_nothing_that_is_said_of_lists() {
    let mut seen = 0;
    for (stream, _, trace) in random_traces(53, 4_000) {
        if trace.with_status(Status::Unanswered).next().is_some() {
            continue;
        }
        let mut lists_only = trace.clone();
        let operations = &mut lists_only.operations;
        operations.retain(|o| o.action.sort() == Sort::List);
        let without = written_anew(&lists_only);
        let unclean = |trace: &Trace| -> Vec<(u8, u8, Option<Vec<u64>>)> {
            let findings = listing_of(trace).findings.into_iter();
            let list = |n: u16| trace.operation(n).action.list().map(<[u64]>::to_vec);
            findings
                .map(|f| (f.transaction, f.kind, list(f.operation)))
                .collect()
        };
        assert_eq!(unclean(&trace), unclean(&without), "{stream}");
        let (one, other) = (listing_of(&trace), listing_of(&without));
        assert_eq!(one.over_writes, other.over_writes, "{stream}");
        assert_eq!(one.over_both, other.over_both, "{stream}");
        seen += usize::from(one != Listing::default());
    }
    assert!(seen > 300, "{seen}");
}

/// The same transactions with the operations that are left, numbered anew.
fn written_anew(trace: &Trace) -> Trace {
    let mut writer = Writer::edition_2(0);
    // One session for each, all of them open at once.
    for number in (1..).take(trace.transactions.len()) {
        writer.open(number);
    }
    for operation in &trace.operations {
        let access = Access {
            key: operation.key,
            action: operation.action.clone(),
        };
        access.put(&mut writer, operation.transaction.into());
    }
    for (number, transaction) in (1..).zip(&trace.transactions) {
        writer.close_in(number, transaction.status as u8);
    }
    Trace::parse(&writer.end()).unwrap()
}

/// Every call that reads a trace gives number 17.
#[test]
fn a_mixed_key_is_refused_everywhere() {
    let bytes = encode("edition 2; T1 w1=5 aborted; T2 l1=5");
    let refusal = Refusal {
        number: 17,
        place: 63,
    };
    assert_eq!(judge_text(&bytes), "refused 17 63\n");
    assert_eq!(list_text(&bytes), "refused 17 63\n");
    assert_eq!(text::decode(&bytes), Err(refusal));
    assert_eq!(strongest(&bytes), 0);
    let mut buffers = Buffers::full_of(0, &Rooms::AMPLE);
    for level in 1..=3 {
        assert_eq!(decide(&bytes, level, &mut buffers), Decision::NoTrace);
        let counts = [0, 0, 0, 17, 63].map(u32::to_le_bytes).concat();
        assert_eq!(buffers.counts, counts);
        assert_eq!(claim(&bytes, level, &[0]), Claimed::Refused(refusal));
    }
    for answer in [
        writing::steps_of(&bytes, 0),
        writing::rewrite(&bytes, 0),
        moving::to_edition_1(&bytes, 0),
        moving::to_edition_2(&bytes, 0).map(|(moved, _)| moved),
    ] {
        assert_eq!(answer, Err(refusal));
    }
}

const JUDGE: &str = env!("CARGO_BIN_EXE_rustjudge");

#[test]
fn a_run_of_the_program_prints_what_is_said() {
    let command = format!("{JUDGE} --lists");
    let run = |input: &[u8]| {
        let ended = process::run_keeping_error(&command, &[], input).unwrap();
        assert_eq!((ended.failure, ended.error), (None, vec![]));
        String::from_utf8(ended.output).unwrap()
    };
    for known in list_cases::kinds()
        .iter()
        .chain(&list_cases::write_dependencies())
    {
        assert_eq!(run(&known.case.bytes), known.lists, "{}", known.case.name);
    }
    assert_eq!(run(&[]), "refused 3 0\n");
    assert_eq!(run(&vec![0; 100_000]), "refused 2 32768\n");
    assert_eq!(run(&encode("T1 r1=5")), "lists 0 0 0\n");
}

fn compare_with(command: &str, traces: usize) -> (String, bool) {
    let extent = Extent {
        traces,
        seed: 8,
        threads: 2,
    };
    let (summary, difference) = lists::compare(command, &extent);
    (summary, difference.is_some())
}

#[test]
fn the_comparison_finds_no_difference_from_itself() {
    let (summary, differs) = compare_with(&format!("{JUDGE} --lists"), 60);
    assert!(!differs, "{summary}");
    let count = cases::without_lists().len() + list_cases::all().len() + 60;
    let beginning = format!("{count} traces of seed 8, their lists judged");
    assert!(summary.starts_with(&beginning), "{summary}");
}

#[test]
fn the_comparison_finds_programs_that_answer_otherwise() {
    for command in ["/bin/cat", "/bin/true", "/no/such/program", JUDGE] {
        let (_, differs) = compare_with(command, 0);
        assert!(differs, "{command}");
    }
}
