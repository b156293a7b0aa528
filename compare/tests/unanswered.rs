//! Unanswered commits: what counts as committed, whatever decides it, and
//! whether the random traces have every way to count and not to count.

use ferozhak_compare::random::Random;
use ferozhak_compare::report::{Level, Verdict};
use ferozhak_compare::trace::{Operation, Status, Trace};
use ferozhak_compare::{brute, generate, graph, judge_trace, text};
use std::collections::BTreeMap;

fn read(notation: &str) -> Trace {
    Trace::parse(&text::encode(notation.as_bytes()).unwrap()).unwrap()
}

fn random_traces(seed: u64, count: u64) -> impl Iterator<Item = (u64, Trace)> {
    (0..count).filter_map(move |stream| {
        let (_, bytes) = generate::any(&mut Random::new(seed, stream));
        Some((stream, Trace::parse(&bytes).ok()?))
    })
}

fn is_accepted(verdict: &Verdict) -> bool {
    matches!(verdict, Verdict::Accepted(_))
}

#[test]
fn what_counts_is_found_both_ways() {
    for (notation, counted) in [
        ("", vec![0]),
        ("T1 unanswered; T2 aborted; T3", vec![0, 3]),
        ("T1 w1=5 unanswered; T2 r1=5", vec![0, 1, 2]),
        ("T1 r1=5; T2 w1=5 unanswered", vec![0, 1, 2]),
        ("T1 w1=5 r1=5 unanswered", vec![0]),
        ("T1 w1=5 unanswered; T2 r1=5 aborted", vec![0]),
        ("T1 w1=5 unanswered; T2 r1=5 unanswered", vec![0]),
        (
            "T1 r2=7 w1=5 unanswered; T2 r1=5 w2=7 unanswered; T3",
            vec![0, 3],
        ),
        (
            "T1 r2=7 w1=5 unanswered; T2 r1=5 w2=7 unanswered; T3 r2=7",
            vec![0, 1, 2, 3],
        ),
        // Each of these reads is unclean: 6, 5, and 3 beside a clean one.
        ("T1 w1=5 w1=6 unanswered; T2 r1=5", vec![0, 1, 2]),
        ("T1 w1=5 unanswered; T2 w1=6 r1=5", vec![0, 1, 2]),
        ("T1 r2=9 r1=5 w1=5 unanswered; T2 w2=9", vec![0, 2]),
    ] {
        let trace = read(notation);
        assert_eq!(graph::counted(&trace), counted, "{notation}");
        assert!(brute::counts_exactly(&trace, &counted), "{notation}");
        assert_eq!(brute::counted(&trace), Some(counted), "{notation}");
    }
}

#[test]
fn the_smallest_set_is_not_the_only_one() {
    let trace = read("T1 r2=7 w1=5 unanswered; T2 r1=5 w2=7 unanswered");
    for (set, is_such) in [
        (vec![0], true),
        (vec![0, 1], false),
        (vec![0, 2], false),
        (vec![0, 1, 2], true),
    ] {
        assert_eq!(brute::counts_exactly(&trace, &set), is_such, "{set:?}");
    }
    assert_eq!(brute::counted(&trace), Some(vec![0]));
}

#[test]
fn too_many_unanswered_are_not_tried() {
    let unanswered = |count: usize| -> String {
        let one = |n| format!("T{n} w1={n} unanswered; ");
        (1..=count).map(one).collect()
    };
    let most = read(&unanswered(brute::MOST_UNANSWERED));
    assert_eq!(brute::counted(&most), Some(vec![0]));
    let tried = brute::answered(&most).unwrap();
    assert_eq!(tried.len(), 1 << brute::MOST_UNANSWERED);
    assert!(brute::judge(&most, Level::Causal).is_none());
    let more = read(&unanswered(brute::MOST_UNANSWERED + 1));
    assert_eq!(brute::counted(&more), None);
    assert!(brute::answered(&more).is_none());
    assert_eq!(graph::counted(&more), [0]);
}

#[test]
fn each_choice_is_entered_once_and_leaves_nothing_open() {
    let trace = read("T1 unanswered; T2; T3 aborted; T4 unanswered");
    let statuses: Vec<Vec<u8>> = brute::answered(&trace)
        .unwrap()
        .iter()
        .map(|t| t.transactions.iter().map(|t| t.status as u8).collect())
        .collect();
    assert_eq!(
        statuses,
        [[0, 1, 0, 0], [1, 1, 0, 0], [0, 1, 0, 1], [1, 1, 0, 1]]
    );
}

#[test]
fn what_counts_in_random_traces_is_the_smallest_closed_choice() {
    let mut with_unanswered = 0;
    for (stream, trace) in random_traces(9, 4_000) {
        if let Some(smallest) = brute::counted(&trace) {
            assert_eq!(graph::counted(&trace), smallest, "{stream}");
            assert!(brute::counts_exactly(&trace, &smallest), "{stream}");
            let unanswered = trace.with_status(Status::Unanswered).count();
            with_unanswered += usize::from(unanswered > 0);
        }
    }
    assert!(with_unanswered > 1_000, "{with_unanswered}");
}

#[test]
fn accepted_exactly_if_some_choice_is() {
    let (mut accepted, mut rejected) = (0, 0);
    for (stream, trace) in random_traces(10, 4_000) {
        if !(1..=5).contains(&trace.with_status(Status::Unanswered).count()) {
            continue;
        }
        let choices: Vec<_> = brute::answered(&trace)
            .unwrap()
            .iter()
            .map(judge_trace)
            .collect();
        let ours = judge_trace(&trace);
        for (index, level) in Level::ALL.into_iter().enumerate() {
            let some = choices.iter().any(|verdicts| is_accepted(&verdicts[index]));
            assert_eq!(is_accepted(&ours[index]), some, "{stream}");
            if let Some(outcome) = brute::judge(&trace, level) {
                assert_eq!(outcome.some_choice, some, "{stream}");
            }
            accepted += usize::from(some);
            rejected += usize::from(!some);
        }
    }
    assert!(accepted > 500 && rejected > 200, "{accepted} {rejected}");
}

/// Who reads whose value, for the questions below.
struct Readers<'a> {
    trace: &'a Trace,
    counted: Vec<u8>,
    /// The indexes of unclean reads of transactions that count.
    unclean: Vec<usize>,
}

impl<'a> Readers<'a> {
    fn new(trace: &'a Trace) -> Readers<'a> {
        let [verdict, ..] = judge_trace(trace);
        let unclean = verdict.findings().iter();
        Readers {
            trace,
            counted: graph::counted(trace),
            unclean: unclean.map(|f| usize::from(f.operation) - 1).collect(),
        }
    }

    fn counts(&self, t: u8) -> bool {
        self.counted.contains(&t)
    }

    fn has(&self, t: u8, status: Status) -> bool {
        self.trace.transactions[usize::from(t) - 1].status == status
    }

    /// The reads of values of `t`, with their indexes.
    fn reads_of(&self, t: u8) -> Vec<(usize, &Operation)> {
        let is_of = |op: &Operation| {
            let write = self.trace.find_write(op.key, op.action.read()?)?;
            Some(self.trace.operation(write).transaction)
        };
        let operations = self.trace.operations.iter().enumerate();
        operations.filter(|(_, op)| is_of(op) == Some(t)).collect()
    }

    /// The others that read a value of `t`.
    fn others(&self, t: u8) -> Vec<u8> {
        let mut others: Vec<u8> = self
            .reads_of(t)
            .iter()
            .map(|(_, op)| op.transaction)
            .filter(|&reader| reader != t)
            .collect();
        others.dedup();
        others
    }

    /// How many unanswered ones follow `t` of which each is the only reader of
    /// the one before it, and its number is by `step` greater.
    fn chain(&self, t: u8, step: i16) -> usize {
        let follows = |other: u8| i16::from(other) == i16::from(t) + step;
        match self.others(t)[..] {
            [only] if follows(only) && self.has(only, Status::Unanswered) => {
                1 + self.chain(only, step)
            }
            _ => 0,
        }
    }

    /// What there is to say of an unanswered transaction.
    fn describe(&self, t: u8) -> Vec<&'static str> {
        let others = self.others(t);
        let all = |status| others.iter().all(|&other| self.has(other, status));
        let some = |status| others.iter().any(|&other| self.has(other, status));
        let mutual = others
            .iter()
            .any(|&other| self.has(other, Status::Unanswered) && self.others(other).contains(&t));
        let by_itself = self.reads_of(t).iter().any(|(_, op)| op.transaction == t);
        let all_unclean = self
            .reads_of(t)
            .iter()
            .filter(|(_, op)| op.transaction != t && self.counts(op.transaction))
            .all(|(index, _)| self.unclean.contains(index));
        let long = |step| self.chain(t, step) >= 3;
        let no_others = others.is_empty();
        let counts = self.counts(t);
        [
            (no_others && !by_itself, "read by nobody"),
            (no_others && by_itself, "read by itself only"),
            (
                !no_others && all(Status::Aborted),
                "read by aborted ones only",
            ),
            (some(Status::Committed), "read by a committed one"),
            (
                counts && all(Status::Unanswered),
                "counted by unanswered ones only",
            ),
            (
                !counts && some(Status::Unanswered),
                "read by an unanswered one, not counted",
            ),
            (counts && mutual, "reads its reader, counted"),
            (!counts && mutual, "reads its reader, not counted"),
            (counts && all_unclean, "counted by unclean reads only"),
            (counts && long(1), "chain to the next, counted"),
            (!counts && long(1), "chain to the next, not counted"),
            (counts && long(-1), "chain to the one before, counted"),
            (!counts && long(-1), "chain to the one before, not counted"),
        ]
        .into_iter()
        .filter_map(|(holds, words)| holds.then_some(words))
        .collect()
    }
}

#[test]
fn random_traces_have_every_way_to_count() {
    // Traces that have such a transaction, and of these the accepted ones.
    let mut found: BTreeMap<&str, [usize; 2]> = BTreeMap::new();
    for (_, trace) in random_traces(11, 3_000) {
        let readers = Readers::new(&trace);
        let mut words: Vec<&str> = trace
            .with_status(Status::Unanswered)
            .flat_map(|t| readers.describe(t))
            .collect();
        words.sort_unstable();
        words.dedup();
        let accepted = is_accepted(&judge_trace(&trace)[0]);
        for word in words {
            let [all, good] = found.entry(word).or_default();
            *all += 1;
            *good += usize::from(accepted);
        }
    }
    assert_eq!(found.len(), 13, "{found:#?}");
    for (word, [all, good]) in &found {
        assert!(*all >= 25, "{word}: {all}");
        // An unclean read is a finding, and two that read each other a cycle.
        let never = word.contains("unclean") || *word == "reads its reader, counted";
        assert!(never || *good >= 10, "{word}: {good} of {all}");
    }
}
