//! The latest known transaction of every session: that such vectors say the same as
//! the judge's own way to tell what leads to what, and whether the traces that are
//! aimed at them would show a judge that is mistaken about them.

use ferozhak_compare::encode::Writer;
use ferozhak_compare::graph::{self, BasicPairs, History};
use ferozhak_compare::random::Random;
use ferozhak_compare::report::Level;
use ferozhak_compare::trace::{Action, Edition, Status, Trace, MAX_TRANSACTIONS};
use ferozhak_compare::vectors::Vectors;
use ferozhak_compare::{brute, generate, judge_one, judge_trace, text, vector_cases, weave};
use std::collections::{BTreeMap, BTreeSet};

fn read(notation: &str) -> Trace {
    Trace::parse(&text::encode(notation.as_bytes()).unwrap()).unwrap()
}

/// Random traces of all origins that are not refused.
fn random_traces(seed: u64, count: u64) -> impl Iterator<Item = Trace> {
    (0..count).filter_map(move |stream| {
        let (_, bytes) = generate::any(&mut Random::new(seed, stream));
        Trace::parse(&bytes).ok()
    })
}

/// Those that are aimed at vectors, of both editions by turns.
fn aimed_traces(seed: u64, count: u64) -> impl Iterator<Item = (Vec<u8>, Trace)> {
    (0..count).map(move |stream| {
        let edition = match stream % 2 {
            0 => Edition::One,
            _ => Edition::Two,
        };
        let bytes = vector_cases::drawn(&mut Random::new(seed, stream), edition);
        let trace = Trace::parse(&bytes).expect("none of them is refused");
        (bytes, trace)
    })
}

/// The same transactions opened in another order: as blocks, or woven together.
fn rearranged(random: &mut Random, trace: &Trace) -> Trace {
    let mut wholes = weave::without_lists(&weave::wholes(trace));
    random.shuffle(&mut wholes);
    let bytes = match random.percent(50) {
        true => weave::blocks(Edition::One, 0, &wholes),
        false => {
            let turns = weave::at_random(random, 8, 60);
            weave::weave(Writer::edition_2(0), &wholes, turns)
        }
    };
    Trace::parse(&bytes).expect("the same transactions make a trace")
}

fn pairs_of(trace: &Trace) -> BasicPairs {
    History::new(trace).basic_pairs()
}

fn session_of(trace: &Trace, transaction: u8) -> u16 {
    trace.transactions[usize::from(transaction) - 1].session
}

/// Every two different transactions besides 0, also those that do not count.
fn twos(trace: &Trace) -> impl Iterator<Item = (u8, u8)> {
    let last = trace.transactions.len() as u8;
    let all = (1..=last).flat_map(move |a| (1..=last).map(move |b| (a, b)));
    all.filter(|(a, b)| a != b)
}

/// How many traces there were, and of how many twos the one leads to the other.
#[derive(Default)]
struct Seen {
    with_cycle: usize,
    without_cycle: usize,
    /// Traces with a transaction that does not count.
    with_uncounted: usize,
    leading: usize,
    not_leading: usize,
}

impl Seen {
    /// Vectors of either reading say what the judge's own way says of every two; those
    /// that do not count say nothing. Merged ones are the same, but for a cycle.
    fn look_at(&mut self, trace: &Trace) {
        let pairs = pairs_of(trace);
        let vectors = Vectors::new(trace, &pairs);
        let with_own = vectors.clone().with_own();
        let counted = graph::counted(trace);
        for (a, b) in twos(trace) {
            let leads = pairs.leads(a, b);
            let both_count = counted.contains(&a) && counted.contains(&b);
            assert!(both_count || !leads, "{a} {b} in {trace:?}");
            assert_eq!(vectors.says(a, b), leads, "{a} {b} in {trace:?}");
            assert_eq!(with_own.says(a, b), leads, "{a} {b} in {trace:?}");
            assert_eq!(with_own.at_most(a, b), leads, "{a} {b} in {trace:?}");
            self.leading += usize::from(leads);
            self.not_leading += usize::from(!leads);
        }
        for t in 0..=MAX_TRANSACTIONS as u8 {
            let has_one = t != 0 && counted.contains(&t);
            assert_eq!(vectors.of(t).is_some(), has_one, "{t} in {trace:?}");
            assert!(!vectors.says(0, t) && !vectors.says(t, 0));
        }
        let merged = Vectors::merged(trace, &pairs);
        match pairs.form_cycle() {
            true => {
                assert_eq!(merged, None, "{trace:?}");
                self.with_cycle += 1;
            }
            false => {
                assert_eq!(merged, Some(vectors), "{trace:?}");
                self.without_cycle += 1;
            }
        }
        self.with_uncounted += usize::from(counted.len() <= trace.transactions.len());
    }
}

#[test]
fn vectors_say_what_leads_to_what() {
    let mut seen = Seen::default();
    for (stream, trace) in (0..).zip(random_traces(51, 3_000)) {
        seen.look_at(&trace);
        seen.look_at(&rearranged(&mut Random::new(52, stream), &trace));
    }
    assert!(seen.without_cycle > 3_000 && seen.with_cycle > 600);
    assert!(seen.with_uncounted > 2_000);
    assert!(seen.leading > 1_000_000 && seen.not_leading > 1_000_000);
}

#[test]
fn vectors_say_it_where_much_hangs_on_them() {
    let mut seen = Seen::default();
    for (stream, (_, trace)) in (0..).zip(aimed_traces(53, 1_500)) {
        seen.look_at(&trace);
        seen.look_at(&rearranged(&mut Random::new(54, stream), &trace));
    }
    assert!(seen.without_cycle > 1_000 && seen.with_cycle > 1_000);
    assert!(seen.with_uncounted > 1_500);
    assert!(seen.leading > 1_000_000 && seen.not_leading > 1_000_000);
}

/// So level 3 may ask them, whichever reading they are of.
#[test]
fn level_3_by_vectors_answers_the_same() {
    let aimed = aimed_traces(55, 500).map(|(_, trace)| trace);
    for trace in aimed.chain(random_traces(56, 1_000)) {
        let history = History::new(&trace);
        let vectors = Vectors::new(&trace, &history.basic_pairs());
        let with_own = vectors.clone().with_own();
        let verdict = history.judge(Level::Causal);
        assert_eq!(history.judge_causal_by(|a, b| vectors.says(a, b)), verdict);
        assert_eq!(
            history.judge_causal_by(|a, b| with_own.at_most(a, b)),
            verdict
        );
    }
}

/// The entries of sessions 1 and 2 for each transaction of a trace.
fn entries(trace: &Trace, vectors: &Vectors) -> Vec<(u8, u8)> {
    let entries = |t| vectors.of(t).map(|v| (v.latest(1), v.latest(2)));
    let last = trace.transactions.len() as u8;
    (1..=last).map(|t| entries(t).unwrap_or_default()).collect()
}

/// Source 002 has ⟨3, 2⟩ for the third of the first session, which knows the second of
/// the second one, and ⟨0, 1⟩ for the first of the second session; entries there are
/// places in a session. Here the second session has T6 and T7.
#[test]
fn figure_5_of_source_002() {
    let case = &vector_cases::figure_5()[0];
    let trace = Trace::parse(&case.bytes).unwrap();
    let pairs = pairs_of(&trace);
    let vectors = Vectors::new(&trace, &pairs);
    assert_eq!(
        entries(&trace, &vectors),
        [(0, 0), (1, 0), (2, 7), (3, 7), (4, 7), (0, 0), (0, 6)]
    );
    let with_own = vectors.clone().with_own();
    assert_eq!(
        entries(&trace, &with_own),
        [(1, 0), (2, 0), (3, 7), (4, 7), (5, 7), (0, 6), (0, 7)]
    );
    assert_eq!(Vectors::merged(&trace, &pairs), Some(vectors.clone()));
    // By way of T7 and T3; but T2 knows nothing of the second session.
    assert!(vectors.says(6, 5) && with_own.at_most(6, 5));
    assert!(!vectors.says(6, 2) && !with_own.at_most(6, 2));
    assert!(!vectors.says(3, 7) && !with_own.at_most(3, 7));
}

/// T4 knows T3, the latest of session 1, and so T1; T2 does not count.
#[test]
fn those_that_do_not_count_say_nothing() {
    for status in ["aborted", "unanswered"] {
        let trace = read(&format!("T1 s1; T2 s1 {status}; T3 s1 w1=1; T4 s2 r1=1"));
        let pairs = pairs_of(&trace);
        let vectors = Vectors::new(&trace, &pairs);
        assert_eq!(
            entries(&trace, &vectors),
            [(0, 0), (0, 0), (1, 0), (3, 0)],
            "{status}"
        );
        let said: Vec<u8> = (0..=4).filter(|&a| vectors.says(a, 4)).collect();
        assert_eq!(said, [1, 3]);
        assert!((0..=4).all(|b| !vectors.says(2, b) && !vectors.says(b, 2)));
        assert_eq!(Vectors::merged(&trace, &pairs), Some(vectors));
    }
}

/// T1 reads from T3, so that each of session 1 leads to each, itself among them.
#[test]
fn with_a_cycle_a_transaction_may_know_itself() {
    let trace = read("T1 s1 r1=5; T2 s1 w2=6; T3 s1 w1=5; T4 s2 r2=6");
    let pairs = pairs_of(&trace);
    let vectors = Vectors::new(&trace, &pairs);
    assert_eq!(entries(&trace, &vectors), [(3, 0), (3, 0), (3, 0), (3, 0)]);
    assert!((1..=3).all(|a| vectors.says(a, a)));
    assert!(!vectors.says(4, 4) && !vectors.says(4, 1));
    assert_eq!(Vectors::merged(&trace, &pairs), None);
}

/// The second decider has its own search for what leads to what.
#[test]
fn the_two_deciders_agree_on_known_traces() {
    for case in vector_cases::all() {
        let trace = Trace::parse(&case.bytes).unwrap();
        for level in Level::ALL {
            let outcome = brute::judge(&trace, level).expect("few transactions");
            let graph = judge_one(&case.bytes, level).unwrap();
            assert_eq!(outcome.verdict, graph, "{}", case.name);
        }
    }
}

/// What a judge may get wrong about vectors.
#[derive(Clone, Copy, Debug, PartialEq, Eq, PartialOrd, Ord)]
enum Mistake {
    /// Nothing, but vectors are used although there is a cycle.
    Cycle,
    /// Each is told by its sources in the order of numbers, though these may not yet
    /// have been told themselves.
    ByNumber,
    /// A source tells its vector, but not itself.
    NotItself,
    /// A source tells itself, but not its vector.
    NotItsVector,
    /// The entry that is told last stands, not the greatest.
    LastStands,
    /// Only those before the latest known one are taken for known.
    NotTheLatest,
    /// Sessions go by one of their bytes.
    LowByte,
    HighByte,
}

impl Mistake {
    const ALL: [Mistake; 8] = [
        Mistake::Cycle,
        Mistake::ByNumber,
        Mistake::NotItself,
        Mistake::NotItsVector,
        Mistake::LastStands,
        Mistake::NotTheLatest,
        Mistake::LowByte,
        Mistake::HighByte,
    ];

    /// Whether a judge with this mistake would answer otherwise at level 3.
    fn shows(self, trace: &Trace) -> bool {
        let history = History::new(trace);
        let pairs = history.basic_pairs();
        if pairs.form_cycle() != (self == Mistake::Cycle) {
            return false;
        }
        let vectors = self.vectors(trace, &pairs);
        let leads = |a: u8, b: u8| {
            let latest = vectors[&b].get(&self.session(trace, a));
            latest.is_some_and(|&latest| match self {
                Mistake::NotTheLatest => latest > a,
                _ => latest >= a,
            })
        };
        history.judge_causal_by(leads) != history.judge(Level::Causal)
    }

    fn session(self, trace: &Trace, t: u8) -> u16 {
        let session = session_of(trace, t);
        match self {
            Mistake::LowByte => session % 256,
            Mistake::HighByte => session / 256,
            _ => session,
        }
    }

    /// Merged along the pairs, each told by the greatest source first.
    fn vectors(self, trace: &Trace, pairs: &BasicPairs) -> BTreeMap<u8, BTreeMap<u16, u8>> {
        let mut vectors: BTreeMap<u8, BTreeMap<u16, u8>> = BTreeMap::new();
        let counted = graph::counted(trace);
        for t in self.order(&counted[1..], pairs) {
            let mut told = Vec::new();
            for &source in counted[1..].iter().rev().filter(|&&s| pairs.has(s, t)) {
                if self != Mistake::NotItself {
                    told.push((self.session(trace, source), source));
                }
                if self != Mistake::NotItsVector {
                    told.extend(vectors.get(&source).cloned().unwrap_or_default());
                }
            }
            let vector = vectors.entry(t).or_default();
            for (session, other) in told {
                let latest = vector.entry(session).or_default();
                *latest = match self {
                    Mistake::LastStands => other,
                    _ => other.max(*latest),
                };
            }
        }
        vectors
    }

    /// An order that has every pair; where there is none, or by mistake, by number.
    fn order(self, among: &[u8], pairs: &BasicPairs) -> Vec<u8> {
        let mut order = Vec::new();
        let mut left = among.to_vec();
        while !left.is_empty() {
            let is_free = |&t: &u8| left.iter().all(|&other| !pairs.has(other, t));
            let free = left.iter().position(is_free);
            let next = match self {
                Mistake::ByNumber => 0,
                _ => free.unwrap_or(0),
            };
            order.push(left.remove(next));
        }
        order
    }
}

#[test]
fn known_traces_show_each_mistake() {
    let cases = vector_cases::all();
    let traces: Vec<Trace> = cases
        .iter()
        .map(|case| Trace::parse(&case.bytes).unwrap())
        .collect();
    for mistake in Mistake::ALL {
        assert!(traces.iter().any(|t| mistake.shows(t)), "{mistake:?}");
    }
}

#[test]
fn random_traces_show_each_mistake() {
    let mut shown = [0; Mistake::ALL.len()];
    for (_, trace) in aimed_traces(57, 400) {
        for (count, mistake) in shown.iter_mut().zip(Mistake::ALL) {
            *count += usize::from(mistake.shows(&trace));
        }
    }
    assert!(shown.iter().all(|&count| count >= 10), "{shown:?}");
}

/// A trace with what is known of it.
struct Known<'a> {
    trace: &'a Trace,
    /// Those that count, besides 0.
    counted: BTreeSet<u8>,
    pairs: BasicPairs,
    vectors: Vectors,
}

impl Known<'_> {
    fn new(trace: &Trace) -> Known<'_> {
        let pairs = pairs_of(trace);
        Known {
            trace,
            counted: graph::counted(trace).into_iter().skip(1).collect(),
            vectors: Vectors::new(trace, &pairs),
            pairs,
        }
    }

    fn all(&self) -> std::ops::RangeInclusive<u8> {
        1..=self.trace.transactions.len() as u8
    }

    fn session(&self, t: u8) -> u16 {
        session_of(self.trace, t)
    }

    fn status(&self, t: u8) -> Status {
        self.trace.transactions[usize::from(t) - 1].status
    }

    /// How many each leads to and that lead to it.
    fn on_cycles(&self) -> Vec<usize> {
        let is_mutual = |a, b| self.pairs.leads(a, b) && self.pairs.leads(b, a);
        let members = |a| self.all().filter(|&b| is_mutual(a, b)).count();
        self.all().map(members).collect()
    }

    /// Whether one reads from a later one of its session.
    fn has_cycle_in_a_session(&self) -> bool {
        let is_own = |a, b| self.session(a) == self.session(b);
        twos(self.trace).any(|(a, b)| a > b && is_own(a, b) && self.pairs.has(a, b))
    }

    /// Whether there is no cycle, but would be one if all were committed.
    fn nearly_has_cycle(&self) -> bool {
        let mut committed = self.trace.clone();
        for transaction in &mut committed.transactions {
            transaction.status = Status::Committed;
        }
        !self.pairs.form_cycle() && pairs_of(&committed).form_cycle()
    }

    /// Whether of every two that count the one leads to the other, and no more.
    fn is_chain(&self) -> bool {
        let either = |a, b| self.pairs.leads(a, b) != self.pairs.leads(b, a);
        let mut twos =
            twos(self.trace).filter(|(a, b)| self.counted.contains(a) && self.counted.contains(b));
        self.counted.len() > 2 && twos.all(|(a, b)| either(a, b))
    }

    /// Whether it is the first of a session that has more.
    fn is_first(&self, t: u8) -> bool {
        let is_own = |other: u8| self.session(other) == self.session(t);
        !(1..t).any(is_own) && self.all().any(|other| other > t && is_own(other))
    }

    /// Whether there are two sessions of which each has one that knows the first one
    /// of the other, without a cycle.
    fn has_mutual_firsts(&self) -> bool {
        let knows = |session: u16, first: u8| {
            let mut members = self.all().filter(|&t| self.session(t) == session);
            members.any(|t| self.vectors.says(first, t))
        };
        let firsts: Vec<u8> = self.all().filter(|&t| self.is_first(t)).collect();
        let is_mutual =
            |a: u8, b: u8| a != b && knows(self.session(a), b) && knows(self.session(b), a);
        let mut of_each = firsts.iter();
        !self.pairs.form_cycle() && of_each.any(|&a| firsts.iter().any(|&b| is_mutual(a, b)))
    }

    /// Whether one with this status does not count, writes a key, and stands in its
    /// session before one that is known to a reader of that key: its number alone
    /// would have it known.
    fn has_no_rival(&self, status: Status) -> bool {
        let keys = |t: u8, is_wanted: fn(&Action) -> bool| -> BTreeSet<u32> {
            let own = self.trace.operations.iter().filter(|o| o.transaction == t);
            own.filter(|o| is_wanted(&o.action))
                .map(|o| o.key)
                .collect()
        };
        let latest = |b: u8, session| self.vectors.of(b).map_or(0, |v| v.latest(session));
        let is_none = |a: &u8| !self.counted.contains(a) && self.status(*a) == status;
        self.all().filter(is_none).any(|a| {
            let written = keys(a, |action| action.written().is_some());
            let mut knowing = self
                .counted
                .iter()
                .filter(|&&b| latest(b, self.session(a)) > a);
            knowing.any(|&b| !written.is_disjoint(&keys(b, |action| action.read().is_some())))
        })
    }

    /// What may be so of a trace, and of how many in 100 it is so at least.
    fn sorts(&self, bytes: &[u8]) -> Vec<(&'static str, usize, bool)> {
        let [_, ra, tcc] = judge_trace(self.trace);
        let both_accept = ra.is_accepted() && tcc.is_accepted();
        let has_cycle = self.pairs.form_cycle();
        let on_cycles = self.on_cycles();
        let count = self.trace.transactions.len();
        let sessions: BTreeSet<u16> = self.all().map(|t| self.session(t)).collect();
        let is_one_each = sessions.len() == count;
        let is_few = sessions.len() <= 4 && count >= 8;
        let mut backwards = twos(self.trace).filter(|(a, b)| a > b);
        let mut firsts = self.all().filter(|&t| self.is_first(t));
        vec![
            ("accepted", 30, tcc.is_accepted()),
            (
                "only level 3 rejects",
                10,
                ra.is_accepted() && !tcc.is_accepted(),
            ),
            ("another order at level 3", 1, both_accept && ra != tcc),
            ("cycle", 20, has_cycle),
            ("cycle, more at level 3", 10, has_cycle && ra != tcc),
            ("cycle of two", 2, on_cycles.contains(&2)),
            ("cycle of many", 10, on_cycles.iter().any(|&size| size > 4)),
            (
                "cycle of all",
                1,
                on_cycles.iter().all(|&size| size == count),
            ),
            ("cycle in a session", 5, self.has_cycle_in_a_session()),
            ("nearly a cycle", 5, self.nearly_has_cycle()),
            ("chain", 10, self.is_chain()),
            (
                "greater source",
                50,
                backwards.any(|(a, b)| self.pairs.has(a, b)),
            ),
            ("two open at once", 30, weave::most_open(bytes) > 1),
            ("127 transactions", 7, count == MAX_TRANSACTIONS),
            ("one session each", 15, is_one_each),
            ("127 sessions", 1, is_one_each && count == MAX_TRANSACTIONS),
            ("few long sessions", 10, is_few),
            (
                "few sessions of 127",
                1,
                is_few && count == MAX_TRANSACTIONS,
            ),
            ("mutual firsts", 4, self.has_mutual_firsts()),
            ("session 0", 30, sessions.contains(&0)),
            ("session 65,535", 30, sessions.contains(&u16::MAX)),
            (
                "first does not count",
                10,
                firsts.any(|t| !self.counted.contains(&t)),
            ),
            ("aborted, no rival", 10, self.has_no_rival(Status::Aborted)),
            (
                "unanswered, no rival",
                10,
                self.has_no_rival(Status::Unanswered),
            ),
        ]
    }
}

#[test]
fn random_traces_are_of_all_sorts() {
    const TRACES: u64 = 600;
    let mut seen: BTreeMap<&str, (usize, usize)> = BTreeMap::new();
    for (bytes, trace) in aimed_traces(58, TRACES) {
        for (sort, least, is_so) in Known::new(&trace).sorts(&bytes) {
            let (count, _) = seen
                .entry(sort)
                .or_insert((0, least * TRACES as usize / 100));
            *count += usize::from(is_so);
        }
    }
    for (sort, (count, least)) in seen {
        assert!(count >= least, "{sort}: {count} of {TRACES}");
    }
}
