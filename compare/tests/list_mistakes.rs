//! Judges of lists that are mistaken in one thing each. The known traces and the random
//! ones have to tell every one of them from a right one.

use ferozhak_compare::listing::{listing_of, Listing};
use ferozhak_compare::random::Random;
use ferozhak_compare::report::{Finding, Pair, READ, WRITE};
use ferozhak_compare::trace::{Operation, Status, Trace};
use ferozhak_compare::{generate, graph, list_cases};
use std::collections::BTreeSet;

/// What a judge can have wrong.
#[derive(Clone, Copy, Debug, PartialEq, Eq)]
enum Mistake {
    None,
    /// The kinds are tried from the last to the first.
    KindsBackwards,
    /// Value 0 is taken for what a list begins with.
    ZeroIsAppended,
    /// An append to any key will do.
    AppendedToAnyKey,
    /// An element is only compared with the one before it.
    EqualToNeighbourOnly,
    /// The last element at fault is told for 8 and 9.
    LastAtFault,
    /// Only the last element is asked about its appender.
    LastAborted,
    /// An appender that does not count is taken for an aborted one.
    UncountedIsAborted,
    /// Own appends can be intermediate.
    OwnIntermediate,
    /// Any element can be intermediate.
    AnyIntermediate,
    /// An append to any key makes an earlier one intermediate.
    AgainToAnyKey,
    /// An earlier append makes one intermediate too.
    AgainBefore,
    /// A list is compared with the last clean one only.
    LastCleanOnly,
    /// A list is compared with unclean ones too.
    UncleanToo,
    /// A list is compared with those of transactions that do not count too.
    UncountedToo,
    /// Lists of any key are compared.
    AnyKey,
    /// A list may not be shorter than an earlier one.
    NotShorter,
    /// Lists are taken transaction by transaction.
    ByTransaction,
    /// What is appended counts as committed when a list has it.
    CountedByLists,
    /// The first clean list of a key gives write dependencies.
    FirstList,
    /// The last one does.
    LastList,
    /// Each element depends on all before it.
    AllBefore,
    /// A transaction depends on itself.
    OnItself,
    /// A reader depends on all elements.
    AllRead,
    /// A reader depends on the first element.
    FirstRead,
    /// An intermediate list gives a read dependency all the same.
    IntermediateRead,
    /// Only those that count take part.
    CountedOnly,
    /// All dependencies are listed as soon as there is a cycle.
    AllOfThem,
    /// A pair has one reason.
    OneReason,
    /// A write dependency is listed if both sorts together lead back.
    WritesThroughBoth,
    /// A read dependency is listed only if writes lead back.
    BothThroughWrites,
}

impl Mistake {
    const ALL: [Mistake; 30] = [
        Mistake::KindsBackwards,
        Mistake::ZeroIsAppended,
        Mistake::AppendedToAnyKey,
        Mistake::EqualToNeighbourOnly,
        Mistake::LastAtFault,
        Mistake::LastAborted,
        Mistake::UncountedIsAborted,
        Mistake::OwnIntermediate,
        Mistake::AnyIntermediate,
        Mistake::AgainToAnyKey,
        Mistake::AgainBefore,
        Mistake::LastCleanOnly,
        Mistake::UncleanToo,
        Mistake::UncountedToo,
        Mistake::AnyKey,
        Mistake::NotShorter,
        Mistake::ByTransaction,
        Mistake::CountedByLists,
        Mistake::FirstList,
        Mistake::LastList,
        Mistake::AllBefore,
        Mistake::OnItself,
        Mistake::AllRead,
        Mistake::FirstRead,
        Mistake::IntermediateRead,
        Mistake::CountedOnly,
        Mistake::AllOfThem,
        Mistake::OneReason,
        Mistake::WritesThroughBoth,
        Mistake::BothThroughWrites,
    ];
}

/// A list read.
#[derive(Clone)]
struct Read {
    number: u16,
    reader: u8,
    key: u32,
    values: Vec<u64>,
    /// The appends of its elements, where there are any, with their authors.
    appends: Vec<Option<(u16, u8)>>,
}

impl Read {
    fn is_apart(&self, other: &Read, mistake: Mistake) -> bool {
        let goes_on = self.values.starts_with(&other.values);
        match mistake {
            Mistake::NotShorter => !goes_on,
            _ => !goes_on && !other.values.starts_with(&self.values),
        }
    }
}

struct Judge<'a> {
    trace: &'a Trace,
    counted: Vec<u8>,
    mistake: Mistake,
    /// Those that a list is compared with, and those that give dependencies.
    compared: Vec<Read>,
    clean: Vec<Read>,
}

/// The answer of a judge with this mistake.
fn mistaken(trace: &Trace, mistake: Mistake) -> Listing {
    let mut judge = Judge {
        trace,
        counted: graph::counted(trace),
        mistake,
        compared: Vec::new(),
        clean: Vec::new(),
    };
    let mut reads = judge.reads();
    if mistake == Mistake::CountedByLists {
        judge.count_by_lists(&reads);
    }
    if mistake == Mistake::ByTransaction {
        reads.sort_by_key(|read| read.reader);
    }
    let mut findings: Vec<Finding> = Vec::new();
    for read in reads {
        findings.extend(judge.take(read));
    }
    findings.sort_by_key(|finding| finding.operation);
    let writes = judge.write_dependencies();
    let read = judge.read_dependencies();
    let both: BTreeSet<(u8, u8)> = writes.union(&read).copied().collect();
    let (through_writes, through_both) = match mistake {
        Mistake::WritesThroughBoth => (&both, &both),
        Mistake::BothThroughWrites => (&writes, &writes),
        _ => (&writes, &both),
    };
    Listing {
        findings,
        over_writes: judge.listed(&writes, through_writes, |_| WRITE),
        over_both: judge.listed(&both, through_both, |pair| {
            let reason = |pairs: &BTreeSet<(u8, u8)>, reason| match pairs.contains(pair) {
                true => reason,
                false => 0,
            };
            match (mistake, reason(&writes, WRITE), reason(&read, READ)) {
                (Mistake::OneReason, WRITE, _) => WRITE,
                (_, write, read) => write + read,
            }
        }),
    }
}

impl Judge<'_> {
    fn reads(&self) -> Vec<Read> {
        let operations = (1..).zip(&self.trace.operations);
        let read = |(number, operation): (u16, &Operation)| {
            let values = operation.action.list()?.to_vec();
            let append = |&value: &u64| self.append(operation.key, value);
            Some(Read {
                number,
                reader: operation.transaction,
                key: operation.key,
                appends: values.iter().map(append).collect(),
                values,
            })
        };
        operations.filter_map(read).collect()
    }

    /// The append of an element, and whose it is.
    fn append(&self, key: u32, value: u64) -> Option<(u16, u8)> {
        let any_key = self.mistake == Mistake::AppendedToAnyKey;
        let mut operations = (1..).zip(&self.trace.operations);
        let is_append =
            |o: &Operation| o.action.appended() == Some(value) && (any_key || o.key == key);
        let (number, append) = operations.find(|(_, o)| is_append(o))?;
        Some((number, append.transaction))
    }

    /// As long as there is one more whose append is in a list of one that counts, it
    /// comes to count.
    fn count_by_lists(&mut self, reads: &[Read]) {
        loop {
            let judged = reads.iter().filter(|r| self.counted.contains(&r.reader));
            let mut authors = judged.flat_map(|r| r.appends.iter().flatten().map(|a| a.1));
            let is_new =
                |t: &u8| self.status(*t) == Status::Unanswered && !self.counted.contains(t);
            match authors.find(is_new) {
                Some(t) => self.counted.push(t),
                None => return,
            }
        }
    }

    fn status(&self, t: u8) -> Status {
        self.trace.transactions[usize::from(t) - 1].status
    }

    /// Takes a list read, and answers the finding that it is.
    fn take(&mut self, read: Read) -> Option<Finding> {
        if !self.counted.contains(&read.reader) {
            if self.mistake == Mistake::UncountedToo {
                self.compared.push(read);
            }
            return None;
        }
        let mut kinds: Vec<u8> = (7..=11).collect();
        if self.mistake == Mistake::KindsBackwards {
            kinds.reverse();
        }
        let fault = kinds
            .into_iter()
            .find_map(|kind| Some((kind, self.fault(kind, &read)?)));
        if fault.is_none() || self.mistake == Mistake::UncleanToo {
            self.compared.push(read.clone());
        }
        let gives = match fault {
            None => true,
            Some((10, _)) => self.mistake == Mistake::IntermediateRead,
            Some(_) => false,
        };
        if gives {
            self.clean.push(read.clone());
        }
        fault.map(|(kind, write)| Finding {
            transaction: read.reader,
            kind,
            operation: read.number,
            write,
        })
    }

    /// The append that the finding tells, if this kind fits.
    fn fault(&self, kind: u8, read: &Read) -> Option<u16> {
        match kind {
            7 => {
                let is_missing = |(value, append): (&u64, &Option<(u16, u8)>)| {
                    let is_zero = *value == 0 && self.mistake == Mistake::ZeroIsAppended;
                    append.is_none() && !is_zero
                };
                let mut elements = read.values.iter().zip(&read.appends);
                elements.any(is_missing).then_some(0)
            }
            8 => self.told(read, |index| {
                let earlier = &read.values[..index];
                match self.mistake {
                    Mistake::EqualToNeighbourOnly => earlier.last() == Some(&read.values[index]),
                    _ => earlier.contains(&read.values[index]),
                }
            }),
            9 => self.told(read, |index| {
                let is_last = index + 1 == read.values.len();
                let is_aborted = read.appends[index].is_some_and(|(_, author)| {
                    match (self.status(author), self.mistake) {
                        (Status::Aborted, _) => true,
                        (Status::Unanswered, Mistake::UncountedIsAborted) => {
                            !self.counted.contains(&author)
                        }
                        _ => false,
                    }
                });
                is_aborted && (is_last || self.mistake != Mistake::LastAborted)
            }),
            10 => {
                let mut elements = read.appends.iter().rev().flatten();
                let last_only = self.mistake != Mistake::AnyIntermediate;
                let taken = if last_only { 1 } else { usize::MAX };
                let found = elements.by_ref().take(taken);
                found
                    .copied()
                    .find(|&append| self.is_intermediate(read, append))
                    .map(|(number, _)| number)
            }
            _ => {
                let any_key = self.mistake == Mistake::AnyKey;
                let of_key = self
                    .compared
                    .iter()
                    .filter(|other| any_key || other.key == read.key);
                let others: Vec<&Read> = of_key.collect();
                let first = match self.mistake {
                    Mistake::LastCleanOnly => others.len().saturating_sub(1),
                    _ => 0,
                };
                let mut others = others[first..].iter();
                let is_apart = others.any(|other| read.is_apart(other, self.mistake));
                is_apart.then_some(0)
            }
        }
    }

    /// The append of the first element at fault.
    fn told(&self, read: &Read, is_at_fault: impl Fn(usize) -> bool) -> Option<u16> {
        let mut at_fault = (0..read.values.len()).filter(|&index| is_at_fault(index));
        let index = match self.mistake {
            Mistake::LastAtFault => at_fault.last(),
            _ => at_fault.next(),
        }?;
        Some(read.appends[index].map_or(0, |(number, _)| number))
    }

    fn is_intermediate(&self, read: &Read, (number, author): (u16, u8)) -> bool {
        if author == read.reader && self.mistake != Mistake::OwnIntermediate {
            return false;
        }
        let mut operations = (1..).zip(&self.trace.operations);
        operations.any(|(other, o)| {
            let is_behind =
                other > number || other < number && self.mistake == Mistake::AgainBefore;
            let is_of_key = o.key == read.key || self.mistake == Mistake::AgainToAnyKey;
            o.action.appended().is_some() && o.transaction == author && is_behind && is_of_key
        })
    }

    fn write_dependencies(&self) -> BTreeSet<(u8, u8)> {
        let mut pairs = BTreeSet::new();
        let keys: BTreeSet<u32> = self.clean.iter().map(|read| read.key).collect();
        for key in keys {
            let mut lists = self.clean.iter().filter(|read| read.key == key);
            let list = match self.mistake {
                Mistake::FirstList => lists.next(),
                Mistake::LastList => lists.next_back(),
                _ => lists.max_by_key(|read| read.values.len()),
            };
            let elements = list
                .into_iter()
                .flat_map(|list| list.appends.iter().flatten());
            let authors: Vec<u8> = elements.map(|&(_, author)| author).collect();
            for second in 1..authors.len() {
                let first = match self.mistake {
                    Mistake::AllBefore => 0,
                    _ => second - 1,
                };
                pairs.extend((first..second).map(|first| (authors[first], authors[second])));
            }
        }
        self.between(pairs)
    }

    fn read_dependencies(&self) -> BTreeSet<(u8, u8)> {
        let mut pairs = BTreeSet::new();
        for read in &self.clean {
            let authors: Vec<u8> = read.appends.iter().flatten().map(|a| a.1).collect();
            let sources = match (self.mistake, authors.as_slice()) {
                (Mistake::AllRead, all) => all,
                (Mistake::FirstRead, [first, ..]) => std::slice::from_ref(first),
                (_, [.., last]) => std::slice::from_ref(last),
                (_, []) => &[],
            };
            pairs.extend(sources.iter().map(|&source| (source, read.reader)));
        }
        self.between(pairs)
    }

    /// Those between different transactions, who all may take part.
    fn between(&self, mut pairs: BTreeSet<(u8, u8)>) -> BTreeSet<(u8, u8)> {
        pairs.retain(|(first, second)| {
            let counts = |t: &u8| self.counted.contains(t) || self.mistake != Mistake::CountedOnly;
            let differ = first != second || self.mistake == Mistake::OnItself;
            differ && counts(first) && counts(second)
        });
        pairs
    }

    fn listed(
        &self,
        pairs: &BTreeSet<(u8, u8)>,
        through: &BTreeSet<(u8, u8)>,
        reasons: impl Fn(&(u8, u8)) -> u8,
    ) -> Vec<Pair> {
        let is_back = |(first, second): &(u8, u8)| leads(through, *second, *first);
        let has_cycle = pairs.iter().any(is_back);
        let all = self.mistake == Mistake::AllOfThem && has_cycle;
        let listed = pairs.iter().filter(|pair| all || is_back(pair));
        let pair = |pair: &(u8, u8)| Pair {
            first: pair.0,
            second: pair.1,
            reasons: reasons(pair),
        };
        listed.map(pair).collect()
    }
}

fn leads(pairs: &BTreeSet<(u8, u8)>, from: u8, to: u8) -> bool {
    let mut reached = BTreeSet::new();
    let mut waiting = vec![from];
    while let Some(here) = waiting.pop() {
        for &(first, second) in pairs {
            if first == here && reached.insert(second) {
                waiting.push(second);
            }
        }
    }
    reached.contains(&to)
}

/// Random traces with lists that are not too large to be judged so often.
fn random_traces(seed: u64, count: u64) -> Vec<Trace> {
    let traces = (0..count).filter_map(|stream| {
        let (_, bytes) = generate::any_with_lists(&mut Random::new(seed, stream));
        Trace::parse(&bytes).ok()
    });
    let is_taken = |trace: &Trace| trace.has_lists() && trace.operations.len() <= 200;
    traces.filter(is_taken).collect()
}

fn known_traces() -> Vec<Trace> {
    let cases = list_cases::all().into_iter();
    let traces = cases.filter_map(|known| Trace::parse(&known.case.bytes).ok());
    traces
        .filter(|trace| trace.operations.len() <= 200)
        .collect()
}

#[test]
fn without_a_mistake_the_answer_is_right() {
    for trace in known_traces().iter().chain(&random_traces(71, 1_500)) {
        assert_eq!(
            mistaken(trace, Mistake::None),
            listing_of(trace),
            "{trace:?}"
        );
    }
}

#[test]
fn every_mistake_shows_in_known_and_in_random_traces() {
    let (known, random) = (known_traces(), random_traces(72, 6_000));
    for mistake in Mistake::ALL {
        let is_seen = |trace: &&Trace| mistaken(trace, mistake) != listing_of(trace);
        assert!(known.iter().any(|trace| is_seen(&trace)), "{mistake:?}");
        let count = random.iter().filter(is_seen).count();
        assert!(count >= 10, "{mistake:?}: {count} of {}", random.len());
    }
}
