//! What is said of the lists of a trace, to which hosts append: a call of its own, on
//! bytes and two buffers, and the program `lists`.
//!
//! Each list read of a transaction that counts as committed is clean or has one of the
//! kinds 7 to 11. Of the clean lists of a key one is the longest, and all others are
//! beginnings of it; it gives write dependencies, and the last element of each clean
//! list gives a read dependency. The pairs that lie on cycles are listed, over write
//! dependencies and over both. What counts is told by single values alone, but whoever
//! appended what is in a clean list takes part, counted or not.

use crate::deciding::{begin, FINDING_SIZE, PAIR_SIZE};
use crate::graph::{self, either, only, Rows, Set, EMPTY};
use crate::hash::FastMap;
use crate::report::{Finding, Pair, READ, WRITE};
use crate::trace::{Refusal, Status, Trace};
use std::collections::HashSet;

/// The answer of the call.
#[derive(Clone, Debug, Default, PartialEq, Eq)]
pub struct Listing {
    /// The unclean list reads, by operation number.
    pub findings: Vec<Finding>,
    /// The write dependencies whose second leads to their first through write
    /// dependencies, by first and then second.
    pub over_writes: Vec<Pair>,
    /// The same of write and read dependencies together.
    pub over_both: Vec<Pair>,
}

impl Listing {
    /// Of findings and of both lists of pairs.
    pub fn counts(&self) -> [usize; 3] {
        [
            self.findings.len(),
            self.over_writes.len(),
            self.over_both.len(),
        ]
    }

    /// The bytes that both buffers need: one for the findings, one for both lists of
    /// pairs.
    pub fn needed(&self) -> [usize; 2] {
        let [findings, writes, both] = self.counts();
        [FINDING_SIZE * findings, PAIR_SIZE * (writes + both)]
    }

    /// Writes the lists into the buffers, and leaves every byte behind them as it is;
    /// or says which buffer is too short, and leaves both as they are.
    fn write(&self, findings: &mut [u8], pairs: &mut [u8]) -> Result<(), Refusal> {
        let [for_findings, for_pairs] = self.needed();
        for (number, room, place) in [
            (12, findings.len(), for_findings),
            (13, pairs.len(), for_pairs),
        ] {
            if room < place {
                return Err(Refusal { number, place });
            }
        }
        let found: Vec<u8> = self.findings.iter().flat_map(Finding::bytes).collect();
        let listed = self.over_writes.iter().chain(&self.over_both);
        let listed: Vec<u8> = listed.flat_map(Pair::bytes).collect();
        begin(findings, &found);
        begin(pairs, &listed);
        Ok(())
    }
}

/// The call: the three counts, and the buffers then hold the lists.
pub fn list(trace: &[u8], findings: &mut [u8], pairs: &mut [u8]) -> Result<[usize; 3], Refusal> {
    let listing = listing_of(&Trace::parse(trace)?);
    listing.write(findings, pairs)?;
    Ok(listing.counts())
}

/// The answer for a trace that has been read.
pub fn listing_of(trace: &Trace) -> Listing {
    let mut reads = Reads::new(trace);
    for (number, operation) in (1..).zip(&trace.operations) {
        if let Some(values) = operation.action.list() {
            reads.judge(number, operation.transaction, operation.key, values);
        }
    }
    let written = reads.write_dependencies();
    let read = reads.read_before;
    // All take part that have appended or read, and the others do no harm.
    let among = !only(0);
    let both = either(written, &read);
    let reason = |rows: &Rows, first: u8, second: u8, reason: u8| match rows[usize::from(second)]
        & only(first)
    {
        0 => 0,
        _ => reason,
    };
    Listing {
        findings: reads.findings,
        over_writes: graph::listed(&written, among, |_, _| WRITE),
        over_both: graph::listed(&both, among, |first, second| {
            reason(&written, first, second, WRITE) + reason(&read, first, second, READ)
        }),
    }
}

/// The list reads of a trace, as far as they have been judged.
struct Reads<'a> {
    trace: &'a Trace,
    counted: Set,
    /// For each operation that is an append, whether its transaction appends to the key
    /// again later.
    appended_again: Vec<bool>,
    findings: Vec<Finding>,
    /// The longest clean list of each key, as the numbers of the elements' appends: no
    /// two appends of a key have the same value.
    longest: FastMap<u32, Vec<u16>>,
    /// For each reader, whose appends its clean lists end with.
    read_before: Rows,
}

impl<'a> Reads<'a> {
    fn new(trace: &'a Trace) -> Reads<'a> {
        let counted = graph::counted(trace).into_iter();
        Reads {
            trace,
            counted: counted.fold(0, |set, t| set | only(t)),
            appended_again: appended_again(trace),
            findings: Vec::new(),
            longest: FastMap::default(),
            read_before: EMPTY,
        }
    }

    /// Enters what the list read with this number gives, if it is to be judged.
    fn judge(&mut self, number: u16, reader: u8, key: u32, values: &[u64]) {
        if self.counted & only(reader) == 0 {
            return;
        }
        match self.elements(reader, key, values) {
            Ok(elements) => self.enter(reader, key, elements),
            Err((kind, append)) => self.findings.push(Finding {
                transaction: reader,
                kind,
                operation: number,
                write: append,
            }),
        }
    }

    /// The appends of the elements of a clean list; of another its kind, and the append
    /// that the finding tells.
    fn elements(&self, reader: u8, key: u32, values: &[u64]) -> Result<Vec<u16>, (u8, u16)> {
        let appends = values
            .iter()
            .map(|&value| self.trace.find_append(key, value));
        let elements: Vec<u16> = appends.collect::<Option<_>>().ok_or((7, 0))?;
        if let Some(again) = first_repeated(&elements) {
            return Err((8, again));
        }
        let is_aborted = |append: &&u16| self.status(**append) == Status::Aborted;
        if let Some(aborted) = elements.iter().find(is_aborted) {
            return Err((9, *aborted));
        }
        let is_intermediate = |append: &&u16| {
            self.author(**append) != reader && self.appended_again[usize::from(**append) - 1]
        };
        if let Some(last) = elements.last().filter(is_intermediate) {
            return Err((10, *last));
        }
        // All earlier clean lists are beginnings of the longest.
        let longest = self.longest.get(&key).map_or(&[][..], Vec::as_slice);
        if !elements.starts_with(longest) && !longest.starts_with(&elements) {
            return Err((11, 0));
        }
        Ok(elements)
    }

    /// Enters a clean list.
    fn enter(&mut self, reader: u8, key: u32, elements: Vec<u16>) {
        let last_author = elements.last().map(|&last| self.author(last));
        if let Some(author) = last_author.filter(|&author| author != reader) {
            self.read_before[usize::from(reader)] |= only(author);
        }
        let longest = self.longest.entry(key).or_default();
        if elements.len() > longest.len() {
            *longest = elements;
        }
    }

    /// Those that the longest clean lists give, when all lists have been judged.
    fn write_dependencies(&self) -> Rows {
        let mut before = EMPTY;
        for elements in self.longest.values() {
            for neighbours in elements.windows(2) {
                let [first, second] = [neighbours[0], neighbours[1]].map(|n| self.author(n));
                if first != second {
                    before[usize::from(second)] |= only(first);
                }
            }
        }
        before
    }

    fn author(&self, append: u16) -> u8 {
        self.trace.operation(append).transaction
    }

    fn status(&self, append: u16) -> Status {
        self.trace.transactions[usize::from(self.author(append)) - 1].status
    }
}

/// The first number that equals an earlier one.
fn first_repeated(numbers: &[u16]) -> Option<u16> {
    let mut seen = HashSet::new();
    numbers.iter().copied().find(|&number| !seen.insert(number))
}

fn appended_again(trace: &Trace) -> Vec<bool> {
    let mut later = HashSet::new();
    let mut again: Vec<bool> = trace
        .operations
        .iter()
        .rev()
        .map(|operation| {
            let is_append = operation.action.appended().is_some();
            is_append && !later.insert((operation.transaction, operation.key))
        })
        .collect();
    again.reverse();
    again
}
