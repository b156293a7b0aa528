//! Deciding about lists by plain search, each kind and each dependency in the words of
//! the request; nothing is shared with [`crate::listing`] but the form of the answer.
//!
//! An append is looked for among all operations. A list is compared with every earlier
//! clean list of its key. What leads to what is found by walking along the pairs.

use crate::listing::Listing;
use crate::report::{Finding, Pair, READ, WRITE};
use crate::trace::{Status, Trace};

/// The answer of the call, given the transactions that count.
pub fn listing_of(trace: &Trace, counted: &[u8]) -> Listing {
    let mut search = Search {
        trace,
        clean: Vec::new(),
    };
    let mut findings = Vec::new();
    for read in list_reads(trace).filter(|read| counted.contains(&read.reader)) {
        match search.fault(&read) {
            Some((kind, write)) => findings.push(Finding {
                transaction: read.reader,
                kind,
                operation: read.number,
                write,
            }),
            None => search.clean.push(read),
        }
    }
    let writes = search.write_dependencies();
    let both = [writes.clone(), search.read_dependencies()].concat();
    Listing {
        findings,
        over_writes: listed(&writes),
        over_both: listed(&both),
    }
}

/// The clean lists of a trace as they are judged, given the transactions that count:
/// the key and the values of each, by operation number.
pub fn clean_lists(trace: &Trace, counted: &[u8]) -> Vec<(u32, Vec<u64>)> {
    let unclean = listing_of(trace, counted).findings;
    let is_clean = |read: &ListRead| {
        let is_found = unclean.iter().any(|found| found.operation == read.number);
        counted.contains(&read.reader) && !is_found
    };
    let clean = list_reads(trace).filter(is_clean);
    clean.map(|read| (read.key, read.values.to_vec())).collect()
}

/// Whether the last field of a finding is as it has to be: 0 exactly for 7 and 11, or
/// else an append to the key of the read whose value is in its list, for 8 twice, for 9
/// by one that aborted, and for 10 as the last, by another.
pub fn tells_append(trace: &Trace, finding: &Finding) -> bool {
    let reads: Vec<ListRead> = list_reads(trace)
        .filter(|read| read.number == finding.operation)
        .collect();
    let [read] = &reads[..] else {
        return false;
    };
    if finding.kind == 7 || finding.kind == 11 {
        return finding.write == 0;
    }
    let appends = appends(trace).filter(|append| append.number == finding.write);
    let [append] = &appends.collect::<Vec<Append>>()[..] else {
        return false;
    };
    let times = read.values.iter().filter(|&&value| value == append.value);
    let status = trace.transactions[usize::from(append.author) - 1].status;
    append.key == read.key
        && match finding.kind {
            8 => times.count() > 1,
            9 => times.count() == 1 && status == Status::Aborted,
            10 => read.values.last() == Some(&append.value) && append.author != read.reader,
            _ => false,
        }
}

/// A list read.
struct ListRead<'a> {
    number: u16,
    reader: u8,
    key: u32,
    values: &'a [u64],
}

fn list_reads(trace: &Trace) -> impl Iterator<Item = ListRead<'_>> {
    (1..).zip(&trace.operations).filter_map(|(number, o)| {
        Some(ListRead {
            number,
            reader: o.transaction,
            key: o.key,
            values: o.action.list()?,
        })
    })
}

/// An append.
struct Append {
    number: u16,
    author: u8,
    key: u32,
    value: u64,
}

fn appends(trace: &Trace) -> impl Iterator<Item = Append> + '_ {
    (1..).zip(&trace.operations).filter_map(|(number, o)| {
        Some(Append {
            number,
            author: o.transaction,
            key: o.key,
            value: o.action.appended()?,
        })
    })
}

struct Search<'a> {
    trace: &'a Trace,
    /// The clean lists so far.
    clean: Vec<ListRead<'a>>,
}

impl Search<'_> {
    /// The first kind that fits, and the append that the finding tells.
    fn fault(&self, read: &ListRead) -> Option<(u8, u16)> {
        let ListRead { key, values, .. } = *read;
        // 7, an element never appended
        if values
            .iter()
            .any(|&value| self.append(key, value).is_none())
        {
            return Some((7, 0));
        }
        // From here on each element has an append.
        let number = |index: usize| self.append(key, values[index]).map_or(0, |a| a.number);
        // 8, an element equal to an earlier one
        let is_repeated = |&index: &usize| values[..index].contains(&values[index]);
        if let Some(index) = (0..values.len()).find(is_repeated) {
            return Some((8, number(index)));
        }
        // 9, an element whose appender has status 0
        let is_aborted = |&index: &usize| {
            let author = self.append(key, values[index]).map_or(0, |a| a.author);
            let transaction = self.trace.transactions.get(usize::from(author) - 1);
            transaction.is_some_and(|t| t.status as u8 == 0)
        };
        if let Some(index) = (0..values.len()).find(is_aborted) {
            return Some((9, number(index)));
        }
        // 10, the last element's append is in another transaction that later appended
        // to the key again
        if let Some(last) = values.last().and_then(|&value| self.append(key, value)) {
            let mut later = appends(self.trace).filter(|append| append.number > last.number);
            let again = later.any(|append| append.author == last.author && append.key == key);
            if last.author != read.reader && again {
                return Some((10, last.number));
            }
        }
        // 11, neither it nor some earlier clean list of the key starts with the other
        let of_key = self.clean.iter().filter(|clean| clean.key == key);
        let mut others = of_key.map(|clean| clean.values);
        let is_apart = |other: &[u64]| !values.starts_with(other) && !other.starts_with(values);
        others.any(is_apart).then_some((11, 0))
    }

    /// The append of this key and value.
    fn append(&self, key: u32, value: u64) -> Option<Append> {
        appends(self.trace).find(|append| (append.key, append.value) == (key, value))
    }

    /// Whoever appended an element of a clean list.
    fn author(&self, key: u32, value: u64) -> u8 {
        let append = self.append(key, value);
        append
            .expect("the elements of clean lists are appended")
            .author
    }

    /// "The longest clean list of a key gives write dependencies, reason 16, between the
    /// different transactions of neighbouring elements"
    fn write_dependencies(&self) -> Vec<Pair> {
        let longest = self.clean.iter().filter(|list| {
            let mut of_key = self.clean.iter().filter(|other| other.key == list.key);
            of_key.all(|other| other.values.len() <= list.values.len())
        });
        let neighbours = longest.flat_map(|list| {
            let authors = list
                .values
                .iter()
                .map(|&value| self.author(list.key, value));
            let authors: Vec<u8> = authors.collect();
            let pair = |at: usize| (authors[at - 1], authors[at]);
            (1..authors.len()).map(pair).collect::<Vec<(u8, u8)>>()
        });
        dependencies(neighbours, WRITE)
    }

    /// "the last element of each clean list gives a read dependency, reason 4, from its
    /// transaction to a different reader"
    fn read_dependencies(&self) -> Vec<Pair> {
        let reads = self.clean.iter().filter_map(|list| {
            let last = *list.values.last()?;
            Some((self.author(list.key, last), list.reader))
        });
        dependencies(reads, READ)
    }
}

/// The dependencies between different transactions, each once.
fn dependencies(pairs: impl Iterator<Item = (u8, u8)>, reasons: u8) -> Vec<Pair> {
    let mut all: Vec<Pair> = Vec::new();
    for (first, second) in pairs {
        let pair = Pair {
            first,
            second,
            reasons,
        };
        if first != second && !all.contains(&pair) {
            all.push(pair);
        }
    }
    all
}

/// The pairs whose second leads to their first through these pairs, by first and then
/// second, with all their reasons together.
fn listed(pairs: &[Pair]) -> Vec<Pair> {
    let mut listed: Vec<Pair> = Vec::new();
    for pair in pairs
        .iter()
        .filter(|pair| leads(pairs, pair.second, pair.first))
    {
        let ends = (pair.first, pair.second);
        match listed.iter_mut().find(|p| (p.first, p.second) == ends) {
            Some(same) => same.reasons += pair.reasons,
            None => listed.push(*pair),
        }
    }
    listed.sort_by_key(|pair| (pair.first, pair.second));
    listed
}

/// Whether one or more of these pairs lead from the one to the other.
fn leads(pairs: &[Pair], from: u8, to: u8) -> bool {
    let mut reached: Vec<u8> = Vec::new();
    let mut waiting = vec![from];
    while let Some(here) = waiting.pop() {
        for pair in pairs.iter().filter(|pair| pair.first == here) {
            if !reached.contains(&pair.second) {
                reached.push(pair.second);
                waiting.push(pair.second);
            }
        }
    }
    reached.contains(&to)
}
