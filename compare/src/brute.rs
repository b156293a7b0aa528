//! Deciding small traces by trying every order, and what counts as committed by
//! trying every choice of outcomes for the unanswered commits.
//!
//! Of the choices, each a set of transactions that are taken as committed, those
//! are closed that have every unanswered one whose value another member reads;
//! what counts is the smallest closed one.
//!
//! An order is tested against the axioms as Biswas and Enea publish them (On
//! the Complexity of Checking Transactional Consistency, OOPSLA 2019), not
//! through forced pairs: session order SO and write-read relation WR are part
//! of the order CO, and for all t1 other than t2, if a read of x in t3 comes
//! from t1, t2 writes x, and
//!
//! * read committed: (t2, that read) is in WR;PO,
//! * read atomicity: (t2, t3) is in SO or WR,
//! * causal: (t2, t3) is in the transitive closure of SO and WR together,
//!
//! then (t2, t1) is in CO. Transaction 0 is first in SO. The kinds of reads and
//! the lists of a rejection follow their definitions by plain loops and plain
//! search, that for a read's write through all operations; nothing is shared
//! with [`crate::graph`]. A transaction's own operations are those that have its
//! number, wherever they stand, so that transactions may overlap.
//!
//! An order that is claimed is tested in the same way, and each no by what it says.

use crate::claiming::Claimed;
use crate::report::{Finding, Level, Pair, Verdict, READ, RIVAL, SESSION, START};
use crate::trace::{Action, Operation, Status, Trace, MAX_TRANSACTIONS};

/// The most transactions besides 0, committed and unanswered, for which orders
/// are tried.
pub const MOST: usize = 7;

/// The most unanswered transactions for which choices of outcomes are tried.
pub const MOST_UNANSWERED: usize = 8;

/// What trying every order says of a trace at a level.
pub struct Outcome {
    pub verdict: Verdict,
    /// Whether some order passes, unclean reads left aside.
    pub order_exists: bool,
    /// Whether some choice of outcomes, not only what counts, is accepted.
    pub some_choice: bool,
}

/// Decides, or answers nothing if there are too many orders to try.
pub fn judge(trace: &Trace, level: Level) -> Option<Outcome> {
    let choices = Choices::few(trace)?;
    if choices.committed.len() + choices.unanswered.len() > MOST {
        return None;
    }
    let small = Small::new(trace, choices.smallest_closed());
    let first_order = small.first_order(level);
    let order_exists = first_order.is_some();
    let verdict = match first_order {
        Some(order) if small.findings.is_empty() => Verdict::Accepted(order),
        _ => Verdict::Rejected {
            findings: small.findings.clone(),
            pairs: small.listed(level),
        },
    };
    let accepts = |choice| {
        let small = Small::new(trace, choice);
        small.findings.is_empty() && small.first_order(level).is_some()
    };
    let some_choice = choices.all().any(accepts);
    Some(Outcome {
        verdict,
        order_exists,
        some_choice,
    })
}

/// The transactions that count as committed, 0 among them, ascending; nothing
/// if there are too many choices to try.
pub fn counted(trace: &Trace) -> Option<Vec<u8>> {
    Some(Choices::few(trace)?.smallest_closed())
}

/// Whether each unanswered transaction is among `counted` exactly if another of
/// these reads one of its values; for any number of transactions.
pub fn counts_exactly(trace: &Trace, counted: &[u8]) -> bool {
    let choices = Choices::new(trace);
    let mut unanswered = choices.unanswered.iter();
    unanswered.all(|t| counted.contains(t) == choices.read_by_other(*t, counted))
}

/// The trace with each choice of outcomes entered as the recorder would have
/// entered it, had all commits been answered; nothing if there are too many.
pub fn answered(trace: &Trace) -> Option<Vec<Trace>> {
    let enter = |choice: Vec<u8>| {
        let mut answered = trace.clone();
        for (number, transaction) in (1..).zip(&mut answered.transactions) {
            transaction.status = match choice.contains(&number) {
                true => Status::Committed,
                false => Status::Aborted,
            };
        }
        answered
    };
    Some(Choices::few(trace)?.all().map(enter).collect())
}

/// The findings by their definitions alone, for any number of transactions,
/// given those that count.
pub fn findings(trace: &Trace, counted: &[u8]) -> Vec<Finding> {
    Small::with_reads(trace, counted.to_vec()).findings
}

/// Whether the last field of a finding is as it has to be, given the
/// transactions that count: 0 exactly for kind 1 and for kind 5 with value 0,
/// no write having the read's key and value; or else the number of the only
/// write that has, which stands where the kind says.
pub fn tells_write(trace: &Trace, counted: &[u8], finding: &Finding) -> bool {
    let read = trace.operation(finding.operation);
    let Some(value) = read.action.read() else {
        return false;
    };
    let writes = writes_of_value(trace, read.key, value);
    if finding.kind == 1 || finding.kind == 5 && value == 0 {
        return finding.write == 0 && writes.is_empty();
    }
    if writes != [finding.write] {
        return false;
    }
    let author = trace.operation(finding.write).transaction;
    let is_own = author == read.transaction;
    let counts = counted.contains(&author);
    match finding.kind {
        2 => !is_own && !counts,
        3 => is_own && finding.write > finding.operation,
        4 => is_own && finding.write < finding.operation,
        5 | 6 => !is_own && counts,
        _ => false,
    }
}

/// The numbers of all writes that have the key and the value of a read.
fn writes_of_value(trace: &Trace, key: u32, value: u64) -> Vec<u16> {
    (1..)
        .zip(&trace.operations)
        .filter(|(_, w)| w.key == key && w.action == Action::Write(value))
        .map(|(number, _)| number)
        .collect()
}

/// The findings, and the listed pairs of the level, by their definitions alone
/// and for any number of transactions, given those that count; slowly, if there
/// are many.
pub fn lists(trace: &Trace, counted: &[u8], level: Level) -> (Vec<Finding>, Vec<Pair>) {
    let small = Small::new(trace, counted.to_vec());
    let pairs = small.listed(level);
    (small.findings, pairs)
}

/// The order by its rule alone, unclean reads left aside, for any number of
/// transactions, given those that count; nothing if some are never placed.
pub fn order(trace: &Trace, counted: &[u8], level: Level) -> Option<Vec<u8>> {
    Small::new(trace, counted.to_vec()).order(level)
}

/// A second look at claimed orders on a trace, given the transactions that count; for
/// any number of them, slowly, if there are many.
pub struct Claims<'a>(Small<'a>);

impl<'a> Claims<'a> {
    pub fn new(trace: &'a Trace, counted: &[u8]) -> Claims<'a> {
        Claims(Small::new(trace, counted.to_vec()))
    }

    /// Whether this is what has to be said of the order, each answer by its own
    /// definition: yes exactly if all reads are clean and the order as CO meets the
    /// axioms of the level.
    pub fn is_right(&self, level: Level, order: &[u8], claimed: &Claimed) -> bool {
        let Claims(small) = self;
        let is_clean = small.findings.is_empty();
        let is_yes = is_clean && self.has_members(order) && small.passes(level, order);
        match *claimed {
            Claimed::Yes => is_yes,
            _ if is_yes => false,
            Claimed::NoRead(operation) => {
                let unclean = small.findings.iter().map(|finding| finding.operation);
                unclean.min() == Some(operation)
            }
            Claimed::NoMembers => is_clean && !self.has_members(order),
            Claimed::NoPair(first, second) => {
                let forced = small.forced(level).into_iter();
                let pairs = forced.map(|pair| (pair.first, pair.second));
                let mut reversed = pairs.filter(|&(a, b)| is_reversed(order, a, b));
                let is_least = reversed.all(|pair| (first, second) <= pair);
                is_clean
                    && self.has_members(order)
                    && small.reasons(level, first, second) != 0
                    && is_reversed(order, first, second)
                    && is_least
            }
            // The trace is read.
            Claimed::Refused(_) => false,
        }
    }

    /// Whether 0 is first, each that counts stands once, and none that does not count.
    fn has_members(&self, order: &[u8]) -> bool {
        let Claims(small) = self;
        let times = |t: u8| order.iter().filter(|&&other| other == t).count();
        order.first() == Some(&0)
            && (0..=u8::MAX).all(|t| times(t) == usize::from(small.counted.contains(&t)))
    }
}

/// Whether the first of two that an order has stands behind the second.
fn is_reversed(order: &[u8], first: u8, second: u8) -> bool {
    let place = |t: u8| order.iter().position(|&other| other == t);
    place(first) > place(second)
}

/// The outcomes that a trace leaves open.
struct Choices {
    committed: Vec<u8>,
    unanswered: Vec<u8>,
    /// Who reads a value of which unanswered one, cleanly or not.
    reads_value: Relation,
}

impl Choices {
    /// Nothing if there are too many to try.
    fn few(trace: &Trace) -> Option<Choices> {
        let unanswered = trace.with_status(Status::Unanswered).count();
        (unanswered <= MOST_UNANSWERED).then(|| Choices::new(trace))
    }

    fn new(trace: &Trace) -> Choices {
        let with = |status| trace.with_status(status).collect();
        let unanswered: Vec<u8> = with(Status::Unanswered);
        let mut reads_value = Relation::new(&[], |_, _| false);
        let is_open = |w: &&Operation| unanswered.contains(&w.transaction);
        for write in trace.operations.iter().filter(is_open) {
            let Some(value) = write.action.written() else {
                continue;
            };
            for read in &trace.operations {
                if read.key == write.key && read.action == Action::Read(value) {
                    reads_value.enter(read.transaction, write.transaction);
                }
            }
        }
        Choices {
            committed: with(Status::Committed),
            unanswered,
            reads_value,
        }
    }

    /// Every choice: transaction 0, the committed ones and some of the
    /// unanswered ones, ascending. One that another contains comes before it.
    fn all(&self) -> impl Iterator<Item = Vec<u8>> + '_ {
        (0..1_usize << self.unanswered.len()).map(|bits| {
            let taken = |&(index, _): &(usize, &u8)| bits >> index & 1 == 1;
            let some = self.unanswered.iter().enumerate().filter(taken);
            let mut choice = vec![0];
            choice.extend(&self.committed);
            choice.extend(some.map(|(_, t)| t));
            choice.sort_unstable();
            choice
        })
    }

    /// Whether a member of the choice other than `t` reads a value of `t`.
    fn read_by_other(&self, t: u8, choice: &[u8]) -> bool {
        let mut others = choice.iter().filter(|&&other| other != t);
        others.any(|&other| self.reads_value.holds(other, t))
    }

    /// Whether each unanswered one that another member reads is a member.
    fn is_closed(&self, choice: &[u8]) -> bool {
        let mut unanswered = self.unanswered.iter();
        unanswered.all(|t| choice.contains(t) || !self.read_by_other(*t, choice))
    }

    /// The closed choice that every closed choice contains.
    fn smallest_closed(&self) -> Vec<u8> {
        let closed: Vec<_> = self.all().filter(|c| self.is_closed(c)).collect();
        let contained = |one: &Vec<u8>, other: &Vec<u8>| one.iter().all(|t| other.contains(t));
        let in_all = |one: &&Vec<u8>| closed.iter().all(|other| contained(one, other));
        let smallest = closed.iter().find(in_all);
        smallest
            .expect("what closed choices have in common is closed")
            .clone()
    }
}

/// Where a clean external read stands and what it came from.
struct ExternalRead {
    index: usize,
    key: u32,
    reader: u8,
    source: u8,
}

struct Small<'a> {
    trace: &'a Trace,
    /// Transaction 0 and those taken as committed, ascending.
    counted: Vec<u8>,
    findings: Vec<Finding>,
    reads: Vec<ExternalRead>,
    /// SO and WR together; 0 is first in SO.
    so_or_wr: Relation,
    /// The transitive closure of the same.
    causal: Relation,
}

impl<'a> Small<'a> {
    fn new(trace: &'a Trace, counted: Vec<u8>) -> Small<'a> {
        let mut small = Small::with_reads(trace, counted);
        small.so_or_wr = Relation::new(&small.counted, |a, b| {
            small.start(a, b) || small.session(a, b) || small.wr(a, b)
        });
        small.causal = Relation::new(&small.counted, |a, b| small.leads(a, b, &small.so_or_wr));
        small
    }

    /// The findings and the clean external reads; the relations are still empty.
    fn with_reads(trace: &'a Trace, counted: Vec<u8>) -> Small<'a> {
        let mut small = Small {
            trace,
            counted,
            findings: Vec::new(),
            reads: Vec::new(),
            so_or_wr: Relation::default(),
            causal: Relation::default(),
        };
        for (index, operation) in trace.operations.iter().enumerate() {
            let Some(value) = operation.action.read() else {
                continue;
            };
            if !small.counted.contains(&operation.transaction) {
                continue;
            }
            let write = small.write_read(operation.key, value);
            match small.kind(index, operation, value, write) {
                Read::Unclean(kind) => small.findings.push(Finding {
                    transaction: operation.transaction,
                    kind,
                    operation: index as u16 + 1,
                    write: write.map_or(0, |(at, _)| at as u16 + 1),
                }),
                Read::Internal => {}
                Read::From(source) => small.reads.push(ExternalRead {
                    index,
                    key: operation.key,
                    reader: operation.transaction,
                    source,
                }),
            }
        }
        small
    }

    /// The write that has the read's key and value: its index and whose it is.
    fn write_read(&self, key: u32, value: u64) -> Option<(usize, u8)> {
        let writes = writes_of_value(self.trace, key, value);
        assert!(writes.len() <= 1, "no write repeats a key and value");
        let number = *writes.first()?;
        let author = self.trace.operation(number).transaction;
        Some((usize::from(number) - 1, author))
    }

    /// The indexes of the writes of `key` by transaction `t`.
    fn writes_of(&self, t: u8, key: u32) -> impl Iterator<Item = usize> + '_ {
        self.operations().filter_map(move |(index, operation)| {
            let is_write = operation.action.written().is_some();
            (is_write && operation.transaction == t && operation.key == key).then_some(index)
        })
    }

    fn operations(&self) -> impl Iterator<Item = (usize, &'a Operation)> {
        self.trace.operations.iter().enumerate()
    }

    /// The six rules, one after another, each in the words of its row.
    fn kind(&self, index: usize, read: &Operation, value: u64, write: Option<(usize, u8)>) -> Read {
        let (t, key) = (read.transaction, read.key);
        if value != 0 && write.is_none() {
            return Read::Unclean(1);
        }
        if write.is_some_and(|(_, author)| author != t && !self.counted.contains(&author)) {
            return Read::Unclean(2);
        }
        if write.is_some_and(|(at, author)| author == t && at > index) {
            return Read::Unclean(3);
        }
        let own_write_between = |from: usize| self.writes_of(t, key).any(|w| from < w && w < index);
        if write.is_some_and(|(at, author)| author == t && at < index && own_write_between(at)) {
            return Read::Unclean(4);
        }
        let from_other = write.is_none_or(|(_, author)| author != t);
        if from_other && self.writes_of(t, key).any(|w| w < index) {
            return Read::Unclean(5);
        }
        let again_later = |at: usize, author: u8| self.writes_of(author, key).any(|w| w > at);
        if write.is_some_and(|(at, author)| author != t && again_later(at, author)) {
            return Read::Unclean(6);
        }
        match write {
            None => Read::From(0),
            Some((_, author)) if author == t => Read::Internal,
            Some((_, author)) => Read::From(author),
        }
    }

    /// Whether a counted transaction writes `key`; 0 writes every key.
    fn writes(&self, t: u8, key: u32) -> bool {
        t == 0 || self.writes_of(t, key).next().is_some()
    }

    fn start(&self, a: u8, b: u8) -> bool {
        a == 0 && b != 0
    }

    fn session(&self, a: u8, b: u8) -> bool {
        let session_of = |t: u8| self.trace.transactions[usize::from(t) - 1].session;
        a != 0 && a < b && session_of(a) == session_of(b)
    }

    /// WR between transactions.
    fn wr(&self, a: u8, b: u8) -> bool {
        self.reads.iter().any(|r| (r.source, r.reader) == (a, b))
    }

    /// The level's relation between t2 and a read in t3.
    fn related(&self, level: Level, t2: u8, read: &ExternalRead) -> bool {
        match level {
            Level::ReadCommitted => self.reads.iter().any(|earlier| {
                earlier.reader == read.reader && earlier.index < read.index && earlier.source == t2
            }),
            Level::ReadAtomicity => self.so_or_wr.holds(t2, read.reader),
            Level::Causal => self.causal.holds(t2, read.reader),
        }
    }

    /// Whether one or more steps of `pair` lead from `a` to `b`: plain search.
    fn leads(&self, a: u8, b: u8, pair: &Relation) -> bool {
        let mut reached: Vec<u8> = Vec::new();
        let mut from = vec![a];
        while let Some(here) = from.pop() {
            for &next in &self.counted {
                if pair.holds(here, next) && !reached.contains(&next) {
                    reached.push(next);
                    from.push(next);
                }
            }
        }
        reached.contains(&b)
    }

    /// The first order in dictionary order, 0 first, that passes.
    fn first_order(&self, level: Level) -> Option<Vec<u8>> {
        let mut order = self.counted.clone();
        loop {
            if self.passes(level, &order) {
                return Some(order);
            }
            if !next_order(&mut order[1..]) {
                return None;
            }
        }
    }

    /// Whether this order as CO meets the axioms of the level. "If .. then"
    /// is asked with the "then" first, since that is the quicker question.
    fn passes(&self, level: Level, order: &[u8]) -> bool {
        let mut place = [0; MAX_TRANSACTIONS + 1];
        for (at, &t) in order.iter().enumerate() {
            place[usize::from(t)] = at;
        }
        let in_co = |a: u8, b: u8| place[usize::from(a)] < place[usize::from(b)];
        let all = |holds: &dyn Fn(u8) -> bool| self.counted.iter().all(|&t| holds(t));
        all(&|a| all(&|b| in_co(a, b) || !self.so_or_wr.holds(a, b)))
            && self.reads.iter().all(|read| {
                let t1 = read.source;
                all(&|t2| {
                    t1 == t2
                        || in_co(t2, t1)
                        || !self.writes(t2, read.key)
                        || !self.related(level, t2, read)
                })
            })
    }

    /// The reasons that force the pair at this level, or 0.
    fn reasons(&self, level: Level, a: u8, b: u8) -> u8 {
        let rival = self.reads.iter().any(|read| {
            read.source == b
                && a != b
                && a != read.reader
                && self.writes(a, read.key)
                && self.related(level, a, read)
        });
        [
            (self.start(a, b), START),
            (self.session(a, b), SESSION),
            (self.wr(a, b), READ),
            (rival, RIVAL),
        ]
        .iter()
        .map(|&(holds, reason)| if holds { reason } else { 0 })
        .sum()
    }

    /// The forced pairs, by first and then second.
    fn forced(&self, level: Level) -> Vec<Pair> {
        let mut forced = Vec::new();
        for &first in &self.counted {
            for &second in &self.counted {
                let reasons = self.reasons(level, first, second);
                if reasons != 0 {
                    forced.push(Pair {
                        first,
                        second,
                        reasons,
                    });
                }
            }
        }
        forced
    }

    /// The forced pairs whose second leads to their first through forced pairs.
    fn listed(&self, level: Level) -> Vec<Pair> {
        let mut listed = self.forced(level);
        let forced = listed.clone();
        let is_forced = Relation::new(&self.counted, |a, b| {
            forced.iter().any(|p| (p.first, p.second) == (a, b))
        });
        listed.retain(|p| self.leads(p.second, p.first, &is_forced));
        listed
    }

    /// Each next place has the smallest number not yet placed whose forced
    /// predecessors all are.
    fn order(&self, level: Level) -> Option<Vec<u8>> {
        let forced = self.forced(level);
        let mut order = Vec::new();
        while order.len() < self.counted.len() {
            let is_placed = |t: u8| order.contains(&t);
            let is_free = |t: u8| forced.iter().all(|p| p.second != t || is_placed(p.first));
            let mut candidates = self.counted.iter().copied();
            let next = candidates.find(|&t| !is_placed(t) && is_free(t))?;
            order.push(next);
        }
        Some(order)
    }
}

/// A relation between transactions, written down since it is asked often.
#[derive(Default)]
struct Relation(Vec<[bool; MAX_TRANSACTIONS + 1]>);

impl Relation {
    fn new(among: &[u8], holds: impl Fn(u8, u8) -> bool) -> Relation {
        let mut table = vec![[false; MAX_TRANSACTIONS + 1]; MAX_TRANSACTIONS + 1];
        for &a in among {
            for &b in among {
                table[usize::from(a)][usize::from(b)] = holds(a, b);
            }
        }
        Relation(table)
    }

    fn enter(&mut self, a: u8, b: u8) {
        self.0[usize::from(a)][usize::from(b)] = true;
    }

    fn holds(&self, a: u8, b: u8) -> bool {
        self.0[usize::from(a)][usize::from(b)]
    }
}

/// What the six rules say of a read.
enum Read {
    Unclean(u8),
    Internal,
    From(u8),
}

/// Turns an order into the next one of the dictionary, if there is one.
fn next_order(order: &mut [u8]) -> bool {
    let Some(turn) = order.windows(2).rposition(|pair| pair[0] < pair[1]) else {
        return false;
    };
    let swap = order
        .iter()
        .rposition(|&t| t > order[turn])
        .expect("the one after the turn is greater");
    order.swap(turn, swap);
    order[turn + 1..].reverse();
    true
}
