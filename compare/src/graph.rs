//! Deciding by forced pairs, for traces of any lawful size.
//!
//! There are at most 127 transactions besides 0, so a set of transactions is
//! one `u128`, and a relation is a row of them: row b holds every a that stands
//! before b.

use crate::hash::FastMap;
use crate::report::{Finding, Level, Pair, Verdict, READ, RIVAL, SESSION, START};
use crate::trace::{Action, Status, Trace, MAX_TRANSACTIONS};

pub(crate) type Set = u128;
pub(crate) type Rows = [Set; MAX_TRANSACTIONS + 1];

pub(crate) const EMPTY: Rows = [0; MAX_TRANSACTIONS + 1];

pub(crate) fn only(transaction: u8) -> Set {
    1 << transaction
}

/// The members of a set, smallest first.
fn members(mut set: Set) -> impl Iterator<Item = u8> {
    std::iter::from_fn(move || {
        let smallest = (set != 0).then(|| set.trailing_zeros() as u8)?;
        set &= set - 1;
        Some(smallest)
    })
}

/// The pairs of either of two relations.
pub(crate) fn either(mut one: Rows, other: &Rows) -> Rows {
    for (row, more) in one.iter_mut().zip(other) {
        *row |= more;
    }
    one
}

/// A clean external read.
struct ExternalRead {
    reader: u8,
    source: u8,
    /// Every counted transaction that writes the key read, 0 among them.
    writers: Set,
}

impl ExternalRead {
    /// The rivals among those that stand in the level's relation to the read.
    fn rivals(&self, related: Set) -> Set {
        self.writers & related & !only(self.source) & !only(self.reader)
    }
}

/// What a trace says whatever the level.
pub struct History {
    /// Transaction 0 and all that count as committed.
    counted: Set,
    findings: Vec<Finding>,
    /// Those of one reader stand together, in its own order.
    reads: Vec<ExternalRead>,
    session_before: Rows,
    source_before: Rows,
}

impl History {
    pub fn new(trace: &Trace) -> History {
        let own = OwnOperations::new(trace);
        let counting = Counting::new(trace, &own);
        let counted = counting.counted;
        let mut session_before = EMPTY;
        let mut sessions: FastMap<u16, Set> = FastMap::default();
        for (number, transaction) in (1..).zip(&trace.transactions) {
            if counted & only(number) != 0 {
                let earlier = sessions.entry(transaction.session).or_default();
                session_before[usize::from(number)] = *earlier;
                *earlier |= only(number);
            }
        }
        let mut history = History {
            counted,
            findings: Vec::new(),
            reads: Vec::new(),
            session_before,
            source_before: EMPTY,
        };
        let keys = Keys::new(trace, &own, counted);
        history.judge_reads(trace, &own, &counting.write_read, &keys);
        history
    }

    /// Gives every read of a counted transaction its kind, one transaction
    /// after another: "between" and "before" go by its own operations.
    fn judge_reads(
        &mut self,
        trace: &Trace,
        own: &OwnOperations,
        write_read: &[Option<u16>],
        keys: &Keys,
    ) {
        let author = |write: u16| trace.operation(write).transaction;
        // The number of the last write so far of each key. Those of the
        // transactions before are left there, and tell themselves by their author.
        let mut last_write: Vec<Option<u16>> = vec![None; keys.writers.len()];
        for &index in &own.indexes {
            let number = index + 1;
            let index = usize::from(index);
            let operation = &trace.operations[index];
            let slot = usize::from(keys.slot_of[index]);
            let value = match operation.action {
                Action::Read(value) => value,
                Action::Write(_) => {
                    last_write[slot] = Some(number);
                    continue;
                }
                // The levels judge single values only.
                Action::Append(_) | Action::ReadList(_) => continue,
            };
            let reader = operation.transaction;
            if self.counted & only(reader) == 0 {
                continue;
            }
            let own_last = last_write[slot].filter(|&write| author(write) == reader);
            let write = write_read[index];
            let kind = match write {
                None if value != 0 => 1,
                Some(write) if author(write) == reader => {
                    if write > number {
                        3
                    } else if own_last != Some(write) {
                        4
                    } else {
                        continue; // clean, internal
                    }
                }
                Some(write) if self.counted & only(author(write)) == 0 => 2,
                _ if own_last.is_some() => 5,
                Some(write) if keys.written_again[usize::from(write) - 1] => 6,
                _ => {
                    let source = write.map_or(0, author);
                    self.source_before[usize::from(reader)] |= only(source);
                    self.reads.push(ExternalRead {
                        reader,
                        source,
                        writers: keys.writers[slot],
                    });
                    continue;
                }
            };
            self.findings.push(Finding {
                transaction: reader,
                kind,
                operation: number,
                write: write.unwrap_or(0),
            });
        }
        // Those of transactions that overlap were found one after another.
        self.findings.sort_unstable_by_key(|f| f.operation);
    }

    pub fn judge(&self, level: Level) -> Verdict {
        let basic = self.basic();
        let rivals = self.rivals(level, &basic);
        self.verdict(basic, &rivals)
    }

    /// The unclean reads, by operation number.
    pub fn findings(&self) -> &[Finding] {
        &self.findings
    }

    /// The transactions that count as committed, 0 among them, ascending.
    pub fn counted(&self) -> Vec<u8> {
        members(self.counted).collect()
    }

    /// All pairs that the level forces.
    pub fn forced_pairs(&self, level: Level) -> ForcedPairs {
        let basic = self.basic();
        let rivals = self.rivals(level, &basic);
        ForcedPairs {
            before: either(basic, &rivals),
        }
    }

    /// The verdict at level 3 as it would be if `leads` told what leads to what
    /// through basic pairs, of any two besides 0.
    pub fn judge_causal_by(&self, leads: impl Fn(u8, u8) -> bool) -> Verdict {
        let mut leading = EMPTY;
        for t in members(self.counted & !only(0)) {
            let others = members(self.counted & !only(0)).filter(|&other| leads(other, t));
            leading[usize::from(t)] = others.fold(only(0), |set, other| set | only(other));
        }
        self.verdict(self.basic(), &self.related_rivals(&leading))
    }

    /// The verdict by the basic pairs and those that a level adds.
    fn verdict(&self, basic: Rows, rival_before: &Rows) -> Verdict {
        let before = either(basic, rival_before);
        match smallest_order(&before, self.counted) {
            Some(order) if self.findings.is_empty() => Verdict::Accepted(order),
            order => Verdict::Rejected {
                findings: self.findings.clone(),
                pairs: match order {
                    Some(_) => Vec::new(), // nothing leads back
                    None => self.listed(&before, rival_before),
                },
            },
        }
    }

    /// The basic pairs: start, session and read.
    fn basic(&self) -> Rows {
        let mut before = EMPTY;
        for t in members(self.counted & !only(0)).map(usize::from) {
            before[t] = only(0) | self.session_before[t] | self.source_before[t];
        }
        before
    }

    /// The basic pairs, and where they lead.
    pub fn basic_pairs(&self) -> BasicPairs {
        let before = self.basic();
        BasicPairs {
            leading: Paths::new(&before, self.counted).leading,
            before,
        }
    }

    /// The pairs that the level adds.
    fn rivals(&self, level: Level, basic: &Rows) -> Rows {
        match level {
            Level::ReadCommitted => self.earlier_rivals(),
            Level::ReadAtomicity => self.related_rivals(basic),
            Level::Causal => self.related_rivals(&Paths::new(basic, self.counted).leading),
        }
    }

    /// Those that level 1 adds: the rival is the source of an earlier read.
    fn earlier_rivals(&self) -> Rows {
        let mut before = EMPTY;
        let mut reader = 0;
        let mut earlier_sources = 0;
        for read in &self.reads {
            if read.reader != reader {
                reader = read.reader;
                earlier_sources = 0;
            }
            before[usize::from(read.source)] |= read.rivals(earlier_sources);
            earlier_sources |= only(read.source);
        }
        before
    }

    /// Those that levels 2 and 3 add: the rival is in the reader's row.
    fn related_rivals(&self, related: &Rows) -> Rows {
        let mut before = EMPTY;
        for read in &self.reads {
            before[usize::from(read.source)] |= read.rivals(related[usize::from(read.reader)]);
        }
        before
    }

    /// The forced pairs whose second leads to their first.
    fn listed(&self, before: &Rows, rival_before: &Rows) -> Vec<Pair> {
        listed(before, self.counted, |first, second| {
            let has = |rows: &Rows| rows[usize::from(second)] & only(first) != 0;
            let mut reasons = 0;
            // Start puts 0 before every other, whatever else does so too.
            if first == 0 {
                reasons |= START;
            }
            if has(&self.session_before) {
                reasons |= SESSION;
            }
            if has(&self.source_before) {
                reasons |= READ;
            }
            if has(rival_before) {
                reasons |= RIVAL;
            }
            reasons
        })
    }
}

/// The pairs of a relation among these whose second leads to their first, which are
/// those whose two lead to each other; by first and then second, with their reasons.
pub(crate) fn listed(before: &Rows, among: Set, reasons: impl Fn(u8, u8) -> u8) -> Vec<Pair> {
    let mutual = Paths::new(before, among).mutual;
    // The list goes by firsts, so the rows are turned round.
    let mut seconds = EMPTY;
    for second in members(among) {
        for first in members(before[usize::from(second)] & mutual[usize::from(second)]) {
            seconds[usize::from(first)] |= only(second);
        }
    }
    let count: u32 = seconds.iter().map(|row| row.count_ones()).sum();
    let mut pairs = Vec::with_capacity(count as usize);
    for first in members(among) {
        for second in members(seconds[usize::from(first)]) {
            pairs.push(Pair {
                first,
                second,
                reasons: reasons(first, second),
            });
        }
    }
    pairs
}

/// The basic pairs of a trace, and where they lead. A transaction that does not
/// count has no part in them.
pub struct BasicPairs {
    before: Rows,
    leading: Rows,
}

impl BasicPairs {
    /// Whether the one stands before the other by a basic pair.
    pub fn has(&self, first: u8, second: u8) -> bool {
        self.before[usize::from(second)] & only(first) != 0
    }

    /// Whether the one leads to the other through one or more of them.
    pub fn leads(&self, first: u8, second: u8) -> bool {
        self.leading[usize::from(second)] & only(first) != 0
    }

    /// Whether some transaction leads to itself.
    pub fn form_cycle(&self) -> bool {
        (0..=MAX_TRANSACTIONS as u8).any(|t| self.leads(t, t))
    }
}

/// The pairs that a level forces.
pub struct ForcedPairs {
    before: Rows,
}

impl ForcedPairs {
    /// Whether the one has to stand before the other.
    pub fn has(&self, first: u8, second: u8) -> bool {
        self.before[usize::from(second)] & only(first) != 0
    }

    /// Of those that stand the wrong way round in an order of transactions that
    /// count, the least by first and then second.
    pub fn least_reversed(&self, order: &[u8]) -> Option<(u8, u8)> {
        let mut behind: Set = 0;
        let reversed = order.iter().rev().filter_map(|&second| {
            let firsts = self.before[usize::from(second)] & behind;
            behind |= only(second);
            Some((members(firsts).next()?, second))
        });
        reversed.min()
    }
}

/// The transactions that count as committed, 0 among them, ascending.
pub fn counted(trace: &Trace) -> Vec<u8> {
    let own = OwnOperations::new(trace);
    members(Counting::new(trace, &own).counted).collect()
}

/// The operations of each transaction. They are no neighbours in the trace
/// where transactions overlap.
struct OwnOperations {
    /// The indexes of all operations: those of transaction 1 in their order,
    /// then those of transaction 2, and so on.
    indexes: Vec<u16>,
    /// Where those of each transaction end.
    ends: [u16; MAX_TRANSACTIONS + 1],
}

impl OwnOperations {
    fn new(trace: &Trace) -> OwnOperations {
        let mut ends = [0; MAX_TRANSACTIONS + 1];
        for operation in &trace.operations {
            ends[usize::from(operation.transaction)] += 1;
        }
        let mut end = 0;
        for count in &mut ends {
            end += *count;
            *count = end;
        }
        // Filled from behind, so that each end comes to be a start.
        let mut starts = ends;
        let mut indexes = vec![0; trace.operations.len()];
        for (index, operation) in trace.operations.iter().enumerate().rev() {
            let start = &mut starts[usize::from(operation.transaction)];
            *start -= 1;
            indexes[usize::from(*start)] = index as u16;
        }
        OwnOperations { indexes, ends }
    }

    /// The indexes of the operations of a transaction other than 0.
    fn of(&self, transaction: u8) -> &[u16] {
        let number = usize::from(transaction);
        let (start, end) = (self.ends[number - 1], self.ends[number]);
        &self.indexes[usize::from(start)..usize::from(end)]
    }
}

/// Which transactions count as committed, and what was looked up to know it.
struct Counting {
    /// Transaction 0 and all that count.
    counted: Set,
    /// For each read of one that counts, the number of the write that has its
    /// key and value, if there is one.
    write_read: Vec<Option<u16>>,
}

impl Counting {
    /// The committed ones count from the start. The reads of each are looked at
    /// once, when it has come to count, and the unanswered ones whose values
    /// they read come to count by it. A read of an own value is looked at only
    /// when its transaction counts already, so it never is the reason.
    fn new(trace: &Trace, own: &OwnOperations) -> Counting {
        let with = |status| trace.with_status(status).fold(0, |set, t| set | only(t));
        let mut uncounted: Set = with(Status::Unanswered);
        let mut waiting: Set = with(Status::Committed);
        let mut counting = Counting {
            counted: only(0) | waiting,
            write_read: vec![None; trace.operations.len()],
        };
        while let Some(reader) = members(waiting).next() {
            waiting &= !only(reader);
            let sources = uncounted & counting.look_up(trace, own.of(reader));
            uncounted &= !sources;
            waiting |= sources;
            counting.counted |= sources;
        }
        counting
    }

    /// Looks the reads among these operations up, and answers whose values they
    /// read.
    fn look_up(&mut self, trace: &Trace, indexes: &[u16]) -> Set {
        let mut sources = 0;
        for index in indexes.iter().copied().map(usize::from) {
            let operation = &trace.operations[index];
            let Some(value) = operation.action.read() else {
                continue;
            };
            let write = trace.find_write(operation.key, value);
            self.write_read[index] = write;
            sources |= write.map_or(0, |write| only(trace.operation(write).transaction));
        }
        sources
    }
}

/// What is known of the keys of a trace.
struct Keys {
    /// For each operation, the number of its key among the different keys.
    slot_of: Vec<u16>,
    /// For each key, every counted transaction that writes it, with 0.
    writers: Vec<Set>,
    /// For each operation that is a write, whether its transaction writes the
    /// key again later.
    written_again: Vec<bool>,
}

impl Keys {
    fn new(trace: &Trace, own: &OwnOperations, counted: Set) -> Keys {
        let mut slots: FastMap<u32, u16> = FastMap::default();
        let mut last_write: Vec<Option<usize>> = Vec::new();
        let mut keys = Keys {
            slot_of: vec![0; trace.operations.len()],
            writers: Vec::new(),
            written_again: vec![false; trace.operations.len()],
        };
        // Transaction by transaction, so that its own writes of a key follow one
        // another.
        for index in own.indexes.iter().copied().map(usize::from) {
            let operation = &trace.operations[index];
            let slot = *slots.entry(operation.key).or_insert_with(|| {
                keys.writers.push(only(0));
                last_write.push(None);
                keys.writers.len() as u16 - 1
            });
            keys.slot_of[index] = slot;
            if operation.action.written().is_some() {
                let slot = usize::from(slot);
                keys.writers[slot] |= only(operation.transaction) & counted;
                if let Some(earlier) = last_write[slot].replace(index) {
                    keys.written_again[earlier] =
                        trace.operations[earlier].transaction == operation.transaction;
                }
            }
        }
        keys
    }
}

/// The smallest order: each next place has the smallest transaction that is
/// free, all before it being placed. None if a cycle leaves some without.
fn smallest_order(before: &Rows, among: Set) -> Option<Vec<u8>> {
    let mut order = Vec::with_capacity(among.count_ones() as usize);
    let mut unplaced = among;
    let mut free: Set = 0;
    // Each transaction that is not free waits for one of those before it, and
    // looks for another when that one is placed: most of a long row is never
    // looked at. The greatest is taken since it tends to come last.
    let mut waiting = EMPTY;
    let mut woken = among;
    loop {
        for t in members(woken) {
            let missing = before[usize::from(t)] & unplaced;
            match missing.checked_ilog2() {
                None => free |= only(t),
                Some(greatest) => waiting[greatest as usize] |= only(t),
            }
        }
        let Some(next) = members(free).next() else {
            return (unplaced == 0).then_some(order);
        };
        order.push(next);
        free &= !only(next);
        unplaced &= !only(next);
        woken = waiting[usize::from(next)];
    }
}

/// Where the pairs of a relation lead.
struct Paths {
    /// For each transaction, all that lead to it by one or more pairs.
    leading: Rows,
    /// For each transaction on a cycle, all that lead to it and that it leads
    /// to, itself among them.
    mutual: Rows,
}

impl Paths {
    /// The path-based search for strongly connected components. It walks back
    /// along the pairs and keeps its path as a stack of groups, the members of
    /// a group leading to one another. A step back onto the path makes one
    /// group of all it spans. A group with no step left but to finished ones is
    /// finished itself, and the same transactions lead to all its members.
    fn new(before: &Rows, among: Set) -> Paths {
        struct Group {
            members: Set,
            /// All that stand before a member by one pair.
            before: Set,
        }
        let mut paths = Paths {
            leading: EMPTY,
            mutual: EMPTY,
        };
        let mut stack: Vec<Group> = Vec::new();
        let mut on_path: Set = 0;
        let mut unseen = among;
        loop {
            let mut reachable = unseen;
            if let Some(mut top) = stack.pop() {
                let mut back = top.before & on_path & !top.members;
                while back != 0 {
                    let below = stack.pop().expect("the path's members are in its groups");
                    back &= !below.members;
                    top.members |= below.members;
                    top.before |= below.before;
                }
                reachable &= top.before;
                if reachable == 0 {
                    on_path &= !top.members;
                    paths.finish(top.members, top.before);
                    continue;
                }
                stack.push(top);
            }
            let Some(next) = members(reachable).next() else {
                return paths; // an empty path and nothing unseen
            };
            unseen &= !only(next);
            on_path |= only(next);
            stack.push(Group {
                members: only(next),
                before: before[usize::from(next)],
            });
        }
    }

    /// Enters a finished group. All that stand before it are finished.
    fn finish(&mut self, group: Set, before: Set) {
        let mut leading = before;
        let mut rest = before & !group;
        while let Some(greatest) = rest.checked_ilog2() {
            let further = self.leading[greatest as usize];
            leading |= further;
            // What leads to those in `further` is in it already.
            rest &= !(further | 1 << greatest);
        }
        // No transaction stands before itself, so one alone is on no cycle.
        let mutual = if group.is_power_of_two() { 0 } else { group };
        for t in members(group).map(usize::from) {
            self.leading[t] = leading;
            self.mutual[t] = mutual;
        }
    }
}
