//! Transactions put into a trace, as blocks or with their records woven together;
//! and what has to stay the same then.

use crate::encode::Writer;
use crate::random::Random;
use crate::report::{Finding, Verdict};
use crate::trace::{self, Action, Edition, Operation, Sort, Status, Trace};

/// A transaction with all that is its own.
#[derive(Clone, Debug, PartialEq, Eq)]
pub struct Whole {
    pub session: u16,
    pub status: Status,
    pub operations: Vec<Access>,
}

/// An operation, whoever does it.
#[derive(Clone, Debug, PartialEq, Eq)]
pub struct Access {
    pub key: u32,
    pub action: Action,
}

impl Access {
    pub fn read(key: u32, value: u64) -> Access {
        let action = Action::Read(value);
        Access { key, action }
    }

    pub fn write(key: u32, value: u64) -> Access {
        let action = Action::Write(value);
        Access { key, action }
    }

    pub fn put(&self, writer: &mut Writer, session: u16) {
        match &self.action {
            Action::Read(value) => writer.read_in(session, self.key, *value),
            Action::Write(value) => writer.write_in(session, self.key, *value),
            Action::Append(value) => writer.append_in(session, self.key, *value),
            Action::ReadList(values) => writer.read_list_in(session, self.key, values),
        }
    }
}

/// The transactions of a trace, each with its own operations in their order.
pub fn wholes(trace: &Trace) -> Vec<Whole> {
    let mut wholes: Vec<Whole> = trace
        .transactions
        .iter()
        .map(|t| Whole {
            session: t.session,
            status: t.status,
            operations: Vec::new(),
        })
        .collect();
    for operation in &trace.operations {
        let whole = &mut wholes[usize::from(operation.transaction) - 1];
        whole.operations.push(Access {
            key: operation.key,
            action: operation.action.clone(),
        });
    }
    wholes
}

/// The same transactions with their operations on single values only.
pub fn without_lists(wholes: &[Whole]) -> Vec<Whole> {
    let mut without = wholes.to_vec();
    for whole in &mut without {
        let operations = &mut whole.operations;
        operations.retain(|access| access.action.sort() == Sort::Single);
    }
    without
}

/// The transactions one after another.
pub fn blocks(edition: Edition, first_serial: u32, wholes: &[Whole]) -> Vec<u8> {
    let writer = Writer::of_edition(edition, first_serial);
    weave(writer, wholes, |_, _| Turn::GoOn(0))
}

/// What comes next in a trace.
pub enum Turn {
    /// The next transaction opens.
    Open,
    /// The open transaction with this place among the open ones goes on: its
    /// next operation, or its close.
    GoOn(usize),
}

/// Writes the records of the transactions. They open in their order. Where one
/// is open, what comes next is chosen by the number of those that are, and by
/// whether the next may open: there is one, and its session has none open.
pub fn weave(
    mut writer: Writer,
    wholes: &[Whole],
    mut choose: impl FnMut(usize, bool) -> Turn,
) -> Vec<u8> {
    let mut waiting = wholes.iter().peekable();
    // Each with the operations that are still to come.
    let mut open: Vec<(&Whole, &[Access])> = Vec::new();
    loop {
        let is_free = |session| open.iter().all(|(whole, _)| whole.session != session);
        let may_open = waiting.peek().is_some_and(|next| is_free(next.session));
        let turn = match open.len() {
            0 if !may_open => return writer.end(),
            0 => Turn::Open,
            count => choose(count, may_open),
        };
        match turn {
            Turn::Open => {
                let next = waiting.next().expect("one that may open");
                writer.open(next.session);
                open.push((next, &next.operations));
            }
            Turn::GoOn(place) => {
                let (whole, left) = &mut open[place];
                match left.split_first() {
                    Some((next, rest)) => {
                        next.put(&mut writer, whole.session);
                        *left = rest;
                    }
                    None => {
                        writer.close_in(whole.session, whole.status as u8);
                        open.remove(place);
                    }
                }
            }
        }
    }
}

/// Any open one goes on, or with the chance in percent another opens while there
/// are fewer than the most.
pub fn at_random(
    random: &mut Random,
    most: usize,
    chance: usize,
) -> impl FnMut(usize, bool) -> Turn + '_ {
    move |open, may_open| match may_open && open < most && random.percent(chance) {
        true => Turn::Open,
        false => Turn::GoOn(random.below(open)),
    }
}

/// As many open as can be up to the most, and all of them go on in turn.
pub fn in_turn(most: usize) -> impl FnMut(usize, bool) -> Turn {
    let mut turn = 0;
    move |open, may_open| {
        if may_open && open < most {
            return Turn::Open;
        }
        turn += 1;
        Turn::GoOn(turn % open)
    }
}

/// How many transactions are open at once in a trace, at most; of a trace that
/// is not refused.
pub fn most_open(bytes: &[u8]) -> usize {
    let mut open = 0_usize;
    let mut most = 0;
    for record in trace::records(bytes) {
        match record.kind {
            trace::OPEN => open += 1,
            trace::CLOSE => open = open.saturating_sub(1),
            _ => {}
        }
        most = most.max(open);
    }
    most
}

/// A trace with its answer at all three levels.
pub struct Judged<'a> {
    pub trace: &'a Trace,
    pub verdicts: &'a [Verdict; 3],
}

impl Judged<'_> {
    /// Whether another trace with the same transactions, opened in the same
    /// order and each with the same operations in its own order, gets the same
    /// answer but for operation numbers, and so for the order of findings. Those
    /// on lists may be other ones, or none.
    pub fn is_like(&self, other: &Judged) -> bool {
        let mut pairs = self.verdicts.iter().zip(other.verdicts);
        pairs.all(|(one, two)| match (one, two) {
            (Verdict::Accepted(one), Verdict::Accepted(two)) => one == two,
            (
                Verdict::Rejected { findings, pairs },
                Verdict::Rejected {
                    findings: other_findings,
                    pairs: other_pairs,
                },
            ) => {
                pairs == other_pairs
                    && self.without_numbers(findings) == other.without_numbers(other_findings)
            }
            _ => false,
        })
    }

    /// The findings, with what the operations are in place of their numbers.
    fn without_numbers(&self, findings: &[Finding]) -> Vec<Placeless> {
        let owns = OwnNumbers::new(self.trace);
        let mut placeless: Vec<Placeless> = findings
            .iter()
            .map(|f| Placeless {
                transaction: f.transaction,
                kind: f.kind,
                read: owns.of(f.operation),
                write: (f.write != 0).then(|| owns.of(f.write)),
            })
            .collect();
        placeless.sort_unstable();
        placeless
    }
}

/// A finding without the places of its operations in the trace.
#[derive(PartialEq, Eq, PartialOrd, Ord)]
struct Placeless {
    transaction: u8,
    kind: u8,
    read: OwnNumber,
    write: Option<OwnNumber>,
}

/// An operation on a single value by its transaction and its number among those of
/// that one.
type OwnNumber = (u8, usize);

struct OwnNumbers(Vec<OwnNumber>);

impl OwnNumbers {
    fn new(trace: &Trace) -> OwnNumbers {
        let mut counts = vec![0; trace.transactions.len() + 1];
        let number = |operation: &Operation| {
            let count = &mut counts[usize::from(operation.transaction)];
            // One on a list has the number of the one before it, and is in no finding.
            *count += usize::from(operation.action.sort() == Sort::Single);
            (operation.transaction, *count)
        };
        OwnNumbers(trace.operations.iter().map(number).collect())
    }

    /// What the operation with this number in the trace is.
    fn of(&self, operation: u16) -> OwnNumber {
        self.0[usize::from(operation) - 1]
    }
}
