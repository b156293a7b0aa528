//! Vectors: "for each transaction, the latest known transaction of every session".
//!
//! The sources keep one for each transaction of the graph that sessions and reads
//! make, and take its vector for all that leads to it: one leads to another if its
//! vector is at most the other's, entry by entry, and only then. There a transaction
//! has itself in its own vector; in the request's words a transaction knows those that
//! lead to it. Both readings are here: see [`Vectors::with_own`].
//!
//! The judge has no use for them. [`crate::graph`] tells in its own way what leads to
//! what, and vectors must say the same of any two different transactions besides 0.
//! They are worked out in two ways: by these words, from what leads to what, and as
//! the sources do it, from one transaction to the next.

use crate::graph::{self, BasicPairs};
use crate::trace::Trace;
use std::collections::BTreeMap;

/// The latest known transaction of every session. There is no entry for a session of
/// which none is known.
#[derive(Clone, Debug, Default, PartialEq, Eq)]
pub struct Vector(BTreeMap<u16, u8>);

impl Vector {
    /// The latest known one of this session, or 0.
    pub fn latest(&self, session: u16) -> u8 {
        self.0.get(&session).copied().unwrap_or(0)
    }

    /// One more is known, of this session. Numbers go by opening, and a session has one
    /// transaction open at a time: the greater is the later.
    fn learn(&mut self, session: u16, transaction: u8) {
        let latest = self.0.entry(session).or_default();
        *latest = (*latest).max(transaction);
    }

    /// All that is known to another becomes known: the greater of each two entries.
    fn join(&mut self, other: &Vector) {
        for (&session, &transaction) in &other.0 {
            self.learn(session, transaction);
        }
    }

    /// Whether no entry is greater than the other's, entry by entry.
    fn is_at_most(&self, other: &Vector) -> bool {
        let mut entries = self.0.iter();
        entries.all(|(&session, &latest)| latest <= other.latest(session))
    }
}

/// The vectors of a trace: one for each transaction that counts, besides 0.
#[derive(Clone, Debug, PartialEq, Eq)]
pub struct Vectors(BTreeMap<u8, Member>);

/// A transaction that counts.
#[derive(Clone, Debug, PartialEq, Eq)]
struct Member {
    session: u16,
    knows: Vector,
}

impl Vectors {
    /// By the words: of every session the greatest-numbered transaction that leads to
    /// it. Where basic pairs form a cycle, that may be the transaction itself, or one
    /// of its session behind it.
    pub fn new(trace: &Trace, pairs: &BasicPairs) -> Vectors {
        let mut vectors = Vectors::unknowing(trace);
        let sessions = vectors.sessions();
        for (&t, member) in &mut vectors.0 {
            for &(other, session) in &sessions {
                if pairs.leads(other, t) {
                    member.knows.learn(session, other);
                }
            }
        }
        vectors
    }

    /// As the sources do it: along the pairs, in an order that has them all, each
    /// source telling its vector and itself. Nothing where basic pairs form a cycle,
    /// for then there is no such order.
    pub fn merged(trace: &Trace, pairs: &BasicPairs) -> Option<Vectors> {
        let mut vectors = Vectors::unknowing(trace);
        let sessions = vectors.sessions();
        for t in respectful_order(&sessions, pairs)? {
            let mut knows = Vector::default();
            for (source, session) in vectors.tellers(t, pairs) {
                knows.join(&vectors.0[&source].knows);
                knows.learn(session, source);
            }
            vectors.0.get_mut(&t).expect("one that counts").knows = knows;
        }
        Some(vectors)
    }

    /// The same with each transaction in its own vector, as the sources have it: its
    /// own entry is at least its own number.
    pub fn with_own(mut self) -> Vectors {
        for (&t, member) in &mut self.0 {
            member.knows.learn(member.session, t);
        }
        self
    }

    /// The vector of a transaction, if that counts and is not 0.
    pub fn of(&self, transaction: u8) -> Option<&Vector> {
        self.0.get(&transaction).map(|member| &member.knows)
    }

    /// Whether the vector of `b` says that `a` leads to `b`: it knows `a`, or a later
    /// one of that session, to which `a` leads. Of one that does not count nothing is
    /// said, whatever is known of its session; nor is of 0, which has none.
    pub fn says(&self, a: u8, b: u8) -> bool {
        match (self.0.get(&a), self.0.get(&b)) {
            (Some(one), Some(other)) => other.knows.latest(one.session) >= a,
            _ => false,
        }
    }

    /// Whether the vector of `a` is at most that of `b`; both have to count.
    pub fn at_most(&self, a: u8, b: u8) -> bool {
        match (self.0.get(&a), self.0.get(&b)) {
            (Some(one), Some(other)) => one.knows.is_at_most(&other.knows),
            _ => false,
        }
    }

    /// The transactions that count, which know none as yet.
    fn unknowing(trace: &Trace) -> Vectors {
        let besides_0 = graph::counted(trace).into_iter().filter(|&t| t != 0);
        let member = |t: u8| Member {
            session: trace.transactions[usize::from(t) - 1].session,
            knows: Vector::default(),
        };
        Vectors(besides_0.map(|t| (t, member(t))).collect())
    }

    /// Each transaction with its session, by number.
    fn sessions(&self) -> Vec<(u8, u16)> {
        let each = self.0.iter();
        each.map(|(&t, member)| (t, member.session)).collect()
    }

    /// Those that tell a transaction what they know, with their sessions: the one right
    /// before it in its own session, and those of other sessions that stand before it,
    /// its sources.
    fn tellers(&self, t: u8, pairs: &BasicPairs) -> Vec<(u8, u16)> {
        let own = self.0[&t].session;
        let (of_session, mut tellers): (Vec<_>, Vec<_>) = self
            .sessions()
            .into_iter()
            .filter(|&(source, _)| pairs.has(source, t))
            .partition(|&(_, session)| session == own);
        tellers.extend(of_session.last());
        tellers
    }
}

/// The transactions in an order in which each comes behind all that stand before it;
/// none if there is no such order.
fn respectful_order(sessions: &[(u8, u16)], pairs: &BasicPairs) -> Option<Vec<u8>> {
    let mut order: Vec<u8> = Vec::new();
    let mut unplaced: Vec<u8> = sessions.iter().map(|&(t, _)| t).collect();
    while !unplaced.is_empty() {
        let is_free = |&t: &u8| unplaced.iter().all(|&other| !pairs.has(other, t));
        let next = unplaced.iter().position(is_free)?;
        order.push(unplaced.remove(next));
    }
    Some(order)
}
