//! What is said of a claimed order, which a host has from another checker: the
//! third call of the upper library, on numbers and bytes, and the program `claim`.
//!
//! "Yes exactly if it has every committed transaction once, 0 first, contains all
//! forced pairs and all reads are clean. A no names the first reason that holds." The
//! reasons are tried in this order: an unclean read, membership, a forced pair. Any
//! bytes are a claim, the empty one too. Committed are those that count. Refusals come
//! before all reasons, 1 and then those of the trace; no buffer can be too short.

use crate::deciding::{count, level_of, put_numbers};
use crate::graph::History;
use crate::report::Level;
use crate::trace::{Refusal, Trace};

/// The answer to a claim.
#[derive(Clone, Copy, Debug, PartialEq, Eq)]
pub enum Claimed {
    Yes,
    /// There is an unclean read; the first one has this operation number.
    NoRead(u16),
    /// It has not every transaction that counts once and no other, or 0 is not first.
    NoMembers,
    /// A forced pair stands the wrong way round; the least by first and then second.
    NoPair(u8, u8),
    Refused(Refusal),
}

impl Claimed {
    /// What there is to answer, by number.
    pub const NAMES: [&str; 5] = ["yes", "no read", "no members", "no pair", "refused"];

    /// The number that the call answers.
    pub fn number(&self) -> u32 {
        match self {
            Claimed::Yes => 1,
            Claimed::NoRead(_) => 2,
            Claimed::NoMembers => 3,
            Claimed::NoPair(..) => 4,
            Claimed::Refused(_) => 5,
        }
    }

    /// The line that the program prints.
    pub fn line(&self) -> String {
        match self {
            Claimed::Yes => "yes\n".into(),
            Claimed::NoRead(operation) => format!("no read {operation}\n"),
            Claimed::NoMembers => "no members\n".into(),
            Claimed::NoPair(first, second) => format!("no pair {first} {second}\n"),
            Claimed::Refused(Refusal { number, place }) => format!("refused {number} {place}\n"),
        }
    }

    /// Writes into the buffer of the call what it writes: the read, the pair's first
    /// and second, the refusal's number and its place, 0 where they do not apply. Those
    /// that fit whole are written, and every other byte is left as it is.
    pub fn write(&self, numbers: &mut [u8]) {
        let all = match *self {
            Claimed::Yes | Claimed::NoMembers => [0; 5],
            Claimed::NoRead(operation) => [operation.into(), 0, 0, 0, 0],
            Claimed::NoPair(first, second) => [0, first.into(), second.into(), 0, 0],
            Claimed::Refused(Refusal { number, place }) => [0, 0, 0, number.into(), count(place)],
        };
        put_numbers(numbers, &all);
    }

    /// Whether another answer is the same but for the number of a read, as that of
    /// the same claim on the same transactions has to be, however they overlap.
    pub fn is_like(&self, other: &Claimed) -> bool {
        match (self, other) {
            (Claimed::NoRead(_), Claimed::NoRead(_)) => true,
            (one, other) => one == other,
        }
    }
}

/// The call: what is said of this claimed order, a byte a transaction, on the bytes of
/// a trace at a level of any number.
pub fn claim(trace: &[u8], level: u32, order: &[u8]) -> Claimed {
    let claimed = level_of(level).and_then(|level| {
        let trace = Trace::parse(trace)?;
        Ok(claim_in(&History::new(&trace), level, order))
    });
    claimed.unwrap_or_else(Claimed::Refused)
}

/// The same of a trace that has been read.
pub fn claim_in(history: &History, level: Level, order: &[u8]) -> Claimed {
    if let Some(first) = history.findings().first() {
        return Claimed::NoRead(first.operation);
    }
    if !has_members(order, &history.counted()) {
        return Claimed::NoMembers;
    }
    match history.forced_pairs(level).least_reversed(order) {
        Some((first, second)) => Claimed::NoPair(first, second),
        None => Claimed::Yes,
    }
}

/// Whether an order has 0 first, and each of those that count, which are given
/// ascending, once, and no other.
fn has_members(order: &[u8], counted: &[u8]) -> bool {
    let mut sorted = order.to_vec();
    sorted.sort_unstable();
    order.first() == Some(&0) && sorted == counted
}

/// The level and the claimed order that the arguments of the program say; nothing
/// where they are no such arguments.
pub fn arguments(words: &[&str]) -> Option<(Level, Vec<u8>)> {
    let (name, places) = words.split_first()?;
    let level = Level::ALL.into_iter().find(|level| level.name() == *name)?;
    let order: Option<Vec<u8>> = places.iter().map(|word| transaction(word)).collect();
    Some((level, order?))
}

/// A number from 0 to 255 as it is printed: without sign and leading zeros.
fn transaction(word: &str) -> Option<u8> {
    let number: u8 = word.parse().ok()?;
    (number.to_string() == word).then_some(number)
}
