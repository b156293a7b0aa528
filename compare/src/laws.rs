//! What has to hold of the claims on a trace, whatever each of them is.
//!
//! The order that the judge shows gets a yes, and no claim gets one where the judge
//! rejects. A yes at a level is a yes at the weaker ones. The same claim on the same
//! transactions, in the other edition, woven together in another way, with other notes
//! or without lists, gets the same answer but for the number of a read. Where
//! transactions are few, [`crate::brute`] looks at each answer.

use crate::brute;
use crate::claiming::{claim_in, Claimed};
use crate::encode::Writer;
use crate::graph::History;
use crate::notes;
use crate::orders::Basis;
use crate::random::Random;
use crate::report::{places, Level, Verdict};
use crate::trace::{Edition, Trace};
use crate::weave;
use crate::workers::must;

/// How many claims are tried on a trace.
const TRIED: usize = 3;
/// The most transactions of a trace of which each answer is looked at a second time.
const MOST_FOR_SECOND: usize = 20;

/// How many claims were tried, each at a level.
#[derive(Clone, Copy, Default)]
pub struct Tried {
    pub claims: usize,
    pub yes: usize,
    /// Those that were looked at a second time.
    pub by_axioms: usize,
}

impl Tried {
    pub fn add(&mut self, other: &Tried) {
        self.claims += other.claims;
        self.yes += other.yes;
        self.by_axioms += other.by_axioms;
    }
}

/// Tries claims on a trace that has been judged, the judge's own orders and random ones;
/// or says what is wrong.
pub fn check(
    bytes: &[u8],
    trace: &Trace,
    verdicts: &[Verdict; 3],
    random: &mut Random,
) -> Result<Tried, String> {
    let claims = Claims::new(bytes, trace, random);
    let mut orders: Vec<Vec<u8>> = verdicts.iter().filter_map(own_order).collect();
    // Mostly all levels show the same.
    orders.dedup();
    for _ in 0..TRIED {
        let level = *random.pick(&Level::ALL);
        let (_, order) = Basis::of_read(trace, level).drawn(random);
        orders.push(order);
    }
    let mut tried = Tried::default();
    for order in &orders {
        claims.check(order, verdicts, &mut tried)?;
    }
    Ok(tried)
}

fn own_order(verdict: &Verdict) -> Option<Vec<u8>> {
    match verdict {
        Verdict::Accepted(order) => Some(order.clone()),
        Verdict::Rejected { .. } => None,
    }
}

/// All that is asked about a claim.
struct Claims<'a> {
    history: History,
    relatives: Vec<Relative>,
    /// The second decider, where transactions are few.
    second: Option<brute::Claims<'a>>,
}

impl<'a> Claims<'a> {
    fn new(bytes: &[u8], trace: &'a Trace, random: &mut Random) -> Claims<'a> {
        let history = History::new(trace);
        let are_few = trace.transactions.len() <= MOST_FOR_SECOND;
        let second = are_few.then(|| brute::Claims::new(trace, &history.counted()));
        Claims {
            history,
            relatives: relatives(bytes, trace, random),
            second,
        }
    }

    /// Sees that the claim is answered as it has to be at each level.
    fn check(
        &self,
        order: &[u8],
        verdicts: &[Verdict; 3],
        tried: &mut Tried,
    ) -> Result<(), String> {
        let claimed = Level::ALL.map(|level| claim_in(&self.history, level, order));
        self.check_answers(order, &claimed, verdicts)
            .map_err(|message| format!("{message}:{} gets {claimed:?}\n", places(order)))?;
        tried.claims += claimed.len();
        tried.yes += claimed.iter().filter(|c| **c == Claimed::Yes).count();
        tried.by_axioms += self.second.as_ref().map_or(0, |_| claimed.len());
        Ok(())
    }

    fn check_answers(
        &self,
        order: &[u8],
        claimed: &[Claimed; 3],
        verdicts: &[Verdict; 3],
    ) -> Result<(), String> {
        let [rc, ra, tcc] = claimed.map(|claimed| claimed == Claimed::Yes);
        must(
            (!tcc || ra) && (!ra || rc),
            "a yes, but not one level below",
        )?;
        for ((level, claimed), verdict) in Level::ALL.into_iter().zip(claimed).zip(verdicts) {
            let is_yes = *claimed == Claimed::Yes;
            match verdict {
                Verdict::Accepted(own) => must(is_yes || own != order, "the own order, but a no")?,
                Verdict::Rejected { .. } => must(!is_yes, "rejected, but a yes")?,
            }
            let is_right = self
                .second
                .as_ref()
                .is_none_or(|second| second.is_right(level, order, claimed));
            must(is_right, "not what the axioms and definitions say")?;
            for relative in &self.relatives {
                let other = claim_in(&relative.history, level, order);
                must(relative.is_alike(claimed, &other), relative.name)?;
            }
        }
        Ok(())
    }
}

/// A trace that has the same transactions, and so the same answers.
struct Relative {
    name: &'static str,
    history: History,
    /// Whether reads have the same numbers.
    keeps_numbers: bool,
}

impl Relative {
    fn new(name: &'static str, keeps_numbers: bool, bytes: &[u8]) -> Relative {
        let trace = Trace::parse(bytes).expect("the same transactions make a trace");
        Relative {
            name,
            history: History::new(&trace),
            keeps_numbers,
        }
    }

    fn is_alike(&self, claimed: &Claimed, other: &Claimed) -> bool {
        match self.keeps_numbers {
            true => claimed == other,
            false => claimed.is_like(other),
        }
    }
}

/// The transactions of a trace as blocks of both editions, in edition 1 without lists,
/// and woven together at random; and, if it has notes, with others and with none.
fn relatives(bytes: &[u8], trace: &Trace, random: &mut Random) -> Vec<Relative> {
    let wholes = weave::wholes(trace);
    let woven = weave::weave(
        Writer::edition_2(0),
        &wholes,
        weave::at_random(random, 8, 50),
    );
    let are_blocks = trace.edition == Edition::One;
    let one = weave::blocks(Edition::One, 0, &weave::without_lists(&wholes));
    let two = weave::blocks(Edition::Two, 0, &wholes);
    let mut relatives = vec![
        Relative::new("otherwise in blocks of edition 1", are_blocks, &one),
        Relative::new("otherwise in blocks of edition 2", are_blocks, &two),
        Relative::new("otherwise woven anew", false, &woven),
    ];
    let texts = notes::texts(bytes, None);
    if !texts.is_empty() {
        let other = notes::with_other_texts(random, bytes, &texts);
        let without = notes::left_out(bytes, 0);
        relatives.push(Relative::new("otherwise with other texts", true, &other));
        relatives.push(Relative::new("otherwise without notes", true, &without));
    }
    relatives
}
