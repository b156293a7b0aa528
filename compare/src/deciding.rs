//! What the index decides about a replica, by the independent judge: the first two
//! calls of the upper library, on numbers and bytes.
//!
//! The first call has a level that may be any number, and buffers that may be too
//! short, so rows 1 and 12 to 14 of the table of refusals are given here. The
//! second has the trace alone.

use crate::report::{Finding, Level, Pair, Verdict};
use crate::trace::{Refusal, MAX_OPERATIONS, MAX_TRANSACTIONS};
use crate::{judge_all, judge_one, Answer};

pub(crate) const FINDING_SIZE: usize = 6;
pub(crate) const PAIR_SIZE: usize = 4;
/// The transactions that can take part, 0 among them.
const MOST_COUNTED: usize = MAX_TRANSACTIONS + 1;

/// What the index is to do, by the number that the call answers.
#[derive(Clone, Copy, Debug, PartialEq, Eq)]
pub enum Decision {
    Promote = 1,
    Hold = 2,
    NoTrace = 3,
}

impl Decision {
    pub const ALL: [Decision; 3] = [Decision::Promote, Decision::Hold, Decision::NoTrace];

    pub fn name(self) -> &'static str {
        match self {
            Decision::Promote => "promote",
            Decision::Hold => "hold",
            Decision::NoTrace => "no trace",
        }
    }
}

/// The numbers that come with a decision, 0 where they do not apply.
#[derive(Clone, Copy, Debug, Default, PartialEq, Eq)]
pub struct Counts {
    pub findings: u32,
    pub pairs: u32,
    /// The order's length.
    pub order: u32,
    /// The number of the refusal, and its place.
    pub refusal: u32,
    pub place: u32,
}

impl Counts {
    /// Bytes of all five.
    pub const SIZE: usize = size_of::<[u32; 5]>();

    /// In the order in which they are written.
    fn each(&self) -> [u32; 5] {
        [
            self.findings,
            self.pairs,
            self.order,
            self.refusal,
            self.place,
        ]
    }
}

/// The buffers in the order in which they are lent.
pub const BUFFERS: [&str; 4] = ["findings", "pairs", "order", "counts"];

/// How many bytes each buffer has.
#[derive(Clone, Copy, Debug, Default, PartialEq, Eq)]
pub struct Rooms {
    pub findings: usize,
    pub pairs: usize,
    pub order: usize,
    pub counts: usize,
}

impl Rooms {
    /// Room for every answer.
    pub const AMPLE: Rooms = Rooms {
        findings: FINDING_SIZE * MAX_OPERATIONS,
        // No pair is of one transaction with itself.
        pairs: PAIR_SIZE * MOST_COUNTED * (MOST_COUNTED - 1),
        order: MOST_COUNTED,
        counts: Counts::SIZE,
    };

    /// Just enough for a refusal.
    pub const COUNTS_ONLY: Rooms = Rooms {
        findings: 0,
        pairs: 0,
        order: 0,
        counts: Counts::SIZE,
    };

    /// Just enough for this verdict, which leaves either the lists or the order
    /// alone.
    pub fn needed(verdict: &Verdict) -> Rooms {
        match verdict {
            Verdict::Accepted(order) => Rooms {
                order: order.len(),
                ..Rooms::COUNTS_ONLY
            },
            Verdict::Rejected { findings, pairs } => Rooms {
                findings: FINDING_SIZE * findings.len(),
                pairs: PAIR_SIZE * pairs.len(),
                ..Rooms::COUNTS_ONLY
            },
        }
    }

    /// Enough for what either is enough for.
    pub fn for_both(self, other: Rooms) -> Rooms {
        let (one, other) = (self.each(), other.each());
        Rooms::of_each(std::array::from_fn(|buffer| one[buffer].max(other[buffer])))
    }

    pub fn of_each([findings, pairs, order, counts]: [usize; 4]) -> Rooms {
        Rooms {
            findings,
            pairs,
            order,
            counts,
        }
    }

    pub fn each(&self) -> [usize; 4] {
        [self.findings, self.pairs, self.order, self.counts]
    }
}

/// What a caller lends.
#[derive(Clone, Debug, PartialEq, Eq)]
pub struct Buffers {
    pub findings: Vec<u8>,
    pub pairs: Vec<u8>,
    pub order: Vec<u8>,
    pub counts: Vec<u8>,
}

impl Buffers {
    /// Buffers of these sizes, full of one byte.
    pub fn full_of(byte: u8, rooms: &Rooms) -> Buffers {
        let [findings, pairs, order, counts] = rooms.each().map(|room| vec![byte; room]);
        Buffers {
            findings,
            pairs,
            order,
            counts,
        }
    }

    pub fn each(&self) -> [&[u8]; 4] {
        [&self.findings, &self.pairs, &self.order, &self.counts]
    }

    fn rooms(&self) -> Rooms {
        Rooms::of_each(self.each().map(<[u8]>::len))
    }
}

/// The first call: the decision, and what the buffers then hold.
pub fn decide(trace: &[u8], level: u32, buffers: &mut Buffers) -> Decision {
    let verdict = judge_at(trace, level);
    let outcome = Outcome::at(&verdict, &buffers.rooms());
    outcome.write(buffers);
    outcome.decision()
}

/// The verdict that the first call asks for, and no other.
fn judge_at(trace: &[u8], level: u32) -> Result<Verdict, Refusal> {
    judge_one(trace, level_of(level)?)
}

/// The second call: the number of the strongest level that accepts the trace, 0
/// if none does or if the trace is refused.
pub fn strongest(trace: &[u8]) -> u32 {
    strongest_of(&judge_all(trace))
}

/// The same of a trace that has been judged already. All three levels are looked
/// at, whatever the weaker ones say.
pub fn strongest_of(answer: &Answer) -> u32 {
    let Ok(verdicts) = answer else {
        return 0;
    };
    let levels = Level::ALL.into_iter().zip(verdicts);
    let accepting = levels.filter(|(_, verdict)| verdict.is_accepted());
    let numbers = accepting.map(|(level, _)| level.number());
    numbers.max().unwrap_or(0)
}

/// What the first call comes to: the verdict, or why there is none.
#[derive(Clone, Copy)]
pub struct Outcome<'a>(pub Result<&'a Verdict, Refusal>);

impl<'a> Outcome<'a> {
    /// The outcome for a trace that has been judged already, given the level and
    /// the rooms of the buffers.
    pub fn of(answer: &'a Answer, level: u32, rooms: &Rooms) -> Outcome<'a> {
        Outcome(verdict_at(answer, level)).with_rooms(rooms)
    }

    /// The same for one that has been judged at the level.
    fn at(verdict: &'a Result<Verdict, Refusal>, rooms: &Rooms) -> Outcome<'a> {
        Outcome(verdict.as_ref().map_err(|refusal| *refusal)).with_rooms(rooms)
    }

    fn with_rooms(self, rooms: &Rooms) -> Outcome<'a> {
        Outcome(self.0.and_then(|verdict| {
            check_rooms(rooms, &Rooms::needed(verdict))?;
            Ok(verdict)
        }))
    }

    pub fn decision(&self) -> Decision {
        match self.0 {
            Ok(Verdict::Accepted(_)) => Decision::Promote,
            Ok(Verdict::Rejected { .. }) => Decision::Hold,
            Err(_) => Decision::NoTrace,
        }
    }

    pub fn counts(&self) -> Counts {
        let nothing = Counts::default();
        match self.0 {
            Ok(Verdict::Accepted(order)) => Counts {
                order: count(order.len()),
                ..nothing
            },
            Ok(Verdict::Rejected { findings, pairs }) => Counts {
                findings: count(findings.len()),
                pairs: count(pairs.len()),
                ..nothing
            },
            Err(Refusal { number, place }) => Counts {
                refusal: number.into(),
                place: count(place),
                ..nothing
            },
        }
    }

    /// Writes into the buffers what the call writes, and leaves every other byte
    /// as it is.
    pub fn write(&self, buffers: &mut Buffers) {
        match self.0 {
            Ok(Verdict::Accepted(order)) => begin(&mut buffers.order, order),
            Ok(Verdict::Rejected { findings, pairs }) => {
                let findings: Vec<u8> = findings.iter().flat_map(Finding::bytes).collect();
                let pairs: Vec<u8> = pairs.iter().flat_map(Pair::bytes).collect();
                begin(&mut buffers.findings, &findings);
                begin(&mut buffers.pairs, &pairs);
            }
            Err(_) => {}
        }
        put_numbers(&mut buffers.counts, &self.counts().each());
    }
}

/// The level of this number, or row 1.
pub fn level_of(number: u32) -> Result<Level, Refusal> {
    Level::of_number(number).ok_or(Refusal {
        number: 1,
        place: 0,
    })
}

/// The verdict at this level: row 1 stands before all others.
fn verdict_at(answer: &Answer, level: u32) -> Result<&Verdict, Refusal> {
    let level = level_of(level)?;
    let verdicts = answer.as_ref().map_err(|refusal| *refusal)?;
    Ok(&verdicts[level as usize])
}

/// Rows 12 to 14. What a verdict leaves alone needs no room, so that 12 and 13
/// are given on rejection only, and 14 on acceptance only.
fn check_rooms(rooms: &Rooms, needed: &Rooms) -> Result<(), Refusal> {
    for (number, room, place) in [
        (12, rooms.findings, needed.findings),
        (13, rooms.pairs, needed.pairs),
        (14, rooms.order, needed.order),
    ] {
        if room < place {
            return Err(Refusal { number, place });
        }
    }
    Ok(())
}

/// A number of things in a trace, or a place in it, as a call answers it.
pub fn count(number: usize) -> u32 {
    u32::try_from(number).expect("a trace is short")
}

/// Puts numbers at the beginning of a buffer, little-endian: those that fit whole.
pub fn put_numbers(buffer: &mut [u8], numbers: &[u32]) {
    let (places, _) = buffer.as_chunks_mut();
    for (place, number) in places.iter_mut().zip(numbers) {
        *place = number.to_le_bytes();
    }
}

/// Puts the bytes at the beginning of a buffer that has room for them.
pub(crate) fn begin(buffer: &mut [u8], bytes: &[u8]) {
    buffer[..bytes.len()].copy_from_slice(bytes);
}
