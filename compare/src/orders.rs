//! Claimed orders of all sorts for a trace, lawful and not.

use crate::graph::{BasicPairs, ForcedPairs, History};
use crate::random::Random;
use crate::report::{Level, Verdict};
use crate::trace::{Refusal, Trace};

/// How a claimed order comes about.
#[derive(Clone, Copy, Debug, PartialEq, Eq)]
pub enum Way {
    Own,
    Another,
    Basic,
    Swapped,
    Shuffled,
    Cut,
    Lengthened,
    Changed,
    Empty,
    Elsewhere,
    Bytes,
}

impl Way {
    pub const ALL: [Way; 11] = [
        Way::Own,
        Way::Another,
        Way::Basic,
        Way::Swapped,
        Way::Shuffled,
        Way::Cut,
        Way::Lengthened,
        Way::Changed,
        Way::Empty,
        Way::Elsewhere,
        Way::Bytes,
    ];

    pub fn describe(self) -> &'static str {
        match self {
            Way::Own => "the judge's own",
            Way::Another => "another lawful one",
            Way::Basic => "by basic pairs alone",
            Way::Swapped => "two neighbours swapped",
            Way::Shuffled => "members in any order",
            Way::Cut => "cut",
            Way::Lengthened => "lengthened",
            Way::Changed => "one byte changed",
            Way::Empty => "empty",
            Way::Elsewhere => "begun elsewhere",
            Way::Bytes => "random bytes",
        }
    }

    fn drawn(random: &mut Random) -> Way {
        match random.below(100) {
            0..=9 => Way::Own,
            10..=25 => Way::Another,
            26..=39 => Way::Basic,
            40..=53 => Way::Swapped,
            54..=65 => Way::Shuffled,
            66..=71 => Way::Cut,
            72..=79 => Way::Lengthened,
            80..=87 => Way::Changed,
            88..=89 => Way::Empty,
            90..=94 => Way::Elsewhere,
            _ => Way::Bytes,
        }
    }
}

/// What claims on a trace are made from.
pub struct Basis {
    /// The order that the judge shows at the level. Where it shows none, one made by its
    /// rule, and where that places none any more, by numbers. 0 is first.
    pub own: Vec<u8>,
    /// The transactions that do not count.
    uncounted: Vec<u8>,
    /// Nothing if the trace is refused.
    pairs: Option<Pairs>,
}

/// The pairs of a trace.
struct Pairs {
    basic: BasicPairs,
    /// All that the level forces.
    forced: ForcedPairs,
}

impl Basis {
    pub fn new(trace: &Result<Trace, Refusal>, level: Level) -> Basis {
        match trace {
            Ok(trace) => Basis::of_read(trace, level),
            // So that it would show if the order were looked at before the trace.
            Err(_) => Basis {
                own: vec![0, 1, 2, 3],
                uncounted: vec![],
                pairs: None,
            },
        }
    }

    /// The same of a trace that is not refused.
    pub fn of_read(trace: &Trace, level: Level) -> Basis {
        let history = History::new(trace);
        let counted = history.counted();
        let forced = history.forced_pairs(level);
        let own = match history.judge(level) {
            Verdict::Accepted(order) => order,
            Verdict::Rejected { .. } => {
                let smallest = |free: &[u8]| free[0];
                ordered(&counted, |a, b| forced.has(a, b), smallest)
            }
        };
        let numbers = 1..=trace.transactions.len() as u8;
        Basis {
            own,
            uncounted: numbers.filter(|t| !counted.contains(t)).collect(),
            pairs: Some(Pairs {
                basic: history.basic_pairs(),
                forced,
            }),
        }
    }

    /// A claim of a random way.
    pub fn drawn(&self, random: &mut Random) -> (Way, Vec<u8>) {
        let way = Way::drawn(random);
        self.made(random, way)
    }

    /// A claim that comes about in this way. One that comes to be the judge's own order
    /// is told as that.
    pub fn made(&self, random: &mut Random, way: Way) -> (Way, Vec<u8>) {
        let order = match way {
            Way::Own => self.own.clone(),
            Way::Another => self.another(random),
            Way::Basic => self.by_basic_pairs(random),
            Way::Swapped => swapped(self.either(random), random),
            Way::Shuffled => shuffled(self.own.clone(), random),
            Way::Cut => cut(self.either(random), random),
            Way::Lengthened => self.lengthened(random),
            Way::Changed => self.changed(random),
            Way::Empty => vec![],
            Way::Elsewhere => elsewhere(self.either(random), random),
            Way::Bytes => self.bytes(random),
        };
        match order == self.own {
            true => (Way::Own, order),
            false => (way, order),
        }
    }

    /// Any order that has all forced pairs, if one has.
    fn another(&self, random: &mut Random) -> Vec<u8> {
        self.any_with(random, |pairs, a, b| pairs.forced.has(a, b))
    }

    /// Any order that has all basic pairs, whatever the level adds.
    fn by_basic_pairs(&self, random: &mut Random) -> Vec<u8> {
        self.any_with(random, |pairs, a, b| pairs.basic.has(a, b))
    }

    /// Any order that has these of the trace's pairs; any at all if it is refused.
    fn any_with(&self, random: &mut Random, is_before: fn(&Pairs, u8, u8) -> bool) -> Vec<u8> {
        let mut members = self.own.clone();
        members.sort_unstable();
        match &self.pairs {
            Some(pairs) => {
                let any = |free: &[u8]| *random.pick(free);
                ordered(&members, |a, b| is_before(pairs, a, b), any)
            }
            None => shuffled(members, random),
        }
    }

    fn either(&self, random: &mut Random) -> Vec<u8> {
        match random.percent(50) {
            true => self.own.clone(),
            false => self.another(random),
        }
    }

    /// A byte that may be a member, one that does not count, or any other.
    fn intruder(&self, random: &mut Random) -> u8 {
        match random.below(6) {
            0 | 1 => *random.pick(&self.own),
            2 | 3 if !self.uncounted.is_empty() => *random.pick(&self.uncounted),
            4 => *random.pick(&[0, 127, 128, 255, 255]),
            _ => random.draw() as u8,
        }
    }

    /// By some bytes, mostly one, somewhere behind the first; sometimes by so many that
    /// a length kept in one or two bytes would come out right.
    fn lengthened(&self, random: &mut Random) -> Vec<u8> {
        let mut order = self.either(random);
        let more = match random.below(100) {
            0..=59 => 1,
            60..=74 => random.from_to(2, 12),
            75..=84 => 256,
            85..=98 => random.from_to(100, 4_000),
            _ => 65_536,
        };
        let at = match random.percent(50) {
            true => order.len(),
            false => random.from_to(1, order.len()),
        };
        let intruder = self.intruder(random);
        let bytes: Vec<u8> = match random.below(3) {
            0 => vec![intruder; more],
            1 => (0..more).map(|_| self.intruder(random)).collect(),
            _ => self.own.iter().copied().cycle().take(more).collect(),
        };
        order.splice(at..at, bytes);
        order
    }

    fn changed(&self, random: &mut Random) -> Vec<u8> {
        let mut order = self.either(random);
        let at = random.below(order.len());
        let byte = order[at];
        order[at] = match random.below(4) {
            0 => byte ^ 0x80,
            1 => byte.wrapping_sub(1),
            _ => match self.intruder(random) {
                same if same == byte => byte.wrapping_add(1),
                other => other,
            },
        };
        order
    }

    fn bytes(&self, random: &mut Random) -> Vec<u8> {
        let length = match random.below(10) {
            0 => random.below(2_000),
            1..=4 => self.own.len(),
            _ => random.below(12),
        };
        // Small numbers are members more often.
        let alphabet = *random.pick(&[2, self.own.len(), 128, 256]);
        (0..length).map(|_| random.below(alphabet) as u8).collect()
    }
}

/// The transactions with 0 first, and then each next place filled by choice among those
/// that none of the others left has to stand before; where there are none, among all
/// that are left.
fn ordered(
    members: &[u8],
    is_before: impl Fn(u8, u8) -> bool,
    mut choose: impl FnMut(&[u8]) -> u8,
) -> Vec<u8> {
    let mut order = vec![0];
    let mut left: Vec<u8> = members.iter().copied().filter(|&t| t != 0).collect();
    while !left.is_empty() {
        let is_free = |&t: &u8| left.iter().all(|&other| !is_before(other, t));
        let free: Vec<u8> = left.iter().copied().filter(is_free).collect();
        let next = choose(if free.is_empty() { &left } else { &free });
        left.retain(|&t| t != next);
        order.push(next);
    }
    order
}

/// Two neighbours behind 0, if there are so many.
fn swapped(mut order: Vec<u8>, random: &mut Random) -> Vec<u8> {
    if order.len() > 2 {
        let at = random.from_to(1, order.len() - 2);
        order.swap(at, at + 1);
    }
    order
}

/// 0 stays first.
fn shuffled(mut order: Vec<u8>, random: &mut Random) -> Vec<u8> {
    random.shuffle(&mut order[1..]);
    order
}

fn cut(mut order: Vec<u8>, random: &mut Random) -> Vec<u8> {
    match random.percent(50) {
        true => order.truncate(random.below(order.len())),
        // Cut out of the middle.
        false => drop(order.remove(random.below(order.len()))),
    }
    order
}

/// 0 stands in another place, or in none.
fn elsewhere(mut order: Vec<u8>, random: &mut Random) -> Vec<u8> {
    let at = random.below(order.len());
    match at {
        0 => drop(order.remove(0)),
        _ if random.percent(50) => order.swap(0, at),
        _ => order.rotate_left(at),
    }
    order
}
