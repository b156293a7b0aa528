//! Random sequences of steps, lawful and not, for the comparison.

use crate::random::Random;
use crate::trace::{Status, CLOSE, MAX_OPERATIONS, MAX_TRANSACTIONS, OPEN, READ, WRITE};
use crate::writing::{input_of, Step, STEP_SIZE};
use std::collections::HashSet;

/// How a sequence came about.
#[derive(Clone, Copy, Debug, PartialEq, Eq)]
pub enum Origin {
    Case,
    OfTrace,
    Bytes,
    Steps,
    Small,
    Medium,
    Large,
    Faulty,
    AtLimit,
}

impl Origin {
    pub const ALL: [Origin; 9] = [
        Origin::Case,
        Origin::OfTrace,
        Origin::Bytes,
        Origin::Steps,
        Origin::Small,
        Origin::Medium,
        Origin::Large,
        Origin::Faulty,
        Origin::AtLimit,
    ];

    pub fn describe(self) -> &'static str {
        match self {
            Origin::Case => "cases with known answers",
            Origin::OfTrace => "steps of known traces",
            Origin::Bytes => "random bytes",
            Origin::Steps => "random steps",
            Origin::Small => "lawful, small",
            Origin::Medium => "lawful, medium",
            Origin::Large => "lawful, large",
            Origin::Faulty => "with faults",
            Origin::AtLimit => "a step more at a limit",
        }
    }
}

/// A random input of the program `writer`, of a random origin: the starting
/// serial and the steps.
pub fn any(random: &mut Random) -> (Origin, Vec<u8>) {
    let (origin, steps) = match random.below(100) {
        0..=3 => return (Origin::Bytes, bytes(random)),
        4..=13 => (Origin::Steps, random_steps(random)),
        14..=39 => (Origin::Small, small(random)),
        40..=51 => (Origin::Medium, medium(random)),
        52..=55 => (Origin::Large, large(random)),
        56..=61 => (Origin::AtLimit, at_limit(random)),
        _ => (Origin::Faulty, faulty(random)),
    };
    let steps = match random.below(3) {
        0 => steps,
        _ => filled(random, steps),
    };
    let serial = first_serial(random, steps.len());
    let mut input = input_of(serial, &steps);
    // Now and then not whole steps, whatever else is wrong.
    let rest = match origin {
        Origin::Faulty | Origin::Steps if random.percent(8) => random.from_to(1, STEP_SIZE - 1),
        _ => 0,
    };
    let palette = Palette::drawn(random);
    let step = any_step(random, &palette).to_bytes();
    input.extend(&step[..rest]);
    (origin, input)
}

/// Zero, anything, or near the wrap, so that it happens inside the trace.
fn first_serial(random: &mut Random, steps: usize) -> u32 {
    match random.below(6) {
        0 => random.draw() as u32,
        1 => u32::MAX - random.below(20) as u32,
        2 => u32::MAX - random.below(steps + 3) as u32,
        3 => *random.pick(&[1, 255, 256, 65_535, 1 << 31, u32::MAX - 1, u32::MAX]),
        _ => 0,
    }
}

/// Random bytes, often too few for a serial; from a small alphabet they get
/// further before they fail.
fn bytes(random: &mut Random) -> Vec<u8> {
    let size = match random.below(10) {
        0 => random.from_to(60_000, 65_535),
        1 => random.below(2_000),
        2..=5 => random.below(4),
        _ => random.below(64),
    };
    let alphabet = *random.pick(&[2, 5, 20, 256]);
    (0..size).map(|_| random.below(alphabet) as u8).collect()
}

/// The keys, values and sessions that a sequence uses.
struct Palette {
    keys: Vec<u32>,
    values: Vec<u64>,
    sessions: Vec<u16>,
}

impl Palette {
    /// Small numbers, boundaries that differ in few bits, or any numbers.
    fn drawn(random: &mut Random) -> Palette {
        match random.below(3) {
            0 => {
                let most = random.from_to(1, 12) as u32;
                Palette {
                    keys: (0..=most).collect(),
                    values: (1..=3 * u64::from(most)).collect(),
                    sessions: vec![0, 1, 2, 3],
                }
            }
            1 => Palette {
                keys: vec![0, 1, 255, 256, 65_536, 1 << 24, 1 << 31, u32::MAX],
                values: [8, 16, 31, 32, 33, 63]
                    .iter()
                    .flat_map(|bit| [1 << bit, (1 << bit) + 1, (1 << bit) - 1])
                    .chain([1, 2, u64::MAX - 1, u64::MAX])
                    .collect(),
                sessions: vec![0, 1, 255, 256, 257, 32_768, u16::MAX],
            },
            _ => {
                let count = random.from_to(1, 40);
                Palette {
                    keys: (0..count).map(|_| random.draw() as u32).collect(),
                    values: (0..2 * count).map(|_| random.draw() | 1).collect(),
                    sessions: (0..count).map(|_| random.draw() as u16).collect(),
                }
            }
        }
    }

    fn open(&self, random: &mut Random) -> Step {
        Step::open(*random.pick(&self.sessions))
    }

    /// A read of any key; its value may be written by some write or be 0.
    fn read(&self, random: &mut Random) -> Step {
        let value = match random.percent(25) {
            true => 0,
            false => *random.pick(&self.values),
        };
        Step::read(*random.pick(&self.keys), value)
    }

    /// A write that repeats none of those in `written`.
    fn write(&self, random: &mut Random, written: &mut HashSet<(u32, u64)>) -> Step {
        // The palette may be used up, so after some tries any value will do.
        for attempt in 0.. {
            let key = *random.pick(&self.keys);
            let value = match attempt < 6 {
                true => *random.pick(&self.values),
                false => random.draw() | 1,
            };
            if written.insert((key, value)) {
                return Step::write(key, value);
            }
        }
        unreachable!("there are more values than steps")
    }
}

/// Transactions with just as many operations, spread over them by chance.
fn sequence(random: &mut Random, transactions: usize, operations: usize) -> Vec<Step> {
    let palette = Palette::drawn(random);
    let writes = *random.pick(&[0, 30, 50, 50, 70, 100]);
    let aborted = *random.pick(&[0, 10, 50, 100]);
    let unanswered = *random.pick(&[0, 0, 10, 50, 100]);
    // Some transactions are left without operations.
    let busy = random.from_to(1, transactions.max(1));
    let mut counts = vec![0; transactions];
    for _ in 0..operations {
        counts[random.below(busy)] += 1;
    }
    random.shuffle(&mut counts);
    let mut written = HashSet::new();
    let mut steps = Vec::new();
    for count in counts {
        steps.push(palette.open(random));
        for _ in 0..count {
            steps.push(match random.percent(writes) {
                true => palette.write(random, &mut written),
                false => palette.read(random),
            });
        }
        let status = match random.percent(unanswered) {
            true => Status::Unanswered as u16,
            false => u16::from(!random.percent(aborted)),
        };
        steps.push(Step::close(status));
    }
    steps
}

fn small(random: &mut Random) -> Vec<Step> {
    let transactions = random.below(8);
    let operations = match transactions {
        0 => 0,
        _ => random.below(24),
    };
    sequence(random, transactions, operations)
}

fn medium(random: &mut Random) -> Vec<Step> {
    let (transactions, operations) = (random.from_to(8, 60), random.below(300));
    sequence(random, transactions, operations)
}

/// At one limit or at both, or just below.
fn large(random: &mut Random) -> Vec<Step> {
    let full = *random.pick(&[MAX_TRANSACTIONS, MAX_TRANSACTIONS, MAX_TRANSACTIONS - 1]);
    let busy = *random.pick(&[MAX_OPERATIONS, MAX_OPERATIONS, MAX_OPERATIONS - 1]);
    let (transactions, operations) = match random.below(4) {
        0 => (full, random.below(200)),
        1 => (random.from_to(1, 20), busy),
        _ => (full, busy),
    };
    sequence(random, transactions, operations)
}

/// A sequence at a limit with a step more at its end, inside, outside or in a
/// transaction more; it may have further faults, so that the order of the
/// checks decides.
fn at_limit(random: &mut Random) -> Vec<Step> {
    let (transactions, operations) = match random.below(4) {
        0 => (MAX_TRANSACTIONS, random.below(50)),
        1 => (MAX_TRANSACTIONS, MAX_OPERATIONS),
        _ => (random.from_to(1, 20), MAX_OPERATIONS),
    };
    let mut steps = sequence(random, transactions, operations);
    let more = match random.below(6) {
        0 | 1 => Step::open(1),
        2 => Palette::drawn(random).read(random),
        3 => Step::write(7, *random.pick(&[0, u64::MAX])),
        _ => match pick_of(random, &steps, |step| step.kind == WRITE) {
            Some(write) => steps[write],
            None => Step::write(7, 7),
        },
    };
    match random.below(3) {
        0 => steps.insert(steps.len() - 1, more),
        1 => steps.extend([more, Step::close(1)]),
        _ => steps.extend([Step::open(1), more, Step::close(1)]),
    }
    steps
}

/// Steps that are often lawful where they stand, each sequence with its own
/// readiness to make a fault.
fn random_steps(random: &mut Random) -> Vec<Step> {
    let palette = Palette::drawn(random);
    let fault = *random.pick(&[0, 1, 5, 20, 100]);
    let mut steps: Vec<Step> = Vec::new();
    let mut written = HashSet::new();
    let mut inside = false;
    for _ in 0..random.below(30) {
        let step = if random.percent(fault) {
            any_step(random, &palette)
        } else if !inside {
            palette.open(random)
        } else {
            match random.below(4) {
                0 => Step::close(random.below(3) as u16),
                1 => palette.read(random),
                _ => palette.write(random, &mut written),
            }
        };
        inside = match step.kind {
            OPEN => true,
            CLOSE => false,
            _ => inside,
        };
        steps.push(step);
    }
    if inside && !random.percent(fault.max(5)) {
        steps.push(Step::close(1));
    }
    steps
}

/// Any step, each part of which may be a fault.
fn any_step(random: &mut Random, palette: &Palette) -> Step {
    Step {
        kind: match random.percent(10) {
            true => bad_kind(random),
            false => *random.pick(&[OPEN, READ, WRITE, CLOSE]),
        },
        detail: match random.percent(50) {
            true => bad_status(random),
            false => random.below(3) as u16,
        },
        key: *random.pick(&palette.keys),
        value: match random.percent(30) {
            true => 0,
            false => *random.pick(&palette.values),
        },
    }
}

fn bad_kind(random: &mut Random) -> u16 {
    match random.below(3) {
        0 => *random.pick(&[0, 5, 6, 7]),
        1 => *random.pick(&[
            8,
            16,
            23,
            24,
            255,
            256,
            257,
            258,
            259,
            260,
            513,
            32_770,
            u16::MAX,
        ]),
        _ => random.draw() as u16 | 8,
    }
}

fn bad_status(random: &mut Random) -> u16 {
    match random.below(4) {
        0 => (random.draw() as u16).max(3),
        // Some of these are lawful in their lower byte.
        _ => *random.pick(&[3, 3, 4, 255, 256, 257, 258, 512, 32_770, u16::MAX]),
    }
}

/// A lawful sequence with one to three faults.
fn faulty(random: &mut Random) -> Vec<Step> {
    let mut steps = match random.below(20) {
        0 => large(random),
        1..=4 => medium(random),
        _ => small(random),
    };
    for _ in 0..random.from_to(1, 3) {
        spoil(random, &mut steps);
    }
    steps
}

fn spoil(random: &mut Random, steps: &mut Vec<Step>) {
    let palette = Palette::drawn(random);
    // A place before a step or at the end, and two that have a step.
    let place = random.below(steps.len() + 1);
    if steps.is_empty() {
        steps.push(any_step(random, &palette));
        return;
    }
    let (at, other) = (random.below(steps.len()), random.below(steps.len()));
    match random.below(12) {
        0 => steps[at].kind = bad_kind(random),
        1 => steps.insert(place, any_step(random, &palette)),
        2 => steps.swap(at, other),
        3 => {
            steps.remove(at);
        }
        4 => steps.insert(place, steps[at]),
        5 => match pick_of(random, steps, |step| step.kind == WRITE) {
            Some(write) => steps[write].value = 0,
            None => steps.insert(place, Step::write(1, 0)),
        },
        6 => match pick_of(random, steps, |step| step.kind == CLOSE) {
            Some(close) => steps[close].detail = bad_status(random),
            None => steps.insert(place, Step::close(3)),
        },
        7 | 8 => repeat(random, steps),
        9 => steps.truncate(place),
        10 => steps[at].kind = *random.pick(&[OPEN, READ, WRITE, CLOSE]),
        // The last status that is lawful, or the first that is not.
        _ => {
            if let Some(close) = pick_of(random, steps, |step| step.kind == CLOSE) {
                steps[close].detail = random.from_to(2, 3) as u16;
            }
        }
    }
}

/// Makes some operation repeat an earlier write, across transactions too.
fn repeat(random: &mut Random, steps: &mut Vec<Step>) {
    let Some(write) = pick_of(random, steps, |step| step.kind == WRITE) else {
        return;
    };
    let again = steps[write];
    let later = pick_of(random, &steps[write + 1..], Step::is_operation);
    match later {
        Some(later) => steps[write + 1 + later] = again,
        None => steps.insert(write + 1, again),
    }
}

/// The index of one of the steps that are wanted.
fn pick_of(random: &mut Random, steps: &[Step], wanted: impl Fn(&Step) -> bool) -> Option<usize> {
    let all: Vec<usize> = (0..steps.len()).filter(|&n| wanted(&steps[n])).collect();
    match all.is_empty() {
        true => None,
        false => Some(*random.pick(&all)),
    }
}

/// The same steps with something in the fields that are not looked at.
fn filled(random: &mut Random, steps: Vec<Step>) -> Vec<Step> {
    let fill = |step: Step| {
        let junk = match random.below(3) {
            0 => u64::MAX,
            1 => random.draw(),
            _ => random.below(7) as u64,
        };
        match step.kind {
            OPEN | CLOSE => Step {
                key: junk as u32,
                value: junk,
                ..step
            },
            _ => Step {
                detail: junk as u16,
                ..step
            },
        }
    };
    steps.into_iter().map(fill).collect()
}
