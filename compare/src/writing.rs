//! Writing traces from steps, and turning traces into steps.
//!
//! A step is sixteen bytes, little-endian: kind (2), session or status (2),
//! key (4), value (8). Kinds are a record's: 1 open, 2 read, 3 write, 4 close;
//! there is no step for a note, and the end record comes by itself. Fields that
//! a kind does not use are not looked at, and are 0 where steps are made here.
//!
//! A refusal of a step has the step's number, from 1, as its place.

use crate::encode::Writer;
use crate::trace::{
    self, Edition, Record, Refusal, Trace, CLOSE, MAX_OPERATIONS, MAX_TRANSACTIONS, OPEN, READ,
    WRITE,
};
use std::collections::HashSet;

/// Bytes of a step.
pub const STEP_SIZE: usize = 16;
/// No sequence that can be written has more steps.
pub const MAX_STEPS: usize = 2 * MAX_TRANSACTIONS + MAX_OPERATIONS;

/// One step, of a lawful kind or not.
#[derive(Clone, Copy, Debug, Default, PartialEq, Eq)]
pub struct Step {
    pub kind: u16,
    /// An open's session or a close's status.
    pub detail: u16,
    pub key: u32,
    pub value: u64,
}

impl Step {
    pub fn open(session: u16) -> Step {
        Step {
            kind: OPEN,
            detail: session,
            ..Step::default()
        }
    }

    pub fn read(key: u32, value: u64) -> Step {
        Step {
            kind: READ,
            detail: 0,
            key,
            value,
        }
    }

    pub fn write(key: u32, value: u64) -> Step {
        Step {
            kind: WRITE,
            detail: 0,
            key,
            value,
        }
    }

    pub fn close(status: u16) -> Step {
        Step {
            kind: CLOSE,
            detail: status,
            ..Step::default()
        }
    }

    pub fn is_operation(&self) -> bool {
        self.kind == READ || self.kind == WRITE
    }

    pub fn to_bytes(self) -> [u8; STEP_SIZE] {
        let mut bytes = [0; STEP_SIZE];
        bytes[..2].copy_from_slice(&self.kind.to_le_bytes());
        bytes[2..4].copy_from_slice(&self.detail.to_le_bytes());
        bytes[4..8].copy_from_slice(&self.key.to_le_bytes());
        bytes[8..].copy_from_slice(&self.value.to_le_bytes());
        bytes
    }

    /// The step that these bytes are; none if they are too few.
    pub fn from_bytes(bytes: &[u8]) -> Option<Step> {
        let bytes: &[u8; STEP_SIZE] = bytes.try_into().ok()?;
        let (head, key_and_value) = bytes.split_at(4);
        let (key, value) = trace::key_and_value(key_and_value);
        Some(Step {
            kind: u16::from_le_bytes([head[0], head[1]]),
            detail: u16::from_le_bytes([head[2], head[3]]),
            key,
            value,
        })
    }

    /// The same step with 0 in the fields that its kind does not use.
    pub fn plain(self) -> Step {
        match self.kind {
            OPEN => Step::open(self.detail),
            READ => Step::read(self.key, self.value),
            WRITE => Step::write(self.key, self.value),
            CLOSE => Step::close(self.detail),
            _ => self,
        }
    }

    /// The step that a record of a lawful length stands for; a note or an end
    /// stands for none.
    pub fn of_record(record: &Record) -> Option<Step> {
        let payload = record.payload;
        match record.kind {
            OPEN => Some(Step::open(u16::from_le_bytes([payload[0], payload[1]]))),
            READ | WRITE => {
                let (key, value) = trace::key_and_value(payload);
                Some(Step {
                    kind: record.kind,
                    detail: 0,
                    key,
                    value,
                })
            }
            CLOSE => Some(Step::close(payload[0].into())),
            _ => None,
        }
    }
}

/// The bytes of steps, one after another.
pub fn steps_to_bytes(steps: &[Step]) -> Vec<u8> {
    steps.iter().flat_map(|step| step.to_bytes()).collect()
}

/// The trace of these steps with this first serial, for a buffer with `room`
/// bytes.
pub fn write(steps: &[u8], serial: u32, room: usize) -> Result<Vec<u8>, Refusal> {
    let mut sequence = Sequence {
        writer: Writer::new(serial),
        inside: false,
        opened: 0,
        operations: 0,
        written: HashSet::new(),
    };
    let mut next = 1;
    for bytes in steps.chunks(STEP_SIZE) {
        let refused = |number| Refusal {
            number,
            place: next,
        };
        // A rest at the end is a step of no kind.
        let step = Step::from_bytes(bytes).ok_or(refused(6))?;
        sequence.take(step).map_err(refused)?;
        next += 1;
    }
    if sequence.inside {
        return Err(Refusal {
            number: 7,
            place: next,
        });
    }
    fit(sequence.writer.end(), room)
}

/// What is written goes into the buffer as a whole, or not at all.
pub fn fit(bytes: Vec<u8>, room: usize) -> Result<Vec<u8>, Refusal> {
    match bytes.len() {
        needed if needed > room => Err(Refusal {
            number: 16,
            place: needed,
        }),
        _ => Ok(bytes),
    }
}

/// What has been written, and what the checks need to know of it.
struct Sequence {
    writer: Writer,
    inside: bool,
    opened: usize,
    operations: usize,
    /// The keys and values of all writes.
    written: HashSet<(u32, u64)>,
}

impl Sequence {
    /// Checks one step in the order of the rows, and writes its record.
    fn take(&mut self, step: Step) -> Result<(), u8> {
        let Step {
            kind,
            detail,
            key,
            value,
        } = step;
        if !matches!(kind, OPEN | READ | WRITE | CLOSE) {
            return Err(6);
        }
        if (kind == OPEN) == self.inside {
            return Err(7);
        }
        if kind == WRITE && value == 0 || kind == CLOSE && detail > 2 {
            return Err(8);
        }
        if kind == OPEN && self.opened == MAX_TRANSACTIONS
            || step.is_operation() && self.operations == MAX_OPERATIONS
        {
            return Err(9);
        }
        if kind == WRITE && !self.written.insert((key, value)) {
            return Err(10);
        }
        match kind {
            OPEN => {
                self.opened += 1;
                self.inside = true;
                self.writer.open(detail);
            }
            READ => self.writer.read(key, value),
            WRITE => self.writer.write(key, value),
            _ => {
                self.inside = false;
                self.writer.close(detail as u8); // at most 2
            }
        }
        self.operations += usize::from(step.is_operation());
        Ok(())
    }
}

/// The steps of a trace, notes left out, for a buffer with `room` bytes. Steps
/// stay with edition 1: a trace of edition 2 begins with a record of a kind that
/// no step has, and is refused there.
pub fn steps_of(trace: &[u8], room: usize) -> Result<Vec<u8>, Refusal> {
    if Trace::parse(trace)?.edition == Edition::Two {
        return Err(Refusal {
            number: 6,
            place: 0,
        });
    }
    let steps: Vec<Step> = trace::records(trace)
        .filter_map(|record| Step::of_record(&record))
        .collect();
    fit(steps_to_bytes(&steps), room)
}

/// The trace turned into steps, which always have room, and written again with
/// its own first serial, for a buffer with `room` bytes.
pub fn rewrite(trace: &[u8], room: usize) -> Result<Vec<u8>, Refusal> {
    let steps = steps_of(trace, usize::MAX)?;
    write(&steps, first_serial(trace), room)
}

/// The serial of the first record. A trace that is not refused has one.
pub fn first_serial(trace: &[u8]) -> u32 {
    trace::records(trace).next().map_or(0, |first| first.serial)
}

/// The input of the program `writer`: a starting serial (4 bytes) and steps.
pub fn input_of(serial: u32, steps: &[Step]) -> Vec<u8> {
    [&serial.to_le_bytes(), steps_to_bytes(steps).as_slice()].concat()
}

/// What the program `writer` does with its input, a starting serial (4 bytes)
/// and steps; without a serial there is nothing to write.
pub fn write_input(input: &[u8], room: usize) -> Result<Vec<u8>, Refusal> {
    match input.split_first_chunk() {
        None => Err(Refusal {
            number: 3,
            place: 0,
        }),
        Some((serial, steps)) => write(steps, u32::from_le_bytes(*serial), room),
    }
}

/// What the programs print: the bytes written, or the refusal as a line.
pub fn print(answer: &Result<Vec<u8>, Refusal>) -> Vec<u8> {
    match answer {
        Ok(bytes) => bytes.clone(),
        Err(Refusal { number, place }) => format!("refused {number} {place}\n").into_bytes(),
    }
}

/// The same question as [`write`] without a buffer, put to the reader: the
/// records that the steps name are written down unchecked, and the place at
/// which [`Trace::parse`] refuses them is turned into a step's number. It
/// shares no check with [`write`], so each watches the other.
pub fn read_unchecked(steps: &[u8], serial: u32) -> Result<Trace, Refusal> {
    const NO_KIND: u16 = 0;
    let mut writer = Writer::new(serial);
    let mut offsets = Vec::new();
    // One step above the most is refused whatever follows it, and so few
    // records never reach the limit of bytes, which steps do not have.
    for bytes in steps.chunks(STEP_SIZE).take(MAX_STEPS + 1) {
        offsets.push(writer.bytes.len());
        let step = Step::from_bytes(bytes).unwrap_or_default();
        match step.kind {
            OPEN => writer.open(step.detail),
            READ => writer.read(step.key, step.value),
            WRITE => writer.write(step.key, step.value),
            CLOSE => writer.close(u8::try_from(step.detail).unwrap_or(u8::MAX)),
            _ => writer.record(NO_KIND, &[]),
        }
    }
    offsets.push(writer.bytes.len());
    Trace::parse(&writer.end()).map_err(|Refusal { number, place }| {
        let index = offsets.iter().position(|&offset| offset == place);
        Refusal {
            number,
            place: index.map_or(0, |index| index + 1),
        }
    })
}
