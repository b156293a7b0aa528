//! Names files, lawful or not; and random pairs of them, each with a trace whose unclean
//! reads have keys that are in the own file, in the shared one, in both and in none.

use crate::encode::Writer;
use crate::generate;
use crate::graph::History;
use crate::names::{HEAD, MAX_NAME, NAME, NAME_BYTES};
use crate::random::Random;
use crate::trace::{Edition, Status, Trace, MAX_BYTES, MAX_OPERATIONS};
use crate::weave::{self, Access, Whole};
use std::collections::BTreeSet;

/// The most records that have room in a file: each with a name of one byte.
pub const MAX_RECORDS: usize = MAX_BYTES / (HEAD + 1);

/// A record of a names file, which may have anything in it.
#[derive(Clone, Debug, PartialEq, Eq)]
pub struct Loose {
    pub length: u16,
    pub kind: u16,
    pub key: u32,
    pub name: Vec<u8>,
}

impl Loose {
    /// A record of the right kind, with the length that the name asks for.
    pub fn new(key: u32, name: &[u8]) -> Loose {
        let length = HEAD - 2 + name.len();
        Loose {
            length: u16::try_from(length).expect("a name that a length can count"),
            kind: NAME,
            key,
            name: name.to_vec(),
        }
    }

    /// The bytes it takes in a file, whatever its length says.
    pub fn size(&self) -> usize {
        HEAD + self.name.len()
    }

    pub fn put(&self, bytes: &mut Vec<u8>) {
        bytes.extend(self.length.to_le_bytes());
        bytes.extend(self.kind.to_le_bytes());
        bytes.extend(self.key.to_le_bytes());
        bytes.extend(&self.name);
    }
}

/// The file that has these records.
pub fn file_of(records: &[Loose]) -> Vec<u8> {
    let mut bytes = Vec::new();
    for record in records {
        record.put(&mut bytes);
    }
    bytes
}

/// The file that has these keys and names.
pub fn file_with(names: &[(u32, &str)]) -> Vec<u8> {
    let record = |(key, name): &(u32, &str)| Loose::new(*key, name.as_bytes());
    file_of(&names.iter().map(record).collect::<Vec<_>>())
}

/// What was done to a names file.
#[derive(Clone, Copy, Debug, PartialEq, Eq)]
pub enum Damage {
    None,
    Flipped,
    Cut,
    Length,
    Size,
    Swapped,
    Equal,
    OddByte,
    Kind,
    Several,
    More,
    TooLong,
}

impl Damage {
    pub const ALL: [Damage; 12] = [
        Damage::None,
        Damage::Flipped,
        Damage::Cut,
        Damage::Length,
        Damage::Size,
        Damage::Swapped,
        Damage::Equal,
        Damage::OddByte,
        Damage::Kind,
        Damage::Several,
        Damage::More,
        Damage::TooLong,
    ];

    pub fn describe(self) -> &'static str {
        match self {
            Damage::None => "none",
            Damage::Flipped => "a bit flipped",
            Damage::Cut => "cut",
            Damage::Length => "another length",
            Damage::Size => "a name too short or long",
            Damage::Swapped => "records swapped",
            Damage::Equal => "equal keys",
            Damage::OddByte => "an odd byte in a name",
            Damage::Kind => "another kind",
            Damage::Several => "several in one record",
            Damage::More => "bytes behind it",
            Damage::TooLong => "too long",
        }
    }
}

/// A pair of names files, what was done to each, and a trace to be judged with them.
pub struct Drawn {
    pub own: Vec<u8>,
    pub shared: Vec<u8>,
    pub damages: [Damage; 2],
    pub trace: Vec<u8>,
}

impl Drawn {
    pub fn new(random: &mut Random) -> Drawn {
        let trace = drawn_trace(random);
        let keys = keys_asked(&trace);
        // Half of the pairs are lawful; of the others one is damaged, or both are.
        let damaged = match random.below(100) {
            0..50 => [false, false],
            50..72 => [true, false],
            72..92 => [false, true],
            _ => [true, true],
        };
        let [(own, of_own), (shared, of_shared)] = damaged.map(|is_damaged| {
            let records = drawn_records(random, &keys);
            match is_damaged {
                true => damage(random, records),
                false => (file_of(&records), Damage::None),
            }
        });
        Drawn {
            own,
            shared,
            damages: [of_own, of_shared],
            trace,
        }
    }
}

/// The keys of the unclean reads of a trace; of one without such reads, or that is
/// refused, some keys all the same.
fn keys_asked(trace: &[u8]) -> Vec<u32> {
    let keys: BTreeSet<u32> = match Trace::parse(trace) {
        Ok(trace) => {
            let history = History::new(&trace);
            let findings = history.findings().iter();
            findings.map(|f| trace.operation(f.operation).key).collect()
        }
        Err(_) => BTreeSet::new(),
    };
    match keys.is_empty() {
        true => (0..10).chain([u32::MAX]).collect(),
        false => keys.into_iter().collect(),
    }
}

/// A trace of either edition: one of those that are made for names, or of any other.
fn drawn_trace(random: &mut Random) -> Vec<u8> {
    match random.below(10) {
        0..=4 => many_keys(random),
        5 | 6 => generate::unclean(random).1,
        7 => generate::sound(random).1,
        _ => generate::any(random).1,
    }
}

/// A trace whose reads are mostly unclean and have many different keys, up to as many as
/// there can be.
fn many_keys(random: &mut Random) -> Vec<u8> {
    let edition = *random.pick(&[Edition::One, Edition::Two]);
    let most = *random.pick(&[3, 12, 60, MAX_OPERATIONS, MAX_OPERATIONS]);
    // Where nobody writes, every operation is a finding.
    let written = *random.pick(&[0, 0, 30, 60]);
    let count = match random.percent(60) {
        true => most,
        false => random.from_to(1, most),
    };
    // Each write stands in a read's place.
    let writes = count * written / 200;
    let mut keys = drawn_keys(random, count - writes);
    random.shuffle(&mut keys);
    let writer = Whole {
        session: 0,
        status: *random.pick(&[Status::Aborted, Status::Aborted, Status::Committed]),
        operations: keys[..writes]
            .iter()
            .map(|&key| Access::write(key, 7))
            .collect(),
    };
    let mut wholes = vec![writer];
    wholes.extend(readers(random, &keys));
    let first_serial = generate::first_serial(random);
    match edition {
        Edition::One => weave::blocks(edition, first_serial, &wholes),
        Edition::Two => {
            let writer = Writer::edition_2(first_serial);
            weave::weave(writer, &wholes, weave::at_random(random, 9, 40))
        }
    }
}

/// Transactions, a session for each, that read these keys in their order.
fn readers(random: &mut Random, keys: &[u32]) -> Vec<Whole> {
    let each = random.from_to(keys.len() / 100 + 1, keys.len().max(2));
    let parts = keys.chunks(each).zip(1..);
    let whole = |(keys, session): (&[u32], u16)| Whole {
        session,
        status: Status::Committed,
        operations: keys.iter().map(|&key| Access::read(key, 7)).collect(),
    };
    parts.map(whole).collect()
}

/// So many different keys: the least and the greatest, some that stand side by side, and
/// some that differ in one of their bytes only.
fn drawn_keys(random: &mut Random, count: usize) -> Vec<u32> {
    let mut keys: BTreeSet<u32> = BTreeSet::new();
    if random.percent(60) {
        keys.extend([0, u32::MAX].into_iter().take(count));
    }
    let (first, step) = (random.draw() as u32, *random.pick(&[1, 2, 256, 1 << 22]));
    let is_dense = random.percent(50);
    for place in 0_u32.. {
        if keys.len() == count {
            break;
        }
        // Steps may lead back to a key that is there already; others go on then.
        keys.insert(match is_dense && place.is_multiple_of(2) {
            true => first.wrapping_add(place.wrapping_mul(step)),
            false => random.draw() as u32,
        });
    }
    keys.into_iter().collect()
}

/// The records of a lawful names file, few or as many as have room, with names of some of
/// these keys and of their like.
fn drawn_records(random: &mut Random, keys: &[u32]) -> Vec<Loose> {
    let style = Style::drawn(random);
    let known = *random.pick(&[0, 30, 50, 80, 100]);
    let mut named: BTreeSet<u32> = keys.iter().copied().collect();
    named.retain(|_| random.percent(known));
    let more = match random.below(20) {
        0 | 1 => MAX_RECORDS + 100,
        2..=5 => random.from_to(1, 800),
        _ => random.below(12),
    };
    let wanted = named.len() + more;
    while named.len() < wanted {
        named.insert(like(random, keys));
    }
    let mut records: Vec<Loose> = named
        .into_iter()
        .map(|key| Loose::new(key, &style.name(random, key)))
        .collect();
    let mut size: usize = records.iter().map(Loose::size).sum();
    if size <= MAX_BYTES {
        return records;
    }
    while size > MAX_BYTES {
        let out = records.remove(random.below(records.len()));
        size -= out.size();
    }
    // Full to the last byte, if the last name can be so long.
    if let Some(last) = records.last_mut() {
        let longer = last.name.len() + MAX_BYTES - size;
        if longer <= MAX_NAME && random.percent(50) {
            *last = Loose::new(last.key, &vec![b'n'; longer]);
        }
    }
    records
}

/// A key that is like one of these, or any other.
fn like(random: &mut Random, keys: &[u32]) -> u32 {
    let key = *random.pick(keys);
    match random.below(8) {
        0 => key.wrapping_add(1),
        1 => key.wrapping_sub(1),
        2 => key ^ (1 << random.below(32)),
        3 => key.swap_bytes(),
        4 => key & 0xFFFF,
        _ => random.draw() as u32,
    }
}

/// What the names of a file are like.
struct Style {
    shortest: usize,
    longest: usize,
    bytes: &'static [u8],
}

impl Style {
    fn drawn(random: &mut Random) -> Style {
        let (shortest, longest) =
            *random.pick(&[(1, 1), (1, 1), (1, MAX_NAME), (3, 12), (MAX_NAME, MAX_NAME)]);
        Style {
            shortest,
            longest,
            bytes: random.pick::<&[u8]>(&[b"", b" ~", b"0123456789", b"a b"]),
        }
    }

    fn name(&self, random: &mut Random, key: u32) -> Vec<u8> {
        // A name may be what its key's number looks like, or another's.
        if self.longest > 1 && random.percent(5) {
            return key.wrapping_add(random.below(2) as u32).to_string().into();
        }
        let (least, greatest) = (*NAME_BYTES.start(), *NAME_BYTES.end());
        let byte = |random: &mut Random| match self.bytes {
            [] => random.from_to(least.into(), greatest.into()) as u8,
            some => *random.pick(some),
        };
        let size = random.from_to(self.shortest, self.longest);
        (0..size).map(|_| byte(random)).collect()
    }
}

/// The file of these records with one fault. Where there is no record to be damaged, some
/// bytes are behind nothing.
fn damage(random: &mut Random, mut records: Vec<Loose>) -> (Vec<u8>, Damage) {
    let damage = match records.len() {
        0 => Damage::More,
        _ => *random.pick(&Damage::ALL[1..]),
    };
    // A fault in the first or the last record is as likely as one in the middle.
    let last = records.len().saturating_sub(1);
    let any = random.below(last + 1);
    let at = *random.pick(&[0, last, any]);
    match damage {
        Damage::Length => {
            let length = records[at].length;
            let like = [0, 6, 7, 46, 47, length - 1, length + 1, length + 256];
            records[at].length = *random.pick(&like);
        }
        Damage::Several => several(random, &mut records),
        Damage::Size => {
            let size = *random.pick(&[0, MAX_NAME + 1, MAX_NAME + 1, 100, 256]);
            records[at] = Loose::new(records[at].key, &vec![b'n'; size]);
        }
        Damage::Swapped => {
            let other = random.below(last + 1);
            records.swap(at, other);
        }
        Damage::Equal => {
            let key = records[random.below(at + 1)].key;
            let after = Loose {
                key,
                ..records[at].clone()
            };
            records.insert(at + 1, after);
        }
        Damage::OddByte => {
            let name = &mut records[at].name;
            let place = random.below(name.len());
            name[place] = *random.pick(&[0, 9, 10, 31, 127, 128, 160, 255]);
        }
        Damage::Kind => {
            records[at].kind = *random.pick(&[0, 2, 6, 31, 33, NAME + 256, NAME << 8]);
        }
        _ => {}
    }
    let mut bytes = file_of(&records);
    spoil(random, &mut bytes, damage);
    (bytes, damage)
}

/// Faults of some rows in the last record, which may be cut too, and now and then one in
/// any other.
fn several(random: &mut Random, records: &mut [Loose]) {
    let other = random.below(records.len());
    if random.percent(20) {
        records[other].kind = 0;
    }
    let (first, rest) = records.split_first_mut().expect("a record to be damaged");
    let earlier = first.key;
    let last = rest.last_mut().unwrap_or(first);
    // Two that are tried one behind the other, and maybe more.
    let least = random.below(3);
    let chosen = [0, 1, 2, 3].map(|row| [least, least + 1].contains(&row) || random.percent(15));
    let [length, kind, byte, key] = chosen;
    if length {
        // As if one byte more, or many, were still to come.
        last.length += *random.pick(&[1, 1, MAX_NAME as u16]);
    }
    if kind {
        last.kind += 1;
    }
    if byte {
        last.name[0] = 127;
    }
    if key {
        last.key = earlier;
    }
}

/// Does what of the damage is done to the bytes, whatever the records are.
fn spoil(random: &mut Random, bytes: &mut Vec<u8>, damage: Damage) {
    match damage {
        Damage::Flipped => {
            let at = random.below(bytes.len());
            bytes[at] ^= 1 << random.below(8);
        }
        Damage::Cut => {
            let near = bytes.len() - random.from_to(1, bytes.len().min(HEAD + 2));
            let any = random.below(bytes.len());
            bytes.truncate(*random.pick(&[near, any]));
        }
        Damage::More => {
            let more = *random.pick(&[1, 1, 2, 8, 9]);
            let beginning = [7, 0, 32, 0, 0, 0, 0, 0, b'n'];
            bytes.extend(&beginning[..more]);
        }
        Damage::TooLong => {
            let more = *random.pick(&[1, 1, 2, 100, 40_000]);
            let beginning = bytes.clone();
            let fill = beginning.iter().cycle().skip(bytes.len());
            bytes.extend(fill.take((MAX_BYTES + more).saturating_sub(beginning.len())));
        }
        _ => {}
    }
}
