//! What a program that makes the calls of the upper library is asked, and one run of
//! it, compared byte for byte.
//!
//! The program reads items until its input ends, and answers each. An item is a
//! letter, the numbers that the call takes, and the bytes that it takes, each behind
//! their length; each number has 4 bytes, little-endian. The answer is what the call
//! answers, then each buffer that it is lent, as it is after the call. Before the call
//! every byte of them is the same one, and so are some bytes behind each, which are not
//! lent and are answered with it.

use crate::process;
use crate::random::Random;
use crate::workers::{alike, show_bytes, Difference};
use std::io::{self, Read};
use std::ops::RangeInclusive;

/// What every byte is before the call.
pub const UNTOUCHED: u8 = 0xA5;
/// So many bytes behind each buffer are not lent.
pub const BEHIND: usize = 16;
/// The longest trace that the program takes.
pub const LONGEST: usize = 40_000;
/// Bytes of a number.
pub const NUMBER_SIZE: usize = size_of::<u32>();
/// Bytes of the numbers that come with an answer.
pub const NUMBERS_SIZE: usize = 5 * NUMBER_SIZE;
/// The sizes that are tried of the buffer for them: every one up to room for one more.
pub const NUMBERS_ROOMS: RangeInclusive<usize> = 0..=NUMBERS_SIZE + NUMBER_SIZE;

/// Numbers that are no levels, though some have one as their low byte or half.
pub const NO_LEVELS: [u32; 9] = [0, 4, 255, 256, 257, 258, 65_537, 0x8000_0001, 0xFFFF_FFFF];

/// A random level, mostly one of the three.
pub fn drawn_level(random: &mut Random) -> u32 {
    match random.percent(4) {
        true => *random.pick(&NO_LEVELS),
        false => random.from_to(1, 3) as u32,
    }
}

/// A random room for the numbers that come with an answer, mostly just enough.
pub fn drawn_numbers_room(random: &mut Random) -> usize {
    match random.percent(60) {
        true => NUMBERS_SIZE,
        false => random.from_to(*NUMBERS_ROOMS.start(), *NUMBERS_ROOMS.end()),
    }
}

/// One thing asked of the program.
pub trait Item {
    /// What is asked, in words.
    fn name(&self) -> String;

    /// The item as the program reads it.
    fn to_bytes(&self) -> Vec<u8>;

    /// What has to be answered.
    fn reply(&self) -> Vec<u8>;

    /// The buffers that are lent, by name and size; numbers stand in the last one.
    fn buffers(&self) -> Vec<(&'static str, usize)>;
}

/// Puts the items through one run of the program, and compares; each that is answered
/// rightly is counted. Whether it answers each at once or all at the end does not
/// matter.
pub fn check_run<I: Item>(
    command: &str,
    items: &[I],
    mut count: impl FnMut(&I),
) -> Result<(), Box<Difference>> {
    let input: Vec<u8> = items.iter().flat_map(Item::to_bytes).collect();
    let (output, failure) = match process::run_to_end(command, &input) {
        Ok(ended) => (ended.output, ended.failure),
        Err(message) => (vec![], Some(message)),
    };
    let mut left = output.as_slice();
    for (index, item) in items.iter().enumerate() {
        let ours = item.reply();
        let Some((theirs, rest)) = left.split_at_checked(ours.len()) else {
            let message = failure.unwrap_or("ended before its answer did".into());
            return Err(run_differs(
                &items[index..],
                format!("no answer: {message}"),
            ));
        };
        if theirs != ours {
            return Err(differs(item, theirs, &ours));
        }
        count(item);
        left = rest;
    }
    match (failure, left.len()) {
        (Some(message), _) => Err(run_differs(items, format!("each answer, then {message}"))),
        (None, 0) => Ok(()),
        (None, more) => Err(run_differs(
            items,
            format!("{more} bytes behind the last answer"),
        )),
    }
}

/// The program's reply is not the expected one. What is kept is the input for
/// another run, with this item alone.
fn differs(item: &impl Item, theirs: &[u8], ours: &[u8]) -> Box<Difference> {
    Box::new(Difference {
        name: item.name(),
        bytes: item.to_bytes(),
        file: "item".into(),
        beside: vec![],
        answers: [
            ("the program", show(&item.buffers(), theirs, ours)),
            ("the Rust side", show(&item.buffers(), ours, theirs)),
        ],
    })
}

/// The program did not come to a right end with these items. It may have been any
/// of them, since its last answers may be lost, so that all of them are kept.
fn run_differs(items: &[impl Item], message: String) -> Box<Difference> {
    let first = items.first().map(Item::name).unwrap_or_default();
    Box::new(Difference {
        name: format!("a run of items, {first}, or one behind it"),
        bytes: items.iter().flat_map(Item::to_bytes).collect(),
        file: "items".into(),
        beside: vec![],
        answers: [
            ("the program", message + "\n"),
            ("what was asked", format!("{} items\n", items.len())),
        ],
    })
}

/// A letter and numbers: what an item begins with.
pub fn head(letter: u8, numbers: &[u32]) -> Vec<u8> {
    let numbers = numbers.iter().flat_map(|number| number.to_le_bytes());
    [letter].into_iter().chain(numbers).collect()
}

/// Puts bytes into an item, behind their length.
pub fn put_bytes(item: &mut Vec<u8>, bytes: &[u8]) {
    item.extend(number(bytes.len()).to_le_bytes());
    item.extend(bytes);
}

/// The letter of the next item; nothing where the input ends.
pub fn read_letter(input: &mut impl Read) -> io::Result<Option<u8>> {
    let mut letter = [0];
    match input.read_exact(&mut letter) {
        Err(error) if error.kind() == io::ErrorKind::UnexpectedEof => Ok(None),
        other => other.map(|()| Some(letter[0])),
    }
}

pub fn read_number(input: &mut impl Read) -> io::Result<u32> {
    let mut bytes = [0; NUMBER_SIZE];
    input.read_exact(&mut bytes)?;
    Ok(u32::from_le_bytes(bytes))
}

/// Bytes that stand behind their length.
pub fn read_bytes(input: &mut impl Read) -> io::Result<Vec<u8>> {
    let mut bytes = vec![0; read_number(input)? as usize];
    input.read_exact(&mut bytes)?;
    Ok(bytes)
}

/// The reply that has this answer and these buffers.
pub fn replied(answer: u32, buffers: &[&[u8]]) -> Vec<u8> {
    let mut reply = answer.to_le_bytes().to_vec();
    for buffer in buffers {
        reply.extend(*buffer);
        reply.extend([UNTOUCHED; BEHIND]);
    }
    reply
}

pub fn number(length: usize) -> u32 {
    u32::try_from(length).expect("traces and buffers are short")
}

/// A whole reply in print: what the call answers, the numbers that are whole in the
/// last buffer, and the buffers that are not alike in another reply.
fn show(buffers: &[(&str, usize)], reply: &[u8], other: &[u8]) -> String {
    let (answered, ours) = reply.split_at(NUMBER_SIZE);
    let (ours, others) = (split(ours, buffers), split(&other[NUMBER_SIZE..], buffers));
    let mut out = format!("answer{}", numbers_in(answered));
    if let (Some((name, room)), Some(last)) = (buffers.last(), ours.last()) {
        let numbers = &last[..*room.min(&NUMBERS_SIZE)];
        out += &format!(", {name}{}", numbers_in(numbers));
    }
    out += "\n";
    for ((name, _), (one, other)) in buffers.iter().zip(ours.into_iter().zip(others)) {
        if one != other {
            let bytes = show_bytes(one, alike(one, other));
            out += &format!("{name} and the {BEHIND} bytes behind: {bytes}");
        }
    }
    out
}

/// The buffers of a reply, each with the bytes behind it.
fn split<'a>(mut bytes: &'a [u8], buffers: &[(&str, usize)]) -> Vec<&'a [u8]> {
    let split_off = |(_, room): &(&str, usize)| {
        let (buffer, rest) = bytes.split_at(room + BEHIND);
        bytes = rest;
        buffer
    };
    buffers.iter().map(split_off).collect()
}

/// The whole numbers that bytes begin with, each behind a space.
fn numbers_in(bytes: &[u8]) -> String {
    let (numbers, _) = bytes.as_chunks();
    numbers
        .iter()
        .map(|number| format!(" {}", u32::from_le_bytes(*number)))
        .collect()
}
