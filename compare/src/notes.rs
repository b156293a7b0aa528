//! Traces that differ in their notes only: with other texts, and without notes.
//!
//! "Two hosts put passwords into them": nothing that is answered may hang on a
//! text, and on the notes nothing but their number in the move to edition 2.

use crate::encode::Writer;
use crate::random::Random;
use crate::trace::{self, Refusal, CLOSE, EDITION, END, NOTE, OPEN};
use std::ops::Range;

/// Bytes of a record before its payload.
const HEAD: usize = 8;

/// Where the texts of notes stand, but for those of no bytes. In a refused trace
/// they are those that stand before the refusal, and that of the refused record,
/// which may be a note too long, with another serial, in edition 2, or cut.
pub fn texts(bytes: &[u8], refusal: Option<&Refusal>) -> Vec<Range<usize>> {
    let last_place = refusal.map_or(bytes.len(), |refusal| refusal.place);
    let mut texts = framed(bytes);
    texts.retain(|text| !text.is_empty() && text.start - HEAD <= last_place);
    texts
}

/// Whether the record that is refused is a note that has a text.
pub fn is_refused_note(bytes: &[u8], refusal: &Refusal) -> bool {
    let mut texts = texts(bytes, Some(refusal)).into_iter();
    texts.any(|text| text.start - HEAD == refusal.place)
}

/// The texts of the notes up to the end record, the last of which may be cut.
fn framed(bytes: &[u8]) -> Vec<Range<usize>> {
    let mut texts = Vec::new();
    let mut offset = 0;
    for record in trace::records(bytes) {
        let payload = offset + HEAD;
        offset += record.size();
        match record.kind {
            NOTE => texts.push(payload..offset),
            END => return texts,
            _ => {}
        }
    }
    texts.extend(cut(bytes, offset));
    texts
}

/// What there is of the text of a note that begins here, and is not framed.
fn cut(bytes: &[u8], offset: usize) -> Option<Range<usize>> {
    let head: &[u8; HEAD] = bytes[offset..].first_chunk()?;
    let length = u16::from_le_bytes([head[0], head[1]]);
    let kind = u16::from_le_bytes([head[2], head[3]]);
    // A length too small to reach a text has none behind it.
    let is_cut_note = kind == NOTE && usize::from(length) + 2 > HEAD;
    is_cut_note.then_some(offset + HEAD..bytes.len())
}

/// The same bytes with another text in each of these places.
pub fn with_other_texts(random: &mut Random, bytes: &[u8], texts: &[Range<usize>]) -> Vec<u8> {
    let mut bytes = bytes.to_vec();
    for text in texts {
        let text = &mut bytes[text.clone()];
        let other = other_text(random, text);
        text.copy_from_slice(&other);
    }
    bytes
}

/// Another text of the same length, which is not 0: all of one byte, one byte
/// changed, anything, or what would be records if it were no text.
fn other_text(random: &mut Random, text: &[u8]) -> Vec<u8> {
    let size = text.len();
    let mut other = match random.below(5) {
        0 => vec![*random.pick(&[0, 1, 6, b'n', 0xff]); size],
        1 => text.to_vec(),
        2 | 3 => (0..size).map(|_| random.draw() as u8).collect(),
        _ => records_of_size(random, size),
    };
    if other == text {
        other[random.below(size)] ^= random.from_to(1, 255) as u8;
    }
    other
}

/// The first bytes of some records.
fn records_of_size(random: &mut Random, size: usize) -> Vec<u8> {
    let mut writer = Writer::new(random.below(20) as u32);
    while writer.bytes.len() < size {
        match random.below(5) {
            0 => writer.record(OPEN, &[1, 0]),
            1 => writer.record(CLOSE, &[1]),
            2 => writer.record(EDITION, &[2, 0]),
            3 => writer.note(b""),
            _ => writer.record(END, &[random.below(3) as u8, 0]),
        }
    }
    writer.bytes.truncate(size);
    writer.bytes
}

/// The records of a trace without its notes, with serials from this one on.
pub fn left_out(bytes: &[u8], first_serial: u32) -> Vec<u8> {
    let mut writer = Writer::new(first_serial);
    for record in trace::records(bytes) {
        if record.kind != NOTE {
            writer.record(record.kind, record.payload);
        }
    }
    writer.bytes
}
