//! Known traces with notes, none, few and as many as there is room for: what
//! `judge` has to print, and what moving them to edition 2 has to answer.

use crate::cases::{accepted, refused, same, written, Case};
use crate::encode::Writer;
use crate::text;
use crate::trace::{self, Edition, Refusal, Status, MAX_BYTES, MAX_NOTE, MAX_TRANSACTIONS};
use crate::weave::{self, Access, Whole};

/// A trace with the answers that it must have.
pub struct NoteCase {
    pub case: Case,
    /// The trace in edition 2 and how many notes it had, room being ample.
    pub moved: Result<(Vec<u8>, u16), Refusal>,
}

/// All of them.
pub fn all() -> Vec<NoteCase> {
    let mut cases = few();
    cases.extend(counted_once());
    cases.extend(many());
    cases.extend(edition_2());
    cases.extend(refusals());
    cases
}

fn encode(notation: &str) -> Vec<u8> {
    text::encode(notation.as_bytes()).unwrap_or_else(|e| panic!("{notation}: {e}"))
}

/// A trace in the notation that all levels accept with this order, the same
/// trace in edition 2, and the number of its notes.
fn noted(
    name: &'static str,
    notation: &str,
    order: &str,
    in_edition_2: &str,
    notes: u16,
) -> NoteCase {
    NoteCase {
        case: written(name, notation, same(&format!("accepted {order}"))),
        moved: Ok((encode(in_edition_2), notes)),
    }
}

/// Notes in every place, and of every size.
fn few() -> Vec<NoteCase> {
    let long = "n".repeat(MAX_NOTE);
    vec![
        noted("no notes, end only", "", "0", "edition 2", 0),
        noted(
            "no notes",
            "serial 9; T1 s7 w1=5; T2 s7 r1=5",
            "0 1 2",
            "serial 9; edition 2; T1 s7 w1=5; T2 s7 r1=5",
            0,
        ),
        // Kind 6, length 6 and the number 6 stand in other places than a note's.
        noted(
            "no notes, but sixes everywhere",
            "serial 393222; T1 s6 w393222=1688875630460934 r6=0; T2 s1536",
            "0 1 2",
            "serial 393222; edition 2; T1 s6 w393222=1688875630460934 r6=0; T2 s1536",
            0,
        ),
        noted(
            "a note and the end",
            "note \"a\"",
            "0",
            "serial 0; edition 2",
            1,
        ),
        noted(
            "a note before all",
            "serial 7; note \"a\"; T1 s1 w1=5",
            "0 1",
            "serial 7; edition 2; T1 s1 w1=5",
            1,
        ),
        noted(
            "a note before the end, which has the serial behind the wrap",
            "serial 4294967293; T1 s1; note \"\"",
            "0 1",
            "serial 4294967293; edition 2; T1 s1",
            1,
        ),
        noted(
            "a note of 64 bytes inside",
            &format!("T1 s1 w1=5 note \"{long}\" r1=5"),
            "0 1",
            "edition 2; T1 s1 w1=5 r1=5",
            1,
        ),
        noted(
            "a note in a transaction without operations",
            "T1 s1 note \"a\"; T2 s2",
            "0 1 2",
            "edition 2; T1 s1; T2 s2",
            1,
        ),
        noted(
            "two notes in a row",
            "note \"a\"; note \"b\"; T1 s1 w1=5",
            "0 1",
            "edition 2; T1 s1 w1=5",
            2,
        ),
        noted(
            "two notes with the same text, inside and outside",
            "T1 s1 note \"a\" w1=5; note \"a\"",
            "0 1",
            "edition 2; T1 s1 w1=5",
            2,
        ),
        noted(
            "two notes without text, of an aborted one and of an unanswered one",
            "T1 s1 w1=5 note \"\" aborted; T2 s1 note \"\" unanswered",
            "0",
            "edition 2; T1 s1 w1=5 aborted; T2 s1 unanswered",
            2,
        ),
        noted(
            "two notes in every place",
            "serial 4294967290; note \"\"; note \"a\"; \
             T1 s1 note \"b\" note \"\" w1=5 note \"\" note \"c\" r1=5 note \"d\" note \"e\"; \
             note \"f\"; note \"g\"; T2 s2 note \"\" note \"\" r1=5; note \"h\"; note \"\"",
            "0 1 2",
            "serial 4294967290; edition 2; T1 s1 w1=5 r1=5; T2 s2 r1=5",
            14,
        ),
    ]
}

/// A note counts once, whatever is in its text.
fn counted_once() -> Vec<NoteCase> {
    let mut text_of_notes = Writer::new(1);
    for _ in 0..8 {
        text_of_notes.note(b"");
    }
    let mut text_of_edition = Writer::new(0);
    text_of_edition.edition(2);
    [
        ("a note whose text is eight notes", text_of_notes.bytes),
        ("a note whose text is an end", Writer::new(1).end_with(1)),
        (
            "a note whose text is an edition record",
            text_of_edition.bytes,
        ),
        ("a note whose text is zeros", vec![0; MAX_NOTE]),
        ("a note whose text is ones", vec![0xff; MAX_NOTE]),
        (
            "a note whose text is what is printed",
            b"notes 2\n--\nrefused 3 0\n".to_vec(),
        ),
    ]
    .map(|(name, text)| {
        let mut writer = Writer::new(0);
        writer.note(&text);
        writer.open(1);
        writer.close(1);
        NoteCase {
            case: accepted(name, writer.end(), "0 1"),
            moved: Ok((encode("edition 2; T1 s1"), 1)),
        }
    })
    .into()
}

/// This many notes without text, then the records of the transactions.
fn notes_before(notes: u16, wholes: &[Whole]) -> Vec<u8> {
    let mut writer = Writer::new(0);
    for _ in 0..notes {
        writer.note(b"");
    }
    weave::weave(writer, wholes, |_, _| weave::Turn::GoOn(0))
}

/// Numbers of one byte and of two, and the most that fit.
fn many() -> Vec<NoteCase> {
    const MOST: u16 = 4_094;
    let mut cases: Vec<NoteCase> = [
        ("255 notes", 255),
        ("256 notes", 256),
        ("257 notes", 257),
        ("4,094 notes", MOST),
    ]
    .map(|(name, notes)| NoteCase {
        case: accepted(name, notes_before(notes, &[]), "0"),
        moved: Ok((encode("edition 2"), notes)),
    })
    .into();

    let mut full = Writer::new(0);
    for _ in 1..MOST {
        full.note(b"");
    }
    full.note(b"6 left");
    cases.push(NoteCase {
        case: accepted("4,094 notes in 32,768 bytes", full.end(), "0"),
        moved: Ok((encode("edition 2"), MOST)),
    });
    cases.push(NoteCase {
        case: refused("4,095 notes", notes_before(MOST + 1, &[]), 2, MAX_BYTES),
        moved: Err(Refusal {
            number: 2,
            place: MAX_BYTES,
        }),
    });
    cases.push(beside_all_others());
    cases
}

/// As many transactions and operations as there can be, and the notes that still
/// fit beside them.
fn beside_all_others() -> NoteCase {
    const FIT: u16 = 1_233;
    let write = |value: u64| Access::write(1, value);
    let wholes: Vec<Whole> = (1..=MAX_TRANSACTIONS as u64)
        .map(|number| Whole {
            session: number as u16,
            status: Status::Aborted,
            operations: match number {
                1 => (1..=16).map(write).collect(),
                _ => (8 * number + 1..=8 * number + 8).map(write).collect(),
            },
        })
        .collect();
    NoteCase {
        case: accepted(
            "1,233 notes beside 127 transactions and 1,024 operations",
            notes_before(FIT, &wholes),
            "0",
        ),
        moved: Ok((weave::blocks(Edition::Two, 0, &wholes), FIT)),
    }
}

/// What is of edition 2 already stays, and has no notes.
fn edition_2() -> Vec<NoteCase> {
    let stays = |name, notation: &str, order: &str| noted(name, notation, order, notation, 0);
    vec![
        stays(
            "no notes in edition 2, end only",
            "serial 6; edition 2",
            "0",
        ),
        stays(
            "no notes in edition 2, two open at once",
            "edition 2; T1 s6 w6=6 ..; T2 s1536 r6=6 ..; T1 ..; T2 .. unanswered",
            "0 1",
        ),
    ]
}

/// What is refused has no number, however many notes came before.
fn refusals() -> Vec<NoteCase> {
    let behind_notes = |name, kind: u16, payload: &[u8], number: u8| {
        let mut writer = Writer::new(0);
        writer.note(b"one");
        writer.note(b"two");
        let place = writer.bytes.len();
        writer.record(kind, payload);
        writer.note(b"three");
        NoteCase {
            case: refused(name, writer.end(), number, place),
            moved: Err(Refusal { number, place }),
        }
    };
    vec![
        behind_notes(
            "two notes, then one of 65 bytes",
            trace::NOTE,
            &[b'n'; 65],
            4,
        ),
        behind_notes("two notes, then an unknown kind", 9, b"", 6),
        behind_notes("two notes, then a close", trace::CLOSE, &[1], 7),
        behind_notes("two notes, then edition 2", trace::EDITION, &[2, 0], 7),
        behind_notes("two notes, then a wrong end", trace::END, &[1, 0], 8),
    ]
}
