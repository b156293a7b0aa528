//! Moving traces between the editions, and what has to hold of a moved one.
//!
//! Both ways keep the first serial, which may be a note's, and leave out notes;
//! the way to edition 2 answers how many there were. A moved trace always is
//! short enough to be read: 127 transactions with 1,024 operations take 25,215
//! bytes in edition 2. Lists are of edition 2 alone: a trace that has them does not
//! go back.

use crate::encode::Writer;
use crate::trace::{self, Action, Edition, Refusal, Trace};
use crate::trace::{APPEND, CLOSE, LIST_READ, NOTE, OPEN, READ, WRITE};
use crate::weave;
use crate::workers::must;
use crate::writing::{first_serial, fit};

/// The trace in edition 1, for a buffer with `room` bytes. One that is of this
/// edition already is copied whole, notes too.
pub fn to_edition_1(bytes: &[u8], room: usize) -> Result<Vec<u8>, Refusal> {
    let trace = Trace::parse(bytes)?;
    if let Some(place) = trace::first_list_record(bytes) {
        let number = 20;
        return Err(Refusal { number, place });
    }
    let moved = match trace.edition {
        Edition::One => bytes.to_vec(),
        Edition::Two => in_blocks(&trace, first_serial(bytes)),
    };
    fit(moved, room)
}

/// The trace in edition 2, for a buffer with `room` bytes, and how many notes it
/// had. One that is of this edition already is copied whole, and had none.
pub fn to_edition_2(bytes: &[u8], room: usize) -> Result<(Vec<u8>, u16), Refusal> {
    let (moved, notes) = match Trace::parse(bytes)?.edition {
        Edition::One => with_sessions(bytes),
        Edition::Two => (bytes.to_vec(), 0),
    };
    Ok((fit(moved, room)?, notes))
}

/// The trace in the wanted edition, for those who do not ask about notes.
pub fn move_to(wanted: Edition, bytes: &[u8], room: usize) -> Result<Vec<u8>, Refusal> {
    match wanted {
        Edition::One => to_edition_1(bytes, room),
        Edition::Two => to_edition_2(bytes, room).map(|(moved, _)| moved),
    }
}

/// Record by record, with the session added where edition 2 has one; and the
/// number of notes. There is room for 4,094 of them beside the end record.
fn with_sessions(bytes: &[u8]) -> (Vec<u8>, u16) {
    let mut writer = Writer::edition_2(first_serial(bytes));
    let mut session = 0;
    let mut notes = 0;
    for record in trace::records(bytes) {
        let payload = record.payload;
        match record.kind {
            NOTE => notes += 1,
            READ | WRITE | CLOSE => writer.record_in(session, record.kind, payload),
            // An open or the end, which are alike in both editions.
            kind => {
                if kind == OPEN {
                    session = u16::from_le_bytes([payload[0], payload[1]]);
                }
                writer.record(kind, payload);
            }
        }
    }
    (writer.bytes, notes)
}

/// Transaction by transaction: they are numbered in order of opening. The trace has
/// no lists.
fn in_blocks(trace: &Trace, first_serial: u32) -> Vec<u8> {
    let mut writer = Writer::new(first_serial);
    for (number, transaction) in (1..).zip(&trace.transactions) {
        writer.open(transaction.session);
        let own = trace.operations.iter().filter(|o| o.transaction == number);
        for operation in own {
            match operation.action {
                Action::Read(value) => writer.read(operation.key, value),
                Action::Write(value) => writer.write(operation.key, value),
                Action::Append(_) | Action::ReadList(_) => unreachable!("refused before"),
            }
        }
        writer.close(transaction.status as u8);
    }
    writer.end()
}

/// The edition that a trace of this one can be moved to.
pub fn other(edition: Edition) -> Edition {
    match edition {
        Edition::One => Edition::Two,
        Edition::Two => Edition::One,
    }
}

/// What has to hold of the bytes that a trace was moved to, whoever moved it.
/// Answers the moved trace. What both editions say of transactions one after
/// another is written here by [`weave`], which shares no loop with the mover.
pub fn check(wanted: Edition, bytes: &[u8], trace: &Trace, moved: &[u8]) -> Result<Trace, String> {
    let after = Trace::parse(moved).map_err(|refusal| format!("moved, but {refusal:?}"))?;
    must(after.edition == wanted, "moved to another edition")?;
    if trace.edition == wanted {
        must(moved == bytes, "already in this edition, but changed")?;
        return Ok(after);
    }
    let serial = first_serial(bytes);
    let follow = (0..).map(|n| serial.wrapping_add(n));
    let serials = trace::records(moved).map(|record| record.serial);
    let all_follow = serials.zip(follow).all(|(is, due)| is == due);
    must(all_follow, "moved with other serials")?;
    must(!trace::has_notes(moved), "moved with a note")?;
    let wholes = weave::wholes(trace);
    must(
        weave::wholes(&after) == wholes,
        "moved with other transactions",
    )?;
    let blocks = weave::blocks(wanted, serial, &wholes);
    must(moved == blocks, "not blocks in order of opening")?;
    if trace.edition == Edition::One && !trace::has_notes(bytes) {
        let back = move_to(Edition::One, moved, usize::MAX);
        must(back.as_deref() == Ok(bytes), "does not come back as it was")?;
    }
    Ok(after)
}

/// What has to hold of the refusal of a trace that is read and not moved: it was to go
/// to edition 1, and at the place there is a record of lists, and none before it.
pub fn check_stayed(
    wanted: Edition,
    bytes: &[u8],
    trace: &Trace,
    refusal: &Refusal,
) -> Result<(), String> {
    let is_list = |record: trace::Record| matches!(record.kind, APPEND | LIST_READ);
    let holds = bytes
        .split_at_checked(refusal.place)
        .is_some_and(|(before, there)| {
            let size: usize = trace::records(before).map(|record| record.size()).sum();
            size == refusal.place
                && !trace::records(before).any(is_list)
                && trace::records(there).next().is_some_and(is_list)
        });
    must(
        wanted == Edition::One && trace.has_lists() && refusal.number == 20 && holds,
        &format!("read, but {refusal:?}"),
    )
}

/// What has to hold of the number that the move to edition 2 answers, given that
/// [`check`] finds nothing wrong with the bytes: a record was put in, the one that
/// says the edition, and besides notes none was left out. No kind is looked at.
pub fn check_notes(bytes: &[u8], trace: &Trace, moved: &[u8], notes: u16) -> Result<(), String> {
    let [before, after] = [bytes, moved].map(|bytes| trace::records(bytes).count());
    let put_in = usize::from(trace.edition == Edition::One);
    let holds = before + put_in == after + usize::from(notes);
    must(holds, "another number of notes than were left out")
}
