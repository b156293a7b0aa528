//! Known traces of edition 2: transactions that overlap, and what only this
//! edition refuses, each with what `judge` has to print.

use crate::cases::{accepted, counting, refused, same, written, Case};
use crate::encode::Writer;
use crate::trace::{
    Status, CLOSE, EDITION, END, MAX_BYTES, MAX_OPERATIONS, MAX_TRANSACTIONS, NOTE, OPEN, READ,
    WRITE,
};
use crate::weave::{self, Access, Turn, Whole};

/// All of them.
pub fn all() -> Vec<Case> {
    let mut cases = document();
    cases.extend(against_blocks());
    cases.extend(unanswered());
    cases.extend(sessions());
    cases.extend(many_sessions());
    cases.extend(limits());
    cases.extend(the_edition_record());
    cases.extend(edition_record_in_edition_1());
    cases.extend(framing());
    cases.extend(order_of_checks());
    cases
}

/// The document's cases, their transactions interwoven where there are two or
/// more, and with the same answers but for operation numbers.
pub fn document() -> Vec<Case> {
    let two_pairs = "rejected 0 2\npair 1 2 8\npair 2 1 8\n";
    let rc_and_others =
        |order: &str, others: &str| format!("rc accepted {order}\nra {others}tcc {others}");
    let one_finding = |finding: &str| same(&format!("rejected 1 0\nread {finding}"));
    vec![
        written("P1 in edition 2", "edition 2", same("accepted 0")),
        written(
            "P3 in edition 2",
            "edition 2; T1 r1=5",
            one_finding("1 1 1 0"),
        ),
        written(
            "P4 in edition 2",
            "edition 2; T1 r1=0",
            same("accepted 0 1"),
        ),
        // The read stands before the abort, and even before the write.
        written(
            "P5 interwoven",
            "edition 2; T1 ..; T2 r1=5 ..; T1 .. w1=5 ..; T2 ..; T1 .. aborted",
            one_finding("2 1 2 2"),
        ),
        written(
            "P6 in edition 2",
            "edition 2; T1 r1=5 w1=5",
            one_finding("1 1 3 2"),
        ),
        written(
            "P7 in edition 2",
            "edition 2; T1 w1=5 w1=6 r1=5",
            one_finding("1 3 4 1"),
        ),
        written(
            "P8 interwoven",
            "edition 2; T1 ..; T2 w1=6 ..; T1 .. w1=5 ..; T2 .. r1=5; T1 ..",
            one_finding("2 3 5 2"),
        ),
        // The read stands between the two writes.
        written(
            "P9 interwoven",
            "edition 2; T1 w1=5 ..; T2 r1=5; T1 .. w1=6",
            one_finding("2 2 6 1"),
        ),
        written(
            "P10 interwoven",
            "edition 2; T1 ..; T2 ..; T3 ..; T1 .. w1=5 ..; T3 .. r1=5 ..; T2 .. w1=6; \
             T3 .. r1=6; T1 ..",
            rc_and_others("0 1 2 3", two_pairs),
        ),
        written(
            "P11 interwoven",
            "edition 2; T1 w1=5 ..; T2 ..; T3 r1=5 ..; T2 .. w1=6 ..; T3 .. r1=6 ..; T1 ..; \
             T3 .. r1=5; T2 ..",
            same("rejected 0 2\npair 1 2 8\npair 2 1 8"),
        ),
        written(
            "P12 interwoven",
            "edition 2; T1 w1=5 ..; T2 r1=5 ..; T3 ..; T2 .. w2=7 ..; T3 .. r2=7 ..; T2 ..; \
             T3 .. r1=0; T1 ..",
            "rc accepted 0 1 2 3\nra accepted 0 1 2 3\n\
             tcc rejected 0 2\npair 0 1 9\npair 1 0 8\n"
                .into(),
        ),
        written(
            "P13 interwoven",
            "edition 2; T1 ..; T2 ..; T2 .. r1=5 ..; T1 .. r2=7 ..; T2 .. w2=7 ..; T1 .. w1=5; \
             T2 ..",
            same("rejected 0 2\npair 1 2 4\npair 2 1 4"),
        ),
        // One session: its transactions stay blocks.
        written(
            "P14 in edition 2",
            "edition 2; T1 s1 w1=5; T2 s1 r1=0",
            rc_and_others("0 1 2", "rejected 0 2\npair 0 1 1\npair 1 0 8\n"),
        ),
        written(
            "case 15 interwoven",
            "edition 2; T1 ..; T2 r1=0 ..; T1 .. r1=0 ..; T2 .. w1=6 ..; T1 .. w1=5; T2 ..",
            same("accepted 0 1 2"),
        ),
        written(
            "case 16 interwoven",
            "edition 2; T1 w1=11 ..; T2 w1=12 ..; T3 r1=12 ..; T1 .. w2=21 ..; T3 .. r2=21; \
             T2 .. w2=22; T1 ..",
            rc_and_others("0 2 1 3", two_pairs),
        ),
    ]
}

/// Traces that a judge which takes transactions for blocks would judge
/// otherwise, each beside its like in which the order is really so.
pub fn against_blocks() -> Vec<Case> {
    let found = |lines: &str| {
        let count = lines.lines().count();
        same(&format!("rejected {count} 0\n{lines}"))
    };
    vec![
        // Kind 4 asks for an own write between, and T2's is none.
        written(
            "another's write between an own write and its read",
            "edition 2; T1 w1=5 ..; T2 w1=6 ..; T1 .. r1=5; T2 ..",
            same("accepted 0 1 2"),
        ),
        written(
            "kind 4 with others' writes between",
            "edition 2; T1 w1=5 ..; T2 w1=6 ..; T1 .. w1=7 ..; T2 .. w1=8; T1 .. r1=5",
            found("read 1 5 4 1"),
        ),
        // The last write so far is another's, and an own one stands before it.
        written(
            "kind 5 behind another's write",
            "edition 2; T1 w1=5 ..; T2 w1=6 ..; T1 .. r1=6; T2 ..",
            found("read 1 3 5 2"),
        ),
        written(
            "kind 5 with value 0 behind another's write",
            "edition 2; T1 w1=5 ..; T2 w1=6 ..; T1 .. r1=0; T2 ..",
            found("read 1 3 5 0"),
        ),
        // T1 wrote nothing before its read; the write before it is T2's.
        written(
            "no kind 5 by another's write before the read",
            "edition 2; T1 ..; T2 w1=6 ..; T1 .. r1=0 w1=5; T2 ..",
            same("accepted 0 1 2"),
        ),
        // T1 writes again behind T2's write of the key.
        written(
            "kind 6, another's write between the two",
            "edition 2; T1 w1=5 ..; T2 w1=7 ..; T1 .. w1=6 ..; T3 r1=5; T2 ..; T1 ..",
            found("read 3 4 6 1"),
        ),
        written(
            "kind 6, written again behind the read",
            "edition 2; T1 w1=5 ..; T2 r1=5 ..; T3 w1=7; T1 .. w1=6; T2 ..",
            found("read 2 2 6 1"),
        ),
        // It is another that wrote the key again, so T1's write was its last.
        written(
            "no kind 6 by another's later write",
            "edition 2; T1 w1=5 ..; T2 w1=6 ..; T3 r1=5; T1 ..; T2 ..",
            same("accepted 0 1 2 3"),
        ),
        written(
            "kind 3 with others' operations between",
            "edition 2; T1 r1=5 ..; T2 w1=6 ..; T1 .. w1=5; T2 .. r1=6",
            found("read 1 1 3 3"),
        ),
        // A later transaction's write stands before the read.
        written(
            "the writes of a transaction that opened later, before the read",
            "edition 2; T1 ..; T2 w1=5 w1=6; T1 .. r1=5 r1=6",
            found("read 1 3 6 1"),
        ),
        // By number, not by transaction: T2's stand between T1's.
        written(
            "findings of two transactions by turns",
            "edition 2; T1 r1=1 ..; T2 r2=1 ..; T1 .. r1=2 ..; T2 .. r2=2 w2=2 ..; \
             T1 .. r1=3; T2 .. r2=0",
            found(
                "read 1 1 1 0\nread 2 2 1 0\nread 1 3 1 0\nread 2 4 3 5\nread 1 6 1 0\n\
                 read 2 7 5 0",
            ),
        ),
        written(
            "findings against the order of opening",
            "edition 2; T1 ..; T2 ..; T3 r1=1; T2 .. r1=2; T1 .. r1=3",
            found("read 3 1 1 0\nread 2 2 1 0\nread 1 3 1 0"),
        ),
        // The others' operations stand between T2's.
        written(
            "every kind, each own operation apart",
            "edition 2; T1 w1=1 ..; T2 r9=9 ..; T3 w2=1 ..; T2 .. r1=1 ..; T3 .. w2=2 ..; \
             T2 .. r3=3 ..; T1 .. aborted; T2 .. w3=3 ..; T4 w3=5 ..; T2 .. w3=4 ..; T3 ..; \
             T2 .. r3=3 r3=0 ..; T4 ..; T2 .. r2=1 r3=5",
            found(
                "read 2 2 1 0\nread 2 4 2 1\nread 2 6 3 7\nread 2 10 4 7\nread 2 11 5 0\n\
                 read 2 12 6 3\nread 2 13 5 8",
            ),
        ),
        // Level 1 goes by T3's own reads: that of T4 stands between and is not its.
        written(
            "an earlier read of another is none of the reader's",
            "edition 2; T1 w1=5; T2 w1=6; T3 ..; T4 r1=5 ..; T3 .. r1=6; T4 ..",
            same("accepted 0 1 2 3 4"),
        ),
        // .. and its own earlier read counts with T4's between.
        written(
            "earlier reads of two readers by turns",
            "edition 2; T1 w1=5; T2 w1=6; T3 r1=5 ..; T4 r1=6 ..; T3 .. r1=6; T4 .. r1=5",
            same("rejected 0 2\npair 1 2 8\npair 2 1 8"),
        ),
        // The reader closes before its source opens, and the order follows.
        written(
            "numbers go by opening, not by closing",
            "edition 2; T1 ..; T2 w1=5; T1 .. r1=5",
            same("accepted 0 2 1"),
        ),
        written(
            "numbers go by opening, not by the first operation",
            "edition 2; T1 ..; T2 w1=5 ..; T3 r1=5; T1 .. r9=9; T2 ..",
            found("read 1 3 1 0"),
        ),
        // Each is open from before the other's start to behind its end.
        written(
            "two that do not overlap, around one that does",
            "edition 2; T1 w1=1 ..; T2 s8 w2=2; T3 s8 r2=2 r1=1; T1 ..",
            same("accepted 0 1 2 3"),
        ),
    ]
}

/// Unanswered commits of transactions that overlap.
pub fn unanswered() -> Vec<Case> {
    vec![
        written(
            "unanswered in edition 2, read before its close",
            "edition 2; T1 w1=5 ..; T2 r1=5; T1 .. unanswered",
            same("accepted 0 1 2"),
        ),
        written(
            "unanswered in edition 2, read by nobody",
            "edition 2; T1 w1=5 ..; T2 w1=6; T1 .. r1=5 unanswered",
            same("accepted 0 2"),
        ),
        written(
            "unanswered in edition 2, two that only read each other",
            "edition 2; T1 w1=5 ..; T2 r1=5 ..; T1 .. r2=7 ..; T2 .. w2=7 unanswered; \
             T1 .. unanswered",
            same("accepted 0"),
        ),
        written(
            "unanswered in edition 2, counted by a reader that is read",
            "edition 2; T1 ..; T2 ..; T3 r2=6 ..; T1 .. w1=5 ..; T2 .. r1=5 ..; T1 .. unanswered; \
             T2 .. w2=6 unanswered; T3 ..",
            same("accepted 0 1 2 3"),
        ),
        written(
            "unanswered in edition 2, its intermediate value read in between",
            "edition 2; T1 w1=5 ..; T2 r1=5 ..; T1 .. w1=6 unanswered; T2 ..",
            same("rejected 1 0\nread 2 2 6 1"),
        ),
    ]
}

/// Which session a record is of.
pub fn sessions() -> Vec<Case> {
    let rc_and_others = |rc: &str, others: &str| format!("rc {rc}\nra {others}\ntcc {others}\n");
    vec![
        // T1 and T3 are of one session, with T2 of another around them.
        written(
            "a session that opens again after its close",
            "edition 2; T1 s1 w1=5 ..; T2 s2 ..; T1 ..; T3 s1 r1=0; T2 ..",
            rc_and_others("accepted 0 1 2 3", "rejected 0 2\npair 0 1 1\npair 1 0 8"),
        ),
        written(
            "a session pair three openings apart",
            "edition 2; T1 s1 w1=5 ..; T2 s2 ..; T1 ..; T3 s3 ..; T4 s1 r1=0 ..; T3 ..; T2 ..; \
             T4 ..",
            rc_and_others("accepted 0 1 2 3 4", "rejected 0 2\npair 0 1 1\npair 1 0 8"),
        ),
        // T2 and T3 of other sessions are open, T4 of the same one stands between.
        written(
            "a rival two back in a session, with others open",
            "edition 2; T1 s1 w1=5 ..; T2 s2 ..; T3 s3 ..; T1 ..; T4 s1; T3 ..; T5 s1 r1=0; T2 ..",
            rc_and_others(
                "accepted 0 1 2 3 4 5",
                "rejected 0 2\npair 0 1 1\npair 1 0 8",
            ),
        ),
        written(
            "sessions 0, 255, 256 and 65,535",
            "edition 2; T1 s0 w1=1 ..; T2 s255 w1=2 ..; T3 s256 w1=3 ..; T4 s65535 w1=4 ..; \
             T2 .. r1=2 ..; T4 .. r1=4 ..; T1 .. r1=1 ..; T3 .. r1=3; T1 ..; T4 ..; T2 ..",
            same("accepted 0 1 2 3 4"),
        ),
        written(
            "sessions that differ by 128",
            "edition 2; T1 s1 w1=1 ..; T2 s129 w1=2 ..; T1 .. r1=1; T3 s1 r1=1; T2 .. r1=2",
            same("accepted 0 1 2 3"),
        ),
        written(
            "sessions that differ by 256",
            "edition 2; T1 s1 w1=1 ..; T2 s257 w1=2 ..; T1 .. r1=1; T3 s1 r1=1; T2 .. r1=2",
            same("accepted 0 1 2 3"),
        ),
        // Were they one session, 1 would have to stand before 2.
        written(
            "sessions that differ by 256 make no pair",
            "edition 2; T1 s1 w1=5; T2 s257 r1=0",
            same("accepted 0 1 2"),
        ),
        written(
            "sessions whose bytes are each other's reversed",
            "edition 2; T1 s258 w1=1 ..; T2 s513 w1=2 ..; T1 .. r1=1; T2 .. r1=2",
            same("accepted 0 1 2"),
        ),
        written(
            "a write of a key that is another's session",
            "edition 2; T1 s1 w2=1 ..; T2 s2 w1=2 ..; T1 .. r2=1; T2 .. r1=2",
            same("accepted 0 1 2"),
        ),
    ]
}

/// As many transactions as there can be, each in its own session; each writes
/// its number, and reads it.
fn writers_and_readers(session: impl Fn(u16) -> u16) -> Vec<Whole> {
    (1..=MAX_TRANSACTIONS as u16)
        .map(|t| Whole {
            session: session(t),
            status: Status::Committed,
            operations: vec![Access::write(1, t.into()), Access::read(1, t.into())],
        })
        .collect()
}

/// All transactions open before any goes on; then the turns choose.
fn all_open(session: impl Fn(u16) -> u16, turns: impl Fn(usize) -> usize) -> Vec<u8> {
    let wholes = writers_and_readers(session);
    weave::weave(
        Writer::edition_2(0),
        &wholes,
        |open, may_open| match may_open {
            true => Turn::Open,
            false => Turn::GoOn(turns(open)),
        },
    )
}

/// Many open at once, closed in different orders.
pub fn many_sessions() -> Vec<Case> {
    let own = |t| t;
    let case = |name, bytes| accepted(name, bytes, &counting(MAX_TRANSACTIONS));
    vec![
        case(
            "127 open at once, ended in the order of opening",
            all_open(own, |_| 0),
        ),
        case(
            "127 open at once, ended in reverse order",
            all_open(own, |open| open - 1),
        ),
        case(
            "127 open at once, ended from the middle",
            all_open(own, |open| open / 2),
        ),
        case(
            "127 open at once, all in turn",
            weave::weave(
                Writer::edition_2(0),
                &writers_and_readers(own),
                weave::in_turn(MAX_TRANSACTIONS),
            ),
        ),
        case(
            "127 open at once, sessions equal modulo 256",
            weave::weave(
                Writer::edition_2(0),
                &writers_and_readers(|t| 256 * t + 7),
                weave::in_turn(MAX_TRANSACTIONS),
            ),
        ),
        case(
            "127 of one session in edition 2",
            weave::weave(
                Writer::edition_2(u32::MAX - 100),
                &writers_and_readers(|_| 65_535),
                weave::in_turn(MAX_TRANSACTIONS),
            ),
        ),
    ]
}

/// 127 transactions without operations, opened in sessions 1 to 127; those from
/// `closed` on are still open.
fn opened(closed: u16) -> Writer {
    let mut writer = Writer::edition_2(0);
    for session in 1..=MAX_TRANSACTIONS as u16 {
        writer.open(session);
    }
    for session in 1..closed {
        writer.close_in(session, 1);
    }
    writer
}

/// Two open transactions, in sessions 1 and 2, that write by turns: the values
/// from 1 to `count` to key 1.
fn writes_by_turns(count: u64) -> Writer {
    let mut writer = Writer::edition_2(0);
    writer.open(1);
    writer.open(2);
    for value in 1..=count {
        writer.write_in(1 + (value % 2) as u16, 1, value);
    }
    writer
}

/// Both limits at once: all transactions are open, and each writes eight times or
/// nine, in turn.
fn full_in_turn() -> Vec<u8> {
    let mut wholes = writers_and_readers(|t| t);
    for (t, whole) in (1..).zip(&mut wholes) {
        let share = MAX_OPERATIONS / MAX_TRANSACTIONS;
        let extra = usize::from(t <= MAX_OPERATIONS % MAX_TRANSACTIONS);
        let write = |value| Access::write(t as u32, value);
        whole.operations = (1..=(share + extra) as u64).map(write).collect();
    }
    let turns = weave::in_turn(MAX_TRANSACTIONS);
    weave::weave(Writer::edition_2(0), &wholes, turns)
}

/// Transactions, operations, bytes, serials.
pub fn limits() -> Vec<Case> {
    let most = MAX_OPERATIONS as u64;
    let mut cases = Vec::new();
    let mut full = writes_by_turns(most);
    full.close_in(2, 1);
    full.close_in(1, 1);
    cases.push(accepted(
        "1,024 operations by turns",
        full.end(),
        &counting(2),
    ));

    cases.push(accepted(
        "127 transactions and 1,024 operations in turn",
        full_in_turn(),
        &counting(MAX_TRANSACTIONS),
    ));
    let mut too_long = begun(EDITION, &[3, 0]);
    too_long.resize(MAX_BYTES + 1, 0);
    cases.push(refused(
        "32,769 bytes of edition 3: 2 before 8",
        too_long,
        2,
        MAX_BYTES,
    ));

    // The last operation reads the first of the other, which wrote again.
    let mut last = writes_by_turns(most - 1);
    last.read_in(1, 1, 1);
    last.close_in(2, 1);
    last.close_in(1, 1);
    cases.push(Case {
        name: "the 1,024th operation by turns",
        bytes: last.end(),
        output: same("rejected 1 0\nread 1 1024 5 1"),
    });

    for (name, kind) in [
        ("1,025 operations by turns, write", WRITE),
        ("1,025 operations by turns, read", READ),
    ] {
        let mut above = writes_by_turns(most);
        let place = above.bytes.len();
        match kind {
            WRITE => above.write_in(1, 2, 1),
            _ => above.read_in(1, 2, 0),
        }
        above.close_in(1, 1);
        above.close_in(2, 1);
        cases.push(refused(name, above.end(), 9, place));
    }

    let mut wrap = Writer::edition_2(u32::MAX);
    wrap.open(1);
    wrap.close_in(1, 1);
    let wrapped = wrap.end();
    cases.push(accepted(
        "serial 4,294,967,295 then 0 in edition 2",
        wrapped.clone(),
        "0 1",
    ));
    let mut beside_wrap = wrapped;
    beside_wrap[14] = 1;
    cases.push(refused(
        "serial 4,294,967,295 then 1 in edition 2",
        beside_wrap,
        5,
        10,
    ));
    cases
}

/// A trace that begins with this record and goes on as edition 2.
fn begun(kind: u16, payload: &[u8]) -> Vec<u8> {
    let mut writer = Writer::new(7);
    writer.record(kind, payload);
    writer.open(1);
    writer.end()
}

/// The kind 16 record at its place.
pub fn the_edition_record() -> Vec<Case> {
    let alone = Writer::edition_2(0).bytes;
    let cut_to = |size: usize| alone[..size].to_vec();
    let below_6 = |length: u8| [&[length, 0], &alone[2..]].concat();
    let mut cases = vec![
        refused("edition 2 alone", alone.clone(), 3, 10),
        refused("edition 2 and a byte", [&alone[..], &[8]].concat(), 3, 10),
        refused("edition record cut by a byte", cut_to(9), 3, 0),
        refused("edition record without its payload", cut_to(8), 3, 0),
        refused("edition record's length alone", cut_to(2), 3, 0),
        // Neighbours in the order of checks, both broken.
        refused("edition record of length 5", below_6(5), 4, 0),
        refused(
            "edition record of length 9, cut: 3 before 4",
            below_6(9),
            3,
            0,
        ),
        refused("edition record of length 6", begun(EDITION, &[]), 4, 0),
        refused("edition record of length 7", begun(EDITION, &[2]), 4, 0),
        refused(
            "edition record of length 9",
            begun(EDITION, &[2, 0, 0]),
            4,
            0,
        ),
        refused(
            "edition 3 of length 9: 4 before 8",
            begun(EDITION, &[3, 0, 0]),
            4,
            0,
        ),
        refused("kind 17 first", begun(17, &[2, 0]), 6, 0),
        refused("kind 15 first", begun(15, &[2, 0]), 6, 0),
        refused(
            "kind 272, which is not 16, first",
            begun(272, &[2, 0]),
            6,
            0,
        ),
        // Kind 6 in the first record is a note, and the trace is edition 1.
        refused(
            "a note, then edition 2",
            {
                let mut writer = Writer::new(0);
                writer.note(b"");
                writer.edition(2);
                writer.end()
            },
            7,
            8,
        ),
    ];
    for (name, number) in [
        ("edition 0", 0_u16),
        ("edition 1", 1),
        ("edition 3", 3),
        ("edition 258", 0x0102),
        ("edition 512", 0x0200),
        ("edition 65,535", 0xffff),
    ] {
        cases.push(refused(name, begun(EDITION, &number.to_le_bytes()), 8, 0));
    }
    cases
}

/// A trace that begins lawfully, then has a record as told, then goes on; it is
/// refused at the record.
pub(crate) fn after(
    name: &'static str,
    start: Writer,
    kind: u16,
    payload: &[u8],
    number: u8,
) -> Case {
    let place = start.bytes.len();
    let mut writer = start;
    writer.record(kind, payload);
    writer.open(9);
    refused(name, writer.end(), number, place)
}

/// The same with another serial than the one that follows.
pub(crate) fn after_unnumbered(
    name: &'static str,
    start: Writer,
    kind: u16,
    payload: &[u8],
) -> Case {
    let place = start.bytes.len();
    let mut case = after(name, start, kind, payload, 5);
    case.bytes[place + 4] ^= 1;
    case
}

/// "7, in either edition, for a kind 16 that isn't first".
pub fn edition_record_in_edition_1() -> Vec<Case> {
    let outside = || {
        let mut writer = Writer::new(0);
        writer.open(1);
        writer.close(1);
        writer
    };
    let inside = || {
        let mut writer = Writer::new(0);
        writer.open(1);
        writer
    };
    let cut_and_unnumbered = {
        let place = outside().bytes.len();
        let name = "late edition cut, with a wrong serial: 3 before 5";
        let mut case = after_unnumbered(name, outside(), EDITION, &[2, 0]);
        case.bytes.truncate(place + 9);
        refused(name, case.bytes, 3, place)
    };
    vec![
        cut_and_unnumbered,
        after("late edition 2", outside(), EDITION, &[2, 0], 7),
        after("late edition 2, inside", inside(), EDITION, &[2, 0], 7),
        after("late edition 3: 7 before 8", outside(), EDITION, &[3, 0], 7),
        after(
            "late edition of length 9: 4 before 7",
            outside(),
            EDITION,
            &[2, 0, 0],
            4,
        ),
        after(
            "late edition of length 7: 4 before 7",
            inside(),
            EDITION,
            &[2],
            4,
        ),
        after_unnumbered(
            "late edition with a wrong serial: 5 before 7",
            outside(),
            EDITION,
            &[2, 0],
        ),
        after_unnumbered(
            "late edition with a wrong serial, length 9: 5 before 4",
            outside(),
            EDITION,
            &[2, 0, 0],
        ),
        // The layout of edition 2 is no other edition's.
        after(
            "a read with a session in edition 1",
            inside(),
            READ,
            &[0; 14],
            4,
        ),
        after(
            "a close with a session in edition 1",
            inside(),
            CLOSE,
            &[1, 0, 1],
            4,
        ),
        after(
            "two opens in edition 1, other sessions",
            inside(),
            OPEN,
            &[2, 0],
            7,
        ),
    ]
}

/// Bytes too few or too many in edition 2.
pub fn framing() -> Vec<Case> {
    let whole = || {
        let mut writer = Writer::edition_2(0);
        writer.open(1);
        writer.write_in(1, 1, 5);
        writer.close_in(1, 1);
        writer
    };
    // The records of that trace begin at 0, 10, 20, 42 and 53; it ends at 63.
    let cut_to = |size: usize| whole().end()[..size].to_vec();
    vec![
        refused("no end record in edition 2", cut_to(53), 3, 53),
        refused("no close, no end in edition 2", cut_to(42), 3, 42),
        refused("edition 2, close cut by a byte", cut_to(52), 3, 42),
        refused("edition 2, write cut by a byte", cut_to(41), 3, 20),
        refused("edition 2, end cut by a byte", cut_to(62), 3, 53),
        refused(
            "edition 2, a byte after the end",
            [whole().end().as_slice(), &[0]].concat(),
            11,
            63,
        ),
        refused(
            "edition 2 again after the end",
            [whole().end().as_slice(), &Writer::edition_2(5).bytes].concat(),
            11,
            63,
        ),
        refused(
            "edition 2, end number too small",
            whole().end_with(0),
            8,
            53,
        ),
        refused(
            "edition 2, end number too great",
            whole().end_with(2),
            8,
            53,
        ),
        refused(
            "edition 2, end number off by 256",
            whole().end_with(257),
            8,
            53,
        ),
    ]
}

/// The payload of a read or a write in edition 2.
pub(crate) fn operation(session: u16, key: u32, value: u64) -> Vec<u8> {
    let mut payload = session.to_le_bytes().to_vec();
    payload.extend(key.to_le_bytes());
    payload.extend(value.to_le_bytes());
    payload
}

/// Records of edition 2 with one or more things wrong.
pub fn order_of_checks() -> Vec<Case> {
    // Sessions 1 and 2 are open, and key 1 has the value 1.
    let inside = || writes_by_turns(1);
    let full = || writes_by_turns(MAX_OPERATIONS as u64);
    // Session 1 has closed, 2 is open.
    let half = |start: Writer| {
        let mut writer = start;
        writer.close_in(1, 1);
        writer
    };
    // No session is open.
    let outside = || {
        let mut writer = half(inside());
        writer.close_in(2, 1);
        writer
    };
    let mut cases = unknown_kinds(inside, outside);
    cases.extend(wrong_lengths(inside, outside));
    let write = operation;
    cases.extend([
        // 7, by session.
        after("open in a session with one", inside(), OPEN, &[2, 0], 7),
        after(
            "open in the first session again",
            inside(),
            OPEN,
            &[1, 0],
            7,
        ),
        after(
            "read of a session never opened",
            inside(),
            READ,
            &write(3, 1, 1),
            7,
        ),
        after(
            "write of a session never opened",
            inside(),
            WRITE,
            &write(3, 1, 5),
            7,
        ),
        after(
            "close of a session never opened",
            inside(),
            CLOSE,
            &[3, 0, 1],
            7,
        ),
        after(
            "read of a session off by 256",
            inside(),
            READ,
            &write(257, 1, 1),
            7,
        ),
        after(
            "write of a session off by 128",
            inside(),
            WRITE,
            &write(129, 1, 5),
            7,
        ),
        after(
            "close of a session off by 256",
            inside(),
            CLOSE,
            &[1, 1, 1],
            7,
        ),
        after(
            "read of a closed session",
            half(inside()),
            READ,
            &write(1, 1, 1),
            7,
        ),
        after(
            "write of a closed session",
            half(inside()),
            WRITE,
            &write(1, 1, 5),
            7,
        ),
        after(
            "close of a closed session",
            half(inside()),
            CLOSE,
            &[1, 0, 1],
            7,
        ),
        after(
            "read with no session open",
            outside(),
            READ,
            &write(2, 1, 1),
            7,
        ),
        after(
            "close with no session open",
            outside(),
            CLOSE,
            &[2, 0, 1],
            7,
        ),
        after("end with two open", inside(), END, &[2, 0], 7),
        after(
            "end with the last opened open",
            half(inside()),
            END,
            &[2, 0],
            7,
        ),
        after(
            "end with the first opened open",
            {
                let mut writer = inside();
                writer.close_in(2, 1);
                writer
            },
            END,
            &[2, 0],
            7,
        ),
        after("edition 2 twice", Writer::edition_2(0), EDITION, &[2, 0], 7),
        after("edition 2 again, inside", inside(), EDITION, &[2, 0], 7),
        after("edition 2 again, outside", outside(), EDITION, &[2, 0], 7),
        // 7 before 8.
        after(
            "edition 3 behind edition 2: 7 before 8",
            outside(),
            EDITION,
            &[3, 0],
            7,
        ),
        after(
            "end with one open and a wrong number: 7 before 8",
            half(inside()),
            END,
            &[1, 0],
            7,
        ),
        after(
            "write of 0 of a closed session: 7 before 8",
            half(inside()),
            WRITE,
            &write(1, 1, 0),
            7,
        ),
        after(
            "status 3 of a closed session: 7 before 8",
            half(inside()),
            CLOSE,
            &[1, 0, 3],
            7,
        ),
        // 8.
        after(
            "write of 0 in edition 2",
            inside(),
            WRITE,
            &write(2, 1, 0),
            8,
        ),
        after("status 3 in edition 2", inside(), CLOSE, &[2, 0, 3], 8),
        after("status 255 in edition 2", inside(), CLOSE, &[1, 0, 255], 8),
        // 8 before 9, 9 before 10, and 7 before both.
        after(
            "1,025th by turns writes 0: 8 before 9",
            full(),
            WRITE,
            &write(2, 1, 0),
            8,
        ),
        after(
            "1,025th by turns repeats: 9 before 10",
            full(),
            WRITE,
            &write(2, 1, 5),
            9,
        ),
        after(
            "1,025th of a closed session: 7 before 9",
            half(full()),
            WRITE,
            &write(1, 1, 5),
            7,
        ),
        after(
            "128th open, in a session of its own",
            opened(1),
            OPEN,
            &[128, 0],
            9,
        ),
        after("128th open, all closed", opened(128), OPEN, &[1, 0], 9),
        after(
            "128th open in a session with one: 7 before 9",
            opened(1),
            OPEN,
            &[127, 0],
            7,
        ),
        after(
            "128th open in the session that closed",
            opened(2),
            OPEN,
            &[1, 0],
            9,
        ),
        // 10.
        after(
            "write repeated in its session",
            inside(),
            WRITE,
            &write(2, 1, 1),
            10,
        ),
        after(
            "write repeated by another session",
            inside(),
            WRITE,
            &write(1, 1, 1),
            10,
        ),
        after(
            "write of an aborted one repeated while another is open",
            {
                let mut writer = inside();
                writer.close_in(2, 0);
                writer.open(2);
                writer
            },
            WRITE,
            &write(1, 1, 1),
            10,
        ),
        after(
            "write of 0 that repeats none: 8 before 10",
            inside(),
            WRITE,
            &write(1, 1, 0),
            8,
        ),
    ]);
    cases
}

/// Rows 5 and 6, and 6 before any length.
fn unknown_kinds(inside: impl Fn() -> Writer, outside: impl Fn() -> Writer) -> Vec<Case> {
    vec![
        after("note in edition 2", outside(), NOTE, b"text", 6),
        after("note in edition 2, inside", inside(), NOTE, b"", 6),
        after(
            "note of 65 bytes in edition 2: 6 before 4",
            inside(),
            NOTE,
            &[0; 65],
            6,
        ),
        after(
            "note behind the edition record",
            Writer::edition_2(0),
            NOTE,
            b"",
            6,
        ),
        after("kind 0 in edition 2", inside(), 0, &[], 6),
        after("kind 7 in edition 2", inside(), 7, &[1, 0], 6),
        after("kind 17 in edition 2", outside(), 17, &[2, 0], 6),
        after("kind 272 in edition 2", outside(), 272, &[2, 0], 6),
        after_unnumbered(
            "note with a wrong serial in edition 2: 5 before 6",
            outside(),
            NOTE,
            b"",
        ),
        after_unnumbered(
            "edition 2 again with a wrong serial: 5 before 7",
            outside(),
            EDITION,
            &[2, 0],
        ),
    ]
}

/// Row 4, and 4 before 7.
fn wrong_lengths(inside: impl Fn() -> Writer, outside: impl Fn() -> Writer) -> Vec<Case> {
    vec![
        after(
            "read of length 18 in edition 2",
            inside(),
            READ,
            &[1; 12],
            4,
        ),
        after(
            "write of length 18 in edition 2",
            inside(),
            WRITE,
            &[1; 12],
            4,
        ),
        after(
            "write of length 19 in edition 2",
            inside(),
            WRITE,
            &[1; 13],
            4,
        ),
        after(
            "read of length 21 in edition 2",
            inside(),
            READ,
            &[1; 15],
            4,
        ),
        after("close of length 7 in edition 2", inside(), CLOSE, &[1], 4),
        after(
            "close of length 8 in edition 2",
            inside(),
            CLOSE,
            &[1, 0],
            4,
        ),
        after(
            "close of length 10 in edition 2",
            inside(),
            CLOSE,
            &[1, 0, 1, 0],
            4,
        ),
        after(
            "open of length 9 in edition 2",
            outside(),
            OPEN,
            &[1, 0, 0],
            4,
        ),
        after("end of length 7 in edition 2", outside(), END, &[2], 4),
        after(
            "edition 2 again of length 9: 4 before 7",
            inside(),
            EDITION,
            &[2, 0, 0],
            4,
        ),
        after(
            "read of length 18, no session open: 4 before 7",
            outside(),
            READ,
            &[9; 12],
            4,
        ),
        after(
            "open of length 7 in a session with one: 4 before 7",
            inside(),
            OPEN,
            &[1],
            4,
        ),
        after(
            "end of length 9 with one open: 4 before 7",
            inside(),
            END,
            &[2, 0, 0],
            4,
        ),
    ]
}
