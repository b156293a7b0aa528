//! Traces whose answers are known: those of the specification, worked there by
//! hand, its edges, unanswered commits, the writes of unclean reads, those whose
//! keys share a bucket, those of edition 2, those in which it matters who knows whom,
//! those with notes and those with lists, each with what `judge` has to print.

use crate::bucket_cases;
use crate::encode::Writer;
use crate::list_cases;
use crate::note_cases;
use crate::overlap_cases;
use crate::text;
use crate::trace::{Status, CLOSE, END, MAX_BYTES, MAX_TRANSACTIONS, NOTE, OPEN, WRITE};
use crate::vector_cases;

/// A trace with the output that it must have.
pub struct Case {
    pub name: &'static str,
    pub bytes: Vec<u8>,
    pub output: String,
}

/// All of them.
pub fn all() -> Vec<Case> {
    let mut cases = without_lists();
    cases.extend(list_cases::all().into_iter().map(|known| known.case));
    cases
}

/// All but those with lists.
pub fn without_lists() -> Vec<Case> {
    let mut cases = document();
    cases.extend(fine_points());
    cases.extend(unanswered());
    cases.extend(unanswered_pairs());
    cases.extend(unanswered_chains());
    cases.extend(which_write());
    cases.extend(which_write_unanswered());
    cases.extend(which_write_by_number());
    cases.extend(many_findings());
    cases.extend(limits());
    cases.extend(framing());
    cases.extend(order_of_checks());
    cases.extend(bucket_cases::all());
    cases.extend(overlap_cases::all());
    cases.extend(vector_cases::all());
    cases.extend(note_cases::all().into_iter().map(|known| known.case));
    cases
}

pub(crate) fn written(name: &'static str, notation: &str, output: String) -> Case {
    let bytes = text::encode(notation.as_bytes()).unwrap_or_else(|e| panic!("{name}: {e}"));
    Case {
        name,
        bytes,
        output,
    }
}

/// A trace that all three levels accept with this order.
pub(crate) fn accepted(name: &'static str, bytes: Vec<u8>, order: &str) -> Case {
    Case {
        name,
        bytes,
        output: same(&format!("accepted {order}")),
    }
}

pub(crate) fn refused(name: &'static str, bytes: Vec<u8>, number: u8, place: usize) -> Case {
    Case {
        name,
        bytes,
        output: format!("refused {number} {place}\n"),
    }
}

/// The same block for all three levels, given without the level's name.
pub(crate) fn same(block: &str) -> String {
    ["rc ", "ra ", "tcc "]
        .map(|level| format!("{level}{block}\n"))
        .concat()
}

/// The P table and cases 15 and 16.
pub fn document() -> Vec<Case> {
    let two_pairs = "rejected 0 2\npair 1 2 8\npair 2 1 8\n";
    let one_then_pairs =
        |order: &str, pairs: &str| format!("rc accepted {order}\nra {pairs}tcc {pairs}");
    vec![
        written("P1", "", same("accepted 0")),
        refused("P2", vec![], 3, 0),
        written("P3", "T1 r1=5", same("rejected 1 0\nread 1 1 1 0")),
        written("P4", "T1 r1=0", same("accepted 0 1")),
        written(
            "P5",
            "T1 w1=5 aborted; T2 r1=5",
            same("rejected 1 0\nread 2 2 2 1"),
        ),
        written("P6", "T1 r1=5 w1=5", same("rejected 1 0\nread 1 1 3 2")),
        written(
            "P7",
            "T1 w1=5 w1=6 r1=5",
            same("rejected 1 0\nread 1 3 4 1"),
        ),
        written(
            "P8",
            "T1 w1=5; T2 w1=6 r1=5",
            same("rejected 1 0\nread 2 3 5 1"),
        ),
        written(
            "P9",
            "T1 w1=5 w1=6; T2 r1=5",
            same("rejected 1 0\nread 2 3 6 1"),
        ),
        written(
            "P10",
            "T1 w1=5; T2 w1=6; T3 r1=5 r1=6",
            one_then_pairs("0 1 2 3", two_pairs),
        ),
        written(
            "P11",
            "T1 w1=5; T2 w1=6; T3 r1=5 r1=6 r1=5",
            same("rejected 0 2\npair 1 2 8\npair 2 1 8"),
        ),
        written(
            "P12",
            "T1 w1=5; T2 r1=5 w2=7; T3 r2=7 r1=0",
            "rc accepted 0 1 2 3\nra accepted 0 1 2 3\n\
             tcc rejected 0 2\npair 0 1 9\npair 1 0 8\n"
                .into(),
        ),
        written(
            "P13",
            "T1 r2=7 w1=5; T2 r1=5 w2=7",
            same("rejected 0 2\npair 1 2 4\npair 2 1 4"),
        ),
        written(
            "P14",
            "T1 s1 w1=5; T2 s1 r1=0",
            one_then_pairs("0 1 2", "rejected 0 2\npair 0 1 1\npair 1 0 8\n"),
        ),
        written(
            "case 15",
            "T1 r1=0 w1=5; T2 r1=0 w1=6",
            same("accepted 0 1 2"),
        ),
        written(
            "case 16",
            "T1 w1=11 w2=21; T2 w1=12 w2=22; T3 r1=12 r2=21",
            one_then_pairs("0 2 1 3", two_pairs),
        ),
    ]
}

/// Answers that turn on a single word of the specification, worked by hand.
pub fn fine_points() -> Vec<Case> {
    let rc_and_others = |rc: &str, others: &str| format!("rc {rc}ra {others}tcc {others}");
    vec![
        written(
            "rival two back in a session",
            "T1 s1 w1=5; T2 s1; T3 s1 r1=0",
            rc_and_others(
                "accepted 0 1 2 3\n",
                "rejected 0 2\npair 0 1 1\npair 1 0 8\n",
            ),
        ),
        written(
            "aborted: no rival, no pair, no finding",
            "T1 s1 w1=5 aborted; T2 s1 r1=0; T3 s1 r9=9 aborted",
            same("accepted 0 2"),
        ),
        written(
            "pairs beside a finding",
            "T1 r2=7 w1=5 r3=3; T2 r1=5 w2=7",
            same("rejected 1 2\nread 1 3 1 0\npair 1 2 4\npair 2 1 4"),
        ),
        written(
            "sums of reasons",
            "T1 s1 w1=1 r3=3; T2 s1 r1=1 w1=2 w3=3; T3 r1=2 r1=1",
            rc_and_others(
                "rejected 0 2\npair 1 2 6\npair 2 1 12\n",
                "rejected 0 2\npair 1 2 14\npair 2 1 12\n",
            ),
        ),
        written(
            "0 read after another value of the key",
            "T1 w1=5; T2 r1=5 r1=0",
            rc_and_others(
                "rejected 0 2\npair 0 1 1\npair 1 0 8\n",
                "rejected 0 2\npair 0 1 9\npair 1 0 8\n",
            ),
        ),
        written(
            "0 as rival at level 1",
            "T1 w1=5; T2 r1=0 r1=5 r1=0",
            same("rejected 0 2\npair 0 1 9\npair 1 0 8"),
        ),
        written(
            "internal reads",
            "T1 w1=5 r1=5 w1=6 r1=6",
            same("accepted 0 1"),
        ),
        written(
            "kind 5 by value 0",
            "T1 w1=5 r1=0",
            same("rejected 1 0\nread 1 2 5 0"),
        ),
        written(
            "kind 5 before 6",
            "T1 w1=5 w1=6; T2 w1=7 r1=5",
            same("rejected 1 0\nread 2 4 5 1"),
        ),
        written(
            "kind 2 before 5",
            "T1 w1=5 aborted; T2 w1=6 r1=5",
            same("rejected 1 0\nread 2 3 2 1"),
        ),
    ]
}

/// Which unanswered commits count, worked by hand. One that does not count
/// behaves as an aborted one, so the answers without it tell the two apart.
pub fn unanswered() -> Vec<Case> {
    vec![
        written(
            "unanswered, read",
            "T1 w1=5 unanswered; T2 r1=5",
            same("accepted 0 1 2"),
        ),
        written(
            "unanswered, read by an earlier one",
            "T1 r1=5; T2 w1=5 unanswered",
            same("accepted 0 2 1"),
        ),
        written(
            "unanswered, its key read but not its value",
            "T1 w1=5 unanswered; T2 r1=0",
            same("accepted 0 2"),
        ),
        written(
            "unanswered, its value read of another key",
            "T1 w1=5 unanswered; T2 r2=5",
            same("rejected 1 0\nread 2 2 1 0"),
        ),
        written("unanswered alone", "T1 unanswered", same("accepted 0")),
        written(
            "unanswered, read only by itself",
            "T1 w1=5 r1=5 unanswered; T2",
            same("accepted 0 2"),
        ),
        written(
            "unanswered, read only by itself, before its write",
            "T1 r1=5 w1=5 unanswered; T2",
            same("accepted 0 2"),
        ),
        written(
            "unanswered, read by an aborted one",
            "T1 w1=5 unanswered; T2 r1=5 aborted; T3 r1=0",
            same("accepted 0 3"),
        ),
        written(
            "unanswered, read by an aborted one that is read",
            "T1 w1=5 unanswered; T2 r1=5 w2=6 aborted; T3 r2=6",
            same("rejected 1 0\nread 3 4 2 3"),
        ),
        written(
            "unanswered, read by an unanswered one that is read",
            "T1 w1=5 unanswered; T2 r1=5 w2=6 unanswered; T3 r2=6",
            same("accepted 0 1 2 3"),
        ),
        written(
            "unanswered, read by an unanswered one that is not read",
            "T1 w1=5 unanswered; T2 r1=5 w2=6 unanswered; T3",
            same("accepted 0 3"),
        ),
        written(
            "unanswered, read by an unanswered one that only itself reads",
            "T1 w1=5 unanswered; T2 r1=5 w2=6 r2=6 unanswered; T3",
            same("accepted 0 3"),
        ),
        written(
            "two unanswered ones that only read each other",
            "T1 r2=7 w1=5 unanswered; T2 r1=5 w2=7 unanswered",
            same("accepted 0"),
        ),
        written(
            "two unanswered ones that read each other, and an aborted reader",
            "T1 r2=7 w1=5 unanswered; T2 r1=5 w2=7 unanswered; T3 r1=5 aborted; T4",
            same("accepted 0 4"),
        ),
        written(
            "two unanswered ones that read each other, one of them read",
            "T1 r2=7 w1=5 unanswered; T2 r1=5 w2=7 unanswered; T3 r1=5",
            same("rejected 0 2\npair 1 2 4\npair 2 1 4"),
        ),
        written(
            "unanswered, its intermediate value read",
            "T1 w1=5 w1=6 unanswered; T2 r1=5",
            same("rejected 1 0\nread 2 3 6 1"),
        ),
        written(
            "unanswered, read as not my own",
            "T1 w1=5 unanswered; T2 w1=6 r1=5",
            same("rejected 1 0\nread 2 3 5 1"),
        ),
        written(
            "unanswered, an aborted one's value read",
            "T1 w1=5 aborted; T2 r1=5 w2=6 unanswered; T3 r2=6",
            same("rejected 1 0\nread 2 2 2 1"),
        ),
        written(
            "unanswered, counted: its own reads are judged",
            "T1 r9=9 r1=5 w1=5 w2=6 unanswered; T2 r2=6",
            same("rejected 2 0\nread 1 1 1 0\nread 1 2 3 3"),
        ),
        written(
            "unanswered, not counted: its own reads are not judged",
            "T1 r9=9 r1=5 w1=5 w2=6 unanswered; T2 r2=0",
            same("accepted 0 2"),
        ),
    ]
}

/// The pairs of unanswered commits, worked by hand: those that count give all,
/// the others none.
pub fn unanswered_pairs() -> Vec<Case> {
    let rc_and_others = |rc: &str, others: &str| format!("rc {rc}\nra {others}\ntcc {others}\n");
    vec![
        written(
            "P14 with an unanswered rival that does not count",
            "T1 s1 w1=5 unanswered; T2 s1 r1=0",
            same("accepted 0 2"),
        ),
        // T3 has 0 before it and reads from T1, so 0 is a rival of T1 too.
        written(
            "P14 with an unanswered rival that counts",
            "T1 s1 w1=5 w2=6 unanswered; T2 s1 r1=0; T3 r2=6",
            rc_and_others("accepted 0 1 2 3", "rejected 0 2\npair 0 1 9\npair 1 0 8"),
        ),
        // T2's read is unclean and gives no pair, but T1 counts by it.
        written(
            "unanswered, counted by an intermediate read",
            "T1 s1 w1=5 w1=6 w2=7 unanswered; T2 r1=5; T3 s1 r2=0",
            rc_and_others(
                "rejected 1 0\nread 2 4 6 1",
                "rejected 1 2\nread 2 4 6 1\npair 0 1 1\npair 1 0 8",
            ),
        ),
        written(
            "unanswered, counted by a read that is not my own",
            "T1 s1 w1=5 w2=7 unanswered; T2 w1=6 r1=5; T3 s1 r2=0",
            rc_and_others(
                "rejected 1 0\nread 2 4 5 1",
                "rejected 1 2\nread 2 4 5 1\npair 0 1 1\npair 1 0 8",
            ),
        ),
        // T2 counts by T3's unclean read, and T1 by T2.
        written(
            "unanswered, counted by way of an intermediate read",
            "T1 s1 w1=5 w2=7 unanswered; T2 r1=5 w3=8 w3=9 unanswered; T3 r3=8; T4 s1 r2=0",
            rc_and_others(
                "rejected 1 0\nread 3 6 6 4",
                "rejected 1 2\nread 3 6 6 4\npair 0 1 9\npair 1 0 8",
            ),
        ),
        written(
            "P10 with unanswered writers",
            "T1 w1=5 unanswered; T2 w1=6 unanswered; T3 r1=5 r1=6",
            rc_and_others("accepted 0 1 2 3", "rejected 0 2\npair 1 2 8\npair 2 1 8"),
        ),
        written(
            "P10 with an unanswered reader",
            "T1 w1=5; T2 w1=6; T3 r1=5 r1=6 unanswered",
            same("accepted 0 1 2"),
        ),
        written(
            "P12 with an unanswered one between",
            "T1 w1=5; T2 r1=5 w2=7 unanswered; T3 r2=7 r1=0",
            "rc accepted 0 1 2 3\nra accepted 0 1 2 3\n\
             tcc rejected 0 2\npair 0 1 9\npair 1 0 8\n"
                .into(),
        ),
        // T2 is no rival, and T1 is before T3 all the same.
        written(
            "an unanswered one that does not count, inside a session",
            "T1 s1 w1=5; T2 s1 w1=6 unanswered; T3 s1 r1=0",
            rc_and_others("accepted 0 1 3", "rejected 0 2\npair 0 1 1\npair 1 0 8"),
        ),
    ]
}

/// A transaction of a chain: its session is its number, its value too.
fn link(writer: &mut Writer, number: u16, reads: Option<u16>, writes: bool, status: Status) {
    writer.open(number);
    if let Some(value) = reads {
        writer.read(1, value.into());
    }
    if writes {
        writer.write(1, number.into());
    }
    writer.close(status as u8);
}

/// Unanswered ones of which each is read by the next; then the last reader.
fn each_read_by_next(unanswered: u16, last_reader: Status) -> Vec<u8> {
    let mut writer = Writer::new(0);
    link(&mut writer, 1, None, true, Status::Unanswered);
    for t in 2..=unanswered {
        link(&mut writer, t, Some(t - 1), true, Status::Unanswered);
    }
    let last = unanswered + 1;
    link(&mut writer, last, Some(unanswered), false, last_reader);
    writer.end()
}

/// The first reader; then unanswered ones of which each reads the next.
fn each_reads_next(unanswered: u16, first_reader: Status) -> Vec<u8> {
    let mut writer = Writer::new(0);
    link(&mut writer, 1, Some(2), false, first_reader);
    for t in 2..=unanswered {
        link(&mut writer, t, Some(t + 1), true, Status::Unanswered);
    }
    link(&mut writer, unanswered + 1, None, true, Status::Unanswered);
    writer.end()
}

/// Chains of unanswered ones, in both directions. All write the same key, and
/// each that leads to a reader comes before its source anyway.
pub fn unanswered_chains() -> Vec<Case> {
    let most = MAX_TRANSACTIONS as u16 - 1;
    let backwards: Vec<String> = (1..=MAX_TRANSACTIONS)
        .rev()
        .map(|n| n.to_string())
        .collect();
    let all = format!("accepted {}", counting(MAX_TRANSACTIONS));
    let all_backwards = format!("accepted 0 {}", backwards.join(" "));
    let chain = |name, bytes, block: &str| Case {
        name,
        bytes,
        output: same(block),
    };
    vec![
        written(
            "chain of unanswered ones, each read by the next",
            "T1 w1=1 unanswered; T2 r1=1 w1=2 unanswered; T3 r1=2 w1=3 unanswered; T4 r1=3",
            same("accepted 0 1 2 3 4"),
        ),
        written(
            "chain of unanswered ones, each reads the next",
            "T1 r1=2; T2 r1=3 w1=2 unanswered; T3 r1=4 w1=3 unanswered; T4 w1=4 unanswered",
            same("accepted 0 4 3 2 1"),
        ),
        written(
            "chain of unanswered ones with an aborted one in it",
            "T1 w1=1 unanswered; T2 r1=1 w1=2 aborted; T3 r1=2 w1=3 unanswered; T4 r1=3",
            same("rejected 1 0\nread 3 4 2 3"),
        ),
        chain(
            "chain of 126, each read by the next",
            each_read_by_next(most, Status::Committed),
            &all,
        ),
        chain(
            "chain of 126, each reads the next",
            each_reads_next(most, Status::Committed),
            &all_backwards,
        ),
        chain(
            "chain of 126, each read by the next, the last by an aborted one",
            each_read_by_next(most, Status::Aborted),
            "accepted 0",
        ),
        chain(
            "chain of 126, each reads the next, the first read by an aborted one",
            each_reads_next(most, Status::Aborted),
            "accepted 0",
        ),
        chain(
            "127 unanswered, each read by the next",
            each_read_by_next(most, Status::Unanswered),
            "accepted 0",
        ),
        chain(
            "127 unanswered, each reads the next",
            each_reads_next(most, Status::Unanswered),
            "accepted 0",
        ),
    ]
}

/// Which write an unclean value came from, kind by kind, worked by hand.
pub fn which_write() -> Vec<Case> {
    vec![
        written(
            "kind 1, key and value written, but not together",
            "T1 w1=5 w2=6; T2 r1=6 r2=5",
            same("rejected 2 0\nread 2 3 1 0\nread 2 4 1 0"),
        ),
        written(
            "kind 1 before and behind kind 2",
            "T1 w1=5 aborted; T2 r1=6 r1=5 r1=7",
            same("rejected 3 0\nread 2 2 1 0\nread 2 3 2 1\nread 2 4 1 0"),
        ),
        written(
            "kind 2, two writes before their reads",
            "T1 w9=1; T2 w1=5 w1=6 aborted; T3 r1=5 r1=6",
            same("rejected 2 0\nread 3 4 2 2\nread 3 5 2 3"),
        ),
        written(
            "kind 2, the write behind the read",
            "T1 r1=5 w2=1; T2 w3=1 w1=5 aborted",
            same("rejected 1 0\nread 1 1 2 4"),
        ),
        written(
            "kind 2, the value written to three keys",
            "T1 w2=5 w1=5 w3=5 aborted; T2 r1=5",
            same("rejected 1 0\nread 2 4 2 2"),
        ),
        // The values differ by 2 to the 32nd, the keys by 2 to the 24th.
        written(
            "kind 2, values that differ in their high halves",
            "T1 w1=4294967301 w1=5 aborted; T2 r1=5 r1=4294967301",
            same("rejected 2 0\nread 2 3 2 2\nread 2 4 2 1"),
        ),
        written(
            "kind 2, keys that differ in their high bytes",
            "T1 w16777217=5 w1=5 aborted; T2 r1=5 r16777217=5",
            same("rejected 2 0\nread 2 3 2 2\nread 2 4 2 1"),
        ),
        written(
            "kind 3, other writes between",
            "T1 w1=1; T2 r2=5 w1=2 w3=5 w2=5",
            same("rejected 1 0\nread 2 2 3 5"),
        ),
        written(
            "kind 3 twice from one write, behind an own one",
            "T1 w1=4; T2 w1=5 r1=6 r1=6 w1=6",
            same("rejected 2 0\nread 2 3 3 5\nread 2 4 3 5"),
        ),
        // The read of 2=5 is clean: key 2 is not written again.
        written(
            "kind 4 from two writes, one of them twice",
            "T1 w9=1; T2 w1=5 w2=5 w1=6 r2=5 r1=5 w1=7 r1=6 r1=5",
            same("rejected 3 0\nread 2 6 4 2\nread 2 8 4 4\nread 2 9 4 2"),
        ),
        written(
            "kinds 3 and 4 from one write",
            "T1 r1=5 w1=5 w1=6 r1=5",
            same("rejected 2 0\nread 1 1 3 2\nread 1 4 4 2"),
        ),
        written(
            "kind 5 with value 0 beside kind 5 with a written value",
            "T1 w1=5; T2 w1=6 r1=0 r1=5 r1=0",
            same("rejected 3 0\nread 2 3 5 0\nread 2 4 5 1\nread 2 5 5 0"),
        ),
        written(
            "kind 5, the writes behind the reads",
            "T1 w1=6 r1=5 r1=7; T2 w2=1 w1=5; T3 w1=7",
            same("rejected 2 0\nread 1 2 5 5\nread 1 3 5 6"),
        ),
        written(
            "kind 5, the last value and one before it",
            "T1 w1=5 w1=6; T2 w1=7 r1=6 r1=5",
            same("rejected 2 0\nread 2 4 5 2\nread 2 5 5 1"),
        ),
        written(
            "kind 6, the writes before their reads",
            "T1 w2=9 w1=5 w1=6 w1=7; T2 r1=6 r1=5",
            same("rejected 2 0\nread 2 5 6 3\nread 2 6 6 2"),
        ),
        written(
            "kind 6, the write behind the read",
            "T1 r1=5; T2 w1=5 w2=1 w1=6",
            same("rejected 1 0\nread 1 1 6 2"),
        ),
        written(
            "kinds 5 and 6 from one write",
            "T1 r1=5; T2 w1=5 w1=6; T3 w1=7 r1=5",
            same("rejected 2 0\nread 1 1 6 2\nread 3 5 5 2"),
        ),
        written(
            "one write, reads that are judged and reads that are not",
            "T1 w1=5 w1=6; T2 r1=5 aborted; T3 r1=5 unanswered; T4 r1=5; T5 r1=5",
            same("rejected 2 0\nread 4 5 6 1\nread 5 6 6 1"),
        ),
        written(
            "every kind in one transaction",
            "T1 w1=1 aborted; T2 w2=1 w2=2; \
             T3 r9=9 r1=1 r3=3 w3=3 w3=4 r3=3 r3=0 r2=1 r3=5; T4 w3=5",
            same(
                "rejected 7 0\nread 3 4 1 0\nread 3 5 2 1\nread 3 6 3 7\nread 3 9 4 7\n\
                 read 3 10 5 0\nread 3 11 6 2\nread 3 12 5 13",
            ),
        ),
        written(
            "writes told beside pairs",
            "T1 r2=7 w1=5 w1=6 r1=5; T2 r1=6 w2=7 r3=1 w3=1",
            same("rejected 2 2\nread 1 4 4 2\nread 2 7 3 8\npair 1 2 4\npair 2 1 4"),
        ),
        written(
            "notes are not numbered with operations",
            r#"note "a"; T1 note "b" w2=1 note "c" w1=5 aborted; note "d"; T2 note "e" r1=5"#,
            same("rejected 1 0\nread 2 3 2 2"),
        ),
    ]
}

/// The same with unanswered commits. The writer of a kind 2 is never one of
/// them: it would count by the very read that is judged.
pub fn which_write_unanswered() -> Vec<Case> {
    vec![
        written(
            "kind 6, an unanswered writer behind the read",
            "T1 r1=5; T2 w1=4 w1=5 w1=6 unanswered",
            same("rejected 1 0\nread 1 1 6 3"),
        ),
        written(
            "kind 5, an unanswered writer behind the read",
            "T1 w1=6 r1=5; T2 w2=1 w1=5 unanswered",
            same("rejected 1 0\nread 1 2 5 4"),
        ),
        written(
            "kinds 5 and 6 from one write of an unanswered one",
            "T1 w1=5 w1=6 unanswered; T2 w1=7 r1=5; T3 r1=5",
            same("rejected 2 0\nread 2 4 5 1\nread 3 5 6 1"),
        ),
        written(
            "kind 2 in an unanswered one that counts, the write behind the read",
            "T1 r1=5 w2=6 unanswered; T2 r2=6; T3 w3=1 w1=5 aborted",
            same("rejected 1 0\nread 1 1 2 5"),
        ),
        written(
            "kinds 3 and 4 in an unanswered one that counts",
            "T1 w9=1; T2 r1=5 w1=5 w1=6 r1=5 unanswered; T3 r1=6",
            same("rejected 2 0\nread 2 2 3 3\nread 2 5 4 3"),
        ),
        // T3 counts by T4, and T2 by T3's unclean read.
        written(
            "kind 6 in an unanswered one, from an unanswered one",
            "T1 w9=1; T2 w1=5 w1=6 unanswered; T3 r1=5 w2=7 unanswered; T4 r2=7",
            same("rejected 1 0\nread 3 4 6 2"),
        ),
        // T2 does not count, so its read is no reason for T1 to count either.
        written(
            "an intermediate value read by an unanswered one that does not count",
            "T1 w1=5 w1=6 unanswered; T2 r1=5 w2=7 unanswered; T3 r2=8",
            same("rejected 1 0\nread 3 5 1 0"),
        ),
    ]
}

/// An operation for each value, in the notation: `each("w1=", 5..=6)` has two.
pub(crate) fn each(operation: &str, values: impl Iterator<Item = u16>) -> String {
    values.map(|value| format!(" {operation}{value}")).collect()
}

/// Operation numbers of one byte and of two. A filler is that many writes which
/// nobody reads.
pub fn which_write_by_number() -> Vec<Case> {
    let filler = |count: u16| each("w9=", 1..=count);
    vec![
        written(
            "write 255, read 256",
            &format!("T1{}; T2 w1=5 aborted; T3 r1=5", filler(254)),
            same("rejected 1 0\nread 3 256 2 255"),
        ),
        written(
            "write 256, read 258, kind 6",
            &format!("T1{}; T2 w1=5 w1=6; T3 r1=5", filler(255)),
            same("rejected 1 0\nread 3 258 6 256"),
        ),
        written(
            "write 256, read 258, kind 4",
            &format!("T1{}; T2 w1=5 w1=6 r1=5", filler(255)),
            same("rejected 1 0\nread 2 258 4 256"),
        ),
        written(
            "read 255, write 256",
            &format!("T1{} r1=5 w1=5", filler(254)),
            same("rejected 1 0\nread 1 255 3 256"),
        ),
        written(
            "read 256, write 257",
            &format!("T1{} r1=5 w1=5", filler(255)),
            same("rejected 1 0\nread 1 256 3 257"),
        ),
        written(
            "read 2, write 256, and a read of 0",
            &format!("T1 w1=6 r1=5 r1=0; T2{} w1=5", filler(252)),
            same("rejected 2 0\nread 1 2 5 256\nread 1 3 5 0"),
        ),
        written(
            "read 1, write 257: the same low byte",
            &format!("T1 r1=5; T2{} w1=5 aborted", filler(255)),
            same("rejected 1 0\nread 1 1 2 257"),
        ),
        written(
            "read 1, write 512",
            &format!("T1 r1=5; T2{} w1=5 w1=6", filler(510)),
            same("rejected 1 0\nread 1 1 6 512"),
        ),
        written(
            "write 301 of an unanswered one, reads 304 and 305",
            &format!(
                "T1{}; T2 w1=5 w1=6 unanswered; T3 w1=7 r1=5; T4 r1=5",
                filler(300)
            ),
            same("rejected 2 0\nread 3 304 5 301\nread 4 305 6 301"),
        ),
        written(
            "read 1, write 1,024",
            &format!("T1 r1=5; T2{} w1=5 aborted", filler(1_022)),
            same("rejected 1 0\nread 1 1 2 1024"),
        ),
        written(
            "write 1, read 1,024",
            &format!("T1 w1=5 aborted; T2{}; T3 r1=5", filler(1_022)),
            same("rejected 1 0\nread 3 1024 2 1"),
        ),
        written(
            "read 1,023, write 1,024",
            &format!("T1{} r1=5 w1=5", filler(1_022)),
            same("rejected 1 0\nread 1 1023 3 1024"),
        ),
        written(
            "read 1,024 and no write",
            &format!("T1{} r1=5", filler(1_023)),
            same("rejected 1 0\nread 1 1024 1 0"),
        ),
    ]
}

/// As many findings as there can be, without writes and with one for each.
pub fn many_findings() -> Vec<Case> {
    let rejected = |count: u16, line: &dyn Fn(u16) -> String| {
        let lines: String = (1..=count).map(|n| format!("\n{}", line(n))).collect();
        same(&format!("rejected {count} 0{lines}"))
    };
    let writes = each("w1=", 1..=512);
    vec![
        written(
            "1,024 findings without a write",
            &format!("T1{}", each("r1=", 1..=1_024)),
            rejected(1_024, &|n| format!("read 1 {n} 1 0")),
        ),
        written(
            "512 reads, then their writes",
            &format!("T1{}{writes}", each("r1=", 1..=512)),
            rejected(512, &|n| format!("read 1 {n} 3 {}", 512 + n)),
        ),
        // The first read has the last write, and so on.
        written(
            "512 writes, then their reads backwards",
            &format!("T1{writes} aborted; T2{}", each("r1=", (1..=512).rev())),
            rejected(512, &|n| format!("read 2 {} 2 {}", 512 + n, 513 - n)),
        ),
    ]
}

/// The numbers from 0 to `last`, as in an order.
pub(crate) fn counting(last: usize) -> String {
    let numbers: Vec<String> = (0..=last).map(|n| n.to_string()).collect();
    numbers.join(" ")
}

/// `count` transactions without operations, each in a session of its own.
fn empty_transactions(count: u16) -> Writer {
    let mut writer = Writer::new(0);
    for session in 1..=count {
        writer.open(session);
        writer.close(1);
    }
    writer
}

/// One open transaction with `count` writes.
fn one_with_writes(count: u64) -> Writer {
    let mut writer = Writer::new(0);
    writer.open(1);
    for value in 1..=count {
        writer.write(1, value);
    }
    writer
}

/// A trace of notes alone that has exactly this many bytes, 82 or more.
fn notes_of_size(size: usize) -> Vec<u8> {
    const HEAD: usize = 8;
    const END_SIZE: usize = 10;
    let mut writer = Writer::new(0);
    loop {
        let left = size - END_SIZE - writer.bytes.len();
        // Never leave a rest too small for one more note.
        let note = match left {
            0 => return writer.end(),
            1..=72 => left,
            73..=80 => left - HEAD,
            _ => 72,
        };
        writer.note(&vec![b'n'; note - HEAD]);
    }
}

/// Transactions, operations, bytes, serials, notes; and the longest cycle.
pub fn limits() -> Vec<Case> {
    let mut cases = Vec::new();
    let mut accepted = |name, bytes, order: &str| cases.push(accepted(name, bytes, order));

    accepted(
        "127 transactions",
        empty_transactions(127).end(),
        &counting(127),
    );
    let mut thousand = one_with_writes(1_024);
    thousand.close(1);
    accepted("1,024 operations", thousand.end(), "0 1");
    let mut unanswered = one_with_writes(1_024);
    unanswered.close(2);
    accepted("1,024 operations, status 2", unanswered.end(), "0");
    accepted("32,768 bytes", notes_of_size(MAX_BYTES), "0");
    for (name, size) in [("note of 0 bytes", 0), ("note of 64 bytes", 64)] {
        let mut writer = Writer::new(0);
        writer.note(&vec![0xff; size]);
        writer.open(1);
        writer.note(&vec![0; size]);
        writer.close(1);
        writer.note(&vec![b'n'; size]);
        accepted(name, writer.end(), "0 1");
    }
    let mut wrap = Writer::new(u32::MAX);
    wrap.open(1);
    wrap.close(1);
    let wrapped = wrap.end();
    accepted("serial 4,294,967,295 then 0", wrapped.clone(), "0 1");

    let mut beside_wrap = wrapped;
    // The close record comes after 10 bytes, its serial 4 bytes later.
    beside_wrap[14] = 1;
    cases.push(refused("serial 4,294,967,295 then 1", beside_wrap, 5, 10));

    let mut above = empty_transactions(127);
    let place = above.bytes.len();
    above.open(128);
    above.close(1);
    cases.push(refused("128 transactions", above.end(), 9, place));

    for (name, is_write) in [
        ("1,025 operations, write", true),
        ("1,025 operations, read", false),
    ] {
        let mut above = one_with_writes(1_024);
        let place = above.bytes.len();
        if is_write {
            above.write(2, 1);
        } else {
            above.read(2, 0);
        }
        above.close(1);
        cases.push(refused(name, above.end(), 9, place));
    }

    let mut long_note = Writer::new(0);
    long_note.note(b"short");
    let place = long_note.bytes.len();
    long_note.note(&[b'n'; 65]);
    cases.push(refused("note of 65 bytes", long_note.end(), 4, place));

    cases.push(refused(
        "32,769 bytes",
        notes_of_size(MAX_BYTES + 1),
        2,
        MAX_BYTES,
    ));
    cases.push(refused(
        "33,000 bytes of nothing",
        vec![0; 33_000],
        2,
        MAX_BYTES,
    ));
    let mut byte_more = notes_of_size(MAX_BYTES);
    byte_more.push(0);
    cases.push(refused(
        "32,768 bytes and one more",
        byte_more,
        2,
        MAX_BYTES,
    ));

    // Each reads what the one before wrote, the first what the last wrote.
    let mut cycle = Writer::new(0);
    let mut pairs = String::new();
    for t in 1..=127 {
        let before = if t == 1 { 127 } else { t - 1 };
        let behind = if t == 127 { 1 } else { t + 1 };
        cycle.open(t as u16);
        cycle.read(before, 7);
        cycle.write(t, 7);
        cycle.close(1);
        pairs.push_str(&format!("\npair {t} {behind} 4"));
    }
    cases.push(Case {
        name: "cycle through 127 transactions",
        bytes: cycle.end(),
        output: same(&format!("rejected 0 127{pairs}")),
    });
    cases
}

/// Bytes too few, too many, or not framed.
pub fn framing() -> Vec<Case> {
    let lone_transaction = || {
        let mut writer = Writer::new(0);
        writer.open(1);
        writer.write(1, 5);
        writer.close(1);
        writer
    };
    let with_tail = |tail: &[u8]| [lone_transaction().end().as_slice(), tail].concat();
    let cut_to = |size: usize| lone_transaction().end()[..size].to_vec();
    // The records of that trace begin at 0, 10, 30 and 39; it ends at 49.
    vec![
        refused("one byte", vec![8], 3, 0),
        refused("length field alone", vec![8, 0], 3, 0),
        refused("length 5 and nothing behind it", vec![5, 0], 4, 0),
        refused(
            "length 65,535",
            vec![255, 255, 1, 0, 0, 0, 0, 0, 1, 0],
            3,
            0,
        ),
        refused("no end record", cut_to(39), 3, 39),
        refused("no close, no end", cut_to(30), 3, 30),
        refused("cut in a length field", cut_to(31), 3, 30),
        refused("cut behind a length field", cut_to(32), 3, 30),
        refused("end record cut by a byte", cut_to(48), 3, 39),
        refused("a byte after the end", with_tail(&[0]), 11, 49),
        refused(
            "a whole trace after the end",
            with_tail(&lone_transaction().end()),
            11,
            49,
        ),
        refused(
            "end number too small",
            lone_transaction().end_with(0),
            8,
            39,
        ),
        refused(
            "end number too great",
            lone_transaction().end_with(2),
            8,
            39,
        ),
        refused(
            "end number off by 256",
            lone_transaction().end_with(257),
            8,
            39,
        ),
    ]
}

/// Records with more than one thing wrong, and single faults of each row.
pub fn order_of_checks() -> Vec<Case> {
    let mut cases = Vec::new();
    // A trace that begins lawfully, then has a record as told, then goes on.
    let mut after = |name, start: Writer, kind: u16, payload: &[u8], number: u8| {
        let place = start.bytes.len();
        let mut writer = start;
        writer.record(kind, payload);
        writer.note(b"more");
        cases.push(refused(name, writer.end(), number, place));
    };
    let outside = || empty_transactions(1);
    let inside = || one_with_writes(1);
    let full = || one_with_writes(1_024);
    let payload = |key: u32, value: u64| {
        let mut bytes = key.to_le_bytes().to_vec();
        bytes.extend(value.to_le_bytes());
        bytes
    };

    after("kind 0", outside(), 0, &[], 6);
    after("kind 7", outside(), 7, &[1, 0], 6);
    after("kind 257, which is not 1", outside(), 257, &[1, 0], 6);
    after("unknown kind, long: 6 before 4", inside(), 9, &[0; 100], 6);
    after("open with 3 bytes", outside(), OPEN, &[0; 3], 4);
    after(
        "open inside, 3 bytes: 4 before 7",
        inside(),
        OPEN,
        &[0; 3],
        4,
    );
    after(
        "write outside, 11 bytes: 4 before 7",
        outside(),
        WRITE,
        &[0; 11],
        4,
    );
    after("close without status", inside(), CLOSE, &[], 4);
    after("end with 1 byte", outside(), END, &[1], 4);
    after("open inside", inside(), OPEN, &[2, 0], 7);
    after("write outside", outside(), WRITE, &payload(1, 5), 7);
    after(
        "read outside",
        outside(),
        crate::trace::READ,
        &payload(1, 5),
        7,
    );
    after("close outside", outside(), CLOSE, &[1], 7);
    after("end inside", inside(), END, &[1, 0], 7);
    after(
        "end inside, wrong number: 7 before 8",
        inside(),
        END,
        &[9, 0],
        7,
    );
    after(
        "write of 0 outside: 7 before 8",
        outside(),
        WRITE,
        &payload(1, 0),
        7,
    );
    after("status 2 outside", outside(), CLOSE, &[2], 7);
    after("status 3 outside: 7 before 8", outside(), CLOSE, &[3], 7);
    after("write of 0", inside(), WRITE, &payload(1, 0), 8);
    after("status 3", inside(), CLOSE, &[3], 8);
    after("status 4", inside(), CLOSE, &[4], 8);
    after("status 255", inside(), CLOSE, &[255], 8);
    after("status 2 with 2 bytes", inside(), CLOSE, &[2, 0], 4);
    after(
        "1,025th outside: 7 before 9",
        {
            let mut w = full();
            w.close(1);
            w
        },
        WRITE,
        &payload(1, 5),
        7,
    );
    after(
        "1,025th writes 0: 8 before 9",
        full(),
        WRITE,
        &payload(1, 0),
        8,
    );
    after(
        "1,025th repeats: 9 before 10",
        full(),
        WRITE,
        &payload(1, 5),
        9,
    );
    after("write repeated inside", inside(), WRITE, &payload(1, 1), 10);
    after(
        "write repeated by another",
        {
            let mut w = inside();
            w.close(0);
            w.open(1);
            w
        },
        WRITE,
        &payload(1, 1),
        10,
    );
    after(
        "write repeated after an unanswered one",
        {
            let mut w = inside();
            w.close(2);
            w.open(1);
            w
        },
        WRITE,
        &payload(1, 1),
        10,
    );
    after(
        "128th open inside: 7 before 9",
        {
            let mut w = empty_transactions(126);
            w.open(127);
            w
        },
        OPEN,
        &[1, 0],
        7,
    );

    // Faults that a writer does not make by itself: serials and lengths.
    let mut serial_and_kind = outside();
    let place = serial_and_kind.bytes.len();
    serial_and_kind.record(9, &[0; 3]);
    serial_and_kind.bytes[place + 4] ^= 1;
    cases.push(refused(
        "serial and kind wrong: 5 before 6",
        serial_and_kind.end(),
        5,
        place,
    ));

    let mut serial_and_cut = outside();
    let place = serial_and_cut.bytes.len();
    serial_and_cut.note(b"cut");
    serial_and_cut.bytes[place + 4] ^= 1;
    serial_and_cut.bytes.pop();
    cases.push(refused(
        "serial wrong and cut: 3 before 5",
        serial_and_cut.bytes,
        3,
        place,
    ));

    let mut serial_repeats = outside().end();
    let place = serial_repeats.len() - 10;
    serial_repeats[place + 4] -= 1;
    cases.push(refused("end's serial repeats", serial_repeats, 5, place));

    let mut same_value_other_key = inside();
    same_value_other_key.write(2, 1);
    same_value_other_key.close(1);
    cases.push(Case {
        name: "same value, other key",
        bytes: same_value_other_key.end(),
        output: same("accepted 0 1"),
    });

    let mut status_2 = inside();
    status_2.close(2);
    cases.push(Case {
        name: "status 2",
        bytes: status_2.end(),
        output: same("accepted 0"),
    });

    let mut notes_only = Writer::new(9);
    notes_only.record(NOTE, b"");
    cases.push(refused("a note and no end", notes_only.bytes, 3, 8));
    cases
}
