//! Known traces in which different keys share a bucket: the keys are equal modulo
//! 128, or modulo 64. A judge that looks for rivals by buckets must still compare
//! the keys. Each has what `judge` has to print, worked by hand.

use crate::cases::{counting, refused, same, written, Case};
use crate::text;

/// All of them.
pub fn all() -> Vec<Case> {
    let mut cases = no_rival();
    cases.extend(beside_a_rival());
    cases.extend(many_reads());
    cases.extend(reads_and_writes());
    cases
}

/// One block for level 1, the same for the other two; without the levels' names.
fn rc_and_others(rc: &str, others: &str) -> String {
    format!("rc {rc}\nra {others}\ntcc {others}\n")
}

/// The document's cases with other keys of one bucket, so that nothing is a rival
/// and all levels accept.
pub fn no_rival() -> Vec<Case> {
    [
        (
            "P10, keys 1 and 129",
            "T1 w1=5; T2 w129=6; T3 r1=5 r129=6",
            "0 1 2 3",
        ),
        (
            "P10, keys 1 and 65",
            "T1 w1=5; T2 w65=6; T3 r1=5 r65=6",
            "0 1 2 3",
        ),
        (
            "P10, keys 0 and 128",
            "T1 w0=5; T2 w128=6; T3 r0=5 r128=6",
            "0 1 2 3",
        ),
        (
            "P10, keys 4,294,967,295 and 4,294,967,167",
            "T1 w4294967295=5; T2 w4294967167=6; T3 r4294967295=5 r4294967167=6",
            "0 1 2 3",
        ),
        (
            "P11, keys 1 and 129",
            "T1 w1=5; T2 w129=6; T3 r1=5 r129=6 r1=5",
            "0 1 2 3",
        ),
        (
            "P11, keys 4,294,967,167 and 4,294,967,295",
            "T1 w4294967167=5; T2 w4294967295=6; T3 r4294967167=5 r4294967295=6 r4294967167=5",
            "0 1 2 3",
        ),
        (
            "P12, keys 1 and 129 beside 2",
            "T1 w1=5; T2 r1=5 w2=7; T3 r2=7 r129=0",
            "0 1 2 3",
        ),
        (
            "P12, keys 1, 129 and 257",
            "T1 w1=5; T2 r1=5 w129=7; T3 r129=7 r257=0",
            "0 1 2 3",
        ),
        ("P14, keys 1 and 129", "T1 s1 w1=5; T2 s1 r129=0", "0 1 2"),
        ("P14, keys 0 and 128", "T1 s1 w0=5; T2 s1 r128=0", "0 1 2"),
        ("P14, keys 128 and 0", "T1 s1 w128=5; T2 s1 r0=0", "0 1 2"),
        (
            "P14, keys 4,294,967,167 and 4,294,967,295",
            "T1 s1 w4294967167=5; T2 s1 r4294967295=0",
            "0 1 2",
        ),
        (
            "P14, two writers of keys 129 and 257",
            "T1 s1 w129=5; T2 s1 w257=6; T3 s1 r1=0",
            "0 1 2 3",
        ),
        (
            "P14, key 1 of an aborted one, key 129 of a committed one",
            "T1 s1 w1=5 aborted; T2 s1 w129=6; T3 s1 r1=0",
            "0 2 3",
        ),
        (
            "P14, key 129 of an unanswered one that counts",
            "T1 s1 w129=5 w2=6 unanswered; T2 s1 r1=0; T3 r2=6",
            "0 1 2 3",
        ),
        (
            "case 16, keys 1, 129, 257 and 385",
            "T1 w1=11 w129=21; T2 w257=12 w385=22; T3 r257=12 r129=21",
            "0 1 2 3",
        ),
    ]
    .map(|(name, notation, order)| written(name, notation, same(&format!("accepted {order}"))))
    .into()
}

/// Writers of other keys of the bucket beside a rival.
pub fn beside_a_rival() -> Vec<Case> {
    vec![
        written(
            "P10 of key 1, between writers of 129 and 257",
            "T1 w1=5; T2 w129=6; T3 w257=7; T4 w1=8; T5 r1=5 r129=6 r257=7 r1=8",
            rc_and_others(
                "accepted 0 1 2 3 4 5",
                "rejected 0 2\npair 1 4 8\npair 4 1 8",
            ),
        ),
        written(
            "P10 of key 4,294,967,295, beside 4,294,967,167",
            "T1 w4294967167=4 w4294967295=5; T2 w4294967295=6; \
             T3 r4294967167=4 r4294967295=5 r4294967295=6",
            rc_and_others("accepted 0 1 2 3", "rejected 0 2\npair 1 2 8\npair 2 1 8"),
        ),
        written(
            "P11 of key 1, between writers of 129 and 257",
            "T1 w1=5; T2 w129=6; T3 w257=7; T4 w1=8; T5 r1=5 r129=6 r257=7 r1=8 r1=5",
            same("rejected 0 2\npair 1 4 8\npair 4 1 8"),
        ),
        // T3 is a rival of T1, and nothing is one of T3.
        written(
            "P11, one rival by its second write",
            "T1 w1=5; T2 w129=6; T3 w257=7 w1=8; T4 r1=5 r129=6 r257=7 r1=5",
            same("accepted 0 2 3 1 4"),
        ),
        // As in P12, T2 has 0 before it and reads from T1.
        written(
            "P12 of key 1, by way of 129 and 257, beside 385",
            "T1 w1=5 w129=8; T2 r129=8 w257=7; T3 r257=7 r385=0 r1=0",
            "rc accepted 0 1 2 3\nra accepted 0 1 2 3\n\
             tcc rejected 0 2\npair 0 1 9\npair 1 0 8\n"
                .into(),
        ),
        written(
            "P14 of key 0, beside 128",
            "T1 s1 w0=6; T2 s1 w128=5; T3 s1 r256=0 r0=0",
            rc_and_others("accepted 0 1 2 3", "rejected 0 2\npair 0 1 1\npair 1 0 8"),
        ),
        // T1 is no rival, but it is before T2 by its session, and so on the way.
        written(
            "P14 of key 1, between writers of 129 and 257",
            "T1 s1 w129=5; T2 s1 w1=6; T3 s1 w257=7; T4 s1 r385=0 r1=0",
            rc_and_others(
                "accepted 0 1 2 3 4",
                "rejected 0 4\npair 0 1 1\npair 0 2 1\npair 1 2 2\npair 2 0 8",
            ),
        ),
        written(
            "case 16 of keys 1 and 129",
            "T1 w1=11 w129=21; T2 w1=12 w129=22; T3 r1=12 r129=21",
            rc_and_others("accepted 0 2 1 3", "rejected 0 2\npair 1 2 8\npair 2 1 8"),
        ),
        written(
            "case 16 of keys 1 and 129, beside a writer of 257",
            "T1 w1=11 w129=21; T2 w257=1; T3 w1=12 w129=22; T4 r257=1 r1=12 r129=21",
            rc_and_others("accepted 0 2 3 1 4", "rejected 0 2\npair 1 3 8\npair 3 1 8"),
        ),
        // T1 is a rival of T2 at levels 2 and 3, where the numbers go that way too.
        written(
            "case 16, key 1 of both, 129 and 257 of one each",
            "T1 w1=11 w129=21; T2 w1=12 w257=22; T3 r1=12 r129=21",
            same("accepted 0 1 2 3"),
        ),
        written(
            "case 16, key 129 of both, 1 and 257 of one each",
            "T1 w1=11 w129=21; T2 w257=12 w129=22; T3 r257=12 r129=21",
            same("accepted 0 2 1 3"),
        ),
        // T2 writes key 1 when T3 has long read; at level 1 its source comes too late.
        written(
            "P10 interwoven, a rival by its write of key 1, not of 129",
            "edition 2; T1 w1=5 ..; T2 w129=6 ..; T3 r1=5 r129=6; T1 ..; T2 .. w1=7",
            rc_and_others("accepted 0 1 2 3", "accepted 0 2 1 3"),
        ),
    ]
}

/// An operation for each place from 0, of keys that are multiples of 128.
fn each(operation: char, places: impl Iterator<Item = u32>) -> String {
    places
        .map(|n| format!(" {operation}{}={}", 128 * n, n + 1))
        .collect()
}

/// 126 writers, each of another key of the bucket of 4,294,967,295, and a reader
/// of all these keys; the last writer may write something more.
fn one_reads_all(more: &str) -> String {
    let key = |n: u32| u32::MAX - 128 * (n - 1);
    let mut notation = String::new();
    for n in 1..=126 {
        let more = if n == 126 { more } else { "" };
        notation += &format!("T{n} w{}={n}{more}; ", key(n));
    }
    notation += "T127";
    for n in 1..=126 {
        notation += &format!(" r{}={n}", key(n));
    }
    notation
}

/// Many reads of different keys of a bucket, and writers of others of it.
pub fn many_reads() -> Vec<Case> {
    let (low, high) = (each('w', 0..=63), each('w', 64..=127));
    let reads = each('r', 0..=63);
    let session_and_rival = "rejected 0 2\npair 1 2 2\npair 2 1 8";
    let but_1: Vec<String> = (2..=126).map(|n| n.to_string()).collect();
    let low_and_high = "T1 s1 w0=1 w4294967295=3; T2 s1 w128=2";
    vec![
        written(
            "64 reads of a bucket, 64 writes of others",
            &format!("T1 s1{low}; T2 s1{high}; T3 s1{reads}"),
            same("accepted 0 1 2 3"),
        ),
        written(
            "64 reads of a bucket, 64 writes of others and one of the first",
            &format!("T1 s1{low}; T2 s1{high} w0=200; T3 s1{reads}"),
            rc_and_others("accepted 0 1 2 3", session_and_rival),
        ),
        written(
            "64 reads of a bucket, 64 writes of others and one of the last",
            &format!("T1 s1{low}; T2 s1{high} w8064=200; T3 s1{reads}"),
            rc_and_others("accepted 0 1 2 3", session_and_rival),
        ),
        // Key 8,192 is the first of the others: T2 is a source from then on.
        written(
            "64 reads of a bucket, behind one of another",
            &format!("T1 s1{low}; T2 s1{high}; T3 s1 r8192=65{reads}"),
            same("accepted 0 1 2 3"),
        ),
        written(
            "64 reads of a bucket, behind one of another, the last with a rival",
            &format!("T1 s1{low}; T2 s1{high} w8064=200; T3 s1 r8192=65{reads}"),
            same(session_and_rival),
        ),
        written(
            "keys 0, 128, 4,294,967,295 and 4,294,967,167 in turn",
            &format!(
                "{low_and_high} w4294967167=4; \
                 T3 s1 r0=1 r128=2 r4294967295=3 r4294967167=4 r0=1"
            ),
            same("accepted 0 1 2 3"),
        ),
        written(
            "keys 0, 128 and 4,294,967,295, the last with a rival",
            &format!("{low_and_high} w4294967295=4; T3 s1 r128=2 r4294967295=3 r0=1"),
            same(session_and_rival),
        ),
        written(
            "126 writers and a reader of one bucket",
            &one_reads_all(""),
            same(&format!("accepted {}", counting(127))),
        ),
        // The reader reads the first writer's key first.
        written(
            "126 writers and a reader of one bucket, the last a rival of the first",
            &one_reads_all(" w4294967295=200"),
            rc_and_others(
                &format!("accepted {}", counting(127)),
                &format!("accepted 0 {} 1 127", but_1.join(" ")),
            ),
        ),
    ]
}

/// What is clean, what counts and what is repeated goes by keys too.
pub fn reads_and_writes() -> Vec<Case> {
    let repeated = text::encode(b"T1 w1=5 w129=5 w257=5; T2 w129=5").expect("a lawful notation");
    vec![
        written(
            "P3, the value written to key 129",
            "T1 r1=5; T2 w129=5",
            same("rejected 1 0\nread 1 1 1 0"),
        ),
        written(
            "P5, the value written to keys 129, 1 and 257",
            "T1 w129=5 w1=5 w257=5 aborted; T2 r1=5",
            same("rejected 1 0\nread 2 4 2 2"),
        ),
        written(
            "P6, keys 1 and 129",
            "T1 r1=5 w129=5",
            same("rejected 1 0\nread 1 1 1 0"),
        ),
        written(
            "P7, keys 1 and 129",
            "T1 w1=5 w129=6 r1=5",
            same("accepted 0 1"),
        ),
        written(
            "P8, keys 1 and 129",
            "T1 w1=5; T2 w129=6 r1=5",
            same("accepted 0 1 2"),
        ),
        written(
            "P9, keys 1 and 129",
            "T1 w1=5 w129=6; T2 r1=5",
            same("accepted 0 1 2"),
        ),
        written(
            "kind 5 by value 0, keys 0 and 128",
            "T1 w0=5 r128=0",
            same("accepted 0 1"),
        ),
        written(
            "unanswered, its value read of another key of its bucket",
            "T1 w1=5 unanswered; T2 r129=5",
            same("rejected 1 0\nread 2 2 1 0"),
        ),
        written(
            "a value written to keys 1, 129 and 257",
            "T1 w1=5 w129=5; T2 w257=5",
            same("accepted 0 1 2"),
        ),
        // An open, three writes, a close and an open stand before it.
        refused(
            "a value written to keys 1, 129, 257 and again to 129",
            repeated,
            10,
            10 + 3 * 20 + 9 + 10,
        ),
    ]
}
