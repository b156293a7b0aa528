//! Sequences of steps whose answers are known: what the writer has to write,
//! or the refusal it has to give. The specification's table says which.

use crate::text;
use crate::trace::{Refusal, MAX_OPERATIONS, MAX_TRANSACTIONS};
use crate::writing::{input_of, Step};

/// An input of the program `writer` with the answer that it must have, room
/// being ample.
pub struct SequenceCase {
    pub name: String,
    /// The starting serial and the steps.
    pub input: Vec<u8>,
    pub answer: Result<Vec<u8>, Refusal>,
}

/// All of them.
pub fn all() -> Vec<SequenceCase> {
    let mut cases = by_hand();
    cases.extend(document());
    cases.extend(fine_points());
    cases.extend(limits());
    cases.extend(kinds_and_rests());
    cases.extend(order_of_checks());
    cases
}

fn written(name: &str, serial: u32, steps: &[Step], bytes: Vec<u8>) -> SequenceCase {
    SequenceCase {
        name: name.into(),
        input: input_of(serial, steps),
        answer: Ok(bytes),
    }
}

/// Steps whose trace the notation says.
fn noted(name: &str, serial: u32, steps: &[Step], notation: &str) -> SequenceCase {
    let bytes = text::encode(notation.as_bytes()).unwrap_or_else(|e| panic!("{name}: {e}"));
    written(name, serial, steps, bytes)
}

fn refused(name: &str, steps: &[Step], number: u8, place: usize) -> SequenceCase {
    SequenceCase {
        name: name.into(),
        input: input_of(0, steps),
        answer: Err(Refusal { number, place }),
    }
}

/// Traces written down byte by byte.
fn by_hand() -> Vec<SequenceCase> {
    let end_only = |serial: [u8; 4]| {
        let [a, b, c, d] = serial;
        vec![8, 0, 5, 0, a, b, c, d, 0, 0]
    };
    let one_of_each = [
        Step::open(0x0201),
        Step::read(0x0403_0201, 0),
        Step::write(0x0807_0605, 0x0807_0605_0403_0201),
        Step::close(1),
    ];
    let bytes = [
        [8, 0, 1, 0, 0xff, 0xff, 0xff, 0xff, 1, 2].as_slice(),
        &[18, 0, 2, 0, 0, 0, 0, 0, 1, 2, 3, 4],
        &[0, 0, 0, 0, 0, 0, 0, 0],
        &[18, 0, 3, 0, 1, 0, 0, 0, 5, 6, 7, 8],
        &[1, 2, 3, 4, 5, 6, 7, 8],
        &[7, 0, 4, 0, 2, 0, 0, 0, 1],
        &[8, 0, 5, 0, 3, 0, 0, 0, 1, 0],
    ]
    .concat();
    let mut cases = vec![
        written("no steps: P1", 0, &[], end_only([0; 4])),
        written(
            "an unanswered commit",
            0,
            &[Step::open(1), Step::close(2)],
            [
                [8, 0, 1, 0, 0, 0, 0, 0, 1, 0].as_slice(),
                &[7, 0, 4, 0, 1, 0, 0, 0, 2],
                &[8, 0, 5, 0, 2, 0, 0, 0, 1, 0],
            ]
            .concat(),
        ),
        written("no steps, serial 1", 1, &[], end_only([1, 0, 0, 0])),
        written("no steps, last serial", u32::MAX, &[], end_only([0xff; 4])),
        written(
            "one of each, wrapping",
            u32::MAX,
            &one_of_each,
            bytes.clone(),
        ),
        written(
            "one of each, other fields filled",
            u32::MAX,
            &one_of_each.map(filled),
            bytes,
        ),
    ];
    for size in 0..4 {
        cases.push(SequenceCase {
            name: format!("{size} bytes: no starting serial"),
            input: vec![1; size],
            answer: Err(Refusal {
                number: 3,
                place: 0,
            }),
        });
    }
    cases
}

/// The same step with something in each field that its kind does not use.
fn filled(step: Step) -> Step {
    let mut filled = step;
    if step.is_operation() {
        filled.detail = 0xffff;
    } else {
        (filled.key, filled.value) = (3, u64::MAX);
    }
    filled
}

/// Some of the specification's traces.
fn document() -> Vec<SequenceCase> {
    let p12 = [
        Step::open(1),
        Step::write(1, 5),
        Step::close(1),
        Step::open(2),
        Step::read(1, 5),
        Step::write(2, 7),
        Step::close(1),
        Step::open(3),
        Step::read(2, 7),
        Step::read(1, 0),
        Step::close(1),
    ];
    let case_16 = [
        Step::open(1),
        Step::write(1, 11),
        Step::write(2, 21),
        Step::close(1),
        Step::open(2),
        Step::write(1, 12),
        Step::write(2, 22),
        Step::close(1),
        Step::open(3),
        Step::read(1, 12),
        Step::read(2, 21),
        Step::close(1),
    ];
    vec![
        noted("P12", 0, &p12, "T1 w1=5; T2 r1=5 w2=7; T3 r2=7 r1=0"),
        noted(
            "case 16",
            0,
            &case_16,
            "T1 w1=11 w2=21; T2 w1=12 w2=22; T3 r1=12 r2=21",
        ),
        noted(
            "case 16, wrapping before its end",
            u32::MAX - 11,
            &case_16,
            "serial 4294967284; T1 w1=11 w2=21; T2 w1=12 w2=22; T3 r1=12 r2=21",
        ),
    ]
}

/// Sequences that are lawful by a single word.
fn fine_points() -> Vec<SequenceCase> {
    let one = |operations: &[Step], status: u16| {
        let mut steps = vec![Step::open(9)];
        steps.extend(operations);
        steps.push(Step::close(status));
        steps
    };
    vec![
        noted(
            "a transaction without operations",
            5,
            &one(&[], 1),
            "serial 5; T1 s9",
        ),
        noted("aborted", 0, &one(&[], 0), "T1 s9 aborted"),
        noted("unanswered", 0, &one(&[], 2), "T1 s9 unanswered"),
        noted(
            "unanswered with operations, other fields filled",
            0,
            &one(&[Step::write(1, 5), Step::read(1, 5)], 2)
                .into_iter()
                .map(filled)
                .collect::<Vec<_>>(),
            "T1 s9 w1=5 r1=5 unanswered",
        ),
        noted(
            "one of each status",
            0,
            &[
                Step::open(1),
                Step::write(1, 5),
                Step::close(2),
                Step::open(2),
                Step::read(1, 5),
                Step::close(1),
                Step::open(3),
                Step::close(0),
            ],
            "T1 w1=5 unanswered; T2 r1=5; T3 aborted",
        ),
        noted(
            "same value, other key",
            0,
            &one(&[Step::write(1, 5), Step::write(2, 5)], 1),
            "T1 s9 w1=5 w2=5",
        ),
        noted(
            "keys that differ in their highest byte only",
            0,
            &one(&[Step::write(1, 5), Step::write(0x0100_0001, 5)], 1),
            "T1 s9 w1=5 w16777217=5",
        ),
        noted(
            "values that differ in their upper half only",
            0,
            &one(&[Step::write(1, 5), Step::write(1, 0x1_0000_0005)], 1),
            "T1 s9 w1=5 w1=4294967301",
        ),
        noted(
            "a written value whose lower half is 0",
            0,
            &one(&[Step::write(1, 1 << 32), Step::write(1, 1 << 63)], 1),
            "T1 s9 w1=4294967296 w1=9223372036854775808",
        ),
        noted(
            "reads repeat, and read what a write has",
            0,
            &one(
                &[
                    Step::read(1, 5),
                    Step::read(1, 5),
                    Step::write(1, 5),
                    Step::read(1, 5),
                    Step::read(0, 0),
                    Step::read(0, 0),
                ],
                1,
            ),
            "T1 s9 r1=5 r1=5 w1=5 r1=5 r0=0 r0=0",
        ),
        noted(
            "greatest numbers",
            0,
            &[
                Step::open(u16::MAX),
                Step::write(u32::MAX, u64::MAX),
                Step::read(u32::MAX, u64::MAX),
                Step::close(0),
            ],
            "T1 s65535 w4294967295=18446744073709551615 r4294967295=18446744073709551615 aborted",
        ),
    ]
}

/// `count` transactions without operations.
fn empty_transactions(count: usize) -> Vec<Step> {
    (1..=count)
        .flat_map(|session| [Step::open(session as u16), Step::close(1)])
        .collect()
}

/// One open transaction with `count` writes.
fn one_with_writes(count: usize) -> Vec<Step> {
    let mut steps = vec![Step::open(1)];
    steps.extend((1..=count as u64).map(|value| Step::write(1, value)));
    steps
}

/// The steps, and then one more.
fn and(mut steps: Vec<Step>, step: Step) -> Vec<Step> {
    steps.push(step);
    steps
}

/// Transactions and operations, each at its limit and one above.
fn limits() -> Vec<SequenceCase> {
    let numbered = |transaction: &dyn Fn(usize) -> String, count: usize| -> String {
        (1..=count).map(|n| transaction(n) + "\n").collect()
    };
    let writes = |count: usize| -> String { (1..=count).map(|n| format!(" w1={n}")).collect() };
    // All the operations in the last of all the transactions: 22,903 bytes.
    let mut both = empty_transactions(MAX_TRANSACTIONS - 1);
    both.push(Step::open(127));
    both.extend(&one_with_writes(MAX_OPERATIONS)[1..]);
    both.push(Step::close(1));
    // Unanswered ones, each read by the next.
    let mut chain = Vec::new();
    for t in 1..=MAX_TRANSACTIONS {
        let (session, value) = (t as u16, t as u64);
        chain.extend([Step::open(session), Step::read(1, value - 1)]);
        chain.extend([Step::write(1, value), Step::close(2)]);
    }
    let chained = |n: usize| format!("T{n} r1={} w1={n} unanswered", n - 1);
    let empty = |n: usize| format!("T{n}");
    let all_but_one = numbered(&empty, MAX_TRANSACTIONS - 1);
    let full = || one_with_writes(MAX_OPERATIONS);
    let mut cases = vec![
        noted(
            "127 transactions",
            0,
            &empty_transactions(MAX_TRANSACTIONS),
            &numbered(&empty, MAX_TRANSACTIONS),
        ),
        noted(
            "1,024 operations",
            0,
            &and(full(), Step::close(1)),
            &format!("T1{}", writes(MAX_OPERATIONS)),
        ),
        noted(
            "127 transactions and 1,024 operations",
            0,
            &both,
            &format!("{all_but_one}T127{}", writes(MAX_OPERATIONS)),
        ),
        noted(
            "127 unanswered transactions",
            0,
            &chain,
            &numbered(&chained, MAX_TRANSACTIONS),
        ),
        noted(
            "1,024 operations, unanswered",
            0,
            &and(full(), Step::close(2)),
            &format!("T1{} unanswered", writes(MAX_OPERATIONS)),
        ),
        refused("128 transactions", &empty_transactions(128), 9, 255),
        refused(
            "a 1,025th operation, write",
            &and(full(), Step::write(2, 1)),
            9,
            1_026,
        ),
        refused(
            "a 1,025th operation, read",
            &and(full(), Step::read(2, 0)),
            9,
            1_026,
        ),
        refused(
            "127 open: the 128th above both",
            &and(both.clone(), Step::open(1)),
            9,
            1_279,
        ),
        refused("many steps behind a fault", &[Step::close(1); 4_000], 7, 1),
    ];
    // Operations are counted over the whole trace, transactions or not.
    let mut spread = Vec::new();
    for value in 1..=100 {
        spread.push(Step::open(1));
        spread.extend((0..11).map(|key| Step::write(key, value)));
        spread.push(Step::close((value % 2) as u16));
    }
    // 93 transactions of 13 steps have 1,023 operations; then an open, the
    // 1,024th, and one more.
    cases.push(refused("1,100 operations, spread", &spread, 9, 93 * 13 + 3));
    cases
}

/// Number 6: steps of no lawful kind, and bytes too few for a step.
fn kinds_and_rests() -> Vec<SequenceCase> {
    let mut cases = Vec::new();
    for kind in [
        0,
        5,
        6,
        7,
        8,
        16,
        23,
        24,
        255,
        256,
        257,
        258,
        259,
        260,
        513,
        32_769,
        u16::MAX,
    ] {
        let step = Step {
            kind,
            detail: 1,
            key: 1,
            value: 1,
        };
        let inside = [Step::open(1), step, Step::close(1)];
        cases.push(refused(&format!("kind {kind} outside"), &[step], 6, 1));
        cases.push(refused(&format!("kind {kind} inside"), &inside, 6, 2));
    }
    let mut with_rest = |name: &str, steps: &[Step], rest: &[u8], number: u8, place: usize| {
        let mut case = refused(
            &format!("{name}, rest of {}", rest.len()),
            steps,
            number,
            place,
        );
        case.input.extend(rest);
        cases.push(case);
    };
    let open = Step::open(1).to_bytes();
    let lone = [Step::open(1), Step::close(1)];
    for size in 1..16 {
        with_rest("nothing else", &[], &open[..size], 6, 1);
        with_rest("after a transaction", &lone, &open[..size], 6, 3);
        with_rest("inside: 6 before 7", &lone[..1], &open[..size], 6, 2);
    }
    with_rest("after a fault", &[Step::close(1)], &open[..8], 7, 1);
    with_rest("zeros", &lone, &[0; 15], 6, 3);
    cases
}

/// Numbers 7 to 10, alone and beside each other.
fn order_of_checks() -> Vec<SequenceCase> {
    let mut cases = Vec::new();
    // The last step is the one refused, whatever comes behind it.
    let mut last = |name: &str, steps: Vec<Step>, number: u8| {
        cases.push(refused(name, &steps, number, steps.len()));
        let more = [
            steps.as_slice(),
            &[Step {
                kind: 9,
                ..Step::default()
            }],
        ]
        .concat();
        let name = format!("{name}, and a later fault");
        cases.push(refused(&name, &more, number, steps.len()));
    };
    let outside = || empty_transactions(1);
    let inside = || one_with_writes(1);
    let full = || one_with_writes(MAX_OPERATIONS);
    let closed = |steps: Vec<Step>, status: u16| and(steps, Step::close(status));

    last("open inside", and(inside(), Step::open(2)), 7);
    last("read first of all", vec![Step::read(1, 0)], 7);
    last("read outside", and(outside(), Step::read(1, 5)), 7);
    last("write outside", and(outside(), Step::write(1, 5)), 7);
    last("close outside", and(outside(), Step::close(1)), 7);
    last(
        "write of 0 outside: 7 before 8",
        and(outside(), Step::write(1, 0)),
        7,
    );
    last(
        "status 3 outside: 7 before 8",
        and(outside(), Step::close(3)),
        7,
    );
    last("status 2 outside", and(outside(), Step::close(2)), 7);
    last(
        "1,025th outside: 7 before 9",
        and(closed(full(), 1), Step::write(2, 5)),
        7,
    );
    last(
        "128th open inside: 7 before 9",
        and(and(empty_transactions(126), Step::open(1)), Step::open(1)),
        7,
    );
    last(
        "repeated outside: 7 before 10",
        and(closed(inside(), 1), Step::write(1, 1)),
        7,
    );
    last("write of 0", and(inside(), Step::write(1, 0)), 8);
    // Some of these are lawful in their lower byte.
    for status in [
        3,
        4,
        255,
        256,
        257,
        258,
        512,
        513,
        514,
        32_768,
        32_770,
        u16::MAX,
    ] {
        last(&format!("status {status}"), closed(inside(), status), 8);
    }
    last(
        "1,025th writes 0: 8 before 9",
        and(full(), Step::write(1, 0)),
        8,
    );
    last("status 3 when full: 8, not 9", closed(full(), 3), 8);
    last(
        "1,025th repeats: 9 before 10",
        and(full(), Step::write(1, 5)),
        9,
    );
    last(
        "1,025th in a later transaction",
        and(and(closed(full(), 0), Step::open(1)), Step::read(1, 5)),
        9,
    );
    last("repeated inside", and(inside(), Step::write(1, 1)), 10);
    for (name, status) in [
        ("repeated by another", 1),
        ("repeated after an aborted one", 0),
        ("repeated after an unanswered one", 2),
    ] {
        let steps = and(closed(inside(), status), Step::open(1));
        last(name, and(steps, Step::write(1, 1)), 10);
    }
    last(
        "the 1,024th repeats",
        and(one_with_writes(MAX_OPERATIONS - 1), Step::write(1, 1)),
        10,
    );

    // The end of the sequence stands one behind its steps.
    for (name, steps) in [
        ("ends behind an open", vec![Step::open(1)]),
        ("ends behind a write", inside()),
        ("ends inside, full", full()),
    ] {
        cases.push(refused(name, &steps, 7, steps.len() + 1));
    }
    cases
}
