//! Makes full traces for measuring, and measures judges on traces.

use ferozhak_compare::calls::Call;
use ferozhak_compare::claims::Claim;
use ferozhak_compare::deciding::Rooms;
use ferozhak_compare::encode::Writer;
use ferozhak_compare::generate::Shape;
use ferozhak_compare::items::NUMBERS_SIZE;
use ferozhak_compare::random::Random;
use ferozhak_compare::report::{Level, Verdict};
use ferozhak_compare::trace::{Edition, Status, Trace, MAX_OPERATIONS, MAX_TRANSACTIONS};
use ferozhak_compare::weave::{self, Whole};
use ferozhak_compare::{graph, judge_all, judge_one, Answer};
use std::hint::black_box;
use std::io::{self, Write as _};
use std::path::Path;
use std::process::ExitCode;
use std::time::{Duration, Instant};

const USAGE: &str = "Usage:
  bench --write DIR     writes the traces for measuring into DIR
  bench --time FILE..   prints the time of one call of each judge on each file
  bench --claim LEVEL FILE
                        writes an item to standard output, for a program that makes the calls: the claim of the order
                        that is shown at the level, 1 to 3, or else of the members by number
  bench --decide LEVEL FILE
                        the same for the decision at the level, with just enough room
";

/// Reads and judges a trace at all three levels, and answers a number made
/// from the whole answer, so that no part of the work can be left out.
type Judge = fn(&[u8]) -> u64;

/// What is measured. Other judges are entered here.
fn judges() -> Vec<(&'static str, Judge)> {
    vec![
        ("rust, read once", |bytes| digest(&judge_all(bytes))),
        ("rust, read for each level", |bytes| {
            let [rc, ra, tcc] = Level::ALL.map(|level| judge_one(bytes, level));
            digest(&rc.and_then(|rc| Ok([rc, ra?, tcc?])))
        }),
    ]
}

/// Mixes all bytes that an answer has into a number.
fn digest(answer: &Answer) -> u64 {
    let mix = |sum: u64, byte: u8| sum.wrapping_mul(31).wrapping_add(byte.into());
    match answer {
        Err(refusal) => mix(refusal.place as u64, refusal.number),
        Ok(verdicts) => verdicts.iter().fold(0, |sum, verdict| match verdict {
            Verdict::Accepted(order) => order.iter().copied().fold(sum, mix),
            Verdict::Rejected { findings, pairs } => {
                let found = findings.iter().flat_map(|finding| finding.bytes());
                let sum = found.fold(sum, mix);
                pairs.iter().fold(sum, |sum, p| {
                    [p.first, p.second, p.reasons].into_iter().fold(sum, mix)
                })
            }
        }),
    }
}

fn main() -> ExitCode {
    let arguments: Vec<String> = std::env::args().skip(1).collect();
    let words: Vec<&str> = arguments.iter().map(String::as_str).collect();
    let done = match words[..] {
        ["--write", folder] => write_traces(Path::new(folder)),
        ["--time", ref files @ ..] if !files.is_empty() => time_files(files),
        ["--claim", level, file] => write_item(level, file, claim_item),
        ["--decide", level, file] => write_item(level, file, decide_item),
        _ => {
            eprint!("{USAGE}");
            return ExitCode::from(2);
        }
    };
    match done {
        Ok(()) => ExitCode::SUCCESS,
        Err(error) => {
            eprintln!("bench: {error}");
            ExitCode::FAILURE
        }
    }
}

fn write_traces(folder: &Path) -> io::Result<()> {
    std::fs::create_dir_all(folder)?;
    for (name, bytes) in traces() {
        std::fs::write(folder.join(format!("{name}.trace")), bytes)?;
    }
    Ok(())
}

fn read_file(file: &str) -> io::Result<Vec<u8>> {
    std::fs::read(file).map_err(|error| io::Error::new(error.kind(), format!("{file}: {error}")))
}

/// Writes what is asked about a trace that is not refused, given its verdict.
fn write_item(
    level: &str,
    file: &str,
    item: fn(&[u8], Level, &Verdict) -> Vec<u8>,
) -> io::Result<()> {
    let level = level.parse().ok().and_then(Level::of_number);
    let level = level.ok_or(io::Error::other("no such level"))?;
    let bytes = read_file(file)?;
    let verdict = judge_one(&bytes, level)
        .map_err(|refusal| io::Error::other(format!("{file}: {}", refusal.meaning())))?;
    io::stdout().write_all(&item(&bytes, level, &verdict))
}

fn claim_item(bytes: &[u8], level: Level, verdict: &Verdict) -> Vec<u8> {
    let order = match verdict {
        Verdict::Accepted(order) => order.clone(),
        Verdict::Rejected { .. } => graph::counted(&Trace::parse(bytes).expect("it was judged")),
    };
    let claim = Claim {
        level: level.number(),
        order,
        room: NUMBERS_SIZE,
    };
    claim.item(bytes)
}

fn decide_item(bytes: &[u8], level: Level, verdict: &Verdict) -> Vec<u8> {
    let call = Call::Decide {
        level: level.number(),
        rooms: Rooms::needed(verdict),
    };
    call.item(bytes)
}

fn time_files(files: &[&str]) -> io::Result<()> {
    for file in files {
        let bytes = read_file(file)?;
        let mut lines = format!("{file}: {}\n", describe(&bytes));
        for (name, judge) in judges() {
            let (median, least) = time(judge, &bytes);
            lines += &format!("  {name:<28}{median:>9} ns a call, at best {least:>9} ns\n");
        }
        io::stdout().write_all(lines.as_bytes())?;
    }
    Ok(())
}

/// What a trace has, and what is said of it.
fn describe(bytes: &[u8]) -> String {
    let (trace, answer) = (Trace::parse(bytes), judge_all(bytes));
    let (Ok(trace), Ok(verdicts)) = (trace, answer) else {
        return format!("{} bytes, refused", bytes.len());
    };
    let said: String = Level::ALL
        .iter()
        .zip(&verdicts)
        .map(|(level, verdict)| match verdict {
            Verdict::Accepted(_) => format!(", {} accepted", level.name()),
            Verdict::Rejected { findings, pairs } => {
                let (found, listed) = (findings.len(), pairs.len());
                format!(", {} rejected {found} {listed}", level.name())
            }
        })
        .collect();
    let (transactions, operations) = (trace.transactions.len(), trace.operations.len());
    let size = bytes.len();
    let open = weave::most_open(bytes);
    format!(
        "{transactions} transactions, {open} open at once, {operations} operations, {size} bytes{said}"
    )
}

/// Nanoseconds a call: the median and the least of many rounds.
fn time(judge: Judge, bytes: &[u8]) -> (u128, u128) {
    const ROUNDS: usize = 25;
    const ROUND: Duration = Duration::from_millis(10);
    let run = |calls: u32| {
        let start = Instant::now();
        for _ in 0..calls {
            black_box(judge(black_box(bytes)));
        }
        start.elapsed()
    };
    // As many calls as fill a round; these also warm everything up.
    let mut calls = 1;
    while run(calls) < ROUND {
        calls *= 2;
    }
    let mut times: Vec<u128> = (0..ROUNDS)
        .map(|_| run(calls).as_nanos() / u128::from(calls))
        .collect();
    times.sort_unstable();
    (times[ROUNDS / 2], times[0])
}

/// All traces for measuring, by name.
fn traces() -> Vec<(String, Vec<u8>)> {
    let mut traces = vec![
        ("typical".into(), typical(MAX_TRANSACTIONS)),
        ("sessions-each".into(), sessions_each()),
        ("hot-keys".into(), full(|shape| shape.keys = 3)),
        (
            "anomalies".into(),
            full(|shape| {
                shape.keys = 3;
                shape.aborted = 30;
                shape.wild = 90;
            }),
        ),
        ("unanswered".into(), full(|shape| shape.unanswered = 40)),
        ("findings".into(), findings()),
        ("slow-read-by-next".into(), read_by_next()),
        ("slow-reads-next".into(), reads_next()),
        ("slow-chain".into(), chain()),
        ("slow-sources".into(), sources()),
        ("slow-unsettled".into(), unsettled()),
        ("slow-one-bucket".into(), one_bucket()),
        ("one-reader".into(), one_reader()),
        ("slow-thin-air".into(), thin_air()),
        ("slow-cycle".into(), cycle()),
        ("slow-session-cycle".into(), session_cycle()),
    ];
    for transactions in [16, 32, 64, MAX_TRANSACTIONS] {
        traces.push((format!("grow-{transactions:03}"), typical(transactions)));
    }
    traces.extend(edition_2());
    traces
}

/// Traces of edition 2: histories of above as blocks, and with overlap.
fn edition_2() -> Vec<(String, Vec<u8>)> {
    let typical = wholes_of(&typical(MAX_TRANSACTIONS));
    // A store that keeps to the order of the trace keeps any sessions' order.
    let in_order = wholes_of(&full(|shape| shape.mixed = false));
    let findings = wholes_of(&findings());
    let chain = wholes_of(&chain());
    let blocks = |wholes: &[Whole]| weave::blocks(Edition::Two, 0, wholes);
    let open =
        |most, wholes: &[Whole]| weave::weave(Writer::edition_2(0), wholes, weave::in_turn(most));
    let mut named = Vec::new();
    for (name, bytes) in [
        ("typical-blocks", blocks(&typical)),
        ("findings-blocks", blocks(&findings)),
        ("slow-chain-blocks", blocks(&chain)),
        (
            "typical-8-open",
            open(8, &in_sessions(&in_order, |t| t % 8)),
        ),
        (
            "typical-127-open",
            open(127, &in_sessions(&in_order, |t| t)),
        ),
        (
            "typical-127-open-modulo-256",
            open(127, &in_sessions(&in_order, |t| 256 * t + 1)),
        ),
        ("findings-127-open", open(127, &findings)),
        ("slow-chain-127-open", open(127, &chain)),
    ] {
        named.push((format!("edition-2-{name}"), bytes));
    }
    named
}

fn wholes_of(bytes: &[u8]) -> Vec<Whole> {
    weave::wholes(&Trace::parse(bytes).expect("a trace for measuring is read"))
}

/// The same transactions in other sessions, by number.
fn in_sessions(wholes: &[Whole], session: impl Fn(u16) -> u16) -> Vec<Whole> {
    let moved = |(number, whole): (u16, &Whole)| Whole {
        session: session(number),
        ..whole.clone()
    };
    (1..).zip(wholes).map(moved).collect()
}

/// A store that answers rightly, so that the trace is accepted: 8 or 9
/// operations a transaction on as many keys as there are transactions.
fn typical(transactions: usize) -> Vec<u8> {
    shaped(transactions, |_| {})
}

/// The typical trace with a session for each transaction. Without the sessions' order
/// the store still answers rightly.
fn sessions_each() -> Vec<u8> {
    let typical = wholes_of(&typical(MAX_TRANSACTIONS));
    weave::blocks(Edition::One, 0, &in_sessions(&typical, |t| t))
}

fn full(change: impl Fn(&mut Shape)) -> Vec<u8> {
    shaped(MAX_TRANSACTIONS, change)
}

/// A random trace that has its share of the limit of operations: 1,024 if it
/// has 127 transactions.
fn shaped(transactions: usize, change: impl Fn(&mut Shape)) -> Vec<u8> {
    let mut shape = Shape {
        edition: Edition::One,
        transactions,
        sessions: transactions / 8,
        keys: transactions,
        buckets: None,
        operations_least: 8,
        operations_each: 9,
        operations: transactions * MAX_OPERATIONS / MAX_TRANSACTIONS,
        writes: 50,
        aborted: 5,
        unanswered: 0,
        notes: 0,
        stale: 0,
        ahead: false,
        wild: 0,
        mixed: true,
    };
    change(&mut shape);
    shape.trace(&mut Random::new(16, transactions as u64))
}

enum Step {
    Read(u32, u64),
    Write(u32, u64),
}
use Step::{Read, Write};

/// A trace of 127 committed transactions from the session and the operations of
/// each. It is filled up to 1,024 operations with writes that nobody reads.
fn planned(transaction: impl Fn(u32) -> (u16, Vec<Step>)) -> Vec<u8> {
    planned_with(|_| Status::Committed, transaction)
}

/// The same with the status of each.
fn planned_with(
    status: impl Fn(usize) -> Status,
    transaction: impl Fn(u32) -> (u16, Vec<Step>),
) -> Vec<u8> {
    let mut plan: Vec<(u16, Vec<Step>)> = (1..=127).map(transaction).collect();
    let operations: usize = plan.iter().map(|(_, steps)| steps.len()).sum();
    for extra in operations..MAX_OPERATIONS {
        let (_, steps) = &mut plan[extra % MAX_TRANSACTIONS];
        steps.push(Write(1_000_000 + extra as u32, 1));
    }
    let mut writer = Writer::new(0);
    for (number, (session, steps)) in (1..).zip(plan) {
        writer.open(session);
        for step in steps {
            match step {
                Read(key, value) => writer.read(key, value),
                Write(key, value) => writer.write(key, value),
            }
        }
        writer.close(status(number) as u8);
    }
    writer.end()
}

/// As many unclean reads as fit, about as many of each kind from 2 to 6, their
/// writes spread over the trace. The transactions stand in groups of eight: the
/// first writes and aborts, the second writes twice, and the others only read.
/// All use one key.
fn findings() -> Vec<u8> {
    let status = |t| match t % 8 {
        1 => Status::Aborted,
        _ => Status::Committed,
    };
    planned_with(status, |t| {
        let group = (t - 1) / 8;
        let steps = match (t - 1) % 8 {
            0 => vec![Write(1, values_of_group(group)[0])],
            1 => reads_beside_own_writes(group),
            member => reads_of_others(group + member),
        };
        (t as u16, steps)
    })
}

/// The values that a group writes: the aborted one, the intermediate one and
/// the one that lasts. The group behind the last is the first again.
fn values_of_group(group: u32) -> [u64; 3] {
    const GROUPS: u32 = 16;
    [1, 2, 3].map(|n| u64::from(3 * (group % GROUPS) + n))
}

/// Kind 3, the two writes, then kinds 4 and 5 in turn.
fn reads_beside_own_writes(group: u32) -> Vec<Step> {
    let [_, first, last] = values_of_group(group);
    let mut steps: Vec<Step> = (0..13).map(|n| Read(1, [first, last][n % 2])).collect();
    steps.extend([Write(1, first), Write(1, last)]);
    let lasting = |other| values_of_group(other)[2];
    steps.extend((1..=12).flat_map(|n| [Read(1, first), Read(1, lasting(group + n))]));
    steps
}

/// Kinds 2 and 6 in turn, each of a group a quarter of the trace further on.
fn reads_of_others(group: u32) -> Vec<Step> {
    let aborted = |other| Read(1, values_of_group(other)[0]);
    let intermediate = |other| Read(1, values_of_group(other)[1]);
    vec![
        aborted(group),
        intermediate(group + 4),
        aborted(group + 8),
        intermediate(group + 12),
    ]
}

/// 126 unanswered ones, each read by the next and the last by a committed one:
/// the last comes to count first, so that what counts runs against the numbers.
fn read_by_next() -> Vec<u8> {
    let status = |t| match t {
        MAX_TRANSACTIONS => Status::Committed,
        _ => Status::Unanswered,
    };
    planned_with(status, |t| link(t, (t > 1).then(|| t - 1)))
}

/// The same chain the other way round: each reads the next, and the first is
/// the committed one.
fn reads_next() -> Vec<u8> {
    let status = |t| match t {
        1 => Status::Committed,
        _ => Status::Unanswered,
    };
    planned_with(status, |t| link(t, (t < 127).then(|| t + 1)))
}

/// A transaction of such a chain, which reads four values of its source.
fn link(t: u32, source: Option<u32>) -> (u16, Vec<Step>) {
    let reads = source
        .into_iter()
        .flat_map(|source| (0..4).map(move |key| Read(key, source.into())));
    let writes = (0..4).map(|key| Write(key, t.into()));
    (t as u16, reads.chain(writes).collect())
}

/// Each transaction reads what the next one wrote, so that what leads to what
/// runs against the numbers, by up to 126 steps; and all write the same two
/// keys, so that each that leads to a reader is a rival.
fn chain() -> Vec<u8> {
    planned(|t| {
        let (own, next) = (u64::from(t), u64::from(t) + 1);
        let mut steps = Vec::new();
        if t < 127 {
            steps.extend([Read(1, next), Read(2, next)]);
        }
        steps.extend([Write(1, own), Write(2, own)]);
        (t as u16, steps)
    })
}

/// One reader takes all it reads from all the others: each of its reads has
/// many earlier ones to compare with, and each source is a rival of each.
fn sources() -> Vec<u8> {
    planned(|t| {
        let steps = if t < 127 {
            (0..4).map(|key| Write(key, t.into())).collect()
        } else {
            (0..504)
                .map(|n| Read(n % 4, u64::from(n) / 4 + 1))
                .collect()
        };
        (t as u16, steps)
    })
}

/// Every search for a rival goes to its end and finds none. Half write and
/// half read, all in one session, so that every writer leads to every reader;
/// but no key is written twice. Each reader has 8 sources.
fn unsettled() -> Vec<u8> {
    const WRITERS: u32 = 64;
    planned(|t| {
        let key = |writer: u32, n: u32| (writer % WRITERS) * 8 + n;
        let steps = if t <= WRITERS {
            (0..8).map(|n| Write(key(t, n), 1)).collect()
        } else {
            (0..8).map(|n| Read(key(t + 8 * n, n), 1)).collect()
        };
        (1, steps)
    })
}

/// The same where keys can not be told apart by their buckets: all of them are
/// multiples of 128. In one session each writes and the later ones read, the later
/// the more, each read from another source; and no key is written twice.
fn one_bucket() -> Vec<u8> {
    let key = |writer: u32, n: u32| 128 * (16 * writer + n);
    let reads = |t: u32| t / 16;
    // One more for the first eight, so that all 1,024 are in the bucket.
    let writes = |t: u32| 8 - reads(t) + u32::from(t <= 8);
    planned(|t| {
        let source = |n: u32| t - 15 * n;
        let read = |n: u32| Read(key(source(n), n % writes(source(n))), 1);
        let mut steps: Vec<Step> = (1..=reads(t)).map(read).collect();
        steps.extend((0..writes(t)).map(|n| Write(key(t, n), 1)));
        (1, steps)
    })
}

/// One reader and 126 writers, all of keys that are multiples of 128: the reader
/// reads 520 of them, each once, in turn from all writers and then 16 that nobody
/// wrote. No source of one read writes the key of another.
fn one_reader() -> Vec<u8> {
    const WRITERS: u32 = 126;
    const WRITTEN: u32 = 4 * WRITERS;
    planned(|t| {
        let steps = if t <= WRITERS {
            (0..4)
                .map(|n| Write(128 * (t - 1 + n * WRITERS), 1))
                .collect()
        } else {
            (0..MAX_OPERATIONS as u32 - WRITTEN)
                .map(|n| Read(128 * n, u64::from(n < WRITTEN)))
                .collect()
        };
        (t as u16, steps)
    })
}

/// Every second operation is a read that looks for a write in vain.
fn thin_air() -> Vec<u8> {
    planned(|t| {
        let value = u64::from(t);
        let steps = (0..4).flat_map(|key| [Write(key, value), Read(key, 1_000 + value)]);
        (t as u16, steps.collect())
    })
}

/// A cycle through all transactions, in which each reads from six more: all
/// of these pairs are listed.
fn cycle() -> Vec<u8> {
    planned(|t| {
        let reads = [1, 2, 4, 8, 16, 32, 64].map(|step| Read((t + step) % 127, 1));
        let mut steps = vec![Write(t % 127, 1)];
        steps.extend(reads);
        (t as u16, steps)
    })
}

/// One session whose first transaction reads from its last, so that every
/// session pair is listed; and all write what the others read, so that almost
/// every pair is a rival's too.
fn session_cycle() -> Vec<u8> {
    planned(|t| {
        let source = if t == 1 { 127 } else { t - 1 };
        let reads = (0..4).map(|key| Read(key, source.into()));
        let writes = (0..4).map(|key| Write(key, t.into()));
        (1, reads.chain(writes).collect())
    })
}
