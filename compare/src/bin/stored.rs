//! Writes the stored input and output of the programs `stream` and `scribe`.
//!
//! For `stream` these are all cases with known answers, each trace behind its
//! length, each answer before a line `--`; for `scribe` some items, each answer
//! behind its length, and the number of notes behind each move to edition 2.

use ferozhak_compare::process::{behind_length, kept};
use ferozhak_compare::scribes::{Way, AMPLE};
use ferozhak_compare::trace::{APPEND, EDITION, LIST_READ, MAX_TRANSACTIONS};
use ferozhak_compare::writing::{self, Step};
use ferozhak_compare::{cases, text};
use std::path::Path;
use std::process::ExitCode;
use std::{env, fs, io};

const USAGE: &str = "Usage:
  stored DIR             writes stdin and stdout of the crate `stream` into its folder DIR
  stored --scribe DIR    the same of the crate `scribe`
";

fn main() -> ExitCode {
    let arguments: Vec<String> = env::args().skip(1).collect();
    let words: Vec<&str> = arguments.iter().map(String::as_str).collect();
    let (folder, (input, output)) = match words[..] {
        ["--scribe", folder] => (folder, scribe()),
        [folder] if !folder.starts_with("--") => (folder, stream()),
        _ => {
            eprint!("{USAGE}");
            return ExitCode::from(2);
        }
    };
    match write(Path::new(folder), &input, &output) {
        Ok(()) => ExitCode::SUCCESS,
        Err(error) => {
            eprintln!("stored: {folder}: {error}");
            ExitCode::FAILURE
        }
    }
}

fn write(folder: &Path, input: &[u8], output: &[u8]) -> io::Result<()> {
    fs::write(folder.join("stdin"), input)?;
    fs::write(folder.join("stdout"), output)
}

/// Input and output of `stream`.
fn stream() -> (Vec<u8>, Vec<u8>) {
    let mut input = Vec::new();
    let mut output = String::new();
    for case in cases::all() {
        input.extend(behind_length(kept(&case.bytes)));
        output.push_str(&case.output);
        output.push_str("--\n");
    }
    (input, output.into_bytes())
}

/// Input and output of `scribe`.
fn scribe() -> (Vec<u8>, Vec<u8>) {
    let mut input = Vec::new();
    let mut output = Vec::new();
    for (way, room, bytes) in items() {
        input.push(way.letter());
        input.extend(room.to_le_bytes());
        input.extend(behind_length(&bytes));
        output.extend(way.answer(&bytes, room.into()).in_scribe());
    }
    (input, output)
}

/// What is asked, the room, and of what.
type Item = (Way, u16, Vec<u8>);

const CASE_16: &str = "T1 w1=11 w2=21; T2 w1=12 w2=22; T3 r1=12 r2=21";

fn items() -> Vec<Item> {
    let mut items = steps();
    items.extend(traces());
    items.extend(unanswered());
    items.extend(edition_2());
    items.extend(moves());
    items.extend(notes());
    items.extend(lists());
    items
}

fn encode(notation: &str) -> Vec<u8> {
    text::encode(notation.as_bytes()).expect("what is stored can be encoded")
}

fn steps_of(notation: &str) -> Vec<u8> {
    text::steps(notation.as_bytes()).expect("what is stored has steps")
}

/// The trace without its last bytes.
fn cut(trace: &[u8], bytes: usize) -> Vec<u8> {
    trace[..trace.len() - bytes].to_vec()
}

/// Steps that are written, with different rooms, and a fault of each number.
fn steps() -> Vec<Item> {
    let case_16 = steps_of(CASE_16);
    let no_steps = steps_of("serial 7");
    let kind_5 = Step {
        kind: 5,
        ..Step::default()
    };
    let mut many: Vec<Step> = [Step::open(0), Step::close(0)].repeat(MAX_TRANSACTIONS);
    many.push(Step::open(0));
    let mut items = vec![
        (AMPLE, case_16.clone()),
        (187, case_16.clone()),
        (186, case_16.clone()),
        (0, case_16.clone()),
        (
            AMPLE,
            steps_of("serial 4294967294; T1 w1=5; T2 r1=5 aborted"),
        ),
        (AMPLE, vec![1, 0, 0]),
        (AMPLE, vec![]),
        (AMPLE, no_steps.clone()),
        (0, no_steps),
        (AMPLE, cut(&case_16, 1)),
    ];
    for steps in [
        vec![Step::open(0), kind_5],
        vec![Step::open(0), Step::read(1, 2), Step::open(0)],
        vec![Step::open(0), Step::read(1, 2)],
        vec![Step::open(0), Step::write(1, 0)],
        vec![Step::open(0), Step::close(2)],
        many,
        vec![Step::open(0), Step::write(1, 2), Step::write(1, 2)],
    ] {
        items.push((AMPLE, writing::input_of(1, &steps)));
    }
    let item = |(room, bytes)| (Way::Steps, room, bytes);
    items.into_iter().map(item).collect()
}

/// Traces turned into steps and rewritten, with different rooms.
fn traces() -> Vec<Item> {
    let case_16 = encode(CASE_16);
    let noted = encode(r#"note "first"; T1 w1=5 note "second"; T2 r1=5 aborted"#);
    vec![
        (Way::List, AMPLE, case_16.clone()),
        (Way::List, 192, case_16.clone()),
        (Way::List, 191, case_16.clone()),
        (Way::List, AMPLE, vec![]),
        (Way::List, AMPLE, cut(&case_16, 1)),
        (Way::List, 0, [case_16.as_slice(), &[0]].concat()),
        (Way::List, AMPLE, noted.clone()),
        (Way::Rewrite, AMPLE, case_16.clone()),
        (Way::Rewrite, 187, case_16.clone()),
        (Way::Rewrite, 186, case_16.clone()),
        (Way::Rewrite, 0, case_16[..4].to_vec()),
        (Way::Rewrite, AMPLE, noted),
    ]
}

fn unanswered() -> Vec<Item> {
    let trace = encode("serial 7; T1 w1=5 unanswered");
    vec![
        (Way::Steps, 100, steps_of("serial 7; T1 w1=5 unanswered")),
        (Way::Steps, 100, steps_of("serial 7; T1 w1=5 status 3")),
        (Way::List, 100, trace.clone()),
        (Way::Rewrite, 100, trace),
    ]
}

/// Steps stay with edition 1: a trace of edition 2 is refused by the reader, or
/// else for its first record, whatever the room.
fn edition_2() -> Vec<Item> {
    let traces = [
        encode("edition 2; T1 w1=5 ..; T2 r1=5; T1 .."),
        encode("edition 2; T1 w1=5; T2 r1=5"),
        encode("edition 2"),
        encode("edition 3"),
        encode("edition 2; T1; note \"\""),
        encode("edition 2; T1 ..; T2"),
        cut(&encode("edition 2; T1"), 1),
        [encode("edition 2; T1").as_slice(), &[0]].concat(),
    ];
    let of_trace = |trace: &Vec<u8>| {
        [(Way::List, AMPLE), (Way::Rewrite, 0)].map(|(way, room)| (way, room, trace.clone()))
    };
    let mut items: Vec<Item> = traces.iter().flat_map(of_trace).collect();
    let step = Step {
        kind: EDITION,
        detail: 2,
        ..Step::default()
    };
    items.push((Way::Steps, AMPLE, writing::input_of(0, &[step])));
    items
}

/// Traces of both editions moved to both, with just enough room and with a byte
/// less; and refused ones, whatever the room.
fn moves() -> Vec<Item> {
    let read = [
        "",
        CASE_16,
        "serial 4294967294; note \"first\"; T1 s7 w1=5 note \"second\" aborted; T2 s7; T3 r1=5 unanswered",
        "serial 4294967295; edition 2",
        "edition 2; T1 w1=5 ..; T2 r1=5 ..; T3; T2 .. w2=6 unanswered; T1 .. w1=7 aborted",
        "serial 4294967290; edition 2; T1 s1 ..; T2 s2 r1=4 ..; T1 .. r1=3; T2 .. w1=3; T3 s2 r1=0",
    ];
    let case_16 = encode(CASE_16);
    let refused = [
        vec![],
        cut(&case_16, 1),
        [case_16.as_slice(), &[0]].concat(),
        encode("T1 w1=0"),
        encode("T1 status 3"),
        encode("T1 w1=5; T2 w1=5"),
        encode("edition 3"),
        encode("edition 2; T1; note \"\""),
        encode("edition 2; T1 ..; T2"),
        encode("edition 2; end 1"),
    ];
    let both = [Way::ToEdition1, Way::ToEdition2];
    let mut items = Vec::new();
    for trace in read.map(encode) {
        for way in both {
            let moved = way.answer(&trace, AMPLE.into()).written;
            let needed = moved.expect("a trace that is read").len() as u16;
            items.extend([needed, needed - 1].map(|room| (way, room, trace.clone())));
        }
    }
    for trace in refused {
        items.extend(both.map(|way| (way, 0, trace.clone())));
    }
    items
}

/// Moves to edition 2 of traces with notes, whose number is answered too: none,
/// few, more than a byte can say; and refused ones, whose number is not.
fn notes() -> Vec<Item> {
    let many = "note \"\"; ".repeat(258) + "T1 s1";
    let long = "n".repeat(65);
    [
        ("T1 s1", AMPLE),
        ("note \"a\"", AMPLE),
        ("note \"a\"", 19),
        ("T1 s1 note \"\" note \"\"", AMPLE),
        (
            "note \"a\"; T1 s1 note \"b\" w1=5 note \"c\" r1=5 note \"d\"; note \"e\"",
            AMPLE,
        ),
        (&many, AMPLE),
        (&many, 40),
        (&format!("note \"a\"; note \"{long}\""), AMPLE),
        ("note \"a\"; T1 s1; note \"b\"; end 2", AMPLE),
        ("edition 2; T1 s1 w1=5", AMPLE),
    ]
    .map(|(notation, room)| (Way::ToEdition2, room, encode(notation)))
    .into()
}

/// Steps of the kinds of lists, and traces with lists: they stay in edition 2, have no
/// steps, and are refused where a key has single values too.
fn lists() -> Vec<Item> {
    let step = |kind| Step {
        kind,
        ..Step::write(1, 5)
    };
    let steps = [APPEND, LIST_READ].map(|kind| {
        let steps = [Step::open(1), step(kind), Step::close(1)];
        (Way::Steps, AMPLE, writing::input_of(0, &steps))
    });
    let mut items: Vec<Item> = steps.into();
    let read =
        encode("edition 2; T1 w9=5 a1=5 ..; T2 l1=5 r9=5 a1=6; T1 .. aborted; T3 l1=5,6 l2=");
    let needed = read.len() as u16;
    for (way, room) in [
        (Way::List, AMPLE),
        (Way::Rewrite, AMPLE),
        (Way::ToEdition1, AMPLE),
        (Way::ToEdition1, 0),
        (Way::ToEdition2, needed),
        (Way::ToEdition2, needed - 1),
    ] {
        items.push((way, room, read.clone()));
    }
    let traces = Way::ALL.into_iter().filter(|&way| way != Way::Steps);
    for way in traces {
        for notation in [
            "edition 2; T1 w1=5; T2 a1=6",
            "edition 2; T1 l1= aborted; T2 r1=0",
        ] {
            items.push((way, 0, encode(notation)));
        }
    }
    items
}
