//! The writer: its known cases, its neighbouring refusals, its buffers, and
//! the programs that compare it.

use ferozhak_compare::random::Random;
use ferozhak_compare::scribes::{self, Program, Way};
use ferozhak_compare::trace::{self, Edition, Refusal, Trace};
use ferozhak_compare::workers::Extent;
use ferozhak_compare::writing::{
    first_serial, input_of, print, read_unchecked, rewrite, steps_of, steps_to_bytes, write,
    write_input, Step, STEP_SIZE,
};
use ferozhak_compare::{cases, generate, process, sequence_cases, sequences, text};

const AMPLE: usize = 65_535;

fn refusal(number: u8, place: usize) -> Result<Vec<u8>, Refusal> {
    Err(Refusal { number, place })
}

fn written(steps: &[Step]) -> Result<Vec<u8>, Refusal> {
    write(&steps_to_bytes(steps), 0, AMPLE)
}

#[test]
fn every_case_gives_its_answer() {
    for case in sequence_cases::all() {
        assert_eq!(
            write_input(&case.input, AMPLE),
            case.answer,
            "{}",
            case.name
        );
    }
}

#[test]
fn every_refusal_of_a_step_is_among_the_cases() {
    let cases = sequence_cases::all();
    for number in [3, 6, 7, 8, 9, 10] {
        let given = |r: &Refusal| r.number == number;
        let has = cases.iter().any(|c| c.answer.as_ref().is_err_and(given));
        assert!(has, "{number}");
    }
}

#[test]
fn p1_p12_and_case_16_are_the_bytes_of_their_notation() {
    let of = |name: &str| {
        let cases = sequence_cases::all();
        let case = cases.into_iter().find(|case| case.name == name).unwrap();
        write_input(&case.input, AMPLE).unwrap()
    };
    let document = cases::document();
    let noted = |name: &str| {
        &document
            .iter()
            .find(|case| case.name == name)
            .unwrap()
            .bytes
    };
    assert_eq!(of("no steps: P1"), *noted("P1"));
    assert_eq!(of("no steps: P1").len(), 10);
    assert_eq!(of("P12"), *noted("P12"));
    assert_eq!(of("case 16"), *noted("case 16"));
    assert_eq!(of("case 16").len(), 187);
}

#[test]
fn one_step_with_ever_fewer_faults_goes_through_the_rows() {
    // Outside, above the limit, value 0, repeated: one fault less a line.
    let mut full = vec![Step::open(1)];
    full.extend((1..=1_024).map(|value| Step::write(1, value)));
    let behind = |steps: &[Step], step: Step| {
        let all = [steps, &[step]].concat();
        let refusal = written(&all).unwrap_err();
        assert_eq!(refusal.place, all.len());
        refusal.number
    };
    let closed = [full.as_slice(), &[Step::close(1)]].concat();
    let no_kind = Step {
        kind: 7,
        ..Step::default()
    };
    assert_eq!(behind(&closed, no_kind), 6);
    assert_eq!(behind(&closed, Step::write(1, 0)), 7);
    assert_eq!(behind(&full, Step::write(1, 0)), 8);
    assert_eq!(behind(&full, Step::write(1, 1)), 9);
    assert_eq!(behind(&full[..1_024], Step::write(1, 1)), 10);
    let lawful = [&full[..1_024], &[Step::write(2, 1), Step::close(1)]].concat();
    assert!(written(&lawful).is_ok());
}

#[test]
fn a_sequence_that_ends_inside_is_refused_behind_its_steps() {
    assert_eq!(written(&[Step::open(1)]), refusal(7, 2));
    assert_eq!(
        written(&[Step::open(1), Step::close(1), Step::open(1)]),
        refusal(7, 4)
    );
    // The rest is a step, and comes before the end.
    let mut steps = steps_to_bytes(&[Step::open(1)]);
    steps.push(4);
    assert_eq!(write(&steps, 0, AMPLE), refusal(6, 2));
}

#[test]
fn both_limits_are_written_in_22903_bytes() {
    let cases = sequence_cases::all();
    let name = "127 transactions and 1,024 operations";
    let case = cases.iter().find(|case| case.name == name).unwrap();
    let trace = case.answer.as_ref().unwrap();
    assert_eq!(trace.len(), 127 * 10 + 1_024 * 20 + 127 * 9 + 10);
    assert_eq!(trace.len(), 22_903);
    assert_eq!(write_input(&case.input, 22_903).as_ref(), Ok(trace));
    assert_eq!(write_input(&case.input, 22_902), refusal(16, 22_903));
    assert_eq!(steps_of(trace, AMPLE).unwrap(), case.input[4..]);
    assert_eq!(steps_of(trace, 20_447), refusal(16, 20_448));
}

#[test]
fn serials_follow_through_the_wrap() {
    let steps = steps_to_bytes(&[Step::open(1), Step::read(1, 0), Step::close(0)]);
    for (serial, expected) in [
        (0, [0, 1, 2, 3]),
        (
            u32::MAX - 3,
            [u32::MAX - 3, u32::MAX - 2, u32::MAX - 1, u32::MAX],
        ),
        (u32::MAX - 2, [u32::MAX - 2, u32::MAX - 1, u32::MAX, 0]),
        (u32::MAX, [u32::MAX, 0, 1, 2]),
    ] {
        let trace = write(&steps, serial, AMPLE).unwrap();
        let serials: Vec<u32> = trace::records(&trace).map(|record| record.serial).collect();
        assert_eq!(serials, expected);
        assert!(Trace::parse(&trace).is_ok());
        assert_eq!(first_serial(&trace), serial);
        assert_eq!(rewrite(&trace, AMPLE), Ok(trace));
    }
}

#[test]
fn a_buffer_too_short_comes_after_all_others() {
    let steps = steps_to_bytes(&[Step::open(1), Step::write(1, 5), Step::close(1)]);
    let trace = write(&steps, 0, 49).unwrap();
    assert_eq!(trace.len(), 49);
    for room in [0, 10, 48] {
        assert_eq!(write(&steps, 0, room), refusal(16, 49));
        assert_eq!(rewrite(&trace, room), refusal(16, 49));
        assert_eq!(steps_of(&trace, room.min(47)), refusal(16, 48));
    }
    assert_eq!(rewrite(&trace, 49).as_ref(), Ok(&trace));
    assert_eq!(steps_of(&trace, 48).as_ref(), Ok(&steps));
    // The end record alone needs room; no steps need none.
    assert_eq!(write(&[], 0, 9), refusal(16, 10));
    assert_eq!(write(&[], 0, 10).unwrap().len(), 10);
    assert_eq!(steps_of(&write(&[], 0, 10).unwrap(), 0), Ok(vec![]));
    // Any fault comes first, at the first step and behind the last.
    assert_eq!(write(&steps[16..], 0, 0), refusal(7, 1));
    assert_eq!(write(&steps[..32], 0, 0), refusal(7, 3));
    assert_eq!(write(&steps[..47], 0, 0), refusal(6, 3));
    assert_eq!(write_input(&[1, 2, 3], 0), refusal(3, 0));
    assert_eq!(steps_of(&[], 0), refusal(3, 0));
    assert_eq!(rewrite(&[&trace[..], &[0]].concat(), 0), refusal(11, 49));
}

#[test]
fn known_traces_are_rewritten_or_refused_as_they_are_read() {
    for case in cases::all() {
        let rewritten = rewrite(&case.bytes, AMPLE);
        let steps = steps_of(&case.bytes, AMPLE);
        if let Err(by_reader) = Trace::parse(&case.bytes) {
            assert_eq!(rewritten, Err(by_reader), "{}", case.name);
            assert_eq!(steps, Err(by_reader), "{}", case.name);
            assert_eq!(print(&rewritten), case.output.as_bytes(), "{}", case.name);
            continue;
        }
        if Edition::of(&case.bytes) == Edition::Two {
            assert_eq!(rewritten, refusal(6, 0), "{}", case.name);
            assert_eq!(steps, refusal(6, 0), "{}", case.name);
            continue;
        }
        let is_note = |record: &trace::Record| record.kind == trace::NOTE;
        let notes = trace::records(&case.bytes).filter(is_note).count();
        let records = trace::records(&case.bytes).count();
        assert_eq!(steps.unwrap().len(), (records - notes - 1) * STEP_SIZE);
        if notes == 0 {
            assert_eq!(rewritten, Ok(case.bytes), "{}", case.name);
        } else {
            assert_ne!(rewritten, Ok(case.bytes), "{}", case.name);
        }
    }
}

#[test]
fn steps_stay_with_edition_1() {
    let encode = |text: &str| text::encode(text.as_bytes()).unwrap();
    let trace = encode("edition 2; T1 w1=5 ..; T2 r1=5; T1 ..");
    // In blocks too, without transactions too; and before the buffer is asked for.
    for text in ["edition 2", "edition 2; T1 w1=5; T2 r1=5"] {
        for room in [0, AMPLE] {
            assert_eq!(steps_of(&encode(text), room), refusal(6, 0), "{text}");
            assert_eq!(rewrite(&encode(text), room), refusal(6, 0), "{text}");
        }
    }
    // What the reader refuses comes first, to the last byte.
    for (damaged, number, place) in [
        (encode("edition 3"), 8, 0),
        (encode("edition 2; note \"\""), 6, 10),
        (encode("edition 2; T1 ..; T2; end 2"), 7, 41),
        (trace[..trace.len() - 1].to_vec(), 3, trace.len() - 10),
        ([&trace[..], &[0]].concat(), 11, trace.len()),
    ] {
        for room in [0, AMPLE] {
            assert_eq!(steps_of(&damaged, room), refusal(number, place));
            assert_eq!(rewrite(&damaged, room), refusal(number, place));
        }
    }
    assert_eq!(steps_of(&trace, 0), refusal(6, 0));
    assert_eq!(rewrite(&trace, 0), refusal(6, 0));
}

#[test]
fn notes_are_left_out_and_serials_close_up() {
    let noted = "serial 4294967294; note \"a\"; T1 w1=5 note \"b\" r1=5 aborted; note \"c\"; T2 s1";
    let plain = "serial 4294967294; T1 s2 w1=5 r1=5 aborted; T2 s1";
    let [noted, plain] = [noted, plain].map(|text| text::encode(text.as_bytes()).unwrap());
    assert_eq!(rewrite(&noted, AMPLE), Ok(plain.clone()));
    assert_eq!(rewrite(&plain, AMPLE), Ok(plain.clone()));
    let steps = steps_to_bytes(&[
        Step::open(2),
        Step::write(1, 5),
        Step::read(1, 5),
        Step::close(0),
        Step::open(1),
        Step::close(1),
    ]);
    assert_eq!(steps_of(&noted, AMPLE).as_ref(), Ok(&steps));
    assert_eq!(steps_of(&plain, AMPLE), Ok(steps));
}

#[test]
fn steps_are_sixteen_bytes_little_endian() {
    let step = Step {
        kind: 0x0201,
        detail: 0x0403,
        key: 0x0807_0605,
        value: 0x100f_0e0d_0c0b_0a09,
    };
    let bytes: Vec<u8> = (1..=16).collect();
    assert_eq!(step.to_bytes(), bytes[..]);
    assert_eq!(Step::from_bytes(&bytes), Some(step));
    assert_eq!(Step::from_bytes(&bytes[..15]), None);
    let input = input_of(0x0403_0201, &[step]);
    assert_eq!(input, [&bytes[..4], &bytes].concat());
}

#[test]
fn writer_and_reader_agree_on_random_sequences() {
    let (mut written, mut refused) = (0, [0; Refusal::NUMBERS]);
    for stream in 0..6_000 {
        let (_, input) = sequences::any(&mut Random::new(6, stream));
        let Some((serial, steps)) = input.split_first_chunk() else {
            continue;
        };
        let serial = u32::from_le_bytes(*serial);
        match (write(steps, serial, AMPLE), read_unchecked(steps, serial)) {
            (Ok(trace), Ok(read)) => {
                let again = Trace::parse(&trace).unwrap();
                assert_eq!(again.transactions, read.transactions, "{stream}");
                assert_eq!(again.operations, read.operations, "{stream}");
                written += 1;
            }
            (ours, theirs) => {
                assert_eq!(ours.as_ref().err(), theirs.as_ref().err(), "{stream}");
                refused[usize::from(ours.unwrap_err().number)] += 1;
            }
        }
    }
    assert!(written > 2_000);
    assert!(
        refused[6..=10].iter().all(|&count| count > 50),
        "{refused:?}"
    );
}

#[test]
fn readable_random_traces_are_rewritten() {
    let (mut alike, mut with_notes, mut of_edition_2) = (0, 0, 0);
    for stream in 0..3_000 {
        let (_, trace) = generate::any(&mut Random::new(7, stream));
        let Ok(read) = Trace::parse(&trace) else {
            continue;
        };
        if read.edition == Edition::Two {
            assert_eq!(rewrite(&trace, AMPLE), refusal(6, 0), "{stream}");
            of_edition_2 += 1;
            continue;
        }
        let rewritten = rewrite(&trace, AMPLE).unwrap();
        let again = Trace::parse(&rewritten).unwrap();
        assert_eq!(again.transactions, read.transactions, "{stream}");
        assert_eq!(again.operations, read.operations, "{stream}");
        if trace::records(&trace).any(|record| record.kind == trace::NOTE) {
            with_notes += 1;
        } else {
            assert_eq!(rewritten, trace, "{stream}");
            alike += 1;
        }
    }
    assert!(alike > 500 && with_notes > 150, "{alike} {with_notes}");
    assert!(of_edition_2 > 1_000, "{of_edition_2}");
}

fn extent(traces: usize, threads: usize) -> Extent {
    Extent {
        traces,
        seed: 8,
        threads,
    }
}

const SCRIBE: &str = env!("CARGO_BIN_EXE_rustscribe");

#[test]
fn the_comparison_finds_no_difference_from_itself() {
    for (program, traces) in [
        (Program::Scribe(SCRIBE.into()), 500),
        (Program::Once(Way::Steps, format!("{SCRIBE} --writer")), 20),
        (
            Program::Once(Way::Rewrite, format!("{SCRIBE} --rewrite")),
            20,
        ),
    ] {
        let (summary, difference) = scribes::compare(&program, &extent(traces, 2));
        assert!(difference.is_none(), "{summary}{difference:?}");
        assert!(!summary.contains("did not occur"), "{summary}");
    }
}

#[test]
fn the_comparison_finds_programs_that_answer_otherwise() {
    for program in [
        Program::Scribe("/bin/cat".into()),
        Program::Scribe("/bin/true".into()),
        Program::Scribe("/no/such/program".into()),
        Program::Once(Way::Steps, format!("{SCRIBE} --rewrite")),
        Program::Once(Way::Rewrite, format!("{SCRIBE} --writer")),
    ] {
        let (_, difference) = scribes::compare(&program, &extent(10, 1));
        assert!(difference.is_some());
    }
}

#[test]
fn a_run_of_the_scribe_answers_item_by_item() {
    let item = |way: Way, room: u16, bytes: &[u8]| {
        let mut item = vec![way.letter()];
        item.extend(room.to_le_bytes());
        item.extend((bytes.len() as u16).to_le_bytes());
        item.extend(bytes);
        item
    };
    let p1 = [8, 0, 5, 0, 9, 0, 0, 0, 0, 0];
    let input = [
        item(Way::Steps, 10, &[9, 0, 0, 0]),
        item(Way::Steps, 9, &[9, 0, 0, 0]),
        item(Way::Steps, 9, &[9, 0, 0]),
        item(Way::List, 0, &p1),
        item(Way::Rewrite, 10, &p1),
        item(Way::Rewrite, 10, &p1[..9]),
    ]
    .concat();
    let output = [
        [10, 0].as_slice(),
        &p1,
        &[14, 0],
        b"refused 16 10\n",
        &[12, 0],
        b"refused 3 0\n",
        &[0, 0],
        &[10, 0],
        &p1,
        &[12, 0],
        b"refused 3 0\n",
    ]
    .concat();
    assert_eq!(process::run_once(SCRIBE, &input), Ok(output));
}
