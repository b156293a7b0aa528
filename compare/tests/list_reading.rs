//! Appends and list reads as records: how they are laid out and read, which keys are
//! mixed, where they may not be, and whether the random traces have all of that.

use ferozhak_compare::encode::Writer;
use ferozhak_compare::moving::{self, to_edition_1, to_edition_2};
use ferozhak_compare::random::Random;
use ferozhak_compare::trace::{self, Action, Edition, Operation, Refusal, Sort, Status, Trace};
use ferozhak_compare::weave;
use ferozhak_compare::writing::{rewrite, steps_of};
use ferozhak_compare::{generate, list_cases, list_traces, text};
use std::collections::BTreeMap;

const AMPLE: usize = usize::MAX;

fn encode(notation: &str) -> Vec<u8> {
    text::encode(notation.as_bytes()).unwrap()
}

fn read(notation: &str) -> Trace {
    Trace::parse(&encode(notation)).unwrap()
}

fn random_traces(seed: u64, count: u64) -> impl Iterator<Item = (u64, Vec<u8>)> {
    (0..count).map(move |stream| {
        let (_, bytes) = generate::any_with_lists(&mut Random::new(seed, stream));
        (stream, bytes)
    })
}

#[test]
fn the_records_are_laid_out_as_requested() {
    let bytes = encode("serial 258; edition 2; T1 s772 a1=2 l3= l5=6,7");
    let records: Vec<(u16, u32, Vec<u8>)> = trace::records(&bytes)
        .map(|record| (record.kind, record.serial, record.payload.to_vec()))
        .collect();
    let value = |low: u8| [low, 0, 0, 0, 0, 0, 0, 0];
    let expected = [
        (23, 260, [&[4, 3, 1, 0, 0, 0], &value(2)[..]].concat()),
        (24, 261, vec![4, 3, 3, 0, 0, 0, 0, 0]),
        (
            24,
            262,
            [&[4, 3, 5, 0, 0, 0, 2, 0], &value(6)[..], &value(7)].concat(),
        ),
    ];
    assert_eq!(records[2..5], expected);
    let lengths = records.iter().map(|(_, _, payload)| 6 + payload.len());
    assert_eq!(lengths.collect::<Vec<usize>>(), [8, 8, 20, 14, 30, 9, 8]);
}

#[test]
fn what_is_written_is_read() {
    let trace = read("edition 2; T1 a1=5 ..; T2 w2=5 l1=5,6 l3=; T1 .. r2=5 a1=6");
    let expected = [
        (1, 1, Action::Append(5)),
        (2, 2, Action::Write(5)),
        (2, 1, Action::ReadList(vec![5, 6])),
        (2, 3, Action::ReadList(vec![])),
        (1, 2, Action::Read(5)),
        (1, 1, Action::Append(6)),
    ];
    let expected = expected.map(|(transaction, key, action)| Operation {
        transaction,
        key,
        action,
    });
    assert_eq!(trace.operations, expected);
    // Numbered with the others, and found by their own numbers.
    for (key, value, write, append) in [
        (1, 5, None, Some(1)),
        (1, 6, None, Some(6)),
        (2, 5, Some(2), None),
        (3, 5, None, None),
        (1, 0, None, None),
    ] {
        assert_eq!(trace.find_write(key, value), write, "{key}={value}");
        assert_eq!(trace.find_append(key, value), append, "{key}={value}");
    }
}

#[test]
fn operations_on_lists_are_listed_with_the_others() {
    let bytes = encode("edition 2; T1 a1=5 ..; T2 w2=5 l1=5,6 aborted; T1 .. l3= unanswered");
    let expected = "1 T1 a1=5 unanswered\n2 T2 w2=5 aborted\n3 T2 l1=5,6 aborted\n\
                    4 T1 l3= unanswered\n";
    assert_eq!(text::operations(&bytes).unwrap(), expected);
}

/// "A list read's length has to be 14 plus 8 times its own number, whatever the number;
/// a number of 33 with the length that fits it is then row 8's."
#[test]
fn a_list_read_has_as_many_values_as_it_says_and_no_more_than_32() {
    for number in (0..=40).chain([255, 256, 257, 288, 512, 4_096, 8_191, 8_192, 65_535]) {
        for values in (0..=40).chain([256, 288, 2_000]) {
            let mut writer = Writer::edition_2(0);
            writer.open(1);
            writer.numbered_list_in(1, 1, number, &vec![0; values]);
            writer.close_in(1, 1);
            let refused = Trace::parse(&writer.end())
                .err()
                .map(|r| (r.number, r.place));
            let expected = match (values == usize::from(number), values) {
                (true, 0..=32) => None,
                (true, _) => Some((8, 20)),
                (false, _) => Some((4, 20)),
            };
            assert_eq!(refused, expected, "{number} {values}");
        }
    }
}

#[test]
fn a_list_read_of_no_whole_number_of_values_is_refused() {
    for size in 0..100 {
        let mut writer = Writer::edition_2(0);
        writer.open(1);
        // Session 1, key 0, and as many values as there is room for.
        let mut payload = vec![0; size];
        for (place, byte) in [(0, 1), (6, size.saturating_sub(8) / 8)] {
            if let Some(at) = payload.get_mut(place) {
                *at = byte as u8;
            }
        }
        writer.record(trace::LIST_READ, &payload);
        writer.close_in(1, 1);
        let refused = Trace::parse(&writer.end())
            .err()
            .map(|r| (r.number, r.place));
        let is_whole = size >= 8 && size % 8 == 0;
        assert_eq!(refused, (!is_whole).then_some((4, 20)), "{size}");
    }
}

/// A record of a trace with all that row 17 needs.
struct Keyed {
    place: usize,
    key: u32,
    sort: Sort,
}

/// The operations of a trace of edition 2 as far as it is framed.
fn keyed(bytes: &[u8]) -> Vec<Keyed> {
    let mut place = 0;
    let mut keyed = Vec::new();
    for record in trace::records(bytes) {
        let sort = match record.kind {
            trace::READ | trace::WRITE => Some(Sort::Single),
            trace::APPEND | trace::LIST_READ => Some(Sort::List),
            _ => None,
        };
        if let (Some(sort), [_, _, a, b, c, d, ..]) = (sort, record.payload) {
            let key = u32::from_le_bytes([*a, *b, *c, *d]);
            keyed.push(Keyed { place, key, sort });
        }
        place += record.size();
    }
    keyed
}

/// The first record whose key has the other sort in an earlier one, by comparing every
/// two.
fn first_mixing(bytes: &[u8]) -> Option<usize> {
    let keyed = keyed(bytes);
    let mixes = |at: &usize| {
        let earlier = keyed[..*at].iter();
        let mut of_key = earlier.filter(|other| other.key == keyed[*at].key);
        of_key.any(|other| other.sort != keyed[*at].sort)
    };
    let first = (0..keyed.len()).find(mixes)?;
    Some(keyed[first].place)
}

#[test]
fn a_trace_is_refused_17_exactly_where_a_key_is_first_mixed() {
    let (mut mixed, mut not_mixed, mut refused_before) = (0, 0, 0);
    let known = list_cases::all().into_iter().map(|known| known.case.bytes);
    let random = random_traces(61, 20_000).map(|(_, bytes)| bytes);
    for bytes in known.chain(random) {
        if Edition::of(&bytes) == Edition::One {
            continue;
        }
        match (Trace::parse(&bytes), first_mixing(&bytes)) {
            (Ok(_), first) => {
                assert_eq!(first, None);
                not_mixed += 1;
            }
            (Err(Refusal { number: 17, place }), first) => {
                assert_eq!(first, Some(place));
                mixed += 1;
            }
            // Something else comes before it, in an earlier record or in the same.
            (Err(refusal), Some(first)) => {
                assert!(refusal.place <= first || refusal.number == 2);
                refused_before += 1;
            }
            (Err(_), None) => {}
        }
    }
    assert!(
        mixed > 300 && refused_before > 100,
        "{mixed} {refused_before}"
    );
    assert!(not_mixed > 5_000, "{not_mixed}");
}

/// By whom the first two operations that mix a key are, and of which kinds.
#[test]
fn random_traces_mix_keys_in_every_way() {
    let mut found: BTreeMap<String, usize> = BTreeMap::new();
    for (_, bytes) in random_traces(62, 20_000) {
        let Err(Refusal { number: 17, place }) = Trace::parse(&bytes) else {
            continue;
        };
        let keyed = keyed(&bytes);
        let at = keyed.iter().position(|other| other.place == place).unwrap();
        let is_other = |other: &&Keyed| other.key == keyed[at].key;
        let first = keyed[..at].iter().find(is_other).unwrap();
        let kind = |place: usize| u16::from_le_bytes([bytes[place + 2], bytes[place + 3]]);
        let words = format!("{}, then {}", kind(first.place), kind(place));
        *found.entry(words).or_default() += 1;
        let session = |place: usize| [bytes[place + 8], bytes[place + 9]];
        if session(first.place) != session(place) {
            *found.entry("of two sessions".into()).or_default() += 1;
        }
    }
    assert_eq!(found.len(), 9, "{found:#?}");
    for (words, count) in &found {
        assert!(*count >= 20, "{words}: {count}");
    }
}

/// Refusals of list records, each for what only they can have wrong, and the others.
#[test]
fn random_traces_have_list_records_refused_for_every_reason() {
    let mut found: BTreeMap<(u16, u8), usize> = BTreeMap::new();
    for (_, bytes) in random_traces(63, 20_000) {
        let Err(Refusal { number, place }) = Trace::parse(&bytes) else {
            continue;
        };
        if let Some([low, high]) = bytes.get(place + 2..place + 4) {
            let kind = u16::from_le_bytes([*low, *high]);
            *found.entry((kind, number)).or_default() += 1;
        }
    }
    for kind in [trace::APPEND, trace::LIST_READ] {
        for number in [3, 4, 5, 7, 8, 9, 17] {
            let count = found.get(&(kind, number)).copied().unwrap_or_default();
            assert!(count >= 5, "kind {kind}, refused {number}: {count}");
        }
    }
    assert!(found[&(trace::APPEND, 10)] >= 20, "{found:?}");
}

#[test]
fn both_sorts_of_keys_and_all_statuses_are_in_random_traces() {
    let (mut traces, mut both, mut only_lists) = (0, 0, 0);
    let mut statuses: BTreeMap<(u8, bool), usize> = BTreeMap::new();
    for (_, bytes) in random_traces(64, 4_000) {
        let Ok(trace) = Trace::parse(&bytes) else {
            continue;
        };
        let has = |sort: Sort| trace.operations.iter().any(|o| o.action.sort() == sort);
        traces += usize::from(has(Sort::List));
        both += usize::from(has(Sort::List) && has(Sort::Single));
        only_lists += usize::from(has(Sort::List) && !has(Sort::Single));
        for operation in trace
            .operations
            .iter()
            .filter(|o| o.action.sort() == Sort::List)
        {
            let status = trace.transactions[usize::from(operation.transaction) - 1].status;
            let is_append = operation.action.appended().is_some();
            *statuses.entry((status as u8, is_append)).or_default() += 1;
        }
    }
    assert!(
        traces > 2_000 && both > 700 && only_lists > 500,
        "{traces} {both} {only_lists}"
    );
    assert_eq!(statuses.len(), 2 * Status::ALL.len(), "{statuses:?}");
    assert!(statuses.values().all(|&count| count > 500), "{statuses:?}");
}

#[test]
fn a_trace_with_lists_does_not_go_to_edition_1() {
    for (notation, place) in [
        ("edition 2; T1 a1=5", 20),
        ("edition 2; T1 l1=", 20),
        ("edition 2; T1 w1=5 r1=5 l2=5,6 a2=5", 64),
        ("edition 2; T1 w1=5 ..; T2 a2=5 aborted; T1 .. r1=5 l2=", 52),
        (
            "serial 4294967295; edition 2; T1; T2 unanswered; T3 s9 l4=1",
            62,
        ),
    ] {
        let bytes = encode(notation);
        let stays = Refusal { number: 20, place };
        for room in [0, bytes.len(), AMPLE] {
            assert_eq!(to_edition_1(&bytes, room), Err(stays), "{notation}");
        }
        assert_eq!(to_edition_2(&bytes, bytes.len()), Ok((bytes.clone(), 0)));
        let short = Refusal {
            number: 16,
            place: bytes.len(),
        };
        assert_eq!(to_edition_2(&bytes, bytes.len() - 1), Err(short));
        // Without its lists it goes.
        let without = list_traces::left_out(&bytes);
        assert!(to_edition_1(&without, AMPLE).is_ok(), "{notation}");
        let no_steps = Refusal {
            number: 6,
            place: 0,
        };
        assert_eq!(steps_of(&bytes, 0), Err(no_steps));
        assert_eq!(rewrite(&bytes, 0), Err(no_steps));
    }
    // What is refused when it is read is not refused for its lists.
    for (notation, number, place) in [
        ("edition 2; T1 a1=5 a1=0", 8, 42),
        ("edition 2; T1 a1=5; end 2", 8, 53),
        ("edition 2; T1 a1=5 ..", 7, 42),
        ("edition 2; T1 a1=5 w1=5", 17, 42),
    ] {
        let refusal = Refusal { number, place };
        assert_eq!(
            to_edition_1(&encode(notation), 0),
            Err(refusal),
            "{notation}"
        );
    }
}

#[test]
fn a_move_is_refused_20_exactly_if_there_are_lists() {
    let (mut stayed, mut moved) = (0, 0);
    for (stream, bytes) in random_traces(65, 4_000) {
        let Ok(trace) = Trace::parse(&bytes) else {
            continue;
        };
        assert_eq!(
            to_edition_2(&bytes, AMPLE).map(|(copy, _)| copy),
            Ok(bytes.clone())
        );
        match to_edition_1(&bytes, AMPLE) {
            Ok(to_1) => {
                assert!(!trace.has_lists(), "{stream}");
                moving::check(Edition::One, &bytes, &trace, &to_1).unwrap();
                moved += 1;
            }
            Err(refusal) => {
                moving::check_stayed(Edition::One, &bytes, &trace, &refusal).unwrap();
                // The second is no place of the first record of lists.
                for wrong in [
                    Refusal {
                        number: 16,
                        ..refusal
                    },
                    Refusal {
                        place: refusal.place + 1,
                        ..refusal
                    },
                    Refusal {
                        place: 0,
                        ..refusal
                    },
                    Refusal {
                        place: AMPLE,
                        ..refusal
                    },
                ] {
                    let checked = moving::check_stayed(Edition::One, &bytes, &trace, &wrong);
                    assert!(checked.is_err(), "{stream}: {wrong:?}");
                }
                stayed += 1;
            }
        }
    }
    assert!(stayed > 1_500 && moved > 300, "{stayed} {moved}");
}

#[test]
fn lists_left_out_leave_everything_else() {
    let bytes = encode("serial 9; edition 2; T1 a1=5 w2=5 ..; T2 l1=5; T1 .. r2=5 l1= aborted");
    let without = encode("serial 9; edition 2; T1 w2=5 ..; T2; T1 .. r2=5 aborted");
    assert_eq!(list_traces::left_out(&bytes), without);
    assert_eq!(list_traces::left_out(&without), without);
    let [with, without] = [bytes, without].map(|bytes| Trace::parse(&bytes).unwrap());
    let wholes = weave::without_lists(&weave::wholes(&with));
    assert_eq!(wholes, weave::wholes(&without));
}

#[test]
fn only_traces_of_edition_2_that_are_read_get_lists() {
    for notation in [
        "",
        "T1 w1=5; T2 r1=5",
        "edition 2; T1 ..; T2",
        "edition 3; T1 w1=5",
    ] {
        let bytes = encode(notation);
        let same = list_traces::with_lists(&mut Random::new(1, 1), &bytes);
        assert_eq!(same, bytes, "{notation}");
    }
    let bytes = encode("serial 7; edition 2; T1 s9 w1=5 ..; T2 r1=5 w1=6; T1 .. r2=0");
    let (mut with_lists, mut longer) = (0, 0);
    for stream in 0..200 {
        let other = list_traces::with_lists(&mut Random::new(2, stream), &bytes);
        let kinds = |bytes: &[u8]| -> Vec<u16> {
            let of_lists = |kind: u16| match kind {
                trace::APPEND => trace::WRITE,
                trace::LIST_READ => trace::READ,
                kind => kind,
            };
            trace::records(bytes).map(|r| of_lists(r.kind)).collect()
        };
        // Operations may have been added, but nothing else is.
        let mut left = kinds(&other).into_iter();
        let are_there = kinds(&bytes)
            .iter()
            .all(|kind| left.any(|other| other == *kind));
        assert!(are_there, "{stream}");
        with_lists += usize::from(trace::has_list_records(&other));
        longer += usize::from(kinds(&other).len() > kinds(&bytes).len());
    }
    assert!(with_lists > 100 && longer > 5, "{with_lists} {longer}");
}
