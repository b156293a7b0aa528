//! Claimed orders: examples by hand, each no, refusals, what the buffer holds, the
//! second decider, what has to hold of all claims, whether the random ones would show
//! a judge that is mistaken about them, and the programs that compare them.

use ferozhak_compare::claiming::{arguments, claim, claim_in, Claimed};
use ferozhak_compare::claims::{compare_calls, compare_program, Claim};
use ferozhak_compare::graph::{ForcedPairs, History};
use ferozhak_compare::items::{NO_LEVELS, NUMBERS_ROOMS, NUMBERS_SIZE};
use ferozhak_compare::laws::{self, Tried};
use ferozhak_compare::orders::{Basis, Way};
use ferozhak_compare::random::Random;
use ferozhak_compare::report::{Level, Verdict};
use ferozhak_compare::trace::{Refusal, Status, Trace, MAX_BYTES};
use ferozhak_compare::workers::Extent;
use ferozhak_compare::{brute, calls, generate, judge_one, judge_trace, text};
use Claimed::{NoMembers, NoPair, NoRead, Yes};

const P1: &str = "";
const P3: &str = "T1 r1=5";
const P4: &str = "T1 r1=0";
const P10: &str = "T1 w1=5; T2 w1=6; T3 r1=5 r1=6";
const P12: &str = "T1 w1=5; T2 r1=5 w2=7; T3 r2=7 r1=0";
const P13: &str = "T1 r2=7 w1=5; T2 r1=5 w2=7";
const P14: &str = "T1 s1 w1=5; T2 s1 r1=0";
const CASE_15: &str = "T1 r1=0 w1=5; T2 r1=0 w1=6";
const CASE_16: &str = "T1 w1=11 w2=21; T2 w1=12 w2=22; T3 r1=12 r2=21";

fn encode(notation: &str) -> Vec<u8> {
    text::encode(notation.as_bytes()).unwrap()
}

/// This is said of the claim at these levels.
fn says(notation: &str, levels: &[u32], order: &[u8], expected: Claimed) {
    for &level in levels {
        let claimed = claim(&encode(notation), level, order);
        assert_eq!(claimed, expected, "{notation} at {level}: {order:?}");
    }
}

const ALL: [u32; 3] = [1, 2, 3];

#[test]
fn orders_of_the_document() {
    says(P1, &ALL, &[0], Yes);
    says(P4, &ALL, &[0, 1], Yes);
    says(P10, &[1], &[0, 1, 2, 3], Yes);
    says(P12, &[1, 2], &[0, 1, 2, 3], Yes);
    says(P14, &[1], &[0, 1, 2], Yes);
    says(CASE_15, &ALL, &[0, 1, 2], Yes);
    says(CASE_16, &[1], &[0, 2, 1, 3], Yes);
}

#[test]
fn another_lawful_order_gets_a_yes_too() {
    says(CASE_15, &ALL, &[0, 2, 1], Yes);
    says("T1; T2; T3", &ALL, &[0, 3, 1, 2], Yes);
    // T3 read from 0 and knows nobody: it may stand anywhere.
    let apart = "T1 w1=5; T2 r1=5; T3 r1=0";
    says(apart, &ALL, &[0, 1, 3, 2], Yes);
    says(apart, &ALL, &[0, 3, 1, 2], Yes);
}

#[test]
fn a_pair_the_wrong_way_round() {
    // Of the two that cannot both be had, the one that is not.
    says(P10, &[2, 3], &[0, 1, 2, 3], NoPair(2, 1));
    says(P10, &[2, 3], &[0, 2, 1, 3], NoPair(1, 2));
    says(P13, &ALL, &[0, 1, 2], NoPair(2, 1));
    says(P13, &ALL, &[0, 2, 1], NoPair(1, 2));
    says(CASE_16, &[1], &[0, 1, 2, 3], NoPair(2, 1));
    says(CASE_16, &[2, 3], &[0, 1, 2, 3], NoPair(2, 1));
    says(CASE_16, &[2, 3], &[0, 2, 1, 3], NoPair(1, 2));
    // A rival of 0 has to stand before it, but 0 is first.
    says(P12, &[3], &[0, 1, 2, 3], NoPair(1, 0));
    says(P14, &[2, 3], &[0, 1, 2], NoPair(1, 0));
}

#[test]
fn the_least_pair_by_first_and_then_second() {
    // 1 before 2 and 3, 2 before 3.
    let session = "T1 s1; T2 s1; T3 s1";
    for (order, pair) in [
        ([0, 1, 3, 2], NoPair(2, 3)),
        ([0, 2, 1, 3], NoPair(1, 2)),
        ([0, 2, 3, 1], NoPair(1, 2)),
        ([0, 3, 1, 2], NoPair(1, 3)),
        ([0, 3, 2, 1], NoPair(1, 2)),
    ] {
        says(session, &ALL, &order, pair);
    }
    // 1 before 4, 2 before 3: the first decides, not the second, nor the place.
    let two = "T1 s1; T2 s2; T3 s2; T4 s1";
    says(two, &ALL, &[0, 3, 2, 4, 1], NoPair(1, 4));
    says(two, &ALL, &[0, 4, 1, 3, 2], NoPair(1, 4));
    // 4 is before 1 by a read, 2 before 3: again the first.
    let against = "T1 r1=5; T2 s2; T3 s2; T4 w1=5";
    says(against, &ALL, &[0, 1, 3, 2, 4], NoPair(2, 3));
    says(against, &ALL, &[0, 1, 2, 3, 4], NoPair(4, 1));
}

#[test]
fn an_unclean_read_whatever_the_order() {
    for order in [&[0, 1][..], &[], &[1, 0], &[0], &[0, 1, 1], &[9; 300]] {
        says(P3, &ALL, order, NoRead(1));
    }
    // The kinds of the document, each the only one.
    says("T1 w1=5 aborted; T2 r1=5", &ALL, &[0, 2], NoRead(2));
    says("T1 r1=5 w1=5", &ALL, &[0, 1], NoRead(1));
    says("T1 w1=5 w1=6 r1=5", &ALL, &[0, 1], NoRead(3));
    says("T1 w1=5; T2 w1=6 r1=5", &ALL, &[0, 1, 2], NoRead(3));
    says("T1 w1=5 w1=6; T2 r1=5", &ALL, &[0, 1, 2], NoRead(3));
    // The first of several.
    says("T1 r1=0 r1=5 r1=6 r1=7", &ALL, &[0, 1], NoRead(2));
    // The first in the trace, though it is of a later transaction.
    let woven = "edition 2; T1 ..; T2 r1=9; T1 .. r1=8";
    says(woven, &ALL, &[0, 1, 2], NoRead(1));
    // A number of two bytes.
    let filler: String = (1..=299).map(|value| format!(" w9={value}")).collect();
    says(&format!("T1{filler} r1=5"), &ALL, &[0, 1], NoRead(300));
}

#[test]
fn reads_of_those_that_do_not_count_are_not_judged() {
    says("T1 r1=5 aborted", &ALL, &[0], Yes);
    says("T1 r1=5 unanswered", &ALL, &[0], Yes);
    says("T1 r1=5 aborted; T2", &ALL, &[0, 2], Yes);
}

#[test]
fn wrong_members() {
    let three = "T1; T2; T3";
    for order in [
        &[][..],
        &[0],
        &[0, 1, 2],
        &[0, 1, 3],
        &[1, 2, 3],
        // Twice, in place of another or besides.
        &[0, 1, 2, 2],
        &[0, 1, 2, 3, 3],
        &[0, 1, 1, 2, 3],
        &[0, 0, 1, 2, 3],
        &[0, 1, 2, 3, 0],
        &[0, 0, 2, 3],
        // One that does not exist, in place of another or besides.
        &[0, 1, 2, 4],
        &[0, 1, 2, 3, 4],
        &[0, 4, 1, 2, 3],
        &[0, 1, 2, 131],
        &[0, 1, 2, 3, 255],
        &[0, 1, 2, 3, 128],
        // Begun elsewhere.
        &[1, 0, 2, 3],
        &[3, 2, 1, 0],
        &[128, 1, 2, 3],
    ] {
        says(three, &ALL, order, NoMembers);
    }
    says(P1, &ALL, &[], NoMembers);
    says(P1, &ALL, &[1], NoMembers);
    says(P1, &ALL, &[0, 0], NoMembers);
    says(P1, &ALL, &[0, 1], NoMembers);
}

#[test]
fn claims_of_any_length() {
    let right = [0, 1, 2, 3];
    says("T1; T2; T3", &ALL, &right, Yes);
    for more in [1, 124, 125, 252, 256, 1_024, 32_768, 65_536, 70_000] {
        for byte in [0, 3, 255] {
            let mut long = right.to_vec();
            long.resize(right.len() + more, byte);
            says("T1; T2; T3", &ALL, &long, NoMembers);
        }
        let again: Vec<u8> = right.into_iter().cycle().take(4 + more).collect();
        says("T1; T2; T3", &ALL, &again, NoMembers);
    }
    // 128 places are lawful.
    let most = vec!["T"; 127].join("; ");
    let all: Vec<u8> = (0..=127).collect();
    says(&numbered(&most), &ALL, &all, Yes);
    let mut backwards = all.clone();
    backwards[1..].reverse();
    says(&numbered(&most), &ALL, &backwards, Yes);
    says(&numbered(&most), &ALL, &all[..127], NoMembers);
}

/// Each `T` gets its number.
fn numbered(notation: &str) -> String {
    let each = notation.split("; ").zip(1..);
    let named: Vec<String> = each.map(|(t, number)| format!("{t}{number}")).collect();
    named.join("; ")
}

#[test]
fn members_are_those_that_count() {
    let aborted = "T1 w1=5 aborted; T2";
    says(aborted, &ALL, &[0, 2], Yes);
    says(aborted, &ALL, &[0, 1, 2], NoMembers);
    says(aborted, &ALL, &[0, 1], NoMembers);
    let counts = "T1 w1=5 unanswered; T2 r1=5";
    says(counts, &ALL, &[0, 1, 2], Yes);
    says(counts, &ALL, &[0, 2], NoMembers);
    says(counts, &ALL, &[0, 2, 1], NoPair(1, 2));
    let does_not = "T1 w1=5 unanswered; T2 r1=0";
    says(does_not, &ALL, &[0, 2], Yes);
    says(does_not, &ALL, &[0, 1, 2], NoMembers);
    // It reads its own value, and nobody else does.
    let own = "T1 w1=5 r1=5 unanswered; T2";
    says(own, &ALL, &[0, 2], Yes);
    says(own, &ALL, &[0, 1, 2], NoMembers);
    // A chain of them.
    let chain = "T1 w1=5 unanswered; T2 r1=5 w2=6 unanswered; T3 r2=6";
    says(chain, &ALL, &[0, 1, 2, 3], Yes);
    says(chain, &ALL, &[0, 2, 3], NoMembers);
    says(chain, &ALL, &[0, 2, 1, 3], NoPair(1, 2));
}

#[test]
fn the_first_of_two_reasons() {
    // An unclean read and a pair: P13 with a read of a value that nobody wrote.
    let read_and_pair = "T1 r2=7 w1=5 r3=3; T2 r1=5 w2=7";
    says(read_and_pair, &ALL, &[0, 1, 2], NoRead(3));
    // With wrong members too, and with these alone.
    says(read_and_pair, &ALL, &[0, 1], NoRead(3));
    says("T1 r3=3; T2", &ALL, &[0, 1], NoRead(1));
    says("T1 r3=3; T2", &ALL, &[1, 0, 2], NoRead(1));
    // Wrong members and a pair: one too many, one missing, 0 elsewhere.
    says(P13, &ALL, &[0, 2, 1, 1], NoMembers);
    says(P13, &ALL, &[0, 2], NoMembers);
    says(P13, &ALL, &[1, 0, 2], NoMembers);
    says("T1 s1; T2 s1; T3", &ALL, &[0, 2, 1], NoMembers);
}

#[test]
fn refusals_come_before_all_else() {
    let refused = |number, place| Claimed::Refused(Refusal { number, place });
    let right = encode(CASE_16);
    let mut behind_end = encode(P1);
    behind_end.push(0);
    // The end record begins where the transaction's 39 bytes end.
    let cut = encode("T1 r1=5")[..39].to_vec();
    let long = vec![0; MAX_BYTES + 1];
    for order in [&[0, 2, 1, 3][..], &[0], &[], &[7; 500]] {
        for level in ALL {
            assert_eq!(claim(&[], level, order), refused(3, 0));
            assert_eq!(claim(&cut, level, order), refused(3, 39));
            assert_eq!(claim(&behind_end, level, order), refused(11, 10));
            assert_eq!(claim(&long, level, order), refused(2, 32_768));
        }
        for level in NO_LEVELS {
            for trace in [&right, &vec![], &cut, &behind_end, &long, &encode(P3)] {
                assert_eq!(claim(trace, level, order), refused(1, 0), "{level}");
            }
        }
    }
}

#[test]
fn answers_have_the_numbers_of_the_interface() {
    let refused = Claimed::Refused(Refusal {
        number: 3,
        place: 39,
    });
    let all = [Yes, NoRead(7), NoMembers, NoPair(2, 1), refused];
    assert_eq!(all.map(|claimed| claimed.number()), [1, 2, 3, 4, 5]);
    let lines = [
        "yes\n",
        "no read 7\n",
        "no members\n",
        "no pair 2 1\n",
        "refused 3 39\n",
    ];
    assert_eq!(all.map(|claimed| claimed.line()), lines);
    for (name, line) in Claimed::NAMES.iter().zip(lines) {
        assert!(line.starts_with(name), "{name}");
    }
}

#[test]
fn the_numbers_that_fit_whole_are_written() {
    const OLD: u8 = 0xEE;
    let filler: String = (1..=299).map(|value| format!(" w9={value}")).collect();
    for (trace, level, order, numbers) in [
        (encode(CASE_16), 1, vec![0, 2, 1, 3], [0; 5]),
        (encode(CASE_16), 1, vec![0, 2, 1], [0; 5]),
        (encode(CASE_16), 2, vec![0, 2, 1, 3], [0, 1, 2, 0, 0]),
        (encode(P12), 3, vec![0, 1, 2, 3], [0, 1, 0, 0, 0]),
        (
            encode(&format!("T1{filler} r1=5")),
            3,
            vec![],
            [300, 0, 0, 0, 0],
        ),
        (encode(P1), 4, vec![0], [0, 0, 0, 1, 0]),
        (vec![0; MAX_BYTES + 1], 1, vec![0], [0, 0, 0, 2, 32_768]),
    ] {
        let all: Vec<u8> = numbers.into_iter().flat_map(u32::to_le_bytes).collect();
        for size in NUMBERS_ROOMS {
            let mut buffer = vec![OLD; size];
            claim(&trace, level, &order).write(&mut buffer);
            let mut expected = all[..(size / 4 * 4).min(NUMBERS_SIZE)].to_vec();
            expected.resize(size, OLD);
            assert_eq!(buffer, expected, "{numbers:?} {size}");
        }
    }
}

#[test]
fn arguments_of_the_program() {
    for (words, level, order) in [
        (&["rc"][..], Level::ReadCommitted, &[][..]),
        (&["ra", "0"], Level::ReadAtomicity, &[0]),
        (&["tcc", "0", "255", "0"], Level::Causal, &[0, 255, 0]),
        (&["rc", "100", "7"], Level::ReadCommitted, &[100, 7]),
    ] {
        assert_eq!(arguments(words), Some((level, order.to_vec())), "{words:?}");
    }
    for words in [
        &[][..],
        &["xx", "0"],
        &["RA", "0"],
        &["1", "0"],
        &["0", "ra"],
        &["", "0"],
        &["ra", ""],
        &["ra", "256"],
        &["ra", "0", "-1"],
        &["ra", "0", "+1"],
        &["ra", "0", "01"],
        &["ra", "00"],
        &["rc", "0", "1x"],
        &["rc", "0", " 1"],
        &["rc", "0", "1 2"],
        &["rc", "0", "99999999999999999999"],
    ] {
        assert_eq!(arguments(words), None, "{words:?}");
    }
}

/// A random trace, half of them mostly accepted.
fn random_trace(random: &mut Random) -> Vec<u8> {
    let (_, bytes) = match random.percent(50) {
        true => generate::sound(random),
        false => generate::any(random),
    };
    bytes
}

/// Random traces that are not refused.
fn random_traces(seed: u64, count: u64) -> impl Iterator<Item = (Vec<u8>, Trace)> {
    (0..count).filter_map(move |stream| {
        let bytes = random_trace(&mut Random::new(seed, stream));
        let trace = Trace::parse(&bytes).ok()?;
        Some((bytes, trace))
    })
}

/// All orders of these, in the order of a dictionary if they ascend.
fn permutations(members: &[u8]) -> Vec<Vec<u8>> {
    if members.is_empty() {
        return vec![vec![]];
    }
    let beginning = |at: usize| {
        let mut rest = members.to_vec();
        let first = rest.remove(at);
        let with = move |rest: Vec<u8>| [&[first], rest.as_slice()].concat();
        permutations(&rest).into_iter().map(with)
    };
    (0..members.len()).flat_map(beginning).collect()
}

#[test]
fn the_second_decider_agrees_on_all_orders_of_small_traces() {
    // 0 among them.
    const MOST: usize = 5;
    let mut by_answer = [0; 5];
    let (mut traces, mut several) = (0, 0);
    for (bytes, trace) in random_traces(61, 10_000) {
        let history = History::new(&trace);
        let counted = history.counted();
        if counted.len() > MOST {
            continue;
        }
        traces += 1;
        assert_eq!(brute::counted(&trace).unwrap_or(counted.clone()), counted);
        let second = brute::Claims::new(&trace, &counted);
        for level in Level::ALL {
            let mut lawful = Vec::new();
            for order in permutations(&counted) {
                let claimed = claim_in(&history, level, &order);
                let is_right = second.is_right(level, &order, &claimed);
                assert!(is_right, "{level:?} {order:?} {claimed:?} {trace:?}");
                by_answer[claimed.number() as usize - 1] += 1;
                if claimed == Yes {
                    lawful.push(order);
                }
            }
            several += usize::from(lawful.len() > 1);
            // The judge shows the first of them.
            let shown = match judge_one(&bytes, level).unwrap() {
                Verdict::Accepted(order) => Some(order),
                Verdict::Rejected { .. } => None,
            };
            assert_eq!(lawful.first(), shown.as_ref(), "{trace:?}");
        }
    }
    assert!(traces > 3_000 && several > 3_000, "{traces} {several}");
    let [yes, read, members, pair, refused] = by_answer;
    let least = [yes, read, members, pair].into_iter().min();
    assert!(least > Some(3_000) && refused == 0, "{by_answer:?}");
}

#[test]
fn the_second_decider_knows_wrong_answers() {
    let trace = Trace::parse(&encode("T1 s1; T2 s1; T3 s1")).unwrap();
    let second = brute::Claims::new(&trace, &[0, 1, 2, 3]);
    let mut random = Random::new(62, 0);
    let refused = Claimed::Refused(Refusal {
        number: 1,
        place: 0,
    });
    let mut said = vec![Yes, NoRead(1), NoMembers, refused];
    said.extend((0..4).flat_map(|first| (0..4).map(move |second| NoPair(first, second))));
    let basis = Basis::of_read(&trace, Level::Causal);
    for _ in 0..300 {
        let (_, order) = basis.drawn(&mut random);
        // Of all that can be said just one thing is right.
        let is_right = |claimed: &&Claimed| second.is_right(Level::Causal, &order, claimed);
        let right: Vec<&Claimed> = said.iter().filter(is_right).collect();
        assert_eq!(
            right,
            [&claim_in(&History::new(&trace), Level::Causal, &order)]
        );
    }
    let unclean = Trace::parse(&encode("T1 r1=0 r1=5 r1=6")).unwrap();
    let second = brute::Claims::new(&unclean, &[0, 1]);
    for (number, is_first) in [(1, false), (2, true), (3, false)] {
        let is_right = second.is_right(Level::Causal, &[0, 1], &NoRead(number));
        assert_eq!(is_right, is_first, "{number}");
    }
}

#[test]
fn what_has_to_hold_of_claims_holds_on_random_traces() {
    let mut tried = Tried::default();
    for (stream, (bytes, trace)) in (0..).zip(random_traces(63, 4_000)) {
        let mut random = Random::new(64, stream);
        let verdicts = judge_trace(&trace);
        let checked = laws::check(&bytes, &trace, &verdicts, &mut random);
        tried.add(&checked.unwrap_or_else(|message| panic!("{message} {trace:?}")));
    }
    let Tried {
        claims,
        yes,
        by_axioms,
    } = tried;
    let no = claims - yes;
    assert!(yes > 8_000 && no > 8_000 && by_axioms > 8_000, "{yes} {no}");
}

/// The least pair of an order that stands the wrong way round, by looking at all.
fn least_by_looking(pairs: &ForcedPairs, counted: &[u8], order: &[u8]) -> Option<(u8, u8)> {
    let place = |t: u8| order.iter().position(|&other| other == t);
    let twos = counted
        .iter()
        .flat_map(|&a| counted.iter().map(move |&b| (a, b)));
    let mut reversed = twos.filter(|&(a, b)| pairs.has(a, b) && place(a) > place(b));
    reversed.next()
}

#[test]
fn the_least_pair_of_many_transactions() {
    let (mut none, mut some, mut large) = (0, 0, 0);
    for (stream, (_, trace)) in (0..).zip(random_traces(65, 3_000)) {
        let history = History::new(&trace);
        let counted = history.counted();
        if counted.len() < 10 {
            continue;
        }
        let mut random = Random::new(66, stream);
        let level = *random.pick(&Level::ALL);
        let pairs = history.forced_pairs(level);
        let basis = Basis::of_read(&trace, level);
        for way in [Way::Another, Way::Basic, Way::Swapped, Way::Shuffled] {
            let (_, order) = basis.made(&mut random, way);
            let expected = least_by_looking(&pairs, &counted, &order);
            assert_eq!(pairs.least_reversed(&order), expected, "{trace:?}");
            match expected {
                None => none += 1,
                Some(_) => some += 1,
            }
            large += usize::from(counted.len() > 90);
        }
    }
    assert!(none > 500 && some > 500 && large > 200, "{none} {some}");
}

/// A claim, to be looked at by mistaken judges.
struct Looked<'a> {
    trace: &'a Trace,
    history: &'a History,
    level: Level,
    order: &'a [u8],
}

impl Looked<'_> {
    /// The right answer, but for whether the members are right, and for the pair that
    /// is chosen among all that stand the wrong way round, by first and then second.
    fn with(
        &self,
        has_members: bool,
        choose: impl FnOnce(Vec<(u8, u8)>) -> Option<(u8, u8)>,
    ) -> Claimed {
        if let Some(first) = self.history.findings().first() {
            return NoRead(first.operation);
        }
        if !has_members {
            return NoMembers;
        }
        let pairs = self.history.forced_pairs(self.level);
        let twos = (0..=127).flat_map(|a| (0..=127).map(move |b| (a, b)));
        let reversed = twos.filter(|&(a, b)| pairs.has(a, b) && self.place(a) > self.place(b));
        choose(reversed.collect()).map_or(Yes, |(a, b)| NoPair(a, b))
    }

    fn place(&self, t: u8) -> Option<usize> {
        self.order.iter().position(|&other| other == t)
    }

    /// What judges with other members say.
    fn by_members(&self) -> Vec<(&'static str, Claimed)> {
        let counted = self.history.counted();
        let first = |pairs: Vec<(u8, u8)>| pairs.first().copied();
        let begins_with_0 = self.order.first() == Some(&0);
        let sorted = sorted(self.order);
        let mut set = sorted.clone();
        set.dedup();
        let in_a_byte = &self.order[..self.order.len() % 256];
        let committed: Vec<u8> = [0]
            .into_iter()
            .chain(self.trace.with_status(Status::Committed))
            .collect();
        let has_known = counted.iter().all(|t| set.contains(t));
        vec![
            ("0 anywhere", self.with(sorted == counted, first)),
            (
                "members twice",
                self.with(begins_with_0 && set == counted, first),
            ),
            ("others too", self.with(begins_with_0 && has_known, first)),
            (
                "a length in a byte",
                self.with(begins_with_0 && self::sorted(in_a_byte) == counted, first),
            ),
            (
                "only what is answered counts",
                self.with(begins_with_0 && sorted == committed, first),
            ),
        ]
    }

    /// What judges say who choose another pair.
    fn by_pairs(&self) -> Vec<(&'static str, Claimed)> {
        let has_members =
            self.order.first() == Some(&0) && sorted(self.order) == self.history.counted();
        let basic = self.history.basic_pairs();
        let by_place = |&(a, b): &(u8, u8)| (self.place(b), self.place(a));
        let are_neighbours = |&(a, b): &(u8, u8)| {
            let mut neighbours = self.order.windows(2);
            neighbours.any(|two| two == [b, a])
        };
        let weaker = match self.level {
            Level::Causal => Level::ReadAtomicity,
            _ => Level::ReadCommitted,
        };
        vec![
            (
                "by second and then first",
                self.with(has_members, |pairs| {
                    pairs.into_iter().min_by_key(|&(a, b)| (b, a))
                }),
            ),
            (
                "the greatest",
                self.with(has_members, |pairs| pairs.last().copied()),
            ),
            (
                "by place",
                self.with(has_members, |pairs| pairs.into_iter().min_by_key(by_place)),
            ),
            (
                "only neighbours",
                self.with(has_members, |pairs| pairs.into_iter().find(are_neighbours)),
            ),
            (
                "pairs before 0 left out",
                self.with(has_members, |pairs| {
                    pairs.into_iter().find(|&(_, b)| b != 0)
                }),
            ),
            (
                "basic pairs alone",
                self.with(has_members, |pairs| {
                    pairs.into_iter().find(|&(a, b)| basic.has(a, b))
                }),
            ),
            ("a weaker level", claim_in(self.history, weaker, self.order)),
        ]
    }

    /// What judges say who take the reasons in another order, or another read.
    fn by_reasons(&self) -> Vec<(&'static str, Claimed)> {
        let right = claim_in(self.history, self.level, self.order);
        let has_members =
            self.order.first() == Some(&0) && sorted(self.order) == self.history.counted();
        let last = self.history.findings().last();
        vec![
            (
                "members before reads",
                match has_members {
                    true => right,
                    false => NoMembers,
                },
            ),
            (
                "the last unclean read",
                last.map_or(right, |last| NoRead(last.operation)),
            ),
        ]
    }
}

fn sorted(order: &[u8]) -> Vec<u8> {
    let mut sorted = order.to_vec();
    sorted.sort_unstable();
    sorted
}

#[test]
fn random_claims_show_mistaken_judges() {
    let mut otherwise: Vec<(&str, usize)> = Vec::new();
    for (stream, (_, trace)) in (0..).zip(random_traces(67, 6_000)) {
        let mut random = Random::new(68, stream);
        let level = *random.pick(&Level::ALL);
        let (_, order) = Basis::of_read(&trace, level).drawn(&mut random);
        let history = &History::new(&trace);
        let right = claim_in(history, level, &order);
        let looked = Looked {
            trace: &trace,
            history,
            level,
            order: &order,
        };
        let said = [looked.by_members(), looked.by_pairs(), looked.by_reasons()].concat();
        otherwise.resize(said.len(), ("", 0));
        for ((name, count), (judge, claimed)) in otherwise.iter_mut().zip(said) {
            *name = judge;
            *count += usize::from(claimed != right);
        }
    }
    for (name, count) in &otherwise {
        assert!(*count >= 15, "{name}: {count} in {otherwise:?}");
    }
}

#[test]
fn items_and_replies_byte_by_byte() {
    let trace = encode(P14);
    let length = [trace.len() as u8, 0, 0, 0];
    let bytes_of_numbers = Claim {
        level: 0x0102_0304,
        order: vec![9, 8, 7],
        room: 0x0201,
    };
    let head = [4, 3, 2, 1, 1, 2, 0, 0, 3, 0, 0, 0, 9, 8, 7];
    let expected = [b"c".as_slice(), &head, &length, &trace].concat();
    assert_eq!(bytes_of_numbers.item(&trace), expected);

    let behind = [0xA5; 16].as_slice();
    let no_pair = Claim {
        level: 2,
        order: vec![0, 1, 2],
        room: 13,
    };
    let numbers = [0, 0, 0, 0, 1, 0, 0, 0, 0, 0, 0, 0, 0xA5].as_slice();
    let reply = [[4, 0, 0, 0].as_slice(), numbers, behind].concat();
    assert_eq!(no_pair.answer(&trace), reply);
    let yes = Claim {
        level: 1,
        order: vec![0, 1, 2],
        room: 0,
    };
    let said_yes = [[1, 0, 0, 0].as_slice(), behind].concat();
    assert_eq!(yes.answer(&trace), said_yes);

    // The same by way of reading the items, beside others.
    let strongest = calls::Call::Strongest.item(&trace);
    let input = [no_pair.item(&trace), strongest, yes.item(&trace)].concat();
    let mut output = Vec::new();
    calls::serve(input.as_slice(), &mut output).unwrap();
    assert_eq!(output, [&reply[..], &[1, 0, 0, 0], &said_yes].concat());
    // An item that is cut.
    assert!(calls::serve(&input[..input.len() - 1], &mut output).is_err());
    assert!(calls::serve(&b"c"[..], &mut output).is_err());
}

const JUDGE: &str = env!("CARGO_BIN_EXE_rustjudge");

fn extent(traces: usize) -> Extent {
    Extent {
        traces,
        seed: 9,
        threads: 2,
    }
}

/// The row of a summary that begins with this name, without the refused.
fn row(summary: &str, name: &str) -> Vec<usize> {
    let mut lines = summary.lines();
    let rest = lines.find_map(|line| line.strip_prefix("  ")?.strip_prefix(name));
    let words = rest.expect(name).split_whitespace();
    words.map(|word| word.parse().unwrap()).collect()
}

#[test]
fn the_comparison_of_claims_finds_no_difference_from_itself() {
    let (summary, difference) = compare_calls(&format!("{JUDGE} --calls"), &extent(2_000));
    assert!(difference.is_none(), "{summary}{difference:?}");
    // Each answer at each level, each way of making and each refusal occurred.
    for level in ["1 ", "2 ", "3 "] {
        let counts = row(&summary, level);
        assert!(counts.iter().all(|&count| count > 500), "{summary}");
    }
    assert_eq!(row(&summary, "other")[..4], [0; 4], "{summary}");
    for way in Way::ALL {
        let counts = row(&summary, way.describe());
        assert!(counts.iter().sum::<usize>() > 500, "{summary}");
    }
    for number in 1..=11 {
        let refused = row(&summary, &format!("{number:>2}"));
        assert!(refused[0] > 0, "{number} in {summary}");
    }
}

#[test]
fn the_comparison_of_claims_finds_programs_that_answer_otherwise() {
    for command in [
        "/bin/cat",
        "/bin/true",
        "/no/such/program",
        &format!("{JUDGE} --stream"),
    ] {
        let one_by_one = Extent {
            threads: 1,
            ..extent(0)
        };
        let (_, difference) = compare_calls(command, &one_by_one);
        let difference = difference.expect(command);
        // It shows with the case that is asked first, and an item of it is kept.
        assert!(difference.name.contains("case 'P1'"), "{command}");
        assert_eq!(difference.bytes[0], b'c', "{command}");
    }
}

#[test]
fn the_comparison_of_the_program_finds_no_difference_from_itself() {
    let (summary, difference) = compare_program(&format!("{JUDGE} --claim"), &extent(60));
    assert!(difference.is_none(), "{summary}{difference:?}");
    for level in ["1 ", "2 ", "3 "] {
        let counts = row(&summary, level);
        assert!(counts.iter().all(|&count| count > 0), "{summary}");
    }
}

#[test]
fn the_comparison_of_the_program_finds_programs_that_answer_otherwise() {
    for command in [
        "/bin/cat",
        "/bin/true",
        "/bin/echo",
        "/no/such/program",
        JUDGE,
        &format!("{JUDGE} --calls"),
    ] {
        let (_, difference) = compare_program(command, &extent(0));
        assert!(difference.is_some(), "{command}");
    }
}
