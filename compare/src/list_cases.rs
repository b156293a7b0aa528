//! Known traces with lists: what `lists` has to print, and what `judge` has to print of
//! the same trace, which it judges as if the lists were not there.

use crate::cases::{counting, each, refused, same, written, Case};
use crate::encode::Writer;
use crate::overlap_cases::{after, after_unnumbered, operation};
use crate::trace::{APPEND, LIST_READ, READ, WRITE};
use crate::trace::{MAX_BYTES, MAX_LIST, MAX_OPERATIONS, MAX_TRANSACTIONS};

/// A trace with the answers that it must have.
pub struct ListCase {
    /// With what `judge` has to print.
    pub case: Case,
    /// What `lists` has to print.
    pub lists: String,
}

/// All of them.
pub fn all() -> Vec<ListCase> {
    let mut cases = kinds();
    cases.extend(two_kinds_at_once());
    cases.extend(clean());
    cases.extend(who_is_judged());
    cases.extend(write_dependencies());
    cases.extend(read_dependencies());
    cases.extend(which_list());
    cases.extend(who_takes_part());
    cases.extend(source_003());
    cases.extend(both_sorts_of_keys());
    cases.extend(numbers());
    cases.extend(limits());
    cases.extend(refusals().into_iter().map(|case| ListCase {
        lists: case.output.clone(),
        case,
    }));
    cases
}

/// Those that are refused, of which both programs print the same.
pub fn refusals() -> Vec<Case> {
    let mut cases = framing();
    cases.extend(unknown_kinds());
    cases.extend(wrong_lengths());
    cases.extend(order_of_checks());
    cases.extend(mixed());
    cases.extend(mixed_and_more());
    cases
}

/// A trace of edition 2 with what `judge` has to print, and what `lists` has to print
/// behind its first word.
fn listed(name: &'static str, notation: &str, judged: String, lists: &str) -> ListCase {
    ListCase {
        case: written(name, &format!("edition 2; {notation}"), judged),
        lists: format!("lists {lists}\n"),
    }
}

/// The same where all levels accept with this order.
fn accepted(name: &'static str, notation: &str, order: &str, lists: &str) -> ListCase {
    listed(name, notation, same(&format!("accepted {order}")), lists)
}

/// The same with one unclean list read, and no pairs.
fn found(name: &'static str, notation: &str, order: &str, finding: &str) -> ListCase {
    accepted(name, notation, order, &format!("1 0 0\nread {finding}"))
}

/// The same with nothing to be told.
fn nothing(name: &'static str, notation: &str, order: &str) -> ListCase {
    accepted(name, notation, order, "0 0 0")
}

/// Each kind, worked by hand.
pub fn kinds() -> Vec<ListCase> {
    vec![
        found("kind 7, appended by nobody", "T1 l1=5", "0 1", "1 1 7 0"),
        found(
            "kind 7, appended to another key",
            "T1 a2=5; T2 l1=5",
            "0 1 2",
            "2 2 7 0",
        ),
        found(
            "kind 7, written to another key",
            "T1 w2=5; T2 l1=5",
            "0 1 2",
            "2 2 7 0",
        ),
        found(
            "kind 7, the value 0",
            "T1 a1=5; T2 l1=5,0",
            "0 1 2",
            "2 2 7 0",
        ),
        // The values differ by 2 to the 32nd, the keys by 2 to the 24th.
        found(
            "kind 7, values that differ in their high halves",
            "T1 a1=4294967301; T2 l1=5",
            "0 1 2",
            "2 2 7 0",
        ),
        found(
            "kind 7, keys that differ in their high bytes",
            "T1 a16777217=5; T2 l1=5",
            "0 1 2",
            "2 2 7 0",
        ),
        found("kind 8", "T1 a1=5; T2 l1=5,5", "0 1 2", "2 2 8 1"),
        found(
            "kind 8, others between",
            "T1 a1=5; T2 a1=6; T3 l1=5,6,5",
            "0 1 2 3",
            "3 3 8 1",
        ),
        found(
            "kind 8, the first that equals an earlier one",
            "T1 a1=5 a1=6; T2 l1=5,6,6,5",
            "0 1 2",
            "2 3 8 2",
        ),
        found(
            "kind 8, what the reader itself appended",
            "T1 a1=5 l1=5,5",
            "0 1",
            "1 2 8 1",
        ),
        found("kind 9", "T1 a1=5 aborted; T2 l1=5", "0 2", "2 2 9 1"),
        found(
            "kind 9, the first of two, which was appended later",
            "T1 a1=5; T2 a1=6 a1=7 aborted; T3 l1=5,7,6",
            "0 1 3",
            "3 4 9 3",
        ),
        found(
            "kind 9, the append behind the read",
            "T1 ..; T2 l1=5 ..; T1 .. a1=5 aborted; T2 ..",
            "0 2",
            "2 1 9 2",
        ),
        found("kind 10", "T1 a1=5 a1=6; T2 l1=5", "0 1 2", "2 3 10 1"),
        found(
            "kind 10, appended again behind the read",
            "T1 a1=5 ..; T2 l1=5; T1 .. a1=6",
            "0 1 2",
            "2 2 10 1",
        ),
        found(
            "kind 10, the second of three",
            "T1 a1=5 a1=6 a1=7; T2 l1=5,6",
            "0 1 2",
            "2 4 10 2",
        ),
        found(
            "kind 10, another's append between the two",
            "T1 a1=5 ..; T2 a1=7 ..; T1 .. a1=6; T2 ..; T3 l1=5",
            "0 1 2 3",
            "3 4 10 1",
        ),
        found(
            "kind 11, another order",
            "T1 a1=5; T2 a1=6; T3 l1=5,6; T4 l1=6,5",
            "0 1 2 3 4",
            "4 4 11 0",
        ),
        found(
            "kind 11, one in place of another",
            "T1 a1=5; T2 a1=6; T3 l1=5; T4 l1=6",
            "0 1 2 3 4",
            "4 4 11 0",
        ),
        // T3 opens first, but T4 reads first.
        found(
            "kind 11, earlier by operation number",
            "T1 a1=5; T2 a1=6; T3 ..; T4 l1=6; T3 .. l1=5",
            "0 1 2 3 4",
            "3 4 11 0",
        ),
        found(
            "kind 11, in one transaction",
            "T1 a1=5; T2 a1=6; T3 l1=5,6 l1=6",
            "0 1 2 3",
            "3 4 11 0",
        ),
        // It starts with the list read just before.
        found(
            "kind 11, apart from a longer list two reads back",
            "T1 a1=5; T2 a1=6; T3 a1=7; T4 l1=5,6; T5 l1=5; T6 l1=5,7",
            "0 1 2 3 4 5 6",
            "6 6 11 0",
        ),
        accepted(
            "every kind of list read in one transaction",
            "T1 a1=1 aborted; T2 a1=2 a1=3; T3 a1=4; T4 l1=9 l1=4,4 l1=1 l1=2 l1=2,3 l1=4",
            "0 2 3 4",
            "5 0 0\nread 4 5 7 0\nread 4 6 8 4\nread 4 7 9 1\nread 4 8 10 2\nread 4 10 11 0",
        ),
        // By number, not by transaction.
        accepted(
            "unclean list reads of two transactions by turns",
            "T1 l1=9 ..; T2 l1=8 ..; T1 .. l1=7 ..; T2 .. l1=6; T1 ..",
            "0 1 2",
            "4 0 0\nread 1 1 7 0\nread 2 2 7 0\nread 1 3 7 0\nread 2 4 7 0",
        ),
    ]
}

/// Two kinds fit one list read, and the first of them is told, with its own append.
pub fn two_kinds_at_once() -> Vec<ListCase> {
    vec![
        found("kinds 7 and 8", "T1 l1=9,9", "0 1", "1 1 7 0"),
        found(
            "kinds 8 and then 7",
            "T1 a1=5; T2 l1=5,5,9",
            "0 1 2",
            "2 2 7 0",
        ),
        found(
            "kinds 7 and 9",
            "T1 a1=5 aborted; T2 l1=5,9",
            "0 2",
            "2 2 7 0",
        ),
        found(
            "kinds 7 and 10",
            "T1 a1=5 a1=6; T2 l1=9,5",
            "0 1 2",
            "2 3 7 0",
        ),
        found(
            "kinds 7 and 11",
            "T1 a1=5; T2 l1=5; T3 l1=9",
            "0 1 2 3",
            "3 3 7 0",
        ),
        found(
            "kinds 8 and 9 of one append",
            "T1 a1=5 aborted; T2 l1=5,5",
            "0 2",
            "2 2 8 1",
        ),
        found(
            "kinds 8 and 9 of two appends",
            "T1 a1=5; T2 a1=6 aborted; T3 l1=6,5,5",
            "0 1 3",
            "3 3 8 1",
        ),
        found(
            "kinds 8 and 10",
            "T1 a1=5 a1=6; T2 l1=6,5,6,5",
            "0 1 2",
            "2 3 8 2",
        ),
        found(
            "kinds 8 and 11",
            "T1 a1=5; T2 a1=6; T3 l1=5,6; T4 l1=6,6",
            "0 1 2 3 4",
            "4 4 8 2",
        ),
        found(
            "kinds 9 and 10 of one append",
            "T1 a1=5 a1=6 aborted; T2 l1=5",
            "0 2",
            "2 3 9 1",
        ),
        found(
            "kinds 9 and 10 of two appends",
            "T1 a1=5 aborted; T2 a1=6 a1=7; T3 l1=5,6",
            "0 2 3",
            "3 4 9 1",
        ),
        found(
            "kinds 9 and 11",
            "T1 a1=5; T2 a1=6 aborted; T3 l1=5; T4 l1=6",
            "0 1 3 4",
            "4 4 9 2",
        ),
        found(
            "kinds 10 and 11",
            "T1 a1=5 a1=6; T2 a1=7; T3 l1=7; T4 l1=5",
            "0 1 2 3 4",
            "4 5 10 1",
        ),
        found(
            "kinds 7 to 11",
            "T1 a1=5 aborted; T2 a1=6 a1=7; T3 a1=8; T4 l1=8; T5 l1=5,5,9,6",
            "0 2 3 4 5",
            "5 6 7 0",
        ),
        found(
            "kinds 8 to 11",
            "T1 a1=5 aborted; T2 a1=6 a1=7; T3 a1=8; T4 l1=8; T5 l1=5,5,6",
            "0 2 3 4 5",
            "5 6 8 1",
        ),
        found(
            "kinds 9 to 11",
            "T1 a1=5 aborted; T2 a1=6 a1=7; T3 a1=8; T4 l1=8; T5 l1=5,6",
            "0 2 3 4 5",
            "5 6 9 1",
        ),
    ]
}

/// Lists that lack one thing to have a kind.
pub fn clean() -> Vec<ListCase> {
    vec![
        nothing("a list that nobody appended to", "T1 l1=", "0 1"),
        nothing(
            "the empty list before, between and behind others",
            "T1 l1=; T2 a1=5; T3 l1=5; T4 l1=; T5 a1=6; T6 l1=5,6; T7 l1=",
            "0 1 2 3 4 5 6 7",
        ),
        nothing("an own list that goes on", "T1 a1=5 l1=5 a1=6", "0 1"),
        nothing(
            "not kind 10, another appended later",
            "T1 a1=5; T2 a1=6; T3 l1=5",
            "0 1 2 3",
        ),
        nothing(
            "not kind 10, appended to another key",
            "T1 a1=5 a2=6; T2 l1=5",
            "0 1 2",
        ),
        nothing(
            "not kind 10, appended before",
            "T1 a1=5 a1=6; T2 l1=6",
            "0 1 2",
        ),
        nothing(
            "not kind 10, an element before the last",
            "T1 a1=5 a1=6; T2 a1=7; T3 l1=5,7",
            "0 1 2 3",
        ),
        nothing(
            "not kind 11, lists that grow and shrink",
            "T1 a1=5; T2 a1=6; T3 a1=7; T4 l1=5 l1=5,6,7 l1=5,6 l1=5,6,7 l1=5",
            "0 1 2 3 4",
        ),
        nothing(
            "not kind 11, another key",
            "T1 a1=5 a2=6; T2 l1=5 l2=6",
            "0 1 2",
        ),
        found(
            "not kind 11, apart from a list of kind 9",
            "T1 a1=5; T2 a1=6 aborted; T3 l1=6,5; T4 l1=5",
            "0 1 3 4",
            "3 3 9 2",
        ),
        // T5's list is apart from T3's alone, which is clean; T4's is not.
        accepted(
            "not kind 11, apart from a list of kind 11",
            "T1 a1=5; T2 a1=6; T3 l1=5; T4 l1=6,5; T5 l1=5,6",
            "0 1 2 3 4 5",
            "1 0 0\nread 4 4 11 0",
        ),
    ]
}

/// Whose list reads are judged, and against whose.
pub fn who_is_judged() -> Vec<ListCase> {
    vec![
        nothing("the list of an aborted one", "T1 l1=9 aborted; T2", "0 2"),
        nothing("the list of an unanswered one", "T1 l1=9 unanswered", "0"),
        found(
            "the list of an unanswered one that counts",
            "T1 l1=9 w2=5 unanswered; T2 r2=5",
            "0 1 2",
            "1 1 7 0",
        ),
        nothing(
            "the list of an unanswered one whose append is read",
            "T1 l1=9 a2=5 unanswered; T2 l2=5",
            "0 2",
        ),
        nothing(
            "an appender that does not count has not aborted",
            "T1 a1=5 unanswered; T2 l1=5",
            "0 2",
        ),
        found(
            "an appender that does not count and appends again",
            "T1 a1=5 a1=6 unanswered; T2 l1=5",
            "0 2",
            "2 3 10 1",
        ),
        nothing(
            "apart from the list of an aborted one",
            "T1 a1=5; T2 a1=6; T3 l1=6 aborted; T4 l1=5",
            "0 1 2 4",
        ),
        nothing(
            "apart from the list of an unanswered one that does not count",
            "T1 a1=5; T2 a1=6; T3 l1=6 unanswered; T4 l1=5",
            "0 1 2 4",
        ),
        found(
            "apart from the list of an unanswered one that counts",
            "T1 a1=5; T2 a1=6; T3 l1=6 w2=1 unanswered; T4 r2=1 l1=5",
            "0 1 2 3 4",
            "4 6 11 0",
        ),
    ]
}

/// Cycles of write dependencies alone.
pub fn write_dependencies() -> Vec<ListCase> {
    let both_ways = "0 2 2\nwrite 1 2 16\nwrite 2 1 16\nboth 1 2 16\nboth 2 1 16";
    vec![
        accepted(
            "two keys in two orders",
            "T1 a1=1 a2=1; T2 a1=2 a2=2; T3 l1=1,2 l2=2,1",
            "0 1 2 3",
            both_ways,
        ),
        accepted(
            "one key, by turns",
            "T1 a1=1 ..; T2 a1=2; T1 .. a1=3; T3 l1=1,2,3",
            "0 1 2 3",
            both_ways,
        ),
        accepted(
            "three keys in a ring",
            "T1 a1=1 a3=1; T2 a1=2 a2=2; T3 a2=3 a3=3; T4 l1=1,2 l2=2,3 l3=3,1",
            "0 1 2 3 4",
            "0 3 3\nwrite 1 2 16\nwrite 2 3 16\nwrite 3 1 16\n\
             both 1 2 16\nboth 2 3 16\nboth 3 1 16",
        ),
        nothing(
            "three keys in a row",
            "T1 a1=1 a3=1; T2 a1=2 a2=2; T3 a2=3 a3=3; T4 l1=1,2 l2=2,3 l3=1,3",
            "0 1 2 3 4",
        ),
        // 1 and 2 are on the cycle; what leads to it and away from it is not listed.
        accepted(
            "before, on and behind a cycle",
            "T1 a1=1 a2=1; T2 a1=2 a2=2; T3 a1=3; T4 a1=4; T5 l1=3,1,2,4 l2=2,1",
            "0 1 2 3 4 5",
            both_ways,
        ),
        nothing(
            "elements of one transaction side by side",
            "T1 a1=1 a1=2; T2 a1=3 a1=4; T3 l1=1,2,3,4",
            "0 1 2 3",
        ),
        // Of 1 and 3, which are no neighbours, there is no pair.
        accepted(
            "neighbours only",
            "T1 a1=1 a2=1; T2 a1=2; T3 a1=3 a2=3; T4 l1=1,2,3 l2=3,1",
            "0 1 2 3 4",
            "0 3 3\nwrite 1 2 16\nwrite 2 3 16\nwrite 3 1 16\n\
             both 1 2 16\nboth 2 3 16\nboth 3 1 16",
        ),
        accepted(
            "two cycles",
            "T1 a1=1 a2=1; T2 a1=2 a2=2; T3 a3=1 a4=1; T4 a3=2 a4=2; \
             T5 l1=1,2 l2=2,1 l3=1,2 l4=2,1",
            "0 1 2 3 4 5",
            "0 4 4\nwrite 1 2 16\nwrite 2 1 16\nwrite 3 4 16\nwrite 4 3 16\n\
             both 1 2 16\nboth 2 1 16\nboth 3 4 16\nboth 4 3 16",
        ),
    ]
}

/// Cycles that need a read dependency.
pub fn read_dependencies() -> Vec<ListCase> {
    vec![
        accepted(
            "two reads",
            "T1 a1=1 l2=1; T2 a2=1 l1=1",
            "0 1 2",
            "0 0 2\nboth 1 2 4\nboth 2 1 4",
        ),
        accepted(
            "a write and a read",
            "T1 a1=1 l2=1; T2 a1=2 a2=1; T3 l1=1,2",
            "0 1 2 3",
            "0 0 2\nboth 1 2 16\nboth 2 1 4",
        ),
        accepted(
            "both reasons in one pair",
            "T1 a1=1 l2=1; T2 l1=1 a1=2 a2=1; T3 l1=1,2",
            "0 1 2 3",
            "0 0 2\nboth 1 2 20\nboth 2 1 4",
        ),
        accepted(
            "both reasons in one pair, which writes alone list too",
            "T1 a1=1 a2=1; T2 l1=1 a1=2 a2=2; T3 l1=1,2 l2=2,1",
            "0 1 2 3",
            "0 2 2\nwrite 1 2 16\nwrite 2 1 16\nboth 1 2 20\nboth 2 1 16",
        ),
        accepted(
            "a cycle of writes and one of reads",
            "T1 a1=1 a2=1; T2 a1=2 a2=2; T3 l1=1,2 l2=2,1 a3=1 l4=1; T4 a4=1 l3=1",
            "0 1 2 3 4",
            "0 2 4\nwrite 1 2 16\nwrite 2 1 16\n\
             both 1 2 16\nboth 2 1 16\nboth 3 4 4\nboth 4 3 4",
        ),
        // T3 depends on T2 by what it read, and not on T1.
        accepted(
            "the last element only",
            "T1 a1=1 l2=1; T2 a1=2; T3 l1=1,2 a2=1",
            "0 1 2 3",
            "0 0 3\nboth 1 2 16\nboth 2 3 4\nboth 3 1 4",
        ),
        nothing(
            "nobody depends on itself",
            "T1 a1=1 l1=1 a1=2 l1=1,2 a2=1 l2=1",
            "0 1",
        ),
        accepted(
            "an own element last",
            "T1 a1=1 l2=1; T2 a1=2 l1=1,2 a2=1",
            "0 1 2",
            "0 0 2\nboth 1 2 16\nboth 2 1 4",
        ),
    ]
}

/// Which lists give dependencies: those that are clean, and for writes the longest.
pub fn which_list() -> Vec<ListCase> {
    let one_of_each = "0 0 2\nboth 1 2 16\nboth 2 1 4";
    vec![
        accepted(
            "the longest list in a later read",
            "T1 a1=1 l2=1; T2 a1=2 a2=1; T3 l1=1; T4 l1=1,2",
            "0 1 2 3 4",
            one_of_each,
        ),
        accepted(
            "the longest list in an earlier read",
            "T1 a1=1 l2=1; T2 a1=2 a2=1; T3 l1=1,2; T4 l1=1; T5 l1=",
            "0 1 2 3 4 5",
            one_of_each,
        ),
        // Before T2 reads it, nobody has read more than T1's element.
        accepted(
            "the longest list in the last operation",
            "T1 a1=1 l2=1 ..; T2 a1=2 a2=1 l1= ..; T1 .. l1=1; T2 .. l1=1,2",
            "0 1 2",
            one_of_each,
        ),
        found(
            "a list of kind 7 gives nothing",
            "T1 a1=1 a2=1; T2 a1=2 a2=2; T3 l1=1,2 l2=2,1,9",
            "0 1 2 3",
            "3 6 7 0",
        ),
        found(
            "a list of kind 10 gives nothing",
            "T1 a1=1 a1=3 l2=1; T2 a2=1 l1=1",
            "0 1 2",
            "2 5 10 1",
        ),
        found(
            "a list of kind 11 gives nothing",
            "T1 a1=1 l2=1; T2 a1=2 a2=1; T3 l1=2; T4 l1=1,2",
            "0 1 2 3 4",
            "4 6 11 0",
        ),
        nothing(
            "a list of an aborted one gives nothing",
            "T1 a1=1 a2=1; T2 a1=2 a2=2; T3 l1=1,2 l2=2,1 aborted",
            "0 1 2",
        ),
        nothing(
            "a list of an unanswered one gives nothing",
            "T1 a1=1 a2=1; T2 a1=2 a2=2; T3 l1=1,2 l2=2,1 unanswered",
            "0 1 2",
        ),
        accepted(
            "findings beside pairs",
            "T1 a1=1 l2=1 l1=7; T2 a1=2 a2=1 l1=2,2; T3 l1=1,2",
            "0 1 2 3",
            "2 0 2\nread 1 3 7 0\nread 2 6 8 4\nboth 1 2 16\nboth 2 1 4",
        ),
    ]
}

/// Who can be on a cycle: whoever is in a clean list, counted or not, and those whose
/// lists are judged.
pub fn who_takes_part() -> Vec<ListCase> {
    vec![
        accepted(
            "an appender that does not count",
            "T1 a1=1 a2=1 unanswered; T2 a1=2 a2=2; T3 l1=1,2 l2=2,1",
            "0 2 3",
            "0 2 2\nwrite 1 2 16\nwrite 2 1 16\nboth 1 2 16\nboth 2 1 16",
        ),
        accepted(
            "two appenders that do not count",
            "T1 a1=1 a2=1 unanswered; T2 a1=2 a2=2 unanswered; T3 l1=1,2 l2=2,1",
            "0 3",
            "0 2 2\nwrite 1 2 16\nwrite 2 1 16\nboth 1 2 16\nboth 2 1 16",
        ),
        nothing(
            "a reader that does not count",
            "T1 a1=1 l2=1 unanswered; T2 a2=1 l1=1",
            "0 2",
        ),
        accepted(
            "a reader that counts by a single value",
            "T1 a1=1 l2=1 w9=5 unanswered; T2 a2=1 l1=1; T3 r9=5",
            "0 1 2 3",
            "0 0 2\nboth 1 2 4\nboth 2 1 4",
        ),
        // T2's list ends with T1's element, and the element of T2 stands before it.
        accepted(
            "an appender that does not count, read by one",
            "T1 a1=1 unanswered; T2 a1=2 ..; T3 l1=2,1; T2 .. l1=2,1",
            "0 2 3",
            "0 0 2\nboth 1 2 4\nboth 2 1 16",
        ),
    ]
}

/// What source document 003 names, as far as lists without anti-dependencies show it.
pub fn source_003() -> Vec<ListCase> {
    vec![
        accepted(
            "G0",
            "T1 a1=1 ..; T2 a1=2 a2=2 ..; T1 .. a2=1; T2 ..; T3 l1=1,2 l2=2,1",
            "0 1 2 3",
            "0 2 2\nwrite 1 2 16\nwrite 2 1 16\nboth 1 2 16\nboth 2 1 16",
        ),
        found(
            "G1a",
            "T1 a1=1; T2 a1=2 ..; T3 l1=1,2; T2 .. aborted",
            "0 1 3",
            "3 3 9 2",
        ),
        found(
            "G1b",
            "T1 a1=1; T2 a1=2 ..; T3 l1=1,2; T2 .. a1=3",
            "0 1 2 3",
            "3 3 10 2",
        ),
        accepted(
            "G1c",
            "T1 a1=1 ..; T2 l1=1 a2=1 ..; T1 .. l2=1; T2 ..",
            "0 1 2",
            "0 0 2\nboth 1 2 4\nboth 2 1 4",
        ),
        found(
            "incompatible orders",
            "T1 a1=1; T2 a1=2; T3 a1=3; T4 l1=1,2,3; T5 l1=1,3,2",
            "0 1 2 3 4 5",
            "5 5 11 0",
        ),
        // An append that was tried again.
        found(
            "a duplicate",
            "T1 a1=1; T2 a1=2; T3 l1=1,2,1",
            "0 1 2 3",
            "3 3 8 1",
        ),
        found("garbage", "T1 a1=1; T2 l1=1,7", "0 1 2", "2 2 7 0"),
        // Its cycle needs an anti-dependency, and the own append is not asked for.
        nothing(
            "read skew",
            "T1 a34=2; T2 a34=1; T3 l34=2,1 a36=5 a34=4; T4 a34=5; T5 l34=2,1,5,4",
            "0 1 2 3 4 5",
        ),
        nothing("an own append that is not seen", "T1 a0=6 l0=", "0 1"),
    ]
}

/// Traces that `judge` and `lists` judge, each its own.
pub fn both_sorts_of_keys() -> Vec<ListCase> {
    let two_pairs = "rejected 0 2\npair 1 2 8\npair 2 1 8\n";
    vec![
        listed(
            "P10 beside a cycle of lists",
            "T1 w9=5 a1=1 a2=1; T2 w9=6 a1=2 a2=2; T3 r9=5 r9=6 l1=1,2 l2=2,1",
            format!("rc accepted 0 1 2 3\nra {two_pairs}tcc {two_pairs}"),
            "0 2 2\nwrite 1 2 16\nwrite 2 1 16\nboth 1 2 16\nboth 2 1 16",
        ),
        listed(
            "findings of both sorts by turns",
            "T1 a1=5 w2=5 aborted; T2 l1=5 r2=5 l1=9 r2=9",
            same("rejected 2 0\nread 2 4 2 2\nread 2 6 1 0"),
            "2 0 0\nread 2 3 9 1\nread 2 5 7 0",
        ),
        listed(
            "findings of single values only",
            "T1 w1=5 a2=6 w1=6; T2 l2=6 r1=5",
            same("rejected 1 0\nread 2 5 6 1"),
            "0 0 0",
        ),
        listed(
            "a cycle of each sort, with other transactions",
            "T1 r9=7 w8=5; T2 r8=5 w9=7; T3 a1=1 l2=1; T4 a2=1 l1=1",
            same("rejected 0 2\npair 1 2 4\npair 2 1 4"),
            "0 0 2\nboth 3 4 4\nboth 4 3 4",
        ),
        // Neither sort forces what the other says: each alone has no cycle.
        nothing(
            "half a cycle of each sort",
            "T1 w9=5 l1=1; T2 r9=5 a1=1",
            "0 1 2",
        ),
        nothing(
            "lists between an own write and its read",
            "T1 w1=5 a2=5 l2=5 r1=5; T2 a2=6 l2=5,6 r1=5",
            "0 1 2",
        ),
        nothing(
            "keys that share a bucket",
            "T1 w1=5 a129=5 a65=5 a16777217=5; T2 r1=5 l129=5 l65=5 l16777217=5",
            "0 1 2",
        ),
        nothing(
            "the greatest key, session and value",
            "T1 s65535 a4294967295=18446744073709551615; \
             T2 s0 l4294967295=18446744073709551615 w0=18446744073709551615",
            "0 1 2",
        ),
    ]
}

/// Operation numbers of one byte and of two. A filler is that many appends which nobody
/// reads.
pub fn numbers() -> Vec<ListCase> {
    let filler = |count: u16| each("a9=", 1..=count);
    vec![
        found(
            "append 255, list read 256",
            &format!("T1{}; T2 a1=5 aborted; T3 l1=5", filler(254)),
            "0 1 3",
            "3 256 9 255",
        ),
        found(
            "append 256, list read 258",
            &format!("T1{}; T2 a1=5 a1=6; T3 l1=5", filler(255)),
            "0 1 2 3",
            "3 258 10 256",
        ),
        found(
            "list read 1, append 257: the same low byte",
            &format!("T1 l1=5; T2{} a1=5 aborted", filler(255)),
            "0 1",
            "1 1 9 257",
        ),
        found(
            "list read 1, append 1,024",
            &format!("T1 l1=5,5; T2{} a1=5", filler(1_022)),
            "0 1 2",
            "1 1 8 1024",
        ),
    ]
}

/// The numbers from 1 on as the values of a list.
fn values(last: usize) -> String {
    let all: Vec<String> = (1..=last).map(|value| value.to_string()).collect();
    all.join(",")
}

/// The most values, operations, findings, pairs and bytes.
pub fn limits() -> Vec<ListCase> {
    let full = values(MAX_LIST);
    let appenders: String = (1..=MAX_LIST).map(|t| format!("T{t} a1={t}; ")).collect();
    let own_lists: String = (1..=512).map(|key| format!(" a{key}=1 l{key}=1")).collect();
    let unclean = |count: u16| -> String {
        let lines = (1..=count).map(|operation| format!("\nread 1 {operation} 7 0"));
        lines.collect()
    };
    vec![
        nothing(
            "32 values of one transaction",
            &format!("T1{}; T2 l1={full}", each("a1=", 1..=32)),
            "0 1 2",
        ),
        nothing(
            "32 values of 32 transactions",
            &format!("{appenders}T33 l1={full}"),
            &counting(33),
        ),
        // No list read can have all of them.
        found(
            "32 values of 33",
            &format!("T1{}; T2 l1={full}", each("a1=", 1..=33)),
            "0 1 2",
            "2 34 10 32",
        ),
        nothing(
            "1,024 operations, half of them list reads",
            &format!("T1{own_lists}"),
            "0 1",
        ),
        accepted(
            "1,024 unclean list reads",
            &format!("T1{}", " l1=1".repeat(MAX_OPERATIONS)),
            "0 1",
            &format!("1024 0 0{}", unclean(1_024)),
        ),
        cycle_of_writes(),
        cycle_of_reads(),
        full_of_lists(),
    ]
}

/// A cycle through so many transactions: each stands before the next, the last before
/// the first. Answers the pairs as they are printed behind this word.
fn ring(word: &str, last: usize, reasons: u8) -> String {
    let pair = |t: usize| format!("\n{word} {t} {} {reasons}", t % last + 1);
    (1..=last).map(pair).collect()
}

/// Each appends to a list to which the next appends then, and the last of all reads
/// every list.
fn cycle_of_writes() -> ListCase {
    const LAST: usize = MAX_TRANSACTIONS - 1;
    let before = |t: usize| (t + LAST - 2) % LAST + 1;
    let appends = (1..=LAST).map(|t| format!("T{t} a{t}=1 a{}=2; ", before(t)));
    let lists = (1..=LAST).map(|key| format!(" l{key}=1,2"));
    let (appends, lists): (String, String) = (appends.collect(), lists.collect());
    let pairs = ring("write", LAST, 16) + &ring("both", LAST, 16);
    accepted(
        "a cycle of writes through 126 transactions",
        &format!("{appends}T{MAX_TRANSACTIONS}{lists}"),
        &counting(MAX_TRANSACTIONS),
        &format!("0 {LAST} {LAST}{pairs}"),
    )
}

/// Each appends to a list that the next one reads.
fn cycle_of_reads() -> ListCase {
    const LAST: usize = MAX_TRANSACTIONS;
    let before = |t: usize| (t + LAST - 2) % LAST + 1;
    let all = (1..=LAST).map(|t| format!("T{t} l{}=1 a{t}=1; ", before(t)));
    accepted(
        "a cycle of reads through 127 transactions",
        &all.collect::<String>(),
        &counting(LAST),
        &format!("0 0 {LAST}{}", ring("both", LAST, 4)),
    )
}

/// As many bytes as there can be: 120 list reads of 32 values.
fn full_of_lists() -> ListCase {
    const READS: usize = 120;
    let list = format!(" l1={}", values(MAX_LIST));
    let lines: String = (4..4 + READS)
        .map(|n| format!("\nread 2 {n} 7 0"))
        .collect();
    accepted(
        "32,768 bytes of lists",
        &format!("T1 a1=1 a1=2 a1=3; T2{}", list.repeat(READS)),
        "0 1 2",
        &format!("{READS} 0 0{lines}"),
    )
}

/// A list read as a payload, with its session first and with this number.
fn numbered_list(session: u16, key: u32, number: u16, values: &[u64]) -> Vec<u8> {
    let mut payload = session.to_le_bytes().to_vec();
    payload.extend(key.to_le_bytes());
    payload.extend(number.to_le_bytes());
    payload.extend(values.iter().flat_map(|value| value.to_le_bytes()));
    payload
}

/// The same with as many values as it says, each of them 1.
fn list(session: u16, key: u32, number: u16) -> Vec<u8> {
    numbered_list(session, key, number, &vec![1; number.into()])
}

/// Sessions 1 and 2 are open. Key 1 has the list 1, and key 2 the single value 1.
fn inside() -> Writer {
    let mut writer = Writer::edition_2(0);
    writer.open(1);
    writer.open(2);
    writer.append_in(1, 1, 1);
    writer.write_in(2, 2, 1);
    writer
}

/// The same with session 1 closed.
fn half() -> Writer {
    let mut writer = inside();
    writer.close_in(1, 1);
    writer
}

/// The same with as many operations as there can be.
fn full() -> Writer {
    let mut writer = inside();
    for value in 3..=MAX_OPERATIONS as u64 {
        writer.append_in(1, 3, value);
    }
    writer
}

/// Bytes too few or too many.
fn framing() -> Vec<Case> {
    let whole = |payload: &[u8], kind: u16| {
        let mut writer = inside();
        writer.record(kind, payload);
        writer.bytes
    };
    let place = inside().bytes.len();
    let cut = |name, payload: &[u8], kind: u16, bytes: usize| {
        let bytes = whole(payload, kind)[..place + bytes].to_vec();
        refused(name, bytes, 3, place)
    };
    let mut longer = full_of_lists().case.bytes;
    longer.push(0);
    let mut done = half();
    done.close_in(2, 1);
    let done = done.end();
    let end = done.len();
    vec![
        cut("append cut by a byte", &operation(1, 1, 5), APPEND, 21),
        cut("list read cut by a byte", &list(1, 1, 2), LIST_READ, 31),
        cut(
            "list read cut behind its number",
            &list(1, 1, 2),
            LIST_READ,
            16,
        ),
        cut(
            "list read cut before its number",
            &list(1, 1, 2),
            LIST_READ,
            14,
        ),
        refused(
            "lists and no end",
            whole(&list(1, 1, 0), LIST_READ),
            3,
            place + 16,
        ),
        refused(
            "lists and a byte after the end",
            [done, vec![0]].concat(),
            11,
            end,
        ),
        refused("32,768 bytes of lists and one more", longer, 2, MAX_BYTES),
        after_unnumbered(
            "append with a wrong serial: 5 before 8",
            inside(),
            APPEND,
            &operation(1, 1, 0),
        ),
        after_unnumbered(
            "list read with a wrong serial: 5 before 4",
            inside(),
            LIST_READ,
            &[1, 0],
        ),
    ]
}

/// What is no append and no list read, and where there are none.
fn unknown_kinds() -> Vec<Case> {
    let outside_1 = || {
        let mut writer = Writer::new(0);
        writer.open(1);
        writer.close(1);
        writer
    };
    let inside_1 = || {
        let mut writer = Writer::new(0);
        writer.open(1);
        writer
    };
    let append = operation(1, 1, 5);
    vec![
        after("kind 22", inside(), 22, &append, 6),
        after("kind 25", inside(), 25, &append, 6),
        after("kind 279, which is not 23", inside(), 279, &append, 6),
        after(
            "kind 280, which is not 24",
            inside(),
            280,
            &list(1, 1, 1),
            6,
        ),
        after("append in edition 1", inside_1(), APPEND, &append, 6),
        after(
            "append without session in edition 1",
            inside_1(),
            APPEND,
            &append[2..],
            6,
        ),
        after(
            "list read in edition 1",
            inside_1(),
            LIST_READ,
            &list(1, 1, 1),
            6,
        ),
        after(
            "append in edition 1, outside: 6 before 7",
            outside_1(),
            APPEND,
            &append,
            6,
        ),
        after(
            "list read of no length in edition 1: 6 before 4",
            inside_1(),
            LIST_READ,
            &[],
            6,
        ),
        after(
            "append of 0 in edition 1: 6 before 8",
            inside_1(),
            APPEND,
            &operation(1, 1, 0),
            6,
        ),
        after(
            "append as the first record",
            Writer::new(0),
            APPEND,
            &append,
            6,
        ),
        after(
            "list read as the first record",
            Writer::new(0),
            LIST_READ,
            &list(1, 1, 0),
            6,
        ),
    ]
}

/// Row 4, whatever the number of values.
fn wrong_lengths() -> Vec<Case> {
    let with = |number: u16, values: usize| numbered_list(1, 1, number, &vec![1; values]);
    let byte_more = |payload: Vec<u8>| [payload, vec![0]].concat();
    let after = |name, kind: u16, payload: &[u8]| after(name, inside(), kind, payload, 4);
    vec![
        after("append of length 18", APPEND, &[1; 12]),
        after("append of length 19", APPEND, &[1; 13]),
        after("append of length 21", APPEND, &[1; 15]),
        after("append of length 6", APPEND, &[]),
        after("list read of length 6", LIST_READ, &[]),
        after("list read of length 13", LIST_READ, &[0; 7]),
        after("list read of length 15", LIST_READ, &byte_more(with(0, 0))),
        after("list read of length 21", LIST_READ, &with(1, 1)[..15]),
        after("list read of length 23", LIST_READ, &byte_more(with(1, 1))),
        after("list read of 1 that says 0", LIST_READ, &with(0, 1)),
        after("list read of none that says 1", LIST_READ, &with(1, 0)),
        after("list read of 2 that says 1", LIST_READ, &with(1, 2)),
        after("list read of 2 that says 3", LIST_READ, &with(3, 2)),
        after("list read of 1 that says 257", LIST_READ, &with(257, 1)),
        after("list read of 32 that says 33", LIST_READ, &with(33, 32)),
        after("list read of 33 that says 32", LIST_READ, &with(32, 33)),
        after(
            "list read of none that says 8,192",
            LIST_READ,
            &with(8_192, 0),
        ),
        after(
            "list read of none that says 65,535",
            LIST_READ,
            &with(65_535, 0),
        ),
    ]
}

/// Rows 7 to 10, and which comes first.
fn order_of_checks() -> Vec<Case> {
    let append = operation;
    let aborted = || {
        let mut writer = inside();
        writer.close_in(1, 0);
        writer
    };
    let unanswered = || {
        let mut writer = inside();
        writer.close_in(1, 2);
        writer
    };
    vec![
        after(
            "append of a closed session",
            half(),
            APPEND,
            &append(1, 1, 5),
            7,
        ),
        after(
            "list read of a closed session",
            half(),
            LIST_READ,
            &list(1, 1, 1),
            7,
        ),
        after(
            "append of a session never opened",
            inside(),
            APPEND,
            &append(3, 1, 5),
            7,
        ),
        after(
            "list read of a session off by 256",
            inside(),
            LIST_READ,
            &list(257, 1, 1),
            7,
        ),
        after(
            "append with no session open",
            Writer::edition_2(0),
            APPEND,
            &append(1, 1, 5),
            7,
        ),
        after(
            "append of length 19 of a closed session: 4 before 7",
            half(),
            APPEND,
            &append(1, 1, 5)[..13],
            4,
        ),
        after(
            "list read of 1 that says 2, of a closed session: 4 before 7",
            half(),
            LIST_READ,
            &numbered_list(1, 1, 2, &[1]),
            4,
        ),
        after(
            "append of 0 of a closed session: 7 before 8",
            half(),
            APPEND,
            &append(1, 1, 0),
            7,
        ),
        after(
            "33 values of a closed session: 7 before 8",
            half(),
            LIST_READ,
            &list(1, 1, 33),
            7,
        ),
        after("append of 0", inside(), APPEND, &append(1, 1, 0), 8),
        after("33 values", inside(), LIST_READ, &list(1, 1, 33), 8),
        after("34 values", inside(), LIST_READ, &list(1, 1, 34), 8),
        after("256 values", inside(), LIST_READ, &list(1, 1, 256), 8),
        after(
            "288 values, whose low byte is 32",
            inside(),
            LIST_READ,
            &list(1, 1, 288),
            8,
        ),
        after(
            "1,025th appends 0: 8 before 9",
            full(),
            APPEND,
            &append(1, 1, 0),
            8,
        ),
        after(
            "1,025th has 33 values: 8 before 9",
            full(),
            LIST_READ,
            &list(1, 1, 33),
            8,
        ),
        after("1,025th appends", full(), APPEND, &append(1, 1, 5), 9),
        after("1,025th reads a list", full(), LIST_READ, &list(1, 1, 0), 9),
        after(
            "1,025th appends again: 9 before 10",
            full(),
            APPEND,
            &append(1, 1, 1),
            9,
        ),
        after(
            "1,025th mixes by an append: 9 before 17",
            full(),
            APPEND,
            &append(1, 2, 5),
            9,
        ),
        after(
            "1,025th mixes by a list read: 9 before 17",
            full(),
            LIST_READ,
            &list(1, 2, 1),
            9,
        ),
        after(
            "append repeated in its session",
            inside(),
            APPEND,
            &append(1, 1, 1),
            10,
        ),
        after(
            "append repeated by another session",
            inside(),
            APPEND,
            &append(2, 1, 1),
            10,
        ),
        after(
            "append of an aborted one repeated",
            aborted(),
            APPEND,
            &append(2, 1, 1),
            10,
        ),
        after(
            "append of an unanswered one repeated",
            unanswered(),
            APPEND,
            &append(2, 1, 1),
            10,
        ),
    ]
}

/// Row 17: every two operations on one key of which one is on a list. The place is that
/// of the second, whoever did the first.
fn mixed() -> Vec<Case> {
    let mixed = |name, notation: &str, place| {
        let notation = format!("edition 2; {notation}");
        written(name, &notation, format!("refused 17 {place}\n"))
    };
    vec![
        mixed("a read, then an append", "T1 r1=0 a1=5", 42),
        mixed("a read, then a list read", "T1 r1=0 l1=", 42),
        mixed("a write, then an append", "T1 w1=5 a1=6", 42),
        mixed("a write, then a list read", "T1 w1=5 l1=5", 42),
        mixed("an append, then a read", "T1 a1=5 r1=5", 42),
        mixed("an append, then a write", "T1 a1=5 w1=6", 42),
        mixed("a list read, then a read", "T1 l1= r1=0", 36),
        mixed("a list read, then a write", "T1 l1=5 w1=5", 44),
        // Not row 10, which is about two writes or two appends.
        mixed("a write, then an append of its value", "T1 w1=5 a1=5", 42),
        mixed("an append, then a write of its value", "T1 a1=5 w1=5", 42),
        mixed("mixed by another transaction", "T1 w1=5; T2 a1=6", 63),
        mixed(
            "mixed while both are open",
            "T1 w1=5 ..; T2 a1=6; T1 ..",
            52,
        ),
        mixed("mixed with an aborted one", "T1 w1=5 aborted; T2 a1=6", 63),
        mixed("mixed by an aborted one", "T1 a1=5; T2 r1=0 aborted", 63),
        mixed(
            "mixed between aborted ones",
            "T1 l1= aborted; T2 w1=5 aborted",
            57,
        ),
        mixed(
            "mixed with an unanswered one",
            "T1 a1=5 unanswered; T2 r1=0",
            63,
        ),
        mixed(
            "two keys are mixed, the first place",
            "T1 w1=5 a2=5; T2 a1=6 w2=7",
            85,
        ),
        mixed(
            "mixed late",
            "T1 a1=5 l1=5 a2=6 l2=6; T2 l1=5 l2=6 r1=5",
            181,
        ),
        mixed("the key 0", "T1 r0=0 l0=", 42),
        mixed("the greatest key", "T1 a4294967295=1 w4294967295=1", 42),
    ]
}

/// Row 17 and what comes before it in a record.
fn mixed_and_more() -> Vec<Case> {
    vec![
        after(
            "a mixing append of 0: 8 before 17",
            inside(),
            APPEND,
            &operation(1, 2, 0),
            8,
        ),
        after(
            "a mixing write of 0: 8 before 17",
            inside(),
            WRITE,
            &operation(1, 1, 0),
            8,
        ),
        after(
            "mixing 33 values: 8 before 17",
            inside(),
            LIST_READ,
            &list(1, 2, 33),
            8,
        ),
        after(
            "a mixing append of a closed session: 7 before 17",
            half(),
            APPEND,
            &operation(1, 2, 5),
            7,
        ),
        after(
            "a mixing read of length 19: 4 before 17",
            inside(),
            READ,
            &operation(1, 1, 5)[..13],
            4,
        ),
        after("a mixing read", inside(), READ, &operation(2, 1, 1), 17),
        after(
            "a mixing list read",
            inside(),
            LIST_READ,
            &list(1, 2, 32),
            17,
        ),
        after_unnumbered(
            "a mixing append with a wrong serial: 5 before 17",
            inside(),
            APPEND,
            &operation(1, 2, 5),
        ),
    ]
}
