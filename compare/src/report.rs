//! The answers of a judge, and their form in print.

use crate::listing::Listing;
use crate::trace::Refusal;
use crate::Answer;
use std::fmt::Write;
use std::str::FromStr;

/// The three levels, weakest first.
#[derive(Clone, Copy, Debug, PartialEq, Eq)]
pub enum Level {
    ReadCommitted,
    ReadAtomicity,
    Causal,
}

impl Level {
    pub const ALL: [Level; 3] = [Level::ReadCommitted, Level::ReadAtomicity, Level::Causal];

    pub fn name(self) -> &'static str {
        match self {
            Level::ReadCommitted => "rc",
            Level::ReadAtomicity => "ra",
            Level::Causal => "tcc",
        }
    }

    /// The specification's number, 1 to 3.
    pub fn number(self) -> u32 {
        match self {
            Level::ReadCommitted => 1,
            Level::ReadAtomicity => 2,
            Level::Causal => 3,
        }
    }

    /// The level with this number; no other number has one.
    pub fn of_number(number: u32) -> Option<Level> {
        Level::ALL
            .into_iter()
            .find(|level| level.number() == number)
    }
}

/// The reasons of a pair are a sum of these.
pub const START: u8 = 1;
pub const SESSION: u8 = 2;
pub const READ: u8 = 4;
pub const RIVAL: u8 = 8;
/// Of the dependencies of lists, which besides have [`READ`].
pub const WRITE: u8 = 16;

/// A read that is not clean. Kinds are the specification's numbers, 1 to 6, and 7 to 11
/// for a list read.
#[derive(Clone, Copy, Debug, PartialEq, Eq)]
pub struct Finding {
    pub transaction: u8,
    pub kind: u8,
    pub operation: u16,
    /// The number of the write that has the read's key and value, or 0 if no
    /// write has: for kind 1, and for kind 5 with value 0. Of a list read that of the
    /// append of an element: of the first one at fault for 8 and 9, of the last one for
    /// 10, or else 0.
    pub write: u16,
}

impl Finding {
    /// Its form in a buffer.
    pub fn bytes(&self) -> [u8; 6] {
        let [low, high] = self.operation.to_le_bytes();
        let [write_low, write_high] = self.write.to_le_bytes();
        [
            self.transaction,
            self.kind,
            low,
            high,
            write_low,
            write_high,
        ]
    }
}

/// A forced pair, or a dependency of lists, that lies on a cycle.
#[derive(Clone, Copy, Debug, PartialEq, Eq)]
pub struct Pair {
    pub first: u8,
    pub second: u8,
    pub reasons: u8,
}

impl Pair {
    /// Its form in a buffer.
    pub fn bytes(&self) -> [u8; 4] {
        [self.first, self.second, self.reasons, 0]
    }
}

/// What a level says of a trace.
#[derive(Clone, Debug, PartialEq, Eq)]
pub enum Verdict {
    /// The transactions that count as committed in the smallest lawful order, 0
    /// first.
    Accepted(Vec<u8>),
    /// Findings by operation number, pairs by first and then second.
    Rejected {
        findings: Vec<Finding>,
        pairs: Vec<Pair>,
    },
}

impl Verdict {
    pub fn is_accepted(&self) -> bool {
        matches!(self, Verdict::Accepted(_))
    }

    /// The findings; an accepted trace has none.
    pub fn findings(&self) -> &[Finding] {
        match self {
            Verdict::Accepted(_) => &[],
            Verdict::Rejected { findings, .. } => findings,
        }
    }
}

/// What the program `judge` prints: a block a level, or the refusal alone.
pub fn print(answer: &Answer) -> String {
    print_ending(answer, &NO_ENDING)
}

/// What stands at the end of a finding's line, behind its numbers.
type Ending<'a> = &'a dyn Fn(&Finding) -> String;

const NO_ENDING: fn(&Finding) -> String = |_| String::new();

/// The same, where the line of each finding ends so.
pub fn print_ending(answer: &Answer, ending: Ending) -> String {
    let mut out = String::new();
    match answer {
        Err(refusal) => print_refusal(&mut out, refusal),
        Ok(verdicts) => {
            for (level, verdict) in Level::ALL.iter().zip(verdicts) {
                print_block(&mut out, level.name(), verdict, ending);
            }
        }
    }
    out
}

/// What the program `lists` prints: the counts, the unclean list reads, and the pairs
/// over write dependencies and over both sorts; or the refusal alone.
pub fn print_listing(answer: &Result<Listing, Refusal>) -> String {
    let mut out = String::new();
    match answer {
        Err(refusal) => print_refusal(&mut out, refusal),
        Ok(listing) => {
            let [found, writes, both] = listing.counts();
            line(&mut out, format_args!("lists {found} {writes} {both}"));
            print_findings(&mut out, &listing.findings, &NO_ENDING);
            print_pairs(&mut out, "write", &listing.over_writes);
            print_pairs(&mut out, "both", &listing.over_both);
        }
    }
    out
}

fn print_refusal(out: &mut String, Refusal { number, place }: &Refusal) {
    line(out, format_args!("refused {number} {place}"));
}

fn print_block(out: &mut String, level: &str, verdict: &Verdict, ending: Ending) {
    match verdict {
        Verdict::Accepted(order) => {
            let places = places(order);
            line(out, format_args!("{level} accepted{places}"));
        }
        Verdict::Rejected { findings, pairs } => {
            let (found, listed) = (findings.len(), pairs.len());
            line(out, format_args!("{level} rejected {found} {listed}"));
            print_findings(out, findings, ending);
            print_pairs(out, "pair", pairs);
        }
    }
}

/// An order in print: each transaction behind a space.
pub fn places(order: &[u8]) -> String {
    order.iter().map(|t| format!(" {t}")).collect()
}

/// The lists of a rejection: a line a finding, then a line a pair.
pub fn print_lists(out: &mut String, findings: &[Finding], pairs: &[Pair]) {
    print_findings(out, findings, &NO_ENDING);
    print_pairs(out, "pair", pairs);
}

fn print_findings(out: &mut String, findings: &[Finding], ending: Ending) {
    for f in findings {
        let (t, op, kind, write) = (f.transaction, f.operation, f.kind, f.write);
        let end = ending(f);
        line(out, format_args!("read {t} {op} {kind} {write}{end}"));
    }
}

/// A line a pair, which begins with this word.
fn print_pairs(out: &mut String, word: &str, pairs: &[Pair]) {
    for p in pairs {
        let (a, b, reasons) = (p.first, p.second, p.reasons);
        line(out, format_args!("{word} {a} {b} {reasons}"));
    }
}

fn line(out: &mut String, text: std::fmt::Arguments) {
    writeln!(out, "{text}").expect("a string takes all text");
}

/// The answer that is printed so; none where no answer is.
pub fn read(text: &str) -> Option<Answer> {
    let answer = read_loosely(text)?;
    // Whatever was overlooked shows when it is printed again.
    (print(&answer) == text).then_some(answer)
}

fn read_loosely(text: &str) -> Option<Answer> {
    if let Some(refusal) = text.strip_prefix("refused ") {
        let [number, place] = numbers(refusal)?[..] else {
            return None;
        };
        let number = u8::try_from(number).ok()?;
        return Some(Err(Refusal { number, place }));
    }
    let mut lines = text.lines();
    let verdicts = Level::ALL.map(|level| read_block(&mut lines, level.name()));
    match verdicts {
        [Some(rc), Some(ra), Some(tcc)] => Some(Ok([rc, ra, tcc])),
        _ => None,
    }
}

fn read_block<'a>(lines: &mut impl Iterator<Item = &'a str>, level: &str) -> Option<Verdict> {
    let verdict = lines.next()?.strip_prefix(level)?;
    if let Some(order) = verdict.strip_prefix(" accepted") {
        return Some(Verdict::Accepted(numbers(order)?));
    }
    let [found, listed] = numbers(verdict.strip_prefix(" rejected")?)?[..] else {
        return None;
    };
    let mut each = |_| lines.next();
    let findings: Option<_> = (0..found).map(|n| read_finding(each(n)?)).collect();
    let pairs: Option<_> = (0..listed).map(|n| read_pair(each(n)?)).collect();
    Some(Verdict::Rejected {
        findings: findings?,
        pairs: pairs?,
    })
}

fn read_finding(line: &str) -> Option<Finding> {
    match numbers(line.strip_prefix("read")?)?[..] {
        [transaction, operation, kind, write] => Some(Finding {
            transaction: u8::try_from(transaction).ok()?,
            kind: u8::try_from(kind).ok()?,
            operation,
            write,
        }),
        _ => None,
    }
}

fn read_pair(line: &str) -> Option<Pair> {
    match numbers(line.strip_prefix("pair")?)?[..] {
        [first, second, reasons] => Some(Pair {
            first,
            second,
            reasons,
        }),
        _ => None,
    }
}

fn numbers<N: FromStr>(text: &str) -> Option<Vec<N>> {
    let words = text.split_whitespace();
    words.map(|word| word.parse().ok()).collect()
}
