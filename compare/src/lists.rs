//! Compares the program `lists` with the independent answers, a run for each trace, and
//! these with those of plain search and with what has to hold of them.

use crate::cases;
use crate::generate::{self, Origin};
use crate::graph;
use crate::list_cases;
use crate::list_search;
use crate::listing::{list, listing_of, Listing};
use crate::process;
use crate::random::Random;
use crate::report::{self, Finding, Pair, READ, WRITE};
use crate::trace::{self, Refusal, Sort, Trace, MAX_LIST};
use crate::workers::{self, add_each, must, Difference, Extent, Tally};

/// The kinds of list reads.
const KINDS: std::ops::RangeInclusive<usize> = 7..=11;
/// The sums that the reasons of a dependency can be.
const SUMS: [u8; 3] = [READ, WRITE, READ + WRITE];

/// Compares all traces, up to the first difference. Answers what there is to be said,
/// and the difference.
pub fn compare(command: &str, extent: &Extent) -> (String, Option<Box<Difference>>) {
    let known = known();
    let total = known.len() + extent.traces;
    let check = |index: usize, _: &mut (), tally: &mut Outcomes| {
        // Each trace has its own random stream, so that a run is the same whatever the
        // number of threads.
        let random;
        let subject = match known.get(index) {
            Some(subject) => subject,
            None => {
                random = Subject::random(index, extent.seed);
                &random
            }
        };
        subject.check(command, tally)
    };
    let (tally, difference) = workers::share(total, extent.threads, || (), check);
    (tally.describe(command, extent), difference)
}

/// A trace whose lists are to be judged.
struct Subject {
    name: String,
    origin: Origin,
    bytes: Vec<u8>,
    /// What must be printed, where that is known beforehand.
    expected: Option<String>,
}

/// The known traces with lists, and those without, of which nothing is printed but that
/// nothing is amiss, or why they are refused.
fn known() -> Vec<Subject> {
    let subject = |case: cases::Case, expected| Subject {
        name: format!("case '{}'", case.name),
        origin: Origin::Case,
        bytes: case.bytes,
        expected: Some(expected),
    };
    let with = list_cases::all().into_iter();
    let without = cases::without_lists().into_iter().map(|case| {
        let expected = match case.output.starts_with("refused") {
            true => case.output.clone(),
            false => "lists 0 0 0\n".into(),
        };
        subject(case, expected)
    });
    with.map(|known| subject(known.case, known.lists))
        .chain(without)
        .collect()
}

impl Subject {
    fn random(index: usize, seed: u64) -> Subject {
        let mut random = Random::new(seed, index as u64);
        // What has no lists is read by the same program.
        let (origin, bytes) = match random.percent(90) {
            true => generate::any_with_lists(&mut random),
            false => generate::any(&mut random),
        };
        Subject {
            name: format!("trace {index} of seed {seed}, {}", origin.describe()),
            origin,
            bytes,
            expected: None,
        }
    }

    fn check(&self, command: &str, tally: &mut Outcomes) -> Result<(), Box<Difference>> {
        let parsed = Trace::parse(&self.bytes);
        let answer = parsed.as_ref().map(listing_of).map_err(|r| *r);
        let ours = report::print_listing(&answer);
        if let Some(expected) = self.expected.as_ref().filter(|text| **text != ours) {
            return Err(self.differs("the expected answer", expected.clone(), ours));
        }
        if let (Ok(trace), Ok(listing)) = (&parsed, &answer) {
            check_listing(&self.bytes, trace, listing)
                .map_err(|message| self.differs("the check in Rust", message, ours.clone()))?;
        }
        tally.count(self.origin, &self.bytes, &parsed, &answer);
        let theirs = match process::run_once(command, &self.bytes) {
            Ok(theirs) if theirs == ours.as_bytes() => return Ok(()),
            Ok(theirs) => String::from_utf8_lossy(&theirs).into_owned(),
            Err(message) => format!("did not run: {message}\n"),
        };
        Err(self.differs("the program", theirs, ours))
    }

    fn differs(&self, one: &'static str, said: String, ours: String) -> Box<Difference> {
        Box::new(Difference {
            name: self.name.clone(),
            bytes: self.bytes.clone(),
            file: "lists.trace".into(),
            beside: vec![],
            answers: [(one, said), ("the Rust judge", ours)],
        })
    }
}

/// What has to hold of the answer for a trace that is read; or what is wrong with it.
pub fn check_listing(bytes: &[u8], trace: &Trace, listing: &Listing) -> Result<(), String> {
    let checked = check_search(trace, listing)
        .and_then(|()| check_pairs(listing))
        .and_then(|()| check_buffers(bytes, listing));
    checked.map_err(|message| message + "\n")
}

/// Plain search comes to the same. Of each key the clean lists are one chain, and each
/// finding tells the append that it has to.
fn check_search(trace: &Trace, listing: &Listing) -> Result<(), String> {
    let counted = graph::counted(trace);
    let searched = list_search::listing_of(trace, &counted);
    if searched != *listing {
        return Err(format!("plain search says {searched:?}"));
    }
    let clean = list_search::clean_lists(trace, &counted);
    for (key, list) in &clean {
        let mut of_key = clean.iter().filter(|(other, _)| other == key);
        let is_chain = of_key.all(|(_, other)| list.starts_with(other) || other.starts_with(list));
        must(is_chain, "two clean lists of a key are apart")?;
    }
    let is_told = |finding: &Finding| list_search::tells_append(trace, finding);
    let all_told = listing.findings.iter().all(is_told);
    must(all_told, "a finding tells another append")
}

/// Both lists are sorted, and what writes alone list is listed over both too.
fn check_pairs(listing: &Listing) -> Result<(), String> {
    let is_sorted = |pairs: &[Pair]| {
        pairs.is_sorted_by(|one, other| (one.first, one.second) < (other.first, other.second))
    };
    let are_sorted = is_sorted(&listing.over_writes) && is_sorted(&listing.over_both);
    must(are_sorted, "pairs not sorted")?;
    let is_in_both = |pair: &Pair| {
        let ends = (pair.first, pair.second);
        let mut both = listing.over_both.iter();
        let same = both.find(|other| (other.first, other.second) == ends);
        pair.reasons == WRITE && same.is_some_and(|same| same.reasons & WRITE != 0)
    };
    let are_in_both = listing.over_writes.iter().all(is_in_both);
    must(are_in_both, "listed over writes, but not over both")?;
    let are_sums = listing.over_both.iter().all(|p| SUMS.contains(&p.reasons));
    must(are_sums, "reasons that there are not")
}

/// With room for the lists the call writes them and nothing behind them; with a byte
/// less it says how many are needed, of the findings first, and writes nothing.
fn check_buffers(bytes: &[u8], listing: &Listing) -> Result<(), String> {
    const UNTOUCHED: u8 = 0xA5;
    const MORE: usize = 3;
    let [for_findings, for_pairs] = listing.needed();
    let called = |rooms: [usize; 2]| {
        let [mut findings, mut pairs] = rooms.map(|room| vec![UNTOUCHED; room]);
        let counts = list(bytes, &mut findings, &mut pairs);
        (counts, findings, pairs)
    };
    let behind = [UNTOUCHED; MORE];
    let found = listing.findings.iter().flat_map(Finding::bytes);
    let listed = listing.over_writes.iter().chain(&listing.over_both);
    let written = (
        Ok(listing.counts()),
        found.chain(behind).collect(),
        listed.flat_map(Pair::bytes).chain(behind).collect(),
    );
    let ample = [for_findings + MORE, for_pairs + MORE];
    must(called(ample) == written, "other bytes in the buffers")?;
    let refused = |number, place, rooms: [usize; 2]| {
        let [findings, pairs] = rooms.map(|room| vec![UNTOUCHED; room]);
        let refusal = Refusal { number, place };
        called(rooms) == (Err(refusal), findings, pairs)
    };
    if for_findings > 0 {
        let is_refused = refused(12, for_findings, [for_findings - 1, 0]);
        must(is_refused, "not refused for its findings")?;
    }
    if for_pairs > 0 {
        let is_refused = refused(13, for_pairs, [for_findings, for_pairs - 1]);
        must(is_refused, "not refused for its pairs")?;
    }
    Ok(())
}

/// How often each thing occurred.
#[derive(Default)]
struct Outcomes {
    origins: [usize; Origin::ALL.len()],
    /// Traces that have appends or list reads, refused ones too.
    with_lists: usize,
    /// Of those that are read, these with list reads that are judged, with single values
    /// beside lists, and with a list of the most values.
    read_with_lists: usize,
    both_sorts: usize,
    longest: usize,
    /// Findings by kind, and those of them that tell an append, and one behind the read.
    kinds: [usize; 12],
    tell: [usize; 12],
    tell_behind: [usize; 12],
    /// Traces with a cycle over writes, with one that needs a read, and with both a
    /// finding and a pair.
    write_cycles: usize,
    read_cycles: usize,
    findings_and_pairs: usize,
    /// Pairs listed over writes, and over both by their sum of reasons.
    over_writes: usize,
    over_both: [usize; SUMS.len()],
    refused: [usize; Refusal::NUMBERS],
}

impl Tally for Outcomes {
    fn add(&mut self, other: &Outcomes) {
        add_each(&mut self.origins, &other.origins);
        self.with_lists += other.with_lists;
        self.read_with_lists += other.read_with_lists;
        self.both_sorts += other.both_sorts;
        self.longest += other.longest;
        add_each(&mut self.kinds, &other.kinds);
        add_each(&mut self.tell, &other.tell);
        add_each(&mut self.tell_behind, &other.tell_behind);
        self.write_cycles += other.write_cycles;
        self.read_cycles += other.read_cycles;
        self.findings_and_pairs += other.findings_and_pairs;
        self.over_writes += other.over_writes;
        add_each(&mut self.over_both, &other.over_both);
        add_each(&mut self.refused, &other.refused);
    }
}

impl Outcomes {
    fn count(
        &mut self,
        origin: Origin,
        bytes: &[u8],
        parsed: &Result<Trace, Refusal>,
        answer: &Result<Listing, Refusal>,
    ) {
        self.origins[origin as usize] += 1;
        self.with_lists += usize::from(trace::has_list_records(bytes));
        match (parsed, answer) {
            (Ok(trace), Ok(listing)) => {
                self.count_trace(trace);
                self.count_listing(listing);
            }
            (Err(refusal), _) | (_, Err(refusal)) => {
                self.refused[usize::from(refusal.number)] += 1;
            }
        }
    }

    fn count_trace(&mut self, trace: &Trace) {
        let has = |sort| {
            let mut sorts = trace.operations.iter().map(|o| o.action.sort());
            sorts.any(|other| other == sort)
        };
        let lists = trace.operations.iter().filter_map(|o| o.action.list());
        let most = lists.map(<[u64]>::len).max();
        self.read_with_lists += usize::from(has(Sort::List));
        self.both_sorts += usize::from(has(Sort::List) && has(Sort::Single));
        self.longest += usize::from(most == Some(MAX_LIST));
    }

    fn count_listing(&mut self, listing: &Listing) {
        for finding in &listing.findings {
            let kind = usize::from(finding.kind);
            self.kinds[kind] += 1;
            self.tell[kind] += usize::from(finding.write != 0);
            self.tell_behind[kind] += usize::from(finding.write > finding.operation);
        }
        let [findings, writes, both] = listing.counts();
        self.write_cycles += usize::from(writes > 0);
        self.read_cycles += usize::from(both > writes);
        self.findings_and_pairs += usize::from(findings > 0 && both > 0);
        self.over_writes += writes;
        for pair in &listing.over_both {
            if let Some(sum) = SUMS.iter().position(|&sum| sum == pair.reasons) {
                self.over_both[sum] += 1;
            }
        }
    }

    fn describe(&self, command: &str, extent: &Extent) -> String {
        let traces: usize = self.origins.iter().sum();
        let mut lines = vec![
            format!(
                "{traces} traces of seed {}, their lists judged by '{command}' and in Rust",
                extent.seed
            ),
            "origins:".into(),
        ];
        for origin in Origin::ALL {
            let count = self.origins[origin as usize];
            lines.push(format!("  {:<28}{count:>9}", origin.describe()));
        }
        lines.push("traces:".into());
        for (name, count) in [
            ("with lists", self.with_lists),
            ("  read", self.read_with_lists),
            ("  beside single values", self.both_sorts),
            ("  a list of 32 values", self.longest),
            ("a cycle of writes", self.write_cycles),
            ("a cycle that needs a read", self.read_cycles),
            ("findings and pairs", self.findings_and_pairs),
        ] {
            lines.push(format!("  {name:<28}{count:>9}"));
        }
        lines.push("findings by kind; these tell an append; one behind the read:".into());
        for kind in KINDS {
            let counts = [self.kinds[kind], self.tell[kind], self.tell_behind[kind]];
            let counts = counts.map(|count| format!("{count:>9}")).join(" ");
            lines.push(format!("  {kind:>2} {counts}"));
        }
        let sums = SUMS.iter().zip(&self.over_both);
        let sums: Vec<String> = sums.map(|(sum, count)| format!("{sum}: {count}")).collect();
        lines.push(format!(
            "pairs over writes: {}; over both by reasons (4 read, 16 write): {}",
            self.over_writes,
            sums.join(", ")
        ));
        lines.push("refusals:".into());
        for number in (2..=11).chain([17]) {
            lines.push(format!("  {number:>2} {:>9}", self.refused[number]));
        }
        lines.join("\n") + "\n"
    }
}
