//! Traces whose answer at level 3 hangs on who knows whom, for judges that tell what
//! leads to what by the latest known transaction of every session: known ones, each
//! with what `judge` has to print, worked by hand; and random ones.

use crate::cases::{same, written, Case};
use crate::encode::Writer;
use crate::generate::first_serial;
use crate::random::Random;
use crate::trace::{Edition, Status, MAX_TRANSACTIONS};
use crate::weave::{self, Access, Whole};

/// All known ones.
pub fn all() -> Vec<Case> {
    let mut cases = figure_5();
    cases.extend(sessions());
    cases.extend(against_numbers());
    cases.extend(cycles());
    cases
}

/// The same block for levels 1 and 2, another for level 3; without the levels' names.
fn others_and_tcc(others: &str, tcc: &str) -> String {
    format!("rc {others}\nra {others}\ntcc {tcc}\n")
}

/// Figure 5 of source 002, whose two sessions have 100 and 2 transactions; here 5 and
/// 2. T3 reads from T7, which opens later, and so all that follow T3 know T7.
pub fn figure_5() -> Vec<Case> {
    vec![
        // T6 is known to T5, so it comes before T2, from which T5 reads.
        written(
            "figure 5 of source 002, shortened",
            "T1 s1; T2 s1 w1=2; T3 s1 r2=7; T4 s1; T5 s1 r1=2; T6 s2 w1=6; T7 s2 w2=7",
            others_and_tcc("accepted 0 1 2 6 7 3 4 5", "accepted 0 1 6 2 7 3 4 5"),
        ),
        // The same, but T2 is known to T6.
        written(
            "figure 5 of source 002, its first session known to the second",
            "T1 s1; T2 s1 w1=2; T3 s1 r2=7; T4 s1; T5 s1 r1=2; T6 s2 r1=2 w1=6; T7 s2 w2=7",
            others_and_tcc(
                "accepted 0 1 2 6 7 3 4 5",
                "rejected 0 2\npair 2 6 4\npair 6 2 8",
            ),
        ),
    ]
}

/// What the latest of a session says of the others of that session.
pub fn sessions() -> Vec<Case> {
    let rival_of_first = "rejected 0 2\npair 1 2 2\npair 2 1 8";
    vec![
        written(
            "the latest known one of a session, and a rival before it",
            "T1 s1 w1=1; T2 s1 w1=2; T3 s1 w2=3; T4 r2=3 r1=1",
            others_and_tcc("accepted 0 1 2 3 4", rival_of_first),
        ),
        written(
            "the latest known one of a session, and an aborted one before it",
            "T1 s1 w1=1; T2 s1 w1=2 aborted; T3 s1 w2=3; T4 r2=3 r1=1",
            same("accepted 0 1 3 4"),
        ),
        written(
            "the latest known one of a session, and an unread unanswered one before it",
            "T1 s1 w1=1; T2 s1 w1=2 unanswered; T3 s1 w2=3; T4 r2=3 r1=1",
            same("accepted 0 1 3 4"),
        ),
        // T1 leads to T5 by way of T2, and is a rival of it too.
        written(
            "the latest known one of a session, and an unanswered one that is read before it",
            "T1 s1 w1=1; T2 s1 w1=2 unanswered; T3 s1 w2=3; T4 r2=3 r1=1; T5 r1=2",
            others_and_tcc(
                "accepted 0 1 2 3 4 5",
                "rejected 0 2\npair 1 2 10\npair 2 1 8",
            ),
        ),
        written(
            "a session whose first transaction aborted",
            "T1 s1 w1=1 aborted; T2 s1 w2=2; T3 r2=2 w3=3; T4 r3=3 r1=0",
            same("accepted 0 2 3 4"),
        ),
        written(
            "a session whose first two transactions do not count",
            "T1 s1 w1=1 aborted; T2 s1 w1=2 unanswered; T3 s1 w1=3 w2=3; T4 r2=3 w3=4; T5 r3=4 r1=3",
            same("accepted 0 3 4 5"),
        ),
        // T3 is behind the one that is known.
        written(
            "a rival behind the latest known one of its session",
            "T1 s1 w1=1 w2=1; T2 s1 w3=2; T3 s1 w1=3; T4 r3=2 w4=4; T5 r4=4 r1=1",
            same("accepted 0 1 2 3 4 5"),
        ),
        // The later one is read first, and is the latest still.
        written(
            "two sources of a session, the later one first",
            "T1 s1 w1=1 w2=1; T2 s1 w1=2 w3=2; T3 r3=2 r2=1 w4=3; T4 r4=3 r1=1",
            others_and_tcc("accepted 0 1 2 3 4", rival_of_first),
        ),
        written(
            "a rival in session 65,535, known ones in session 0",
            "T1 s0 w1=1; T2 s65535 w1=2; T3 s0 w2=3; T4 s256 r2=3 r1=1",
            same("accepted 0 1 2 3 4"),
        ),
        written(
            "a rival in session 256, known ones in session 0",
            "T1 s0 w1=1; T2 s256 w1=2; T3 s0 w2=3; T4 s1 r2=3 r1=1",
            same("accepted 0 1 2 3 4"),
        ),
        written(
            "a rival and known ones in session 65,535, others in session 0",
            "T1 s65535 w1=1; T2 s65535 w1=2; T3 s0; T4 s65535 w2=3; T5 s0 r2=3 r1=1",
            others_and_tcc("accepted 0 1 2 3 4 5", rival_of_first),
        ),
        written(
            "two sessions that know each other's first transactions",
            "T1 s1 w1=1; T2 s2 w2=2; T3 s1 r2=2 w1=3; T4 s2 r1=1 w2=4",
            same("accepted 0 1 2 3 4"),
        ),
    ]
}

/// Sources with greater numbers than their readers.
pub fn against_numbers() -> Vec<Case> {
    // As in P12, 0 leads to T2, which reads from T3.
    let as_p12 = || others_and_tcc("accepted 0 3 2 1", "rejected 0 2\npair 0 3 9\npair 3 0 8");
    vec![
        written(
            "P12 against the numbers",
            "T1 r2=7 r1=0; T2 r1=5 w2=7; T3 w1=5",
            as_p12(),
        ),
        written(
            "P12 against the numbers, interwoven",
            "edition 2; T1 ..; T2 ..; T3 w1=5 ..; T2 .. r1=5 w2=7 ..; T1 .. r2=7 r1=0; T3 ..; T2 ..",
            as_p12(),
        ),
        // T4 leads to T1 by way of T5 and T3, which stands between them.
        written(
            "a session known by way of a later one and an earlier one",
            "T1 r3=3 r1=2; T2 w1=2; T3 r2=5 w3=3; T4 s1 w1=4; T5 s1 w2=5",
            others_and_tcc("accepted 0 2 4 5 3 1", "accepted 0 4 2 5 3 1"),
        ),
    ]
}

/// Basic pairs that form a cycle, or nearly do.
pub fn cycles() -> Vec<Case> {
    let of_session = "rejected 0 4\npair 1 2 2\npair 1 3 2\npair 2 3 2\npair 3 1 4";
    vec![
        written(
            "two sessions whose second transactions know each other",
            "T1 s1 w1=1; T2 s2 w2=2; T3 s1 r2=4 w1=3; T4 s2 r1=3 w2=4",
            same("rejected 0 2\npair 3 4 4\npair 4 3 4"),
        ),
        written(
            "the first of a session reads from the last",
            "T1 s1 r1=5; T2 s1; T3 s1 w1=5",
            same(of_session),
        ),
        written(
            "the first of a session, which aborted, reads from the last",
            "T1 s1 r1=5 aborted; T2 s1; T3 s1 w1=5",
            same("accepted 0 2 3"),
        ),
        written(
            "two that read each other, both unanswered, and one behind them in a session",
            "T1 s1 r2=2 w1=1 unanswered; T2 s2 r1=1 w2=2 unanswered; T3 s1 r1=0; T4 s2 r2=0",
            same("accepted 0 3 4"),
        ),
        // T3 leads to T4 by way of T2 and then of T1.
        written(
            "a rival known by way of a cycle, against the numbers",
            "T1 r1=2 w2=1; T2 r2=1 r4=3 w1=2; T3 w4=3 w5=3; T4 r2=1 r5=0",
            others_and_tcc(
                "rejected 0 2\npair 1 2 4\npair 2 1 4",
                "rejected 0 4\npair 0 3 9\npair 1 2 4\npair 2 1 4\npair 3 0 8",
            ),
        ),
        // T1 leads to T3 by way of T2, and T3 is on no cycle at levels 1 and 2.
        written(
            "a rival on a cycle, behind which the reader stands",
            "T1 r1=2 w2=1 w3=1; T2 r2=1 w1=2 w5=2; T3 r5=2 r3=0",
            others_and_tcc(
                "rejected 0 2\npair 1 2 4\npair 2 1 4",
                "rejected 0 5\npair 0 1 9\npair 0 2 9\npair 1 0 8\npair 1 2 4\npair 2 1 4",
            ),
        ),
    ]
}

/// A random trace. The transactions know one another in patterns, by keys of their
/// own that others read; of a few keys there are many writers, and each of the reads
/// of these is from the latest writer that is known, or not.
pub fn drawn(random: &mut Random, edition: Edition) -> Vec<u8> {
    let count = match random.below(20) {
        0..=2 => MAX_TRANSACTIONS - usize::from(random.percent(10)),
        3..=12 => random.from_to(8, 40),
        _ => random.from_to(3, 7),
    };
    let mut plan = Plan::drawn(random, count);
    let line = plan.line(random);
    if random.percent(50) {
        plan.ring(random, &line);
    }
    for _ in 0..*random.pick(&[1, 1, 1, 2, 3]) {
        plan.acquaint(random, &line);
    }
    plan.write_shared_keys(random);
    plan.answer(random, &line);
    plan.trace(random, edition)
}

/// A set of transactions by place, from 0.
type Set = u128;

fn only(place: usize) -> Set {
    1 << place
}

fn has(set: Set, place: usize) -> bool {
    set & only(place) != 0
}

/// The most keys that have many writers.
const SHARED: usize = 6;
/// The most that a transaction reads by their own keys: with two reads and a write of
/// shared keys and the write of its own key it has eight operations at most, so that
/// there is room for those of 127.
const MOST_SOURCES: usize = 4;

/// Places of a reader and its source.
type Read = (usize, usize);

/// Places of a reader and of the writer of a shared key, if any, with that key between.
type SharedRead = (usize, usize, Option<usize>);

/// Reads that level 3 alone minds.
#[derive(Default)]
struct Misleading {
    /// The source leads to another writer that the reader knows: no order has both.
    wrong: Vec<SharedRead>,
    /// Another writer that the reader knows comes before the source, against their
    /// numbers.
    turning: Vec<SharedRead>,
}

/// The transactions of a trace, by place from 0.
struct Plan(Vec<Planned>);

struct Planned {
    session: usize,
    status: Status,
    /// Whether others may read from it: it did not abort and is not one of those
    /// unanswered ones that nobody reads.
    is_there: bool,
    /// The places of those that it reads by their own keys.
    sources: Vec<usize>,
    /// The shared key that it writes.
    writes: Option<usize>,
    /// The shared keys that it reads, each with the place of its writer, if any.
    reads: Vec<(usize, Option<usize>)>,
}

impl Plan {
    /// Who is of which session, and what becomes of each.
    fn drawn(random: &mut Random, count: usize) -> Plan {
        let sessions = drawn_sessions(random, count);
        let missing = *random.pick(&[0, 0, 10, 30]);
        let firsts_missing = *random.pick(&[0, 0, 40, 100]);
        let unanswered = *random.pick(&[0, 0, 20, 60]);
        let planned = |place: usize| {
            let session = sessions[place];
            // The first of a session in which others follow.
            let is_first =
                !sessions[..place].contains(&session) && sessions[place + 1..].contains(&session);
            let chance = if is_first { firsts_missing } else { missing };
            let is_there = !random.percent(chance);
            let status = match (is_there, random.percent(unanswered)) {
                (true, false) => Status::Committed,
                (true, true) => Status::Unanswered,
                (false, _) => *random.pick(&[Status::Aborted, Status::Unanswered]),
            };
            Planned {
                session,
                status,
                is_there,
                sources: Vec::new(),
                writes: None,
                reads: Vec::new(),
            }
        };
        Plan((0..count).map(planned).collect())
    }

    fn places(&self) -> std::ops::Range<usize> {
        0..self.0.len()
    }

    /// Those of a session that others may read, by number.
    fn there_of(&self, session: usize) -> Vec<usize> {
        let is_such = |&t: &usize| self.0[t].session == session && self.0[t].is_there;
        self.places().filter(is_such).collect()
    }

    /// The members that are there of each session that has at least so many of them.
    fn groups(&self, least: usize) -> Vec<Vec<usize>> {
        let mut sessions: Vec<usize> = self.0.iter().map(|t| t.session).collect();
        sessions.sort_unstable();
        sessions.dedup();
        let groups = sessions.into_iter().map(|session| self.there_of(session));
        groups.filter(|group| group.len() >= least).collect()
    }

    /// An order of all that keeps each session's own: the sessions take turns.
    fn line(&self, random: &mut Random) -> Vec<usize> {
        let mut turns: Vec<usize> = self.0.iter().map(|t| t.session).collect();
        match random.below(5) {
            0 => {}
            1 => turns.reverse(),
            2 => random.shuffle(&mut turns),
            3 => {
                // One session after another, in any order.
                let ranks: Vec<u64> = turns.iter().map(|_| random.draw()).collect();
                turns.sort_by_key(|&session| ranks[session]);
            }
            _ => turns = self.rounds(random),
        }
        let mut waiting: Vec<usize> = self.places().collect();
        let mut next = |session: usize| {
            let is_next = |&t: &usize| self.0[t].session == session;
            let at = waiting.iter().position(is_next);
            waiting.remove(at.expect("as many turns as transactions"))
        };
        turns.into_iter().map(&mut next).collect()
    }

    /// Turns of the sessions: first that of the first one of each, then that of the
    /// second one of each, and so on.
    fn rounds(&self, random: &mut Random) -> Vec<usize> {
        let mut turn = |t: usize| {
            let session = self.0[t].session;
            let earlier = self.0[..t].iter().filter(|e| e.session == session);
            (earlier.count(), random.draw(), session)
        };
        let mut turns: Vec<(usize, u64, usize)> = self.places().map(&mut turn).collect();
        turns.sort_unstable();
        turns.into_iter().map(|(_, _, session)| session).collect()
    }

    /// One reads from another, if that is there to be read.
    fn know(&mut self, reader: usize, source: usize) {
        let is_new = reader != source && !self.0[reader].sources.contains(&source);
        let has_room = self.0[reader].sources.len() < MOST_SOURCES;
        if is_new && has_room && self.0[source].is_there {
            self.0[reader].sources.push(source);
        }
    }

    /// A cycle, or what lacks one thing to be one.
    fn ring(&mut self, random: &mut Random, line: &[usize]) {
        let mut reads = match random.below(4) {
            0 => ring_along(random, line, 2),
            1 => {
                let most = *random.pick(&[3, 8, line.len()]);
                ring_along(random, line, most)
            }
            2 => self.ring_in_a_session(random),
            _ => self.ring_of_sessions(random),
        };
        if reads.is_empty() {
            return;
        }
        match random.below(10) {
            0..=3 => {}
            // One of them left out.
            4 | 5 => {
                reads.swap_remove(random.below(reads.len()));
            }
            // One of them turned round.
            6 => {
                let at = random.below(reads.len());
                let (reader, source) = reads[at];
                reads[at] = (source, reader);
            }
            // One of them does not count, and nobody reads from it.
            7 | 8 => {
                let (reader, _) = *random.pick(&reads);
                self.0[reader].is_there = false;
                self.0[reader].status = *random.pick(&[Status::Aborted, Status::Unanswered]);
            }
            // None of them counts, unless some other reads from one.
            _ => {
                for &(reader, _) in &reads {
                    self.0[reader].status = Status::Unanswered;
                }
            }
        }
        for (reader, source) in reads {
            self.know(reader, source);
        }
    }

    /// One reads from a later one of its session.
    fn ring_in_a_session(&self, random: &mut Random) -> Vec<Read> {
        let groups = self.groups(2);
        if groups.is_empty() {
            return vec![];
        }
        let group = random.pick(&groups);
        let reader = random.below(group.len() - 1);
        let source = random.from_to(reader + 1, group.len() - 1);
        vec![(group[reader], group[source])]
    }

    /// The first of each of some sessions reads from the last of the next one.
    fn ring_of_sessions(&self, random: &mut Random) -> Vec<Read> {
        let mut groups = self.groups(2);
        random.shuffle(&mut groups);
        groups.truncate(*random.pick(&[2, 3, 64]));
        if groups.len() < 2 {
            return vec![];
        }
        let next = groups.iter().cycle().skip(1);
        let read = |(one, next): (&Vec<usize>, &Vec<usize>)| (one[0], next[next.len() - 1]);
        groups.iter().zip(next).map(read).collect()
    }

    /// Some come to know others, by a pattern along the line.
    fn acquaint(&mut self, random: &mut Random, line: &[usize]) {
        let is_there = |t: &usize| self.0[*t].is_there;
        let line: Vec<usize> = line.iter().copied().filter(is_there).collect();
        let mut reads = match random.below(8) {
            0 => chain(random, &line),
            1 => any_earlier(random, &line),
            2 => one_in_the_middle(random, &line),
            3 => self.of_another_session(&line),
            4 | 5 => self.first_ones(random, &line),
            _ => Vec::new(),
        };
        // Also where a pattern gives nothing, as where no session has two transactions.
        if reads.is_empty() {
            reads = shortly_before(random, &line);
        }
        for (reader, source) in reads {
            self.know(reader, source);
        }
    }

    /// Each knows the nearest one before it of another session.
    fn of_another_session(&self, line: &[usize]) -> Vec<Read> {
        let session = |t: usize| self.0[t].session;
        let nearest = |at: usize| {
            let mut earlier = line[..at].iter().copied().rev();
            let other = earlier.find(|&t| session(t) != session(line[at]))?;
            Some((line[at], other))
        };
        (0..line.len()).filter_map(nearest).collect()
    }

    /// One of each session knows the first ones of others.
    fn first_ones(&self, random: &mut Random, line: &[usize]) -> Vec<Read> {
        let place = |t: usize| line.iter().position(|&other| other == t);
        let mut groups = self.groups(2);
        random.shuffle(&mut groups);
        let mut reads = Vec::new();
        for group in &groups {
            let reader = group[random.from_to(1, 3.min(group.len() - 1))];
            let firsts = groups.iter().map(|other| other[0]);
            let others = firsts.filter(|&first| first != group[0] && place(first) < place(reader));
            reads.extend(others.map(|first| (reader, first)));
        }
        reads
    }

    /// Most write one of the shared keys, those that do not count too.
    fn write_shared_keys(&mut self, random: &mut Random) {
        let keys = match self.0.len() {
            0..=7 => *random.pick(&[1, 1, 2]),
            _ => *random.pick(&[1, 1, 2, 3, SHARED]),
        };
        let chance = *random.pick(&[40, 80, 100]);
        for planned in &mut self.0 {
            if !planned.is_there || random.percent(chance) {
                planned.writes = Some(random.below(keys));
            }
        }
    }

    /// Reads of shared keys.
    fn answer(&mut self, random: &mut Random, line: &[usize]) {
        let known = Known::new(self, line);
        let chance = *random.pick(&[5, 30, 90]);
        let amiss = *random.pick(&[0, 0, 0, 0, 0, 0, 0, 5, 30, 100]);
        for t in self.places() {
            for key in 0..SHARED {
                if self.0[t].reads.len() == 2 || !random.percent(chance) {
                    continue;
                }
                // Reads of one that is not there are not judged.
                let writer = match !self.0[t].is_there || random.percent(amiss) {
                    true => self.any_writer(random, t, key),
                    false => known.latest_writer(self, t, key),
                };
                self.0[t].reads.push((key, writer));
            }
        }
        if amiss == 0 && random.percent(80) {
            self.mislead(random, &known);
        }
        if random.percent(20) {
            self.read_what_is_not_there(random);
        }
    }

    /// Those that write a shared key and are there.
    fn writers(&self, key: usize) -> Set {
        let is_such = |&t: &usize| self.0[t].is_there && self.0[t].writes == Some(key);
        let writers = self.places().filter(is_such);
        writers.fold(0, |set, t| set | only(t))
    }

    /// Any writer of the key that is there and is another, or none.
    fn any_writer(&self, random: &mut Random, reader: usize, key: usize) -> Option<usize> {
        let writers = self.writers(key) & !only(reader);
        let mut choices = vec![None];
        choices.extend(self.places().filter(|&t| has(writers, t)).map(Some));
        *random.pick(&choices)
    }

    /// Has one read get what level 3 alone minds.
    fn mislead(&mut self, random: &mut Random, known: &Known) {
        let misleading = self.misleading(known);
        let choices = match misleading.turning.is_empty() || random.percent(50) {
            true => misleading.wrong,
            false => misleading.turning,
        };
        if !choices.is_empty() {
            let (reader, key, writer) = *random.pick(&choices);
            self.0[reader].reads = vec![(key, writer)];
        }
    }

    /// The reads that level 3 alone minds: some writers of the key lead to the reader by
    /// two pairs or more. The source leads to none that does so by one, or level 2 would
    /// mind it too.
    fn misleading(&self, known: &Known) -> Misleading {
        let mut misleading = Misleading::default();
        let is_judged = |&t: &usize| self.0[t].status == Status::Committed;
        for reader in self.places().filter(is_judged) {
            for key in 0..SHARED {
                let writers = self.writers(key) & !only(reader);
                let near = known.before[reader] & writers;
                let far = known.leading[reader] & writers & !near;
                if far == 0 {
                    continue;
                }
                let (to_near, to_far) = (known.leading_to_any(near), known.leading_to_any(far));
                let sources = (near | far) & !to_near;
                for t in self.places().filter(|&t| has(sources, t)) {
                    let read = (reader, key, Some(t));
                    let greater = Set::MAX << t & !only(t);
                    if has(to_far, t) {
                        misleading.wrong.push(read);
                    } else if far & !known.leading[t] & greater != 0 {
                        misleading.turning.push(read);
                    }
                }
                if near == 0 {
                    misleading.wrong.push((reader, key, None));
                }
            }
        }
        misleading
    }

    /// A read from one that does not count, or comes to count by it.
    fn read_what_is_not_there(&mut self, random: &mut Random) {
        let missing: Vec<usize> = self.places().filter(|&t| !self.0[t].is_there).collect();
        let reader = random.below(self.0.len());
        if self.0[reader].is_there && !missing.is_empty() {
            self.0[reader].sources.pop();
            self.0[reader].sources.push(*random.pick(&missing));
        }
    }

    fn trace(&self, random: &mut Random, edition: Edition) -> Vec<u8> {
        let number = session_numbers(random);
        // Side by side, or all in one bucket.
        let step = *random.pick(&[1, 1, 128]);
        let mut whole = |(place, planned): (usize, &Planned)| {
            let mut reads: Vec<Access> = Vec::new();
            for &source in &planned.sources {
                let value = value_of(Some(source));
                reads.push(Access::read(step * own_key(source), value));
            }
            for &(key, writer) in &planned.reads {
                reads.push(Access::read(step * key as u32, value_of(writer)));
            }
            random.shuffle(&mut reads);
            let mut operations = reads;
            let shared = planned.writes.map(|key| key as u32);
            for key in shared.into_iter().chain([own_key(place)]) {
                operations.push(Access::write(step * key, value_of(Some(place))));
            }
            Whole {
                session: number(planned.session),
                status: planned.status,
                operations,
            }
        };
        let wholes: Vec<Whole> = self.0.iter().enumerate().map(&mut whole).collect();
        let serial = first_serial(random);
        match edition {
            Edition::One => weave::blocks(Edition::One, serial, &wholes),
            Edition::Two => {
                let most = *random.pick(&[2, 4, MAX_TRANSACTIONS]);
                let chance = *random.pick(&[30, 60, 100]);
                let turns = weave::at_random(random, most, chance);
                weave::weave(Writer::edition_2(serial), &wholes, turns)
            }
        }
    }
}

/// The session of each transaction, by place: few long ones, or one for each.
fn drawn_sessions(random: &mut Random, count: usize) -> Vec<usize> {
    let few = *random.pick(&[1, 2, 2, 3, 3, 4]);
    let mut sessions: Vec<usize> = match random.below(6) {
        0 | 1 => (0..count).collect(),
        2 => (0..count).map(|place| place % few).collect(),
        3 => (0..count).map(|place| place * few / count).collect(),
        // Two transactions each.
        4 => (0..count).map(|place| place / 2).collect(),
        // A long one, and one for each of the others.
        _ => (0..count).map(|place| place * (place % 2)).collect(),
    };
    if random.percent(50) {
        random.shuffle(&mut sessions);
    }
    sessions
}

/// A cycle through some of a line: each reads from the one before it, and the first
/// from the last.
fn ring_along(random: &mut Random, line: &[usize], most: usize) -> Vec<Read> {
    let mut places: Vec<usize> = (0..line.len()).collect();
    random.shuffle(&mut places);
    places.truncate(most);
    places.sort_unstable();
    let members: Vec<usize> = places.into_iter().map(|place| line[place]).collect();
    let next = members.iter().cycle().skip(1);
    let read = |(&source, &reader): (&usize, &usize)| (reader, source);
    members.iter().zip(next).map(read).collect()
}

/// Each knows the one before it: all of them, or from some place on.
fn chain(random: &mut Random, line: &[usize]) -> Vec<Read> {
    let first = match random.percent(60) {
        true => 0,
        false => random.below(line.len().max(1)),
    };
    let pairs = line.windows(2).skip(first);
    pairs.map(|pair| (pair[1], pair[0])).collect()
}

/// Some know any one before them.
fn any_earlier(random: &mut Random, line: &[usize]) -> Vec<Read> {
    let chance = *random.pick(&[20, 50, 90]);
    let mut reads = Vec::new();
    for at in 1..line.len() {
        if random.percent(chance) {
            reads.push((line[at], line[random.below(at)]));
        }
    }
    reads
}

/// Each knows one or two of those shortly before it: many know much, and few know all.
fn shortly_before(random: &mut Random, line: &[usize]) -> Vec<Read> {
    let near = *random.pick(&[3, 6, 12]);
    let mut reads = Vec::new();
    for at in 1..line.len() {
        for _ in 0..random.from_to(1, 2) {
            reads.push((line[at], line[at - random.from_to(1, near.min(at))]));
        }
    }
    reads
}

/// One knows some of those before it, and all behind it know that one.
fn one_in_the_middle(random: &mut Random, line: &[usize]) -> Vec<Read> {
    if line.is_empty() {
        return vec![];
    }
    let middle = random.below(line.len());
    let known = (0..3.min(middle)).map(|_| (line[middle], line[random.below(middle)]));
    let mut reads: Vec<Read> = known.collect();
    reads.extend(line[middle + 1..].iter().map(|&t| (t, line[middle])));
    reads
}

/// Another number for each session, in most ways the least or the greatest among them.
fn session_numbers(random: &mut Random) -> impl Fn(usize) -> u16 {
    let way = random.below(5);
    let odd = random.draw() as u16 | 1;
    move |session| {
        let session = session as u16;
        match way {
            0 => session,
            1 => !session,
            // From both ends.
            2 if session.is_multiple_of(2) => session / 2,
            2 => !(session / 2),
            3 => session.swap_bytes(),
            _ => session.wrapping_mul(odd).wrapping_sub(1),
        }
    }
}

/// The key that only this transaction writes.
fn own_key(place: usize) -> u32 {
    (SHARED + place) as u32
}

/// What this transaction writes, or what is read where nobody wrote.
fn value_of(writer: Option<usize>) -> u64 {
    writer.map_or(0, |place| place as u64 + 1)
}

/// What a plan has come to when reads of shared keys are answered.
struct Known {
    /// For each, those that stand before it by its session or its sources.
    before: Vec<Set>,
    /// For each, those that lead to it by these.
    leading: Vec<Set>,
    /// All in an order that has each behind those before it, if there is no cycle.
    order: Vec<usize>,
}

impl Known {
    fn new(plan: &Plan, line: &[usize]) -> Known {
        let mut before: Vec<Set> = vec![0; plan.0.len()];
        for t in plan.places().filter(|&t| plan.0[t].is_there) {
            let earlier = plan.there_of(plan.0[t].session).into_iter();
            let earlier = earlier.filter(|&other| other < t);
            let sources = plan.0[t].sources.iter().copied();
            before[t] = earlier
                .chain(sources)
                .fold(0, |set, other| set | only(other));
        }
        Known {
            leading: leading(&before),
            order: extended(line, &before),
            before,
        }
    }

    /// The last writer of the key, in the order, that leads to the reader. If all read
    /// so, the order has every pair that level 3 forces.
    fn latest_writer(&self, plan: &Plan, reader: usize, key: usize) -> Option<usize> {
        let known = plan.writers(key) & self.leading[reader] & !only(reader);
        let mut latest_first = self.order.iter().copied().rev();
        latest_first.find(|&t| has(known, t))
    }

    /// Those that lead to one of these.
    fn leading_to_any(&self, these: Set) -> Set {
        let members = (0..self.leading.len()).filter(|&t| has(these, t));
        members.fold(0, |set, t| set | self.leading[t])
    }
}

/// For each, those that lead to it: as long as there is one more, it is entered.
fn leading(before: &[Set]) -> Vec<Set> {
    let mut leading = before.to_vec();
    loop {
        let mut is_done = true;
        for t in 0..leading.len() {
            let others = (0..leading.len()).filter(|&other| has(leading[t], other));
            let more = others.fold(leading[t], |set, other| set | leading[other]);
            is_done &= more == leading[t];
            leading[t] = more;
        }
        if is_done {
            return leading;
        }
    }
}

/// The line, changed so that each comes behind those before it, as far as no cycle is
/// in the way.
fn extended(line: &[usize], before: &[Set]) -> Vec<usize> {
    let mut order = Vec::new();
    let mut waiting = line.to_vec();
    while !waiting.is_empty() {
        let is_free = |&t: &usize| waiting.iter().all(|&other| !has(before[t], other));
        let next = waiting.iter().position(is_free).unwrap_or(0);
        order.push(waiting.remove(next));
    }
    order
}
