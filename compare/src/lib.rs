//! An independent judge, writer and mover of transaction traces, with the
//! decisions of the index, the answers to claimed orders, what is said of lists and
//! names in place of numbers.
//!
//! It is written from the specification alone, `01-scope.md` and the requests
//! for a writer, for unanswered commits, for the writes of unclean reads, for
//! overlapping transactions, for moves between the editions, for notes that are
//! only counted, for the calls of the index, for vectors, for orders from elsewhere, for
//! lists and for names, to be compared with the proved judge, writer, mover and upper
//! library: the two sides share no code, so a mistake would have to be made twice, in the
//! same way, to stay unseen.
//!
//! * [`trace`] reads the bytes of a trace, or says why they are refused;
//! * [`graph`] decides by forced pairs, for any trace, and is meant to be fast;
//! * [`brute`] decides small traces by trying every order against the
//!   published axioms, and what counts as committed by trying every choice of
//!   outcomes; it is meant to be obviously right;
//! * [`vectors`] tells what leads to what by the latest known transaction of every
//!   session, as the sources do; no judge needs it, and it must say what [`graph`]
//!   says;
//! * [`report`] holds the answers, prints them as the program `judge` does and
//!   reads what is printed so;
//! * [`deciding`] decides for the index, at any level and with buffers of any
//!   size, and finds the strongest level;
//! * [`claiming`] says yes or no to an order that is claimed;
//! * [`listing`] judges list reads and finds cycles of what they say, and
//!   [`list_search`] does so by plain search, to be obviously right;
//! * [`names`] reads names files, or says why one is refused, and judges with the names of
//!   two;
//! * [`writing`] writes traces from steps and turns traces into steps;
//! * [`moving`] moves traces between the editions;
//! * [`encode`], [`text`], [`weave`], [`notes`], [`generate`], [`list_traces`],
//!   [`cases`], [`bucket_cases`], [`overlap_cases`], [`vector_cases`], [`note_cases`]
//!   and [`list_cases`] make traces, [`sequences`] and [`sequence_cases`] sequences of
//!   steps, [`orders`] orders to be claimed, [`name_text`], [`name_files`] and
//!   [`name_cases`] names files;
//! * [`laws`] sees that what has to hold of all claims does;
//! * [`process`], [`workers`], [`directory`], [`items`], [`scribes`], [`moves`], [`calls`],
//!   [`claims`], [`lists`], [`naming`] and [`daemon`] compare.
//!
//! [`believe`], with [`declarations`] and [`mentions`], judges nothing: it prints
//! what a reader of the proved side has to believe, and sees that it is closed.

pub mod believe;
pub mod brute;
pub mod bucket_cases;
pub mod calls;
pub mod cases;
pub mod claiming;
pub mod claims;
pub mod daemon;
pub mod deciding;
pub mod declarations;
pub mod directory;
pub mod encode;
pub mod generate;
pub mod graph;
pub mod hash;
pub mod items;
pub mod laws;
pub mod list_cases;
pub mod list_search;
pub mod list_traces;
pub mod listing;
pub mod lists;
pub mod mentions;
pub mod moves;
pub mod moving;
pub mod name_cases;
pub mod name_files;
pub mod name_text;
pub mod names;
pub mod naming;
pub mod note_cases;
pub mod notes;
pub mod orders;
pub mod overlap_cases;
pub mod process;
pub mod random;
pub mod report;
pub mod scribes;
pub mod sequence_cases;
pub mod sequences;
pub mod text;
pub mod trace;
pub mod vector_cases;
pub mod vectors;
pub mod weave;
pub mod workers;
pub mod writing;

use graph::History;
use listing::Listing;
use report::{Level, Verdict};
use trace::{Refusal, Trace};

/// The answers for one trace: a verdict a level, or one refusal for all.
pub type Answer = Result<[Verdict; 3], Refusal>;

/// Judges a trace at all three levels; the trace is read once.
pub fn judge_all(bytes: &[u8]) -> Answer {
    Ok(judge_trace(&Trace::parse(bytes)?))
}

/// Judges a trace that has been read already at all three levels.
pub fn judge_trace(trace: &Trace) -> [Verdict; 3] {
    let history = History::new(trace);
    Level::ALL.map(|level| history.judge(level))
}

/// Judges a trace at one level, reading it anew.
pub fn judge_one(bytes: &[u8], level: Level) -> Result<Verdict, Refusal> {
    Ok(History::new(&Trace::parse(bytes)?).judge(level))
}

/// What the program `judge` prints for these bytes.
pub fn judge_text(bytes: &[u8]) -> String {
    report::print(&judge_all(bytes))
}

/// What the call on lists answers for these bytes, with ample room.
pub fn list_all(bytes: &[u8]) -> Result<Listing, Refusal> {
    Ok(listing::listing_of(&Trace::parse(bytes)?))
}

/// What the program `lists` prints for these bytes.
pub fn list_text(bytes: &[u8]) -> String {
    report::print_listing(&list_all(bytes))
}

/// Reads all of `input`, but keeps no more than the program `judge` keeps. The rest
/// is read and dropped, so that a writer is not left with a broken pipe.
pub fn read_bounded(mut input: impl std::io::Read) -> std::io::Result<Vec<u8>> {
    let bytes = read_beginning(&mut input)?;
    std::io::copy(&mut input, &mut std::io::sink())?;
    Ok(bytes)
}

/// Reads as much of `input` as the program `judge` keeps: one byte above the limit is
/// enough to know that a trace or a names file is too long.
pub fn read_beginning(input: impl std::io::Read) -> std::io::Result<Vec<u8>> {
    use std::io::Read;
    let mut bytes = Vec::new();
    let mut beginning = input.take(trace::MAX_BYTES as u64 + 1);
    beginning.read_to_end(&mut bytes)?;
    Ok(bytes)
}
