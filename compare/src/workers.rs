//! What all comparisons have in common: threads that share the work, and the
//! difference at which they stop.

use std::sync::atomic::{AtomicBool, AtomicUsize, Ordering};
use std::thread;

/// How much is compared, and how.
pub struct Extent {
    pub traces: usize,
    pub seed: u64,
    pub threads: usize,
}

/// What a worker counts.
pub trait Tally: Default + Send {
    fn add(&mut self, other: &Self);
}

/// Adds numbers to numbers, one by one.
pub fn add_each(to: &mut [usize], from: &[usize]) {
    for (to, from) in to.iter_mut().zip(from) {
        *to += from;
    }
}

/// Checks the numbers from 0 to below `total`, up to the first difference.
/// Each thread holds what `start` gives it.
pub fn share<Held, T: Tally>(
    total: usize,
    threads: usize,
    start: impl Fn() -> Held + Sync,
    check: impl Fn(usize, &mut Held, &mut T) -> Result<(), Box<Difference>> + Sync,
) -> (T, Option<Box<Difference>>) {
    let next = AtomicUsize::new(0);
    let stop = AtomicBool::new(false);
    let work = || {
        let mut tally = T::default();
        let mut held = start();
        while !stop.load(Ordering::Relaxed) {
            let index = next.fetch_add(1, Ordering::Relaxed);
            if index >= total {
                break;
            }
            if let Err(difference) = check(index, &mut held, &mut tally) {
                stop.store(true, Ordering::Relaxed);
                return (tally, Some(difference));
            }
        }
        (tally, None)
    };
    thread::scope(|scope| {
        let workers: Vec<_> = (0..threads).map(|_| scope.spawn(work)).collect();
        let mut tally = T::default();
        let mut found = None;
        for worker in workers {
            let (part, difference) = worker.join().expect("a worker does not panic");
            tally.add(&part);
            found = found.or(difference);
        }
        (tally, found)
    })
}

/// What is wrong with a thing that should hold.
pub fn must(holds: bool, message: &str) -> Result<(), String> {
    match holds {
        true => Ok(()),
        false => Err(message.into()),
    }
}

/// How many bytes of two answers are alike, from the first one on.
pub fn alike(one: &[u8], other: &[u8]) -> usize {
    let pairs = one.iter().zip(other);
    pairs.take_while(|(one, other)| one == other).count()
}

/// Bytes in hexadecimal; of many a part, which begins in the line with the first
/// byte not alike.
pub fn show_bytes(bytes: &[u8], alike: usize) -> String {
    const LINE: usize = 16;
    const LINES: usize = 64;
    let first = match bytes.len() {
        short if short <= LINE * LINES => 0,
        _ => alike / LINE,
    };
    let mut out = format!("{} bytes, the first {alike} alike\n", bytes.len());
    for (index, line) in bytes.chunks(LINE).enumerate().skip(first).take(LINES) {
        let hex: String = line.iter().map(|byte| format!(" {byte:02x}")).collect();
        out += &format!("{:>6}:{hex}\n", index * LINE);
    }
    out
}

/// Two answers that should have been one.
#[derive(Debug)]
pub struct Difference {
    /// What was asked, in words.
    pub name: String,
    /// What was asked, to be kept in a file, and that file's last name parts.
    pub bytes: Vec<u8>,
    pub file: String,
    /// What was asked besides, each with its file's last name parts.
    pub beside: Vec<(String, Vec<u8>)>,
    pub answers: [(&'static str, String); 2],
}

impl Difference {
    /// Writes the bytes to a file in the temporary folder, and says the rest.
    pub fn describe(&self) -> String {
        let mut kept = keep("its bytes", &self.file, &self.bytes);
        for (file, bytes) in &self.beside {
            kept += &keep(&format!("\nthose of {file}"), file, bytes);
        }
        let [(one, said), (other, ours)] = &self.answers;
        format!(
            "\nDIFFERENCE in {}\n{kept}\n--- {one} says:\n{said}--- {other} says:\n{ours}",
            self.name
        )
    }
}

/// Writes what was asked to a file in the temporary folder, and says so.
fn keep(what: &str, file: &str, bytes: &[u8]) -> String {
    let name = format!("compare-{}-{file}", std::process::id());
    let path = std::env::temp_dir().join(name);
    match std::fs::write(&path, bytes) {
        Ok(()) => format!("{what} are in {}", path.display()),
        Err(error) => format!("{what} could not be kept in {}: {error}", path.display()),
    }
}
