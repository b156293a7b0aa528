//! Names files as text, a line a name.
//!
//! ```text
//! 1 xhci-hcd.ko
//! 2 xhci-hcd.ko compiler options
//! ```
//!
//! See [`GRAMMAR`] for the whole of it.

use crate::name_files::Loose;
use crate::names::{Names, MAX_NAME, NAME_BYTES};
use crate::text::TextError;
use crate::trace::{Refusal, MAX_BYTES};

/// What may be written, for `namestext --help`.
pub const GRAMMAR: &str = r#"A line for each name, in the order of the keys:
  KEY NAME          the key, a number from 0 to 4294967295; one space; the name
A name has 1 to 40 bytes from 32, a space, to 126, '~'. All that stands behind the
one space is the name, spaces at its beginning and its end too. The keys of a names
file ascend strictly, and it has at most 32,768 bytes, 8 for each name and those of
the names. Lines are not sorted: what is out of order is an error. A text without
lines is a names file without names.

Example:
  1 xhci-hcd.ko
  2 xhci-hcd.ko compiler options
"#;

/// Turns lines into the bytes of a names file that is not refused.
pub fn encode(text: &[u8]) -> Result<Vec<u8>, TextError> {
    let mut bytes = Vec::new();
    let mut before = None;
    for (line, number) in text.split_inclusive(|&byte| byte == b'\n').zip(1..) {
        let line = Line { line, number };
        let entry = line.entry()?;
        line.check_order(before, entry.key)?;
        before = Some(entry.key);
        entry.put(&mut bytes);
        line.check_room(bytes.len())?;
    }
    Ok(bytes)
}

/// The lines of a names file that is not refused: encoding them gives its bytes again.
pub fn decode(bytes: &[u8]) -> Result<String, Refusal> {
    let names = Names::parse(bytes)?;
    let mut out = String::new();
    for entry in names.entries() {
        let name = entry.name.iter().copied().map(char::from);
        out += &format!("{} {}\n", entry.key, name.collect::<String>());
    }
    Ok(out)
}

/// A line of a text, with its number, from 1.
struct Line<'a> {
    line: &'a [u8],
    number: usize,
}

impl Line<'_> {
    /// An error at this byte of the line, from 0.
    fn error(&self, at: usize, message: String) -> TextError {
        TextError {
            line: self.number,
            column: at + 1,
            message,
        }
    }

    /// The record that the line says.
    fn entry(&self) -> Result<Loose, TextError> {
        let line = self.line.strip_suffix(b"\n").unwrap_or(self.line);
        let space = line.iter().position(|&byte| byte == b' ');
        let (word, name) = match space {
            Some(at) => (&line[..at], &line[at + 1..]),
            None => (line, &[][..]),
        };
        let key = self.key(word)?;
        let behind = word.len() + 1;
        if name.is_empty() {
            return Err(self.error(line.len(), format!("key {key} has no name")));
        }
        if let Some(at) = name.iter().position(|byte| !NAME_BYTES.contains(byte)) {
            let byte = name[at];
            let message =
                format!("byte {byte} in the name of key {key}: only 32 to 126 are lawful");
            return Err(self.error(behind + at, message));
        }
        if name.len() > MAX_NAME {
            let long = name.len();
            let message =
                format!("the name of key {key} has {long} bytes, the most are {MAX_NAME}");
            return Err(self.error(behind, message));
        }
        Ok(Loose::new(key, name))
    }

    /// The key that a line begins with. Plain decimal digits only: the standard parser
    /// would take a sign too.
    fn key(&self, word: &[u8]) -> Result<u32, TextError> {
        let shown = word.escape_ascii();
        if word.is_empty() {
            let message = "no key: a line is KEY NAME, the key in decimal";
            return Err(self.error(0, message.into()));
        }
        if !word.iter().all(u8::is_ascii_digit) {
            return Err(self.error(
                0,
                format!("'{shown}' is no key, which is a number in decimal"),
            ));
        }
        let number = std::str::from_utf8(word)
            .ok()
            .and_then(|word| word.parse().ok());
        number.ok_or_else(|| {
            let most = u32::MAX;
            self.error(
                0,
                format!("key {shown} is too large: {most} is the greatest"),
            )
        })
    }

    /// Keys ascend strictly.
    fn check_order(&self, before: Option<u32>, key: u32) -> Result<(), TextError> {
        match before {
            Some(before) if before >= key => {
                let message = format!(
                    "key {key} behind key {before}: keys must ascend strictly, lines are not sorted"
                );
                Err(self.error(0, message))
            }
            _ => Ok(()),
        }
    }

    /// A file has so many bytes with this line, which must not be too many.
    fn check_room(&self, size: usize) -> Result<(), TextError> {
        match size > MAX_BYTES {
            true => {
                let message =
                    format!("with this line the file has {size} bytes, the most are {MAX_BYTES}");
                Err(self.error(0, message))
            }
            false => Ok(()),
        }
    }
}
