//! Where two texts of answers first differ.

use std::fmt;
use std::io;

const SHOWN: usize = 200;

/// The first line with two answers. Each line of a script has one, and the end
/// of the script has the one after them.
pub struct Difference {
    /// Counted from 1.
    pub line: usize,
    pub script: String,
    pub expected: String,
    pub given: String,
}

pub fn first_difference(script: &[u8], expected: &[u8], given: &[u8]) -> Option<Difference> {
    if expected == given {
        return None;
    }
    let pairs = lines(expected).zip(lines(given));
    let same = pairs.take_while(|(expected, given)| expected == given).count();
    Some(at(script, same, shown(expected, same, "(nothing)"), shown(given, same, "(nothing)")))
}

impl Difference {
    /// The subject did not answer at all.
    pub fn failed(script: &[u8], expected: &[u8], error: &io::Error) -> Self {
        at(script, 0, shown(expected, 0, "(nothing)"), format!("({error})"))
    }
}

fn at(script: &[u8], line: usize, expected: String, given: String) -> Difference {
    Difference { line: line + 1, script: shown(script, line, "(end)"), expected, given }
}

/// With their line feeds, so that one without differs.
fn lines(text: &[u8]) -> impl Iterator<Item = &[u8]> {
    text.split_inclusive(|&byte| byte == b'\n')
}

/// A line for a person to read: the start of it, if it is long.
fn shown(text: &[u8], line: usize, missing: &str) -> String {
    let Some(line) = lines(text).nth(line) else { return missing.into() };
    let (line, feed) = match line.strip_suffix(b"\n") {
        Some(line) => (line, ""),
        None => (line, " (no line feed)"),
    };
    let start = &line[..line.len().min(SHOWN)];
    let cut = line.len() - start.len();
    let rest = if cut == 0 { String::new() } else { format!("... ({cut} bytes more)") };
    format!("{}{rest}{feed}", start.escape_ascii())
}

impl fmt::Display for Difference {
    fn fmt(&self, out: &mut fmt::Formatter) -> fmt::Result {
        writeln!(out, "  line {}: {}", self.line, self.script)?;
        writeln!(out, "  expected: {}", self.expected)?;
        write!(out, "  answered: {}", self.given)
    }
}
