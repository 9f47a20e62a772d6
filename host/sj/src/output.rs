//! Standard output and standard error.

use crate::failure::Failure;
use std::io::{self, ErrorKind, Write, stderr};
use std::path::Path;
use std::sync::atomic::{AtomicBool, Ordering::Relaxed};
use system::descriptors;

/// No line of a longer text has more columns.
const COLUMNS: usize = 100;

/// Whether something went to standard output.
static USED: AtomicBool = AtomicBool::new(false);

/// Whether something that should have gone there is lost.
static LOST: AtomicBool = AtomicBool::new(false);

/// Writes bytes to standard output. They were asked for, so a reader that closes it early has not got them.
pub fn write(bytes: &[u8]) -> Result<(), Failure> {
    written(bytes).map_err(failed)
}

/// Writes text to standard output. A reader that has seen enough of it and closes it is no failure.
pub fn say(text: &str) -> Result<(), Failure> {
    match written(text.as_bytes()) {
        Err(error) if error.kind() != ErrorKind::BrokenPipe => {
            LOST.store(true, Relaxed);
            Err(failed(error))
        }
        _ => Ok(()),
    }
}

/// Says at the end of a run whether all that was written to standard output arrived. Some file systems tell only when
/// a file is closed that they have no room for it.
pub fn finish() -> Result<(), Failure> {
    if LOST.load(Relaxed) {
        return Err(failed(io::Error::other("it couldn't be written")));
    }
    if !USED.load(Relaxed) {
        return Ok(());
    }
    descriptors::duplicate(1).and_then(descriptors::closed).map_err(failed)
}

/// Writes a message to standard error. If that fails there is nowhere to tell it, and the status says how the run went.
pub fn warn(text: &str) {
    let _ = stderr().write_all(format!("sj: {text}\n").as_bytes()); // at once, so that two runs' lines don't mix
}

/// Writes text to standard error, where standard output is what something else is written to.
pub fn note(text: &str) {
    let _ = stderr().write_all(text.as_bytes()); // as above
}

/// Writes a message whose words may be long: broken into lines, but for what it is about.
pub fn warn_wrapped(about: &str, words: &str) {
    let mut text = String::new();
    let mut columns = "sj: ".len() + about.chars().count();
    for word in words.split(' ') {
        let length = word.chars().count();
        if text.is_empty() {
            columns += length;
        } else if columns + 1 + length > COLUMNS {
            text.push_str("\n    ");
            columns = 4 + length;
        } else {
            text.push(' ');
            columns += 1 + length;
        }
        text.push_str(word);
    }
    warn(&format!("{about}{text}"));
}

/// Writes what to do to standard error, after a message.
pub fn explain(text: &str) {
    for line in wrapped_to(COLUMNS - 4, text).lines() {
        let _ = writeln!(stderr(), "    {line}");
    }
}

/// A text broken between words into lines that aren't too long.
pub fn wrapped(text: &str) -> String {
    wrapped_to(COLUMNS, text)
}

/// A text broken between words into lines of so many columns at most; a longer word has a line of its own.
pub fn wrapped_to(columns: usize, text: &str) -> String {
    let (mut lines, mut line) = (Vec::new(), String::new());
    for word in text.split_whitespace() {
        if !line.is_empty() && line.chars().count() + 1 + word.chars().count() > columns {
            lines.push(std::mem::take(&mut line));
        }
        if !line.is_empty() {
            line.push(' ');
        }
        line.push_str(word);
    }
    lines.push(line);
    lines.join("\n")
}

/// Each text is one call, and nothing is held back.
fn written(bytes: &[u8]) -> io::Result<()> {
    USED.store(true, Relaxed);
    descriptors::output()?.write_all(bytes)
}

fn failed(error: io::Error) -> Failure {
    Failure::file(Path::new("standard output"), error)
}

#[cfg(test)]
mod tests {
    use super::*;

    #[test]
    fn lines_are_broken_between_words() {
        assert_eq!(wrapped_to(5, "a bb ccc dddddd e"), "a bb\nccc\ndddddd\ne");
        assert_eq!(wrapped_to(4, " a  bb "), "a bb");
    }
}
