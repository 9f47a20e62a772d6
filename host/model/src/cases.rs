//! The program `cases` of the library's crates: the text that makes an image there, and what the program prints. It is the way to
//! answers that C isn't given.

use crate::disk::layout_of;
use crate::layout::{IGNORED, Kind, MAP_AT, SLOT_BYTES, TYPE_AT};
use std::fmt::Display;
use std::io::Write;
use std::path::Path;
use std::process::{Command, Stdio};

/// Where the longest map ends.
const MAP_END: usize = MAP_AT + 2 * 1600;

/// The commands that make an image but for its data: directory and map, and zeros. Of an S3000 disk also what is never read is
/// zeros, empty slots and the first directory but for its one byte: the program reads 65,536 bytes at most.
pub fn text_of(image: &[u8]) -> String {
    let mut text = format!("zeros {}\n", image.len());
    match layout_of(image) {
        Ok(layout) if layout.kind == Kind::S3000 => {
            text += &format!("byte {TYPE_AT} {IGNORED}\n");
            add_words(&mut text, image, MAP_AT, MAP_END);
            for at in (0..layout.slots()).map(|slot| layout.slot_at(slot)) {
                if image[at + TYPE_AT] != 0 {
                    add_words(&mut text, image, at, at + SLOT_BYTES);
                }
            }
        }
        _ => add_words(&mut text, image, 0, MAP_END.min(image.len())),
    }
    text
}

/// The commands for the words from an offset to another that aren't zeros.
fn add_words(text: &mut String, image: &[u8], from: usize, to: usize) {
    for (word, bytes) in image[from..to].chunks(2).enumerate() {
        let value = crate::number(bytes);
        if value != 0 {
            *text += &format!("word {} {value}\n", from + 2 * word);
        }
    }
}

/// What the program prints for a text.
pub fn printed_by(program: &Path, text: &str) -> Result<String, String> {
    let failed = |why: &dyn Display| format!("{}: {why}", program.display());
    let mut child = Command::new(program)
        .stdin(Stdio::piped())
        .stdout(Stdio::piped())
        .spawn()
        .map_err(|why| failed(&why))?;
    let mut stdin = child.stdin.take().ok_or_else(|| failed(&"no standard input"))?;
    stdin.write_all(text.as_bytes()).map_err(|why| failed(&why))?;
    drop(stdin);
    let output = child.wait_with_output().map_err(|why| failed(&why))?;
    if !output.status.success() {
        return Err(failed(&output.status));
    }
    String::from_utf8(output.stdout).map_err(|why| failed(&why))
}

/// Links and runs at the end of a line that the command `took` printed.
pub fn cost_in(line: &str) -> Option<(usize, usize)> {
    let (links, runs) = line.split_once(" links ")?.1.split_once(" runs ")?;
    Some((links.parse().ok()?, runs.parse().ok()?))
}
