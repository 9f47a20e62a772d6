//! `sj unpack` and `sj pack`: sample files to WAV files and back.

mod header;
mod loops;
mod pack;
#[cfg(test)]
mod tests;
mod unpack;

use crate::failure::{Failure, named};
use crate::image_file;
use crate::json::Object;
use header::Header;
use skilletjay::rows::{self, Form};
use skilletjay::{Refusal, SampleKind, sample};
use std::path::Path;

pub use pack::pack;
pub use unpack::unpack;

/// More than any disk holds, and than a sample's words take in a WAV file.
const MOST: u64 = 16_777_215;

/// What an S900 word is shifted by in a WAV file: 12 bits fill the upper of 16.
const SHIFT: u32 = 4;

/// A sample file that is accepted.
struct Sample {
    header: Header,
    words: Vec<i16>,
}

impl Sample {
    /// Takes a file apart.
    fn of_bytes(about: &str, file: &[u8]) -> Result<Sample, Failure> {
        let kind = sample::kind_of(file);
        let words = sample::words_of(kind, file).map_err(|refusal| refused(about, kind, file, refusal))?;
        Ok(Sample { header: Header::of_file(kind, file), words })
    }
}

/// Reads a file that isn't longer than any sample.
fn read(path: &Path) -> Result<Vec<u8>, Failure> {
    let file = image_file::read_up_to(path, MOST)?;
    if file.len() as u64 > MOST {
        let advice = "Cut it to what a disk holds, 1,595 blocks at most.";
        return Err(Failure::declined(named(path), "it is longer than 16,777,215 bytes; cut it", advice));
    }
    Ok(file)
}

/// What a sample is, as fields.
fn fields(object: Object, header: &Header) -> Object {
    object
        .text("kind", &header.kind.to_string())
        .number("words", header.words() as usize)
        .number("rate", header.rate().into())
}

/// A refusal of a sample file, with what the file was taken for and why, and the row at fault.
fn refused(about: &str, kind: SampleKind, file: &[u8], refusal: Refusal) -> Failure {
    let why = match kind {
        SampleKind::S900 => "first byte not 3",
        SampleKind::S1000 => "first byte 3",
    };
    match rows::words(Form::Sample(kind), file, refusal.place()) {
        Some(words) if refusal.number() == 18 => {
            let besides =
                if fits_s3000(file) { "; an S3000 sample's header, of 192 bytes, isn't read" } else { "" };
            Failure::refused_as(about, refusal, format!("as {kind} ({why}): {words}{besides}"))
        }
        _ => Failure::refused(about, refusal),
    }
}

/// Whether a file is as long as an S3000 sample of its words: it begins as an S1000's does, and its header has 192 bytes.
fn fits_s3000(file: &[u8]) -> bool {
    let words = file.get(26..30).and_then(|bytes| bytes.try_into().ok()).map(u32::from_le_bytes);
    file.first() == Some(&3) && words.is_some_and(|words| file.len() as u64 == 192 + 2 * u64::from(words))
}
