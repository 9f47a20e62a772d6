//! WAV files of one channel and 16 bits a word, with the root note and the loops that a `smpl` chunk tells.

mod chunks;
mod format;
pub mod smpl;

use crate::failure::{Failure, counting, grouped};
use chunks::{Chunk, are_chunks, chunks};
use smpl::Smpl;

/// What a WAV file holds.
#[derive(Debug, PartialEq, Eq)]
pub struct Wav {
    /// Words a second.
    pub rate: u32,
    /// Root note and loops, where the file tells them.
    pub smpl: Option<Smpl>,
    /// The words.
    pub words: Vec<i16>,
}

impl Wav {
    /// The file's bytes. The data chunk is the last, so that whoever finds the file cut short finds words missing.
    pub fn to_bytes(&self) -> Vec<u8> {
        let mut file = b"RIFF\0\0\0\0WAVE".to_vec();
        chunks::add(&mut file, b"fmt ", &format::to_bytes(self.rate));
        if let Some(smpl) = &self.smpl {
            chunks::add(&mut file, b"smpl", &smpl.to_bytes(self.rate));
        }
        let data: Vec<u8> = self.words.iter().flat_map(|word| word.to_le_bytes()).collect();
        chunks::add(&mut file, b"data", &data);
        let length = file.len() as u32 - 8; // samples fit a floppy
        file[4..8].copy_from_slice(&length.to_le_bytes());
        file
    }

    /// Takes a file apart, or says what is wrong with it and what to do.
    pub fn of_bytes(file: &[u8]) -> Result<Wav, String> {
        if file.get(..4) != Some(b"RIFF") || file.get(8..12) != Some(b"WAVE") {
            return Err("it is no WAV file; give one of one channel and 16 bits".into());
        }
        let format = whole(file, b"fmt ")?.ok_or("it has no format chunk; it is cut short or damaged")?;
        let rate = format::rate_of(format)?;
        let smpl = whole(file, b"smpl")?.map(Smpl::of_bytes).transpose()?;
        let data = data(file)?;
        if data.len() % 2 == 1 {
            return Err("its data ends within a word; it is cut short or damaged".into());
        }
        let words = data.chunks_exact(2).map(|word| i16::from_le_bytes([word[0], word[1]])).collect();
        Ok(Wav { rate, smpl, words })
    }

    /// The same as a failure that names the file.
    pub fn read(name: &str, file: &[u8]) -> Result<Wav, Failure> {
        Wav::of_bytes(file).map_err(|what| {
            let advice = "Give a WAV file of one channel and 16 bits a word, plain (PCM). An audio editor writes one, and \
                          so does: sox in.wav -b 16 -e signed-integer out.wav remix 1";
            Failure::declined(name, what, advice)
        })
    }
}

/// The first chunk with a name.
fn named<'a>(file: &'a [u8], name: &[u8; 4]) -> Option<Chunk<'a>> {
    chunks(file.get(12..)?).find(|chunk| chunk.name == name)
}

/// The body of the first chunk with a name, none of which is missing.
fn whole<'a>(file: &'a [u8], name: &[u8; 4]) -> Result<Option<&'a [u8]>, String> {
    match named(file, name) {
        Some(chunk) if chunk.is_cut() => {
            let name = String::from_utf8_lossy(name);
            Err(format!("its chunk {name:?} is cut short; make the file anew"))
        }
        chunk => Ok(chunk.map(|chunk| chunk.body)),
    }
}

/// The data chunk's bytes. A program that records writes the lengths last: who was interrupted, or writes to a pipe, leaves
/// 0, ffffffff or another length that isn't there. Such a file isn't taken, as nobody can say where its words end.
fn data(file: &[u8]) -> Result<&[u8], String> {
    let chunk = named(file, b"data").ok_or("it has no data chunk; it is cut short or damaged")?;
    let unfinished = |there: usize| {
        let (said, there) = (counting(chunk.length, "byte"), grouped(there));
        format!(
            "its data chunk says {said} and {there} follow, so it was never finished or is cut; \
             sox --ignore-length in.wav out.wav mends it"
        )
    };
    if chunk.is_cut() {
        return Err(unfinished(chunk.body.len()));
    }
    let open = [[0; 4], [0xFF; 4]].iter().any(|length| file.get(4..8) == Some(length));
    let empty = chunk.length == 0 && !chunk.after.is_empty();
    if empty || (open && !are_chunks(chunk.after)) {
        return Err(unfinished(chunk.length + chunk.after.len()));
    }
    Ok(chunk.body)
}
