//! WAV files made and read by the tests' own hand.
#![allow(dead_code, missing_docs)] // each test takes what it needs

use model::layout::Kind;

/// A WAV file: its chunks one after another.
pub fn riff(chunks: &[(&[u8; 4], Vec<u8>)]) -> Vec<u8> {
    let mut file = b"RIFF\0\0\0\0WAVE".to_vec();
    for (name, body) in chunks {
        file.extend(*name);
        file.extend((body.len() as u32).to_le_bytes());
        file.extend(body);
        file.resize(file.len() + body.len() % 2, 0);
    }
    let length = file.len() as u32 - 8;
    file[4..8].copy_from_slice(&length.to_le_bytes());
    file
}

/// A format chunk of one channel and 16 bits.
pub fn format(rate: u32) -> Vec<u8> {
    let mut chunk = vec![1, 0, 1, 0];
    chunk.extend(rate.to_le_bytes());
    chunk.extend(rate.wrapping_mul(2).to_le_bytes());
    chunk.extend([2, 0, 16, 0]);
    chunk
}

pub fn data(words: &[i16]) -> Vec<u8> {
    words.iter().flat_map(|word| word.to_le_bytes()).collect()
}

/// A WAV file of words alone.
pub fn wav(rate: u32, words: &[i16]) -> Vec<u8> {
    riff(&[(b"fmt ", format(rate)), (b"data", data(words))])
}

/// A loop as a smpl chunk has it: kind, first word, last word, fraction, count.
pub type Loop = (u32, u32, u32, u32, u32);

/// A smpl chunk: note, fraction and loops.
pub fn smpl(note: u32, fraction: u32, loops: &[Loop]) -> Vec<u8> {
    let mut numbers = vec![0, 0, 22_676, note, fraction, 0, 0, loops.len() as u32, 0];
    for &(kind, first, last, fraction, count) in loops {
        numbers.extend([7, kind, first, last, fraction, count]);
    }
    numbers.into_iter().flat_map(u32::to_le_bytes).collect()
}

/// A WAV file of words with a smpl chunk after them, as editors write it.
pub fn wav_with(rate: u32, words: &[i16], smpl: Vec<u8>) -> Vec<u8> {
    riff(&[(b"fmt ", format(rate)), (b"data", data(words)), (b"smpl", smpl)])
}

/// A sample of so many words whose eight loops, if its kind has such, end in the words.
pub fn within(kind: Kind, words: usize, mut file: Vec<u8>) -> Vec<u8> {
    if kind == Kind::S1000 {
        (0..8).for_each(|at| set_four(&mut file, 38 + 12 * at, (words / (at + 1)) as u32));
    }
    file
}

/// The body of a chunk.
pub fn chunk(file: &[u8], name: &[u8; 4]) -> Option<Vec<u8>> {
    let mut rest = file.get(12..)?;
    loop {
        let length = four(rest.get(..8)?, 4) as usize;
        if &rest[..4] == name {
            return Some(rest[8..8 + length].to_vec());
        }
        rest = rest.get(8 + length + length % 2..)?;
    }
}

/// The note, the fraction and the loops of a WAV file's smpl chunk.
pub fn told(file: &[u8]) -> Option<(u32, u32, Vec<Loop>)> {
    let chunk = chunk(file, b"smpl")?;
    let told =
        |bytes: &[u8]| (four(bytes, 4), four(bytes, 8), four(bytes, 12), four(bytes, 16), four(bytes, 20));
    assert_eq!(chunk.len(), 36 + 24 * four(&chunk, 28) as usize);
    Some((four(&chunk, 12), four(&chunk, 16), chunk[36..].chunks(24).map(told).collect()))
}

pub fn four(bytes: &[u8], at: usize) -> u32 {
    u32::from_le_bytes([bytes[at], bytes[at + 1], bytes[at + 2], bytes[at + 3]])
}

pub fn set_four(bytes: &mut [u8], at: usize, value: u32) {
    bytes[at..at + 4].copy_from_slice(&value.to_le_bytes());
}
