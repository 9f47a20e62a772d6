//! Legal sample and program files for tests.

use crate::layout::Kind;
use crate::program::{KEYGROUPS_AT, PART, Rule, allows, rows};
use crate::random::Random;
use crate::samples::{count_at, file_bytes, header_bytes};
use crate::store;

/// A legal sample header for so many words, noise where no rule stands.
pub fn sample_header(kind: Kind, words: usize, random: &mut Random) -> Vec<u8> {
    let mut header = random.bytes(header_bytes(kind));
    store(&mut header[count_at(kind)..][..4], words);
    let end = random.pick(&[0, words, words / 2, words.saturating_sub(1)]);
    let mut marker = |at: usize, value: usize| store(&mut header[at..at + 4], value);
    match kind {
        Kind::S900 => {
            marker(28, end);
            marker(32, random.pick(&[0, end, end / 2]));
            marker(36, random.pick(&[0, end, end / 2]));
            header[0..10].iter_mut().for_each(|byte| *byte = random.pick(b" ~Az0"));
            header[10..16].fill(0);
            header[24..28].fill(0);
            header[26] = random.pick(b"OLA");
        }
        Kind::S1000 | Kind::S3000 => {
            marker(34, end);
            marker(30, random.pick(&[0, end, end / 2]));
            header[0] = 3;
            header[2] = random.pick(&[0, 60, 127]);
            header[3..15].iter_mut().for_each(|byte| *byte = random.pick(&[0, 10, 40, 25]));
            header[15] = 128;
            header[16] = random.pick(&[0, 1, 8]);
            header[19] = random.pick(&[0, 1, 2, 3]);
            header[20] = random.pick(&[0, 50, 206]);
            header[21] = random.pick(&[0, 50, 206]);
        }
    }
    header
}

/// A legal sample file of so many words (even on S900 disks).
pub fn sample(kind: Kind, words: usize, random: &mut Random) -> Vec<u8> {
    let mut file = sample_header(kind, words, random);
    file.extend(random.bytes(file_bytes(kind, words) - header_bytes(kind)));
    file
}

/// A legal program of so many keygroups, noise where no rule stands.
pub fn program(keygroups: usize, random: &mut Random) -> Vec<u8> {
    let mut file = random.bytes(PART * (keygroups + 1));
    for (part, bytes) in file.chunks_mut(PART).enumerate() {
        for (byte, length, rule) in rows(part) {
            let row = &mut bytes[byte - 1..byte - 1 + length];
            match rule {
                Rule::Address => store(row, PART * (part + 1)),
                Rule::Starts => row.chunks_mut(2).for_each(|pair| {
                    pair.copy_from_slice(&random.pick(&[0i16, 9999, -9999, -1, 255, 256]).to_le_bytes());
                }),
                _ => row.iter_mut().for_each(|value| {
                    while !allows(rule, *value) {
                        *value = random.byte();
                    }
                }),
            }
        }
    }
    file[KEYGROUPS_AT] = keygroups as u8;
    file
}

/// Header bytes 1 to 72 of a program as published; the others aren't used.
const HEADER: [u8; 72] = [
    1, 150, 0, 10, 10, 10, 10, 10, 10, 10, 10, 10, 10, 10, 10, 0, 0, 15, 1, 24, 127, 0, 255, 99, 0, 80, 20,
    0, 0, 50, 0, 0, 0, 50, 0, 0, 30, 0, 0, 2, 0, 0, 1, 0, 0, 0, 0, 0, 0, 0, 0, 0, 0, 0, 0, 0, 0, 0, 0, 1, 0,
    0, 10, 10, 10, 0, 0, 0, 0, 0, 1, 0,
];
/// Keygroup bytes 1 to 34.
const KEYGROUP: [u8; 34] = [
    2, 44, 1, 24, 127, 0, 0, 99, 12, 0, 0, 0, 0, 30, 99, 45, 0, 0, 0, 0, 0, 50, 99, 45, 0, 0, 0, 0, 0, 0, 1,
    4, 255, 255,
];
/// A keygroup's bytes 35 to 58, and the same for samples 2 to 4. The rest of a keygroup is zeros.
const SAMPLE: [u8; 24] =
    [10, 10, 10, 10, 10, 10, 10, 10, 10, 10, 10, 10, 0, 127, 0, 0, 0, 0, 0, 0, 255, 255, 44, 1];

/// A program of one keygroup with the published default values of every row.
pub fn default_program() -> Vec<u8> {
    let mut file = HEADER.to_vec();
    file.resize(PART, 0);
    file.extend(KEYGROUP);
    (0..4).for_each(|_| file.extend(SAMPLE));
    file.resize(2 * PART, 0);
    file
}
