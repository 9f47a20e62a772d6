//! The disk of the README's tour: an S1000 disk of high density with a plucked string, a program that plays it, and a text.

use crate::calls::{put, set_map};
use crate::files::default_program;
use crate::layout::{Density, Kind, Layout, SYSTEM};
use crate::names::code_of;
use crate::program::{KEYGROUPS_AT, PART};
use crate::random::Random;
use crate::samples::header_bytes;
use crate::store;

/// Half a second at 22,050 words a second.
const WORDS: usize = 11_025;
const RATE: usize = 22_050;
/// Words from one swing of the string to the next; averaging two words adds half a word, which makes a middle C of it.
const PERIOD: usize = 84;
/// Where the loop stands, and its length: 20 swings.
const LOOP: (usize, usize) = (9_000, 20 * PERIOD + 10);
/// Middle C, as MIDI counts keys.
const ROOT: u8 = 60;

const SAMPLE_NAME: &[u8; 12] = b"PLUCK C3    ";
const PROGRAM_NAME: &[u8; 12] = b"STRING      ";
const TEXT: &[u8] = b"A disk to try sj on. PLUCK C3 is a sample: a plucked string, half a second\n\
    of it, looped. STRING is a program of two keygroups that plays it.\n";

/// The disk, the same at every run.
pub fn disk() -> Vec<u8> {
    let mut image = blank(Layout { kind: Kind::S1000, density: Density::High });
    let files: [(&[u8; 12], u8, &[u8]); 3] =
        [(SAMPLE_NAME, b's', &sample()), (PROGRAM_NAME, b'p', &program()), (b"READ ME     ", b't', TEXT)];
    for (name, file_type, content) in files {
        put(&mut image, name, file_type, content).expect("an empty disk has room, and the names are legal");
    }
    image
}

/// An S1000 disk without files, and zeros where no rule stands.
fn blank(layout: Layout) -> Vec<u8> {
    let mut image = vec![0; layout.image_bytes()];
    for slot in 0..layout.slots() {
        image[layout.slot_at(slot) + 22..][..2].copy_from_slice(&layout.identity());
    }
    for block in 0..layout.first() {
        set_map(&mut image, block, SYSTEM);
    }
    image
}

/// A name in AKAII.
fn akaii(name: &[u8; 12]) -> [u8; 12] {
    name.map(|character| code_of(character).expect("an AKAII character"))
}

/// A sample file of the string, with one loop that is held.
fn sample() -> Vec<u8> {
    let mut file = vec![0; header_bytes(Kind::S1000)];
    file[0] = 3;
    file[2] = ROOT;
    file[3..15].copy_from_slice(&akaii(SAMPLE_NAME));
    file[15] = 128;
    file[16] = 1; // active loops
    for (at, bytes, number) in
        [(26, 4, WORDS), (34, 4, WORDS), (38, 4, LOOP.0), (44, 4, LOOP.1), (48, 2, 9999), (138, 2, RATE)]
    {
        store(&mut file[at..at + bytes], number);
    }
    file.extend(string().iter().flat_map(|word| word.to_le_bytes()));
    file
}

/// A string plucked at random all along: each word is the mean of two a period earlier, a little less. In whole numbers,
/// so that every machine makes the same words.
fn string() -> Vec<i16> {
    let mut random = Random::new(1);
    let mut words: Vec<i32> = (0..=PERIOD).map(|_| random.below(24_001) as i32 - 12_000).collect();
    while words.len() < WORDS {
        let at = words.len() - PERIOD;
        words.push((words[at] + words[at - 1]) * 499 / 1000);
    }
    words.into_iter().map(|word| word as i16).collect()
}

/// A program of two keygroups, below middle C and from it on, that both play the sample.
fn program() -> Vec<u8> {
    let mut file = default_program();
    file.extend_from_within(PART..2 * PART);
    file[3..15].copy_from_slice(&akaii(PROGRAM_NAME));
    file[KEYGROUPS_AT] = 2;
    for (part, low, high) in [(1, 24, ROOT - 1), (2, ROOT, 127)] {
        let keygroup = &mut file[PART * part..][..PART];
        store(&mut keygroup[1..3], PART * (part + 1));
        keygroup[3] = low;
        keygroup[4] = high;
        keygroup[34..46].copy_from_slice(&akaii(SAMPLE_NAME));
    }
    file
}
