//! The `smpl` chunk of a WAV file: the note that the words are, and loops.

use crate::failure::counting;

/// Bytes before the loops, and of each loop.
const HEAD: usize = 36;
const LOOP: usize = 24;

const FORWARD: u32 = 0;
const ALTERNATING: u32 = 1;

/// What a chunk tells.
#[derive(Clone, Debug, PartialEq, Eq)]
pub struct Smpl {
    /// The MIDI note that the words are at their rate, 0 to 127.
    pub note: u8,
    /// How much they are above it, in parts of a semitone: 2 to the 32nd would be one.
    pub fraction: u32,
    /// The loops.
    pub loops: Vec<Loop>,
}

/// A loop.
#[derive(Clone, Debug, PartialEq, Eq)]
pub struct Loop {
    /// Whether it is played forward and backward in turn; else forward alone.
    pub alternating: bool,
    /// The word after its last.
    pub end: u32,
    /// Its words, at least one.
    pub length: u32,
    /// What it is longer by, in parts of a word: 2 to the 32nd would be one.
    pub fraction: u32,
    /// How often it is played; 0 is without end.
    pub count: u32,
}

impl Smpl {
    /// The chunk's body.
    pub fn to_bytes(&self, rate: u32) -> Vec<u8> {
        let period = (1_000_000_000 + rate / 2).checked_div(rate).unwrap_or(0); // nanoseconds
        let loops = self.loops.len() as u32;
        let head = [0, 0, period, self.note.into(), self.fraction, 0, 0, loops, 0];
        let told = self.loops.iter().zip(0..).flat_map(|(told, number)| {
            let kind = if told.alternating { ALTERNATING } else { FORWARD };
            [number, kind, told.end - told.length, told.end - 1, told.fraction, told.count]
        });
        head.into_iter().chain(told).flat_map(u32::to_le_bytes).collect()
    }

    /// Takes a chunk apart, or says what is wrong with it.
    pub fn of_bytes(chunk: &[u8]) -> Result<Smpl, String> {
        if chunk.len() < HEAD {
            return Err("its smpl chunk is too short; make the file anew".into());
        }
        let (note, fraction, loops) = (four(chunk, 12), four(chunk, 16), four(chunk, 28) as usize);
        let room = (chunk.len() - HEAD) / LOOP;
        if loops > room {
            let loops = counting(loops, "loop");
            return Err(format!("its smpl chunk says {loops} and has room for {room}; make the file anew"));
        }
        let Some(note) = u8::try_from(note).ok().filter(|&note| note < 128) else {
            return Err(format!("its smpl chunk says the note {note}, above 127; set it in an editor"));
        };
        let loops = chunk[HEAD..].chunks_exact(LOOP).take(loops).zip(1..);
        let loops = loops.map(|(bytes, number)| Loop::of_bytes(bytes, number)).collect::<Result<_, _>>()?;
        Ok(Smpl { note, fraction, loops })
    }
}

impl Loop {
    /// A loop of a chunk, by its number from 1.
    fn of_bytes(bytes: &[u8], number: usize) -> Result<Loop, String> {
        let (kind, start, last) = (four(bytes, 4), four(bytes, 8), four(bytes, 12));
        if kind > ALTERNATING {
            return Err(format!("its loop {number} is of kind {kind}; make it forward or alternating"));
        }
        if last < start {
            return Err(format!("its loop {number} ends before it begins; set it in an editor"));
        }
        let end = last.saturating_add(1); // no sample has so many words
        Ok(Loop {
            alternating: kind == ALTERNATING,
            end,
            length: (end - start).max(1),
            fraction: four(bytes, 16),
            count: four(bytes, 20),
        })
    }
}

/// The number at an offset; the caller knows that it is there.
fn four(bytes: &[u8], at: usize) -> u32 {
    u32::from_le_bytes([bytes[at], bytes[at + 1], bytes[at + 2], bytes[at + 3]])
}
