//! Root note and loops of a sample's header, and a WAV file's `smpl` chunk.
//!
//! An S1000 has a root note and up to eight loops. The source names a loop's marker and lengths and doesn't say where it
//! lies; as on the sampler, where a loop is set by the point at which it jumps back, it is the words before the marker.
//! Its fine length is the chunk's fraction, and its time in milliseconds the number of times that it is played. An S900's
//! tuning is a pitch in 16ths of a semitone, 960 for the note 60, and so a note and a fraction; its one loop is the words
//! before the end marker, and is played without end.
//!
//! A chunk can't tell all that a header does, nor the other way round. So what the chunk says just as unpacking the header
//! would say it stays in the header byte for byte, and only what it says otherwise is set.

use super::header::Header;
use crate::wav::smpl::{Loop, Smpl};
use skilletjay::SampleKind;

/// S1000: root note, number of active loops, mode (0 and 1 play loops, 2 and 3 don't), cents, loops of 12 bytes.
const ROOT: usize = 2;
const ACTIVE: usize = 16;
const MODE: usize = 19;
const CENTS: usize = 20;
const LOOPS: usize = 38;
const LOOP: usize = 12;
/// A loop time that has no end; others are milliseconds.
const ENDLESS: u16 = 9999;
/// The loops of a header.
const MOST: usize = 8;

/// S900: tuning, mode (O, L or A) and loop length.
const TUNING: usize = 22;
const MODE_900: usize = 26;
const LENGTH_900: usize = 36;

/// The note of a chunk that has to tell one and of a header that tells none.
const MIDDLE: u8 = 60;

/// A loop of an S1000 header.
#[derive(Clone, Copy)]
pub struct Held {
    /// Its number from 0.
    pub at: usize,
    /// The word after its last.
    pub marker: u32,
    fine: u16,
    coarse: u32,
    time: u16,
}

impl Held {
    /// Moves it back to end with so many words, no longer than these.
    pub fn clip(&mut self, words: u32) {
        self.marker = words;
        if self.coarse >= words {
            (self.coarse, self.fine) = (words, 0);
        }
    }

    /// The same for a chunk; None for a loop that isn't played or doesn't lie in the words.
    fn told(&self, words: u32, rate: u16) -> Option<Loop> {
        let Held { marker, fine, coarse, time, .. } = *self;
        if coarse == 0 || coarse > marker || marker > words || time == 0 {
            return None;
        }
        let count =
            (u64::from(time) * u64::from(rate) + 500 * u64::from(coarse)) / (1000 * u64::from(coarse));
        Some(Loop {
            alternating: false,
            end: marker,
            length: coarse,
            fraction: u32::from(fine) << 16,
            count: if time == ENDLESS { 0 } else { count.max(1) as u32 }, // both factors fit 16 bits
        })
    }

    /// A chunk's loop in a header.
    fn of(at: usize, new: &Loop, rate: u32) -> Held {
        let time = u128::from(new.count) * u128::from(new.length) * 1000 / u128::from(rate.max(1));
        let time = if new.count == 0 { ENDLESS } else { time.clamp(1, u128::from(ENDLESS) - 1) as u16 };
        Held { at, marker: new.end, fine: (new.fraction >> 16) as u16, coarse: new.length, time }
    }
}

impl Header {
    /// The loops that an S1000 header says are active.
    pub fn active(&self) -> Vec<Held> {
        if self.kind == SampleKind::S900 {
            return Vec::new();
        }
        let held = |at: usize| {
            let from = LOOPS + LOOP * at;
            let (marker, coarse) = (self.four(from), self.four(from + 6));
            Held { at, marker, fine: self.two(from + 4), coarse, time: self.two(from + 10) }
        };
        (0..usize::from(self.bytes[ACTIVE]).min(MOST)).map(held).collect()
    }

    /// Sets a loop.
    pub fn set_loop(&mut self, held: &Held) {
        let from = LOOPS + LOOP * held.at;
        self.set_four(from, held.marker);
        self.set_two(from + 4, held.fine);
        self.set_four(from + 6, held.coarse);
        self.set_two(from + 10, held.time);
    }

    /// The loop length of an S900 header.
    pub fn loop_length(&self) -> Option<u32> {
        (self.kind == SampleKind::S900).then(|| self.four(LENGTH_900))
    }

    /// Sets the loop length of an S900 header.
    pub fn set_loop_length(&mut self, length: u32) {
        self.set_four(LENGTH_900, length);
    }

    /// What a WAV file tells of the header besides the rate; None if it has neither a note nor a loop to tell.
    pub fn smpl(&self) -> Option<Smpl> {
        let loops = match self.kind {
            SampleKind::S900 => self.told_loop_900(),
            SampleKind::S1000 => self.told_loops().into_iter().map(|(_, told)| told).collect(),
        };
        let note = self.told_note();
        if note.is_none() && loops.is_empty() {
            return None;
        }
        let (note, fraction) = note.unwrap_or((MIDDLE, 0));
        Some(Smpl { note, fraction, loops })
    }

    /// The root note; or the tuning, if it is a note's, as note and fraction.
    fn told_note(&self) -> Option<(u8, u32)> {
        if self.kind == SampleKind::S1000 {
            return Some((self.bytes[ROOT], 0));
        }
        let tuning = self.two(TUNING);
        let note = u8::try_from(tuning / 16).ok().filter(|&note| note < 128)?;
        Some((note, u32::from(tuning % 16) << 28))
    }

    fn told_loop_900(&self) -> Vec<Loop> {
        let (mode, end, length) = (self.bytes[MODE_900], self.end(), self.four(LENGTH_900));
        if mode == b'O' || length == 0 {
            return Vec::new();
        }
        vec![Loop { alternating: mode == b'A', end, length, fraction: 0, count: 0 }]
    }

    /// The S1000 loops that a chunk can tell.
    fn told_loops(&self) -> Vec<(Held, Loop)> {
        if self.bytes[MODE] > 1 {
            return Vec::new();
        }
        let told = |held: Held| Some((held, held.told(self.words(), self.rate())?));
        self.active().into_iter().filter_map(told).collect()
    }

    /// Sets note and loops as a chunk says them, where it says something else than the header that the sample is like.
    /// The loops lie in the words.
    pub fn take(&mut self, smpl: &Smpl, like: &Header, rate: u32) -> Result<(), String> {
        let all_the_same = like.smpl().as_ref() == Some(smpl);
        if !all_the_same && like.told_note() != Some((smpl.note, smpl.fraction)) {
            self.set_note(smpl.note, smpl.fraction);
        }
        match self.kind {
            SampleKind::S900 => self.take_loop_900(&smpl.loops, like),
            SampleKind::S1000 => self.take_loops(&smpl.loops, like, rate),
        }
    }

    /// An S1000 has whole notes: the rest of a fraction goes to its cents, which make up for it.
    fn set_note(&mut self, note: u8, fraction: u32) {
        let parts = |of: u64| ((u64::from(fraction) * of + (1 << 31)) >> 32) as u16; // to the nearest
        match self.kind {
            SampleKind::S900 => self.set_two(TUNING, 16 * u16::from(note) + parts(16)),
            SampleKind::S1000 if fraction == 0 => self.bytes[ROOT] = note,
            SampleKind::S1000 => {
                let (up, cents) = match parts(100) as i8 {
                    cents if cents > 50 && note < 127 => (1, 100 - cents),
                    cents => (0, -cents.min(50)),
                };
                self.bytes[ROOT] = note + up;
                self.bytes[CENTS] = cents as u8;
            }
        }
    }

    fn take_loop_900(&mut self, loops: &[Loop], like: &Header) -> Result<(), String> {
        match loops {
            [] if like.told_loop_900().is_empty() => {}
            [] => self.bytes[MODE_900] = b'O',
            [one] => {
                self.bytes[MODE_900] = if one.alternating { b'A' } else { b'L' };
                self.set_end(one.end);
                self.set_loop_length(one.length);
            }
            more => {
                return Err(format!("it has {} loops and an S900 sample one; remove the others", more.len()));
            }
        }
        Ok(())
    }

    fn take_loops(&mut self, loops: &[Loop], like: &Header, rate: u32) -> Result<(), String> {
        let told = like.told_loops();
        if told.iter().map(|(_, told)| told).eq(loops) {
            return Ok(());
        }
        if loops.len() > MOST {
            return Err(format!(
                "it has {} loops and an S1000 sample {MOST} at most; remove the others",
                loops.len()
            ));
        }
        if let Some(at) = loops.iter().position(|new| new.alternating) {
            return Err(format!("its loop {} is alternating and an S1000's are forward; change it", at + 1));
        }
        for (at, new) in loops.iter().enumerate() {
            let same = told.iter().find(|(_, told)| told == new);
            self.set_loop(&same.map_or_else(|| Held::of(at, new, rate), |(held, _)| Held { at, ..*held }));
        }
        self.bytes[ACTIVE] = loops.len() as u8;
        if !loops.is_empty() && self.bytes[MODE] > 1 {
            self.bytes[MODE] = 0;
        }
        Ok(())
    }
}
