//! A sample's header, whichever sampler's: its fields, and the markers that must lie within the words.

use crate::failure::counting;
use crate::{akaii, file_name};
use skilletjay::{SampleKind, sample};

/// The header of a sample file that the library accepts.
#[derive(Clone)]
pub struct Header {
    /// Whose it is.
    pub kind: SampleKind,
    /// Its bytes.
    pub bytes: Vec<u8>,
}

/// Where a header tells things, all counted from 0 (the source's sections 3 and 5).
struct Fields {
    name: usize,
    words: usize,
    start: usize,
    end: usize,
    rate: usize,
}

impl Header {
    /// The header of a file.
    pub fn of_file(kind: SampleKind, file: &[u8]) -> Header {
        Header { kind, bytes: file[..sample::header_length(kind)].to_vec() }
    }

    fn fields(&self) -> Fields {
        match self.kind {
            SampleKind::S900 => Fields { name: 0, words: 16, rate: 20, end: 28, start: 32 },
            SampleKind::S1000 => Fields { name: 3, words: 26, start: 30, end: 34, rate: 138 },
        }
    }

    /// The number of two bytes at an offset.
    pub fn two(&self, at: usize) -> u16 {
        u16::from_le_bytes([self.bytes[at], self.bytes[at + 1]])
    }

    /// The number of four bytes at an offset.
    pub fn four(&self, at: usize) -> u32 {
        u32::from(self.two(at)) + (u32::from(self.two(at + 2)) << 16)
    }

    /// Sets two bytes at an offset.
    pub fn set_two(&mut self, at: usize, value: u16) {
        self.bytes[at..at + 2].copy_from_slice(&value.to_le_bytes());
    }

    /// Sets four bytes at an offset.
    pub fn set_four(&mut self, at: usize, value: u32) {
        self.bytes[at..at + 4].copy_from_slice(&value.to_le_bytes());
    }

    /// The number of words.
    pub fn words(&self) -> u32 {
        self.four(self.fields().words)
    }

    /// Words a second.
    pub fn rate(&self) -> u16 {
        self.two(self.fields().rate)
    }

    /// The end marker: the word after the last that is played.
    pub fn end(&self) -> u32 {
        self.four(self.fields().end)
    }

    /// Sets the end marker.
    pub fn set_end(&mut self, end: u32) {
        self.set_four(self.fields().end, end);
    }

    /// Sets number and rate of the words. An end that was after the last word is there again.
    pub fn set_words(&mut self, words: u32, rate: u16) {
        let fields = self.fields();
        if self.end() == self.words() {
            self.set_end(words);
        }
        self.set_four(fields.words, words);
        self.set_two(fields.rate, rate);
    }

    /// Sets the name, which is legal for the kind, and pads it. An S1000's is in capitals.
    pub fn set_name(&mut self, name: &str) {
        let disk = self.kind.disk();
        let (at, name) = (self.fields().name, file_name::folded(disk, name));
        let code = |byte: u8| match self.kind {
            SampleKind::S900 => byte,
            SampleKind::S1000 => akaii::code_of(byte).unwrap_or(0),
        };
        let codes: Vec<u8> = disk.padded(&name).bytes().take(disk.name_length()).map(code).collect();
        self.bytes[at..at + codes.len()].copy_from_slice(&codes);
    }

    /// What lies past the words or past the end marker, in words; None if nothing does. No rule of the library is about an
    /// S1000's loops, but a sampler would play past the words.
    pub fn past(&self, of: &str) -> Option<String> {
        let (words, end, start) = (self.words(), self.end(), self.four(self.fields().start));
        let by_words = format!("past the {}", counting(words as usize, "word"));
        if end > words {
            return Some(format!("the end marker of {of} is {end}, {by_words}"));
        }
        if start > end {
            return Some(format!("the start marker of {of} is {start}, past the end at {end}"));
        }
        if let Some(length) = self.loop_length().filter(|&length| length > end) {
            return Some(format!("the loop length of {of} is {length}, past the end at {end}"));
        }
        let beyond = self.active().into_iter().find(|held| held.marker > words)?;
        Some(format!("loop {} of {of} ends at {}, {by_words}", beyond.at + 1, beyond.marker))
    }

    /// Moves what lies past the words back to the last of them: markers become the end's, or the words' number; loops
    /// keep their length as far as the words go.
    pub fn clip(&mut self) {
        let (words, start) = (self.words(), self.fields().start);
        let end = self.end().min(words);
        self.set_end(end);
        self.set_four(start, self.four(start).min(end));
        if let Some(length) = self.loop_length() {
            self.set_loop_length(length.min(end));
        }
        for mut held in self.active() {
            if held.marker > words {
                held.clip(words);
                self.set_loop(&held);
            }
        }
    }
}
