//! Which files of an image the words of a command line name.

#[cfg(test)]
mod tests;

use crate::arguments::text;
use crate::commands::ls;
use crate::failure::{Failure, counting};
use crate::file_type::{self, Typed};
use crate::{directory, file_name};
use skilletjay::{Entry, Image, Kind, Refusal, Slot};
use std::collections::HashSet;
use std::ffi::OsString;

/// `#` and digits alone are a slot; all else is a name.
pub fn slot_number(which: &str) -> Option<Slot> {
    let digits = which.strip_prefix('#')?;
    if digits.is_empty() || !digits.bytes().all(|byte| byte.is_ascii_digit()) {
        return None;
    }
    Some(Slot(digits.parse().unwrap_or(usize::MAX))) // a number too large is no slot either
}

/// Whether a word may name more than one file: it has a `*` or a `?`.
pub fn is_pattern(word: &str) -> bool {
    word.contains(['*', '?'])
}

/// Files of an image.
pub struct Chosen {
    /// What the slots hold.
    pub entries: Vec<Entry>,
    /// Whether one word names one file, and no pattern was matched.
    pub single: bool,
}

/// The files of an accepted image from which words choose: all, or those of one type.
pub struct Files<'a, B> {
    about: &'a str,
    image: &'a Image<B>,
    /// Whose disk it is.
    pub kind: Kind,
    /// The type that is asked for, if one is.
    asked: Option<u8>,
    /// Whether a name that several files have is the sample's.
    samples_first: bool,
}

impl<'a, B: AsRef<[u8]>> Files<'a, B> {
    /// Those of an image, of a type if one is given; it has to be legal on the disk.
    pub fn of(about: &'a str, image: &'a Image<B>, typed: Option<Typed>) -> Result<Files<'a, B>, Failure> {
        let kind = image.check().map_err(|refusal| Failure::refused(about, refusal))?.kind;
        let asked = typed.map(|typed| typed.on(kind)).transpose()?;
        if let Some(file_type) = asked
            && let Err(refusal) = image.find(file_name::padded(kind, ""), file_type)
            && refusal.number() == 11
        {
            // A name of spaces is legal on every disk, so it is the type that isn't.
            return Err(file_type::refused(about, kind, file_type, refusal));
        }
        Ok(Files { about, image, kind, asked, samples_first: false })
    }

    /// The same, but that a name which several files have is the sample's, if one of them is a sample.
    pub fn samples_first(self) -> Files<'a, B> {
        Files { samples_first: true, ..self }
    }

    /// All of them, by their slots.
    pub fn all(&self) -> Result<Vec<Entry>, Failure> {
        let mut entries = self.image.entries().map_err(|refusal| Failure::refused(self.about, refusal))?;
        entries.retain(|entry| self.is_asked(entry));
        Ok(entries)
    }

    /// The files that words name, each once, in the words' order: a slot, a name, or a pattern that stands for every name
    /// that it matches. A name that is on the disk to the letter is no pattern, also where it looks like one.
    pub fn chosen(&self, words: Vec<OsString>) -> Result<Chosen, Failure> {
        let (mut taken, mut entries) = (HashSet::new(), Vec::new());
        let mut single = words.len() == 1;
        for word in words {
            let word = text("name", word)?;
            let (found, by_pattern) = self.named(&word)?;
            single &= !by_pattern;
            entries.extend(found.into_iter().filter(|entry| taken.insert(entry.slot)));
        }
        Ok(Chosen { entries, single })
    }

    /// The files that a word names, and whether it is a pattern.
    fn named(&self, word: &str) -> Result<(Vec<Entry>, bool), Failure> {
        if let Some(slot) = slot_number(word) {
            return Ok((vec![self.in_slot(slot, word)?], false));
        }
        let name = file_name::padded(self.kind, word);
        let called = self.called(&name);
        if called.is_empty() && is_pattern(word) {
            return Ok((self.matching(word)?, true));
        }
        let found = self.image.find(&name, self.meant(&called, word)?);
        let entry = found.and_then(|slot| self.image.list(slot));
        Ok((vec![entry.map_err(|refusal| self.refused(word, refusal))?], false))
    }

    /// The file in a slot.
    fn in_slot(&self, slot: Slot, word: &str) -> Result<Entry, Failure> {
        let entry =
            self.image.list(slot).map_err(|refusal| Failure::refused(self.about, refusal).on(word))?;
        if self.is_asked(&entry) {
            return Ok(entry);
        }
        let words = format!("its file is of type {}, not{}", self.told(entry.file_type), self.of_type());
        let advice = "Give the type that the slot has, or the slot alone.";
        Err(Failure::declined(self.about, words, advice).on(word))
    }

    /// The files with a name, of whatever type, by their slots. The library is asked for each type that a slot has: it
    /// says which spellings are one name.
    fn called(&self, name: &str) -> Vec<Entry> {
        let types = directory::types(self.kind, self.image.bytes()).into_iter();
        let slots = types.filter_map(|file_type| self.image.find(name, file_type).ok());
        let mut entries: Vec<Entry> = slots.filter_map(|slot| self.image.list(slot).ok()).collect();
        entries.sort_by_key(|entry| entry.slot);
        entries
    }

    /// The type of the file that is meant by a name, which some files have.
    fn meant(&self, called: &[Entry], name: &str) -> Result<u8, Failure> {
        let sample = file_type::of_samples(self.kind);
        let is_sample = |entry: &Entry| entry.file_type == sample;
        match (self.asked, called) {
            (Some(file_type), _) => Ok(file_type),
            (None, []) => Ok(sample), // as good as any: no file has the name
            (None, [only]) => Ok(only.file_type),
            (None, several) if self.samples_first && several.iter().any(is_sample) => Ok(sample),
            (None, several) => Err(self.ambiguous(several, name)),
        }
    }

    /// Several files have a name: all are told.
    fn ambiguous(&self, entries: &[Entry], name: &str) -> Failure {
        let one = |entry: &Entry| {
            let length = counting(entry.length, "byte");
            format!("{} {}, {length}", entry.slot, self.told(entry.file_type))
        };
        let all = entries.iter().map(one).collect::<Vec<String>>().join("; ");
        let words = format!("{} files have the name, say which by --type or '#SLOT': {all}", entries.len());
        let (letter, slot) = (entries[0].letter(), entries[0].slot);
        let advice =
            format!("Give the type of the file that is meant, as --type {letter}, or its slot, as '{slot}'.");
        Failure::declined(self.about, words, advice).on(name).between(ls::array(entries))
    }

    /// The files that a pattern matches.
    fn matching(&self, pattern: &str) -> Result<Vec<Entry>, Failure> {
        let folded = file_name::folded(self.kind, pattern);
        let mut entries = self.all()?;
        entries.retain(|entry| matches(&folded, entry.name.trim_end()));
        if entries.is_empty() {
            let words = format!("no file{} has such a name", self.of_type());
            let advice = "List the disk to see its names, types and slots.";
            return Err(Failure::declined(self.about, words, advice).on(pattern));
        }
        Ok(entries)
    }

    /// The refusal of a name, with the type that was asked for.
    fn refused(&self, name: &str, refusal: Refusal) -> Failure {
        if refusal.number() == 10 {
            let words = format!("{}{}", refusal.words(), self.of_type());
            return Failure::refused_as(self.about, refusal, words).on(name);
        }
        file_name::refused(self.about, self.kind, name, refusal)
    }

    fn is_asked(&self, entry: &Entry) -> bool {
        self.asked.is_none_or(|file_type| entry.file_type == file_type)
    }

    fn told(&self, file_type: u8) -> String {
        file_type::told(self.kind, file_type)
    }

    /// The type that is asked for, in words; nothing where none is.
    fn of_type(&self) -> String {
        self.asked.map_or(String::new(), |file_type| format!(" of type {}", self.told(file_type)))
    }
}

/// Whether a pattern matches the whole of a name: `*` stands for any characters, `?` for one. Letters match in the
/// case that they are written in, so the pattern for an S1000 or S3000 disk is folded before.
pub fn matches(pattern: &str, name: &str) -> bool {
    let (pattern, name) = (pattern.as_bytes(), name.as_bytes());
    let (mut at, mut from) = (0, 0);
    let mut retry = None; // behind the last star, and how much of the name it took
    while from < name.len() {
        match pattern.get(at) {
            Some(b'*') => {
                retry = Some((at + 1, from));
                at += 1;
            }
            Some(&byte) if byte == b'?' || byte == name[from] => (at, from) = (at + 1, from + 1),
            _ => {
                let Some((behind, took)) = retry else { return false };
                retry = Some((behind, took + 1));
                (at, from) = (behind, took + 1);
            }
        }
    }
    pattern[at..].iter().all(|&byte| byte == b'*')
}
