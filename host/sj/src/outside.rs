//! Names of a disk's files outside the disk.

use skilletjay::Entry;
use std::collections::HashSet;

/// A file's name outside the disk, without its ending: no separators, no hidden file.
fn stem(entry: &Entry) -> String {
    let safe = |character: char| if "/\\:*?\"<>|".contains(character) { '_' } else { character };
    let name: String = entry.name.trim_end().chars().map(safe).collect();
    let first = if name.is_empty() || name.starts_with('.') { "_" } else { "" };
    format!("{first}{name}")
}

/// The name and the type's letter.
pub fn file_name(entry: &Entry) -> String {
    format!("{}.{}", stem(entry), entry.letter())
}

/// The name of the WAV file that a sample is unpacked to.
pub fn wav_name(entry: &Entry) -> String {
    format!("{}.wav", stem(entry))
}

/// All files' names by one of these; one that would be another's, in any case of letters, gets its slot before it until
/// it is new.
pub fn distinct(entries: &[Entry], name: impl Fn(&Entry) -> String) -> Vec<String> {
    let mut taken = HashSet::new();
    let mut names = Vec::new();
    for entry in entries {
        let mut name = name(entry);
        while !taken.insert(name.to_lowercase()) {
            name = format!("{}-{name}", entry.slot.0);
        }
        names.push(name);
    }
    names
}

#[cfg(test)]
mod tests {
    use super::*;
    use skilletjay::Slot;

    fn entry(slot: usize, name: &str) -> Entry {
        Entry { slot: Slot(slot), name: name.into(), file_type: b'S', length: 1 }
    }

    #[test]
    fn names_are_safe_and_differ() {
        let entries =
            [entry(0, "a/b       "), entry(1, "A_B       "), entry(2, "..        "), entry(3, "          ")];
        assert_eq!(distinct(&entries, file_name), ["a_b.S", "1-A_B.S", "_...S", "_.S"]);
        assert_eq!(distinct(&entries[..2], wav_name), ["a_b.wav", "1-A_B.wav"]);
        assert_eq!(file_name(&Entry { file_type: 211, ..entry(0, "A           ") }), "A.S"); // an S3000's
    }

    /// A sample and its program: their types tell them apart, and a WAV file has none.
    #[test]
    fn one_name_in_two_types_is_two_files() {
        let entries = [entry(0, "PIANO     "), Entry { file_type: b'P', ..entry(1, "PIANO     ") }];
        assert_eq!(distinct(&entries, file_name), ["PIANO.S", "PIANO.P"]);
        assert_eq!(distinct(&entries, wav_name), ["PIANO.wav", "1-PIANO.wav"]);
    }

    #[test]
    fn a_name_with_its_slot_may_be_taken_too() {
        let entries = [entry(0, "2-A_B     "), entry(1, "a/b       "), entry(2, "A_B       ")];
        assert_eq!(distinct(&entries, file_name), ["2-A_B.S", "a_b.S", "2-2-A_B.S"]);
    }
}
