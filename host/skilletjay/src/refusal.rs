//! Why a call wasn't done.

use std::error::Error;
use std::fmt;

/// A refusal: a number, a place, and words for both. A refused call has changed nothing.
///
/// ```
/// let refusal = skilletjay::Image::new(vec![0; 819_199]).check().unwrap_err();
/// assert_eq!((refusal.number(), refusal.place()), (1, 0));
/// assert_eq!(refusal.to_string(), "the image is neither 819,200 nor 1,638,400 bytes long (refusal 1)");
/// ```
#[derive(Clone, Copy, Debug, PartialEq, Eq, Hash)]
pub struct Refusal {
    number: u32,
    place: usize,
}

/// What a refusal's place counts, all from 0.
#[derive(Clone, Copy, Debug, PartialEq, Eq, Hash)]
pub enum Place {
    /// Nothing: the place is 0.
    None,
    /// Slots of the directory.
    Slot,
    /// Blocks of the image.
    Block,
    /// Bytes of a sample or program file.
    Offset,
    /// Words of a sample.
    Word,
}

/// Number, what its place counts, what is wrong, what to do.
type Row = (u32, Place, &'static str, &'static str);

const ROWS: [Row; 21] = [
    (
        1,
        Place::None,
        "the image is neither 819,200 nor 1,638,400 bytes long",
        "Read the disk again, whole; a wrapped or compressed image has to be unwrapped first.",
    ),
    (
        2,
        Place::None,
        "the directory is of no known kind",
        "Give an image of an S900, S950 or S1000 disk: all 64 slots must have the identity of one kind. An S3000 disk, \
         whose byte 16 is 255, must be of high density.",
    ),
    (
        3,
        Place::Block,
        "a system block isn't marked as one in the map",
        "The map is damaged or this is no S1000 or S3000 disk; read the disk again, or salvage what is sound.",
    ),
    (
        4,
        Place::Slot,
        "a slot of the directory is malformed",
        "The slot's name, type or length, or on an S3000 disk its identity, is damaged; read the disk again, or salvage \
         what is sound.",
    ),
    (
        5,
        Place::Slot,
        "a name stands twice within one type",
        "Rename or remove one of the two files on the sampler and read the disk again, or salvage what is sound.",
    ),
    (
        6,
        Place::Slot,
        "a file's chain of blocks leaves the data area",
        "The map or the slot is damaged; read the disk again, or salvage what is sound.",
    ),
    (
        7,
        Place::Slot,
        "a file's chain of blocks is shorter or longer than the file",
        "The map or the slot is damaged; read the disk again, or salvage what is sound.",
    ),
    (
        8,
        Place::Slot,
        "a file shares a block with a file in a lower slot",
        "One of the two files is damaged; remove the wrong one on the sampler and read the disk again, or salvage what \
         is sound.",
    ),
    (
        9,
        Place::Block,
        "a block is marked as used but belongs to no file",
        "A file was lost from the directory or the map is damaged; read the disk again, or salvage what is sound.",
    ),
    (10, Place::None, "there is no such file", "List the disk to see its names, types and slots."),
    (
        11,
        Place::None,
        "the name or the type isn't legal on this disk",
        "Give an S900 disk 10 characters of ASCII and a type A to Z; give an S1000 disk 12 of 0-9, letters (kept as \
         capitals), space and # + - . and a type a to z, and an S3000 disk such a name and a type A \
         (193) to Z (218).",
    ),
    (
        12,
        Place::Slot,
        "a file of that type already has the name",
        "Take another name, or remove the file that has it first; on an S1000 or S3000 disk small letters and capitals \
         don't tell names apart.",
    ),
    (13, Place::None, "the content is empty", "Give a content of at least one byte."),
    (14, Place::None, "all slots are used", "Remove a file first, or take another disk."),
    (
        15,
        Place::None,
        "the content needs more blocks than are free",
        "Remove files first, or take another disk.",
    ),
    (
        16,
        Place::None,
        "the content is over 16,777,215 bytes",
        "Cut the content into files that a disk holds, of 1,595 blocks at most.",
    ),
    (
        17,
        Place::None,
        "the offset is above the file's length",
        "Page from 0 up to the length that the list gives.",
    ),
    (
        18,
        Place::Offset,
        "the sample's header or length is refused",
        "Mend the header at that offset, or take another sample's. At the number of words (16 on an S900, 26 on an \
         S1000) give a length that fits it, and an even number on an S900. At 0 give a whole header.",
    ),
    (
        19,
        Place::Word,
        "a word is outside -2,048 to 2,047",
        "S900 samples have 12 bits a word; make the sample quieter or use an S1000 header.",
    ),
    (
        20,
        Place::Offset,
        "the program file is refused",
        "Set the row at that offset to a value of its range. At 42 give 1 to 99 keygroups, of 150 bytes each after \
         a header of 150. At 0 give a whole header.",
    ),
    (21, Place::None, "the output is shorter than what is due", "Lend a longer output."),
];

const UNKNOWN: Row = (
    0,
    Place::None,
    "the library gave a number that this binding doesn't know",
    "Build library and binding from the same source.",
);

impl Refusal {
    /// The refusal that a C result tells, or None if the call was done.
    pub(crate) fn told(number: u32, place: usize) -> Option<Refusal> {
        if number == 0 { None } else { Some(Refusal { number, place }) }
    }

    /// A C result as Rust has it: what the call gave, or the refusal.
    pub(crate) fn or<T>(number: u32, place: usize, given: T) -> Result<T, Refusal> {
        Refusal::told(number, place).map_or(Ok(given), Err)
    }

    /// Every refusal there is, each at place 0.
    pub fn all() -> impl Iterator<Item = Refusal> {
        ROWS.iter().map(|row| Refusal { number: row.0, place: 0 })
    }

    fn row(&self) -> &'static Row {
        ROWS.iter().find(|row| row.0 == self.number).unwrap_or(&UNKNOWN)
    }

    /// The number, 1 to 21.
    pub fn number(&self) -> u32 {
        self.number
    }

    /// The place; [`Refusal::counts`] says of what.
    pub fn place(&self) -> usize {
        self.place
    }

    /// What the place counts.
    pub fn counts(&self) -> Place {
        self.row().1
    }

    /// What is wrong, as a sentence without its full stop.
    pub fn words(&self) -> &'static str {
        self.row().2
    }

    /// What to do about it.
    pub fn advice(&self) -> &'static str {
        self.row().3
    }
}

impl fmt::Display for Refusal {
    fn fmt(&self, to: &mut fmt::Formatter<'_>) -> fmt::Result {
        write!(to, "{} (refusal {}", self.words(), self.number)?;
        match self.counts() {
            Place::None => write!(to, ")"),
            counted => write!(to, ", {counted} {})", self.place),
        }
    }
}

impl Error for Refusal {}

impl fmt::Display for Place {
    fn fmt(&self, to: &mut fmt::Formatter<'_>) -> fmt::Result {
        to.write_str(match self {
            Place::None => "none",
            Place::Slot => "slot",
            Place::Block => "block",
            Place::Offset => "offset",
            Place::Word => "word",
        })
    }
}

#[cfg(test)]
mod tests {
    use super::*;

    #[test]
    fn every_number_has_its_words() {
        let numbers: Vec<u32> = Refusal::all().map(|refusal| refusal.number()).collect();
        assert_eq!(numbers, (1..=21).collect::<Vec<u32>>());
        for refusal in Refusal::all() {
            assert!(!refusal.words().ends_with('.') && refusal.advice().ends_with('.'), "{refusal}");
        }
    }

    /// An advice is something to do: one of its clauses begins with a verb.
    #[test]
    fn every_advice_says_what_to_do() {
        let verbs: Vec<&str> =
            "read rename remove list give take cut page mend make set lend".split(' ').collect();
        for refusal in Refusal::all() {
            let advice = refusal.advice().to_lowercase();
            let mut first = advice.split(['.', ';']).filter_map(|clause| clause.split_whitespace().next());
            assert!(first.any(|word| verbs.contains(&word)), "{refusal}: {advice}");
        }
    }

    #[test]
    fn places_are_told_where_they_count() {
        let told = |number, place| Refusal { number, place }.to_string();
        assert!(told(7, 3).ends_with("(refusal 7, slot 3)"));
        assert!(told(9, 44).ends_with("(refusal 9, block 44)"));
        assert!(told(15, 0).ends_with("(refusal 15)"));
        assert!(told(99, 0).contains("doesn't know"));
    }
}
