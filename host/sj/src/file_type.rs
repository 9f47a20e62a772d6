//! Types of files as they are typed and told. On an S3000 disk a type is a capital with 128 added: it is told as that
//! capital, and in messages with its number, as S (211).

use crate::arguments::{Arguments, text};
use crate::failure::Failure;
use skilletjay::{Kind, Refusal};
use std::ops::RangeInclusive;

/// A type as it is typed.
#[derive(Clone, Copy, Debug, PartialEq, Eq)]
pub enum Typed {
    /// A character, whatever it is.
    Letter(u8),
    /// A byte by its number, which an S3000 disk alone takes.
    Number(u8),
}

impl Typed {
    /// What `--type` says, if it is given.
    pub fn asked(arguments: &Arguments) -> Result<Option<Typed>, Failure> {
        let word = arguments.value("--type").map(|word| text("type", word)).transpose()?;
        word.map(|word| Typed::of(&word)).transpose()
    }

    /// What a word says. One digit is a character, and no type of any disk.
    fn of(word: &str) -> Result<Typed, Failure> {
        let digits = word.bytes().all(|byte| byte.is_ascii_digit());
        match (word.as_bytes(), word.parse()) {
            (&[letter], _) => Ok(Typed::Letter(letter)),
            (_, Ok(number)) if digits => Ok(Typed::Number(number)),
            _ => Err(not_typed()),
        }
    }

    /// The byte that it is on a disk of a kind. What is no type there stays as it is, and the library refuses it.
    pub fn on(self, kind: Kind) -> Result<u8, Failure> {
        match (self, kind) {
            (Typed::Letter(letter), Kind::S3000) if letter.is_ascii_uppercase() => Ok(letter + 128),
            (Typed::Letter(byte), _) | (Typed::Number(byte), Kind::S3000) => Ok(byte),
            (Typed::Number(_), Kind::S900 | Kind::S1000) => Err(not_typed()),
        }
    }
}

fn not_typed() -> Failure {
    Failure::usage("the type is one letter; on an S3000 disk its number does too, as 211 for S")
}

/// The types that a kind of disk has.
pub fn legal(kind: Kind) -> RangeInclusive<u8> {
    match kind {
        Kind::S900 => b'A'..=b'Z',
        Kind::S1000 => b'a'..=b'z',
        Kind::S3000 => 193..=218,
    }
}

/// The type of samples.
pub fn of_samples(kind: Kind) -> u8 {
    match kind {
        Kind::S900 => b'S',
        Kind::S1000 => b's',
        Kind::S3000 => b'S' + 128,
    }
}

/// A type as messages tell it.
pub fn told(kind: Kind, file_type: u8) -> String {
    let letter = char::from(file_type & 127);
    match kind {
        Kind::S900 | Kind::S1000 => letter.to_string(),
        Kind::S3000 => format!("{letter} ({file_type})"),
    }
}

/// The refusal of a type, in the words of the disk's kind.
pub fn refused(about: &str, kind: Kind, file_type: u8, refusal: Refusal) -> Failure {
    Failure::refused_as(about, refusal, bad_type(kind, file_type).unwrap_or_default())
}

/// What is wrong with a type on a kind of disk, and the rule; None if it is legal.
pub fn bad_type(kind: Kind, file_type: u8) -> Option<String> {
    let rule = match kind {
        Kind::S900 => "an S900 type is one of A to Z",
        Kind::S1000 => "an S1000 type is one of a to z",
        Kind::S3000 => "an S3000 type is one of A (193) to Z (218)",
    };
    let character = char::from(file_type);
    let told = match kind {
        Kind::S900 | Kind::S1000 => format!("{character:?}"),
        Kind::S3000 if file_type.is_ascii_graphic() => format!("{character:?} ({file_type})"),
        Kind::S3000 => file_type.to_string(),
    };
    (!legal(kind).contains(&file_type)).then(|| format!("the type {told} isn't legal: {rule}"))
}

#[cfg(test)]
mod tests {
    use super::*;

    #[test]
    fn a_letter_is_a_byte_of_the_kind() {
        let on = |word: &str, kind| Typed::of(word).and_then(|typed| typed.on(kind)).ok();
        for (word, s900, s1000, s3000) in [
            ("S", Some(83), Some(83), Some(211)),
            ("s", Some(115), Some(115), Some(115)),
            ("5", Some(53), Some(53), Some(53)),
            ("211", None, None, Some(211)),
            ("83", None, None, Some(83)),
            ("256", None, None, None),
            ("+21", None, None, None),
            ("SS", None, None, None),
            ("\u{d3}", None, None, None),
            ("", None, None, None),
        ] {
            assert_eq!([on(word, Kind::S900), on(word, Kind::S1000)], [s900, s1000], "{word}");
            assert_eq!(on(word, Kind::S3000), s3000, "{word}");
        }
    }

    #[test]
    fn types_are_told_as_letters() {
        let told = |kind| told(kind, of_samples(kind));
        assert_eq!([told(Kind::S900), told(Kind::S1000), told(Kind::S3000)], ["S", "s", "S (211)"]);
        for kind in [Kind::S900, Kind::S1000, Kind::S3000] {
            assert!(legal(kind).len() == 26 && legal(kind).contains(&of_samples(kind)), "{kind}");
        }
    }

    #[test]
    fn illegal_types_are_told_with_their_rule() {
        assert!(bad_type(Kind::S900, b's').is_some_and(|words| words.contains("'s'")));
        assert_eq!((bad_type(Kind::S900, b'S'), bad_type(Kind::S1000, b's')), (None, None));
        assert_eq!([193, 211, 218].map(|byte| bad_type(Kind::S3000, byte)), [None, None, None]);
        let rule = "isn't legal: an S3000 type is one of A (193) to Z (218)";
        for (byte, told) in [(b'S', "'S' (83)"), (b's', "'s' (115)"), (192, "192"), (219, "219"), (7, "7")] {
            assert_eq!(bad_type(Kind::S3000, byte), Some(format!("the type {told} {rule}")));
        }
    }
}
