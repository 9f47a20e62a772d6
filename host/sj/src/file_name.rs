//! Names of files as they are typed and told: padded, in the letters that a kind of disk has, and what is wrong with one.

use crate::failure::Failure;
use skilletjay::{Kind, Refusal};

/// A name as the disk has it. Spaces at its end are no part of what was meant, so that one too many is no other name.
pub fn padded(kind: Kind, name: &str) -> String {
    kind.padded(name.trim_end_matches(' '))
}

/// A name or a pattern in the letters that the kind has: an S1000's or S3000's are capitals, and small ones stand for
/// them.
pub fn folded(kind: Kind, word: &str) -> String {
    match kind {
        Kind::S900 => word.to_string(),
        Kind::S1000 | Kind::S3000 => word.to_ascii_uppercase(),
    }
}

/// A refusal about a name or a type, in the words of the disk's kind.
pub fn refused(about: &str, kind: Kind, name: &str, refusal: Refusal) -> Failure {
    match (refusal.number(), bad_character(kind, name)) {
        (11, Some(words)) => Failure::refused_as(about, refusal, words).on(name),
        _ => Failure::refused(about, refusal).on(name),
    }
}

/// What is wrong with a name on a kind of disk, and the rule; None if it is legal.
pub fn bad_character(kind: Kind, name: &str) -> Option<String> {
    let most = kind.name_length();
    let rule = match kind {
        Kind::S900 => "characters of ASCII, space to ~",
        Kind::S1000 | Kind::S3000 => "of 0-9, A-Z (small letters are taken as capitals), space and # + - .",
    };
    let rule = format!("an {kind} name has at most {most} {rule}");
    let legal = |character: &char| match kind {
        Kind::S900 => matches!(character, ' '..='~'),
        Kind::S1000 | Kind::S3000 => {
            character.is_ascii_alphanumeric() || matches!(character, ' ' | '#' | '+' | '-' | '.')
        }
    };
    let length = name.trim_end().chars().count();
    match name.chars().position(|character| !legal(&character)) {
        Some(at) => {
            let character = name.chars().nth(at).unwrap_or_default();
            Some(format!("the name's character {character:?} ({} of {length}) isn't legal: {rule}", at + 1))
        }
        None if length > most => Some(format!("the name has {length} characters: {rule}")),
        None => None,
    }
}

#[cfg(test)]
mod tests {
    use super::*;

    #[test]
    fn illegal_names_are_told_with_their_rule() {
        assert_eq!(bad_character(Kind::S900, "a/b"), None);
        assert_eq!(bad_character(Kind::S1000, "BASS C2"), None);
        assert_eq!(bad_character(Kind::S1000, "abcxyz 09#+-"), None);
        for around in ["@", "[", "`", "{", "\u{17f}"] {
            assert!(bad_character(Kind::S1000, around).is_some(), "{around}");
        }
        let words = bad_character(Kind::S1000, "A/B").expect("a slash");
        assert!(words.contains("'/' (2 of 3)") && words.contains("S1000"), "{words}");
        let words = bad_character(Kind::S900, "12345678901").expect("too long");
        assert!(words.contains("11 characters"), "{words}");
        let words = bad_character(Kind::S3000, "A/B").expect("a slash");
        assert!(
            words.contains("'/' (2 of 3)") && words.contains("an S3000 name has at most 12 of"),
            "{words}"
        );
        assert_eq!(bad_character(Kind::S3000, "abcxyz 09#+-"), None);
    }
}
