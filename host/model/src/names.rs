//! Names and types (document 01, "The disk"; document 02, requests two and five). Callers give ASCII; S1000 and S3000 disks hold
//! AKAII, which has no small letters.

use crate::layout::Kind;

/// The AKAII characters: each stands at its code.
const AKAII: &[u8; 41] = b"0123456789 ABCDEFGHIJKLMNOPQRSTUVWXYZ#+-.";

/// The AKAII code of an ASCII character, if it has one: a to z have those of A to Z.
pub fn code_of(character: u8) -> Option<u8> {
    let capital = match character {
        b'a'..=b'z' => character - b'a' + b'A',
        _ => character,
    };
    AKAII.iter().position(|&each| each == capital).map(|code| code as u8)
}

/// The ASCII character of an AKAII code, if it is one.
pub fn character_of(code: u8) -> Option<u8> {
    AKAII.get(usize::from(code)).copied()
}

/// Bytes of a name.
pub fn name_length(kind: Kind) -> usize {
    match kind {
        Kind::S900 => 10,
        Kind::S1000 | Kind::S3000 => 12,
    }
}

/// The bytes of a slot's name area after the name.
fn padding(kind: Kind) -> &'static [u8] {
    match kind {
        Kind::S900 => &[0; 6],
        Kind::S1000 => &[32; 4],
        Kind::S3000 => &[0, 0, 0, 2],
    }
}

/// Whether a byte is one of printable ASCII, 32 to 126.
pub fn is_printable(byte: u8) -> bool {
    (32..=126).contains(&byte)
}

/// The sixteen bytes of a slot's name area for a name in ASCII, if the name is legal.
pub fn area_of(kind: Kind, name: &[u8]) -> Option<[u8; 16]> {
    if name.len() != name_length(kind) {
        return None;
    }
    let mut area = [0; 16];
    area[name.len()..].copy_from_slice(padding(kind));
    for (at, &character) in name.iter().enumerate() {
        area[at] = match kind {
            Kind::S900 => Some(character).filter(|&byte| is_printable(byte)),
            Kind::S1000 | Kind::S3000 => code_of(character),
        }?;
    }
    Some(area)
}

/// The name in ASCII that a slot's name area holds, if the area is well formed.
pub fn name_of(kind: Kind, area: &[u8]) -> Option<Vec<u8>> {
    let (name, rest) = area.split_at(name_length(kind));
    if rest != padding(kind) {
        return None;
    }
    let character = |&byte: &u8| match kind {
        Kind::S900 => Some(byte).filter(|&byte| is_printable(byte)),
        Kind::S1000 | Kind::S3000 => character_of(byte),
    };
    name.iter().map(character).collect()
}

/// A legal name as a disk keeps it: in capitals on S1000 and S3000 disks, as it is on S900 disks. Two spellings that are kept
/// alike are one name.
pub fn kept(kind: Kind, name: &[u8]) -> Option<Vec<u8>> {
    name_of(kind, &area_of(kind, name)?)
}

/// Whether a byte is a legal type: capitals on S900 disks, small letters on S1000 disks, capitals plus 128 on S3000 disks.
pub fn is_type(kind: Kind, byte: u8) -> bool {
    match kind {
        Kind::S900 => byte.is_ascii_uppercase(),
        Kind::S1000 => byte.is_ascii_lowercase(),
        Kind::S3000 => (193..=218).contains(&byte),
    }
}

#[cfg(test)]
mod tests {
    use super::*;

    /// There and back is the capital of a small letter, and every other character itself.
    #[test]
    fn every_byte_goes_there_and_back_or_has_no_code() {
        for byte in 0..=255 {
            let back = code_of(byte).map(|code| character_of(code).expect("a code"));
            let expected = match byte {
                b'a'..=b'z' => Some(byte - 32),
                b'0'..=b'9' | b' ' | b'A'..=b'Z' | b'#' | b'+' | b'-' | b'.' => Some(byte),
                _ => None,
            };
            assert_eq!(back, expected, "{byte}");
            assert_eq!(character_of(byte).and_then(code_of), (byte <= 40).then_some(byte), "{byte}");
        }
    }

    #[test]
    fn akaii_names_are_kept_in_capitals_and_s900_names_as_they_are() {
        let codes = b"\x0c\x0b\x1d\x1d\x0a\x0d\x02\x0a\x0a\x0a\x0a\x0a";
        for (kind, rest) in [(Kind::S1000, [32, 32, 32, 32]), (Kind::S3000, [0, 0, 0, 2])] {
            let area = [&codes[..], &rest].concat();
            for name in [b"Bass c2     ", b"BASS C2     ", b"bAsS C2     "] {
                assert_eq!(area_of(kind, name).map(Vec::from), Some(area.clone()));
                assert_eq!(kept(kind, name), Some(b"BASS C2     ".to_vec()));
            }
        }
        assert_eq!(kept(Kind::S900, b"Bass c2   "), Some(b"Bass c2   ".to_vec()));
        for around in [b'@', b'[', b'`', b'{'] {
            let mut name = *b"BASS C2     ";
            name[1] = around;
            assert_eq!([kept(Kind::S1000, &name), kept(Kind::S3000, &name)], [None, None]);
            assert_eq!(kept(Kind::S900, &name[..10]), Some(name[..10].to_vec()));
        }
    }

    /// An area is its own kind's alone, by the bytes after the name.
    #[test]
    fn paddings_are_the_kinds_own() {
        let areas = [(Kind::S1000, [32; 4]), (Kind::S3000, [0, 0, 0, 2])];
        for ((kind, rest), other) in areas.into_iter().zip([Kind::S3000, Kind::S1000]) {
            let mut area = [&[10; 12][..], &rest].concat();
            assert_eq!(name_of(kind, &area), Some(vec![b' '; 12]));
            assert_eq!(name_of(other, &area), None);
            for at in 12..16 {
                area[at] ^= 1;
                assert_eq!(name_of(kind, &area), None);
                area[at] ^= 1;
            }
        }
    }

    #[test]
    fn types_are_26_of_each_kind() {
        for (kind, first) in [(Kind::S900, b'A'), (Kind::S1000, b'a'), (Kind::S3000, b'A' + 128)] {
            for byte in 0..=255 {
                assert_eq!(is_type(kind, byte), (first..first + 26).contains(&byte), "{kind:?} {byte}");
            }
        }
    }
}
