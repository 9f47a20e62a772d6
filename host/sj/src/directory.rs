//! Directory and map as an image has them, legal or not: what the library doesn't tell of an image that it refuses.

use crate::{akaii, file_type};
use skilletjay::{BLOCK, Checked, Density, Kind, Slot};
use std::collections::BTreeSet;

/// Bytes of a slot.
const SLOT: usize = 24;

/// Where the map begins, two bytes for each block: behind the 64 slots that every disk has there, used or not.
const MAP_AT: usize = SLOT * 64;

/// Where the slots begin that an S3000 disk uses.
const S3000_AT: usize = 5 * BLOCK;

/// Bytes of a slot that are its name's, with those after it.
const AREA: usize = 16;

/// A slot as it is written.
pub struct Written {
    kind: Kind,
    bytes: [u8; SLOT],
}

impl Written {
    /// A slot of an image that is as long as images are.
    pub fn at(kind: Kind, image: &[u8], slot: Slot) -> Written {
        let directory_at = match kind {
            Kind::S900 | Kind::S1000 => 0,
            Kind::S3000 => S3000_AT,
        };
        let mut bytes = [0; SLOT];
        bytes.copy_from_slice(&image[directory_at + SLOT * slot.0..][..SLOT]);
        Written { kind, bytes }
    }

    /// The name with its spaces. With anything illegal it is in quotes, and illegal bytes are told by their numbers;
    /// so are the bytes after a name where one of them isn't what it should be.
    pub fn name(&self) -> String {
        let (name, after) = self.bytes[..AREA].split_at(self.kind.name_length());
        let filler: &[u8] = match self.kind {
            Kind::S900 => &[0; 6],
            Kind::S1000 => &[32; 4],
            Kind::S3000 => &[0, 0, 0, 2],
        };
        let mut characters: Vec<Result<char, u8>> = name.iter().map(|&byte| self.character(byte)).collect();
        if after != filler {
            characters.extend(after.iter().map(|&byte| Err(byte)));
        }
        shown(&characters)
    }

    /// A byte of a name as the character that it is, if it is legal.
    fn character(&self, byte: u8) -> Result<char, u8> {
        let character = match self.kind {
            Kind::S900 => Some(char::from(byte)).filter(|character| matches!(character, ' '..='~')),
            Kind::S1000 | Kind::S3000 => akaii::character_of(byte),
        };
        character.ok_or(byte)
    }

    /// The type's letter. An illegal type is in quotes, and on an S3000 disk by its number, since a letter stands for
    /// another byte there.
    pub fn file_type(&self) -> String {
        let byte = self.type_byte();
        match (file_type::bad_type(self.kind, byte), self.kind) {
            (None, _) => char::from(byte & 127).to_string(),
            (Some(_), Kind::S900 | Kind::S1000) if byte.is_ascii_graphic() => {
                format!("{:?}", char::from(byte).to_string())
            }
            (Some(_), _) => shown(&[Err(byte)]),
        }
    }

    /// The type as it is stored.
    pub fn type_byte(&self) -> u8 {
        self.bytes[AREA]
    }

    /// The identity of an S3000's slot, if it is another than it should be. Those of other disks decide the kind, and are all
    /// right where there is one.
    pub fn bad_identity(&self) -> Option<String> {
        let [.., first, second] = self.bytes;
        (self.kind == Kind::S3000 && (first, second) != (0, 12)).then(|| format!("{first},{second}"))
    }

    /// The length of the content, which may be 0 or more than there is.
    pub fn length(&self) -> usize {
        self.bytes[17..20].iter().rev().fold(0, |high, &byte| 256 * high + usize::from(byte))
    }

    /// All of its bytes, two digits each.
    pub fn digits(&self) -> String {
        self.bytes.iter().map(|byte| format!("{byte:02x}")).collect()
    }
}

/// Characters as they may be printed: as they are if all are legal; else in quotes, with illegal bytes as in paths.
fn shown(characters: &[Result<char, u8>]) -> String {
    if let Ok(text) = characters.iter().copied().collect::<Result<String, u8>>() {
        return text;
    }
    let escaped = |character: &Result<char, u8>| match character {
        Ok(quote @ ('"' | '\\')) => format!("\\{quote}"),
        Ok(legal) => legal.to_string(),
        Err(byte) => format!("\\x{byte:02X}"),
    };
    format!("\"{}\"", characters.iter().map(escaped).collect::<String>())
}

/// The types of an accepted image's files, each once.
pub fn types(kind: Kind, image: &[u8]) -> BTreeSet<u8> {
    let all = (0..kind.slots()).map(|slot| Written::at(kind, image, Slot(slot)).type_byte());
    all.filter(|&byte| byte != 0).collect() // an empty slot's is 0
}

/// How many data blocks have 0 in the map and had another value before.
pub fn freed(checked: &Checked, before: &[u8], after: &[u8]) -> usize {
    let (first, blocks) = match (checked.kind, checked.density) {
        (Kind::S3000, _) => (17, 1600),
        (_, Density::Low) => (4, 800),
        (_, Density::High) => (5, 1600),
    };
    let is_free = |image: &[u8], block: usize| image[MAP_AT + 2 * block..][..2] == [0, 0];
    (first..blocks).filter(|&block| !is_free(before, block) && is_free(after, block)).count()
}

#[cfg(test)]
mod tests {
    use super::*;
    use model::layout::LAYOUTS;
    use model::maker::{self, Plan};
    use model::random::Random;
    use skilletjay::Image;

    /// Of an accepted image every slot reads as the library lists it.
    #[test]
    fn legal_slots_are_the_librarys() {
        let mut random = Random::new(11);
        for layout in LAYOUTS {
            let image = Image::new(maker::disk(layout, Plan { files: 40, free: 100 }, &mut random));
            let kind = image.check().expect("accepted").kind;
            let listed = image.entries().expect("accepted").into_iter().map(|entry| entry.file_type);
            assert_eq!(types(kind, image.bytes()), listed.collect());
            for entry in image.entries().expect("accepted") {
                let written = Written::at(kind, image.bytes(), entry.slot);
                let told = (written.name(), written.file_type(), written.length());
                let letter = entry.letter().to_string();
                assert_eq!(told, (entry.name, letter, entry.length));
                assert_eq!((written.type_byte(), written.bad_identity()), (entry.file_type, None));
            }
        }
    }

    #[test]
    fn illegal_bytes_are_told_by_their_numbers() {
        let s900 = |name: &[u8; 16], file_type| {
            let mut bytes = [0; SLOT];
            bytes[..AREA].copy_from_slice(name);
            bytes[AREA] = file_type;
            let written = Written { kind: Kind::S900, bytes };
            (written.name(), written.file_type())
        };
        let told = |name: &str, file_type: &str| (name.to_string(), file_type.to_string());
        assert_eq!(s900(b"A \"B\\     \0\0\0\0\0\0", b'S'), told("A \"B\\     ", "S"));
        assert_eq!(s900(b"A \"B\\\x07\xff   \0\0\0\0\0\0", b's'), told(r#""A \"B\\\x07\xFF   ""#, "\"s\""));
        assert_eq!(
            s900(b"A         \0\0\x01\0\0\0", 255),
            told(r#""A         \x00\x00\x01\x00\x00\x00""#, r#""\xFF""#)
        );
        let mut bytes = [10; SLOT];
        (bytes[0], bytes[1], bytes[AREA]) = (11, 41, b'S');
        bytes[17..20].copy_from_slice(&[1, 2, 3]);
        let written = Written { kind: Kind::S1000, bytes };
        assert_eq!(written.name(), r#""A\x29          \x0A\x0A\x0A\x0A""#);
        assert_eq!((written.file_type(), written.length()), ("\"S\"".to_string(), 1 + 512 + 3 * 65_536));
        assert!(written.digits().starts_with("0b290a") && written.digits().len() == 48);
    }

    #[test]
    fn slots_of_an_s3000_stand_at_block_5() {
        let mut image = vec![0; 1600 * BLOCK];
        let slot = [11, 10, 10, 10, 10, 10, 10, 10, 10, 10, 10, 10, 0, 0, 0, 2, 211, 1, 0, 0, 17, 0, 0, 12];
        image[5120 + 24 * 511..][..24].copy_from_slice(&slot);
        let told = |image: &[u8]| {
            let written = Written::at(Kind::S3000, image, Slot(511));
            (written.name(), written.file_type(), written.bad_identity())
        };
        assert_eq!(told(&image), ("A           ".into(), "S".into(), None));
        for (at, byte, name, file_type, identity) in [
            (16, b'S', "A           ", r#""\x53""#, None), // 83 is no S there
            (16, 219, "A           ", r#""\xDB""#, None),
            (15, 1, r#""A           \x00\x00\x00\x01""#, "S", None),
            (12, 32, r#""A           \x20\x00\x00\x02""#, "S", None),
            (0, 41, r#""\x29           ""#, "S", None),
            (23, 3, "A           ", "S", Some("0,3".to_string())),
            (22, 1, "A           ", "S", Some("1,12".to_string())),
        ] {
            let mut image = image.clone();
            image[5120 + 24 * 511 + at] = byte;
            assert_eq!(told(&image), (name.into(), file_type.into(), identity));
        }
    }

    /// System blocks are none that could be freed: an S3000's are 17.
    #[test]
    fn data_blocks_alone_are_freed() {
        let (before, after) = (vec![1; 1600 * BLOCK], vec![0; 1600 * BLOCK]);
        let freed = |kind, density| freed(&Checked { kind, density, files: 0, free: 0 }, &before, &after);
        assert_eq!([freed(Kind::S900, Density::Low), freed(Kind::S1000, Density::High)], [796, 1595]);
        assert_eq!(freed(Kind::S3000, Density::High), 1583);
    }
}
