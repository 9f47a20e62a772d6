//! An image and the calls on it.

use crate::download::Download;
use crate::{Refusal, Salvaged, lend};
use std::fmt;

/// Bytes of a block.
pub const BLOCK: usize = 1024;
/// No directory has more slots; see [`Kind::slots`].
pub const MOST_SLOTS: usize = 512;
/// Directory and map lie in so many bytes of any image: all that is read but for a file's content.
pub const HEAD: usize = 17 * BLOCK;

/// Whose disk it is.
#[derive(Clone, Copy, Debug, PartialEq, Eq, Hash)]
pub enum Kind {
    /// S900 and S950.
    S900,
    /// S1000.
    S1000,
    /// S3000, of high density alone.
    S3000,
}

impl Kind {
    /// Bytes of a name.
    pub fn name_length(self) -> usize {
        match self {
            Kind::S900 => 10,
            Kind::S1000 | Kind::S3000 => 12,
        }
    }

    /// Slots of the directory.
    pub fn slots(self) -> usize {
        match self {
            Kind::S900 | Kind::S1000 => 64,
            Kind::S3000 => MOST_SLOTS,
        }
    }

    /// A name padded with spaces to the kind's length. A longer one stays, and calls refuse it by 11. Letters stay as they
    /// are typed; the calls take small ones for capitals on an S1000 or S3000 disk.
    ///
    /// ```
    /// assert_eq!(skilletjay::Kind::S900.padded("BASS"), "BASS      ");
    /// ```
    pub fn padded(self, name: &str) -> String {
        format!("{name:width$}", width = self.name_length())
    }
}

impl fmt::Display for Kind {
    fn fmt(&self, to: &mut fmt::Formatter<'_>) -> fmt::Result {
        to.pad(match self {
            Kind::S900 => "S900",
            Kind::S1000 => "S1000",
            Kind::S3000 => "S3000",
        })
    }
}

/// How many blocks an image has.
#[derive(Clone, Copy, Debug, PartialEq, Eq, Hash)]
pub enum Density {
    /// 800 blocks.
    Low,
    /// 1,600 blocks.
    High,
}

impl fmt::Display for Density {
    fn fmt(&self, to: &mut fmt::Formatter<'_>) -> fmt::Result {
        to.pad(match self {
            Density::Low => "low",
            Density::High => "high",
        })
    }
}

/// What an accepted check gives.
#[derive(Clone, Copy, Debug, PartialEq, Eq)]
pub struct Checked {
    /// Whose disk it is.
    pub kind: Kind,
    /// How many blocks it has.
    pub density: Density,
    /// Used slots.
    pub files: usize,
    /// Free blocks.
    pub free: usize,
}

/// A slot of the directory, by its number from 0.
#[derive(Clone, Copy, Debug, PartialEq, Eq, PartialOrd, Ord, Hash)]
pub struct Slot(pub usize);

impl fmt::Display for Slot {
    fn fmt(&self, to: &mut fmt::Formatter<'_>) -> fmt::Result {
        write!(to, "#{}", self.0)
    }
}

/// What a used slot holds.
#[derive(Clone, Debug, PartialEq, Eq)]
pub struct Entry {
    /// The slot.
    pub slot: Slot,
    /// The name with its spaces, 10 characters (S900) or 12, with letters in capitals (S1000, S3000).
    pub name: String,
    /// The type byte: A to Z (S900), a to z (S1000) or 193 to 218 (S3000).
    pub file_type: u8,
    /// Bytes of the content.
    pub length: usize,
}

impl Entry {
    /// The type's letter: an S3000's type is a capital with 128 added, any other the letter itself.
    ///
    /// ```
    /// # use skilletjay::{Entry, Slot};
    /// # let entry = |file_type| Entry { slot: Slot(0), name: String::new(), file_type, length: 1 };
    /// assert_eq!([b'S', b's', 211].map(|file_type| entry(file_type).letter()), ['S', 's', 'S']);
    /// ```
    pub fn letter(&self) -> char {
        char::from(self.file_type & 127)
    }
}

/// What a page gives.
#[derive(Clone, Copy, Debug, PartialEq, Eq)]
pub struct Paged {
    /// Bytes written to the output's front.
    pub count: usize,
    /// Whether the file ends with them.
    pub end: bool,
}

/// An image: bytes that may or may not be a disk. `B` is `Vec<u8>`, `&[u8]` or `&mut [u8]`.
#[derive(Clone, Debug, PartialEq, Eq)]
pub struct Image<B = Vec<u8>> {
    bytes: B,
}

impl<B: AsRef<[u8]>> Image<B> {
    /// An image of any bytes.
    pub fn new(bytes: B) -> Image<B> {
        Image { bytes }
    }

    /// The bytes.
    pub fn bytes(&self) -> &[u8] {
        self.bytes.as_ref()
    }

    /// The bytes, given back.
    pub fn into_bytes(self) -> B {
        self.bytes
    }

    /// Whether the image is accepted: refusals 1 to 9.
    pub fn check(&self) -> Result<Checked, Refusal> {
        let told = lend::check(self.bytes());
        let kind = match told.kind {
            900 => Kind::S900,
            1000 => Kind::S1000,
            _ => Kind::S3000,
        };
        let density = if told.density == 0 { Density::Low } else { Density::High };
        Refusal::or(told.refusal, told.place, Checked { kind, density, files: told.files, free: told.free })
    }

    /// What a slot holds: 10 if it is empty or there is no such slot.
    pub fn list(&self, slot: Slot) -> Result<Entry, Refusal> {
        let told = lend::list(self.bytes(), slot.0);
        let name = told.name.iter().filter(|&&byte| byte != 0).map(|&byte| char::from(byte)).collect();
        let entry = Entry { slot, name, file_type: told.file_type, length: told.length };
        Refusal::or(told.refusal, told.place, entry)
    }

    /// All used slots, rising.
    ///
    /// ```
    /// # use skilletjay::{Image, Slot};
    /// let mut image = Image::new(vec![0; 1_638_400]);
    /// image.put("KICK      ", b'S', &[1; 3000])?;
    /// image.put("KIT       ", b'P', &[2; 60])?;
    /// let names: Vec<String> = image.entries()?.into_iter().map(|entry| entry.name).collect();
    /// assert_eq!(names, ["KICK      ", "KIT       "]);
    /// # Ok::<(), skilletjay::Refusal>(())
    /// ```
    pub fn entries(&self) -> Result<Vec<Entry>, Refusal> {
        let Checked { kind, files, .. } = self.check()?;
        Ok((0..kind.slots()).filter_map(|slot| self.list(Slot(slot)).ok()).take(files).collect())
    }

    /// The slot of the file with a name, in ASCII with its spaces, and a type, the byte itself: 11, 10. A file is known by
    /// both: a program may have its sample's name. On an S1000 or S3000 disk small letters of a name are taken as
    /// capitals, here and in [`put`](Image::put) and [`remove`](Image::remove); S900 names keep their case.
    ///
    /// ```
    /// # use skilletjay::{Image, Slot};
    /// let mut image = Image::new(vec![0; 819_200]);
    /// image.put("PIANO     ", b'S', &[1; 3000])?;
    /// image.put("PIANO     ", b'P', &[2; 60])?;
    /// assert_eq!(image.find("PIANO     ", b'P'), Ok(Slot(1)));
    /// # Ok::<(), skilletjay::Refusal>(())
    /// ```
    pub fn find(&self, name: impl AsRef<[u8]>, file_type: u8) -> Result<Slot, Refusal> {
        let told = lend::find(self.bytes(), name.as_ref(), file_type);
        Refusal::or(told.refusal, told.place, Slot(told.slot))
    }

    /// Copies a file's bytes from an offset on to the output's front; the output's other bytes are kept: 10, 17.
    pub fn page(&self, slot: Slot, offset: usize, output: &mut [u8]) -> Result<Paged, Refusal> {
        let told = lend::page(self.bytes(), slot.0, offset, output);
        Refusal::or(told.refusal, told.place, Paged { count: told.count, end: told.end != 0 })
    }

    /// The blocks that hold a file, in the file's order: 10.
    ///
    /// For images that are kept elsewhere and dear to fetch. Of such an image lend its length, its first [`HEAD`]
    /// bytes and zeros for the rest: check, list, find and this call answer as on the whole image. With the blocks
    /// that this call gives fetched too, [`BLOCK`] bytes each at [`BLOCK`] times its number, so do the file's pages.
    ///
    /// ```
    /// # use skilletjay::{BLOCK, HEAD, Image};
    /// # let mut image = Image::new(vec![0; 819_200]);
    /// # let slot = image.put("LONG      ", b'S', &[7; 5000])?;
    /// # let elsewhere = image.into_bytes();
    /// let mut bytes = vec![0; elsewhere.len()];
    /// bytes[..HEAD].copy_from_slice(&elsewhere[..HEAD]);
    /// for block in Image::new(&bytes).blocks(slot)? {
    ///     let at = BLOCK * usize::from(block);
    ///     bytes[at..at + BLOCK].copy_from_slice(&elsewhere[at..at + BLOCK]);
    /// }
    /// assert_eq!(Image::new(&bytes).read(slot)?, [7; 5000]);
    /// # Ok::<(), skilletjay::Refusal>(())
    /// ```
    pub fn blocks(&self, slot: Slot) -> Result<Vec<u16>, Refusal> {
        // This much room is never refused by 21 (`room_enough` in locate/specs/Enough.antt).
        let mut blocks = vec![0; self.bytes().len() / BLOCK];
        let told = lend::blocks(self.bytes(), slot.0, &mut blocks);
        blocks.truncate(told.count);
        Refusal::or(told.refusal, told.place, blocks)
    }

    /// A file's pages from its beginning to its end.
    pub fn download(&self, slot: Slot) -> Download<'_> {
        Download::new(self.bytes(), slot)
    }

    /// A file's whole content.
    pub fn read(&self, slot: Slot) -> Result<Vec<u8>, Refusal> {
        // No file is as long as its image. One page is one check, and zeros that stay untouched cost no memory.
        let mut content = vec![0; self.bytes().len()];
        let paged = self.page(slot, 0, &mut content)?;
        debug_assert!(paged.end, "a page with room for the whole image reaches the file's end");
        content.truncate(paged.count);
        content.shrink_to_fit();
        Ok(content)
    }
}

impl<B: AsRef<[u8]> + AsMut<[u8]>> Image<B> {
    /// Puts a file into the lowest empty slot: 11, 13, 12, 14, 15, 16. It is refused by 12 where a file has that name and
    /// that type; one of another type is no hindrance. On an S1000 or S3000 disk the name is kept in capitals, so two
    /// spellings of it are one. The type is the byte itself; on an S3000 disk `b'S'` is refused by 11, and `b'S' + 128`
    /// is a sample's.
    pub fn put(&mut self, name: impl AsRef<[u8]>, file_type: u8, content: &[u8]) -> Result<Slot, Refusal> {
        let told = lend::put(self.bytes.as_mut(), name.as_ref(), file_type, content);
        Refusal::or(told.refusal, told.place, Slot(told.slot))
    }

    /// Removes the file with a name and a type: 11, 10. Another of that name stays.
    pub fn remove(&mut self, name: impl AsRef<[u8]>, file_type: u8) -> Result<(), Refusal> {
        let told = lend::remove(self.bytes.as_mut(), name.as_ref(), file_type);
        Refusal::or(told.refusal, told.place, ())
    }

    /// Mends the image and says slot by slot what is lost: 1, 2, and no other. A slot is dropped that is malformed, or has
    /// the name and type of a kept lower slot, a chain at fault, or a block of a kept chain; map values that no kept file
    /// needs become those of free blocks. No content changes. Afterwards the image is accepted, and an accepted one
    /// comes back as it was.
    ///
    /// ```
    /// # use skilletjay::{Fate, Image, Slot};
    /// # let mut image = Image::new(vec![0; 819_200]);
    /// # image.put("KICK      ", b'S', &[1; 3000])?;
    /// # image.put("SNARE     ", b'S', &[2; 3000])?;
    /// # let mut bytes = image.into_bytes();
    /// # bytes[1536 + 2 * 8] = 1; // a link to a system block
    /// # let mut image = Image::new(bytes);
    /// let refusal = image.check().unwrap_err(); // the chain of SNARE, in slot 1, leaves the data area
    /// let salvaged = image.salvage()?;
    /// assert_eq!(salvaged.slots[..3], [Fate::Kept, Fate::Dropped(refusal), Fate::Empty]);
    /// assert_eq!(salvaged.map_values, 3); // its blocks are free
    /// assert_eq!(image.check()?.files, 1);
    /// assert_eq!(image.read(Slot(0))?, [1; 3000]);
    /// # Ok::<(), skilletjay::Refusal>(())
    /// ```
    pub fn salvage(&mut self) -> Result<Salvaged, Refusal> {
        let mut report = [0; MOST_SLOTS]; // long enough for every kind: never refused by 21
        let told = lend::salvage(self.bytes.as_mut(), &mut report);
        Refusal::or(told.refusal, told.place, ())?;
        let slots = self.check()?.kind.slots(); // it is accepted now
        Ok(Salvaged::of(&report[..slots], told.count))
    }
}

#[cfg(test)]
mod tests {
    use super::*;

    fn number<T>(answer: Result<T, Refusal>) -> Option<u32> {
        answer.err().map(|refusal| refusal.number())
    }

    #[test]
    fn owned_and_borrowed_images_answer_alike() {
        let mut bytes = vec![0; 819_200];
        Image::new(&mut bytes[..]).put("A         ", b'S', b"xyz").expect("room");
        let borrowed = Image::new(&bytes[..]);
        let expected = Checked { kind: Kind::S900, density: Density::Low, files: 1, free: 795 };
        assert_eq!(borrowed.check(), Ok(expected));
        assert_eq!(borrowed.read(Slot(0)), Ok(b"xyz".to_vec()));
        assert_eq!(Image::new(bytes).check(), Ok(expected));
    }

    #[test]
    fn arguments_are_refused() {
        let mut image = Image::new(vec![0; 819_200]);
        assert_eq!(number(image.find("", b'S')), Some(11));
        assert_eq!(number(image.find("NOT HERE  ", b'S')), Some(10));
        assert_eq!(number(image.put("A         ", b's', b"x")), Some(11));
        assert_eq!(number(image.put("A         ", b'S', b"")), Some(13));
        assert_eq!(number(image.put("A         ", b'S', &[0; 820_000])), Some(15));
        assert_eq!(number(image.list(Slot(usize::MAX))), Some(10));
        assert_eq!(number(image.remove("A         ", b'S')), Some(10));
        assert_eq!(image.into_bytes(), vec![0; 819_200]);
        assert_eq!(number(Image::new([]).check()), Some(1));
    }

    /// A disk of a kind and a density without files.
    fn blank(kind: Kind, density: Density) -> Image {
        let (blocks, system) = if density == Density::Low { (800, 4) } else { (1600, 5) };
        let mut bytes = vec![0; blocks * BLOCK];
        let system = match kind {
            Kind::S900 => 0,
            Kind::S1000 => system,
            Kind::S3000 => 17,
        };
        (0..system).for_each(|block| bytes[1536 + 2 * block + 1] = 64);
        match kind {
            Kind::S900 => {}
            Kind::S1000 => (0..64).for_each(|slot| bytes[24 * slot + 23] = 3),
            Kind::S3000 => bytes[16] = 255,
        }
        Image::new(bytes)
    }

    #[test]
    fn every_kind_is_told_with_its_slots() {
        let low = [(Kind::S900, Density::Low, 796, 64), (Kind::S1000, Density::Low, 796, 64)];
        let high = [(Kind::S900, Density::High, 1595, 64), (Kind::S1000, Density::High, 1595, 64)];
        let all = [&low[..], &high, &[(Kind::S3000, Density::High, 1583, 512)]].concat();
        for (kind, density, free, slots) in all {
            let image = blank(kind, density);
            assert_eq!(image.check(), Ok(Checked { kind, density, files: 0, free }));
            assert_eq!((kind.slots(), number(image.list(Slot(slots)))), (slots, Some(10)));
        }
        assert_eq!(number(blank(Kind::S3000, Density::Low).check()), Some(2));
    }

    /// Byte 16 comes before the identities; of the first directory nothing else is read.
    #[test]
    fn an_s3000_disk_is_known_by_one_byte() {
        let mut bytes = blank(Kind::S3000, Density::High).into_bytes();
        (0..64).for_each(|slot| bytes[24 * slot + 23] = 3);
        bytes[24..1536].iter_mut().step_by(24).for_each(|byte| *byte = 7);
        assert_eq!(Image::new(&bytes).check().map(|checked| checked.kind), Ok(Kind::S3000));
        bytes[16] = 254;
        assert_eq!(number(Image::new(&bytes).check()), Some(4));
        let mut bytes = vec![0; 819_200];
        bytes[16] = 255; // all identities are an S900's
        assert_eq!(number(Image::new(&bytes).check()), Some(2));
        let mut bytes = blank(Kind::S3000, Density::High).into_bytes();
        bytes[1536 + 2 * 16 + 1] = 0;
        let refusal = Image::new(&bytes).check().expect_err("a system block");
        assert_eq!((refusal.number(), refusal.place()), (3, 16));
    }

    #[test]
    fn an_s3000_file_there_and_back() {
        let mut image = blank(Kind::S3000, Density::High);
        let padded = |name: &str| Kind::S3000.padded(name);
        for wrong in [b'S', b's', 0, 192, 219, 255] {
            assert_eq!(number(image.put(padded("A"), wrong, b"x")), Some(11), "{wrong}");
        }
        let slot = image.put(padded("Bass c2"), 211, &[7; 1025]).expect("room");
        let entry = image.list(slot).expect("there");
        assert_eq!((entry.name.as_str(), entry.file_type, entry.letter()), ("BASS C2     ", 211, 'S'));
        let mut stored = [10; 24];
        stored[..7].copy_from_slice(&[12, 11, 29, 29, 10, 13, 2]);
        stored[12..].copy_from_slice(&[0, 0, 0, 2, 211, 1, 4, 0, 17, 0, 0, 12]);
        assert_eq!(image.bytes()[5120..5144], stored);
        assert_eq!((image.find(padded("bass C2"), 211), image.blocks(slot)), (Ok(slot), Ok(vec![17, 18])));
        assert_eq!(image.read(slot), Ok(vec![7; 1025]));
        assert_eq!(number(image.put(padded("BASS c2"), 211, b"x")), Some(12));
        assert_eq!(image.remove(padded("bass c2"), 211), Ok(()));
        assert_eq!(image.bytes()[5120..5144], [[0; 22].as_slice(), &[0, 12]].concat());
    }

    #[test]
    fn an_s3000_disk_has_512_slots() {
        let mut image = blank(Kind::S3000, Density::High);
        for slot in 0..512 {
            assert_eq!(image.put(format!("N {slot:<10}"), 208, &[1]), Ok(Slot(slot)));
        }
        assert_eq!(number(image.put(Kind::S3000.padded("ONE MORE"), 208, &[1])), Some(14));
        assert_eq!(image.check().map(|checked| (checked.files, checked.free)), Ok((512, 1071)));
        let entries = image.entries().expect("accepted");
        assert_eq!((entries.len(), entries[511].name.as_str()), (512, "N 511       "));
        assert_eq!(
            (image.find("n 511       ", 208), number(image.list(Slot(512)))),
            (Ok(Slot(511)), Some(10))
        );
    }

    #[test]
    fn small_letters_are_capitals_on_an_s1000_disk() {
        for density in [Density::Low, Density::High] {
            let mut image = blank(Kind::S1000, density);
            let padded = |name: &str| Kind::S1000.padded(name);
            let slot = image.put(padded("Bass c2"), b's', b"x").expect("room");
            assert_eq!(image.list(slot).expect("there").name, "BASS C2     ");
            assert_eq!(image.bytes()[..12], [12, 11, 29, 29, 10, 13, 2, 10, 10, 10, 10, 10]);
            for name in ["BASS C2", "bass c2", "bAsS C2"] {
                assert_eq!(image.find(padded(name), b's'), Ok(slot));
            }
            let before = image.clone();
            let refusal = image.put(padded("bAsS C2"), b's', b"y").expect_err("one name");
            assert_eq!((refusal.number(), refusal.place()), (12, slot.0));
            assert_eq!(number(image.find(padded("bass`c2"), b's')), Some(11));
            assert_eq!(image, before);
            assert_eq!(image.remove(padded("BaSs C2"), b's'), Ok(()));
            assert_eq!(image.check().expect("accepted").files, 0);
        }
    }

    #[test]
    fn s900_names_keep_their_case() {
        for density in [Density::Low, Density::High] {
            let mut image = blank(Kind::S900, density);
            let padded = |name: &str| Kind::S900.padded(name);
            let slots = ["Bass", "BASS"].map(|name| image.put(padded(name), b'S', name.as_bytes()));
            assert_eq!(slots, [Ok(Slot(0)), Ok(Slot(1))]);
            assert_eq!(image.list(Slot(0)).expect("there").name, "Bass      ");
            let find = |image: &Image, name| image.find(padded(name), b'S');
            assert_eq!((find(&image, "BASS"), number(find(&image, "bass"))), (Ok(Slot(1)), Some(10)));
            assert_eq!(image.remove(padded("Bass"), b'S'), Ok(()));
            assert_eq!((number(find(&image, "Bass")), find(&image, "BASS")), (Some(10), Ok(Slot(1))));
        }
    }

    /// Every kind of disk, with the types of a sample and a program there, and one that isn't legal.
    const TYPES: [(Kind, Density, [u8; 3]); 5] = [
        (Kind::S900, Density::Low, *b"SPs"),
        (Kind::S900, Density::High, *b"SPs"),
        (Kind::S1000, Density::Low, *b"spS"),
        (Kind::S1000, Density::High, *b"spS"),
        (Kind::S3000, Density::High, [211, 208, b'S']),
    ];

    #[test]
    fn a_program_may_share_its_samples_name() {
        for (kind, density, [sample, program, _]) in TYPES {
            let (mut image, name) = (blank(kind, density), kind.padded("PIANO"));
            assert_eq!(image.put(&name, sample, &[1; 1025]), Ok(Slot(0)));
            assert_eq!(image.put(&name, program, &[2; 3]), Ok(Slot(1)));
            assert_eq!(image.check().map(|checked| checked.files), Ok(2));
            assert_eq!([sample, program].map(|byte| image.find(&name, byte)), [Ok(Slot(0)), Ok(Slot(1))]);
            for (byte, slot) in [(sample, 0), (program, 1)] {
                let refusal = image.put(&name, byte, b"x").expect_err("name and type are taken");
                assert_eq!((refusal.number(), refusal.place()), (12, slot));
            }
            assert_eq!(image.remove(&name, sample), Ok(()));
            assert_eq!((number(image.find(&name, sample)), image.read(Slot(1))), (Some(10), Ok(vec![2; 3])));
            assert_eq!(number(image.remove(&name, sample)), Some(10));
            assert_eq!((image.put(&name, sample, b"x"), image.remove(&name, program)), (Ok(Slot(0)), Ok(())));
            assert_eq!(image.read(Slot(0)), Ok(b"x".to_vec()));
        }
    }

    /// 11 comes before 10, for the type as for the name; neither is asked of an image that is refused.
    #[test]
    fn an_illegal_type_is_no_type_to_find() {
        for (kind, density, [sample, _, illegal]) in TYPES {
            let (mut image, name) = (blank(kind, density), kind.padded("PIANO"));
            image.put(&name, sample, b"x").expect("room");
            for name in [name.clone(), kind.padded("NOT HERE")] {
                for byte in [illegal, 0, 255] {
                    let answers = (number(image.find(&name, byte)), number(image.remove(&name, byte)));
                    assert_eq!(answers, (Some(11), Some(11)), "{kind} {byte}");
                }
            }
            assert_eq!((number(image.find("", sample)), image.find(&name, sample)), (Some(11), Ok(Slot(0))));
        }
        assert_eq!(number(Image::new([]).find("", 0)), Some(1));
    }

    #[test]
    fn a_name_may_lie_in_the_image() {
        let mut image = Image::new(vec![0; 819_200]);
        image.put("A         ", b'S', b"x").expect("room");
        assert_eq!(image.find(&image.bytes()[..10], b'S'), Ok(Slot(0)));
    }

    #[test]
    fn blocks_are_those_of_the_chain() {
        let mut image = Image::new(vec![0; 819_200]);
        for (name, length) in [("A         ", 2048), ("B         ", 1), ("C         ", 1024)] {
            image.put(name, b'S', &vec![1; length]).expect("room");
        }
        image.remove("B         ", b'S').expect("there");
        let slot = image.put("D         ", b'S', &[2; 1025]).expect("room");
        assert_eq!(image.blocks(slot), Ok(vec![6, 8])); // over the gap that B left
        assert_eq!(image.blocks(Slot(0)), Ok(vec![4, 5]));
        assert_eq!(number(image.blocks(Slot(3))), Some(10));
        assert_eq!(number(image.blocks(Slot(usize::MAX))), Some(10));
        let whole = image.put("WHOLE     ", b'S', &vec![3; 791 * BLOCK]).expect("room");
        assert_eq!(image.blocks(whole), Ok((9..800).collect()));
        assert_eq!(number(Image::new([0; 3]).blocks(Slot(0))), Some(1));
    }

    #[test]
    fn pages_of_no_length_are_empty() {
        let mut image = Image::new(vec![0; 819_200]);
        let slot = image.put("A         ", b'S', b"x").expect("room");
        assert_eq!(image.page(slot, 0, &mut []), Ok(Paged { count: 0, end: false }));
        assert_eq!(image.page(slot, 1, &mut []), Ok(Paged { count: 0, end: true }));
        assert_eq!(number(image.page(slot, 2, &mut [])), Some(17));
    }
}
