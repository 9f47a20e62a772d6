//! What a salvage makes of an image, slot by slot.

use crate::Refusal;

/// What became of a slot.
#[derive(Clone, Copy, Debug, PartialEq, Eq)]
pub enum Fate {
    /// It was empty, and is as it was.
    Empty,
    /// Its file is kept.
    Kept,
    /// Its file is lost, for this: one of 4 to 8, whose place is the slot.
    Dropped(Refusal),
}

impl Fate {
    /// What a byte of the report tells of a slot.
    fn told(slot: usize, byte: u8) -> Fate {
        match (byte, Refusal::told(byte.into(), slot)) {
            (1, _) => Fate::Kept,
            (_, None) => Fate::Empty,
            (_, Some(refusal)) => Fate::Dropped(refusal),
        }
    }
}

/// What a salvage gives: the statement of loss.
#[derive(Clone, Debug, PartialEq, Eq)]
pub struct Salvaged {
    /// What became of each slot, from slot 0 on.
    pub slots: Vec<Fate>,
    /// How many map values are others than before.
    pub map_values: usize,
}

impl Salvaged {
    /// What the report and the count tell.
    pub(crate) fn of(report: &[u8], count: usize) -> Salvaged {
        let slots = report.iter().enumerate().map(|(slot, &byte)| Fate::told(slot, byte)).collect();
        Salvaged { slots, map_values: count }
    }

    /// How many slots are kept.
    pub fn kept(&self) -> usize {
        self.slots.iter().filter(|&&fate| fate == Fate::Kept).count()
    }

    /// Why slots were dropped, each at its place, rising.
    pub fn dropped(&self) -> impl Iterator<Item = Refusal> {
        self.slots.iter().filter_map(|fate| match fate {
            Fate::Dropped(refusal) => Some(*refusal),
            Fate::Empty | Fate::Kept => None,
        })
    }
}

#[cfg(test)]
mod tests {
    use super::*;
    use crate::{Image, Slot};

    /// A low S900 disk with four files of two blocks each: 4 and 5, 6 and 7, 8 and 9, 10 and 11.
    fn disk() -> Image {
        let mut image = Image::new(vec![0; 819_200]);
        for (name, byte) in ["A", "B", "C", "D"].into_iter().zip(1..) {
            image.put(format!("{name:10}"), b'S', &[byte; 2000]).expect("room");
        }
        image
    }

    /// The disk with other bytes: each a place and a value.
    fn spoiled(bytes: &[(usize, u8)]) -> Image {
        let mut image = disk().into_bytes();
        bytes.iter().for_each(|&(at, byte)| image[at] = byte);
        Image::new(image)
    }

    /// Where a slot's byte stands.
    fn slot(slot: usize, byte: usize) -> usize {
        24 * slot + byte
    }

    /// Where a block's map value stands.
    fn map(block: usize) -> usize {
        1536 + 2 * block
    }

    /// Number and slot of what is dropped, and the map values changed; afterwards the image is accepted, and another salvage
    /// has nothing to do.
    fn lost(mut image: Image) -> (Vec<(u32, usize)>, usize) {
        let salvaged = image.salvage().expect("mended");
        let dropped: Vec<(u32, usize)> =
            salvaged.dropped().map(|refusal| (refusal.number(), refusal.place())).collect();
        let files = image.check().expect("accepted").files;
        assert_eq!(
            (salvaged.slots.len(), salvaged.kept()),
            (image.check().expect("accepted").kind.slots(), files)
        );
        for entry in image.entries().expect("accepted") {
            let content = image.read(entry.slot).expect("kept");
            assert!(content.len() == entry.length && salvaged.slots[entry.slot.0] == Fate::Kept);
        }
        let mended = image.clone();
        let again = image.salvage().expect("accepted");
        assert!(again.dropped().next().is_none() && again.map_values == 0 && image == mended);
        (dropped, salvaged.map_values)
    }

    #[test]
    fn every_reason_is_told() {
        let name = [(slot(2, 0), b'B')];
        let shared = [(slot(2, 20), 7), (slot(2, 17), 100), (slot(2, 18), 0)]; // B's last block
        for (image, number, changed) in [
            (spoiled(&[(slot(2, 16), b's')]), 4, 2),
            (spoiled(&[(slot(2, 0), 7)]), 4, 2),
            (spoiled(&[(slot(2, 12), 7)]), 4, 2),
            (spoiled(&name), 5, 2),
            (spoiled(&[(map(8), 3)]), 6, 2),
            (spoiled(&[(map(8), 0)]), 6, 1),
            (spoiled(&[(map(8), 0), (map(8) + 1, 128)]), 7, 2),
            (spoiled(&shared), 8, 2),
        ] {
            let refusal = image.check().expect_err("refused");
            assert_eq!((refusal.number(), refusal.place()), (number, 2));
            assert_eq!(lost(image), (vec![(number, 2)], changed), "{number}");
        }
    }

    #[test]
    fn strays_and_system_values_cost_no_file() {
        assert_eq!(lost(spoiled(&[(map(700), 5)])), (vec![], 1));
        let mut bytes = vec![0; 819_200];
        (0..64).for_each(|at| bytes[slot(at, 23)] = 3);
        let mut image = Image::new(bytes);
        assert_eq!(image.salvage().map(|salvaged| salvaged.map_values), Ok(4));
        assert_eq!(image.check().map(|checked| checked.files), Ok(0));
    }

    /// A slot of an S3000 disk with a wrong identity is lost, and all 17 system values are set. The identity stays, and
    /// isn't read in an empty slot.
    #[test]
    fn an_s3000_disk_is_told_by_512_slots() {
        let mut bytes = vec![0; 1_638_400];
        bytes[16] = 255;
        (0..17).for_each(|block| bytes[map(block) + 1] = 64);
        let mut image = Image::new(bytes);
        for at in 0..512 {
            image.put(format!("N {at:<10}"), 211, &[1]).expect("room");
        }
        let mut bytes = image.into_bytes();
        bytes[5120 + slot(511, 23)] = 3;
        bytes[5120 + slot(100, 15)] = 1;
        (bytes[map(0)], bytes[map(16) + 1]) = (1, 0);
        assert_eq!(lost(Image::new(bytes.clone())), (vec![(4, 100), (4, 511)], 4));
        let mut image = Image::new(bytes);
        image.salvage().expect("mended");
        assert_eq!(image.bytes()[5120 + slot(511, 0)..][..24], [[0; 23].as_slice(), &[3]].concat());
        assert_eq!(image.put("N 100       ", 211, &[1]), Ok(Slot(100)));
    }

    /// A name that stands in a dropped slot is free, and so are its blocks.
    #[test]
    fn what_only_a_dropped_slot_has_is_kept() {
        let twice = [(slot(1, 16), 255), (slot(2, 0), b'B')];
        assert_eq!(lost(spoiled(&twice)), (vec![(4, 1)], 2));
        let shared = [(slot(1, 16), 255), (slot(2, 20), 6)];
        assert_eq!(lost(spoiled(&shared)), (vec![(4, 1)], 2)); // C has B's chain, and its own is free
        let mut image = spoiled(&shared);
        image.salvage().expect("mended");
        assert_eq!(image.read(Slot(2)), Ok(vec![2; 2000]));
    }

    /// Within one type the higher slot is lost; of two types both are kept, and the check has nothing against them.
    #[test]
    fn a_name_may_stand_in_two_types() {
        let called_b = |at, file_type| [(slot(at, 0), b'B'), (slot(at, 16), file_type)];
        assert_eq!(lost(spoiled(&called_b(2, b'S'))), (vec![(5, 2)], 2));
        let two = spoiled(&called_b(2, b'P'));
        assert_eq!(two.check().map(|checked| checked.files), Ok(4));
        assert_eq!(lost(two), (vec![], 0));
        let three = |file_type| spoiled(&[called_b(2, b'P'), called_b(3, file_type)].concat());
        assert_eq!(lost(three(b'P')), (vec![(5, 3)], 2));
        assert_eq!(lost(three(b'S')), (vec![(5, 3)], 2)); // B's own, two slots below
        assert_eq!(lost(three(b'Q')), (vec![], 0));
    }

    #[test]
    fn all_may_be_lost() {
        let types: Vec<(usize, u8)> = (0..4).map(|at| (slot(at, 16), 1)).collect();
        assert_eq!(lost(spoiled(&types)), (vec![(4, 0), (4, 1), (4, 2), (4, 3)], 8));
    }

    #[test]
    fn an_accepted_image_comes_back_as_it_was() {
        let mut image = disk();
        let salvaged = image.salvage().expect("accepted");
        assert_eq!((salvaged.kept(), salvaged.map_values, salvaged.slots[4]), (4, 0, Fate::Empty));
        assert_eq!(image, disk());
    }

    #[test]
    fn what_is_no_disk_is_refused_and_kept() {
        for (bytes, number) in [(vec![7; 819_199], 1), (vec![7; 819_200], 2), (Vec::new(), 1)] {
            let mut image = Image::new(bytes.clone());
            let refusal = image.salvage().expect_err("no disk");
            assert_eq!((refusal.number(), refusal.place()), (number, 0));
            assert!(image.into_bytes() == bytes);
        }
    }
}
