//! The disks that are timed.

use model::disk::File;
use model::layout::{BLOCK, Density, Kind, Layout, SLOT_BYTES, TYPE_AT};
use model::maker;
use model::random::Random;

/// How a file's blocks lie.
#[derive(Clone, Copy, PartialEq, Eq)]
pub enum Order {
    /// Each block after the one before, as on a disk that was filled once.
    Rising,
    /// Anywhere, as on one that was used for long.
    Scattered,
}

/// The high density layout of a kind.
pub fn high(kind: Kind) -> Layout {
    Layout { kind, density: Density::High }
}

/// A high density disk with files of equal numbers of blocks, so many in all.
pub fn disk(kind: Kind, files: usize, used: usize, order: Order) -> Vec<u8> {
    let (layout, mut random) = (high(kind), Random::new(7));
    let mut image = maker::blank(layout, &mut random);
    let mut blocks: Vec<usize> = (layout.first()..layout.blocks()).collect();
    if order == Order::Scattered {
        random.shuffle(&mut blocks);
    }
    for slot in 0..files {
        let chain = blocks[used * slot / files..used * (slot + 1) / files].to_vec();
        let file_type = if kind == Kind::S900 { b'S' } else { b's' };
        let file = File { name: name(kind, slot), file_type, length: BLOCK * chain.len(), chain };
        maker::add(&mut image, layout, slot, &file);
    }
    image
}

/// Gives a disk's upper half of so many files, from slot 0 on, the names of the lower half in another type, so that every name stands
/// in two. The directory lies at an offset of its own.
pub fn share_names(image: &mut [u8], directory: usize, files: usize, file_type: u8) {
    for lower in 0..files / 2 {
        let at = |slot: usize| directory + SLOT_BYTES * slot;
        image.copy_within(at(lower)..at(lower) + TYPE_AT, at(lower + files / 2));
        image[at(lower + files / 2) + TYPE_AT] = file_type;
    }
}

/// A file's name on these disks.
pub fn name(kind: Kind, number: usize) -> Vec<u8> {
    let name = format!("SAMPLE {number:02}");
    format!("{name:<width$}", width = model::names::name_length(kind)).into_bytes()
}
