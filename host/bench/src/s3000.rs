//! S3000 disks, byte by byte (document 02, request five).

use crate::disks::Order;
use model::layout::{BLOCK, Kind, MAP_AT, SLOT_BYTES, SYSTEM};
use model::names::area_of;
use model::random::Random;

/// Slots of the second directory, and where it begins.
pub const SLOTS: usize = 512;
pub const DIRECTORY: usize = 5120;
/// The first data block, and how many there are.
pub const FIRST: usize = 17;
pub const DATA_BLOCKS: usize = 1583;
/// Type bytes, of samples and of programs: a capital plus 128.
pub const TYPE: u8 = b'S' + 128;
pub const PROGRAM: u8 = b'P' + 128;
const END_MARK: usize = 49152;

/// A disk with files of equal numbers of blocks, so many in all. All that no rule reads is noise.
pub fn disk(files: usize, used: usize, order: Order) -> Vec<u8> {
    let mut random = Random::new(7);
    let mut image = random.bytes(BLOCK * (FIRST + DATA_BLOCKS));
    image[16] = 255;
    for block in 0..FIRST + DATA_BLOCKS {
        set_map(&mut image, block, if block < FIRST { SYSTEM } else { 0 });
    }
    for slot in 0..SLOTS {
        entry(&mut image, slot)[16] = 0;
    }
    let mut blocks: Vec<usize> = (FIRST..FIRST + DATA_BLOCKS).collect();
    if order == Order::Scattered {
        random.shuffle(&mut blocks);
    }
    for slot in 0..files {
        add(&mut image, slot, &blocks[used * slot / files..used * (slot + 1) / files]);
    }
    image
}

/// A file's name on these disks.
pub fn name(number: usize) -> Vec<u8> {
    format!("SAMPLE {number:03}  ").into_bytes()
}

fn add(image: &mut [u8], slot: usize, chain: &[usize]) {
    let area = area_of(Kind::S1000, &name(slot)).expect("a legal name");
    let length = BLOCK * chain.len();
    let entry = entry(image, slot);
    entry[..12].copy_from_slice(&area[..12]);
    entry[12..16].copy_from_slice(&[0, 0, 0, 2]);
    entry[16] = TYPE;
    entry[17..20].copy_from_slice(&length.to_le_bytes()[..3]);
    entry[20..22].copy_from_slice(&chain[0].to_le_bytes()[..2]);
    entry[22..].copy_from_slice(&[0, 12]);
    for (at, &block) in chain.iter().enumerate() {
        set_map(image, block, chain.get(at + 1).copied().unwrap_or(END_MARK));
    }
}

/// A full disk's faults of every sort: of a slot's form, a name twice, a chain that leads out or is cut, a block on two chains, and strays.
pub fn damage(image: &mut [u8]) {
    entry(image, 10)[16] = b'S';
    entry(image, 11)[23] = 3;
    entry(image, 60)[16] = 0;
    entry(image, 30)[20] = 3;
    entry(image, 30)[21] = 0;
    entry(image, 40)[18] += 4;
    copy(image, 19, 20, 0, 16);
    copy(image, 49, 50, 17, 22);
    set_map(image, 2, 0);
}

/// One fault or none, anywhere.
pub fn spoil(image: &mut [u8], random: &mut Random) {
    let [slot, other] = [random.below(SLOTS), random.below(SLOTS)];
    match random.below(7) {
        0 => entry(image, slot)[random.below(SLOT_BYTES)] = random.byte(),
        1 => copy(image, slot, other, 0, 16),
        2 => copy(image, slot, other, 0, 17),
        3 => copy(image, slot, other, 17, 22),
        4 => image[16] = random.pick(&[255, 0, b's']),
        _ => {
            let link = random.within(FIRST, FIRST + DATA_BLOCKS - 1);
            let value = random.pick(&[0, SYSTEM, END_MARK, FIRST - 1, link, FIRST + DATA_BLOCKS]);
            set_map(image, random.below(FIRST + DATA_BLOCKS), value);
        }
    }
}

/// Gives a slot some bytes of another.
fn copy(image: &mut [u8], from: usize, to: usize, begin: usize, end: usize) {
    let bytes = entry(image, from)[begin..end].to_vec();
    entry(image, to)[begin..end].copy_from_slice(&bytes);
}

fn entry(image: &mut [u8], slot: usize) -> &mut [u8] {
    &mut image[DIRECTORY + SLOT_BYTES * slot..][..SLOT_BYTES]
}

fn set_map(image: &mut [u8], block: usize, value: usize) {
    image[MAP_AT + 2 * block..][..2].copy_from_slice(&value.to_le_bytes()[..2]);
}
