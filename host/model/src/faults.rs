//! Disks with one fault, disks with any damage, disks with many faults, and names in two types, which are no fault.

use crate::Refusal;
use crate::calls::set_map;
use crate::disk::{Disk, File};
use crate::layout::{BLOCK, Density, IGNORED, Kind, Layout, MAP_AT, SLOT_BYTES, SLOTS, SYSTEM, TYPE_AT};
use crate::maker::respelt;
use crate::names::{is_type, name_length};
use crate::random::Random;
use crate::{number, store};

/// One fault of a disk, by the number that it is refused with.
#[derive(Clone, Copy, Debug, PartialEq, Eq)]
pub enum Fault {
    /// 1
    Length,
    /// 2
    Identity,
    /// 2, or 3 where the density is high: an S900 or S1000 disk that says to be an S3000's
    Ignored,
    /// 3, but on S900 disks
    System,
    /// 4: type
    Type,
    /// 4: name
    Name,
    /// 4: bytes after the name
    Filler,
    /// 4: length 0
    Empty,
    /// 4: identity, on S3000 disks
    SlotIdentity,
    /// 5: a name twice in one type
    NameTwice,
    /// 5: the same, and a slot between the two has the name in another type
    NameBetween,
    /// 6: start
    Start,
    /// 6: a value before the last block
    Link,
    /// 7: the end mark before the last block
    Short,
    /// 7: no end mark at the last block
    Long,
    /// 8
    Shared,
    /// 9
    Stray,
    /// 9: a file's slot made empty
    Lost,
}

/// All faults.
pub const FAULTS: [Fault; 18] = [
    Fault::Length,
    Fault::Identity,
    Fault::Ignored,
    Fault::System,
    Fault::Type,
    Fault::Name,
    Fault::Filler,
    Fault::Empty,
    Fault::SlotIdentity,
    Fault::NameTwice,
    Fault::NameBetween,
    Fault::Start,
    Fault::Link,
    Fault::Short,
    Fault::Long,
    Fault::Shared,
    Fault::Stray,
    Fault::Lost,
];

/// Those that leave length and kind as they are.
pub const OF_KNOWN_KIND: &[Fault] = FAULTS.split_at(3).1;

/// Gives an image one fault and says how a valid one is refused for it; None if this disk can't have the fault.
/// The disk is what the image held while it was valid, so faults can be heaped.
pub fn spoil(image: &mut Vec<u8>, disk: &Disk, fault: Fault, random: &mut Random) -> Option<Refusal> {
    let (number, place) = match fault {
        Fault::Length => spoil_length(image, random),
        Fault::Identity => spoil_identity(image, disk, random),
        Fault::Ignored => spoil_kind(image, disk)?,
        Fault::System => spoil_system(image, disk, random)?,
        Fault::Type | Fault::Name | Fault::Filler | Fault::Empty => spoil_form(image, disk, fault, random)?,
        Fault::SlotIdentity => spoil_own_identity(image, disk, random)?,
        Fault::NameTwice => spoil_names(image, disk, random)?,
        Fault::NameBetween => spoil_between(image, disk, random)?,
        Fault::Start | Fault::Link | Fault::Short | Fault::Long => spoil_chain(image, disk, fault, random)?,
        Fault::Shared => spoil_shared(image, disk, random)?,
        Fault::Stray => spoil_stray(image, disk, random)?,
        Fault::Lost => spoil_lost(image, disk, random)?,
    };
    Some(Refusal { number, place })
}

fn spoil_length(image: &mut Vec<u8>, random: &mut Random) -> (u32, usize) {
    let length = random.pick(&[0, 1, 1535, 1536, 3135, 4736, 5120, 819_199, 819_201, 1_638_399, 1_638_401]);
    image.resize(length, 0);
    (1, 0)
}

/// An odd identity in the first directory; on an S3000 disk, after it is made the one that counts.
fn spoil_identity(image: &mut [u8], disk: &Disk, random: &mut Random) -> (u32, usize) {
    let own = if disk.layout.kind == Kind::S3000 { [0, 0] } else { disk.layout.identity() };
    let other = random.pick(&[[0, 0], [0, 3], [3, 0], [0, 1], [1, 0], [0, 2], [1, 3], [0, 12], [0, 255]]);
    let identity = if other == own { [own[0], own[1] ^ 64] } else { other };
    if disk.layout.kind == Kind::S3000 {
        image[TYPE_AT] = random.pick(b"\0\x01\xfeSs\xd3");
        image[22..][..2].copy_from_slice(&own); // no kind has an odd one beside it
        image[SLOT_BYTES * random.within(1, SLOTS - 1) + 22..][..2].copy_from_slice(&identity);
    } else {
        image[SLOT_BYTES * random.below(SLOTS) + 22..][..2].copy_from_slice(&identity);
    }
    (2, 0)
}

/// 255 in slot 0 says that another directory counts: one that no disk of low density has. Of high density more system blocks
/// are due then than a valid disk of another kind has.
fn spoil_kind(image: &mut [u8], disk: &Disk) -> Option<(u32, usize)> {
    if disk.layout.kind == Kind::S3000 {
        return None;
    }
    image[TYPE_AT] = IGNORED;
    let other = |&block: &usize| number(&image[MAP_AT + 2 * block..][..2]) != SYSTEM;
    match disk.layout.density {
        Density::Low => Some((2, 0)),
        Density::High => Some((3, (0..17).find(other)?)),
    }
}

fn spoil_system(image: &mut [u8], disk: &Disk, random: &mut Random) -> Option<(u32, usize)> {
    if !disk.layout.marks_system() {
        return None;
    }
    let last = disk.layout.first() - 1;
    let block = if random.one_in(3) { last } else { random.below(last) };
    set_map(image, block, random.pick(&[0, 1, 5, 16383, 16385, 64, SLIP, 32768, 49152]));
    Some((3, block))
}

/// Any used slot.
fn used(disk: &Disk, random: &mut Random) -> Option<usize> {
    let used: Vec<usize> = (0..disk.files.len()).filter(|&slot| disk.files[slot].is_some()).collect();
    if used.is_empty() { None } else { Some(random.pick(&used)) }
}

fn spoil_form(image: &mut [u8], disk: &Disk, fault: Fault, random: &mut Random) -> Option<(u32, usize)> {
    let slot = used(disk, random)?;
    let (kind, letters) = (disk.layout.kind, name_length(disk.layout.kind));
    let bytes = &mut image[disk.layout.slot_at(slot)..][..SLOT_BYTES];
    match fault {
        Fault::Type => bytes[TYPE_AT] = bad_type(kind, slot, random),
        Fault::Name if kind == Kind::S900 => {
            bytes[random.below(letters)] = random.pick(&[0, 31, 127, 128, 255])
        }
        Fault::Name => bytes[random.below(letters)] = random.pick(&[41, 65, 128, 255]),
        Fault::Filler => bytes[random.within(letters, 15)] = random.pick(&[1, 10, 33, 255]),
        _ => bytes[17..20].fill(0),
    }
    Some((4, slot))
}

/// A type that is none of the kind's. In slot 0 of an S900 or S1000 disk 255 would be no type, but another kind.
fn bad_type(kind: Kind, slot: usize, random: &mut Random) -> u8 {
    let bad: &[u8] = match kind {
        Kind::S900 => b"\x01@[as\x7f\xd3\xff",
        Kind::S1000 => b"\x01`{AS\x7f\xd3\xff",
        Kind::S3000 => b"\x01Ss\x80\xc0\xdb\xf3\xff",
    };
    let other = if slot == 0 && kind != Kind::S3000 { &bad[..bad.len() - 1] } else { bad };
    random.pick(other)
}

/// A used slot of an S3000 disk with another identity than 0,12.
fn spoil_own_identity(image: &mut [u8], disk: &Disk, random: &mut Random) -> Option<(u32, usize)> {
    let slot = used(disk, random).filter(|_| disk.layout.kind == Kind::S3000)?;
    let other = random.pick(&[[0, 0], [0, 3], [0, 11], [0, 13], [1, 12], [12, 0], [12, 12], [255, 255]]);
    image[disk.layout.slot_at(slot) + 22..][..2].copy_from_slice(&other);
    Some((4, slot))
}

/// Gives a slot another's name, in a type.
fn rename(image: &mut [u8], layout: Layout, (from, to): (usize, usize), file_type: u8) {
    let (from, to) = (layout.slot_at(from), layout.slot_at(to));
    image.copy_within(from..from + 16, to);
    image[to + TYPE_AT] = file_type;
}

/// A type in which no file has a file's name.
fn other_type(disk: &Disk, file: &File, random: &mut Random) -> Option<u8> {
    let free = |&byte: &u8| is_type(disk.layout.kind, byte) && disk.slot_of(&file.name, byte).is_none();
    let types: Vec<u8> = (1..=255).filter(free).collect();
    if types.is_empty() { None } else { Some(random.pick(&types)) }
}

fn spoil_names(image: &mut [u8], disk: &Disk, random: &mut Random) -> Option<(u32, usize)> {
    let (one, other) = (used(disk, random)?, used(disk, random)?);
    rename(image, disk.layout, (one, other), disk.file(one)?.file_type);
    if one == other { None } else { Some((5, one.max(other))) }
}

fn spoil_between(image: &mut [u8], disk: &Disk, random: &mut Random) -> Option<(u32, usize)> {
    let mut slots = [used(disk, random)?, used(disk, random)?, used(disk, random)?];
    slots.sort_unstable();
    let [low, middle, high] = slots;
    if low == middle || middle == high {
        return None;
    }
    let file = disk.file(low)?;
    rename(image, disk.layout, (low, middle), other_type(disk, file, random)?);
    rename(image, disk.layout, (low, high), file.file_type);
    Some((5, high))
}

/// What is no fault (document 02, request six): gives a used slot another's name in a type in which no file has it. On an S900 disk, whose
/// names keep their case, now and then another spelling in the same type. A valid image stays one; None if this disk can't have it.
pub fn share_name(image: &mut [u8], disk: &Disk, random: &mut Random) -> Option<()> {
    let (one, other) = (used(disk, random)?, used(disk, random)?);
    let file = disk.file(one).filter(|_| one != other)?;
    let spelling = respelt(&file.name, random);
    let is_new = disk.layout.kind == Kind::S900 && disk.slot_of(&spelling, file.file_type).is_none();
    if is_new && random.one_in(2) {
        rename(image, disk.layout, (one, other), file.file_type);
        image[disk.layout.slot_at(other)..][..spelling.len()].copy_from_slice(&spelling);
    } else {
        rename(image, disk.layout, (one, other), other_type(disk, file, random)?);
    }
    Some(())
}

fn spoil_chain(image: &mut [u8], disk: &Disk, fault: Fault, random: &mut Random) -> Option<(u32, usize)> {
    let (slot, layout) = (used(disk, random)?, disk.layout);
    let chain = &disk.file(slot)?.chain;
    let inner = |random: &mut Random| {
        chain.split_last().filter(|(_, rest)| !rest.is_empty()).map(|(_, rest)| random.pick(rest))
    };
    let off = [
        0,
        1,
        layout.first() - 1,
        layout.blocks(),
        layout.blocks() + 1,
        SYSTEM,
        other_mark(layout),
        SLIP,
        65535,
    ];
    let number = match fault {
        Fault::Start => {
            let start = if random.one_in(8) { layout.end_mark() } else { random.pick(&off) };
            store(&mut image[layout.slot_at(slot) + 20..][..2], start);
            6
        }
        Fault::Link => {
            set_map(image, inner(random)?, random.pick(&off));
            6
        }
        Fault::Short => {
            set_map(image, inner(random)?, layout.end_mark());
            7
        }
        _ => {
            let last = chain[chain.len() - 1];
            let links = [last, layout.first(), layout.blocks() - 1];
            set_map(image, last, if random.one_in(2) { random.pick(&links) } else { random.pick(&off) });
            7
        }
    };
    Some((number, slot))
}

/// What the source gives for the S1000's end mark by a slip in the first digit: an ordinary bad value.
const SLIP: usize = 19152;

/// The end mark of the other kind: an ordinary bad value here.
fn other_mark(layout: Layout) -> usize {
    match layout.kind {
        Kind::S900 => 49152,
        Kind::S1000 | Kind::S3000 => 32768,
    }
}

/// A slot that ends with another's last blocks. Its own blocks are strays then, but sharing is asked first.
fn spoil_shared(image: &mut [u8], disk: &Disk, random: &mut Random) -> Option<(u32, usize)> {
    let (one, other) = (used(disk, random)?, used(disk, random)?);
    let chain = &disk.file(one)?.chain;
    let from = random.below(chain.len());
    let at = disk.layout.slot_at(other);
    store(&mut image[at + 17..][..3], BLOCK * (chain.len() - from));
    store(&mut image[at + 20..][..2], chain[from]);
    if one == other { None } else { Some((8, one.max(other))) }
}

fn spoil_stray(image: &mut [u8], disk: &Disk, random: &mut Random) -> Option<(u32, usize)> {
    let free = disk.free();
    if free.is_empty() {
        return None;
    }
    let block = random.pick(&free);
    set_map(image, block, random.pick(&[1, 256, block, disk.layout.end_mark(), SYSTEM, SLIP, 65535]));
    Some((9, block))
}

fn spoil_lost(image: &mut [u8], disk: &Disk, random: &mut Random) -> Option<(u32, usize)> {
    let slot = used(disk, random)?;
    image[disk.layout.slot_at(slot) + TYPE_AT] = 0;
    Some((9, *disk.file(slot)?.chain.iter().min()?))
}

/// Damages some bytes of the directory in use and the map, often by little; of an S3000 disk's first directory too. Now and then
/// the byte that tells S3000 disks from others becomes another, or 255.
pub fn damage(image: &mut [u8], layout: Layout, random: &mut Random) {
    let end = MAP_AT + 2 * layout.blocks();
    for _ in 0..random.pick(&[1, 1, 2, 3, 8, 30]) {
        let at = match random.below(12) {
            0..=5 => random.within(MAP_AT, end - 1),
            6 => random.below(MAP_AT),
            _ => random.within(layout.slot_at(0), layout.slot_at(layout.slots()) - 1),
        };
        image[at] = match random.below(4) {
            0 => random.byte(),
            1 => 0,
            2 => image[at].wrapping_add(1),
            _ => image[at] ^ (1 << random.below(8)),
        };
    }
    if random.one_in(25) {
        image[TYPE_AT] = if random.one_in(2) { IGNORED } else { random.byte() };
    }
}

/// Heaps faults on an image of a known kind, up to two for each file: slots then repeat names and meet chains of others that have
/// faults of their own. The disk is what the image held while it was valid.
pub fn wreck(image: &mut Vec<u8>, disk: &Disk, random: &mut Random) {
    let files = disk.files.iter().flatten().count();
    // Now and then none of form, or none of name, or those from sharing on alone: they are asked for later, and hidden else.
    let first = random.pick(&[Fault::System, Fault::System, Fault::NameTwice, Fault::Start, Fault::Shared]);
    let faults = &FAULTS[FAULTS.iter().position(|&fault| fault == first).unwrap_or(0)..];
    for _ in 0..random.within(2, 2 + 2 * files) {
        match random.below(7) {
            0 => copy_part(image, disk, 17, 5, random), // a chain
            1 if faults.contains(&Fault::NameTwice) => copy_part(image, disk, 0, 22, random),
            2 if faults.contains(&Fault::NameTwice) => copy_part(image, disk, 0, SLOT_BYTES, random),
            3 if faults.contains(&Fault::NameTwice) => copy_part(image, disk, 0, 16, random), // a name alone
            _ => {
                spoil(image, disk, random.pick(faults), random);
            }
        }
    }
}

/// Copies bytes of a used slot to the same place of any slot.
fn copy_part(image: &mut [u8], disk: &Disk, at: usize, bytes: usize, random: &mut Random) {
    if let Some(from) = used(disk, random) {
        let (from, to) = (disk.layout.slot_at(from) + at, random.below(disk.layout.slots()));
        image.copy_within(from..from + bytes, disk.layout.slot_at(to) + at);
    }
}
