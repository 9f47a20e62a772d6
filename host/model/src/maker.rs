//! Valid disks for tests: scattered, near full, with a full directory; with names that stand in several types.

use crate::calls::{link, set_map, write_slot};
use crate::disk::File;
use crate::layout::{BLOCK, IGNORED, Kind, Layout, SLOT_BYTES, SLOTS, SYSTEM, TYPE_AT};
use crate::names::{area_of, name_length};
use crate::random::Random;

/// How full a disk is to be.
#[derive(Clone, Copy, Debug, PartialEq, Eq)]
pub struct Plan {
    /// Used slots.
    pub files: usize,
    /// Free blocks, unless there are no files to use the others.
    pub free: usize,
}

impl Plan {
    /// Some files, some room.
    pub fn scattered(layout: Layout, random: &mut Random) -> Plan {
        let files = random.below(layout.slots() * 5 / 8);
        Plan { files, free: random.within(0, layout.data_blocks() - files) }
    }

    /// Next to no room.
    pub fn near_full(layout: Layout, random: &mut Random) -> Plan {
        Plan { files: random.within(1, layout.slots() - 2), free: random.below(6) }
    }

    /// No slot left, or one or two.
    pub fn full_directory(layout: Layout, random: &mut Random) -> Plan {
        Plan { files: layout.slots() - random.pick(&[0, 0, 1, 2]), free: random.within(20, 600) }
    }

    /// Any of the three.
    pub fn any(layout: Layout, random: &mut Random) -> Plan {
        match random.below(3) {
            0 => Plan::scattered(layout, random),
            1 => Plan::near_full(layout, random),
            _ => Plan::full_directory(layout, random),
        }
    }
}

/// A disk without files. All that no rule reads is noise: data, volume label, empty slots, an S900's system values, an S3000's
/// first directory and the identities in its second.
pub fn blank(layout: Layout, random: &mut Random) -> Vec<u8> {
    let mut image = random.bytes(layout.image_bytes());
    for slot in 0..layout.slots() {
        let at = layout.slot_at(slot);
        if random.one_in(2) {
            image[at..][..22].fill(0);
        }
        image[at + TYPE_AT] = 0;
        let identity = if layout.kind == Kind::S3000 { unread(random) } else { layout.identity() };
        image[at + 22..][..2].copy_from_slice(&identity);
    }
    for block in 0..layout.blocks() {
        if layout.is_link(block) {
            set_map(&mut image, block, 0);
        } else if layout.marks_system() {
            set_map(&mut image, block, SYSTEM);
        }
    }
    if layout.kind == Kind::S3000 {
        ignore(&mut image, random);
    }
    image
}

/// An identity where none is read: that of a kind, or any.
fn unread(random: &mut Random) -> [u8; 2] {
    match random.below(6) {
        0 => [random.byte(), random.byte()],
        1 => [0, 3],
        2 => [0, 11],
        3 => [0, 0],
        _ => [0, 12],
    }
}

/// Makes the first directory one that is ignored. Half of them would else tell of another kind, some of those without files.
fn ignore(image: &mut [u8], random: &mut Random) {
    if random.one_in(2) {
        let (identity, empty) = (random.pick(&[[0, 0], [0, 3]]), random.one_in(2));
        for slot in image[..SLOTS * SLOT_BYTES].chunks_mut(SLOT_BYTES) {
            slot[22..].copy_from_slice(&identity);
            slot[TYPE_AT] = if empty { 0 } else { slot[TYPE_AT] };
        }
    }
    image[TYPE_AT] = IGNORED;
}

/// A valid disk after a plan: files in any slots, or in the lowest, so that the last ones are empty; chains over any blocks.
pub fn disk(layout: Layout, plan: Plan, random: &mut Random) -> Vec<u8> {
    let mut image = blank(layout, random);
    let mut slots: Vec<usize> = (0..layout.slots()).collect();
    let mut blocks: Vec<usize> = (layout.first()..layout.blocks()).collect();
    if !random.one_in(4) {
        random.shuffle(&mut slots);
    }
    if !random.one_in(4) {
        random.shuffle(&mut blocks);
    }
    let (mut files, fresh) = (Vec::new(), random.pick(&[1, 2, 2, 3, 12]));
    let used = layout.data_blocks().saturating_sub(plan.free).max(plan.files);
    for (at, count) in parts(used, plan.files, random).into_iter().enumerate() {
        let rest = blocks.split_off(count);
        let (name, file_type) = unlike(layout.kind, &files, fresh, random);
        let last = random.pick(&[1, 2, 1023, 1024, 0]);
        let last = if last == 0 { random.within(1, BLOCK) } else { last };
        let file = File { name, file_type, length: BLOCK * (count - 1) + last, chain: blocks };
        add(&mut image, layout, slots[at], &file);
        files.push((file.name, file_type));
        blocks = rest;
    }
    image
}

/// A name and a type that no file has so far. One name in so many is a new one; the others stand in other types already, so that
/// there are pairs of them, triples and more. If every name is to be new, none stands twice.
fn unlike(kind: Kind, files: &[(Vec<u8>, u8)], fresh: usize, random: &mut Random) -> (Vec<u8>, u8) {
    loop {
        let other = files.get(random.below(files.len())).filter(|_| !random.one_in(fresh));
        let name = other.map_or_else(|| legal_name(kind, random), |(name, _)| name.clone());
        let file_type = legal_type(kind, random);
        if !files.iter().any(|(other, own)| *other == name && (fresh == 1 || *own == file_type)) {
            return (name, file_type);
        }
    }
}

/// Writes a file's slot and chain; its content is what its blocks hold.
pub fn add(image: &mut [u8], layout: Layout, slot: usize, file: &File) {
    let area = area_of(layout.kind, &file.name).expect("a maker's name is legal");
    write_slot(image, layout, slot, &area, (file.file_type, file.length, file.chain[0]));
    link(image, layout, &file.chain);
}

/// A total cut into so many parts of at least 1.
fn parts(total: usize, count: usize, random: &mut Random) -> Vec<usize> {
    let mut cuts: Vec<usize> = (1..total).collect();
    random.shuffle(&mut cuts);
    cuts.truncate(count.saturating_sub(1));
    cuts.sort_unstable();
    cuts.insert(0, 0);
    cuts.push(total);
    let parts = cuts.windows(2).map(|pair| pair[1] - pair[0]);
    if count == 0 { Vec::new() } else { parts.collect() }
}

/// A legal name in ASCII, as the disk keeps it; half of them differ from others in few characters.
pub fn legal_name(kind: Kind, random: &mut Random) -> Vec<u8> {
    let all: &[u8] = match kind {
        Kind::S900 => b" ~!09AZaz#+-.@",
        Kind::S1000 | Kind::S3000 => b"0129 ABXYZ#+-.",
    };
    let mut name = vec![b' '; name_length(kind)];
    if random.one_in(2) {
        let at = random.below(name.len());
        name[at] = random.pick(all);
        name[0] = b'A' + random.below(26) as u8;
    } else {
        name.iter_mut().for_each(|byte| *byte = random.pick(all));
    }
    name
}

/// A name in another spelling: some of its letters, or all, in the other case.
pub fn respelt(name: &[u8], random: &mut Random) -> Vec<u8> {
    let all = random.one_in(3);
    let other = |&byte: &u8| match byte {
        b'A'..=b'Z' if all || random.one_in(2) => byte + 32,
        b'a'..=b'z' if all || random.one_in(2) => byte - 32,
        _ => byte,
    };
    name.iter().map(other).collect()
}

/// A legal type.
pub fn legal_type(kind: Kind, random: &mut Random) -> u8 {
    let first = match kind {
        Kind::S900 => b'A',
        Kind::S1000 => b'a',
        Kind::S3000 => b'A' + 128,
    };
    first + random.below(26) as u8
}
