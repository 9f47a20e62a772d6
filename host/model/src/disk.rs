//! The check: an image taken apart by document 01's rules, 1 to 9 in their order.

use crate::layout::{
    BLOCK, Density, IGNORED, Kind, Layout, MAP_AT, SLOT_BYTES, SLOTS, SYSTEM, TYPE_AT, blocks_for,
};
use crate::names::{is_type, name_of};
use crate::{Answer, number, refuse};
use std::collections::BTreeSet;

/// A file: what its slot says, and its blocks.
#[derive(Clone, Debug, PartialEq, Eq)]
pub struct File {
    /// The name in ASCII.
    pub name: Vec<u8>,
    /// The type byte.
    pub file_type: u8,
    /// Bytes of its content.
    pub length: usize,
    /// Its blocks in order.
    pub chain: Vec<usize>,
}

/// An accepted disk.
#[derive(Clone, Debug, PartialEq, Eq)]
pub struct Disk {
    /// Kind and density.
    pub layout: Layout,
    /// The map's values, one for each block.
    pub map: Vec<usize>,
    /// A file for each slot, or none.
    pub files: Vec<Option<File>>,
}

impl Disk {
    /// The data blocks that hold 0 in the map, rising.
    pub fn free(&self) -> Vec<usize> {
        (self.layout.first()..self.layout.blocks()).filter(|&block| self.map[block] == 0).collect()
    }

    /// The file in a slot, if there is such a slot and it holds one.
    pub fn file(&self, slot: usize) -> Option<&File> {
        self.files.get(slot)?.as_ref()
    }

    /// The slot of the file with a name in ASCII, as the disk keeps it, and a type: a file is known by both.
    pub fn slot_of(&self, name: &[u8], file_type: u8) -> Option<usize> {
        let is = |file: &File| file.name == name && file.file_type == file_type;
        (0..self.files.len()).find(|&slot| self.file(slot).is_some_and(is))
    }
}

/// A file's content: the first bytes of its blocks in order.
pub fn content(image: &[u8], file: &File) -> Vec<u8> {
    let mut content = Vec::new();
    for block in &file.chain {
        content.extend_from_slice(&image[block * BLOCK..][..BLOCK]);
    }
    content.truncate(file.length);
    content
}

/// Takes an image apart, or refuses it by 1 to 9.
pub fn read(image: &[u8]) -> Answer<Disk> {
    let layout = layout_of(image)?;
    let map = map_of(image, layout);
    system_values(layout, &map)?;
    let slots: Vec<Slot> = (0..layout.slots()).map(|slot| slot_at(image, layout, slot)).collect();
    let names = names(layout, &slots)?;
    files_differ(&slots, &names)?;
    let chains = chains(layout, &map, &slots)?;
    chains_apart(layout, &chains)?;
    no_stray(layout, &map, &chains)?;
    Ok(Disk { layout, map, files: files(&slots, names, chains) })
}

/// Kind and density: 1, 2.
pub(crate) fn layout_of(image: &[u8]) -> Answer<Layout> {
    let Some(density) = density_of(image.len()) else { return refuse(1, 0) };
    let Some(kind) = kind_of(image, density) else { return refuse(2, 0) };
    Ok(Layout { kind, density })
}

/// The map's values, one for each block.
pub(crate) fn map_of(image: &[u8], layout: Layout) -> Vec<usize> {
    (0..layout.blocks()).map(|block| number(&image[MAP_AT + 2 * block..][..2])).collect()
}

fn density_of(length: usize) -> Option<Density> {
    match length {
        819_200 => Some(Density::Low),
        1_638_400 => Some(Density::High),
        _ => None,
    }
}

/// Slot 0 of the first directory is asked whether that is ignored, before any identity. If not, all 64 identities decide:
/// empty slots count too.
fn kind_of(image: &[u8], density: Density) -> Option<Kind> {
    let all = |identity: [u8; 2]| (0..SLOTS).all(|slot| image[SLOT_BYTES * slot + 22..][..2] == identity);
    if image[TYPE_AT] == IGNORED {
        (density == Density::High).then_some(Kind::S3000)
    } else if all([0, 0]) {
        Some(Kind::S900)
    } else if all([0, 3]) {
        Some(Kind::S1000)
    } else {
        None
    }
}

/// 3: the lowest system block with another value, on a disk that marks them.
fn system_values(layout: Layout, map: &[usize]) -> Answer<()> {
    match (0..layout.first()).find(|&block| map[block] != SYSTEM) {
        Some(block) if layout.marks_system() => refuse(3, block),
        _ => Ok(()),
    }
}

/// A slot as its bytes say.
pub(crate) struct Slot<'a> {
    area: &'a [u8],
    pub(crate) file_type: u8,
    length: usize,
    start: usize,
    identity: &'a [u8],
}

impl Slot<'_> {
    pub(crate) fn is_used(&self) -> bool {
        self.file_type != 0
    }

    /// The name in ASCII of a used slot, or None if it is malformed. Identities were all asked for with the kind, but for
    /// those of an S3000 disk.
    pub(crate) fn well_formed(&self, layout: Layout) -> Option<Vec<u8>> {
        let told = is_type(layout.kind, self.file_type) && self.length >= 1;
        name_of(layout.kind, self.area).filter(|_| told && self.identity == layout.identity())
    }
}

pub(crate) fn slot_at(image: &[u8], layout: Layout, slot: usize) -> Slot<'_> {
    let bytes = &image[layout.slot_at(slot)..][..SLOT_BYTES];
    Slot {
        area: &bytes[0..16],
        file_type: bytes[TYPE_AT],
        length: number(&bytes[17..20]),
        start: number(&bytes[20..22]),
        identity: &bytes[22..24],
    }
}

/// The used slots' names in ASCII, or 4: the lowest malformed slot.
fn names(layout: Layout, slots: &[Slot]) -> Answer<Vec<Option<Vec<u8>>>> {
    let mut names = Vec::new();
    for (at, slot) in slots.iter().enumerate() {
        if !slot.is_used() {
            names.push(None);
            continue;
        }
        match slot.well_formed(layout) {
            Some(name) => names.push(Some(name)),
            None => return refuse(4, at),
        }
    }
    Ok(names)
}

/// 5: the lowest slot whose name and type both stand in one lower slot.
fn files_differ(slots: &[Slot], names: &[Option<Vec<u8>>]) -> Answer<()> {
    let mut lower = BTreeSet::new();
    let mut known = slots.iter().zip(names).map(|(slot, name)| Some((name.as_ref()?, slot.file_type)));
    match known.position(|file| file.is_some() && !lower.insert(file)) {
        Some(slot) => refuse(5, slot),
        None => Ok(()),
    }
}

/// Each slot's chain, empty for an empty slot, or 6 or 7: the lowest faulty slot.
fn chains(layout: Layout, map: &[usize], slots: &[Slot]) -> Answer<Vec<Vec<usize>>> {
    let mut chains = Vec::new();
    for (at, slot) in slots.iter().enumerate() {
        let walked = if slot.is_used() { walk(layout, map, slot) } else { Ok(Vec::new()) };
        match walked {
            Ok(chain) => chains.push(chain),
            Err(number) => return refuse(number, at),
        }
    }
    Ok(chains)
}

/// A used slot's chain, or the number of its first fault.
pub(crate) fn walk(layout: Layout, map: &[usize], slot: &Slot) -> Result<Vec<usize>, u32> {
    if !layout.is_link(slot.start) {
        return Err(6);
    }
    let mut chain = Vec::with_capacity(blocks_for(slot.length).min(layout.blocks()));
    chain.push(slot.start);
    for _ in 1..blocks_for(slot.length) {
        let value = map[chain[chain.len() - 1]];
        if value == layout.end_mark() {
            return Err(7);
        }
        if !layout.is_link(value) {
            return Err(6);
        }
        chain.push(value);
    }
    if map[chain[chain.len() - 1]] == layout.end_mark() { Ok(chain) } else { Err(7) }
}

/// 8: the lowest slot whose chain has a block of a lower slot's.
fn chains_apart(layout: Layout, chains: &[Vec<usize>]) -> Answer<()> {
    let mut taken = vec![false; layout.blocks()];
    for (slot, chain) in chains.iter().enumerate() {
        if chain.iter().any(|&block| taken[block]) {
            return refuse(8, slot);
        }
        chain.iter().for_each(|&block| taken[block] = true);
    }
    Ok(())
}

/// 9: the lowest data block that isn't free and on no chain.
fn no_stray(layout: Layout, map: &[usize], chains: &[Vec<usize>]) -> Answer<()> {
    let mut on_chain = vec![false; layout.blocks()];
    chains.iter().flatten().for_each(|&block| on_chain[block] = true);
    match (layout.first()..layout.blocks()).find(|&block| map[block] != 0 && !on_chain[block]) {
        Some(block) => refuse(9, block),
        None => Ok(()),
    }
}

fn files(slots: &[Slot], names: Vec<Option<Vec<u8>>>, chains: Vec<Vec<usize>>) -> Vec<Option<File>> {
    let file = |((slot, name), chain): ((&Slot, Option<Vec<u8>>), Vec<usize>)| {
        name.map(|name| File { name, file_type: slot.file_type, length: slot.length, chain })
    };
    slots.iter().zip(names).zip(chains).map(file).collect()
}
