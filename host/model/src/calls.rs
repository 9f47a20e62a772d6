//! The calls on an image (document 01, "Calls on an accepted disk"). Each checks first.

use crate::disk::{content, read};
use crate::layout::{BLOCK, Layout, MAP_AT, SLOT_BYTES, TYPE_AT, blocks_for};
use crate::names::{area_of, is_type, kept};
use crate::{Answer, refuse, store};

/// The longest content that a slot's three bytes could tell.
const LONGEST: usize = 16_777_215;

/// What an accepted check gives.
#[derive(Clone, Copy, Debug, PartialEq, Eq)]
pub struct Checked {
    /// Kind and density.
    pub layout: Layout,
    /// Used slots.
    pub files: usize,
    /// Free blocks.
    pub free: usize,
}

/// What a slot holds.
#[derive(Clone, Debug, PartialEq, Eq)]
pub struct Listed {
    /// The name in ASCII, 10 or 12 bytes.
    pub name: Vec<u8>,
    /// The type byte.
    pub file_type: u8,
    /// Bytes of the content.
    pub length: usize,
}

/// What a page gives.
#[derive(Clone, Copy, Debug, PartialEq, Eq)]
pub struct Paged {
    /// Bytes copied to the output's front.
    pub count: usize,
    /// Whether the file's end is reached.
    pub end: bool,
}

/// Whether an image is accepted.
pub fn check(image: &[u8]) -> Answer<Checked> {
    let disk = read(image)?;
    Ok(Checked { layout: disk.layout, files: disk.files.iter().flatten().count(), free: disk.free().len() })
}

/// Lists a slot: 10.
pub fn list(image: &[u8], slot: usize) -> Answer<Listed> {
    let disk = read(image)?;
    let Some(file) = disk.file(slot) else { return refuse(10, 0) };
    Ok(Listed { name: file.name.clone(), file_type: file.file_type, length: file.length })
}

/// Finds the slot of the file with a name and a type: 11, 10.
pub fn find(image: &[u8], name: &[u8], file_type: u8) -> Answer<usize> {
    let disk = read(image)?;
    let Some(name) = kept(disk.layout.kind, name) else { return refuse(11, 0) };
    if !is_type(disk.layout.kind, file_type) {
        return refuse(11, 0);
    }
    match disk.slot_of(&name, file_type) {
        Some(slot) => Ok(slot),
        None => refuse(10, 0),
    }
}

/// Copies a file's bytes from an offset on: 10, 17.
pub fn page(image: &[u8], slot: usize, offset: usize, output: &mut [u8]) -> Answer<Paged> {
    let disk = read(image)?;
    let Some(file) = disk.file(slot) else { return refuse(10, 0) };
    if offset > file.length {
        return refuse(17, 0);
    }
    let left = &content(image, file)[offset..];
    let count = left.len().min(output.len());
    output[..count].copy_from_slice(&left[..count]);
    Ok(Paged { count, end: offset + count == file.length })
}

/// What copying a page follows and copies (document 02, request three).
#[derive(Clone, Copy, Debug, Default, PartialEq, Eq)]
pub struct Cost {
    /// The last byte's offset in the file by 1,024, rounded down.
    pub links: usize,
    /// The blocks that hold the page's bytes.
    pub runs: usize,
}

/// The cost of a page into an output of so many bytes: nothing for an empty page, or a refused one.
pub fn page_cost(image: &[u8], slot: usize, offset: usize, room: usize) -> Cost {
    let Ok(page) = page(image, slot, offset, &mut vec![0; room]) else { return Cost::default() };
    let mut blocks: Vec<usize> = (offset..offset + page.count).map(|byte| byte / BLOCK).collect();
    blocks.dedup();
    Cost { links: blocks.last().copied().unwrap_or(0), runs: blocks.len() }
}

/// Stores the numbers of a file's blocks to the output's front, in the file's order, and gives how many: 10, 21.
pub fn blocks(image: &[u8], slot: usize, output: &mut [u16]) -> Answer<usize> {
    let disk = read(image)?;
    let Some(file) = disk.file(slot) else { return refuse(10, 0) };
    if output.len() < file.chain.len() {
        return refuse(21, 0);
    }
    output.iter_mut().zip(&file.chain).for_each(|(stored, &block)| *stored = block as u16);
    Ok(file.chain.len())
}

/// Puts a file and gives its slot: 11, 13, 12, 14, 15, 16.
pub fn put(image: &mut [u8], name: &[u8], file_type: u8, content: &[u8]) -> Answer<usize> {
    let disk = read(image)?;
    let layout = disk.layout;
    let (Some(area), Some(name)) = (area_of(layout.kind, name), kept(layout.kind, name)) else {
        return refuse(11, 0);
    };
    if !is_type(layout.kind, file_type) {
        return refuse(11, 0);
    }
    if content.is_empty() {
        return refuse(13, 0);
    }
    if let Some(slot) = disk.slot_of(&name, file_type) {
        return refuse(12, slot);
    }
    let Some(slot) = disk.files.iter().position(Option::is_none) else { return refuse(14, 0) };
    let mut blocks = disk.free();
    if blocks_for(content.len()) > blocks.len() {
        return refuse(15, 0);
    }
    if content.len() > LONGEST {
        return refuse(16, 0);
    }
    blocks.truncate(blocks_for(content.len()));
    write_slot(image, layout, slot, &area, (file_type, content.len(), blocks[0]));
    link(image, layout, &blocks);
    for (&block, part) in blocks.iter().zip(content.chunks(BLOCK)) {
        let stored = &mut image[block * BLOCK..][..BLOCK];
        stored.fill(0);
        stored[..part.len()].copy_from_slice(part);
    }
    Ok(slot)
}

/// Removes the file with a name and a type: 11, 10.
pub fn remove(image: &mut [u8], name: &[u8], file_type: u8) -> Answer<()> {
    let slot = find(image, name, file_type)?;
    let disk = read(image)?;
    for block in disk.files[slot].iter().flat_map(|file| &file.chain) {
        set_map(image, *block, 0);
    }
    clear_slot(image, disk.layout, slot);
    Ok(())
}

/// Makes a slot zeros but for its identity.
pub(crate) fn clear_slot(image: &mut [u8], layout: Layout, slot: usize) {
    image[layout.slot_at(slot)..][..22].fill(0);
}

/// Writes a slot's name area, its type, length and start, and the identity, which stands there already but on S3000 disks.
pub(crate) fn write_slot(
    image: &mut [u8],
    layout: Layout,
    slot: usize,
    area: &[u8; 16],
    (file_type, length, start): (u8, usize, usize),
) {
    let bytes = &mut image[layout.slot_at(slot)..][..SLOT_BYTES];
    bytes[0..16].copy_from_slice(area);
    bytes[TYPE_AT] = file_type;
    store(&mut bytes[17..20], length);
    store(&mut bytes[20..22], start);
    bytes[22..24].copy_from_slice(&layout.identity());
}

/// Chains blocks in their order, the end mark at the last.
pub(crate) fn link(image: &mut [u8], layout: Layout, blocks: &[usize]) {
    for (at, &block) in blocks.iter().enumerate() {
        set_map(image, block, *blocks.get(at + 1).unwrap_or(&layout.end_mark()));
    }
}

pub(crate) fn set_map(image: &mut [u8], block: usize, value: usize) {
    store(&mut image[MAP_AT + 2 * block..][..2], value);
}
