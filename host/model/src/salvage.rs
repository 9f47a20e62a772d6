//! The salvage run (document 02, request four): mends a disk in place and says slot by slot what was lost.

use crate::calls::{clear_slot, set_map};
use crate::disk::{Slot, layout_of, map_of, slot_at, walk};
use crate::layout::{Layout, SYSTEM};
use crate::{Answer, refuse};

/// What becomes of a slot.
enum Verdict {
    /// It was empty, and its bytes stay.
    Empty,
    /// A file, by its name in ASCII with its type, and its blocks.
    Kept((Vec<u8>, u8), Vec<usize>),
    /// For the reason of this number, 4 to 8.
    Dropped(u32),
}

/// The files that were kept so far: a slot is held against them, and never against one that was dropped.
struct Kept {
    /// Names in ASCII, each with its type.
    names: Vec<(Vec<u8>, u8)>,
    /// For each block, whether it is on one of their chains.
    on_chain: Vec<bool>,
}

/// Drops the slots that can't stay, frees the blocks on no kept chain and marks the system blocks; gives how many map values are
/// others than before. The report's first bytes, one for each slot, become 0 for an empty slot, 1 for a kept one, else the
/// number that it is dropped for: 1, 2, 21.
pub fn salvage(image: &mut [u8], report: &mut [u8]) -> Answer<usize> {
    let layout = layout_of(image)?;
    if report.len() < layout.slots() {
        return refuse(21, 0);
    }
    let given = map_of(image, layout);
    let mut kept = Kept { names: Vec::new(), on_chain: vec![false; layout.blocks()] };
    for (slot, said) in report[..layout.slots()].iter_mut().enumerate() {
        *said = match judge(layout, &given, &slot_at(image, layout, slot), &kept) {
            Verdict::Empty => 0,
            Verdict::Kept(name, chain) => {
                kept.names.push(name);
                chain.iter().for_each(|&block| kept.on_chain[block] = true);
                1
            }
            Verdict::Dropped(number) => {
                clear_slot(image, layout, slot);
                number as u8
            }
        };
    }
    let mended: Vec<usize> = (0..layout.blocks()).map(|block| mend(layout, &given, &kept, block)).collect();
    (0..layout.blocks()).for_each(|block| set_map(image, block, mended[block]));
    Ok((0..layout.blocks()).filter(|&block| mended[block] != given[block]).count())
}

/// The first reason that applies, by the map as given.
fn judge(layout: Layout, given: &[usize], slot: &Slot, kept: &Kept) -> Verdict {
    if !slot.is_used() {
        return Verdict::Empty;
    }
    let Some(name) = slot.well_formed(layout) else { return Verdict::Dropped(4) };
    let name = (name, slot.file_type);
    if kept.names.contains(&name) {
        return Verdict::Dropped(5);
    }
    match walk(layout, given, slot) {
        Err(number) => Verdict::Dropped(number),
        Ok(chain) if chain.iter().any(|&block| kept.on_chain[block]) => Verdict::Dropped(8),
        Ok(chain) => Verdict::Kept(name, chain),
    }
}

/// The map value of a block afterwards. An S900 disk's system values aren't read, and stay.
fn mend(layout: Layout, given: &[usize], kept: &Kept, block: usize) -> usize {
    if layout.is_link(block) {
        return if kept.on_chain[block] { given[block] } else { 0 };
    }
    if layout.marks_system() { SYSTEM } else { given[block] }
}
