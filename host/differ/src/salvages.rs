//! What salvages met: every reason, and slots that stay because those that stood in their way are dropped.

use crate::call::Call;
use crate::spellings::layout_of;
use model::calls::check;
use model::layout::{BLOCK, LAYOUTS, Layout, MAP_AT, TYPE_AT, blocks_for};
use std::collections::BTreeMap;

/// What salvages did on one layout.
#[derive(Clone, Copy, Debug, Default, PartialEq, Eq)]
pub struct Salvages {
    /// Images that were salvaged, by the number that the check refused them with before, or 0.
    pub images: [usize; 10],
    /// Their slots, by what the report says of them.
    pub slots: [usize; 9],
    /// Kept slots whose name and type a dropped lower slot had.
    pub names: usize,
    /// Kept slots whose name a kept lower slot has in another type.
    pub types: usize,
    /// Slots dropped by 5 whose name a kept lower slot has in another type too.
    pub beside: usize,
    /// Kept slots with a block that a dropped lower slot's chain had.
    pub chains: usize,
    /// Images that were kept, since the report was too short.
    pub short: usize,
}

/// Counts by layout, in the order of [`LAYOUTS`].
pub type Counts = [Salvages; LAYOUTS.len()];

/// An image of a known kind before a salvage.
pub struct Before {
    /// As its place in [`LAYOUTS`].
    layout: usize,
    /// The blocks before the data area, with directory and map.
    head: Vec<u8>,
    /// What the check refuses it with, or 0.
    refusal: usize,
}

/// What is to be known of an image before a call, if it is a salvage.
pub fn before(call: &Call, image: &[u8]) -> Option<Before> {
    let (Call::Salvage { .. }, Some(layout)) = (call, layout_of(image)) else { return None };
    let refusal = check(image).map_or_else(|refusal| refusal.number as usize, |_| 0);
    Some(Before { layout, head: image[..BLOCK * LAYOUTS[layout].first()].to_vec(), refusal })
}

/// Counts a salvage, by what it was refused with, or 0, and what it reported.
pub fn count(counts: &mut Counts, before: &Before, refusal: u32, report: &[u8]) {
    let sum = &mut counts[before.layout];
    match refusal {
        0 => {
            sum.images[before.refusal] += 1;
            let told = &report[..LAYOUTS[before.layout].slots()];
            told.iter().for_each(|&said| sum.slots[usize::from(said)] += 1);
            count_freed(sum, before, report);
            count_types(sum, before, report);
        }
        21 => sum.short += 1,
        _ => {}
    }
}

/// Counts the kept slots that have name and type or a block of a dropped lower one.
fn count_freed(sum: &mut Salvages, before: &Before, report: &[u8]) {
    let layout = LAYOUTS[before.layout];
    let (mut names, mut blocks) = (Vec::new(), vec![false; layout.blocks()]);
    for (slot, said) in report[..layout.slots()].iter().enumerate() {
        let name = &before.head[layout.slot_at(slot)..][..TYPE_AT + 1];
        let chain = chain(layout, &before.head, slot);
        match said {
            0 => {}
            1 => {
                sum.names += usize::from(names.contains(&name));
                sum.chains += usize::from(chain.iter().any(|&block| blocks[block]));
            }
            _ => {
                names.push(name);
                chain.iter().for_each(|&block| blocks[block] = true);
            }
        }
    }
}

/// Counts the slots, kept or dropped by 5, whose name a kept lower slot has in another type.
fn count_types(sum: &mut Salvages, before: &Before, report: &[u8]) {
    let layout = LAYOUTS[before.layout];
    let mut kept: BTreeMap<&[u8], Vec<u8>> = BTreeMap::new();
    for (slot, said) in report[..layout.slots()].iter().enumerate() {
        let (name, file_type) = before.head[layout.slot_at(slot)..][..TYPE_AT + 1].split_at(TYPE_AT);
        let is_other = |types: &Vec<u8>| types.iter().any(|own| *own != file_type[0]);
        let met = usize::from(kept.get(name).is_some_and(is_other));
        match said {
            1 => {
                sum.types += met;
                kept.entry(name).or_default().push(file_type[0]);
            }
            5 => sum.beside += met,
            _ => {}
        }
    }
}

/// A slot's chain as far as it goes.
fn chain(layout: Layout, head: &[u8], slot: usize) -> Vec<usize> {
    let two = |at: usize| usize::from(head[at]) + 256 * usize::from(head[at + 1]);
    let entry = layout.slot_at(slot);
    let length = two(entry + 17) + 65_536 * usize::from(head[entry + 19]);
    let (mut chain, mut block) = (Vec::new(), two(entry + 20));
    while chain.len() < blocks_for(length).min(layout.blocks()) && layout.is_link(block) {
        chain.push(block);
        block = two(MAP_AT + 2 * block);
    }
    chain
}

impl Salvages {
    /// Adds other counts.
    pub fn add(&mut self, other: &Salvages) {
        self.images.iter_mut().zip(other.images).for_each(|(sum, more)| *sum += more);
        self.slots.iter_mut().zip(other.slots).for_each(|(sum, more)| *sum += more);
        self.names += other.names;
        self.types += other.types;
        self.beside += other.beside;
        self.chains += other.chains;
        self.short += other.short;
    }
}
