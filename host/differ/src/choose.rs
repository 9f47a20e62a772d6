//! Arguments, legal and not.

use crate::call::{Call, MARGIN};
use model::disk::{Disk, File};
use model::layout::{BLOCK, Layout};
use model::maker::{legal_name, legal_type, respelt};
use model::random::Random;

/// An output of a length with its margins, all noise.
pub fn output(length: usize, random: &mut Random) -> Vec<u8> {
    random.bytes(length + 2 * MARGIN)
}

/// An output of words with its margins.
pub fn words(length: usize, random: &mut Random) -> Vec<i16> {
    (0..length + 2 * MARGIN).map(|_| random.next_number() as i16).collect()
}

/// An output of block numbers with its margins.
pub fn block_numbers(length: usize, random: &mut Random) -> Vec<u16> {
    (0..length + 2 * MARGIN).map(|_| random.next_number() as u16).collect()
}

/// A length near one that is due.
pub fn near(due: usize, random: &mut Random) -> usize {
    match random.below(6) {
        0 => due.saturating_sub(1),
        1 => due + random.below(40),
        2 => random.below(due + 1),
        _ => due,
    }
}

/// A name and a type: those of a file on the disk, the name to the letter or in another spelling; its name in any type; new ones; or
/// illegal ones.
pub fn file(layout: Layout, disk: Option<&Disk>, random: &mut Random) -> (Vec<u8>, u8) {
    let (mut name, mut file_type) = (legal_name(layout.kind, random), legal_type(layout.kind, random));
    if random.one_in(2)
        && let Some(file) = disk.and_then(|disk| some_file(disk, random))
    {
        name.clone_from(&file.name);
        file_type = if random.one_in(4) { file_type } else { file.file_type };
    }
    if random.one_in(3) {
        name = respelt(&name, random);
    }
    (some_name(name, random), some_type(file_type, random))
}

/// A file on the disk, if there is one, and often the last.
fn some_file<'a>(disk: &'a Disk, random: &mut Random) -> Option<&'a File> {
    let slots = used(disk);
    let last = slots.last().filter(|_| random.one_in(8));
    disk.file(*last.or_else(|| slots.get(random.below(slots.len())))?)
}

/// A legal name, now and then made an illegal one.
fn some_name(mut name: Vec<u8>, random: &mut Random) -> Vec<u8> {
    match random.below(30) {
        0 => name.truncate(random.below(name.len())),
        1 => name.push(b' '),
        2 => name.extend_from_slice(b"  "),
        3 => name.resize(random.pick(&[0, 1, 9, 10, 11, 12, 13, 16, 300]), b' '),
        4 => {
            let at = random.below(name.len());
            name[at] =
                random.pick(&[0, 10, 31, 32, 40, 41, 58, 64, 91, 96, 97, 122, 123, 126, 127, 128, 255]);
        }
        5 => {
            let at = random.below(name.len());
            name[at] = random.byte();
        }
        _ => {}
    }
    name
}

/// A legal type; now and then any, one at the ends of a kind's, or the same letter as another kind has it.
fn some_type(file_type: u8, random: &mut Random) -> u8 {
    match random.below(30) {
        0 => random.byte(),
        1 | 2 => {
            random.pick(&[0, 0, 64, 65, 83, 90, 91, 96, 97, 115, 122, 123, 192, 193, 211, 218, 219, 255, 255])
        }
        3 | 4 => file_type ^ random.pick(&[32, 128, 160]),
        _ => file_type,
    }
}

/// A disk's used slots.
pub fn used(disk: &Disk) -> Vec<usize> {
    (0..disk.files.len()).filter(|&slot| disk.file(slot).is_some()).collect()
}

/// A slot, mostly of the directory.
pub fn slot(layout: Layout, disk: Option<&Disk>, random: &mut Random) -> usize {
    let used = disk.map_or(Vec::new(), used);
    if !used.is_empty() && !random.one_in(3) {
        return random.pick(&used);
    }
    match random.below(10) {
        0 => {
            random.pick(&[usize::MAX, usize::MAX - 1, 1 << 32, 1 << 63, 256, 1 << 16, 63, 64, 511, 512, 513])
        }
        _ => random.below(layout.slots() + 7),
    }
}

/// An offset: around block edges, around the end, or huge.
pub fn offset(length: usize, random: &mut Random) -> usize {
    let near = random.pick(&[0usize, 1, 2]);
    match random.below(8) {
        0 => 0,
        1 | 2 => (BLOCK * random.below(length / BLOCK + 2) + near).saturating_sub(1),
        3 | 4 => (length + near).saturating_sub(1),
        5 => random.pick(&[usize::MAX, usize::MAX - 1023, 1 << 32, 1 << 24, (1 << 32) + 1]),
        _ => random.below(length + 2),
    }
}

/// A length for a page's output.
fn page_length(length: usize, random: &mut Random) -> usize {
    match random.below(12) {
        0 => 0,
        1 => 1,
        2 => length + random.below(2000),
        3 => random.below(length + 1),
        4 | 5 => random.pick(&[1023, 1024, 1025, 2048, 2049]),
        _ => random.below(4000),
    }
}

/// A report for a salvage, one in three too short; now and then one that would do for another kind.
fn report(layout: Layout, random: &mut Random) -> Vec<u8> {
    let due = if random.one_in(8) { random.pick(&[64, 512]) } else { layout.slots() };
    let length = near(due, random);
    output(length, random)
}

/// A call for a slot's blocks: no output, one too short, one that fits, or a longer one.
fn blocks(layout: Layout, disk: Option<&Disk>, random: &mut Random) -> Call {
    let slot = slot(layout, disk, random);
    let due = disk.and_then(|disk| disk.file(slot)).map_or(2, |file| file.chain.len());
    let length = if random.one_in(8) { 0 } else { near(due, random) };
    Call::Blocks { slot, output: block_numbers(length, random) }
}

/// A length for a content: edges, what just fits, what just doesn't.
fn content_length(free: usize, random: &mut Random) -> usize {
    match random.below(20) {
        0 => BLOCK * free,
        1 => BLOCK * free + 1,
        2 => (BLOCK * free).saturating_sub(random.below(1100)),
        3 => BLOCK * random.below(free + 2),
        4 => random.below(200_000),
        5 if random.one_in(20) => random.pick(&[16_777_215, 16_777_216, 1_638_401]),
        _ => random.pick(&[0, 1, 2, 1023, 1024, 1025, 2047, 2048, 2049, 3000, 5000]),
    }
}

/// Any call on a disk; `puts` of ten calls that change it put.
pub fn call(layout: Layout, disk: Option<&Disk>, puts: usize, random: &mut Random) -> Call {
    match random.below(13) {
        0 => Call::Check,
        1 => Call::List { slot: slot(layout, disk, random) },
        2 | 3 => {
            let (name, file_type) = file(layout, disk, random);
            Call::Find { name, file_type }
        }
        4..=6 => {
            let slot = slot(layout, disk, random);
            let length = disk.and_then(|disk| disk.file(slot)).map_or(1500, |file| file.length);
            let offset = offset(length, random);
            Call::Page {
                slot,
                offset,
                output: output(page_length(length.saturating_sub(offset), random), random),
            }
        }
        7 => blocks(layout, disk, random),
        8 => Call::Salvage { report: report(layout, random) },
        _ if random.below(10) < puts => {
            let length = content_length(disk.map_or(3, |disk| disk.free().len()), random);
            let (name, file_type) = file(layout, disk, random);
            Call::Put { name, file_type, content: random.bytes(length) }
        }
        _ => {
            let (name, file_type) = file(layout, disk, random);
            Call::Remove { name, file_type }
        }
    }
}

/// One call of each sort.
pub fn each(layout: Layout, disk: Option<&Disk>, random: &mut Random) -> Vec<Call> {
    let (slot, offset) = (slot(layout, disk, random), offset(2000, random));
    let (name, file_type) = file(layout, disk, random);
    let content = random.below(3000);
    vec![
        Call::Check,
        Call::List { slot },
        Call::Find { name: name.clone(), file_type },
        Call::Page { slot, offset, output: output(random.below(3000), random) },
        blocks(layout, disk, random),
        Call::Put { name: name.clone(), file_type, content: random.bytes(content) },
        Call::Remove { name, file_type },
    ]
}
