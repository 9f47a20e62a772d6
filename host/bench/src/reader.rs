//! A page reader in plain Rust, on an image that was checked.

use model::layout::{BLOCK, MAP_AT, SLOT_BYTES};

/// Copies a file's bytes from an offset on, a run for each block; gives their number and whether the file ends with them. The file's slot
/// lies at an offset of its own.
pub fn page(image: &[u8], slot_at: usize, offset: usize, out: &mut [u8]) -> Option<(usize, bool)> {
    let entry = image.get(slot_at..slot_at + SLOT_BYTES)?;
    let length = usize::from(entry[17]) | usize::from(entry[18]) << 8 | usize::from(entry[19]) << 16;
    if entry[16] == 0 || offset > length {
        return None;
    }
    let count = out.len().min(length - offset);
    let mut block = value(entry, 20);
    for _ in 0..offset / BLOCK {
        block = value(image, MAP_AT + 2 * block);
    }
    let (mut within, mut rest) = (offset % BLOCK, &mut out[..count]);
    while !rest.is_empty() {
        let (run, after) = rest.split_at_mut(rest.len().min(BLOCK - within));
        run.copy_from_slice(&image[BLOCK * block + within..][..run.len()]);
        (within, rest, block) = (0, after, value(image, MAP_AT + 2 * block));
    }
    Some((count, offset + count == length))
}

fn value(image: &[u8], at: usize) -> usize {
    usize::from(image[at]) | usize::from(image[at + 1]) << 8
}
