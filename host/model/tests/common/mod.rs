//! Disks made by hand.

use model::layout::{Kind, Layout};

/// A disk with zeros all over but for what the kind asks.
pub fn empty(layout: Layout) -> Vec<u8> {
    let mut image = vec![0; layout.image_bytes()];
    match layout.kind {
        Kind::S900 => return image,
        Kind::S1000 => (0..64).for_each(|slot| image[24 * slot + 23] = 3),
        Kind::S3000 => image[16] = 255,
    }
    (0..layout.first()).for_each(|block| map(&mut image, block, 16384));
    image
}

/// Sets a map value.
pub fn map(image: &mut [u8], block: usize, value: u16) {
    image[1536 + 2 * block..][..2].copy_from_slice(&value.to_le_bytes());
}

/// Where a slot begins.
pub fn at(image: &[u8], slot: usize) -> usize {
    24 * slot + if is_s3000(image) { 5120 } else { 0 }
}

fn is_s3000(image: &[u8]) -> bool {
    image[16] == 255 && image.len() == 1_638_400
}

/// A used slot whose name is one or two characters and spaces.
pub fn slot(image: &mut [u8], number: usize, length: u32, start: u16) {
    let (s900, s3000) = (image[23] == 0 && !is_s3000(image), is_s3000(image));
    let from = at(image, number);
    let bytes = &mut image[from..][..24];
    let (first, space, name_type) = if s900 { (b'A', b' ', b'S') } else { (11, 10, b's') };
    bytes[..12].fill(space);
    bytes[0] = first + (number % 26) as u8;
    bytes[1] = space + (number / 26) as u8;
    bytes[16] = name_type;
    bytes[17..20].copy_from_slice(&length.to_le_bytes()[..3]);
    bytes[20..22].copy_from_slice(&start.to_le_bytes());
    if s900 {
        bytes[10..16].fill(0);
    } else if s3000 {
        bytes[12..17].copy_from_slice(&[0, 0, 0, 2, 211]);
        bytes[22..].copy_from_slice(&[0, 12]);
    } else {
        bytes[12..16].fill(32);
    }
}
