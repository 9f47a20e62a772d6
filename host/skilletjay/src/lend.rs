//! The C functions on Rust slices. Here and in `lend_files` is all unsafe code of the binding.
//!
//! Each function lends its slices for the time of the call, and none but them, so that who compares them afterwards
//! sees what the library did. A mutable slice can't overlap another in Rust. Two shared ones can; then one is copied.

use crate::raw::{self, Checked, Counted, Done, Found, Listed, Paged};
use std::borrow::Cow;
use std::ptr;

pub use crate::lend_files::*;

/// The header lets an empty slice be a null pointer; Rust's would point to nothing in particular.
pub(crate) fn lent<T>(slice: &[T]) -> *const T {
    if slice.is_empty() { ptr::null() } else { slice.as_ptr() }
}

pub(crate) fn lent_mut<T>(slice: &mut [T]) -> *mut T {
    if slice.is_empty() { ptr::null_mut() } else { slice.as_mut_ptr() }
}

/// A slice that lies apart from another: itself, or a copy if the two overlap.
pub(crate) fn apart<'a, T: Clone, U>(slice: &'a [T], other: &[U]) -> Cow<'a, [T]> {
    let (one, other) = (slice.as_ptr_range(), other.as_ptr_range());
    let before = one.end.cast::<u8>() <= other.start.cast();
    let after = other.end.cast::<u8>() <= one.start.cast();
    if before || after { Cow::Borrowed(slice) } else { Cow::Owned(slice.to_vec()) }
}

/// `sj_check`.
pub fn check(image: &[u8]) -> Checked {
    // SAFETY: the image is readable for its length.
    unsafe { raw::sj_check(lent(image), image.len()) }
}

/// `sj_list`.
pub fn list(image: &[u8], slot: usize) -> Listed {
    // SAFETY: the image is readable for its length.
    unsafe { raw::sj_list(lent(image), image.len(), slot) }
}

/// `sj_find`.
pub fn find(image: &[u8], name: &[u8], file_type: u8) -> Found {
    let name = apart(name, image);
    // SAFETY: image and name are readable for their lengths and lie apart.
    unsafe { raw::sj_find(lent(image), image.len(), lent(&name), name.len(), file_type) }
}

/// `sj_page`.
pub fn page(image: &[u8], slot: usize, offset: usize, output: &mut [u8]) -> Paged {
    // SAFETY: the image is readable and the output writable for its length; a mutable slice lies apart.
    unsafe { raw::sj_page(lent(image), image.len(), slot, offset, lent_mut(output), output.len()) }
}

/// `sj_blocks`.
pub fn blocks(image: &[u8], slot: usize, output: &mut [u16]) -> Counted {
    // SAFETY: the image is readable and the output writable for its number; a mutable slice lies apart.
    unsafe { raw::sj_blocks(lent(image), image.len(), slot, lent_mut(output), output.len()) }
}

/// `sj_put`.
pub fn put(image: &mut [u8], name: &[u8], file_type: u8, content: &[u8]) -> Found {
    let name = apart(name, content);
    let (at, length) = (lent_mut(image), image.len());
    // SAFETY: the image is writable, name and content are readable for their lengths; the image is a mutable
    // slice, and name and content lie apart, so all three do.
    unsafe { raw::sj_put(at, length, lent(&name), name.len(), file_type, lent(content), content.len()) }
}

/// `sj_remove`.
pub fn remove(image: &mut [u8], name: &[u8], file_type: u8) -> Done {
    // SAFETY: the image is writable and the name readable for its length; a mutable slice lies apart.
    unsafe { raw::sj_remove(lent_mut(image), image.len(), lent(name), name.len(), file_type) }
}

/// `sj_salvage`.
pub fn salvage(image: &mut [u8], report: &mut [u8]) -> Counted {
    // SAFETY: image and report are writable for their lengths; two mutable slices lie apart.
    unsafe { raw::sj_salvage(lent_mut(image), image.len(), lent_mut(report), report.len()) }
}

/// `sj_run`.
pub fn run(image: &mut [u8], script: &[u8], pool: &[u8], output: &mut [u8]) -> usize {
    let script = apart(script, pool);
    let (image_at, image_length) = (lent_mut(image), image.len());
    let (output_at, output_length) = (lent_mut(output), output.len());
    let (script_at, pool_at) = (lent(&script), lent(pool));
    // SAFETY: image and output are writable, script and pool are readable for their lengths; image and output are
    // mutable slices, and script and pool lie apart, so all four do.
    unsafe {
        raw::sj_run(
            image_at,
            image_length,
            script_at,
            script.len(),
            pool_at,
            pool.len(),
            output_at,
            output_length,
        )
    }
}

#[cfg(test)]
mod tests {
    use super::*;

    /// Only what overlaps is copied; slices that touch, or are empty, lie apart.
    #[test]
    fn what_overlaps_is_copied() {
        let bytes = [1u8, 2, 3, 4, 5, 6];
        let copied = |one: &[u8], other: &[u8]| match apart(one, other) {
            Cow::Borrowed(same) => {
                assert!(ptr::eq(same, one));
                false
            }
            Cow::Owned(copy) => {
                assert_eq!(copy, one);
                true
            }
        };
        for (one, other) in
            [(0..2, 2..6), (2..6, 0..2), (3..3, 4..6), (0..0, 0..0), (6..6, 0..6), (0..0, 0..6)]
        {
            assert!(!copied(&bytes[one], &bytes[other]));
        }
        for (one, other) in [(0..3, 2..6), (2..6, 0..3), (0..6, 0..6), (1..2, 0..6), (0..6, 1..2)] {
            assert!(copied(&bytes[one], &bytes[other]));
        }
    }

    #[test]
    fn overlapping_names_and_scripts_may_be_lent() {
        let mut image = vec![0; 819_200];
        let content = b"A         and more";
        assert_eq!(put(&mut image, &content[..10], b'S', content), Found::default());
        assert_eq!(find(&image, &image[..10], b'S'), Found::default());
        let mut pool = [0; 30]; // a find of the name that follows its entry
        pool[..20].copy_from_slice(&[2, b'S', 0, 0, 20, 0, 0, 0, 10, 0, 0, 0, 0, 0, 0, 0, 0, 0, 0, 0]);
        pool[20..].copy_from_slice(&content[..10]);
        let mut output = [9; 1044];
        assert_eq!(run(&mut image, &pool[..20], &pool, &mut output), 1);
        assert_eq!(output[..20], [0; 20]);
    }
}
