//! The C functions for sample and program files on Rust slices.

use crate::lend::{apart, lent, lent_mut};
use crate::raw::{self, Counted};

/// A function that unpacks a sample's words.
type Unpack = unsafe extern "C" fn(*const u8, usize, *mut i16, usize) -> Counted;
/// A function that packs a header and words.
type Pack = unsafe extern "C" fn(*const u8, usize, *const i16, usize, *mut u8, usize) -> Counted;

fn unpack(with: Unpack, file: &[u8], words: &mut [i16]) -> Counted {
    // SAFETY: the file is readable and the words are writable for their number; a mutable slice lies apart.
    unsafe { with(lent(file), file.len(), lent_mut(words), words.len()) }
}

fn pack(with: Pack, header: &[u8], words: &[i16], output: &mut [u8]) -> Counted {
    let header = apart(header, words); // a caller may see words as bytes, by means of its own
    let (at, length) = (lent_mut(output), output.len());
    // SAFETY: header and words are readable and the output is writable for their lengths; the output is a
    // mutable slice, and header and words lie apart, so all three do.
    unsafe { with(lent(&header), header.len(), lent(words), words.len(), at, length) }
}

/// `sj_s900_unpack`.
pub fn s900_unpack(file: &[u8], words: &mut [i16]) -> Counted {
    unpack(raw::sj_s900_unpack, file, words)
}

/// `sj_s900_pack`.
pub fn s900_pack(header: &[u8], words: &[i16], output: &mut [u8]) -> Counted {
    pack(raw::sj_s900_pack, header, words, output)
}

/// `sj_s1000_unpack`.
pub fn s1000_unpack(file: &[u8], words: &mut [i16]) -> Counted {
    unpack(raw::sj_s1000_unpack, file, words)
}

/// `sj_s1000_pack`.
pub fn s1000_pack(header: &[u8], words: &[i16], output: &mut [u8]) -> Counted {
    pack(raw::sj_s1000_pack, header, words, output)
}

/// `sj_program`.
pub fn program(file: &[u8]) -> Counted {
    // SAFETY: the file is readable for its length.
    unsafe { raw::sj_program(lent(file), file.len()) }
}
