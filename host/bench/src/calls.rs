//! The C functions that are raced: the library's, and the peer's of the same signatures. All of them are called here.

use model::layout::Kind;
use skilletjay::raw::{self, Checked, Counted, Done, Found};

type Check = unsafe extern "C" fn(*const u8, usize) -> Checked;
type Find = unsafe extern "C" fn(*const u8, usize, *const u8, usize, u8) -> Found;
type Put = unsafe extern "C" fn(*mut u8, usize, *const u8, usize, u8, *const u8, usize) -> Found;
type Remove = unsafe extern "C" fn(*mut u8, usize, *const u8, usize, u8) -> Done;
type Salvage = unsafe extern "C" fn(*mut u8, usize, *mut u8, usize) -> Counted;
type Unpack = unsafe extern "C" fn(*const u8, usize, *mut i16, usize) -> Counted;
type Pack = unsafe extern "C" fn(*const u8, usize, *const i16, usize, *mut u8, usize) -> Counted;

/// One side's functions.
pub struct Calls {
    check: Check,
    find: Find,
    put: Put,
    remove: Remove,
    salvage: Salvage,
    s900: (Unpack, Pack),
    s1000: (Unpack, Pack),
}

/// The library.
pub const LIBRARY: Calls = Calls {
    check: raw::sj_check,
    find: raw::sj_find,
    put: raw::sj_put,
    remove: raw::sj_remove,
    salvage: raw::sj_salvage,
    s900: (raw::sj_s900_unpack, raw::sj_s900_pack),
    s1000: (raw::sj_s1000_unpack, raw::sj_s1000_pack),
};

/// Plain C of `peer/`.
pub const PEER: Calls = Calls {
    check: peer_check,
    find: peer_find,
    put: peer_put,
    remove: peer_remove,
    salvage: peer_salvage,
    s900: (peer_s900_unpack, peer_s900_pack),
    s1000: (peer_s1000_unpack, peer_s1000_pack),
};

#[rustfmt::skip] // one line each, as in the header
unsafe extern "C" {
    fn peer_check(image: *const u8, image_len: usize) -> Checked;
    fn peer_check_pairs(image: *const u8, image_len: usize) -> Checked;
    fn peer_check_hashes(image: *const u8, image_len: usize) -> Checked;
    fn peer_find(image: *const u8, image_len: usize, name: *const u8, name_len: usize, file_type: u8) -> Found;
    fn peer_put(image: *mut u8, image_len: usize, name: *const u8, name_len: usize, file_type: u8, content: *const u8, content_len: usize) -> Found;
    fn peer_remove(image: *mut u8, image_len: usize, name: *const u8, name_len: usize, file_type: u8) -> Done;
    fn peer_salvage(image: *mut u8, image_len: usize, report: *mut u8, report_len: usize) -> Counted;
    fn peer_s900_unpack(file: *const u8, file_len: usize, words: *mut i16, words_len: usize) -> Counted;
    fn peer_s900_pack(header: *const u8, header_len: usize, words: *const i16, words_len: usize, out: *mut u8, out_len: usize) -> Counted;
    fn peer_s1000_unpack(file: *const u8, file_len: usize, words: *mut i16, words_len: usize) -> Counted;
    fn peer_s1000_pack(header: *const u8, header_len: usize, words: *const i16, words_len: usize, out: *mut u8, out_len: usize) -> Counted;
}

/// Plain C whose check compares all pairs of names.
pub const PAIRS: Calls = Calls { check: peer_check_pairs, ..PEER };

/// Plain C whose check finds names by a table of hashes, also on disks of 64 slots.
pub const HASHES: Calls = Calls { check: peer_check_hashes, ..PEER };

// SAFETY of all calls below: slices are lent for their lengths, mutable ones lie apart from all others, and neither side writes
// to what it is lent as const.
impl Calls {
    pub fn check(&self, image: &[u8]) -> Checked {
        unsafe { (self.check)(image.as_ptr(), image.len()) }
    }

    pub fn find(&self, image: &[u8], name: &[u8], file_type: u8) -> Found {
        unsafe { (self.find)(image.as_ptr(), image.len(), name.as_ptr(), name.len(), file_type) }
    }

    pub fn put(&self, image: &mut [u8], name: &[u8], file_type: u8, content: &[u8]) -> Found {
        let (at, length) = (image.as_mut_ptr(), image.len());
        unsafe {
            (self.put)(at, length, name.as_ptr(), name.len(), file_type, content.as_ptr(), content.len())
        }
    }

    pub fn remove(&self, image: &mut [u8], name: &[u8], file_type: u8) -> Done {
        unsafe { (self.remove)(image.as_mut_ptr(), image.len(), name.as_ptr(), name.len(), file_type) }
    }

    pub fn salvage(&self, image: &mut [u8], report: &mut [u8]) -> Counted {
        unsafe { (self.salvage)(image.as_mut_ptr(), image.len(), report.as_mut_ptr(), report.len()) }
    }

    pub fn unpack(&self, kind: Kind, file: &[u8], words: &mut [i16]) -> Counted {
        let unpack = if kind == Kind::S900 { self.s900.0 } else { self.s1000.0 };
        unsafe { unpack(file.as_ptr(), file.len(), words.as_mut_ptr(), words.len()) }
    }

    pub fn pack(&self, kind: Kind, header: &[u8], words: &[i16], out: &mut [u8]) -> Counted {
        let pack = if kind == Kind::S900 { self.s900.1 } else { self.s1000.1 };
        let (at, length) = (out.as_mut_ptr(), out.len());
        unsafe { pack(header.as_ptr(), header.len(), words.as_ptr(), words.len(), at, length) }
    }
}
