//! The C functions as `include/skilletjay.h` declares them. Every declaration of them in this workspace is here.
//!
//! A slice is a pointer and a length, and one of length 0 may be null. Nothing lent to one call may overlap
//! anything else lent to it. `refusal` is 0 when the call was done; else every other field but `place` is 0.
#![allow(missing_docs)] // the header documents them

#[repr(C)]
#[derive(Clone, Copy, Debug, Default, PartialEq, Eq)]
pub struct Checked {
    pub refusal: u32,
    pub place: usize,
    pub kind: u32,
    pub density: u32,
    pub files: usize,
    pub free: usize,
}

#[repr(C)]
#[derive(Clone, Copy, Debug, Default, PartialEq, Eq)]
pub struct Listed {
    pub refusal: u32,
    pub place: usize,
    pub name: [u8; 12],
    pub file_type: u8,
    pub length: usize,
}

#[repr(C)]
#[derive(Clone, Copy, Debug, Default, PartialEq, Eq)]
pub struct Found {
    pub refusal: u32,
    pub place: usize,
    pub slot: usize,
}

#[repr(C)]
#[derive(Clone, Copy, Debug, Default, PartialEq, Eq)]
pub struct Paged {
    pub refusal: u32,
    pub place: usize,
    pub count: usize,
    /// C's bool, read as the byte it is: a test must be able to see one that is neither 0 nor 1.
    pub end: u8,
}

#[repr(C)]
#[derive(Clone, Copy, Debug, Default, PartialEq, Eq)]
pub struct Done {
    pub refusal: u32,
    pub place: usize,
}

#[repr(C)]
#[derive(Clone, Copy, Debug, Default, PartialEq, Eq)]
pub struct Counted {
    pub refusal: u32,
    pub place: usize,
    pub count: usize,
}

unsafe extern "C" {
    pub fn sj_check(image: *const u8, image_len: usize) -> Checked;
    pub fn sj_list(image: *const u8, image_len: usize, slot: usize) -> Listed;
    pub fn sj_find(
        image: *const u8,
        image_len: usize,
        name: *const u8,
        name_len: usize,
        file_type: u8,
    ) -> Found;
    pub fn sj_page(
        image: *const u8,
        image_len: usize,
        slot: usize,
        offset: usize,
        out: *mut u8,
        out_len: usize,
    ) -> Paged;
    pub fn sj_blocks(
        image: *const u8,
        image_len: usize,
        slot: usize,
        blocks: *mut u16,
        blocks_len: usize,
    ) -> Counted;
    pub fn sj_put(
        image: *mut u8,
        image_len: usize,
        name: *const u8,
        name_len: usize,
        file_type: u8,
        content: *const u8,
        content_len: usize,
    ) -> Found;
    pub fn sj_remove(
        image: *mut u8,
        image_len: usize,
        name: *const u8,
        name_len: usize,
        file_type: u8,
    ) -> Done;
    pub fn sj_salvage(image: *mut u8, image_len: usize, report: *mut u8, report_len: usize) -> Counted;
    pub fn sj_run(
        image: *mut u8,
        image_len: usize,
        script: *const u8,
        script_len: usize,
        pool: *const u8,
        pool_len: usize,
        out: *mut u8,
        out_len: usize,
    ) -> usize;
    pub fn sj_s900_unpack(file: *const u8, file_len: usize, words: *mut i16, words_len: usize) -> Counted;
    pub fn sj_s900_pack(
        header: *const u8,
        header_len: usize,
        words: *const i16,
        words_len: usize,
        out: *mut u8,
        out_len: usize,
    ) -> Counted;
    pub fn sj_s1000_unpack(file: *const u8, file_len: usize, words: *mut i16, words_len: usize) -> Counted;
    pub fn sj_s1000_pack(
        header: *const u8,
        header_len: usize,
        words: *const i16,
        words_len: usize,
        out: *mut u8,
        out_len: usize,
    ) -> Counted;
    pub fn sj_program(file: *const u8, file_len: usize) -> Counted;
}
