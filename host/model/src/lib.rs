//! The rules of document 01, written down a second time: plain, safe and slow.
//!
//! Nothing here is shared with the library: no code, no table, no constant. Each call takes the whole disk
//! apart, asks the rules in the paper's order, and puts the answer together by the shortest way. So where
//! library and model agree, two independent readings of the paper agree.
//!
//! [`calls`] has the disk calls, [`salvage`] the run that mends a disk, [`samples`] and [`program`] the files, [`script`] whole scripts of calls, [`record`] the plain record of files
//! that a sequence of calls must behave as, and [`maker`], [`faults`] and [`files`] make disks and
//! files for tests. [`tour`] is a disk to try the command on, and [`cases`] asks the program of that name.
#![forbid(unsafe_code)]

pub mod calls;
pub mod cases;
pub mod disk;
pub mod faults;
pub mod files;
pub mod layout;
pub mod maker;
pub mod names;
pub mod program;
pub mod random;
pub mod record;
pub mod salvage;
pub mod samples;
pub mod script;
pub mod tour;

/// A refusal: document 01's number and place.
#[derive(Clone, Copy, Debug, PartialEq, Eq)]
pub struct Refusal {
    /// 1 to 21.
    pub number: u32,
    /// A slot, a block, an offset or an index, as the number says; else 0.
    pub place: usize,
}

/// What a call gives: its answer or a refusal.
pub type Answer<T> = Result<T, Refusal>;

/// Refuses by a number at a place.
pub(crate) fn refuse<T>(number: u32, place: usize) -> Answer<T> {
    Err(Refusal { number, place })
}

/// A number of some bytes, least significant first.
pub(crate) fn number(bytes: &[u8]) -> usize {
    bytes.iter().rev().fold(0, |high, &byte| high * 256 + usize::from(byte))
}

/// A number stored in all of some bytes, least significant first.
pub(crate) fn store(bytes: &mut [u8], mut number: usize) {
    for byte in bytes {
        *byte = (number % 256) as u8;
        number /= 256;
    }
}
