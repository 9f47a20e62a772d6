//! What `sj` asks of Linux and the standard library has no safe call for: extended attributes, a folder's names
//! without a panic when it is closed, and the standard descriptors as they were when the process began.
//!
//! All unsafe code of the command is here. The functions are the C library's, declared where they are used.
#![warn(clippy::undocumented_unsafe_blocks)]

pub mod attributes;
pub mod descriptors;
pub mod folder;
