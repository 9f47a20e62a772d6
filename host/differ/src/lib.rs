//! Holds the library to the model: the same calls on the same bytes, compared after each call in answer, image
//! and output.
//!
//! A seed decides a whole case: its disk or file, and every call. [`case::run`] runs one;
//! [`case::run_every_byte`] tries every value of every byte of sample headers and programs.
#![forbid(unsafe_code)]

pub mod call;
pub mod case;
mod choose;
pub mod costs;
mod disks;
mod programs;
pub mod salvages;
mod samples;
mod scripts;
pub mod spellings;
pub mod types;
