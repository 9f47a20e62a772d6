//! Floppy images of Akai S900, S950, S1000 and S3000 samplers, read and written by proved code.
//!
//! The calls are those of `include/skilletjay.h`, on Rust's own slices. An [`Image`] is any bytes, owned or
//! borrowed; every call checks it first, so nothing has to be checked before. A call that can't be done gives a
//! [`Refusal`] and changes nothing. An image that is refused can be mended, with [`Image::salvage`]. A file is known by
//! its name and its type together, or by its slot.
//!
//! ```
//! use skilletjay::{Image, Kind};
//!
//! // 819,200 zeros are an S900 disk of low density without files.
//! let mut image = Image::new(vec![0; 819_200]);
//! let slot = image.put("BASS C2   ", b'S', b"any bytes")?;
//! assert_eq!(image.check()?.files, 1);
//! assert_eq!(image.list(slot)?.length, 9);
//! assert_eq!(image.read(slot)?, b"any bytes");
//!
//! let refusal = image.put("BASS C2   ", b'S', b"others").unwrap_err();
//! assert_eq!((refusal.number(), refusal.place()), (12, 0));
//! assert_eq!(image.check()?.kind, Kind::S900);
//! # Ok::<(), skilletjay::Refusal>(())
//! ```
//!
//! A large file is best taken page by page, with [`Image::download`]; an image that is dear to fetch needn't be
//! fetched whole, see [`Image::blocks`]. Sample and program files have their own modules, [`sample`] and [`program`], and
//! [`rows`] says in words where one of them is refused.

mod download;
mod image;
pub mod lend;
mod lend_files;
pub mod program;
pub mod raw;
mod refusal;
pub mod rows;
mod salvage;
pub mod sample;

pub use download::Download;
pub use image::{BLOCK, Checked, Density, Entry, HEAD, Image, Kind, MOST_SLOTS, Paged, Slot};
pub use refusal::{Place, Refusal};
pub use salvage::{Fate, Salvaged};
pub use sample::SampleKind;
