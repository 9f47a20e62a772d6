//! Files to read, of which one may be standard input.

use crate::failure::Failure;
use std::fs::{self, File, Metadata};
use std::io;
use std::path::Path;
use std::sync::atomic::{AtomicBool, Ordering::Relaxed};
use system::descriptors;

/// Whether a path is `-`, which stands for standard input, or for standard output where something is written.
pub fn is_standard(path: &Path) -> bool {
    path.as_os_str() == "-"
}

/// What messages call a file that is read.
pub fn called(path: &Path) -> &Path {
    if is_standard(path) { Path::new("standard input") } else { path }
}

/// Opens a file to read it.
pub fn open(path: &Path) -> Result<File, Failure> {
    let file = if is_standard(path) { standard() } else { File::open(path) };
    file.map_err(|error| Failure::file(called(path), error))
}

/// Standard input. It is one file, and it can be read once.
fn standard() -> io::Result<File> {
    static TAKEN: AtomicBool = AtomicBool::new(false);
    if TAKEN.swap(true, Relaxed) {
        return Err(io::Error::other("it is read already, and can be only once"));
    }
    descriptors::input()?.try_clone()
}

/// About a file that is read.
pub fn about(path: &Path) -> io::Result<Metadata> {
    if is_standard(path) { descriptors::input()?.metadata() } else { fs::metadata(path) }
}
