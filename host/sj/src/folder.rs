//! What a folder holds.

use std::ffi::OsString;
use std::fs::File;
use std::io;
use std::path::Path;

/// The names in a folder, sorted.
pub fn names(folder: &Path) -> io::Result<Vec<OsString>> {
    let mut names = system::folder::names(&File::open(folder)?)?;
    names.sort();
    Ok(names)
}
