//! Files written whole or not at all, wherever they go.

use crate::beside::Beside;
use crate::failure::Failure;
use crate::keep::Old;
use crate::output;
use crate::target::Target;
use std::fs::{File, OpenOptions};
use std::io::{self, ErrorKind, Write};
use std::path::{Path, PathBuf};
use system::descriptors;

/// A file being written, which reaches its place when it is kept.
pub struct Draft(Way);

enum Way {
    Beside(Beside),
    There(There),
}

/// What is written where it is, once all of it is known to be whole.
struct There {
    /// None is standard output.
    to: Option<File>,
    /// Whether the file is written from its start, and ends where the bytes do.
    whole: bool,
    path: PathBuf,
    bytes: Vec<u8>,
}

impl Draft {
    /// Begins a file: `-` is standard output. A plain file is replaced, and what takes its place has its mode and as
    /// much else of it as can be kept; links stay, and devices and pipes are written to.
    pub fn new(path: &Path) -> Result<Draft, Failure> {
        let failed = |error| Failure::file(path, error);
        let there =
            |to, whole| Draft(Way::There(There { to, whole, path: path.to_path_buf(), bytes: Vec::new() }));
        Ok(match Target::of(path)? {
            Target::Own(1) => there(None, false),
            Target::Own(number) => there(Some(descriptors::duplicate(number).map_err(failed)?), false),
            Target::There(at) => there(Some(OpenOptions::new().write(true).open(at).map_err(failed)?), true),
            Target::Plain(at) => Draft(Way::Beside(match Old::at(&at) {
                Ok(old) => Beside::replacing(&at, &old, true)?,
                Err(error) if error.kind() == ErrorKind::NotFound => Beside::new(&at)?,
                Err(error) => return Err(failed(error)),
            })),
        })
    }

    /// Writes more of it.
    pub fn write(&mut self, bytes: &[u8]) -> Result<(), Failure> {
        match &mut self.0 {
            Way::Beside(beside) => beside.write(bytes),
            Way::There(there) => {
                there.bytes.extend(bytes);
                Ok(())
            }
        }
    }

    /// Puts it in its place.
    pub fn keep(self) -> Result<(), Failure> {
        match self.0 {
            Way::Beside(beside) => beside.keep(),
            Way::There(There { to: None, bytes, .. }) => output::write(&bytes),
            Way::There(There { to: Some(file), whole, path, bytes }) => {
                deliver(file, whole, &bytes).map_err(|error| Failure::file(&path, error))
            }
        }
    }
}

/// Writes to what is open, and sees that it arrives where that can be seen.
fn deliver(mut file: File, whole: bool, bytes: &[u8]) -> io::Result<()> {
    file.write_all(bytes)?;
    if whole && file.metadata()?.is_file() {
        file.set_len(bytes.len() as u64)?;
    }
    match file.sync_all() {
        Err(error) if !matches!(error.kind(), ErrorKind::InvalidInput | ErrorKind::Unsupported) => Err(error),
        _ => descriptors::closed(file), // a pipe and many a device can't be synced
    }
}

/// Writes a whole file.
pub fn save(path: &Path, bytes: &[u8]) -> Result<(), Failure> {
    let mut draft = Draft::new(path)?;
    draft.write(bytes)?;
    draft.keep()
}
