//! Files written to a new name beside the final one, synced, then renamed over it. An interrupted run leaves the final
//! name as it was, and perhaps the new one, a draft.

use crate::failure::{Failure, shown};
use crate::keep::{self, Old};
use crate::target::folder_of;
use crate::{folder, output};
use std::ffi::OsStr;
use std::fs::{self, File, OpenOptions, Permissions};
use std::io::{self, Write};
use std::os::unix::ffi::OsStrExt;
use std::os::unix::fs::{OpenOptionsExt, PermissionsExt};
use std::path::{Path, PathBuf};

/// A file being written under another name; dropped before it is kept, it is removed.
pub struct Beside {
    file: File,
    /// Opened before anything is written, so that a folder that can't be synced is refused while nothing is changed.
    folder: File,
    at: PathBuf,
    path: PathBuf,
    /// A mode with bits that Linux takes away when a file is written.
    mode: Option<u32>,
    kept: bool,
}

impl Beside {
    /// Begins a file where none is.
    pub fn new(path: &Path) -> Result<Beside, Failure> {
        Beside::begin(path, 0o666)
    }

    /// Begins a file that takes another's place, with all that it has. Before it has that, nobody else may open it.
    /// What can't be kept stands in the way, unless that is forced.
    pub fn replacing(path: &Path, old: &Old, force: bool) -> Result<Beside, Failure> {
        let mut draft = Beside::begin(path, 0o600)?;
        let (mode, lost) = keep::take_over(&draft.file, old).map_err(|error| Failure::file(path, error))?;
        draft.mode = Some(mode).filter(|mode| mode & 0o6000 != 0);
        match lost.words().filter(|_| !force) {
            None => Ok(draft),
            Some(what) => Err(Failure::file(
                path,
                io::Error::other(format!("{what} can't be kept; --force changes it all the same")),
            )),
        }
    }

    fn begin(path: &Path, mode: u32) -> Result<Beside, Failure> {
        let Some(name) = path.file_name() else {
            return Err(Failure::blocked(format!("{} is no name for a file", shown(path))));
        };
        let folder = folder_of(path);
        let open = open_folder(folder)?;
        let mut turn = 0;
        loop {
            let at = folder.join(draft_name(name, turn));
            match OpenOptions::new().write(true).create_new(true).mode(mode).open(&at) {
                Ok(file) => {
                    let path = path.to_path_buf();
                    return Ok(Beside { file, folder: open, at, path, mode: None, kept: false });
                }
                Err(error) if error.kind() == io::ErrorKind::AlreadyExists && turn < 100 => turn += 1,
                Err(error) => {
                    let words = format!("no file can be made beside it: {error}");
                    return Err(Failure::file(path, io::Error::other(words)));
                }
            }
        }
    }

    /// Writes more of it.
    pub fn write(&mut self, bytes: &[u8]) -> Result<(), Failure> {
        self.file.write_all(bytes).map_err(|error| Failure::file(&self.path, error))
    }

    /// Puts it under its final name. Once it is renamed it is in place: a sync of the folder that fails then is told,
    /// and is no failure of the run.
    pub fn keep(mut self) -> Result<(), Failure> {
        self.finish().map_err(|error| Failure::file(&self.path, error))?;
        self.kept = true;
        if let Err(error) = self.folder.sync_all() {
            let path = shown(&self.path);
            output::warn(&format!("{path} is in place, but may not survive a power cut: {error}"));
        }
        Ok(())
    }

    fn finish(&self) -> io::Result<()> {
        if let Some(mode) = self.mode {
            self.file.set_permissions(Permissions::from_mode(mode))?;
        }
        self.file.sync_all()?;
        fs::rename(&self.at, &self.path)
    }
}

impl Drop for Beside {
    fn drop(&mut self) {
        if !self.kept {
            let _ = fs::remove_file(&self.at); // the failure that led here is the one to tell
        }
    }
}

fn open_folder(folder: &Path) -> Result<File, Failure> {
    let folder_is = |error| format!("the folder {} can't be opened to sync it: {error}", shown(folder));
    File::open(folder).map_err(|error| Failure::blocked(folder_is(error)))
}

/// A hidden name in the same folder, so that the rename stays on one file system. It tells the final name by a hash, as
/// that may be as long as a name can be.
fn draft_name(name: &OsStr, turn: u32) -> String {
    format!(".sj-{:016x}-{}-{turn}", hash(name), std::process::id())
}

/// FNV-1a, which stays the same from version to version.
fn hash(name: &OsStr) -> u64 {
    let mix = |hash: u64, byte: &u8| (hash ^ u64::from(*byte)).wrapping_mul(0x0000_0100_0000_01b3);
    name.as_bytes().iter().fold(0xcbf2_9ce4_8422_2325, mix)
}

/// Removes the drafts that interrupted runs left beside a file. Whoever calls it holds the file's lock, so no run that
/// changes the file writes one now; a draft of another run, which is being copied out, has a process that is there.
pub fn remove_stale(path: &Path) {
    if !Path::new("/proc/self").exists() {
        return; // no process can be seen
    }
    for name in folder::names(folder_of(path)).unwrap_or_default() {
        let gone = |process: u32| !Path::new(&format!("/proc/{process}")).exists();
        let at = folder_of(path).join(&name);
        if drafted_by(path, &name).is_some_and(gone)
            && at.symlink_metadata().is_ok_and(|about| about.is_file())
        {
            let _ = fs::remove_file(at); // it is only in the way
        }
    }
}

/// The process whose draft of a file has a name; None if the name is no draft's.
fn drafted_by(path: &Path, name: &OsStr) -> Option<u32> {
    let start = format!(".sj-{:016x}-", hash(path.file_name()?));
    let (process, turn) = name.to_str()?.strip_prefix(&start)?.split_once('-')?;
    let number = |text: &str| text.parse().ok().filter(|number: &u32| number.to_string() == text);
    number(turn).and(number(process))
}

#[cfg(test)]
mod tests {
    use super::*;

    #[test]
    fn drafts_are_known_by_their_exact_names() {
        let process = |name: &str| drafted_by(Path::new("x/a.img"), OsStr::new(name));
        let start = format!(".sj-{:016x}", hash(OsStr::new("a.img")));
        assert_eq!(start, ".sj-65a206b5490edf35");
        assert_eq!(process(&format!("{start}-12-0")), Some(12));
        assert_eq!(process(&draft_name(OsStr::new("a.img"), 7)), Some(std::process::id()));
        for end in ["", "-", "-12", "-12-", "--0", "-012-0", "-+12-0", "-12-0.bak", "-12-0-0", "-12-00"] {
            assert_eq!(process(&format!("{start}{end}")), None, "{end}");
        }
        let other = draft_name(OsStr::new("b.img"), 0);
        for near in [&start[1..], &start.to_uppercase(), ".a.img.sj", &format!("{start}0"), &other[..20]] {
            assert_eq!(process(&format!("{near}-12-0")), None, "{near}");
        }
    }

    #[test]
    fn a_draft_of_the_longest_name_has_a_short_one() {
        assert!(draft_name(OsStr::new(&"x".repeat(255)), u32::MAX).len() < 50);
    }
}
