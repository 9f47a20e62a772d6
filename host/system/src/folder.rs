//! What a folder holds. The standard library's reader panics where the folder can't be closed without an error; here
//! it is an open file like any other, and what its closing says is of no concern to who has read it.

use std::ffi::{OsString, c_int, c_void};
use std::fs::File;
use std::io;
use std::os::fd::AsRawFd;
use std::os::unix::ffi::OsStringExt;

unsafe extern "C" {
    fn getdents64(descriptor: c_int, entries: *mut c_void, size: usize) -> isize;
}

/// Where an entry tells its length, and where its name begins.
const LENGTH: usize = 16;
const NAME: usize = 19;

/// The names in an open folder, but for `.` and `..`, in no order.
pub fn names(folder: &File) -> io::Result<Vec<OsString>> {
    let mut names = Vec::new();
    let mut entries = vec![0; 32_768];
    loop {
        // SAFETY: the entries are writable for their length.
        let length = unsafe { getdents64(folder.as_raw_fd(), entries.as_mut_ptr().cast(), entries.len()) };
        match usize::try_from(length) {
            Ok(0) => return Ok(names),
            Ok(length) => gather(&entries[..length], &mut names),
            Err(_) => return Err(io::Error::last_os_error()),
        }
    }
}

/// Takes the names from entries that follow one another, each with a name up to a zero.
fn gather(mut entries: &[u8], names: &mut Vec<OsString>) {
    while let Some(&[low, high]) = entries.get(LENGTH..LENGTH + 2) {
        let length = usize::from(u16::from_ne_bytes([low, high])).max(NAME).min(entries.len());
        let (entry, rest) = entries.split_at(length);
        let name = entry.get(NAME..).unwrap_or_default().split(|&byte| byte == 0).next().unwrap_or_default();
        if !matches!(name, b"." | b"..") {
            names.push(OsString::from_vec(name.to_vec()));
        }
        entries = rest;
    }
}

#[cfg(test)]
mod tests {
    use super::*;
    use std::fs;

    /// More names than one call gives, of every length.
    #[test]
    fn every_name_is_there_once() {
        let path = std::env::temp_dir().join(format!("sj-folder-{}", std::process::id()));
        fs::create_dir(&path).expect("a folder");
        let name = |at: usize| format!("{at:03}{}", "x".repeat(at % 253));
        let mut expected: Vec<OsString> = (0..600).map(|at| name(at).into()).collect();
        expected.iter().for_each(|name| fs::write(path.join(name), b"").expect("written"));
        let mut found = File::open(&path).and_then(|folder| names(&folder)).expect("read");
        fs::remove_dir_all(&path).expect("removed");
        expected.sort();
        found.sort();
        assert_eq!(found, expected);
    }

    #[test]
    fn what_is_no_folder_is_an_error() {
        let file = File::open(std::env::current_exe().expect("a path")).expect("opened");
        assert!(names(&file).is_err_and(|error| error.kind() == io::ErrorKind::NotADirectory));
    }
}
