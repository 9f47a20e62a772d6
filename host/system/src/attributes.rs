//! Extended attributes of open files. An ACL is one of them.

use std::ffi::{CStr, CString, c_char, c_int, c_void};
use std::fs::File;
use std::io;
use std::os::fd::AsRawFd;

unsafe extern "C" {
    fn flistxattr(descriptor: c_int, list: *mut c_char, size: usize) -> isize;
    fn fgetxattr(descriptor: c_int, name: *const c_char, value: *mut c_void, size: usize) -> isize;
    fn fsetxattr(
        descriptor: c_int,
        name: *const c_char,
        value: *const c_void,
        size: usize,
        flags: c_int,
    ) -> c_int;
    fn fremovexattr(descriptor: c_int, name: *const c_char) -> c_int;
}

/// Linux gives no longer value and no longer list of names.
const MOST: usize = 65_536;

/// All mean that a file has no such thing: this one, all in this file system, and all that this Linux keeps.
const NOTHING: [i32; 3] = [ENODATA, EOPNOTSUPP, ENOSYS];
const ENODATA: i32 = 61;
const EOPNOTSUPP: i32 = 95;
const ENOSYS: i32 = 38;

/// The names of a file's attributes; none where the file system has no attributes.
pub fn names(file: &File) -> io::Result<Vec<CString>> {
    let mut list = vec![0; MOST];
    // SAFETY: the list is writable for its length.
    let length = unsafe { flistxattr(file.as_raw_fd(), list.as_mut_ptr().cast(), list.len()) };
    match known(length)? {
        Some(length) => list.truncate(length),
        None => return Ok(Vec::new()),
    }
    Ok(list
        .split_inclusive(|&byte| byte == 0)
        .filter_map(|name| CString::from_vec_with_nul(name.into()).ok())
        .collect())
}

/// An attribute's value; None where the file has no such attribute.
pub fn get(file: &File, name: &CStr) -> io::Result<Option<Vec<u8>>> {
    let mut value = vec![0; MOST];
    // SAFETY: the name ends with a zero, and the value is writable for its length.
    let length =
        unsafe { fgetxattr(file.as_raw_fd(), name.as_ptr(), value.as_mut_ptr().cast(), value.len()) };
    Ok(known(length)?.map(|length| {
        value.truncate(length);
        value
    }))
}

/// Gives an attribute a value.
pub fn set(file: &File, name: &CStr, value: &[u8]) -> io::Result<()> {
    // SAFETY: the name ends with a zero, and the value is readable for its length.
    let done = unsafe { fsetxattr(file.as_raw_fd(), name.as_ptr(), value.as_ptr().cast(), value.len(), 0) };
    if done == 0 { Ok(()) } else { Err(io::Error::last_os_error()) }
}

/// Takes an attribute away, if it is there.
pub fn remove(file: &File, name: &CStr) -> io::Result<()> {
    // SAFETY: the name ends with a zero.
    let done = unsafe { fremovexattr(file.as_raw_fd(), name.as_ptr()) };
    known(done as isize).map(drop)
}

/// What a call gave: a number, that there is nothing, or an error.
fn known(given: isize) -> io::Result<Option<usize>> {
    match (usize::try_from(given), io::Error::last_os_error()) {
        (Ok(number), _) => Ok(Some(number)),
        (Err(_), error) if error.raw_os_error().is_some_and(|number| NOTHING.contains(&number)) => Ok(None),
        (Err(_), error) => Err(error),
    }
}

#[cfg(test)]
mod tests {
    use super::*;
    use std::fs;

    /// A file without a name where attributes can be set; an older Linux has none of users' in memory.
    fn file() -> File {
        let folders = [std::env::temp_dir(), "/var/tmp".into(), "/dev/shm".into()];
        let made = folders.into_iter().map(|folder| {
            let path = folder.join(format!("sj-attributes-{}", std::process::id()));
            let file = File::create(&path).expect("made");
            fs::remove_file(&path).expect("removed");
            file
        });
        made.into_iter().find(|file| set(file, c"user.a", b"").is_ok()).expect("a folder with attributes")
    }

    #[test]
    fn what_is_set_is_there_until_it_is_removed() {
        let file = file();
        let own = || {
            let names = names(&file).expect("names").into_iter();
            let mut names: Vec<_> = names.filter(|name| name.to_bytes().starts_with(b"user.")).collect();
            names.sort();
            names
        };
        set(&file, c"user.b", &[0, 1, 255]).expect("room");
        assert_eq!(get(&file, c"user.a").ok(), Some(Some(vec![])));
        assert_eq!(get(&file, c"user.b").ok(), Some(Some(vec![0, 1, 255])));
        assert_eq!(own(), [c"user.a".to_owned(), c"user.b".to_owned()]);
        assert!(set(&file, c"nothing", b"x").is_err());
        for name in [c"user.a", c"user.b", c"user.b"] {
            remove(&file, name).expect("gone");
        }
        assert!(own().is_empty() && matches!(get(&file, c"user.a"), Ok(None)));
    }
}
