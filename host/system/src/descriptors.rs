//! Descriptors that the process was given: 0 to 2 as they were before Rust's runtime began, which opens /dev/null on
//! those that are closed, so that nobody sees any more that nothing arrives.

use std::ffi::c_int;
use std::fs::File;
use std::io;
use std::os::fd::{FromRawFd, IntoRawFd};
use std::sync::OnceLock;
use std::sync::atomic::{AtomicI32, Ordering::Relaxed};

unsafe extern "C" {
    fn fcntl(descriptor: c_int, command: c_int, ...) -> c_int;
    fn close(descriptor: c_int) -> c_int;
}

const F_GETFL: c_int = 3;
const F_DUPFD_CLOEXEC: c_int = 1030;

/// The bits of the flags that tell what a descriptor is open for, and two of their values.
const ACCESS: i32 = 3;
const READING_ONLY: i32 = 0;
const WRITING_ONLY: i32 = 1;

/// The flags of descriptors 0 to 2 at the start; -1 for one that was closed.
static AT_START: [AtomicI32; 3] = [const { AtomicI32::new(-1) }; 3];

/// Called before the runtime begins.
#[used]
#[unsafe(link_section = ".init_array")]
static RECORD: extern "C" fn() = record;

extern "C" fn record() {
    for (descriptor, flags) in (0..).zip(&AT_START) {
        // SAFETY: the flags of any number may be asked for; no memory is touched.
        flags.store(unsafe { fcntl(descriptor, F_GETFL) }, Relaxed);
    }
}

/// Whether a descriptor was given, and for more than is of no use here. What is wrong with one above 2 shows when it is
/// used.
fn given(descriptor: c_int, useless: i32) -> io::Result<()> {
    let flags = usize::try_from(descriptor).ok().and_then(|at| AT_START.get(at));
    match flags.map(|flags| flags.load(Relaxed)) {
        Some(-1) => Err(io::Error::other("it is closed")),
        Some(flags) if flags & ACCESS == useless => Err(io::Error::other(match useless {
            READING_ONLY => "it isn't open for writing",
            _ => "it isn't open for reading",
        })),
        _ => Ok(()),
    }
}

/// Standard input; an error where it was closed or can't be read.
pub fn input() -> io::Result<&'static File> {
    static INPUT: OnceLock<File> = OnceLock::new();
    given(0, WRITING_ONLY)?;
    // SAFETY: descriptor 0 is open, and is never closed: what is in a static is not dropped.
    Ok(INPUT.get_or_init(|| unsafe { File::from_raw_fd(0) }))
}

/// Standard output, where every error is seen, unlike the standard library's; an error where it was closed or can't be
/// written.
pub fn output() -> io::Result<&'static File> {
    static OUTPUT: OnceLock<File> = OnceLock::new();
    given(1, READING_ONLY)?;
    // SAFETY: descriptor 1 is open, and is never closed: what is in a static is not dropped.
    Ok(OUTPUT.get_or_init(|| unsafe { File::from_raw_fd(1) }))
}

/// A descriptor of this process, to be written where it stands: neither emptied nor from its start.
pub fn duplicate(descriptor: i32) -> io::Result<File> {
    given(descriptor, READING_ONLY)?;
    // SAFETY: any number may be asked for; no memory is touched.
    let own = unsafe { fcntl(descriptor, F_DUPFD_CLOEXEC, 3) };
    if own < 0 {
        return Err(io::Error::last_os_error());
    }
    // SAFETY: the descriptor is new, and nobody else's.
    Ok(unsafe { File::from_raw_fd(own) })
}

/// Closes a file and says whether that went well. Some file systems tell only then that they lost what was written.
pub fn closed(file: File) -> io::Result<()> {
    // SAFETY: the descriptor is the file's own, which is given up here.
    match unsafe { close(file.into_raw_fd()) } {
        0 => Ok(()),
        _ => Err(io::Error::last_os_error()),
    }
}

#[cfg(test)]
mod tests {
    use super::*;
    use std::io::{Read, Seek, Write};
    use std::os::fd::AsRawFd;

    #[test]
    fn a_duplicate_goes_on_where_the_descriptor_stands() {
        let path = std::env::temp_dir().join(format!("sj-duplicate-{}", std::process::id()));
        let mut file = File::options().read(true).write(true).create_new(true).open(&path).expect("made");
        std::fs::remove_file(&path).expect("removed");
        file.write_all(b"one ").expect("written");
        let mut again = duplicate(file.as_raw_fd()).expect("open");
        again.write_all(b"two").expect("written");
        closed(again).expect("closed");
        let mut text = String::new();
        file.rewind().and_then(|()| file.read_to_string(&mut text)).expect("read");
        assert_eq!(text, "one two");
    }

    #[test]
    fn what_is_not_open_is_an_error() {
        assert!(duplicate(-1).is_err() && duplicate(1_000_000).is_err());
    }

    /// The test itself tells what it finds on standard output, so that is open.
    #[test]
    fn the_start_was_seen() {
        assert!(AT_START[1].load(Relaxed) >= 0 && output().is_ok());
    }
}
