//! Where `-o` leads: to a file that is replaced whole, or to something that can only be written to.

use crate::failure::Failure;
use crate::input;
use std::fs;
use std::io::{self, ErrorKind};
use std::path::{Path, PathBuf};

/// Where bytes go.
#[derive(Debug, PartialEq, Eq)]
pub enum Target {
    /// A descriptor of this process, such as 1, standard output.
    Own(i32),
    /// A plain file, or none so far. Its path is no link's, so that a link stays and the file behind it is replaced.
    Plain(PathBuf),
    /// A device or a pipe, or what Linux shows as a file and isn't. It is written where it is: its name stays.
    There(PathBuf),
}

/// More links than Linux follows.
const LINKS: usize = 40;

impl Target {
    /// Follows a path from link to link. All are Linux's to follow first, which may forbid it: in a folder that all may
    /// write, another user's link could lead anywhere.
    pub fn of(path: &Path) -> Result<Target, Failure> {
        if input::is_standard(path) {
            return Ok(Target::Own(1));
        }
        let failed = |error| Failure::file(path, error);
        match fs::metadata(path) {
            Ok(about) if about.is_dir() => {
                return Err(failed(io::Error::other("it is a folder, no plain file")));
            }
            Err(error) if error.kind() != ErrorKind::NotFound => return Err(failed(error)),
            _ => {}
        }
        let mut at = path.to_path_buf();
        for _ in 0..LINKS {
            match step(&at).map_err(failed)? {
                Step::Link(next) => at = next,
                Step::End(target) => return Ok(target),
            }
        }
        Err(failed(io::Error::other("too many links")))
    }
}

enum Step {
    Link(PathBuf),
    End(Target),
}

/// What a path is, without the links behind it. A link in /proc isn't followed: what it says need not be a path.
fn step(at: &Path) -> io::Result<Step> {
    let folder = fs::canonicalize(folder_of(at)).unwrap_or_else(|_| folder_of(at).to_path_buf());
    let there = Ok(Step::End(Target::There(at.to_path_buf())));
    if folder.starts_with("/proc") {
        return own(at, &folder).map_or(there, |number| Ok(Step::End(Target::Own(number))));
    }
    let kind = match fs::symlink_metadata(at) {
        Ok(about) => about.file_type(),
        Err(error) if error.kind() == ErrorKind::NotFound && !among_devices(&folder) => {
            return Ok(Step::End(Target::Plain(at.to_path_buf())));
        }
        Err(error) => return Err(error),
    };
    if kind.is_symlink() {
        return Ok(Step::Link(folder_of(at).join(fs::read_link(at)?)));
    }
    if kind.is_file() && !among_devices(&folder) {
        return Ok(Step::End(Target::Plain(at.to_path_buf())));
    }
    there
}

/// Nothing in /dev is replaced or made, but for the files that programs keep in /dev/shm.
fn among_devices(folder: &Path) -> bool {
    folder.starts_with("/dev") && !folder.starts_with("/dev/shm")
}

/// The number of a descriptor of this process, where a path in /proc is one's.
fn own(at: &Path, folder: &Path) -> Option<i32> {
    let own = fs::canonicalize("/proc/self/fd").is_ok_and(|own| own == folder);
    if own { at.file_name()?.to_str()?.parse().ok() } else { None }
}

/// The folder that a path's last name is in.
pub fn folder_of(path: &Path) -> &Path {
    match path.parent() {
        Some(folder) if !folder.as_os_str().is_empty() => folder,
        _ => Path::new("."),
    }
}

#[cfg(test)]
mod tests {
    use super::*;
    use std::os::unix::fs::symlink;

    fn target(path: impl AsRef<Path>) -> Option<Target> {
        Target::of(path.as_ref()).ok()
    }

    #[test]
    fn devices_and_descriptors_are_never_replaced() {
        let there = |path: &str| Some(Target::There(path.into()));
        assert_eq!(target("/dev/null"), there("/dev/null"));
        assert_eq!(target("/dev/../dev/./null"), there("/dev/../dev/./null"));
        assert_eq!(target("/proc/version"), there("/proc/version"));
        for (path, number) in [("-", 1), ("/dev/stdout", 1), ("/dev/fd/2", 2), ("/proc/self/fd/0", 0)] {
            assert_eq!(target(path), Some(Target::Own(number)), "{path}");
        }
        assert_eq!(
            [target("/dev"), target("/dev/no such device"), target("/dev/null/x")],
            [None, None, None]
        );
        assert_eq!(target("/dev/shm/no such file"), Some(Target::Plain("/dev/shm/no such file".into())));
    }

    #[test]
    fn links_lead_to_their_file() {
        let folder = std::env::temp_dir().join(format!("sj-target-{}", std::process::id()));
        fs::create_dir_all(folder.join("deep")).expect("a folder");
        fs::write(folder.join("file"), b"").expect("written");
        for (from, to) in
            [("deep/one", "../two"), ("two", "file"), ("none", "deep/nothing"), ("round", "round")]
        {
            symlink(to, folder.join(from)).expect("a link");
        }
        symlink("/dev/stdout", folder.join("out")).expect("a link");
        let plain = |path: &str| Some(Target::Plain(folder.join(path)));
        let found = ["deep/one", "none", "new", "out", "round"].map(|path| target(folder.join(path)));
        fs::remove_dir_all(&folder).expect("removed");
        assert_eq!(
            found,
            [plain("deep/../file"), plain("deep/nothing"), plain("new"), Some(Target::Own(1)), None]
        );
    }
}
