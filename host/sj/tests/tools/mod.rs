//! Other users, other programs, and a folder where all of them can work.
#![allow(dead_code, missing_docs)] // each test takes what it needs

use crate::common::{Folder, Ran};
use std::fs::{self, Permissions};
use std::os::unix::fs::{MetadataExt, PermissionsExt};
use std::path::{Path, PathBuf};
use std::process::Command;

/// The user and group of most files here; neither need have a name.
pub const OWNER: u32 = 1000;

/// Whoever is neither root nor the owner.
pub const NOBODY: u32 = 65_534;

/// A folder of files, all of which anybody may replace, on a file system with attributes and ACLs. It goes when it is
/// dropped, with the command beside it: a build folder may be below somebody's home.
pub struct Open(pub Folder);

impl Open {
    pub fn new(name: &str) -> Open {
        let places = [std::env::temp_dir(), "/var/tmp".into(), "/dev/shm".into()];
        let name = format!("sj-{name}-{}", std::process::id());
        let mut made = places.into_iter().map(|place| made(&place.join(&name)));
        made.find(Open::keeps_all)
            .expect("a place that keeps attributes and ACLs, for files and for programs")
    }

    pub fn path(&self, name: &str) -> PathBuf {
        self.0.0.join(name)
    }

    /// Whether attributes and ACLs can be set, and by root whether everybody can run the command.
    fn keeps_all(&self) -> bool {
        let works = |program: &str, words: &[&str]| {
            let output = Command::new(program).args(words).arg("probe").current_dir(&self.0.0).output();
            output.unwrap_or_else(|error| panic!("{program} is needed: {error}")).status.success()
        };
        self.0.write("probe", b"");
        let both = works("setfattr", &["-n", "user.a", "-v", "1"]) && works("setfacl", &["-m", "u:65534:r"]);
        fs::remove_file(self.path("probe")).expect("removed");
        both && (!is_root() || self.by(NOBODY, "65534", &["--version"]).status == Some(0))
    }

    /// Writes a file with an owner, who is its group too, and a mode.
    pub fn give(&self, name: &str, bytes: &[u8], owner: u32, mode: u32) {
        self.0.write(name, bytes);
        std::os::unix::fs::chown(self.path(name), Some(owner), Some(owner)).expect("root");
        fs::set_permissions(self.path(name), Permissions::from_mode(mode)).expect("mode");
    }

    /// Owner, group and mode of a file.
    pub fn rights(&self, name: &str) -> (u32, u32, u32) {
        let about = fs::symlink_metadata(self.path(name)).expect("there");
        (about.uid(), about.gid(), about.mode() & 0o7777)
    }

    /// The entries of a file's ACL; for a file without one, those of its mode.
    pub fn acl(&self, name: &str) -> Vec<String> {
        let text = self.run("getfacl", &["--omit-header", "--numeric", "--no-effective", name]);
        text.lines().filter(|line| !line.is_empty()).map(str::to_string).collect()
    }

    /// A program's output.
    pub fn run(&self, program: &str, words: &[&str]) -> String {
        let output = Command::new(program).args(words).current_dir(&self.0.0).output();
        let output = output.unwrap_or_else(|error| panic!("{program} is needed: {error}"));
        assert!(output.status.success(), "{program} {words:?}: {}", String::from_utf8_lossy(&output.stderr));
        String::from_utf8(output.stdout).expect("text")
    }

    /// The command run by a user with a group of the same number, who is in these groups.
    pub fn by(&self, user: u32, groups: &str, words: &[&str]) -> Ran {
        let mut command = Command::new("setpriv");
        let ids = [format!("--reuid={user}"), format!("--regid={user}"), format!("--groups={groups}")];
        command.args(ids).arg("../sj").args(words).current_dir(&self.0.0);
        Ran::of(command.output().expect("setpriv (util-linux) is needed"))
    }
}

impl Drop for Open {
    fn drop(&mut self) {
        let _ = fs::remove_dir_all(self.0.0.parent().expect("a folder")); // it is for temporary files
    }
}

fn made(path: &Path) -> Open {
    let folder = path.join("files");
    let _ = fs::remove_dir_all(path); // of an interrupted test
    fs::create_dir_all(&folder).expect("a folder");
    fs::set_permissions(path, Permissions::from_mode(0o755)).expect("mode");
    fs::set_permissions(&folder, Permissions::from_mode(0o777)).expect("mode");
    fs::copy(env!("CARGO_BIN_EXE_sj"), path.join("sj")).expect("copied");
    Open(Folder(folder))
}

fn is_root() -> bool {
    fs::metadata("/proc/self").expect("/proc").uid() == 0
}

/// Only root can be several users, as the gate is.
pub fn can_be_others() -> bool {
    if !is_root() {
        println!("skipped: only root can be several users");
    }
    is_root()
}

/// A run in which a system call fails, and whether that call was made.
pub fn injected(folder: &Folder, inject: &str, words: &[&str]) -> (Ran, bool) {
    let call = inject.split(':').next().unwrap_or_default();
    let trace = folder.0.with_extension("trace");
    let mut command = Command::new("strace");
    command.arg("-o").arg(&trace).args(["-e", &format!("trace={call}"), "-e", &format!("inject={inject}")]);
    command.arg(env!("CARGO_BIN_EXE_sj")).args(words).current_dir(&folder.0);
    let ran = Ran::of(command.output().expect("strace is needed"));
    let told = fs::read_to_string(&trace).expect("a trace: strace must be allowed to trace");
    fs::remove_file(&trace).expect("removed");
    (ran, told.contains("INJECTED"))
}

/// A line of the shell's, in which `sj` is the command.
pub fn shell(folder: &Folder, line: &str) -> Ran {
    let line = line.replace("sj ", &format!("'{}' ", env!("CARGO_BIN_EXE_sj")));
    Ran::of(Command::new("sh").args(["-c", &line]).current_dir(&folder.0).output().expect("sh runs"))
}
