//! Where files go: through links, to devices, pipes and descriptors, and to names of any length.

mod common;
mod tools;

use common::Folder;
use model::calls;
use std::fs::{self, File};
use std::os::unix::fs::{FileTypeExt, MetadataExt, symlink};
use std::os::unix::net::UnixListener;
use std::process::Command;
use tools::{injected, shell};

/// A folder with an image, which holds a file of one byte and a long one.
fn folder(name: &str) -> Folder {
    let folder = Folder::new(name);
    let mut image = vec![0; 819_200];
    calls::put(&mut image, b"A         ", b'S', b"1").expect("room");
    calls::put(&mut image, b"LONG      ", b'S', &[7; 300_000]).expect("room");
    folder.write("a.img", &image);
    folder
}

fn is_link(folder: &Folder, name: &str) -> bool {
    fs::symlink_metadata(folder.0.join(name)).expect("there").is_symlink()
}

#[test]
fn a_link_stays_and_its_file_is_replaced() {
    let folder = folder("link");
    fs::create_dir(folder.0.join("deep")).expect("a folder");
    folder.write("file", b"old");
    for (name, to) in [("one", "deep/two"), ("deep/two", "../file"), ("none", "deep/new"), ("round", "round")]
    {
        symlink(to, folder.0.join(name)).expect("a link");
    }
    folder.sj(&["get", "a.img", "A", "-o", "one"]).done();
    folder.sj(&["get", "a.img", "A", "-o", "none"]).done();
    assert_eq!((folder.read("file"), folder.read("deep/new")), (b"1".to_vec(), b"1".to_vec()));
    assert!(["one", "deep/two", "none"].iter().all(|name| is_link(&folder, name)));
    folder.sj(&["get", "a.img", "A", "-o", "round"]).failed(2, &["round: "]);
    symlink("nowhere/new", folder.0.join("lost")).expect("a link");
    folder.sj(&["get", "a.img", "A", "-o", "lost"]).failed(2, &["the folder", "nowhere"]);
    assert_eq!(folder.names(), ["a.img", "deep", "file", "lost", "none", "one", "round"]);
}

/// A run that ends before the file is whole has taken nothing from what was there.
#[test]
fn a_failed_run_leaves_what_was_there() {
    let folder = folder("whole");
    folder.write("file", b"old");
    symlink("file", folder.0.join("link")).expect("a link");
    let ran = shell(&folder, "ulimit -c 0; ulimit -f 8; sj get a.img LONG -o link");
    assert_ne!(ran.status, Some(0));
    assert_eq!(folder.read("file"), b"old");
    assert!(is_link(&folder, "link"));
}

/// A name that leads to a descriptor of the run is the descriptor, where it stands: nothing is emptied or replaced.
#[test]
fn a_link_to_standard_output_is_standard_output() {
    let folder = folder("stdout");
    symlink("/dev/stdout", folder.0.join("out")).expect("a link");
    symlink("/proc/self/fd/9", folder.0.join("nine")).expect("a link");
    folder.write("file", b"old ");
    let before = fs::metadata(folder.0.join("file")).expect("there").ino();
    for (line, there) in [
        ("sj get a.img A -o out >> file", "old 1"),
        ("(printf 'new '; sj get a.img A -o out) > file", "new 1"),
        ("sj get a.img A -o nine 9>> file", "new 11"),
        ("sj get a.img A -o - >> file", "new 111"),
        ("sj get a.img A -o out | cat > file", "1"),
    ] {
        assert_eq!(shell(&folder, line).done(), "", "{line}");
        assert_eq!(String::from_utf8(folder.read("file")).expect("text"), there, "{line}");
    }
    assert_eq!(fs::metadata(folder.0.join("file")).expect("there").ino(), before);
    assert!(is_link(&folder, "out") && is_link(&folder, "nine"));
    shell(&folder, "sj get a.img A -o nine").failed(2, &["nine: Bad file descriptor"]);
    shell(&folder, "sj get a.img A -o out >&-").failed(2, &["standard output: it is closed"]);
    shell(&folder, "sj get a.img A -o out > /dev/full").failed(2, &["standard output: "]);
}

#[test]
fn devices_and_pipes_are_written_to() {
    let folder = folder("devices");
    let device = |path: &str| fs::symlink_metadata(path).expect("there").file_type().is_char_device();
    for (name, to) in [("null", "/dev/null"), ("full", "/dev/full")] {
        symlink(to, folder.0.join(name)).expect("a link");
    }
    folder.sj(&["get", "a.img", "LONG", "-o", "null"]).done();
    folder.sj(&["get", "a.img", "A", "-o", "full"]).failed(2, &["full: No space left"]);
    assert!(device("/dev/null") && device("/dev/full") && is_link(&folder, "null"));
    assert!(Command::new("mkfifo").arg(folder.0.join("pipe")).status().expect("mkfifo runs").success());
    let pipe = folder.0.join("pipe");
    let reader = std::thread::spawn(move || fs::read(pipe).expect("read"));
    folder.sj(&["get", "a.img", "LONG", "-o", "pipe"]).done();
    assert!(reader.join().expect("ended") == [7; 300_000]);
    let pipe = folder.0.join("pipe");
    let reader = std::thread::spawn(move || drop(File::open(pipe).expect("opened")));
    folder.sj(&["get", "a.img", "LONG", "-o", "pipe"]).failed(2, &["pipe: Broken pipe"]);
    reader.join().expect("ended");
    drop(UnixListener::bind(folder.0.join("socket")).expect("a socket"));
    folder.sj(&["get", "a.img", "A", "-o", "socket"]).failed(2, &["socket: "]);
    assert_eq!(folder.names(), ["a.img", "full", "null", "pipe", "socket"]);
}

#[test]
fn a_folder_is_no_file() {
    let folder = folder("folder");
    fs::create_dir(folder.0.join("deep")).expect("a folder");
    symlink("deep", folder.0.join("link")).expect("a link");
    for name in ["deep", "link", ".", "deep/..", "/", "/dev"] {
        folder.sj(&["get", "a.img", "A", "-o", name]).failed(2, &[": it is a folder, no plain file"]);
    }
    folder.sj(&["get", "a.img", "A", "-o", ""]).failed(2, &["\"\""]);
    folder.write("one", b"1");
    for (name, words) in [
        ("deep", "deep: it is a folder"),
        ("/dev/null", "/dev/null: it is no plain file, and can't be changed"),
    ] {
        folder.sj(&["put", name, "one", "--name", "B", "--type", "S"]).failed(2, &[words]);
    }
    assert_eq!(folder.names(), ["a.img", "deep", "link", "one"]);
}

/// As long as Linux lets a name be.
#[test]
fn the_longest_names_can_be_written() {
    let folder = folder("long");
    let (image, file) = ("i".repeat(255), "ä".repeat(127));
    fs::rename(folder.0.join("a.img"), folder.0.join(&image)).expect("renamed");
    for _ in 0..2 {
        folder.sj(&["get", &image, "A", "-o", &file]).done();
        folder.sj(&["put", &image, &file, "--name", "B", "--type", "S"]).done();
        folder.sj(&["rm", &image, "B"]).done();
    }
    assert_eq!(folder.names(), [image, file]);
}

/// A hash of a file's name, FNV-1a: what a draft's name begins with.
fn draft(name: &str) -> String {
    let mix = |hash: u64, byte: u8| (hash ^ u64::from(byte)).wrapping_mul(0x0000_0100_0000_01b3);
    format!(".sj-{:016x}", name.bytes().fold(0xcbf2_9ce4_8422_2325, mix))
}

/// A draft goes only if it is a plain file of this image, of a process that is gone.
#[test]
fn the_next_run_removes_what_an_interrupted_one_left() {
    let folder = folder("stale");
    folder.write("one", b"1");
    let gone = 4_194_305; // above the highest number that Linux gives
    let (own, a, b) = (std::process::id(), draft("a.img"), draft("b.img"));
    let left = [format!("{a}-{gone}-0"), format!("{a}-{gone}-7")];
    let kept = [
        format!("{a}-{own}-0"),
        format!("{a}-{gone}-0.bak"),
        format!("{b}-{gone}-0"),
        format!(".sj-{gone}-0"),
        format!(".a.img.sj-{gone}-0"),
    ];
    left.iter().chain(&kept).for_each(|name| folder.write(name, b"x"));
    fs::create_dir(folder.0.join(format!("{a}-{gone}-1"))).expect("a folder");
    symlink("one", folder.0.join(format!("{a}-{gone}-2"))).expect("a link");
    folder.sj(&["put", "a.img", "one", "--name", "B", "--type", "s"]).failed(1, &["refusal 11"]);
    let before = folder.names();
    folder.sj(&["put", "a.img", "one", "--name", "B", "--type", "S"]).done();
    let expected: Vec<String> = before.into_iter().filter(|name| !left.contains(name)).collect();
    assert_eq!((folder.names(), expected.len()), (expected.clone(), kept.len() + 4));
}

/// Whatever call of a change fails, wherever: the image is the old one or the new one, and stands alone.
#[test]
fn a_call_that_fails_leaves_a_whole_image() {
    let folder = folder("calls");
    folder.write("one", b"1");
    let old = folder.read("a.img");
    let mut new = old.clone();
    calls::put(&mut new, b"B         ", b'S', b"1").expect("room");
    let all =
        "openat read write fsync rename fchmod fchown flock getdents64 statx flistxattr fgetxattr fsetxattr";
    for call in all.split(' ') {
        for turn in 1.. {
            folder.write("a.img", &old);
            let words = ["put", "a.img", "one", "--name", "B", "--type", "S"];
            let (ran, made) = injected(&folder, &format!("{call}:error=EIO:when={turn}"), &words);
            assert!(matches!(ran.status, Some(0 | 2)), "{call} {turn}: {:?} {}", ran.status, ran.err);
            assert!(!ran.err.contains("fault in sj"), "{call} {turn}: {}", ran.err);
            let image = folder.read("a.img");
            assert!(image == new || image == old && ran.status == Some(2), "{call} {turn}: {}", ran.err);
            assert_eq!(folder.names(), ["a.img", "one"], "{call} {turn}");
            if !made {
                break;
            }
        }
    }
}
