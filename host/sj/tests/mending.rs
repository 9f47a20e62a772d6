//! salvage: where the mended image goes, and what stays as it was.

mod common;
mod tools;

use common::{Folder, Ran, disk};
use model::calls;
use model::layout::LAYOUTS;
use std::fs::{self, File};
use std::os::unix::fs::{MetadataExt, PermissionsExt, symlink};
use tools::{NOBODY, OWNER, Open, can_be_others, injected, shell};

/// A disk with files A and B, of which B's chain is at fault; and the same mended.
fn pair() -> (Vec<u8>, Vec<u8>) {
    let mut image = vec![0; 819_200];
    calls::put(&mut image, b"A         ", b'S', &[1; 2000]).expect("room");
    let mut mended = image.clone();
    calls::put(&mut image, b"B         ", b'S', &[2; 2000]).expect("room");
    image[1536 + 2 * 6] = 1;
    mended[6 * 1024..][..2048].copy_from_slice(&image[6 * 1024..][..2048]); // data bytes stay
    (image, mended)
}

/// A folder with the disk.
fn folder(name: &str) -> Folder {
    let folder = Folder::new(name);
    folder.write("a.img", &pair().0);
    folder
}

/// It was done, and something was lost: what it said.
fn lost(ran: Ran) -> String {
    assert_eq!((ran.status, ran.err.as_str()), (Some(1), ""));
    String::from_utf8(ran.out).expect("text")
}

#[test]
fn a_way_has_to_be_asked_for() {
    let folder = folder("mend-ways");
    let unasked = ["writes nothing unasked", "-o FILE", "--in-place", "--dry-run"];
    folder.sj(&["salvage", "a.img"]).failed(2, &unasked);
    folder.sj(&["salvage", "a.img", "--force", "--timeout", "1"]).failed(2, &unasked);
    for two in [
        &["--in-place", "--dry-run"][..],
        &["-o", "b.img", "--dry-run"],
        &["-o", "b.img", "--in-place"],
        &["-o", "b.img", "--in-place", "--dry-run"],
    ] {
        let words = "give one of -o, --in-place and --dry-run";
        folder.sj(&[&["salvage", "a.img"], two].concat()).failed(2, &[words]);
    }
    folder.sj(&["salvage", "--dry-run"]).failed(2, &["the image is missing"]);
    folder.sj(&["salvage", "a.img", "--in-place=yes"]).failed(2, &["--in-place takes no value"]);
    folder.sj(&["salvage", "a.img", "--in-place", "--timeout", "x"]).failed(2, &["a number of seconds"]);
    assert!(folder.read("a.img") == pair().0);
    assert_eq!(folder.names(), ["a.img"]);
}

#[test]
fn a_dry_run_writes_nothing() {
    let folder = folder("mend-dry");
    let before = fs::metadata(folder.0.join("a.img")).expect("there");
    let said = lost(folder.sj(&["salvage", "a.img", "--dry-run"]));
    assert!(said.starts_with("a.img: S900 low, would be mended, nothing is written\n"), "{said}");
    let after = fs::metadata(folder.0.join("a.img")).expect("there");
    assert_eq!((after.ino(), after.mtime_nsec()), (before.ino(), before.mtime_nsec()));
    assert!(folder.read("a.img") == pair().0);
    assert_eq!(folder.names(), ["a.img"]);
}

#[test]
fn in_place_the_file_keeps_mode_and_links() {
    let folder = folder("mend-place");
    let path = folder.0.join("a.img");
    fs::set_permissions(&path, fs::Permissions::from_mode(0o640)).expect("mode");
    symlink("a.img", folder.0.join("link.img")).expect("a link");
    let said = lost(folder.sj(&["salvage", "link.img", "--in-place"]));
    assert!(said.starts_with("link.img: S900 low, mended in place\n"), "{said}");
    assert!(folder.read("a.img") == pair().1);
    assert_eq!(fs::metadata(&path).expect("there").permissions().mode() & 0o7777, 0o640);
    assert!(fs::symlink_metadata(folder.0.join("link.img")).expect("there").is_symlink());
    assert_eq!(folder.names(), ["a.img", "link.img"]);
}

/// An accepted image isn't written to: the file is the same one, of the same time.
#[test]
fn an_accepted_image_is_left_alone() {
    let folder = Folder::new("mend-accepted");
    for (at, layout) in LAYOUTS.into_iter().enumerate() {
        let image = disk(layout, 20, 100, at as u64);
        folder.write("a.img", &image);
        let about = || fs::metadata(folder.0.join("a.img")).expect("there");
        let before = about();
        let said = folder.sj(&["salvage", "a.img", "--in-place"]).done();
        assert!(said.contains(", nothing to mend, it is as it was\n"), "{said}");
        let times =
            |about: &fs::Metadata| (about.ino(), about.mtime(), about.mtime_nsec(), about.ctime_nsec());
        assert_eq!(times(&about()), times(&before));
        let said = folder.sj(&["salvage", "a.img", "-o", "b.img", "--force"]).done();
        assert!(said.contains(", nothing to mend, written to b.img\n"), "{said}");
        assert!(folder.read("a.img") == image && folder.read("b.img") == image);
    }
}

#[test]
fn nothing_that_is_there_is_replaced_unasked() {
    let folder = folder("mend-there");
    let (image, mended) = pair();
    folder.write("b.img", b"mine");
    symlink("b.img", folder.0.join("link.img")).expect("a link");
    for to in ["b.img", "link.img"] {
        folder.sj(&["salvage", "a.img", "-o", to]).failed(2, &["is there already; --force replaces it"]);
        assert_eq!(folder.read("b.img"), b"mine");
    }
    lost(folder.sj(&["salvage", "a.img", "-o", "link.img", "--force"]));
    assert!(folder.read("b.img") == mended);
    symlink("a.img", folder.0.join("itself.img")).expect("a link");
    for to in ["a.img", "itself.img"] {
        let ran = folder.sj(&["salvage", "a.img", "-o", to, "--force"]);
        ran.failed(2, &["is the file that is read"]);
    }
    folder.sj(&["salvage", "a.img", "-o", "."]).failed(2, &["it is a folder, no plain file"]);
    folder.sj(&["salvage", "a.img", "-o", "none/c.img"]).failed(2, &["the folder none"]);
    assert!(folder.read("a.img") == image);
    assert_eq!(folder.names(), ["a.img", "b.img", "itself.img", "link.img"]);
}

#[test]
fn several_go_into_a_folder() {
    let folder = folder("mend-folder");
    let (image, mended) = pair();
    fs::create_dir_all(folder.0.join("crate/deep")).expect("a folder");
    folder.write("crate/a.img", &mended);
    folder.write("crate/deep/b.img", &image);
    folder.write("crate/noise.img", &[7; 819_200]);
    let ran = folder.sj(&["salvage", "crate", "-o", "new/mended"]);
    assert!(ran.status == Some(2) && ran.err.contains("crate/noise.img: "), "{}", ran.err);
    let said = String::from_utf8(ran.out).expect("text");
    assert!(
        said.contains("crate/deep/b.img: S900 low, mended, written to new/mended/deep/b.img\n"),
        "{said}"
    );
    assert!(
        said.ends_with("changed, 2 blocks freed\n")
            && said.contains("\n1 accepted, 1 mended, 1 refused (2: 1); ")
    );
    assert!(folder.read("new/mended/a.img") == mended && folder.read("new/mended/deep/b.img") == mended);
    assert_eq!(Folder(folder.0.join("new/mended")).names(), ["a.img", "deep"]);
    let there = "new/mended/a.img is there already; --force replaces it";
    folder.sj(&["salvage", "crate", "-o", "new/mended"]).failed(2, &[there]);
    folder.sj(&["salvage", "a.img", "crate", "-o", "out"]).failed(2, &["a.img is the name of two"]);
    folder.sj(&["salvage", "crate", "-o", "-"]).failed(2, &["several images need a folder"]);
    folder.sj(&["salvage", "a.img", "-", "-o", "out"]).failed(2, &["standard input has no name in a folder"]);
    folder.sj(&["salvage", "crate", "-o", "crate", "--force"]).failed(2, &["is the file that is read"]);
    let words = ["salvage", "new/mended", "crate/deep/b.img", "-o", "crate", "--force"];
    folder.sj(&words).failed(2, &["is a file that is read"]); // new/mended/deep/b.img would become it
    assert!(folder.read("crate/deep/b.img") == image);
    assert_eq!(folder.names(), ["a.img", "crate", "new"]);
}

#[test]
fn standard_input_and_output() {
    let folder = folder("mend-streams");
    let (image, mended) = pair();
    let said = lost(shell(&folder, "sj salvage - --dry-run < a.img"));
    assert!(said.starts_with("standard input: S900 low, would be mended"), "{said}");
    for line in
        ["sj salvage a.img -o -", "cat a.img | sj salvage - -o -", "sj salvage a.img -o /dev/stdout | cat"]
    {
        let ran = shell(&folder, line);
        assert!(ran.out == mended && ran.err.contains("1 slot kept, 1 dropped"), "{line}: {}", ran.err);
    }
    lost(shell(&folder, "cat a.img | sj salvage - -o b.img"));
    lost(folder.sj(&["salvage", "a.img", "-o", "/dev/null"]));
    assert!(folder.read("b.img") == mended);
    shell(&folder, "sj salvage - --in-place < a.img").failed(2, &["standard input can't be changed"]);
    assert!(folder.read("a.img") == image);
}

/// No file is lost without a word: where the statement can't be told, the image is as it was.
#[test]
fn an_image_whose_statement_cant_be_told_is_left() {
    let folder = folder("mend-untold");
    let (image, _) = pair();
    for way in [">&-", ">/dev/full", "1</dev/null"] {
        for line in ["sj salvage a.img a.img --in-place", "sj salvage a.img -o b.img --json"] {
            shell(&folder, &format!("{line} {way}")).failed(2, &["standard output: "]);
            assert!(folder.read("a.img") == image, "{line} {way}");
        }
    }
    let (reader, writer) = std::io::pipe().expect("a pipe");
    drop(reader); // nobody reads it
    let mut command = folder.command(&["salvage", "a.img", "--in-place"]);
    let ran = Ran::of(command.stdout(writer).output().expect("sj runs"));
    ran.failed(2, &["standard output: "]);
    assert!(folder.read("a.img") == image);
    assert_eq!(folder.names(), ["a.img"]);
}

/// Whatever call fails, wherever: the image is the old one or the mended one, and stands alone.
#[test]
fn a_call_that_fails_leaves_a_whole_image() {
    let folder = folder("mend-calls");
    let (old, new) = pair();
    let all =
        "openat read write fsync rename fchmod fchown flock getdents64 statx flistxattr fgetxattr fsetxattr";
    for call in all.split(' ') {
        for turn in 1.. {
            folder.write("a.img", &old);
            let words = ["salvage", "a.img", "--in-place"];
            let (ran, made) = injected(&folder, &format!("{call}:error=EIO:when={turn}"), &words);
            assert!(matches!(ran.status, Some(1 | 2)), "{call} {turn}: {:?} {}", ran.status, ran.err);
            assert!(!ran.err.contains("fault in sj"), "{call} {turn}: {}", ran.err);
            let image = folder.read("a.img");
            assert!(image == new || image == old && ran.status == Some(2), "{call} {turn}: {}", ran.err);
            assert!(image == old || !ran.out.is_empty(), "{call} {turn}: mended without a word");
            assert_eq!(folder.names(), ["a.img"], "{call} {turn}");
            if !made {
                break;
            }
        }
    }
    let words = ["salvage", "a.img", "--in-place"];
    folder.write("a.img", &old);
    let (ran, _) = injected(&folder, "rename:error=EIO:when=1", &words);
    assert!(ran.err.contains("; the image is as it was") && folder.read("a.img") == old, "{}", ran.err);
}

/// One that can't be written is told, and the others are mended.
#[test]
fn one_that_fails_stops_none_of_the_others() {
    let folder = folder("mend-others");
    let (image, mended) = pair();
    folder.write("b.img", &image);
    fs::create_dir(folder.0.join("c.img")).expect("a folder");
    let held = File::options().write(true).open(folder.0.join("a.img")).expect("there");
    held.lock().expect("locked");
    let ran = folder.sj(&["salvage", "a.img", "b.img", "/dev/null", "--in-place", "--timeout", "0"]);
    let said = String::from_utf8(ran.out).expect("text");
    assert!(said.contains("\n0 accepted, 1 mended, 0 refused, 2 failed; 1 slot kept, 1 dropped, "), "{said}");
    assert!(
        ran.status == Some(2) && ran.err.contains("another run holds a.img; gave up at once"),
        "{}",
        ran.err
    );
    assert!(ran.err.contains("/dev/null: it is no plain file, and can't be changed"), "{}", ran.err);
    assert!(folder.read("a.img") == image && folder.read("b.img") == mended);
    drop(held);
    lost(folder.sj(&["salvage", "a.img", "b.img", "--in-place"]));
    assert!(folder.read("a.img") == mended);
}

/// Owner, group and mode stay, or the image does; a folder that can't be written to is told.
#[test]
fn what_cant_be_kept_or_written_is_told() {
    if !can_be_others() {
        return;
    }
    let (image, mended) = pair();
    let open = Open::new("mend-owners");
    let words = ["salvage", "a.img", "--in-place"];
    open.give("a.img", &image, OWNER, 0o664);
    open.by(NOBODY, "1000", &words).failed(2, &["a.img: its owner can't be kept; --force changes it"]);
    assert!(open.0.read("a.img") == image && open.0.names() == ["a.img"]);
    lost(open.by(OWNER, "1000", &words));
    assert!(open.0.read("a.img") == mended && open.rights("a.img") == (OWNER, OWNER, 0o664));
    open.give("a.img", &image, OWNER, 0o664);
    lost(open.by(NOBODY, "1000", &[&words[..], &["--force"]].concat()));
    assert!(open.0.read("a.img") == mended && open.rights("a.img") == (NOBODY, OWNER, 0o664));
    open.give("a.img", &image, NOBODY, 0o644);
    fs::set_permissions(&open.0.0, fs::Permissions::from_mode(0o755)).expect("mode");
    open.by(NOBODY, "65534", &words).failed(2, &["a.img: no file can be made beside it"]);
    let to = ["salvage", "a.img", "-o", "b.img"];
    open.by(NOBODY, "65534", &to).failed(2, &["b.img: no file can be made beside it"]);
    let folder = ["salvage", "a.img", ".", "-o", "deep"];
    open.by(NOBODY, "65534", &folder).failed(2, &["a.img is the name of two of the images"]);
    open.by(NOBODY, "65534", &["salvage", ".", "-o", "deep"]).failed(2, &["deep: Permission denied"]);
    assert!(open.0.read("a.img") == image && open.0.names() == ["a.img"]);
}
