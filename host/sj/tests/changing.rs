//! put and rm: what they write, what they leave, and two runs at once.

mod common;

use common::{Folder, Ran, disk, sample_type};
use model::calls;
use model::layout::LAYOUTS;
use std::fs;
use std::os::unix::fs::{MetadataExt, PermissionsExt, symlink};
use std::os::unix::process::CommandExt;
use std::process::Command;

#[test]
fn put_and_rm_do_what_the_model_does() {
    let folder = Folder::new("put");
    for (at, layout) in LAYOUTS.into_iter().enumerate() {
        let mut image = disk(layout, 20, 100, at as u64);
        let (letters, byte, file_type) = sample_type(&image);
        folder.write("a.img", &image);
        folder.write("new", &[7; 3000]);
        let name = format!("{:letters$}", "NEW 1");
        let slot = calls::put(&mut image, name.as_bytes(), byte, &[7; 3000]).expect("room");
        let said = folder.sj(&["put", "a.img", "new", "--name", "NEW 1", "--type", file_type]).done();
        assert_eq!(said, format!("#{slot}\n"));
        assert!(folder.read("a.img") == image);
        calls::remove(&mut image, name.as_bytes(), byte).expect("there");
        assert_eq!(folder.sj(&["rm", "a.img", "NEW 1"]).done(), "");
        assert!(folder.read("a.img") == image);
    }
    assert_eq!(folder.names(), ["a.img", "new"]);
}

#[test]
fn refused_changes_leave_the_image() {
    let folder = Folder::new("put-refused");
    let image = disk(LAYOUTS[1], 64, 10, 1);
    let mut roomy = vec![0; 819_200];
    calls::put(&mut roomy, b"A         ", b'S', b"x").expect("room");
    folder.write("full.img", &image);
    folder.write("a.img", &roomy);
    folder.write("empty", b"");
    folder.write("one", b"1");
    folder.write("long", &vec![1; 820_000]);
    let put = |image: &str, file: &str, name: &str, file_type: &str| {
        folder.sj(&["put", image, file, "--name", name, "--type", file_type])
    };
    put("full.img", "one", "NEW", "S").failed(1, &["full.img: NEW: all 64 slots are used (refusal 14)"]);
    put("a.img", "one", "NEW", "s").failed(1, &["the type 's' isn't legal", "one of A to Z", "refusal 11"]);
    put("a.img", "one", "NAME TOO LONG", "S").failed(1, &["13 characters", "at most 10", "refusal 11"]);
    put("a.img", "empty", "NEW", "S").failed(1, &["refusal 13"]);
    put("a.img", "one", "A", "S").failed(1, &["refusal 12, slot 0"]);
    put("a.img", "long", "NEW", "S").failed(1, &["needs 801 blocks, and 795 blocks are free (refusal 15)"]);
    put("a.img", "one", "NEW", "SS").failed(2, &["one letter"]);
    put("a.img", "none", "NEW", "S").failed(2, &["none"]);
    put("none.img", "one", "NEW", "S").failed(2, &["none.img"]);
    folder.sj(&["put", "a.img", "one", "--type", "S"]).failed(2, &["one tells no name", "--name NAME"]);
    folder.sj(&["rm", "a.img", "B"]).failed(1, &["a.img: B: there is no such file (refusal 10)"]);
    folder.sj(&["rm", "a.img", "A", "#1"]).failed(1, &["a.img: #1: there is no such file (refusal 10)"]);
    folder.sj(&["rm", "a.img"]).failed(2, &["missing"]);
    assert!(folder.read("full.img") == image && folder.read("a.img") == roomy);
    assert_eq!(folder.names(), ["a.img", "empty", "full.img", "long", "one"]);
}

/// Whoever isn't told the slot is told that the file is there.
#[test]
fn a_put_whose_slot_cant_be_told_says_that_it_was_done() {
    let folder = Folder::new("put-full");
    folder.write("a.img", &vec![0; 819_200]);
    folder.write("one", b"1");
    let full = fs::OpenOptions::new().write(true).open("/dev/full").expect("a full device");
    let mut command = folder.command(&["put", "a.img", "one", "--name", "A", "--type", "S"]);
    let ran = Ran::of(command.stdout(full).output().expect("sj runs"));
    ran.failed(2, &["1 file put into #0, but standard output"]);
    assert_eq!(calls::find(&folder.read("a.img"), b"A         ", b'S'), Ok(0));
}

#[test]
fn a_changed_image_keeps_mode_and_links() {
    let folder = Folder::new("mode");
    folder.write("a.img", &vec![0; 819_200]);
    folder.write("one", b"1");
    let path = folder.0.join("a.img");
    fs::set_permissions(&path, fs::Permissions::from_mode(0o640)).expect("mode");
    symlink("a.img", folder.0.join("link.img")).expect("link");
    folder.sj(&["put", "link.img", "one", "--name", "A", "--type", "S"]).done();
    assert_eq!(fs::metadata(&path).expect("there").permissions().mode() & 0o7777, 0o640);
    assert!(fs::symlink_metadata(folder.0.join("link.img")).expect("there").is_symlink());
    assert!(folder.sj(&["ls", "a.img"]).done().contains("[A         ]"));
}

/// A slot is a slot, also where a file is called so; that one goes by its own slot.
#[test]
fn rm_takes_slots() {
    let folder = Folder::new("rm-slots");
    let mut image = vec![0; 819_200];
    for name in [b"A         ", b"#0        "] {
        calls::put(&mut image, name, b'S', b"x").expect("room");
    }
    folder.write("a.img", &image);
    fs::hard_link(folder.0.join("a.img"), folder.0.join("other.img")).expect("a link");
    folder.sj(&["rm", "a.img", "#1"]).done();
    assert!(folder.read("other.img") == image); // as the help says
    calls::remove(&mut image, b"#0        ", b'S').expect("there");
    assert!(folder.read("a.img") == image);
    folder.sj(&["rm", "a.img", "#0"]).done();
    assert_eq!(calls::check(&folder.read("a.img")).expect("accepted").files, 0);
}

/// The command run by nobody, who may not read what belongs to others; None where that isn't possible.
fn by_nobody(folder: &Folder, words: &[&str]) -> Option<Ran> {
    let owner = fs::metadata(&folder.0).expect("there").uid();
    let mut command = folder.command(words);
    if owner == 0 {
        command.uid(65_534).gid(65_534);
    }
    command.output().ok().map(Ran::of)
}

/// A folder that can be written but not read can't be synced: nothing is changed in it.
#[test]
fn a_folder_that_cant_be_synced_is_refused_first() {
    let folder = Folder::new("unreadable");
    let image = vec![0; 819_200];
    folder.write("a.img", &image);
    folder.write("one", b"1");
    let mode = |path: &str, mode| {
        fs::set_permissions(folder.0.join(path), fs::Permissions::from_mode(mode)).expect("mode");
    };
    mode("a.img", 0o666);
    mode(".", 0o333);
    let ran = by_nobody(&folder, &["put", "a.img", "one", "--name", "A", "--type", "S"]);
    mode(".", 0o755);
    let Some(ran) = ran else { return println!("skipped: nobody can't run {}", env!("CARGO_BIN_EXE_sj")) };
    ran.failed(2, &["the folder", "to sync it"]);
    assert!(folder.read("a.img") == image);
    assert_eq!(folder.names(), ["a.img", "one"]);
}

/// A traced put; None where there is no strace or it may not trace.
fn traced(folder: &Folder, inject: &str) -> Option<(Ran, String)> {
    let mut command = Command::new("strace");
    command.args(["-o", "trace", "-e", "trace=fsync,openat", "-e", &format!("inject={inject}")]);
    command.arg(env!("CARGO_BIN_EXE_sj")).args(["put", "a.img", "one", "--name", "A", "--type", "S"]);
    let ran = Ran::of(command.current_dir(&folder.0).output().ok()?);
    let trace = fs::read_to_string(folder.0.join("trace")).ok()?;
    trace.contains("INJECTED").then_some((ran, trace))
}

/// The second sync is the folder's, after the rename. Until the new image has the old one's mode, it is private.
#[test]
fn a_folder_whose_sync_fails_is_told() {
    let folder = Folder::new("unsynced");
    folder.write("a.img", &vec![0; 819_200]);
    folder.write("one", b"1");
    let Some((ran, trace)) = traced(&folder, "fsync:error=EIO:when=2") else {
        return println!("skipped: strace is not there or may not trace");
    };
    assert_eq!((ran.status, ran.out), (Some(0), b"#0\n".to_vec()));
    assert!(ran.err.contains("a.img is in place, but may not survive a power cut"), "{}", ran.err);
    assert_eq!(calls::find(&folder.read("a.img"), b"A         ", b'S'), Ok(0));
    let draft = trace.lines().find(|line| line.contains("/.sj-")).expect("a draft");
    assert!(draft.contains("0600"), "{draft}");
}

/// A run that can't write the new image: the old one stays whole.
#[test]
fn a_failed_run_leaves_the_old_image() {
    let folder = Folder::new("failed");
    let image = disk(LAYOUTS[0], 5, 100, 4);
    folder.write("a.img", &image);
    folder.write("one", b"1");
    let limited = format!(
        "ulimit -c 0; ulimit -f 8; exec {} put a.img one --name NEW --type S",
        env!("CARGO_BIN_EXE_sj")
    );
    let output = Command::new("sh").args(["-c", &limited]).current_dir(&folder.0).output().expect("sh runs");
    assert!(!output.status.success());
    assert!(folder.read("a.img") == image);
    folder.sj(&["put", "a.img", "one", "--name", "NEW", "--type", "S"]).done();
}

/// Runs ended at any moment: the image is the old one or the new one.
#[test]
fn an_interrupted_run_leaves_a_whole_image() {
    let folder = Folder::new("interrupted");
    let old = disk(LAYOUTS[3], 30, 500, 5);
    let mut new = old.clone();
    calls::put(&mut new, b"NEW         ", b's', &[3; 100_000]).expect("room");
    folder.write("long", &[3; 100_000]);
    let mut interrupted = 0;
    for turn in 0..40 {
        folder.write("a.img", &old);
        let mut run = folder.command(&["put", "a.img", "long", "--name", "NEW", "--type", "s"]);
        let mut run = run.stdout(std::process::Stdio::null()).spawn().expect("sj runs");
        std::thread::sleep(std::time::Duration::from_micros(200 * turn));
        let _ = run.kill(); // it may have ended
        interrupted += usize::from(!run.wait().expect("ended").success());
        let image = folder.read("a.img");
        assert!(image == old || image == new, "turn {turn}");
    }
    assert!(interrupted > 0);
}

#[test]
fn runs_at_once_lose_nothing() {
    let folder = Folder::new("at-once");
    folder.write("a.img", &vec![0; 1_638_400]);
    folder.write("one", &[1; 1500]);
    let name = |turn: usize| format!("FILE {turn}");
    let put = |turn: usize| {
        let mut command = folder.command(&["put", "a.img", "one", "--type", "S", "--name", &name(turn)]);
        command.stdout(std::process::Stdio::piped()).spawn().expect("sj runs")
    };
    let runs: Vec<_> = (0..12).map(put).collect();
    for run in runs {
        Ran::of(run.wait_with_output().expect("ended")).done();
    }
    let checked = calls::check(&folder.read("a.img")).expect("accepted");
    assert_eq!((checked.files, checked.free), (12, 1595 - 24));
    (0..12).for_each(|turn| drop(folder.sj(&["rm", "a.img", &name(turn)]).done()));
    assert_eq!(folder.names(), ["a.img", "one"]);
}
