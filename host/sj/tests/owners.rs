//! Who may read and write a file after another has taken its place: nobody who couldn't before.

mod common;
mod tools;

use model::calls;
use std::fs;
use tools::{NOBODY, OWNER, Open, can_be_others, injected};

const PUT: [&str; 7] = ["put", "a.img", "one", "--name", "A", "--type", "S"];

/// A folder with an image of the owner's and a file to put into it.
fn image(name: &str, mode: u32) -> Open {
    let folder = Open::new(name);
    folder.give("a.img", &vec![0; 819_200], OWNER, mode);
    folder.give("one", b"1", OWNER, 0o644);
    folder
}

/// Whether nothing stands beside the image and the file.
fn alone(folder: &Open) -> bool {
    folder.0.names() == ["a.img", "one"]
}

/// Whether the image is as it was.
fn untouched(folder: &Open) -> bool {
    folder.0.read("a.img").iter().all(|&byte| byte == 0) && alone(folder)
}

/// Whether the image holds what was put into it.
fn holds(folder: &Open, name: &str) -> bool {
    calls::find(&folder.0.read("a.img"), format!("{name:10}").as_bytes(), b'S').is_ok()
}

fn forced(words: &[&'static str]) -> Vec<&'static str> {
    words.iter().copied().chain(["--force"]).collect()
}

#[test]
fn root_and_the_owner_keep_owner_group_and_mode() {
    if !can_be_others() {
        return;
    }
    for mode in [0o600, 0o640, 0o664, 0o2660, 0o2771, 0o6755] {
        let folder = image("kept", mode);
        folder.0.sj(&PUT).done();
        assert_eq!(folder.rights("a.img"), (OWNER, OWNER, mode), "{mode:o}");
        folder.by(OWNER, "1000", &["mv", "a.img", "A", "B"]).done();
        assert_eq!(folder.rights("a.img"), (OWNER, OWNER, mode), "{mode:o}");
        assert!(holds(&folder, "B"));
    }
}

/// A member of the group who isn't the owner: the group stays, by its own call.
#[test]
fn the_owner_alone_cant_be_kept() {
    if !can_be_others() {
        return;
    }
    for (mode, left) in [(0o660, 0o660), (0o664, 0o664), (0o6770, 0o770), (0o466, 0o444), (0o067, 0)] {
        let folder = image("group", mode);
        folder.by(NOBODY, "1000", &PUT).failed(2, &["a.img: its owner can't be kept; --force changes it"]);
        assert!(untouched(&folder) && folder.rights("a.img") == (OWNER, OWNER, mode), "{mode:o}");
        folder.by(NOBODY, "1000", &forced(&PUT)).done();
        assert_eq!(folder.rights("a.img"), (NOBODY, OWNER, left), "{mode:o}");
        assert!(holds(&folder, "A"));
    }
}

/// Whoever was in the group is among the others now, and the new group was among them.
#[test]
fn neither_owner_nor_group_can_be_kept() {
    if !can_be_others() {
        return;
    }
    for (mode, left) in [(0o666, 0o666), (0o646, 0o644), (0o676, 0o666), (0o606, 0o600), (0o6777, 0o777)] {
        let folder = image("others", mode);
        folder.by(NOBODY, "65534", &PUT).failed(2, &["its owner and its group can't be kept"]);
        assert!(untouched(&folder) && folder.rights("a.img") == (OWNER, OWNER, mode), "{mode:o}");
        folder.by(NOBODY, "65534", &forced(&PUT)).done();
        assert_eq!(folder.rights("a.img"), (NOBODY, NOBODY, left), "{mode:o}");
        assert!(holds(&folder, "A"));
    }
}

#[test]
fn an_acl_is_kept_or_nobody_but_the_owner_has_access() {
    if !can_be_others() {
        return;
    }
    let folder = image("acl", 0o640);
    folder.run("setfacl", &["-m", "u:65534:rw,u:1002:-,g:1003:r,o:r", "a.img"]);
    let acl = folder.acl("a.img");
    assert_eq!(acl.len(), 7, "{acl:?}");
    folder.0.sj(&PUT).done();
    assert_eq!((folder.rights("a.img"), folder.acl("a.img")), ((OWNER, OWNER, 0o664), acl.clone()));
    let remove = ["rm", "a.img", "A"];
    folder.by(NOBODY, "65534", &remove).failed(2, &["its owner, its group and its ACL can't be kept"]);
    folder.by(NOBODY, "1000", &remove).failed(2, &["a.img: its owner can't be kept"]);
    assert!(holds(&folder, "A") && alone(&folder));
    folder.by(NOBODY, "1000", &forced(&remove)).done();
    assert_eq!((folder.rights("a.img"), folder.acl("a.img")), ((NOBODY, OWNER, 0o664), acl));
    folder.run("chown", &["1000:1000", "a.img"]);
    folder.by(NOBODY, "65534", &forced(&PUT)).done();
    assert_eq!(folder.rights("a.img"), (NOBODY, NOBODY, 0o600));
    assert_eq!(folder.acl("a.img"), ["user::rw-", "group::---", "other::---"]);
}

/// What a folder gives its new files must not let those in who couldn't read the old one.
#[test]
fn a_folders_default_acl_gives_nobody_access() {
    let folder = Open::new("default");
    folder.0.write("a.img", &vec![0; 819_200]);
    folder.0.write("one", b"1");
    folder.run("chmod", &["640", "a.img"]);
    folder.run("setfacl", &["-m", "d:u:65534:rw,d:m::rw", "."]);
    let acl = folder.acl("a.img");
    folder.0.sj(&PUT).done();
    assert_eq!(folder.acl("a.img"), acl);
    folder.0.sj(&["get", "a.img", "A", "-o", "one"]).done();
    assert!(
        !folder.acl("one").iter().any(|entry| entry.starts_with("user:65534")),
        "{:?}",
        folder.acl("one")
    );
}

#[test]
fn attributes_are_kept() {
    let folder = Open::new("attributes");
    folder.0.write("a.img", &vec![0; 819_200]);
    folder.0.write("one", b"1");
    let all = |name: &str| folder.run("getfattr", &["--dump", "-m", "^user", name]);
    for (name, value) in [("user.comment", "bass"), ("user.empty", ""), ("user.bytes", "0x00ff0a")] {
        folder.run("setfattr", &["-n", name, "-v", value, "a.img"]);
    }
    let before = all("a.img");
    assert_eq!(before.lines().filter(|line| line.starts_with("user.")).count(), 3, "{before}");
    folder.0.sj(&PUT).done();
    assert_eq!(all("a.img"), before);
    folder.0.sj(&["rm", "a.img", "A"]).done();
    assert_eq!(all("a.img"), before);
}

/// A file system that takes no attribute: a label of a user's is no right, an ACL is one.
#[test]
fn what_cant_be_set_is_named() {
    let folder = Open::new("unset");
    folder.0.write("a.img", &vec![0; 819_200]);
    folder.0.write("one", b"1");
    folder.run("chmod", &["664", "a.img"]);
    folder.run("setfattr", &["-n", "user.comment", "-v", "bass", "a.img"]);
    let none = "fsetxattr:error=EOPNOTSUPP";
    let (ran, made) = injected(&folder.0, none, &PUT);
    assert!(made && untouched(&folder));
    ran.failed(2, &["a.img: its attribute user.comment can't be kept; --force changes it all the same"]);
    let (ran, _) = injected(&folder.0, none, &forced(&PUT));
    assert_eq!((ran.done().as_str(), folder.rights("a.img").2), ("#0\n", 0o664));
    folder.run("setfacl", &["-m", "u:65534:rw", "a.img"]);
    let (ran, _) = injected(&folder.0, none, &["rm", "a.img", "A"]);
    ran.failed(2, &["a.img: its ACL can't be kept"]);
    assert!(holds(&folder, "A") && alone(&folder));
    let (ran, _) = injected(&folder.0, none, &["rm", "a.img", "A", "--force"]);
    assert_eq!((ran.done().as_str(), folder.rights("a.img").2), ("", 0o600));
    assert_eq!(folder.acl("a.img").len(), 3);
}

/// A file that an output replaces is no more open than it was.
#[test]
fn an_output_keeps_what_was_there() {
    if !can_be_others() {
        return;
    }
    let folder = image("output", 0o644);
    folder.0.sj(&PUT).done();
    for (mode, left) in [(0o600, 0o600), (0o640, 0o600), (0o444, 0o444)] {
        folder.give("out", b"old", OWNER, mode);
        folder.run("setfattr", &["-n", "user.comment", "-v", "bass", "out"]);
        folder.0.sj(&["get", "a.img", "A", "-o", "out"]).done();
        assert_eq!((folder.rights("out"), folder.0.read("out")), ((OWNER, OWNER, mode), b"1".to_vec()));
        let attribute = ["--only-values", "-n", "user.comment", "out"];
        assert_eq!(folder.run("getfattr", &attribute), "bass");
        folder.by(NOBODY, "65534", &["get", "a.img", "A", "-o", "out"]).done();
        assert_eq!(folder.rights("out"), (NOBODY, NOBODY, left), "{mode:o}");
        fs::remove_file(folder.path("out")).expect("removed");
    }
    folder.give("out", b"old", OWNER, 0o600);
    folder.run("setfacl", &["-m", "u:1002:r", "out"]);
    let acl = folder.acl("out");
    folder.0.sj(&["get", "a.img", "A", "-o", "out"]).done();
    assert_eq!(folder.acl("out"), acl);
}

/// Until the new image has the old one's rights nobody else may open it.
#[test]
fn a_draft_is_private() {
    let folder = Open::new("private");
    folder.0.write("a.img", &vec![0; 819_200]);
    folder.0.write("one", b"1");
    folder.run("chmod", &["666", "a.img"]);
    let line = format!(
        "umask 0; exec strace -o trace -e trace=openat {} {}",
        env!("CARGO_BIN_EXE_sj"),
        PUT.join(" ")
    );
    folder.run("sh", &["-c", &line]);
    let trace = folder.0.read("trace");
    let trace = String::from_utf8_lossy(&trace);
    let draft = trace.lines().find(|line| line.contains("/.sj-")).expect("a draft");
    assert!(draft.contains("O_EXCL") && draft.contains("0600"), "{draft}");
    assert_eq!(folder.rights("a.img").2, 0o666);
}
