//! A cataloguer's day: many files and images in one run, all or nothing, and what is told.

mod common;

use common::{Folder, disk};
use model::calls;
use model::disk::read;
use model::layout::LAYOUTS;
use std::fs;

/// A disk of an S900 with files of these names, each as long as its place in the list and two more.
fn holding(names: &[&str]) -> Vec<u8> {
    let mut image = vec![0; 819_200];
    for (at, name) in names.iter().enumerate() {
        calls::put(&mut image, format!("{name:10}").as_bytes(), b'S', &vec![7; at + 2]).expect("room");
    }
    image
}

/// What an image's slots hold: name without its padding, type, length.
fn held(image: &[u8]) -> Vec<(String, char, usize)> {
    let disk = read(image).expect("accepted");
    let told = |file: &model::disk::File| {
        let name = String::from_utf8(file.name.clone()).expect("ASCII");
        (name.trim_end().to_string(), char::from(file.file_type), file.length)
    };
    disk.files.iter().flatten().map(told).collect()
}

fn names(image: &[u8]) -> Vec<String> {
    held(image).into_iter().map(|file| file.0).collect()
}

#[test]
fn many_files_are_put_at_once() {
    let folder = Folder::new("put-many");
    folder.write("a.img", &holding(&["OLD"]));
    folder.write("BASS C2.S", &[1; 3000]);
    folder.write("a.b.P", &[2; 10]);
    let said = folder.sj(&["put", "a.img", "BASS C2.S", "a.b.P"]).done();
    assert_eq!(said, "BASS C2.S -> #1 [BASS C2]\na.b.P -> #2 [a.b]\n");
    let expected = [("OLD", 'S', 2), ("BASS C2", 'S', 3000), ("a.b", 'P', 10)];
    assert_eq!(
        held(&folder.read("a.img")),
        expected.map(|(name, kind, length)| (name.to_string(), kind, length))
    );
    folder.sj(&["put", "a.img", "a.b.P", "--name", "other"]).done();
    folder.sj(&["put", "a.img", "a.b.P", "--type", "Q", "--name=third"]).done();
    assert_eq!(held(&folder.read("a.img"))[3..], [("other".into(), 'P', 10), ("third".into(), 'Q', 10)]);
}

/// One file that is refused keeps all of them out.
#[test]
fn many_files_are_put_or_none() {
    let folder = Folder::new("put-none");
    let image = holding(&["OLD"]);
    folder.write("a.img", &image);
    folder.write("NEW.S", &[1; 3000]);
    folder.write("OLD.S", &[1; 10]);
    folder.write("new.s", &[1; 10]);
    folder.write("empty.S", b"");
    folder.write("LONG.S", &[1; 900_000]);
    folder.write("plain", b"x");
    for (last, status, words) in [
        ("OLD.S", 1, "OLD: a file of that type already has the name (refusal 12, slot 0)"),
        ("new.s", 1, "the type 's' isn't legal"),
        ("empty.S", 1, "refusal 13"),
        ("LONG.S", 1, "needs 879 blocks, and 792 blocks are free (refusal 15)"),
        ("plain", 2, "plain tells no name: call it NAME.t"),
        ("none.S", 2, "none.S"),
        ("./NEW.S", 2, "NEW is the name of two of the files of type S"),
    ] {
        folder.sj(&["put", "a.img", "NEW.S", last]).failed(status, &[words]);
        assert!(folder.read("a.img") == image, "{last}");
    }
    folder
        .sj(&["put", "a.img", "NEW.S", "OLD.S", "--name", "X"])
        .failed(2, &["--name and --type are for one"]);
    folder.sj(&["put", "-", "NEW.S"]).failed(2, &["standard input can't be changed"]);
    assert!(folder.read("a.img") == image);
}

#[test]
fn a_file_takes_anothers_place_in_one_step() {
    let folder = Folder::new("replace");
    let image = holding(&["A", "B"]);
    folder.write("a.img", &image);
    folder.write("A.S", &[3; 2000]);
    folder.write("B.S", &[4; 814_080]);
    folder.sj(&["put", "a.img", "A.S"]).failed(1, &["refusal 12"]);
    folder.sj(&["put", "a.img", "A.S", "B.S", "--replace"]).failed(1, &["B: it needs 795 blocks"]);
    assert!(folder.read("a.img") == image); // both old files are there
    folder.sj(&["put", "a.img", "A.S", "--replace"]).done();
    assert_eq!(held(&folder.read("a.img")), [("A".into(), 'S', 2000), ("B".into(), 'S', 3)]);
    folder.sj(&["put", "a.img", "A.S", "--replace", "--name", "C"]).done(); // there is none to replace
    assert_eq!(names(&folder.read("a.img")), ["A", "B", "C"]);
}

#[test]
fn a_file_gets_another_name() {
    let folder = Folder::new("mv");
    let image = holding(&["A", "B"]);
    folder.write("a.img", &image);
    assert_eq!(folder.sj(&["mv", "a.img", "A", "NEW"]).done(), "#0 [NEW]\n");
    assert_eq!(held(&folder.read("a.img")), [("NEW".into(), 'S', 2), ("B".into(), 'S', 3)]);
    folder.sj(&["mv", "a.img", "#0", "A"]).done();
    assert_eq!(held(&folder.read("a.img")), held(&image));
    let before = folder.read("a.img");
    folder
        .sj(&["mv", "a.img", "A", "B"])
        .failed(1, &["B: a file of that type already has the name (refusal 12, slot 1)"]);
    folder.sj(&["mv", "a.img", "A", "a name too long"]).failed(1, &["15 characters", "refusal 11"]);
    folder.sj(&["mv", "a.img", "NONE", "C"]).failed(1, &["NONE", "refusal 10"]);
    folder.sj(&["mv", "a.img", "*", "C"]).failed(2, &["mv renames one file"]);
    folder.sj(&["mv", "a.img", "A", ""]).failed(2, &["--allow-empty-name"]);
    folder.sj(&["mv", "a.img", "A"]).failed(2, &["the new name is missing"]);
    assert!(folder.read("a.img") == before);
    folder.sj(&["mv", "a.img", "A", "B", "--replace"]).done();
    assert_eq!(held(&folder.read("a.img")), [("B".into(), 'S', 2)]);
}

/// A disk without a free block or slot is no hindrance.
#[test]
fn a_file_of_a_full_disk_gets_another_name() {
    let folder = Folder::new("mv-full");
    folder.write("a.img", &disk(LAYOUTS[3], 64, 0, 9));
    let old = held(&folder.read("a.img"));
    folder.sj(&["mv", "a.img", "#63", "A NEW NAME"]).done();
    let mut expected = old.clone();
    expected[63].0 = "A NEW NAME".into();
    assert!(held(&folder.read("a.img")) == expected);
}

#[test]
fn files_are_removed_by_name_slot_and_pattern() {
    let folder = Folder::new("rm-many");
    let all = ["KICK 1", "KICK 2", "SNARE", "a*b", "axb", "#9"];
    for (words, left) in [
        (&["KICK 1", "#2"][..], &["KICK 2", "a*b", "axb", "#9"][..]),
        (&["KICK ?"], &["SNARE", "a*b", "axb", "#9"]),
        (&["*"], &[]),
        (&["a*b"], &["KICK 1", "KICK 2", "SNARE", "axb", "#9"]), // to the letter
        (&["a?b"], &["KICK 1", "KICK 2", "SNARE", "#9"]),
        (&["KICK*", "KICK 1", "#0"], &["SNARE", "a*b", "axb", "#9"]),
    ] {
        folder.write("a.img", &holding(&all));
        folder.sj(&[&["rm", "a.img"], words].concat()).done();
        assert_eq!(names(&folder.read("a.img")), left, "{words:?}");
    }
    let image = holding(&all);
    folder.write("a.img", &image);
    folder.sj(&["rm", "a.img", "SNARE", "X*"]).failed(1, &["a.img: X*: no file has such a name"]);
    folder.sj(&["rm", "a.img", "SNARE", "NONE"]).failed(1, &["a.img: NONE: there is no such file"]);
    folder.sj(&["rm", "a.img", "SNARE", "#64"]).failed(1, &["a.img: #64: there is no such file"]);
    assert!(folder.read("a.img") == image);
    assert_eq!(folder.sj(&["rm", "a.img", "K*"]).done(), "#0 [KICK 1]\n#1 [KICK 2]\n");
    assert_eq!(folder.sj(&["rm", "a.img", "SN*", "--quiet"]).done(), "");
}

#[test]
fn files_are_copied_out_by_pattern() {
    let folder = Folder::new("get-many");
    folder.write("a.img", &holding(&["KICK 1", "KICK 2", "a*b", "axb"]));
    let said = folder.sj(&["get", "a.img", "KICK*", "#2", "-o", "out"]).done();
    assert_eq!(said, "#0 [KICK 1] -> KICK 1.S\n#1 [KICK 2] -> KICK 2.S\n#2 [a*b] -> a_b.S\n");
    assert_eq!(Folder(folder.0.join("out")).names(), ["KICK 1.S", "KICK 2.S", "a_b.S"]);
    assert_eq!(folder.sj(&["get", "a.img", "a*b"]).done(), "#2 [a*b] -> a_b.S\n"); // to the letter
    folder.sj(&["get", "a.img", "a?b"]).failed(2, &["a_b.S is there already"]);
    folder.sj(&["get", "a.img", "KICK*", "-o", "-"]).failed(2, &["several files need a folder"]);
    folder.sj(&["get", "a.img", "X?", "-o", "out"]).failed(1, &["X?: no file has such a name"]);
}

/// What was copied before stays, and is counted.
#[test]
fn a_copy_that_fails_says_how_many_were_done() {
    let folder = Folder::new("get-count");
    folder.write("a.img", &holding(&["A", "B", "C"]));
    fs::create_dir_all(folder.0.join("out/B.S")).expect("a folder");
    let ran = folder.sj(&["get", "a.img", "--all", "-o", "out", "--force"]);
    assert!(ran.status == Some(2) && ran.err.contains("1 of 3 files copied out before"), "{}", ran.err);
    assert_eq!(String::from_utf8(ran.out).expect("text"), "#0 [A] -> A.S\n");
}

#[test]
fn folders_stand_for_their_images() {
    let folder = Folder::new("folders");
    fs::create_dir_all(folder.0.join("disks/more")).expect("folders");
    fs::create_dir_all(folder.0.join("disks/.hidden")).expect("folders");
    folder.write("disks/b.img", &holding(&["A"]));
    folder.write("disks/a.img", &disk(LAYOUTS[3], 64, 1, 2));
    folder.write("disks/more/c.img", &[0; 10]);
    folder.write("disks/.d.img", &[0; 10]);
    folder.write("disks/.hidden/e.img", &[0; 10]);
    std::os::unix::fs::symlink(".", folder.0.join("disks/loop")).expect("a link");
    let lines = "disks/a.img: S1000 high, 64 files, 1 block free (1,024 bytes)\n\
                 disks/b.img: S900 low, 1 file, 795 blocks free (814,080 bytes)\n";
    let ran = folder.sj(&["check", "disks"]);
    assert_eq!(String::from_utf8(ran.out).expect("text"), format!("{lines}2 accepted, 1 refused (1: 1)\n"));
    assert_eq!((ran.status, ran.err.lines().count()), (Some(1), 1));
    assert!(ran.err.starts_with("sj: disks/more/c.img: the image is neither"), "{}", ran.err);
    let ran = folder.sj(&["check", "disks", "--quiet"]);
    assert_eq!((ran.status, ran.out.len(), ran.err.lines().count()), (Some(1), 0, 1));
    let said = folder.sj(&["ls", "disks/b.img", "--quiet"]).done();
    assert_eq!(said, "");
}

/// One object a line, refusals and failures too, and the closing counts.
#[test]
fn answers_are_told_as_json() {
    let folder = Folder::new("json");
    folder.write("a.img", &holding(&["A"]));
    folder.write("bad.img", &[0; 10]);
    folder.write("B.S", b"1");
    let ran = folder.sj(&["check", "--json", "a.img", "bad.img", "none.img"]);
    let lines = "{\"file\":\"a.img\",\"kind\":\"S900\",\"density\":\"low\",\"files\":1,\"free\":795,\"free_bytes\":814080}\n\
        {\"file\":\"bad.img\",\"refusal\":1,\"place\":0,\"words\":\"the image is neither 819,200 nor 1,638,400 bytes long \
        (refusal 1)\"}\n\
        {\"file\":\"none.img\",\"error\":\"No such file or directory (os error 2)\"}\n\
        {\"accepted\":1,\"refused\":1,\"refusals\":{\"1\":1},\"failed\":1}\n";
    assert_eq!((ran.status, ran.err.as_str()), (Some(2), ""));
    assert_eq!(String::from_utf8(ran.out).expect("text"), lines);
    let a = r#""slot":0,"name":"A","stored":"A         ","type":"S","type_byte":83,"length":2"#;
    let b = r#""slot":1,"name":"B","stored":"B         ","type":"S","type_byte":83,"length":1"#;
    for (words, line) in [
        (&["put", "a.img", "B.S"][..], format!("{{\"file\":\"a.img\",{b},\"from\":\"B.S\"}}\n")),
        (&["get", "a.img", "A", "-o", "x"], format!("{{\"file\":\"a.img\",{a},\"to\":\"x\"}}\n")),
        (&["mv", "a.img", "A", "A"], format!("{{\"file\":\"a.img\",{a}}}\n")),
        (&["rm", "a.img", "B"], format!("{{\"file\":\"a.img\",{b}}}\n")),
        (&["--version"], format!("{{\"version\":\"{}\"}}\n", env!("CARGO_PKG_VERSION"))),
    ] {
        assert_eq!(folder.sj(&[words, &["--json"]].concat()).done(), line, "{words:?}");
    }
    for (words, status, start) in [
        (
            &["get", "a.img", "X"][..],
            1,
            "{\"file\":\"a.img\",\"name\":\"X\",\"refusal\":10,\"place\":0,\"words\":",
        ),
        (
            &["put", "a.img", "B.S", "--name", "A"],
            1,
            "{\"file\":\"a.img\",\"name\":\"A\",\"refusal\":12,\"place\":0,\"counts\":\"slot\",",
        ),
        (&["dance"], 2, "{\"error\":\"there is no command dance"),
    ] {
        let ran = folder.sj(&[words, &["--json", "--explain"]].concat());
        let said = String::from_utf8(ran.out).expect("text");
        assert_eq!((ran.status, ran.err.as_str(), said.lines().count()), (Some(status), "", 1), "{words:?}");
        assert!(said.starts_with(start) && (status == 2 || said.contains("\"advice\":\"")), "{said}");
    }
}

/// A line a refusal, advice where it is asked for, nothing over 100 columns, and names that show as they are.
#[test]
fn messages_are_short_and_plain() {
    let folder = Folder::new("messages");
    folder.write("a.img", &holding(&["A"]));
    folder.write("s.img", &disk(LAYOUTS[3], 3, 10, 1));
    folder.write("B.S", b"1");
    folder.write("bad\n.img", &[0; 10]);
    let told = folder.sj(&["check", "bad\n.img"]).err;
    assert!(told.starts_with("sj: \"bad\\n.img\": the image is neither"), "{told}");
    let told = String::from_utf8(folder.sj(&["check", "bad\n.img", "--json"]).out).expect("text");
    assert!(told.starts_with("{\"file\":\"bad\\u000a.img\",\"refusal\":1"), "{told}");
    let told = folder.sj(&["check", "bad\n.img", "--explain"]).err;
    assert_eq!(
        told.lines().nth(1).map(|line| line.starts_with("    Read the disk again")),
        Some(true),
        "{told}"
    );
    for (words, says) in [
        (&["put", "s.img", "B.S", "--type", "s", "--name", "a/b"][..], "character '/' (2 of 3)"),
        (&["put", "s.img", "B.S", "--type", "s", "--name", "A\u{e9}"], "character 'é' (2 of 2)"),
        (&["put", "s.img", "B.S", "--type", "s", "--name", "ABCDEFGHIJKLM"], "the name has 13 characters"),
        (&["put", "s.img", "B.S"], "the type 'S' isn't legal: an S1000 type is one of a to z"),
        (&["get", "a.img", "A\x07"], "character '\\u{7}' (2 of 2)"),
        (&["put", "a.img", "B.S", "--name="], "an empty name needs --allow-empty-name"),
        (&["put", "a.img", "B.S", "--name", "  "], "an empty name needs --allow-empty-name"),
    ] {
        let ran = folder.sj(words);
        let flat = ran.err.replace("\n    ", " ");
        assert!(ran.status != Some(0) && flat.contains(says), "{words:?} {flat}");
        assert!(ran.err.lines().all(|line| line.chars().count() <= 100), "{}", ran.err);
        assert!(!ran.err.trim_end().contains(|character: char| character.is_control() && character != '\n'));
    }
    assert!(folder.sj(&["check", ""]).err.starts_with("sj: \"\": No such file"));
    folder.sj(&["get", "a.img", "A              ", "-o", "-"]).done(); // spaces at the end are no part of a name
    folder.sj(&["put", "a.img", "B.S", "--name", "", "--allow-empty-name"]).done();
    assert_eq!(names(&folder.read("a.img")), ["A", ""]);
}
