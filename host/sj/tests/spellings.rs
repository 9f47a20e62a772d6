//! Names typed in small letters: capitals on an S1000 disk, two spellings being one name; other names on an S900 disk.

mod common;

use common::{Folder, disk};
use model::layout::LAYOUTS;

/// A folder with a disk that has no files, by its place among the layouts, and two files to put.
fn with_blank(name: &str, layout: usize) -> Folder {
    let folder = Folder::new(&format!("{name}-{layout}"));
    folder.write("a.img", &disk(LAYOUTS[layout], 0, 0, 1));
    folder.write("one", b"one");
    folder.write("three", b"three");
    folder
}

/// The names that `ls` tells.
fn listed(folder: &Folder) -> Vec<String> {
    let told = folder.sj(&["ls", "a.img"]).done();
    let name = |line: &str| line.split_once('[')?.1.strip_suffix(']').map(|name| name.trim_end().to_string());
    told.lines().filter_map(name).collect()
}

/// What `get` writes of a file, by a name.
fn got(folder: &Folder, name: &str) -> String {
    folder.sj(&["get", "a.img", name, "-o", "-"]).done()
}

#[test]
fn an_s1000_disk_has_one_name_for_all_spellings() {
    for layout in [2, 3] {
        let folder = with_blank("spellings", layout);
        let put = |file: &str, name: &str, rest: &[&str]| {
            folder.sj(&[&["put", "a.img", file, "--type", "s", "--name", name], rest].concat())
        };
        put("three", "other", &[]).done();
        let told = put("one", "Bass c2", &["--json"]).done();
        assert!(told.contains("\"slot\":1,\"name\":\"BASS C2\",\"stored\":\"BASS C2     \""), "{told}");
        assert_eq!(folder.read("a.img")[24..36], [12, 11, 29, 29, 10, 13, 2, 10, 10, 10, 10, 10]);
        assert_eq!(listed(&folder), ["OTHER", "BASS C2"]);
        for name in ["BASS C2", "bass c2", "bass C2", "bAsS C2  "] {
            assert_eq!(got(&folder, name), "one");
        }
        let before = folder.read("a.img");
        put("three", "bAsS C2", &[])
            .failed(1, &["bAsS C2: a file of that type already has the name (refusal 12, slot 1)"]);
        folder.sj(&["mv", "a.img", "Other", "bass c2"]).failed(1, &["refusal 12, slot 1"]);
        assert!(folder.read("a.img") == before);
        put("three", "bAsS C2", &["--replace"]).done();
        assert_eq!(
            (listed(&folder), got(&folder, "BASS c2")),
            (vec!["OTHER".into(), "BASS C2".into()], "three".into())
        );
        folder.sj(&["rm", "a.img", "BaSs C2", "other", "OTHER"]).done();
        assert_eq!(listed(&folder), [""; 0]);
    }
}

/// Files called in small letters are put under capitals; two that fold alike are one name, and none is put.
#[test]
fn files_of_many_spellings_are_put_on_an_s1000_disk() {
    let folder = with_blank("spelt-files", 3);
    for name in ["kick.s", "Kick.s", "Snare.p"] {
        folder.write(name, name.as_bytes());
    }
    let before = folder.read("a.img");
    folder
        .sj(&["put", "a.img", "kick.s", "Kick.s"])
        .failed(2, &["KICK is the name of two of the files of type s"]);
    assert!(folder.read("a.img") == before);
    let told = folder.sj(&["put", "a.img", "kick.s", "Snare.p"]).done();
    assert_eq!(told, "kick.s -> #0 [KICK]\nSnare.p -> #1 [SNARE]\n");
    assert_eq!(folder.sj(&["get", "a.img", "snare", "kick", "Kick", "-o", "out"]).done().lines().count(), 2);
    assert_eq!(Folder(folder.0.join("out")).names(), ["KICK.s", "SNARE.p"]);
    folder.sj(&["put", "a.img", "Kick.s", "--type", "S"]).failed(1, &["the type 'S' isn't legal"]); // not folded
}

#[test]
fn an_s1000_file_gets_another_spelling() {
    let folder = with_blank("spelt-mv", 2);
    folder.sj(&["put", "a.img", "one", "--type", "s", "--name", "BASS"]).done();
    let before = folder.read("a.img");
    assert_eq!(folder.sj(&["mv", "a.img", "bass", "Bass"]).done(), "#0 [BASS]\n"); // the same name
    assert!(folder.read("a.img") == before);
    assert_eq!(folder.sj(&["mv", "a.img", "Bass", "Bass c2"]).done(), "#0 [BASS C2]\n");
    assert_eq!((listed(&folder), got(&folder, "bass c2")), (vec!["BASS C2".into()], "one".into()));
}

#[test]
fn patterns_match_capitals_on_an_s1000_disk() {
    let folder = with_blank("spelt-patterns", 3);
    for name in ["Kick 1", "kick 2", "Snare"] {
        folder.sj(&["put", "a.img", "one", "--type", "s", "--name", name]).done();
    }
    let told = folder.sj(&["get", "a.img", "kick*", "-o", "out"]).done();
    assert_eq!(told, "#0 [KICK 1] -> KICK 1.s\n#1 [KICK 2] -> KICK 2.s\n");
    folder.sj(&["rm", "a.img", "x*"]).failed(1, &["x*: no file has such a name"]);
    folder.sj(&["rm", "a.img", "K?ck 2", "sN*"]).done();
    assert_eq!(listed(&folder), ["KICK 1"]);
}

#[test]
fn an_s900_disk_has_two_names_for_two_spellings() {
    for layout in [0, 1] {
        let folder = with_blank("s900", layout);
        folder.write("Bass.S", b"one");
        folder.write("BASS.S", b"three");
        let told = folder.sj(&["put", "a.img", "Bass.S", "BASS.S"]).done();
        assert_eq!(told, "Bass.S -> #0 [Bass]\nBASS.S -> #1 [BASS]\n");
        assert_eq!([got(&folder, "Bass"), got(&folder, "BASS")], ["one", "three"]);
        folder.sj(&["get", "a.img", "bass"]).failed(1, &["a.img: bass: there is no such file (refusal 10)"]);
        folder.sj(&["get", "a.img", "b*"]).failed(1, &["b*: no file has such a name"]);
        let told = folder.sj(&["get", "a.img", "?a*", "?A*", "-o", "out"]).done();
        assert_eq!(told, "#0 [Bass] -> Bass.S\n#1 [BASS] -> 1-BASS.S\n");
        folder.sj(&["mv", "a.img", "Bass", "BASS"]).failed(1, &["refusal 12, slot 1"]);
        folder.sj(&["mv", "a.img", "Bass", "bass"]).done();
        assert_eq!(listed(&folder), ["bass", "BASS"]);
        folder.sj(&["rm", "a.img", "BASS"]).done();
        assert_eq!((listed(&folder), got(&folder, "bass")), (vec!["bass".into()], "one".into()));
    }
}
