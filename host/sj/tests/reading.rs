//! check, ls, get and help, with every status.

mod common;

use common::{Folder, Ran, disk};
use model::calls;
use model::disk::{content, read};
use model::layout::{LAYOUTS, Layout};
use model::random::Random;
use std::fs;
use std::os::unix::fs::symlink;
use std::process::{Command, Stdio};

const S900_LOW: Layout = LAYOUTS[0];
const S1000_HIGH: Layout = LAYOUTS[3];

#[test]
fn check_tells_each_image_and_the_worst_status() {
    let folder = Folder::new("check");
    folder.write("a.img", &disk(S900_LOW, 5, 100, 1));
    folder.write("b.img", &disk(S1000_HIGH, 64, 7, 2));
    folder.write("short.img", &[0; 819_199]);
    let said = folder.sj(&["check", "a.img", "b.img"]).done();
    let lines = [
        "a.img: S900 low, 5 files, 100 blocks free (102,400 bytes)",
        "b.img: S1000 high, 64 files, 7 blocks free (7,168 bytes)",
        "2 accepted, 0 refused",
    ];
    assert_eq!(said.lines().collect::<Vec<&str>>(), lines);
    let words = "sj: short.img: the image is neither 819,200 nor 1,638,400 bytes long (refusal 1)\n";
    assert_eq!(folder.sj(&["check", "short.img"]).err, words);
    let ran = folder.sj(&["check", "none.img", "short.img", "a.img"]);
    let said = String::from_utf8(ran.out).expect("text");
    assert_eq!((ran.status, said.ends_with("\n1 accepted, 1 refused (1: 1), 1 not read\n")), (Some(2), true));
    assert!(said.starts_with("a.img: S900 low") && ran.err.contains("none.img") && ran.err.contains(words));
    folder.sj(&["check"]).failed(2, &["the image is missing", "--help"]);
}

/// The same command on a pipe that gives the image, under a name for it.
fn piped(folder: &Folder, words: &[&str], name: &str) -> Ran {
    let mut shell = Command::new("sh");
    shell.args(["-c", "cat a.img | \"$@\"", "sh", env!("CARGO_BIN_EXE_sj")]);
    shell.args(words.iter().map(|&word| if word == "a.img" { name } else { word }));
    Ran::of(shell.current_dir(&folder.0).output().expect("sh runs"))
}

/// Of a plain file only the head is read, and the blocks of a file that is copied out. A pipe has no length to tell,
/// and other lengths need no image.
#[test]
fn files_and_pipes_are_told_alike() {
    let folder = Folder::new("pipes");
    let mut random = Random::new(5);
    for layout in LAYOUTS {
        for turn in 0..12 {
            let mut image = disk(layout, 9, 50, turn);
            if turn > 0 {
                let head = if image[16] == 255 { 17_408 } else { 5120 }; // an S3000's directory lies further on
                image[random.below(head)] ^= 1 << random.below(8);
            }
            folder.write("a.img", &image);
            let used = read(&image).ok().and_then(|disk| disk.files.iter().position(Option::is_some));
            let slot = format!("#{}", used.unwrap_or(0));
            let get = ["get", "a.img", &slot, "-o", "-"];
            let words = [&["check", "a.img"][..], &["ls", "a.img"], &["ls", "--json", "a.img"], &get];
            for (words, name) in words.into_iter().zip(["-", "/dev/stdin", "-", "-"]) {
                let (piped, plain) = (piped(&folder, words, name), folder.sj(words));
                assert_eq!(
                    (plain.status == Some(0), plain.status),
                    (calls::check(&image).is_ok(), piped.status)
                );
                let text = |bytes: &[u8]| {
                    let text = String::from_utf8_lossy(bytes);
                    text.replace("/dev/stdin", "a.img").replace("standard input", "a.img")
                };
                let alike = piped.out == plain.out || words != get && text(&piped.out) == text(&plain.out);
                assert!(alike, "{words:?}");
                assert_eq!(text(piped.err.as_bytes()), plain.err);
            }
        }
    }
}

#[test]
fn other_lengths_are_refused() {
    let folder = Folder::new("lengths");
    let path = folder.0.join("a.img");
    let file = fs::File::create(&path).expect("created");
    for length in [0, 5119, 5120, 17_407, 17_408, 819_199, 819_201, 1_638_399, 1_638_401, 1 << 40] {
        if file.set_len(length).is_ok() {
            folder.sj(&["check", "a.img"]).failed(1, &["a.img", "refusal 1"]);
            folder.sj(&["ls", "a.img"]).failed(1, &["a.img", "refusal 1"]);
        }
    }
}

#[test]
fn refusals_have_their_place() {
    let folder = Folder::new("place");
    let mut image = disk(S900_LOW, 5, 100, 1);
    let file = read(&image).expect("accepted").files.into_iter().flatten().next().expect("a file");
    image[1536 + 2 * file.chain[0]..][..2].fill(0);
    folder.write("bad.img", &image);
    let refusal = calls::check(&image).expect_err("refused");
    let told = format!("refusal {}, slot {}", refusal.number, refusal.place);
    folder.sj(&["check", "bad.img"]).failed(1, &[&told]);
    folder.sj(&["ls", "bad.img"]).failed(1, &[&told]);
    folder.sj(&["get", "bad.img", "#0"]).failed(1, &[&told]);
    folder.sj(&["get", "bad.img", "--all", "-o", "all"]).failed(1, &[&told]);
    folder.sj(&["rm", "bad.img", "X"]).failed(1, &[&told]);
    assert_eq!(folder.names(), ["bad.img"]);
}

#[test]
fn ls_lists_as_lines_and_as_json() {
    let folder = Folder::new("ls");
    let mut image = vec![0; 819_200];
    calls::put(&mut image, b"A \"B\\     ", b'S', &[1; 2150]).expect("room");
    calls::put(&mut image, b"PIANO     ", b'P', &[1; 38]).expect("room");
    folder.write("a.img", &image);
    let lines = "a.img: S900 low, 2 files, 792 blocks free (811,008 bytes)\n  \
        #0 S     2150 [A \"B\\     ]\n  #1 P       38 [PIANO     ]\n";
    assert_eq!(folder.sj(&["ls", "a.img"]).done(), lines);
    let json = "{\"file\":\"a.img\",\"kind\":\"S900\",\"density\":\"low\",\"files\":2,\"free\":792,\"free_bytes\":811008,\
        \"entries\":[{\"slot\":0,\"name\":\"A \\\"B\\\\\",\"stored\":\"A \\\"B\\\\     \",\"type\":\"S\",\"type_byte\":83,\"length\":2150},\
        {\"slot\":1,\"name\":\"PIANO\",\"stored\":\"PIANO     \",\"type\":\"P\",\"type_byte\":80,\"length\":38}]}\n";
    assert_eq!(folder.sj(&["ls", "--json", "a.img"]).done(), json);
    let both = folder.sj(&["ls", "a.img", "a.img"]).done();
    assert_eq!(both, format!("{lines}{lines}2 accepted, 0 refused\n"));
    folder.sj(&["ls", "a.img", "--jason"]).failed(2, &["no option --jason"]);
    folder.sj(&["ls", "none.img"]).failed(2, &["none.img"]);
}

#[test]
fn get_copies_whole_files() {
    let folder = Folder::new("get");
    let image = disk(S1000_HIGH, 40, 30, 3);
    folder.write("a.img", &image);
    let read = read(&image).expect("accepted");
    for (slot, file) in read.files.iter().enumerate() {
        let Some(file) = file else { continue };
        let name = String::from_utf8(file.name.clone()).expect("ASCII");
        let file_type = char::from(file.file_type).to_string(); // another file may have the name
        folder.sj(&["get", "a.img", "--type", &file_type, "-o", "by-name", "--", name.trim_end()]).done();
        assert!(folder.read("by-name") == content(&image, file));
        let ran = folder.sj(&["get", "a.img", &format!("#{slot}"), "-o", "-"]);
        assert!(ran.status == Some(0) && ran.out == content(&image, file));
    }
    folder
        .sj(&["get", "a.img", "NOT HERE"])
        .failed(1, &["a.img: NOT HERE: there is no such file (refusal 10)"]);
    folder.sj(&["get", "a.img", "#64"]).failed(1, &["refusal 10"]);
    folder.sj(&["get", "a.img", "lower case"]).failed(1, &["a.img: lower case: there is no such file"]);
    folder.sj(&["get", "a.img", "lower_case"]).failed(1, &["refusal 11", "12 of 0-9, A-Z (small letters"]);
    folder.sj(&["get", "a.img"]).failed(2, &["name or '#slot' is missing"]);
    folder.sj(&["get", "a.img", "X", "-o"]).failed(2, &["-o needs a value"]);
    assert_eq!(folder.names(), ["a.img", "by-name"]);
}

#[test]
fn get_takes_the_name_and_replaces_nothing_unasked() {
    let folder = Folder::new("get-named");
    let mut image = vec![0; 819_200];
    calls::put(&mut image, b"a/b       ", b'S', b"one").expect("room");
    folder.write("a.img", &image);
    folder.sj(&["get", "a.img", "a/b"]).done();
    assert_eq!(folder.read("a_b.S"), b"one");
    folder.write("a_b.S", b"mine");
    folder.sj(&["get", "a.img", "#0"]).failed(2, &["a_b.S is there already"]);
    assert_eq!(folder.read("a_b.S"), b"mine");
    folder.sj(&["get", "a.img", "#0", "--force"]).done();
    assert_eq!(folder.read("a_b.S"), b"one");
    fs::create_dir(folder.0.join("taken")).expect("a folder");
    folder.sj(&["get", "a.img", "#0", "-o", "taken"]).failed(2, &["no plain file"]);
    folder.sj(&["get", "a.img", "#0", "-o", "none/x"]).failed(2, &["the folder none"]);
}

/// Under any of its names, also where a file is replaced by force.
#[test]
fn get_never_replaces_its_image() {
    let folder = Folder::new("get-itself");
    let mut image = vec![0; 819_200];
    calls::put(&mut image, b"DISK      ", b'I', b"one").expect("room");
    folder.write("DISK.I", &image);
    symlink("DISK.I", folder.0.join("link")).expect("link");
    for words in [&["#0", "-o", "DISK.I"][..], &["DISK", "-o", "link"], &["#0", "--force"]] {
        folder.sj(&[&["get", "DISK.I"], words].concat()).failed(2, &["is the file that is read"]);
    }
    folder.sj(&["get", "link", "--all", "-o", ".", "--force"]).failed(2, &["is the file that is read"]);
    assert!(folder.read("DISK.I") == image);
    assert_eq!(folder.names(), ["DISK.I", "link"]);
}

#[test]
fn get_all_copies_every_file() {
    let folder = Folder::new("get-all");
    let mut image = vec![0; 1_638_400];
    for (name, bytes) in [(b"a/b       ", 1), (b"A_B       ", 5000), (b"..        ", 1024)] {
        calls::put(&mut image, name, b'S', &vec![bytes as u8; bytes]).expect("room");
    }
    folder.write("a.img", &image);
    folder.sj(&["get", "a.img", "--all"]).failed(2, &["-o DIR"]);
    let said = folder.sj(&["get", "a.img", "--all", "-o", "all"]).done();
    assert_eq!(said, "#0 [a/b] -> a_b.S\n#1 [A_B] -> 1-A_B.S\n#2 [..] -> _...S\n");
    folder.sj(&["get", "a.img", "--all", "-o", "-"]).failed(2, &["a folder", "- is standard output"]);
    let all = Folder(folder.0.join("all"));
    assert_eq!(all.names(), ["1-A_B.S", "_...S", "a_b.S"]);
    assert_eq!(
        (all.read("a_b.S").len(), all.read("1-A_B.S").len(), all.read("_...S").len()),
        (1, 5000, 1024)
    );
    all.write("a_b.S", b"mine");
    folder.sj(&["get", "a.img", "--all", "-o", "all"]).failed(2, &["there already"]);
    folder.sj(&["get", "a.img", "--all", "-o", "all", "--force"]).done();
    assert_eq!(all.read("a_b.S"), [1]);
}

/// The name that the third file gets beside the second is the first one's.
#[test]
fn get_all_loses_no_file() {
    let folder = Folder::new("get-all-names");
    let mut image = vec![0; 819_200];
    let names = [b"2-A_B     ", b"a/b       ", b"A_B       "];
    for (name, bytes) in names.into_iter().zip(1..) {
        calls::put(&mut image, name, b'S', &vec![bytes as u8; bytes]).expect("room");
    }
    folder.write("a.img", &image);
    folder.sj(&["get", "a.img", "--all", "-o", "all"]).done();
    let all = Folder(folder.0.join("all"));
    let mut lengths: Vec<usize> = all.names().iter().map(|name| all.read(name).len()).collect();
    lengths.sort_unstable();
    assert_eq!(lengths, [1, 2, 3]);
}

/// A message that can't be written changes no status.
#[test]
fn a_failing_standard_error_keeps_the_status() {
    let folder = Folder::new("full");
    folder.write("short.img", &[0; 100]);
    let full = || fs::OpenOptions::new().write(true).open("/dev/full").expect("a full device");
    for (words, status) in [(&["check", "short.img"][..], 1), (&["check", "none.img"], 2), (&["dance"], 2)] {
        let ended = folder.command(words).stderr(full()).status().expect("sj runs");
        assert_eq!(ended.code(), Some(status), "{words:?}");
    }
}

/// A reader that closes a listing has seen enough; one that closes a file that is copied out hasn't got it.
#[test]
fn a_closed_standard_output_fails_get_alone() {
    let folder = Folder::new("closed");
    let mut image = vec![0; 819_200];
    calls::put(&mut image, b"LONG      ", b'S', &[1; 300_000]).expect("room");
    folder.write("a.img", &image);
    for (words, status) in [(&["get", "a.img", "LONG", "-o", "-"][..], 2), (&["ls", "a.img"], 0)] {
        let mut command = folder.command(words);
        let mut run = command.stdout(Stdio::piped()).stderr(Stdio::piped()).spawn().expect("sj runs");
        drop(run.stdout.take()); // no pipe holds as much as the file
        let ran = Ran::of(run.wait_with_output().expect("ended"));
        assert_eq!((ran.status, ran.err.contains("standard output")), (Some(status), status == 2));
    }
}

#[test]
fn help_and_wrong_commands() {
    let folder = Folder::new("help");
    let help = folder.sj(&["--help"]).done();
    assert!(help.contains("  sj put IMAGE FILE [--name NAME] [--type T] [--replace]\n"), "{help}");
    assert!(help.contains("'#SLOT'") && !help.replace("'#", "").contains('#'), "{help}");
    for command in ["check", "ls", "get", "put", "mv", "rm", "salvage", "unpack", "pack", "program", "help"] {
        let said = folder.sj(&["help", command]).done();
        assert!(said.starts_with(&format!("sj {command}")) && said.contains("  --json"), "{said}");
        assert_eq!(folder.sj(&[command, "--help"]).done(), said);
        assert_eq!(folder.sj(&[command, "-h", "x"]).done(), said);
    }
    let refusals = folder.sj(&["help", "refusals"]).done();
    (1..=21).for_each(|number| assert!(refusals.contains(&format!("\n{number:>2}  ")), "{number}"));
    assert!(help.lines().chain(refusals.lines()).all(|line| line.chars().count() <= 100));
    folder.sj(&["help", "nothing"]).failed(2, &["no help on nothing"]);
    folder.sj(&[]).failed(2, &["which command?"]);
    folder.sj(&["dance"]).failed(2, &["no command dance"]);
    assert_eq!(folder.sj(&["--version"]).done(), format!("sj {}\n", env!("CARGO_PKG_VERSION")));
}
