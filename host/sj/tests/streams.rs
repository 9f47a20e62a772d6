//! Standard input, output and error: closed, full, read where a file could be, and failing when they are closed.

mod common;
mod tools;

use common::{Folder, Ran};
use model::calls;
use model::files;
use model::layout::Kind;
use model::random::Random;
use std::fs;
use std::process::Command;
use tools::{injected, shell};

/// A folder with an image, a sample and a program.
fn folder(name: &str) -> Folder {
    let folder = Folder::new(name);
    let mut image = vec![0; 819_200];
    calls::put(&mut image, b"A         ", b'S', b"content").expect("room");
    folder.write("a.img", &image);
    folder.write("short.img", &[0; 100]);
    folder.write("one", b"1");
    folder.write("sample", &files::sample(Kind::S1000, 10, &mut Random::new(1)));
    folder
}

/// Commands that answer on standard output.
const ANSWERS: [&str; 22] = [
    "sj check a.img",
    "sj check a.img a.img --json",
    "sj check .",
    "sj ls a.img",
    "sj ls a.img --json",
    "sj get a.img A --force",
    "sj get a.img A -o -",
    "sj get a.img A -o out --json",
    "sj get a.img 'A*' -o all --force",
    "sj get a.img --all -o all --force",
    "sj put a.img one --name B --type S --replace",
    "sj put a.img one --name B --type S --replace --json",
    "sj mv a.img B B --replace",
    "sj rm a.img 'B*'",
    "sj salvage a.img --dry-run",
    "sj salvage a.img a.img --in-place --json",
    "sj salvage a.img -o -",
    "sj unpack sample -o -",
    "sj help",
    "sj help refusals",
    "sj ls --help",
    "sj --version",
];

/// Who asked and got no answer must not take it that all is well.
#[test]
fn an_answer_that_cant_be_given_is_a_failure() {
    let folder = folder("closed-output");
    for (way, words) in [
        (">&-", "standard output: it is closed"),
        ("1</dev/null", "standard output: it isn't open for writing"),
        (">/dev/full", "standard output: No space left on device"),
    ] {
        for command in ANSWERS {
            let ran = shell(&folder, &format!("{command} {way}"));
            assert_eq!(ran.status, Some(2), "{command} {way}: {}", ran.err);
            assert!(ran.err.contains(words), "{command} {way}: {}", ran.err);
        }
    }
}

/// A refusal told in JSON is an answer; it comes to standard error instead, and the status is no refusal's.
#[test]
fn a_refusal_in_json_that_cant_be_told_is_a_failure() {
    let folder = folder("closed-json");
    let ran = shell(&folder, "sj check short.img --json >&-");
    ran.failed(2, &["short.img: ", "refusal 1", "standard output: "]);
    shell(&folder, "sj check short.img >&-").failed(1, &["refusal 1"]);
    shell(&folder, "sj check none.img --json >&-").failed(2, &["none.img"]);
}

/// What says nothing needs no standard output, and no message ends up in a file that is opened later.
#[test]
fn closed_streams_break_nothing() {
    let folder = folder("closed-all");
    let image = folder.read("a.img");
    for (line, status) in [
        ("sj get a.img A -o out <&- >&- 2>&-", 0),
        ("sj check a.img --quiet <&- >&- 2>&-", 0),
        ("sj check a.img short.img none.img <&- >&- 2>&-", 2),
        ("sj check short.img 2>&-", 1),
        ("sj check none.img 2>&-", 2),
        ("sj dance 2>&-", 2),
        ("sj put a.img one --name A --type S <&- >&- 2>&-", 1),
    ] {
        assert_eq!(shell(&folder, line).status, Some(status), "{line}");
        assert!(folder.read("a.img") == image, "{line}");
    }
    assert_eq!(folder.read("out"), b"content");
    assert_eq!(shell(&folder, "sj put a.img one --name B --type S <&- >&- 2>&-").status, Some(2));
    let mut expected = image;
    calls::put(&mut expected, b"B         ", b'S', b"1").expect("room");
    assert!(folder.read("a.img") == expected);
    assert_eq!(folder.names(), ["a.img", "one", "out", "sample", "short.img"]);
}

/// A line is one call: no less, as who reads them sees each at once; no more, as there may be thousands.
#[test]
fn a_line_is_one_write() {
    let folder = folder("writes");
    let mut strace = Command::new("strace");
    strace.args(["-o", "trace", "-e", "trace=write", env!("CARGO_BIN_EXE_sj"), "check"]).args(["a.img"; 20]);
    let ran = Ran::of(strace.current_dir(&folder.0).output().expect("strace is needed"));
    assert_eq!(ran.done().lines().count(), 21);
    let trace = String::from_utf8(folder.read("trace")).expect("text");
    assert_eq!(trace.lines().filter(|line| line.starts_with("write(")).count(), 21, "{trace}");
}

#[test]
fn standard_input_is_a_file_like_others() {
    let folder = folder("input");
    let told = folder.sj(&["check", "a.img"]).done().replace("a.img", "standard input");
    for line in ["sj check - < a.img", "cat a.img | sj check -"] {
        assert_eq!(shell(&folder, line).done(), told, "{line}");
    }
    // A file that was read from already is read on from there.
    shell(&folder, "(cat one; cat a.img) > shifted").done();
    assert_eq!(
        shell(&folder, "(dd bs=1 count=1 status=none; sj check -) < shifted").done(),
        format!("1{told}")
    );
    assert!(shell(&folder, "sj ls - < a.img").done().contains("[A         ]"));
    for from in ["< a.img", "< shifted"] {
        let skip = if from == "< a.img" { "" } else { "dd bs=1 count=1 status=none of=/dev/null; " };
        shell(&folder, &format!("({skip}sj get - A -o out) {from}")).done();
        assert_eq!(folder.read("out"), b"content", "{from}");
    }
    assert_eq!(shell(&folder, "sj put a.img - --name B --type S < one").done(), "#1\n");
    assert_eq!(shell(&folder, "sj get a.img B -o - | sj put a.img - --name C --type S").done(), "#2\n");
    shell(&folder, "sj unpack - -o - < sample > one.wav").done();
    folder.sj(&["unpack", "sample", "-o", "other.wav"]).done();
    assert_eq!(folder.read("one.wav"), folder.read("other.wav"));
}

#[test]
fn failures_of_standard_input_are_told() {
    let folder = folder("input-failures");
    folder.write("-", &folder.read("a.img"));
    shell(&folder, "sj check - < short.img").failed(1, &["standard input: ", "refusal 1"]);
    shell(&folder, "sj check - <&-").failed(2, &["standard input: it is closed"]);
    shell(&folder, "sj check - 0>/dev/null").failed(2, &["standard input: it isn't open for reading"]);
    shell(&folder, "sj check - < .").failed(2, &["standard input: Is a directory"]);
    let twice = shell(&folder, "sj check - - < a.img");
    assert_eq!(twice.status, Some(2));
    assert!(twice.err.contains("standard input: it is read already"), "{}", twice.err);
    folder.sj(&["check", "./-"]).done();
}

/// The file behind a stream is known under its names too.
#[test]
fn no_stream_is_replaced_by_what_is_made_of_it() {
    let folder = folder("input-itself");
    let image = folder.read("a.img");
    for (line, words) in [
        ("sj get - A -o a.img < a.img", "a.img is the file that is read"),
        ("sj get a.img A -o - >> a.img", "standard output is the file that is read"),
        ("sj get - A -o - < a.img >> a.img", "standard output is the file that is read"),
        ("sj get - A -o /dev/stdout < a.img >> a.img", "/dev/stdout is the file that is read"),
        ("sj unpack - -o sample < sample", "sample is the file that is read"),
    ] {
        shell(&folder, line).failed(2, &[words]);
    }
    assert!(folder.read("a.img") == image);
    assert_eq!(shell(&folder, "sj get - A -o - < a.img").done(), "content");
}

/// Closing fails at each place where something is closed: nothing breaks, and the image is the old one or the new one.
#[test]
fn a_close_that_fails_breaks_nothing() {
    let folder = folder("close");
    fs::create_dir_all(folder.0.join("deep/deeper")).expect("folders");
    let old = folder.read("a.img");
    let mut new = old.clone();
    calls::put(&mut new, b"B         ", b'S', b"1").expect("room");
    folder.write("deep/b.img", &old);
    folder.write("deep/deeper/c.img", &old);
    for words in [
        &["put", "a.img", "one", "--name", "B", "--type", "S"][..],
        &["check", "deep"],
        &["ls", "deep"],
        &["get", "a.img", "A", "-o", "out"],
        &["get", "a.img", "--all", "-o", "all", "--force"],
    ] {
        for turn in 1.. {
            folder.write("a.img", &old);
            let (ran, made) = injected(&folder, &format!("close:error=EIO:when={turn}"), words);
            assert!(matches!(ran.status, Some(0 | 2)), "{words:?} {turn}: {:?} {}", ran.status, ran.err);
            assert!(!ran.err.contains("fault in sj"), "{words:?} {turn}: {}", ran.err);
            let image = folder.read("a.img");
            assert!(image == old || image == new, "{words:?} {turn}");
            assert!(!folder.names().iter().any(|name| name.starts_with(".sj-")), "{words:?} {turn}");
            if !made {
                assert!(turn > 2, "{words:?}");
                break;
            }
        }
    }
}

/// Some file systems tell only when a file is closed that they have no room for it.
#[test]
fn an_error_at_the_close_of_standard_output_is_seen() {
    let folder = folder("close-output");
    let at = |turn: usize| injected(&folder, &format!("close:error=ENOSPC:when={turn}"), &["check", "a.img"]);
    let failed: Vec<_> = (1..).map(at).take_while(|(_, made)| *made).map(|(ran, _)| ran).collect();
    let (last, others) = failed.split_last().expect("something is closed");
    assert!(others.iter().all(|ran| ran.status == Some(0)), "{others:?}");
    assert!(last.status == Some(2) && last.err.contains("standard output: No space left"), "{last:?}");
}
