//! What is told on a terminal: how far a run is, and that it waits.

mod common;

use common::{Folder, disk};
use model::layout::LAYOUTS;
use std::fs::File;
use std::io::{Read, Write};
use std::process::{Child, Command, Stdio};
use std::sync::mpsc::{self, Sender};
use std::thread::{self, sleep};
use std::time::Duration;

/// Longer than the patience of `sj`, which is a second.
const LONG: Duration = Duration::from_millis(1300);

/// A shell's command begun on a terminal of its own, which `script` makes.
fn on_terminal(folder: &Folder, line: &str) -> Child {
    let line = line.replace("sj ", &format!("'{}' ", env!("CARGO_BIN_EXE_sj")));
    let mut script = Command::new("script");
    script.args(["--quiet", "--return", "--command", &line, "/dev/null"]).current_dir(&folder.0);
    let begun = script.stdin(Stdio::null()).stdout(Stdio::piped()).stderr(Stdio::piped()).spawn();
    begun.expect("script (util-linux) is needed")
}

/// All that came to the terminal, after the command was done.
fn shown(child: Child) -> String {
    let output = child.wait_with_output().expect("ended");
    let text = String::from_utf8_lossy(&output.stdout).into_owned();
    assert!(output.status.success(), "{text} {}", String::from_utf8_lossy(&output.stderr));
    text
}

/// Many images, and two pipes that give theirs late: the first after more than a second.
fn many_images(name: &str) -> Folder {
    let folder = Folder::new(name);
    folder.write("a.img", &disk(LAYOUTS[0], 3, 100, 1));
    for pipe in ["one", "two"] {
        let made = Command::new("mkfifo").arg(folder.0.join(pipe)).status().expect("mkfifo runs");
        assert!(made.success());
    }
    folder
}

/// Feeds the pipes, beside the test: a run that ends early reads none of them.
fn feed(folder: &Folder) {
    let folder = Folder(folder.0.clone());
    thread::spawn(move || {
        for (pipe, wait) in [("one", LONG), ("two", Duration::from_millis(300))] {
            let mut to = File::options().write(true).open(folder.0.join(pipe)).expect("a reader");
            sleep(wait);
            to.write_all(&folder.read("a.img")).expect("read");
        }
    });
}

/// Where lines go to a file, the count stays until the run's end; else a line takes its place.
#[test]
fn a_long_check_tells_how_far_it_is() {
    let folder = many_images("progress");
    let images = format!("one {0} two {0}", ["a.img"; 50].join(" "));
    let run = on_terminal(&folder, &format!("sj check {images} > lines"));
    feed(&folder);
    let told = shown(run);
    assert!(told.contains("\r1 of 102") && told.contains("\r52 of 102"), "{told:?}");
    assert!(told.matches("\x1b[K").count() == 1 && told.ends_with("\r\x1b[K"), "{told:?}");
    let lines = |bytes: &[u8]| bytes.iter().filter(|&&byte| byte == b'\n').count();
    assert_eq!(lines(&folder.read("lines")), 103); // the last counts
    let run = on_terminal(&folder, &format!("sj check {images}"));
    feed(&folder);
    let told = shown(run);
    assert!(told.contains("\r1 of 102\r\x1b[Ka.img: S900 low"), "{told:?}");
    assert_eq!(
        told.lines().filter(|line| line.contains(": S900 low, 3 files, 100 blocks free")).count(),
        102
    );
}

/// A lock that is held until something is sent, or for so long that a run that says nothing is seen.
fn hold(folder: &Folder) -> Sender<()> {
    let held = File::options().write(true).open(folder.0.join("a.img")).expect("there");
    held.lock().expect("locked");
    let (sender, receiver) = mpsc::channel();
    thread::spawn(move || {
        let _ = receiver.recv_timeout(Duration::from_secs(20));
        drop(held);
    });
    sender
}

/// A quick run, and one that isn't on a terminal, tell nothing.
#[test]
fn a_waiting_run_says_so() {
    let folder = Folder::new("waiting");
    folder.write("a.img", &vec![0; 819_200]);
    folder.write("one", b"1");
    let held = hold(&folder);
    let mut run = on_terminal(&folder, "sj put a.img one --name B --type S");
    let mut quiet = folder.command(&["put", "a.img", "one", "--name", "A", "--type", "S"]);
    let quiet = quiet.stdout(Stdio::piped()).stderr(Stdio::piped()).spawn().expect("sj runs");
    let mut told = String::new();
    while !told.contains(", 2 s") {
        let mut more = [0; 100];
        let count = run.stdout.as_mut().expect("piped").read(&mut more).expect("read");
        assert!(count > 0, "{told:?}");
        told.push_str(&String::from_utf8_lossy(&more[..count]));
    }
    held.send(()).expect("held");
    told.push_str(&shown(run));
    let line = "\rwaiting for another run on a.img, ";
    assert!(told.starts_with(&format!("{line}1 s{line}2 s")) && told.contains(" s\r\x1b[K#"), "{told:?}");
    assert_eq!(told.lines().count(), 1, "{told:?}");
    assert_eq!(quiet.wait_with_output().expect("ended").stderr, b"");
    assert_eq!(shown(on_terminal(&folder, "sj rm a.img B")), "");
    assert_eq!(folder.names(), ["a.img", "one"]);
}

/// The line goes before the words that the run gave up.
#[test]
fn a_run_that_gives_up_leaves_no_line() {
    let folder = Folder::new("giving-up");
    folder.write("a.img", &vec![0; 819_200]);
    let held = hold(&folder);
    let run = on_terminal(&folder, "sj rm a.img B --timeout 1.5 || echo $?");
    let told = shown(run);
    held.send(()).expect("held");
    let words = "sj: another run holds a.img; gave up after 1.5 seconds\r\n2\r\n";
    assert_eq!(told, format!("\rwaiting for another run on a.img, 1 s\r\x1b[K{words}"));
}
