//! How long a run waits for another that changes the same image.

mod common;

use common::{Folder, Ran};
use std::fs::File;
use std::process::Stdio;
use std::thread::sleep;
use std::time::{Duration, Instant};

fn folder(name: &str) -> Folder {
    let folder = Folder::new(name);
    folder.write("a.img", &vec![0; 819_200]);
    folder.write("one", b"1");
    folder
}

/// The image, locked until it is dropped, as another run would.
fn held(folder: &Folder) -> File {
    let file = File::options().write(true).open(folder.0.join("a.img")).expect("there");
    file.lock().expect("locked");
    file
}

#[test]
fn a_run_gives_up_after_its_time() {
    let folder = folder("given-up");
    let held = held(&folder);
    for (time, least, words) in [
        ("0", 0, "another run holds a.img; gave up at once"),
        ("0.2", 200, "another run holds a.img; gave up after 0.2 seconds"),
        ("1", 1000, "another run holds a.img; gave up after 1 second\n"),
    ] {
        let start = Instant::now();
        let ran = folder.sj(&["put", "a.img", "one", "--name", "A", "--type", "S", "--timeout", time]);
        ran.failed(2, &[words]);
        let waited = start.elapsed().as_millis();
        assert!(waited >= least && waited < least + 10_000, "{time}: {waited} ms");
    }
    folder.sj(&["rm", "a.img", "A", "--timeout", "0"]).failed(2, &["gave up at once"]);
    assert!(folder.read("a.img").iter().all(|&byte| byte == 0));
    drop(held);
    folder.sj(&["put", "a.img", "one", "--name", "A", "--type", "S", "--timeout", "0"]).done();
    assert_eq!(folder.names(), ["a.img", "one"]);
}

/// In time, and without a word where there is no terminal.
#[test]
fn a_run_goes_on_when_the_other_is_done() {
    let folder = folder("in-time");
    let held = held(&folder);
    let begin = |name: &str, time: &[&str]| {
        let mut command =
            folder.command(&[&["put", "a.img", "one", "--name", name, "--type", "S"], time].concat());
        command.stdout(Stdio::piped()).stderr(Stdio::piped()).spawn().expect("sj runs")
    };
    let runs = [begin("A", &["--timeout", "20"]), begin("B", &[])];
    sleep(Duration::from_millis(200));
    drop(held);
    for run in runs {
        Ran::of(run.wait_with_output().expect("ended")).done();
    }
    assert_eq!(folder.names(), ["a.img", "one"]);
}
