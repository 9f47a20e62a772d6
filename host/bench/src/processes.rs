//! Whole processes against the public tools for FAT floppies, on floppies of one size that hold the same files.

use crate::calls::LIBRARY;
use crate::disks::{Order, disk};
use crate::race::{Runner, race};
use crate::table::Table;
use model::layout::Kind;
use model::random::Random;
use std::fs::{self, File};
use std::io;
use std::path::{Path, PathBuf};
use std::process::{Command, Stdio};
use std::time::Instant;

const FILES: usize = 32;
const LENGTH: usize = 44_000;

/// Races the listing program and `sj` with dosfstools and mtools. `sj` is where the command is.
pub fn run(table: &mut Table, root: &Path, sj: &Path) -> io::Result<()> {
    let folder = root.join("target/bench");
    let [akai, fat] = make_floppies(&folder)?;
    let [sj, list] = [sj, &root.join("target/bin/list")].map(text);
    let [ours, theirs] = ["ours", "theirs"].map(|name| text(&folder.join(name)));
    let mdir = process(&["mdir", "-i", &fat, "::"]);
    let input = akai.clone();
    against(table, "list, from standard input", move || fed(&list, &input), "mdir", &mdir);
    against(table, "sj ls", process(&[&sj, "ls", &akai]), "mdir", &mdir);
    against(
        table,
        "sj check",
        process(&[&sj, "check", &akai]),
        "fsck.fat -n",
        &process(&["fsck.fat", "-n", &fat]),
    );
    for (to, [our, their], peer) in [
        ("standard output", ["-", "-"], "mcopy"),
        ("a file, synced", [&*ours, &*theirs], "mcopy, not synced"),
    ] {
        let get = process(&[&sj, "get", &akai, "FILE 05", "-o", our]);
        let copy = process(&["mcopy", "-n", "-o", "-i", &fat, "::FILE05", their]);
        against(table, &format!("sj get to {to}"), get, peer, &copy);
    }
    assert!(fs::read(&ours)? == fs::read(&theirs)?, "copies part");
    Ok(())
}

fn text(path: &Path) -> String {
    path.display().to_string()
}

/// An Akai disk and a FAT floppy of 1,600 KiB each, with the same files.
fn make_floppies(folder: &Path) -> io::Result<[String; 2]> {
    fs::create_dir_all(folder)?;
    let [akai, fat, file]: [PathBuf; 3] = ["akai.img", "fat.img", "file"].map(|name| folder.join(name));
    let _ = fs::remove_file(&fat); // mkfs.fat makes no file that is there
    succeed(Command::new("mkfs.fat").arg("-C").arg(&fat).arg("1600"))?;
    let mut image = disk(Kind::S1000, 0, 0, Order::Rising);
    for number in 0..FILES {
        let content = Random::new(number as u64).bytes(LENGTH);
        let name = format!("FILE {number:02}     ");
        assert_eq!(LIBRARY.put(&mut image, name.as_bytes(), b's', &content).refusal, 0);
        fs::write(&file, &content)?;
        succeed(Command::new("mcopy").arg("-i").arg(&fat).arg(&file).arg(format!("::FILE{number:02}")))?;
    }
    fs::write(&akai, image)?;
    Ok([akai, fat].map(|path| text(&path)))
}

/// Runs a command that must succeed.
fn succeed(command: &mut Command) -> io::Result<()> {
    let status = command.stdout(Stdio::null()).stderr(Stdio::null()).status()?;
    if status.success() { Ok(()) } else { Err(io::Error::other(format!("{command:?} failed"))) }
}

fn process<'a>(words: &[&'a str]) -> impl Fn() -> io::Result<()> + Clone + 'a {
    let words = words.to_vec();
    move || succeed(Command::new(words[0]).args(&words[1..]))
}

/// The listing program reads its image from standard input.
fn fed(program: &str, image: &str) -> io::Result<()> {
    succeed(Command::new(program).stdin(File::open(image)?))
}

/// Races two processes; what /bin/true takes in the same round is taken from both.
fn against(
    table: &mut Table,
    what: &str,
    ours: impl Fn() -> io::Result<()>,
    peer: &str,
    theirs: &impl Fn() -> io::Result<()>,
) {
    let taken = race(&mut [middle(ours), middle(theirs), middle(process(&["/bin/true"]))]);
    let above =
        |at: usize| -> Vec<f64> { taken[at].iter().zip(&taken[2]).map(|(time, own)| time - own).collect() };
    table.faster(what, &above(0), peer, &above(1));
}

/// Runs a process five times and counts the median, so that one that was interrupted doesn't tell.
fn middle<'a>(run: impl Fn() -> io::Result<()> + 'a) -> Runner<'a> {
    Box::new(move |times| {
        let mut taken = [(); 5].map(|()| {
            let begin = Instant::now();
            run().expect("the process succeeds");
            begin.elapsed()
        });
        taken.sort_unstable();
        taken[2] * times
    })
}
