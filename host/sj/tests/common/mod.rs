//! A folder for each test, disks from the model, and the real binary.
#![allow(dead_code, missing_docs)] // each test takes what it needs

use model::layout::Layout;
use model::maker::{self, Plan};
use model::random::Random;
use std::fs;
use std::path::PathBuf;
use std::process::{Command, Output};

pub struct Folder(pub PathBuf);

impl Folder {
    /// An empty folder; the name is the test's.
    pub fn new(name: &str) -> Folder {
        let path = PathBuf::from(env!("CARGO_TARGET_TMPDIR")).join(name);
        let _ = fs::remove_dir_all(&path);
        fs::create_dir_all(&path).expect("a folder");
        Folder(path)
    }

    pub fn write(&self, name: &str, bytes: &[u8]) {
        fs::write(self.0.join(name), bytes).expect("written");
    }

    pub fn read(&self, name: &str) -> Vec<u8> {
        fs::read(self.0.join(name)).expect("read")
    }

    /// All names in the folder, sorted.
    pub fn names(&self) -> Vec<String> {
        let name = |entry: std::io::Result<fs::DirEntry>| {
            entry.expect("entry").file_name().into_string().expect("text")
        };
        let mut names: Vec<String> = fs::read_dir(&self.0).expect("folder").map(name).collect();
        names.sort();
        names
    }

    /// The command, to be run in the folder.
    pub fn command(&self, arguments: &[&str]) -> Command {
        let mut command = Command::new(env!("CARGO_BIN_EXE_sj"));
        command.args(arguments).current_dir(&self.0);
        command
    }

    pub fn sj(&self, arguments: &[&str]) -> Ran {
        Ran::of(self.command(arguments).output().expect("sj runs"))
    }
}

/// What a run came to.
#[derive(Debug)]
pub struct Ran {
    pub status: Option<i32>,
    pub out: Vec<u8>,
    pub err: String,
}

impl Ran {
    pub fn of(output: Output) -> Ran {
        let err = String::from_utf8_lossy(&output.stderr).into_owned();
        Ran { status: output.status.code(), out: output.stdout, err }
    }

    /// It was done, said nothing on standard error, and wrote this.
    pub fn done(self) -> String {
        assert_eq!((self.status, self.err.as_str()), (Some(0), ""));
        String::from_utf8(self.out).expect("text")
    }

    /// It failed with a status, wrote nothing, and told these words.
    pub fn failed(self, status: i32, words: &[&str]) {
        assert_eq!((self.status, self.out.len()), (Some(status), 0), "{}", self.err);
        let told = self.err.replace("\n    ", " "); // long messages are broken into lines
        for word in words {
            assert!(told.contains(word), "no {word:?} in {:?}", self.err);
        }
    }
}

/// A disk with so many files and free blocks.
pub fn disk(layout: Layout, files: usize, free: usize, seed: u64) -> Vec<u8> {
    maker::disk(layout, Plan { files, free }, &mut Random::new(seed))
}

/// Letters of a name, and the type of samples: the byte on the disk, and as it is typed.
pub fn sample_type(image: &[u8]) -> (usize, u8, &'static str) {
    match (image[16], image[23]) {
        (255, _) => (12, 211, "S"),
        (_, 3) => (12, b's', "s"),
        _ => (10, b'S', "S"),
    }
}

/// Where a byte of a slot stands, in the directory that the disk uses.
pub fn slot_at(image: &[u8], slot: usize, at: usize) -> usize {
    if image[16] == 255 { 5120 + 24 * slot + at } else { 24 * slot + at }
}

/// Changes a block's map value.
pub fn set_map(image: &mut [u8], block: usize, value: usize) {
    image[1536 + 2 * block..][..2].copy_from_slice(&(value as u16).to_le_bytes());
}

/// The characters of S1000 and S3000 names, in the order of their codes.
const AKAII: &[u8; 41] = b"0123456789 ABCDEFGHIJKLMNOPQRSTUVWXYZ#+-.";

/// A used slot of an S3000 disk: name, type, length, start.
pub fn s3000_slot(name: &str, file_type: u8, length: usize, start: usize) -> [u8; 24] {
    let mut slot = [0; 24];
    for (at, letter) in format!("{name:12}").bytes().enumerate() {
        slot[at] = AKAII.iter().position(|&known| known == letter).expect("a letter of AKAII") as u8;
    }
    slot[12..16].copy_from_slice(&[0, 0, 0, 2]);
    slot[16] = file_type;
    slot[17..20].copy_from_slice(&length.to_le_bytes()[..3]);
    slot[20..22].copy_from_slice(&start.to_le_bytes()[..2]);
    slot[22..].copy_from_slice(&[0, 12]);
    slot
}

/// An S3000 disk, byte for byte, with files in its first slots: name, type, content. Their blocks rise from 17 on. The
/// first directory, but for the byte that says that it isn't used, and the label are noise; so are the contents of empty slots.
pub fn s3000(files: &[(&str, u8, &[u8])]) -> Vec<u8> {
    let mut image = vec![0; 1600 * 1024];
    image[..1536].fill(7);
    image[16] = 255;
    image[1536 + 3200..5120].fill(9);
    (0..17).for_each(|block| set_map(&mut image, block, 16_384));
    for slot in files.len()..512 {
        let at = slot_at(&image, slot, 0);
        image[at..at + 24].copy_from_slice(&[3; 24]);
        image[at + 16] = 0;
    }
    let mut free = 17;
    for (slot, (name, file_type, content)) in files.iter().enumerate() {
        let at = slot_at(&image, slot, 0);
        image[at..at + 24].copy_from_slice(&s3000_slot(name, *file_type, content.len(), free));
        image[1024 * free..][..content.len()].copy_from_slice(content);
        let end = free + content.len().div_ceil(1024);
        (free..end).for_each(|block| set_map(&mut image, block, block + 1));
        set_map(&mut image, end - 1, 49_152);
        free = end;
    }
    image
}
