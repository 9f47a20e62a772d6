//! Image files: read whole or as far as is needed, and changed so that the old image or the new one is there at any
//! time.

use crate::beside::{self, Beside};
use crate::failure::{Failure, named, shown};
use crate::input;
use crate::keep::Old;
use crate::progress::Wait;
use crate::target::Target;
use skilletjay::{BLOCK, HEAD, Image, Slot};
use std::fs::{self, File, Metadata, OpenOptions};
use std::io::{self, Read};
use std::os::unix::fs::{FileExt, FileTypeExt, MetadataExt};
use std::path::{Path, PathBuf};
use std::time::Duration;
use system::descriptors;

/// The lengths of images, low density and high.
const LENGTHS: [u64; 2] = [819_200, MOST];

/// No image is longer; one byte more is enough to see that a file is no image.
const MOST: u64 = 1_638_400;

/// Reads a file up to a length and one byte more; `-` is standard input.
pub fn read_up_to(path: &Path, most: u64) -> Result<Vec<u8>, Failure> {
    read_open(&input::open(path)?, input::called(path), most)
}

fn read_open(file: &File, path: &Path, most: u64) -> Result<Vec<u8>, Failure> {
    let failed = |error| Failure::file(path, error);
    // Room for all of the file and one byte more, so that the buffer needn't grow.
    let length = file.metadata().map_err(failed)?.len().min(most);
    let mut bytes = Vec::with_capacity(length as usize + 1);
    file.take(most + 1).read_to_end(&mut bytes).map_err(failed)?;
    Ok(bytes)
}

/// Reads an image whole.
pub fn read_whole(path: &Path) -> Result<Image, Failure> {
    read_up_to(path, MOST).map(Image::new)
}

/// Reads as much of an image as its check and its listing need.
pub fn read_head(path: &Path) -> Result<Image, Failure> {
    Ok(Image::new(Opened::new(path)?.bytes))
}

/// An open image of which no more is read than its head and the files that are asked for. The rest is zeros, so no
/// other file's content may be taken from it.
///
/// The library's answers are those on the whole image: the length and the first 17,408 bytes decide the check
/// (`head_decides` in rules/proofs/Head.antt), the list of a slot, the slot of a name and type and a file's blocks
/// (`list_enough`, `find_enough` and `blocks_enough` in locate/specs/Enough.antt), and with these blocks the file's
/// pages (`page_enough` in locate/proofs/Enough.antt). Zeros that nobody reads cost no memory. Standard input, what is
/// no plain file and what isn't as long as an image is read whole.
pub struct Opened {
    path: PathBuf,
    file: File,
    bytes: Vec<u8>,
    whole: bool,
}

impl Opened {
    /// Opens an image and reads its head. A plain file on standard input need not stand at its start.
    pub fn new(path: &Path) -> Result<Opened, Failure> {
        let mut file = input::open(path)?;
        let standard = input::is_standard(path);
        let path = input::called(path);
        let failed = |error| Failure::file(path, error);
        let about = file.metadata().map_err(failed)?;
        let whole = standard || !about.is_file() || !LENGTHS.contains(&about.len());
        let bytes = if whole {
            read_open(&file, path, MOST)?
        } else {
            let mut bytes = vec![0; about.len() as usize];
            file.read_exact(&mut bytes[..HEAD]).map_err(failed)?;
            bytes
        };
        Ok(Opened { path: path.to_path_buf(), file, bytes, whole })
    }

    /// The image as far as it is read.
    pub fn image(&self) -> Image<&[u8]> {
        Image::new(&self.bytes)
    }

    /// Reads the blocks of the file in a slot.
    pub fn fetch_file(&mut self, slot: Slot) -> Result<(), Failure> {
        let refused = |refusal| Failure::refused(named(&self.path), refusal);
        let blocks = self.image().blocks(slot).map_err(refused)?;
        self.fetch(&blocks)
    }

    /// Reads blocks to their places, neighbours at once. The file is the one that was opened, also where another run
    /// has put a new image in its place.
    pub fn fetch(&mut self, blocks: &[u16]) -> Result<(), Failure> {
        if self.whole {
            return Ok(());
        }
        for run in blocks.chunk_by(|one, next| one + 1 == *next) {
            let at = BLOCK * usize::from(run[0]);
            let part = &mut self.bytes[at..at + BLOCK * run.len()];
            self.file.read_exact_at(part, at as u64).map_err(|error| Failure::file(&self.path, error))?;
        }
        Ok(())
    }
}

/// A file that is read is never replaced by what is made of it, nor written to. A terminal may well be both.
pub fn refuse_itself(read: &Path, to: &Path) -> Result<(), Failure> {
    let (about, called) = match input::is_standard(to) {
        true => (descriptors::output().and_then(File::metadata), Path::new("standard output")),
        false => (fs::metadata(to), to),
    };
    let stored = |about: &Metadata| about.is_file() || about.file_type().is_block_device();
    match (input::about(read), about) {
        (Ok(one), Ok(other)) if stored(&one) && identity(&one) == identity(&other) => {
            Err(Failure::blocked(format!("{} is the file that is read; take another name", shown(called))))
        }
        _ => Ok(()),
    }
}

/// What a file has alone, whatever its names.
pub fn identity(about: &Metadata) -> (u64, u64) {
    (about.dev(), about.ino())
}

/// How an image may be changed.
#[derive(Clone, Copy, Debug, Default)]
pub struct Changing {
    /// Also where owner, group, ACL or extended attributes can't be kept.
    pub force: bool,
    /// How long to wait for another run; None: as long as it takes.
    pub timeout: Option<Duration>,
}

/// Changes an image: one run after another, and no byte of the file is written in place.
pub fn change<T>(
    path: &Path,
    how: Changing,
    change: impl FnOnce(&mut Image) -> Result<T, Failure>,
) -> Result<T, Failure> {
    let mut locked = Locked::new(path, how)?;
    let given = change(&mut locked.image)?;
    locked.draft()?.keep()?;
    Ok(given)
}

/// An image that is to be changed. No other run changes it meanwhile.
pub struct Locked {
    /// The image as it is to be.
    pub image: Image,
    path: PathBuf,
    at: PathBuf,
    file: File,
    how: Changing,
}

impl Locked {
    /// Waits for other runs and reads the image.
    pub fn new(path: &Path, how: Changing) -> Result<Locked, Failure> {
        if input::is_standard(path) {
            return Err(Failure::usage("standard input can't be changed; give the image's file"));
        }
        // Through links to the file itself, so that the rename replaces it and not a link.
        let Target::Plain(at) = Target::of(path)? else {
            return Err(Failure::file(path, io::Error::other("it is no plain file, and can't be changed")));
        };
        let file = lock(path, &at, how.timeout)?;
        let image = Image::new(read_open(&file, path, MOST)?);
        Ok(Locked { image, path: path.to_path_buf(), at, file, how })
    }

    /// Writes the image as it is to be beside the file.
    pub fn draft(self) -> Result<Changed, Failure> {
        beside::remove_stale(&self.at);
        let old = Old::open(self.file).map_err(|error| Failure::file(&self.path, error))?;
        let mut draft = Beside::replacing(&self.at, &old, self.how.force)?;
        draft.write(self.image.bytes())?;
        Ok(Changed { draft, _locked: old })
    }
}

/// A changed image beside the old one. Unless it is kept, the old one stays.
pub struct Changed {
    draft: Beside,
    /// Locked until it is closed.
    _locked: Old,
}

impl Changed {
    /// Puts it in the old one's place.
    pub fn keep(self) -> Result<(), Failure> {
        self.draft.keep()
    }
}

/// The file behind a path, locked until it is closed. Who waited for the lock may hold a file that was replaced
/// meanwhile; then it is opened again.
fn lock(path: &Path, at: &Path, timeout: Option<Duration>) -> Result<File, Failure> {
    let failed = |error| Failure::file(path, error);
    let mut wait = Wait::new(path, timeout);
    loop {
        let file = OpenOptions::new().read(true).write(true).open(at).map_err(failed)?;
        wait.lock(&file)?;
        let (held, there) = (file.metadata().map_err(failed)?, fs::metadata(at).map_err(failed)?);
        if identity(&held) == identity(&there) {
            return Ok(file);
        }
    }
}

#[cfg(test)]
mod tests {
    use super::*;
    use model::disk;
    use model::layout::LAYOUTS;
    use model::maker::{self, Plan};
    use model::random::Random;

    /// What is read of an image whose every byte that no rule reads is noise: its head, and the file's blocks.
    #[test]
    fn a_fetch_reads_the_files_blocks_alone() {
        let mut random = Random::new(7);
        let path = std::env::temp_dir().join(format!("sj-fetch-{}", std::process::id()));
        for layout in LAYOUTS {
            let image = maker::disk(layout, Plan { files: 20, free: 100 }, &mut random);
            fs::write(&path, &image).expect("written");
            let disk = disk::read(&image).expect("accepted");
            for (slot, file) in disk.files.iter().enumerate() {
                let mut opened = Opened::new(&path).expect("opened");
                let blocks = opened.image().blocks(Slot(slot)).unwrap_or_default();
                opened.fetch(&blocks).expect("read");
                let mut expected = vec![0; image.len()];
                let blocks = file.iter().flat_map(|file| &file.chain).map(|&block| BLOCK * block);
                for at in (0..HEAD).step_by(BLOCK).chain(blocks) {
                    expected[at..at + BLOCK].copy_from_slice(&image[at..at + BLOCK]);
                }
                assert!(opened.bytes == expected, "{layout:?} slot {slot}");
            }
        }
        fs::remove_file(&path).expect("removed");
    }
}
