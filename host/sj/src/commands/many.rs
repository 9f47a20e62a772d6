//! Commands on many images: folders stand for what is in them, one image's failure keeps none of the others from being
//! told, and a closing line counts.

use crate::failure::Failure;
use crate::json::Object;
use crate::manner::Manner;
use crate::progress::Progress;
use crate::{folder, input, output};
use std::collections::BTreeMap;
use std::ffi::OsString;
use std::fs;
use std::os::unix::ffi::OsStrExt;
use std::path::{Path, PathBuf};

/// What became of many images.
#[derive(Default)]
pub struct Tally {
    accepted: usize,
    /// How many each number refused.
    refused: BTreeMap<u32, usize>,
    /// How many couldn't be read or written.
    failed: usize,
    worst: u8,
}

/// Does something with every image that words name and tells what it gives; the status is the worst.
pub fn each(
    words: Vec<OsString>,
    manner: Manner,
    told: impl Fn(&Path) -> Result<String, Failure>,
) -> Result<(), Failure> {
    let mut tally = Tally::default();
    let named = Named::of(words, |failure| tally.fails(&failure, manner));
    let say = |line: &String| if manner.quiet { Ok(()) } else { output::say(line) };
    tally.all(&named.images, manner, |(path, _)| told(path), say, |_| Ok(()))?;
    let closing = tally.closing(manner);
    tally.end(named.many && !manner.quiet, &closing)
}

/// The images that words name.
pub struct Named {
    /// Their paths, and each one's below the folder that the word is; that of an image itself is its name.
    pub images: Vec<(PathBuf, PathBuf)>,
    /// Whether they are told as many: they are, or a word is a folder.
    pub many: bool,
}

impl Named {
    /// Folders stand for what is in them; one that can't be read fails.
    pub fn of(words: Vec<OsString>, mut fails: impl FnMut(Failure)) -> Named {
        let (mut images, mut folders) = (Vec::new(), false);
        for word in words {
            let path = PathBuf::from(word);
            if !input::is_standard(&path) && fs::metadata(&path).is_ok_and(|about| about.is_dir()) {
                folders = true;
                let mut found = Vec::new();
                gather(&path, &mut found, &mut fails);
                let below = |image: &PathBuf| image.strip_prefix(&path).unwrap_or(image).to_path_buf();
                images.extend(found.into_iter().map(|image| (image.clone(), below(&image))));
            } else {
                let name = path.file_name().map_or_else(PathBuf::new, PathBuf::from);
                images.push((path, name));
            }
        }
        let many = folders || images.len() > 1;
        Named { images, many }
    }
}

/// All files in a folder and below it, in order; hidden ones, and links to folders, are passed over.
fn gather(folder: &Path, images: &mut Vec<PathBuf>, fails: &mut impl FnMut(Failure)) {
    let names = match folder::names(folder) {
        Ok(names) => names,
        Err(error) => return fails(Failure::file(folder, error)),
    };
    for name in names.into_iter().filter(|name| !name.as_bytes().starts_with(b".")) {
        let path = folder.join(name);
        match fs::symlink_metadata(&path) {
            Ok(about) if about.is_dir() => gather(&path, images, fails),
            Ok(about) if about.is_file() => images.push(path),
            Ok(_) if fs::metadata(&path).is_ok_and(|about| about.is_file()) => images.push(path),
            Ok(_) => {}
            Err(error) => fails(Failure::file(&path, error)),
        }
    }
}

impl Tally {
    /// Does something with each image, tells what it gives, and keeps what is to be kept once it is told. What can't be
    /// told ends the run.
    pub fn all<I, T>(
        &mut self,
        images: &[I],
        manner: Manner,
        mut one: impl FnMut(&I) -> Result<T, Failure>,
        mut tell: impl FnMut(&T) -> Result<(), Failure>,
        mut keep: impl FnMut(T) -> Result<(), Failure>,
    ) -> Result<(), Failure> {
        let mut progress = Progress::new(images.len());
        for image in images {
            let done = match one(image) {
                Ok(given) => {
                    progress.before_line();
                    tell(&given)?;
                    keep(given)
                }
                Err(failure) => Err(failure),
            };
            match done {
                Ok(()) => self.accepted += 1,
                Err(failure) => {
                    progress.clear();
                    self.fails(&failure, manner);
                }
            }
            progress.step();
        }
        Ok(())
    }

    /// Tells a failure and counts it.
    pub fn fails(&mut self, failure: &Failure, manner: Manner) {
        failure.tell(manner);
        self.at_least(failure.number());
        match failure.refusal() {
            Some(number) => *self.refused.entry(number).or_default() += 1,
            None => self.failed += 1,
        }
    }

    /// The run ends with this status, or a worse one.
    pub fn at_least(&mut self, status: u8) {
        self.worst = self.worst.max(status);
    }

    /// Tells the closing line, if it is to be told, and ends the run with the worst status.
    pub fn end(&self, told: bool, closing: &str) -> Result<(), Failure> {
        if told {
            output::say(closing)?;
        }
        if self.worst == 0 { Ok(()) } else { Err(Failure::told(self.worst)) }
    }

    fn closing(&self, manner: Manner) -> String {
        match manner.json {
            true => self.fields(Object::new().number("accepted", self.accepted)).line(),
            false => format!("{} accepted, {}\n", self.accepted, self.words("not read")),
        }
    }

    /// How many were refused, by their numbers, and how many failed, in words.
    pub fn words(&self, failed: &str) -> String {
        let refused: usize = self.refused.values().sum();
        let by =
            if refused == 0 { String::new() } else { format!(" ({})", self.numbers(": ", "").join(", ")) };
        let failed = if self.failed == 0 { String::new() } else { format!(", {} {failed}", self.failed) };
        format!("{refused} refused{by}{failed}")
    }

    /// The same as fields.
    pub fn fields(&self, object: Object) -> Object {
        object
            .number("refused", self.refused.values().sum())
            .raw("refusals", format!("{{{}}}", self.numbers(":", "\"").join(",")))
            .number("failed", self.failed)
    }

    fn numbers(&self, between: &str, quote: &str) -> Vec<String> {
        let one = |(number, count): (&u32, &usize)| format!("{quote}{number}{quote}{between}{count}");
        self.refused.iter().map(one).collect()
    }
}
