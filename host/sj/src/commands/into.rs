//! Files on their way out of an image: where they go, whether a name may be written to, and what is told of them.

use super::ls;
use crate::failure::{Failure, named, shown};
use crate::json::Object;
use crate::manner::Manner;
use crate::{image_file, input, output, outside};
use skilletjay::Entry;
use std::fs;
use std::path::{Path, PathBuf};

/// How files leave an image.
pub struct Out {
    /// The image.
    pub path: PathBuf,
    /// How they are told.
    pub manner: Manner,
    /// Whether files that are there are replaced.
    pub force: bool,
}

impl Out {
    /// Where one file goes: to where `-o` says, or to a name that sj chooses.
    pub fn file(
        &self,
        entry: &Entry,
        to: Option<&Path>,
        name: impl Fn(&Entry) -> String,
    ) -> Result<PathBuf, Failure> {
        let file = to.map_or_else(|| PathBuf::from(name(entry)), Path::to_path_buf);
        self.free_to_write(&file, to.is_some() || self.force)?;
        Ok(file)
    }

    /// Where several go: into a folder, which is made. All names are looked at before the first is written.
    pub fn files(
        &self,
        entries: &[Entry],
        folder: &Path,
        name: impl Fn(&Entry) -> String,
    ) -> Result<Vec<PathBuf>, Failure> {
        if input::is_standard(folder) {
            return Err(Failure::usage("several files need a folder, and - is standard output: give -o DIR"));
        }
        fs::create_dir_all(folder).map_err(|error| Failure::file(folder, error))?;
        let names = outside::distinct(entries, name);
        let files: Vec<PathBuf> = names.into_iter().map(|name| folder.join(name)).collect();
        for to in &files {
            self.free_to_write(to, self.force)?;
        }
        Ok(files)
    }

    /// A name that sj chose never replaces a file unasked, and no name replaces the image that is read.
    fn free_to_write(&self, to: &Path, replace: bool) -> Result<(), Failure> {
        image_file::refuse_itself(&self.path, to)?;
        if !replace && to.symlink_metadata().is_ok() {
            return Err(Failure::blocked(format!("{} is there already; --force replaces it", shown(to))));
        }
        Ok(())
    }

    /// Tells of a file whose name sj chose, or in JSON of any, where it is.
    pub fn tell(&self, entry: &Entry, to: &Path, chosen: bool) -> Result<(), Failure> {
        let known = !chosen && !self.manner.json; // the caller named it
        if self.manner.quiet || known || input::is_standard(to) {
            return Ok(());
        }
        if self.manner.json {
            let object = Object::new().text("file", &named(&self.path));
            return output::say(&ls::fields(object, entry).text("to", &to.display().to_string()).line());
        }
        let name = to.file_name().map(Path::new).unwrap_or(to); // the folder is the caller's own
        output::say(&format!("{} [{}] -> {}\n", entry.slot, entry.name.trim_end(), shown(name)))
    }
}
