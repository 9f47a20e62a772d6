//! Where mended images are written.

use crate::commands::many::Named;
use crate::failure::{Failure, plain, shown};
use crate::target::{Target, folder_of};
use crate::{image_file, input};
use std::collections::HashSet;
use std::fs;
use std::path::{Path, PathBuf};

/// One goes to where `-o` says; several go into a folder, which is made, each under its own name. All names are looked at
/// before the first is written.
pub fn of(named: &Named, to: &Path, force: bool) -> Result<Vec<PathBuf>, Failure> {
    let targets = if named.many { below(named, to)? } else { vec![to.to_path_buf()] };
    let identity = |path: &PathBuf| input::about(path).ok().map(|about| image_file::identity(&about));
    let read: HashSet<(u64, u64)> = named.images.iter().filter_map(|(path, _)| identity(path)).collect();
    for ((image, _), to) in named.images.iter().zip(&targets) {
        image_file::refuse_itself(image, to)?;
        let there = fs::metadata(to).ok().filter(|about| about.is_file());
        if there.as_ref().is_some_and(|about| read.contains(&image_file::identity(about))) {
            return Err(Failure::blocked(format!("{} is a file that is read; take another name", shown(to))));
        }
        if !force && there.is_some() && matches!(Target::of(to)?, Target::Plain(_)) {
            return Err(Failure::blocked(format!("{} is there already; --force replaces it", shown(to))));
        }
    }
    if named.many {
        for folder in [to].into_iter().chain(targets.iter().map(|to| folder_of(to))) {
            fs::create_dir_all(folder).map_err(|error| Failure::file(folder, error))?;
        }
    }
    Ok(targets)
}

/// Names in a folder: those of the images, and of what folders hold the paths below these.
fn below(named: &Named, folder: &Path) -> Result<Vec<PathBuf>, Failure> {
    if input::is_standard(folder) {
        return Err(Failure::usage("several images need a folder, and - is standard output: give -o DIR"));
    }
    if named.images.iter().any(|(path, _)| input::is_standard(path)) {
        return Err(Failure::usage("standard input has no name in a folder; give it alone, with -o FILE"));
    }
    let mut taken = HashSet::new();
    if let Some((_, twice)) = named.images.iter().find(|(_, name)| !taken.insert(name)) {
        let name = plain(&twice.display().to_string());
        return Err(Failure::usage(format!("{name} is the name of two of the images; mend them apart")));
    }
    Ok(named.images.iter().map(|(_, name)| folder.join(name)).collect())
}
