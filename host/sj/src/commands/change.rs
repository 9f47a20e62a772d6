//! `sj mv IMAGE OLD NEW` and `sj rm IMAGE NAME|'#SLOT'..`

use super::ls;
use super::put::{put_named, refuse_empty};
use crate::arguments::{Arguments, text};
use crate::failure::{Failure, named};
use crate::file_type::Typed;
use crate::image_file::{self, Changing};
use crate::json::Object;
use crate::manner::Manner;
use crate::output;
use crate::select::Files;
use skilletjay::{Entry, Image};
use std::path::{Path, PathBuf};

/// Gives a file another name.
pub fn rename(arguments: &mut Arguments) -> Result<(), Failure> {
    let how = Changing { force: arguments.flag("--force"), timeout: arguments.timeout()? };
    let (manner, replace) = (arguments.manner(), arguments.flag("--replace"));
    let typed = Typed::asked(arguments)?;
    let path = arguments.path("the image")?;
    let old = arguments.next("the file's name or '#slot'")?;
    let new = text("name", arguments.next("the new name")?)?;
    arguments.end()?;
    refuse_empty(arguments, &new)?;
    let about = named(&path);
    let entry = image_file::change(&path, how, |image| {
        let chosen = Files::of(&about, image, typed)?.chosen(vec![old])?;
        match &chosen.entries[..] {
            [entry] => renamed(&about, image, entry, &new, replace),
            _ => Err(Failure::usage("mv renames one file, and several have such a name")),
        }
    })?;
    tell(&path, manner, &[entry], true)
}

/// The old entry goes before the new one comes, so that a full disk is no hindrance; if that is refused, the image as a
/// whole stays as it was.
fn renamed(about: &str, image: &mut Image, old: &Entry, new: &str, replace: bool) -> Result<Entry, Failure> {
    let refused = |refusal| Failure::refused(about, refusal).on_entry(old);
    let kind = image.check().map_err(refused)?.kind;
    let content = image.read(old.slot).map_err(refused)?;
    image.remove(&old.name, old.file_type).map_err(refused)?;
    put_named(about, image, kind, (new, old.file_type), &content, replace)
}

/// Removes files from an image: all or none.
pub fn remove(arguments: &mut Arguments) -> Result<(), Failure> {
    let how = Changing { force: arguments.flag("--force"), timeout: arguments.timeout()? };
    let (manner, typed) = (arguments.manner(), Typed::asked(arguments)?);
    let path: PathBuf = arguments.path("the image")?;
    let words = arguments.some("the file's name or '#slot'")?;
    let about = named(&path);
    let chosen = image_file::change(&path, how, |image| {
        let chosen = Files::of(&about, image, typed)?.chosen(words)?;
        for entry in &chosen.entries {
            let refused = |refusal| Failure::refused(&about, refusal).on_entry(entry);
            image.remove(&entry.name, entry.file_type).map_err(refused)?;
        }
        Ok(chosen)
    })?;
    tell(&path, manner, &chosen.entries, !chosen.single)
}

/// The files that a change was about: in JSON always, in lines where that is news.
fn tell(path: &Path, manner: Manner, entries: &[Entry], news: bool) -> Result<(), Failure> {
    for entry in entries.iter().filter(|_| !manner.quiet) {
        if manner.json {
            output::say(&ls::fields(Object::new().text("file", &named(path)), entry).line())?;
        } else if news {
            output::say(&format!("{} [{}]\n", entry.slot, entry.name.trim_end()))?;
        }
    }
    Ok(())
}
