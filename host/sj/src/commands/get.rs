//! `sj get IMAGE NAME|'#SLOT'.. [-o FILE|DIR]` and `sj get IMAGE --all -o DIR`

use super::into::Out;
use crate::arguments::Arguments;
use crate::failure::{Failure, counting, named};
use crate::file_type::Typed;
use crate::image_file::Opened;
use crate::outside;
use crate::progress::Progress;
use crate::save::Draft;
use crate::select::Files;
use skilletjay::Entry;
use std::path::{Path, PathBuf};

/// Copies files out of an image.
pub fn run(arguments: &mut Arguments) -> Result<(), Failure> {
    let (force, manner) = (arguments.flag("--force"), arguments.manner());
    let (to, typed) = (arguments.value("-o").map(PathBuf::from), Typed::asked(arguments)?);
    let path = arguments.path("the image")?;
    let about = named(&path);
    let opened = Opened::new(&path)?;
    let out = Out { path, manner, force };
    if arguments.flag("--all") {
        arguments.end()?;
        let folder = to.ok_or_else(|| Failure::usage("--all needs -o DIR"))?;
        let entries = Files::of(&about, &opened.image(), typed)?.all()?;
        return many(&out, opened, &entries, &folder);
    }
    let words = arguments.some("the file's name or '#slot'")?;
    let chosen = Files::of(&about, &opened.image(), typed)?.chosen(words)?;
    match (&chosen.entries[..], chosen.single) {
        ([entry], true) => one(&out, opened, entry, to.as_deref()),
        (entries, _) => many(&out, opened, entries, to.as_deref().unwrap_or(Path::new("."))),
    }
}

fn one(out: &Out, mut opened: Opened, entry: &Entry, to: Option<&Path>) -> Result<(), Failure> {
    let file = out.file(entry, to, outside::file_name)?;
    download(out, &mut opened, entry, &file)?;
    out.tell(entry, &file, to.is_none())
}

fn many(out: &Out, mut opened: Opened, entries: &[Entry], folder: &Path) -> Result<(), Failure> {
    let files = out.files(entries, folder, outside::file_name)?;
    let mut progress = Progress::new(entries.len());
    for (done, (entry, to)) in entries.iter().zip(&files).enumerate() {
        let copied = download(out, &mut opened, entry, to).and_then(|()| {
            progress.before_line();
            out.tell(entry, to, true)
        });
        let before = || format!("{done} of {} copied out before", counting(entries.len(), "file"));
        copied.map_err(|failure| failure.and(before()))?;
        progress.step();
    }
    Ok(())
}

/// Pages a file to its end, of an image of which only its blocks are read besides the head; only a complete one gets its
/// final name.
fn download(out: &Out, opened: &mut Opened, entry: &Entry, to: &Path) -> Result<(), Failure> {
    opened.fetch_file(entry.slot)?;
    let mut draft = Draft::new(to)?;
    let image = opened.image();
    let mut pages = image.download(entry.slot);
    for page in &mut pages {
        draft.write(&page.map_err(|refusal| Failure::refused(named(&out.path), refusal))?)?;
    }
    if !pages.is_complete() || pages.offset() != entry.length {
        let advice = "Tell the makers of this library, please: this can't be.";
        return Err(Failure::declined(named(&out.path), "the file isn't complete", advice).on_entry(entry));
    }
    draft.keep()
}
