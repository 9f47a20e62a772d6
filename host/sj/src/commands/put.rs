//! `sj put IMAGE FILE..`

use super::ls;
use crate::arguments::{Arguments, text};
use crate::failure::{Failure, counting, named, plain};
use crate::file_type::{self, Typed};
use crate::image_file::{self, Changing};
use crate::json::Object;
use crate::manner::Manner;
use crate::{file_name, output};
use skilletjay::{BLOCK, Entry, Image, Kind};
use std::collections::HashSet;
use std::path::{Path, PathBuf};

/// No slot can tell a longer content, and no disk has room for one half as long.
const MOST: u64 = 16_777_215;

/// A file to be put.
struct New {
    from: PathBuf,
    name: String,
    file_type: Typed,
    content: Vec<u8>,
}

/// Puts files into an image: all or none.
pub fn run(arguments: &mut Arguments) -> Result<(), Failure> {
    let how = Changing { force: arguments.flag("--force"), timeout: arguments.timeout()? };
    let (manner, replace) = (arguments.manner(), arguments.flag("--replace"));
    let path = arguments.path("the image")?;
    let files = new_files(arguments)?;
    let entries = image_file::change(&path, how, |image| put_all(&named(&path), image, &files, replace))?;
    let done = if let [entry] = &entries[..] { entry.slot.to_string() } else { "the image".into() };
    tell(&path, manner, &files, &entries)
        .map_err(|failure| failure.after(format!("{} put into {done}", counting(files.len(), "file"))))
}

/// The files that the command line names, read.
fn new_files(arguments: &mut Arguments) -> Result<Vec<New>, Failure> {
    let name = arguments.value("--name").map(|name| text("name", name)).transpose()?;
    let file_type = Typed::asked(arguments)?;
    let words = arguments.some("the file")?;
    if words.len() > 1 && (name.is_some() || file_type.is_some()) {
        return Err(Failure::usage("--name and --type are for one file; several are called NAME.t"));
    }
    let mut files = Vec::new();
    for from in words.into_iter().map(PathBuf::from) {
        let (own_name, own_type) = split(&from);
        let name = name.clone().or(own_name).ok_or_else(|| unnamed(&from, "name", "--name NAME"))?;
        refuse_empty(arguments, &name)?;
        let file_type = file_type.or(own_type).ok_or_else(|| unnamed(&from, "type", "--type T"))?;
        let content = image_file::read_up_to(&from, MOST)?;
        files.push(New { from, name, file_type, content });
    }
    Ok(files)
}

/// Name and type of a file called NAME.t; a file of another name has a name alone.
fn split(from: &Path) -> (Option<String>, Option<Typed>) {
    let Some(whole) = from.file_name().and_then(|name| name.to_str()).filter(|name| *name != "-") else {
        return (None, None);
    };
    match whole.rsplit_once('.') {
        Some((name, file_type)) if file_type.len() == 1 => {
            (Some(name.to_string()), Some(Typed::Letter(file_type.as_bytes()[0])))
        }
        _ => (None, None),
    }
}

fn unnamed(from: &Path, what: &str, option: &str) -> Failure {
    Failure::usage(format!("{} tells no {what}: call it NAME.t, or give {option}", plain(&named(from))))
}

/// A name of spaces alone is legal on a disk, and hard to see: it has to be asked for.
pub fn refuse_empty(arguments: &Arguments, name: &str) -> Result<(), Failure> {
    if name.trim_end().is_empty() && !arguments.flag("--allow-empty-name") {
        return Err(Failure::usage("an empty name needs --allow-empty-name"));
    }
    Ok(())
}

fn put_all(about: &str, image: &mut Image, files: &[New], replace: bool) -> Result<Vec<Entry>, Failure> {
    let kind = image.check().map_err(|refusal| Failure::refused(about, refusal))?.kind;
    let mut taken = HashSet::new();
    for file in files {
        let name = file_name::folded(kind, &file_name::padded(kind, &file.name));
        let file_type = file.file_type.on(kind)?;
        if !taken.insert((name.clone(), file_type)) {
            let (name, file_type) = (plain(name.trim_end()), file_type::told(kind, file_type));
            return Err(Failure::usage(format!(
                "{name} is the name of two of the files of type {file_type}"
            )));
        }
    }
    let put = |file: &New| {
        put_named(about, image, kind, (&file.name, file.file_type.on(kind)?), &file.content, replace)
    };
    files.iter().map(put).collect()
}

/// Puts a content under a name and a type, with `replace` in the place of the file that has both; or says in the disk's
/// terms what is wrong.
pub fn put_named(
    about: &str,
    image: &mut Image,
    kind: Kind,
    (name, file_type): (&str, u8),
    content: &[u8],
    replace: bool,
) -> Result<Entry, Failure> {
    let padded = file_name::padded(kind, name);
    if replace {
        let _ = image.remove(&padded, file_type); // there may be none; what isn't legal is told below
    }
    let put = image.put(&padded, file_type, content).and_then(|slot| image.list(slot));
    put.map_err(|refusal| match refusal.number() {
        11 if file_name::bad_character(kind, name).is_none() => {
            file_type::refused(about, kind, file_type, refusal).on(name)
        }
        14 => {
            let words = format!("all {} slots are used", kind.slots());
            Failure::refused_as(about, refusal, words).on(name)
        }
        15 => {
            let free = image.check().map_or(0, |checked| checked.free);
            let needs = counting(content.len().div_ceil(BLOCK), "block");
            let (free, are) = (counting(free, "block"), if free == 1 { "is" } else { "are" });
            Failure::refused_as(about, refusal, format!("it needs {needs}, and {free} {are} free")).on(name)
        }
        _ => file_name::refused(about, kind, name, refusal),
    })
}

/// For one file its slot; for several a line each.
fn tell(path: &Path, manner: Manner, files: &[New], entries: &[Entry]) -> Result<(), Failure> {
    for (file, entry) in files.iter().zip(entries).filter(|_| !manner.quiet) {
        let line = if manner.json {
            let object = Object::new().text("file", &named(path));
            ls::fields(object, entry).text("from", &named(&file.from)).line()
        } else if let [_] = files {
            format!("{}\n", entry.slot)
        } else {
            format!("{} -> {} [{}]\n", plain(&named(&file.from)), entry.slot, entry.name.trim_end())
        };
        output::say(&line)?;
    }
    Ok(())
}
