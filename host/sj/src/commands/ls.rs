//! `sj ls IMAGE|DIR..`

use super::{check, many};
use crate::arguments::Arguments;
use crate::failure::{Failure, named};
use crate::image_file;
use crate::json::Object;
use skilletjay::{Checked, Entry};
use std::fmt::Write;

/// Lists the files of every image.
pub fn run(arguments: &mut Arguments) -> Result<(), Failure> {
    let manner = arguments.manner();
    many::each(arguments.some("the image")?, manner, |path| {
        let image = image_file::read_head(path)?;
        let about = named(path);
        let refused = |refusal| Failure::refused(&about, refusal);
        let checked = image.check().map_err(refused)?;
        let entries = image.entries().map_err(refused)?;
        Ok(if manner.json {
            in_json(&about, &checked, &entries)
        } else {
            in_lines(&about, &checked, &entries)
        })
    })
}

fn in_lines(about: &str, checked: &Checked, entries: &[Entry]) -> String {
    let mut text = check::line(about, checked);
    for entry in entries {
        let (slot, file_type) = (entry.slot.to_string(), entry.letter());
        let _ = writeln!(text, "{slot:>4} {file_type} {:>8} [{}]", entry.length, entry.name);
    }
    text
}

fn in_json(about: &str, checked: &Checked, entries: &[Entry]) -> String {
    check::object(about, checked).raw("entries", array(entries)).line()
}

/// Files of a disk as an array of objects.
pub fn array(entries: &[Entry]) -> String {
    let objects: Vec<String> = entries.iter().map(|entry| fields(Object::new(), entry).inline()).collect();
    format!("[{}]", objects.join(","))
}

/// A file of a disk as fields: its name without the padding and as it is stored, its type's letter and byte.
pub fn fields(object: Object, entry: &Entry) -> Object {
    object
        .number("slot", entry.slot.0)
        .text("name", entry.name.trim_end())
        .text("stored", &entry.name)
        .text("type", &entry.letter().to_string())
        .number("type_byte", entry.file_type.into())
        .number("length", entry.length)
}
