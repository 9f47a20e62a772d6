//! `sj check IMAGE|DIR..`

use super::many;
use crate::arguments::Arguments;
use crate::failure::{Failure, counting, named, plain};
use crate::image_file;
use crate::json::Object;
use skilletjay::{BLOCK, Checked};

/// Checks every image, also after one that fails; the status is the worst.
pub fn run(arguments: &mut Arguments) -> Result<(), Failure> {
    let manner = arguments.manner();
    many::each(arguments.some("the image")?, manner, |path| {
        let image = image_file::read_head(path)?;
        let about = named(path);
        let checked = image.check().map_err(|refusal| Failure::refused(&about, refusal))?;
        Ok(if manner.json { object(&about, &checked).line() } else { line(&about, &checked) })
    })
}

/// What an accepted check gives, as a line.
pub fn line(about: &str, checked: &Checked) -> String {
    let (kind, density) = (checked.kind, checked.density);
    let (files, blocks) = (counting(checked.files, "file"), counting(checked.free, "block"));
    let bytes = counting(BLOCK * checked.free, "byte");
    let about = plain(about);
    format!("{about}: {kind} {density}, {files}, {blocks} free ({bytes})\n")
}

/// The same as an object.
pub fn object(about: &str, checked: &Checked) -> Object {
    Object::new()
        .text("file", about)
        .text("kind", &checked.kind.to_string())
        .text("density", &checked.density.to_string())
        .number("files", checked.files)
        .number("free", checked.free)
        .number("free_bytes", BLOCK * checked.free)
}
