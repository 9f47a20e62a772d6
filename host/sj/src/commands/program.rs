//! `sj program FILE..`

use super::many;
use crate::arguments::Arguments;
use crate::failure::{Failure, counting, named, plain};
use crate::image_file;
use crate::json::Object;
use skilletjay::Refusal;
use skilletjay::program::check;
use skilletjay::rows::{self, Form};
use std::path::Path;

/// No program is longer: a header and 99 keygroups.
const MOST: u64 = 150 * 100;

/// Checks S1000 program files, also after one that fails; the status is the worst.
pub fn run(arguments: &mut Arguments) -> Result<(), Failure> {
    let manner = arguments.manner();
    many::each(arguments.some("the program file")?, manner, |path| {
        let (about, keygroups) = (named(path), keygroups(path)?);
        Ok(match manner.json {
            true => Object::new().text("file", &about).number("keygroups", keygroups).line(),
            false => format!("{}: S1000 program, {}\n", plain(&about), counting(keygroups, "keygroup")),
        })
    })
}

fn keygroups(path: &Path) -> Result<usize, Failure> {
    let file = image_file::read_up_to(path, MOST)?;
    check(&file).map_err(|refusal| refused(&named(path), &file, refusal))
}

/// A refusal of a program file with the row at fault.
fn refused(about: &str, file: &[u8], refusal: Refusal) -> Failure {
    if file.len() as u64 > MOST {
        let words = "it is longer than a program of 99 keygroups, 15,000 bytes";
        return Failure::refused_as(about, refusal, words);
    }
    match rows::words(Form::Program, file, refusal.place()) {
        Some(words) => Failure::refused_as(about, refusal, words),
        None => Failure::refused(about, refusal),
    }
}
