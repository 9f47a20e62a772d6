//! `sj`: Akai S900, S950, S1000 and S3000 floppy images from the command line.
//!
//! Exit status: 0 done, 1 refused, or something lost in a salvage, 2 wrong usage or a file that can't be read or written.
#![forbid(unsafe_code)]

mod akaii;
mod arguments;
mod beside;
mod commands;
mod directory;
mod failure;
mod file_name;
mod file_type;
mod folder;
mod image_file;
mod input;
mod json;
mod keep;
mod manner;
mod output;
mod outside;
mod progress;
mod save;
mod select;
mod target;
mod wav;

use arguments::Arguments;
use commands::table::{self, Command};
use failure::Failure;
use manner::Manner;
use std::ffi::OsString;
use std::panic;
use std::process::ExitCode;

fn main() -> ExitCode {
    panic::set_hook(Box::new(|_| {})); // told below, in our words and with our status
    let words: Vec<OsString> = std::env::args_os().skip(1).collect();
    let manner = Manner { json: words.iter().any(|word| word == "--json"), ..Manner::default() };
    let ended = panic::catch_unwind(|| run(words)).unwrap_or_else(|_| {
        Err((
            manner,
            Failure::blocked("a fault in sj itself stopped it; an image is as it was or whole and new"),
        ))
    });
    let status = match ended {
        Ok(()) => 0,
        Err((manner, failure)) => {
            failure.tell(manner);
            failure.number()
        }
    };
    match output::finish() {
        Err(failure) if status < 2 => {
            failure.tell(Manner::default()); // an object would be lost too
            failure.status()
        }
        _ => ExitCode::from(status),
    }
}

/// Finds the command and makes it; a failure comes with how it is to be told.
fn run(words: Vec<OsString>) -> Result<(), (Manner, Failure)> {
    let manner = Manner { json: words.iter().any(|word| word == "--json"), ..Manner::default() };
    let early = |failure| (manner, failure);
    let mut words = words.into_iter();
    let name = words.next().unwrap_or_default();
    let command = named(&name.to_string_lossy()).map_err(early)?;
    let mut arguments = Arguments::new(words, &command.all_flags()).map_err(early)?;
    if arguments.flag("--help") || arguments.flag("-h") {
        return output::say(&command.help()).map_err(early);
    }
    let manner = arguments.manner();
    (command.run)(&mut arguments).map_err(|failure| (manner, failure))
}

fn named(name: &str) -> Result<&'static Command, Failure> {
    match name {
        "" => Err(Failure::usage("which command?")),
        "--help" | "-h" => Ok(table::named("help").expect("it is in the table")),
        "--version" | "-V" => Ok(table::named("version").expect("it is in the table")),
        name => table::named(name).ok_or_else(|| Failure::usage(format!("there is no command {name}"))),
    }
}
