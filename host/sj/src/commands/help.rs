//! `sj help`, `sj help COMMAND`, `sj help refusals` and `sj --version`

use super::table::{self, COMMANDS};
use crate::arguments::{Arguments, text};
use crate::failure::Failure;
use crate::json::Object;
use crate::output;
use skilletjay::{Place, Refusal};
use std::fmt::Write;

/// What there is to know besides, a paragraph each.
const NOTES: [&str; 4] = [
    "sj COMMAND --help tells a command's options; all take --json, --quiet and --explain.",
    "Names are padded with spaces to the disk's length. A file is known by its name and its type; where several have a \
     name, --type or the slot says which, '#0' for slot 0. - as a file to read is standard input, and after -o standard \
     output. -- ends the options, and --name=A is --name A.",
    "An image is changed in a copy beside it, which then takes its place with owner, group, mode, ACL and extended \
     attributes: a run that fails leaves the image as it was, and of two runs at once one waits for the other. An \
     interrupted run may leave the copy, a hidden file .sj- and some numbers; the next run that changes the image \
     removes it. Files that are copied out are written in the same way; what an interrupted get left may be removed \
     by hand. A changed image is a new file: where it has more than one name (hard links), the others keep the old one.",
    "Exit status: 0 done, 1 refused (salvage: something is lost), 2 wrong usage or a file that can't be read or \
     written.",
];

/// Tells the commands, one of them, or the refusals.
pub fn run(arguments: &mut Arguments) -> Result<(), Failure> {
    if arguments.left() == 0 {
        return output::say(&overview());
    }
    let topic = text("topic", arguments.next("the topic")?)?;
    arguments.end()?;
    match table::named(&topic) {
        Some(command) => output::say(&command.help()),
        None if topic == "refusals" => output::say(&refusals()),
        None => Err(Failure::usage(format!("there is no help on {topic}"))),
    }
}

/// Tells the version.
pub fn version(arguments: &mut Arguments) -> Result<(), Failure> {
    arguments.end()?;
    let version = env!("CARGO_PKG_VERSION");
    let object = || Object::new().text("version", version).line();
    output::say(&if arguments.manner().json { object() } else { format!("sj {version}\n") })
}

fn overview() -> String {
    let mut told =
        String::from("sj reads and writes floppy images of Akai S900, S950, S1000 and S3000 samplers.\n\n");
    for command in &COMMANDS {
        for usage in command.usage {
            let _ = writeln!(told, "  {usage}");
        }
    }
    for note in NOTES {
        let _ = write!(told, "\n{}\n", output::wrapped(note));
    }
    told
}

fn refusals() -> String {
    let mut told = String::from(
        "A refused call has changed nothing. Slots, blocks, offsets and words count from 0.\n\n",
    );
    for refusal in Refusal::all() {
        let place = match refusal.counts() {
            Place::None => String::new(),
            counted => format!(" (place: {counted})"),
        };
        let _ = writeln!(told, "{:>2}  {}{place}", refusal.number(), refusal.words());
        for line in output::wrapped_to(96, refusal.advice()).lines() {
            let _ = writeln!(told, "    {line}");
        }
    }
    told
}
