//! The table of commands: what each is called, takes and does. The help is made of it, and a test holds the man page and the
//! completions to it.

use super::{change, check, get, help, ls, program, put, salvage, samples};
use crate::arguments::{Arguments, Flag};
use crate::failure::Failure;
use crate::output;
use std::fmt::Write;

/// A command.
pub struct Command {
    /// What it is called.
    pub name: &'static str,
    /// How it is used, a line each.
    pub usage: &'static [&'static str],
    /// What it does, in a line.
    pub about: &'static str,
    /// The options that it takes besides those that all take.
    pub flags: &'static [&'static Flag],
    /// What there is to know besides.
    pub notes: &'static str,
    /// Makes it.
    pub run: fn(&mut Arguments) -> Result<(), Failure>,
}

impl Command {
    /// Its options and those that every command takes.
    pub fn all_flags(&self) -> Vec<&'static Flag> {
        self.flags.iter().chain(&EVERY).copied().collect()
    }

    /// Its help.
    pub fn help(&self) -> String {
        let mut text = String::new();
        for line in self.usage {
            let _ = writeln!(text, "{line}");
        }
        let _ = writeln!(text, "\n{}\n", output::wrapped(&format!("{}. {}", self.about, self.notes)));
        for flag in self.all_flags() {
            let value = flag.value.map(|value| format!(" {value}")).unwrap_or_default();
            let _ = writeln!(text, "  {:<20} {}", format!("{}{value}", flag.name), flag.about);
        }
        text
    }
}

/// The command with a name.
pub fn named(name: &str) -> Option<&'static Command> {
    COMMANDS.iter().find(|command| command.name == name)
}

const JSON: Flag =
    Flag { name: "--json", value: None, about: "one JSON object a line, refusals and failures too" };
const QUIET: Flag = Flag { name: "--quiet", value: None, about: "tell refusals and failures only" };
const EXPLAIN: Flag = Flag { name: "--explain", value: None, about: "tell what to do about a refusal" };
const HELP: Flag = Flag { name: "--help", value: None, about: "tell this" };
const H: Flag = Flag { name: "-h", value: None, about: "the same" };

/// What every command takes.
const EVERY: [&Flag; 5] = [&JSON, &QUIET, &EXPLAIN, &HELP, &H];

const TO: Flag = Flag { name: "-o", value: Some("FILE"), about: "where to write; - is standard output" };
const ALL: Flag = Flag { name: "--all", value: None, about: "every file, into the folder that -o names" };
const FORCE_OUT: Flag = Flag { name: "--force", value: None, about: "replace files that are there" };
const FORCE_IN: Flag = Flag {
    name: "--force",
    value: None,
    about: "change an image though its owner, group, ACL or attributes can't be kept",
};
const TIMEOUT: Flag = Flag {
    name: "--timeout",
    value: Some("SECONDS"),
    about: "how long to wait for another run on the image",
};
const MENDED: Flag =
    Flag { name: "-o", value: Some("FILE"), about: "where to write the mended image; of several the folder" };
const IN_PLACE: Flag = Flag { name: "--in-place", value: None, about: "mend the image's own file" };
const DRY_RUN: Flag =
    Flag { name: "--dry-run", value: None, about: "write nothing, tell what would be lost" };
const FORCE_EITHER: Flag =
    Flag { name: "--force", value: None, about: "replace what -o names; in place, as put --force" };
const NAME: Flag = Flag { name: "--name", value: Some("NAME"), about: "the name on the disk" };
const TYPE: Flag = Flag {
    name: "--type",
    value: Some("T"),
    about: "the type, a letter; on an S3000 disk also its number, as S or 211",
};
const OF_TYPE: Flag = Flag {
    name: "--type",
    value: Some("T"),
    about: "files of this type alone, a letter; on an S3000 disk also its number",
};
const REPLACE: Flag =
    Flag { name: "--replace", value: None, about: "take the place of a file of that name and type" };
const EMPTY: Flag = Flag { name: "--allow-empty-name", value: None, about: "take a name of spaces alone" };
const ALL_SAMPLES: Flag =
    Flag { name: "--all", value: None, about: "every sample, into the folder that -o names" };
const HEADER_NAME: Flag =
    Flag { name: "--name", value: Some("NAME"), about: "the name in the sample's header" };
const LIKE: Flag =
    Flag { name: "--like", value: Some("SAMPLE"), about: "the sample file whose header is taken" };
const ROUND: Flag = Flag {
    name: "--round",
    value: None,
    about: "round words for an S900, which has 12 bits, to the nearest",
};
const CLIP: Flag =
    Flag { name: "--clip-loops", value: None, about: "move loops and markers past the last word back to it" };

/// All commands, in the help's order.
pub const COMMANDS: [Command; 12] = [
    Command {
        name: "check",
        usage: &["sj check IMAGE|DIR.."],
        about: "Tells whether images are accepted, and if not why",
        flags: &[],
        notes: "A folder stands for all files in it and below it, but for hidden ones. Of many images the closing line \
                counts the accepted and the refused, these by their numbers.",
        run: check::run,
    },
    Command {
        name: "ls",
        usage: &["sj ls IMAGE|DIR.."],
        about: "Tells what images hold",
        flags: &[],
        notes: "A file's line has its slot, type, length and name. An S3000 type is told as its capital, S for 211. In JSON \
                name is without its padding and stored is as the disk has it; type is the letter and type_byte the byte.",
        run: ls::run,
    },
    Command {
        name: "get",
        usage: &[
            "sj get IMAGE NAME|'#SLOT'.. [--type T] [-o FILE|DIR]",
            "sj get IMAGE --all [--type T] -o DIR",
        ],
        about: "Copies files out of an image, whole or not at all",
        flags: &[&TO, &ALL, &OF_TYPE, &FORCE_OUT],
        notes: "'#0' is the file in slot 0 (in quotes, as a shell takes # for a comment). Files of different types may \
                have one name; then --type or the slot says which is meant. * and ? in a name stand for any characters and \
                for one, and take files of all types, with --type those of one. On an S1000 or S3000 disk small letters \
                stand for capitals, in patterns too; S900 names keep their case. Without -o a file gets its name and its \
                type, NAME.t (NAME.S of an S3000's type S (211)), and replaces nothing that is there but by --force. Of \
                several files -o names the folder.",
        run: get::run,
    },
    Command {
        name: "put",
        usage: &["sj put IMAGE FILE.. [--replace]", "sj put IMAGE FILE [--name NAME] [--type T] [--replace]"],
        about: "Puts files into an image, all or none, and tells their slots",
        flags: &[&NAME, &TYPE, &REPLACE, &EMPTY, &FORCE_IN, &TIMEOUT],
        notes: "Name and type are those of a file called NAME.t, as get writes it, or for one file what the options say. \
                An S1000 or S3000 disk keeps a name in capitals, however it is typed; an S900 disk keeps its case. A type \
                is A to Z on an S900 disk, a to z on an S1000 disk, A (193) to Z (218) on an S3000 disk. Names need differ \
                only within one type. With --replace a file that has name and type goes when its successor is in; if that \
                is refused it stays.",
        run: put::run,
    },
    Command {
        name: "mv",
        usage: &["sj mv IMAGE OLD NEW [--type T] [--replace]"],
        about: "Gives a file another name",
        flags: &[&OF_TYPE, &REPLACE, &EMPTY, &FORCE_IN, &TIMEOUT],
        notes: "OLD is a name or a slot, as '#0'; where several files have the name, --type or the slot says which. An \
                S1000 or S3000 disk keeps NEW in capitals. The content and the type stay; the slot may be another, and is \
                told. With --replace the file that has NEW and that type already goes.",
        run: change::rename,
    },
    Command {
        name: "rm",
        usage: &["sj rm IMAGE NAME|'#SLOT'.. [--type T]"],
        about: "Removes files from an image, all or none",
        flags: &[&OF_TYPE, &FORCE_IN, &TIMEOUT],
        notes: "'#0' is the file in slot 0. Where several files have a name, --type or the slot says which is meant. * and \
                ? in a name stand for any characters and for one, and take files of all types, with --type those of one. \
                On an S1000 or S3000 disk small letters stand for capitals.",
        run: change::remove,
    },
    Command {
        name: "salvage",
        usage: &[
            "sj salvage IMAGE|DIR.. --dry-run",
            "sj salvage IMAGE|DIR.. --in-place",
            "sj salvage IMAGE -o FILE",
            "sj salvage IMAGE|DIR.. -o DIR",
        ],
        about: "Mends images that are refused by 3 to 9, and tells slot by slot what is lost",
        flags: &[&MENDED, &IN_PLACE, &DRY_RUN, &FORCE_EITHER, &TIMEOUT],
        notes: "One of -o, --in-place and --dry-run has to be given. A slot is dropped for the first of 4, 5, 6 or 7, and 8 that \
                applies, where only kept lower slots count for 5 and 8; what is kept reads as its own chain says. An \
                accepted image is left as it was, and written by -o alone. Exit status: 0 nothing is lost, 1 something is, \
                2 an image is refused by 1 or 2, or can't be read or written. --quiet tells losses and failures only; with \
                -o - the statement is on standard error.",
        run: salvage::run,
    },
    Command {
        name: "unpack",
        usage: &[
            "sj unpack SAMPLE -o FILE.wav",
            "sj unpack IMAGE NAME|'#SLOT'.. [--type T] [-o FILE.wav|DIR]",
            "sj unpack IMAGE --all [--type T] -o DIR",
        ],
        about: "Makes WAV files of samples, of a sample file or straight from an image",
        flags: &[&TO, &ALL_SAMPLES, &OF_TYPE, &FORCE_OUT],
        notes: "One argument is a sample file; more are an image and its samples, by name, '#slot' or pattern as for get. \
                A name that several files have is the sample's. --all takes the files of type s on an S1000 disk, S on an \
                S900's, S (211) on an S3000's, or of the type that --type says; a sample in the S3000's own form, with a \
                header of 192 bytes, is refused. Without -o a sample gets NAME.wav, and replaces nothing that is there but \
                by --force. Of several samples one that is refused is told and passed over, and a closing line counts. \
                Root note and loops go into a smpl chunk. The 12 bits of an S900 word are the upper of 16.",
        run: samples::unpack,
    },
    Command {
        name: "pack",
        usage: &["sj pack FILE.wav --like SAMPLE -o FILE [--name NAME] [--round] [--clip-loops]"],
        about: "Makes a sample file of a WAV file and another sample's header",
        flags: &[&LIKE, &TO, &HEADER_NAME, &EMPTY, &ROUND, &CLIP],
        notes: "The WAV file has one channel and 16 bits a word. Its rate is taken, its words, and the root note and loops of \
                its smpl chunk if it has one; the rest is the other sample's. An end marker after the last word is there \
                again; any other marker, or loop, that lies past the words is refused, or moved back by --clip-loops. \
                An S1000 sample's name is in capitals, however it is typed. No file that is read is replaced.",
        run: samples::pack,
    },
    Command {
        name: "program",
        usage: &["sj program FILE.."],
        about: "Tells whether files are S1000 programs, and of how many keygroups",
        flags: &[],
        notes: "A refused file is told with the row at fault, its value and what it may be. Of many files the closing line \
                counts the accepted and the refused, these by their numbers.",
        run: program::run,
    },
    Command {
        name: "help",
        usage: &["sj help [COMMAND|refusals]"],
        about: "Tells the commands, one command, or what every refusal means and what to do",
        flags: &[],
        notes: "",
        run: help::run,
    },
    Command {
        name: "version",
        usage: &["sj --version"],
        about: "Tells which version this is",
        flags: &[],
        notes: "",
        run: help::version,
    },
];

#[cfg(test)]
mod tests {
    use super::*;

    /// Help fits a terminal of 100 columns.
    #[test]
    fn help_has_no_long_line() {
        for command in &COMMANDS {
            let help = command.help();
            assert!(help.lines().all(|line| line.chars().count() <= 100), "{help}");
        }
    }
}
