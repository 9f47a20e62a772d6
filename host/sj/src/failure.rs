//! Why a run failed, what is told about it, and the exit status.

use crate::input;
use crate::json::Object;
use crate::manner::Manner;
use crate::output;
use skilletjay::{Entry, Place, Refusal, Slot};
use std::fmt::Display;
use std::io;
use std::path::Path;
use std::process::ExitCode;

/// A failure: what to tell, and the status. It is about files by their names as they are; they are quoted, if need be, when
/// it is told. In a box, so that what doesn't fail pays little for it.
#[derive(Debug)]
pub struct Failure(Box<Told>);

#[derive(Debug)]
struct Told {
    status: u8,
    /// The file or image that it is about; empty for none.
    about: String,
    /// The file on the image that it is about; empty for none.
    name: String,
    /// Its slot, where that is known: another file may have the name.
    slot: Option<Slot>,
    /// What is wrong, without what it is about.
    words: String,
    /// What to do about it; empty where the words say it.
    advice: String,
    refusal: Option<Refusal>,
    /// The files that it is between, as JSON; empty for none.
    entries: String,
}

impl Failure {
    fn new(status: u8, about: impl Display, words: impl Display) -> Failure {
        let (about, words) = (about.to_string(), words.to_string());
        let (name, advice, entries) = (String::new(), String::new(), String::new());
        Failure(Box::new(Told { status, about, name, slot: None, words, advice, refusal: None, entries }))
    }

    fn with(mut self, change: impl FnOnce(&mut Told)) -> Failure {
        change(&mut self.0);
        self
    }

    /// A refusal of the library about a file: words, number and place; what to do is told where it is asked for.
    pub fn refused(about: impl Display, refusal: Refusal) -> Failure {
        Failure::new(1, about, refusal).with(|told| {
            told.advice = refusal.advice().to_string();
            told.refusal = Some(refusal);
        })
    }

    /// A refusal of the library in words that say more than its own.
    pub fn refused_as(about: impl Display, refusal: Refusal, words: impl Display) -> Failure {
        Failure::refused(about, refusal).with(|told| told.words = numbered(words, refusal))
    }

    /// A refusal of `sj` itself about a file, and what to do.
    pub fn declined(about: impl Display, words: impl Display, advice: impl Display) -> Failure {
        Failure::new(1, about, words).with(|told| told.advice = advice.to_string())
    }

    /// A wrong command line.
    pub fn usage(words: impl Display) -> Failure {
        Failure::new(2, "", format!("{words} (sj --help tells the commands)"))
    }

    /// A file that can't be read or written.
    pub fn file(path: &Path, error: io::Error) -> Failure {
        Failure::new(2, named(path), error)
    }

    /// Something that stands in the way of reading or writing, in words.
    pub fn blocked(words: impl Display) -> Failure {
        Failure::new(2, "", words)
    }

    /// The same with the status of what can't be read or written, for a command whose 1 says something else.
    pub fn hindering(self) -> Failure {
        self.with(|told| told.status = 2)
    }

    /// The same, about a file on the image.
    pub fn on(self, name: &str) -> Failure {
        self.with(|told| told.name = name.trim_end().to_string())
    }

    /// The same, about a file on the image whose slot is told too.
    pub fn on_entry(self, entry: &Entry) -> Failure {
        self.on(&entry.name).with(|told| told.slot = Some(entry.slot))
    }

    /// The same, between files that are an array in JSON; in lines the words tell them.
    pub fn between(self, entries: String) -> Failure {
        self.with(|told| told.entries = entries)
    }

    /// All was told already; the status alone is left.
    pub fn told(status: u8) -> Failure {
        Failure::new(status, "", "")
    }

    /// The same, told with what was done all the same.
    pub fn after(self, done: impl Display) -> Failure {
        let words = format!("{done}, but {}{}", self.start(), self.0.words);
        self.with(|told| {
            (told.about, told.name, told.slot) = (String::new(), String::new(), None);
            told.words = words;
        })
    }

    /// Adds to what is wrong.
    pub fn and(self, more: impl Display) -> Failure {
        self.with(|told| told.words.push_str(&format!("; {more}")))
    }

    /// What it is about, before the words.
    fn start(&self) -> String {
        let with_colon = |about: &str| match about {
            "" => String::new(),
            about => format!("{}: ", plain(about)),
        };
        let file = match self.0.slot {
            Some(slot) => format!("{slot} [{}]: ", self.0.name),
            None => with_colon(&self.0.name),
        };
        with_colon(&self.0.about) + &file
    }

    /// Tells it: a line on standard error, and one more of advice where that is asked for; or an object.
    pub fn tell(&self, manner: Manner) {
        if self.0.words.is_empty() {
            return;
        }
        if manner.json && output::say(&self.object(manner)).is_ok() {
            return;
        }
        if self.refusal().is_some_and(|number| number < 10) {
            output::warn(&format!("{}{}", self.start(), self.0.words)); // a line for an image, however long its path
        } else {
            output::warn_wrapped(&self.start(), &self.0.words);
        }
        if manner.explain && !self.0.advice.is_empty() {
            output::explain(&self.0.advice);
        }
    }

    fn object(&self, manner: Manner) -> String {
        let slot = self.0.slot.map_or(String::new(), |slot| slot.0.to_string());
        let object = Object::new().text_if("file", &self.0.about).raw_if("slot", &slot);
        let object = object.text_if("name", &self.0.name);
        let object = match self.0.refusal {
            Some(refusal) => object
                .number("refusal", refusal.number() as usize)
                .number("place", refusal.place())
                .text_if("counts", &counted(refusal.counts())),
            None => object,
        };
        let refused = self.0.status == 1 || self.0.refusal.is_some();
        let words = if refused { "words" } else { "error" };
        object
            .text(words, &self.0.words)
            .text_if("advice", if manner.explain { &self.0.advice } else { "" })
            .raw_if("entries", &self.0.entries)
            .line()
    }

    /// The refusal's number, if the library refused.
    pub fn refusal(&self) -> Option<u32> {
        self.0.refusal.map(|refusal| refusal.number())
    }

    /// The exit status as a number.
    pub fn number(&self) -> u8 {
        self.0.status
    }

    /// The exit status.
    pub fn status(&self) -> ExitCode {
        ExitCode::from(self.0.status)
    }
}

/// Words of our own with number and place, as a refusal tells its.
fn numbered(words: impl Display, refusal: Refusal) -> String {
    match refusal.counts() {
        Place::None => format!("{words} (refusal {})", refusal.number()),
        counts => format!("{words} (refusal {}, {counts} {})", refusal.number(), refusal.place()),
    }
}

fn counted(counts: Place) -> String {
    if counts == Place::None { String::new() } else { counts.to_string() }
}

/// What a path of a file to read is called: its text, or standard input. An empty one has to show too.
pub fn named(path: &Path) -> String {
    match path.as_os_str().is_empty() {
        true => plain(""),
        false => input::called(path).display().to_string(),
    }
}

/// A text as it may be printed: in quotes, with escapes, where it holds what would not show as itself.
pub fn plain(text: &str) -> String {
    if text.is_empty() || text.chars().any(char::is_control) { format!("{text:?}") } else { text.to_string() }
}

/// A path as it may be printed.
pub fn shown(path: &Path) -> String {
    path.to_str().map_or_else(|| format!("{path:?}"), plain)
}

/// A number with what it counts, one or many.
pub fn counting(number: usize, one: &str) -> String {
    format!("{} {one}{}", grouped(number), if number == 1 { "" } else { "s" })
}

/// A number with a comma before each three digits.
pub fn grouped(number: usize) -> String {
    let digits = number.to_string();
    let mut text = String::new();
    for (at, digit) in digits.chars().enumerate() {
        if at > 0 && (digits.len() - at).is_multiple_of(3) {
            text.push(',');
        }
        text.push(digit);
    }
    text
}

#[cfg(test)]
mod tests {
    use super::*;
    use std::ffi::OsStr;
    use std::os::unix::ffi::OsStrExt;

    #[test]
    fn paths_that_would_not_show_are_quoted() {
        assert_eq!(shown(Path::new("a b/c'.img")), "a b/c'.img");
        assert_eq!(shown(Path::new("a\n\x1b[2J")), "\"a\\n\\u{1b}[2J\"");
        assert_eq!(shown(Path::new(OsStr::from_bytes(b"a\xff"))), "\"a\\xFF\"");
        assert_eq!(shown(Path::new("")), "\"\"");
    }

    #[test]
    fn numbers_are_grouped_and_counted() {
        assert_eq!(counting(1, "block"), "1 block");
        assert_eq!(counting(0, "block"), "0 blocks");
        assert_eq!([0, 999, 1000, 1_633_280].map(grouped), ["0", "999", "1,000", "1,633,280"]);
    }
}
