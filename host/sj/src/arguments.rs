//! The command line taken apart in one pass: options may stand anywhere, and `--` ends them.

use crate::failure::Failure;
use crate::manner::Manner;
use std::collections::VecDeque;
use std::ffi::{OsStr, OsString};
use std::os::unix::ffi::{OsStrExt, OsStringExt};
use std::path::PathBuf;
use std::time::Duration;

/// An option: how it is written, what its value is called (none: it has no value), and what it does.
pub struct Flag {
    /// As it is written, `--name` or `-o`.
    pub name: &'static str,
    /// What its value is called in the help.
    pub value: Option<&'static str>,
    /// What it does, for the help.
    pub about: &'static str,
}

/// A command line without its command.
pub struct Arguments {
    given: Vec<(&'static str, OsString)>,
    words: VecDeque<OsString>,
}

impl Arguments {
    /// All words after the command, by the options that it takes.
    pub fn new(words: impl Iterator<Item = OsString>, flags: &[&Flag]) -> Result<Arguments, Failure> {
        let mut arguments = Arguments { given: Vec::new(), words: VecDeque::new() };
        let mut rest = words;
        while let Some(word) = rest.next() {
            let bytes = word.as_bytes();
            if bytes == b"--" {
                arguments.words.extend(rest);
                break;
            } else if bytes.len() < 2 || bytes[0] != b'-' {
                arguments.words.push_back(word);
            } else {
                arguments.option(&word, &mut rest, flags)?;
            }
        }
        Ok(arguments)
    }

    /// Takes an option, and its value from behind a `=` or from the next word.
    fn option(
        &mut self,
        word: &OsStr,
        rest: &mut impl Iterator<Item = OsString>,
        flags: &[&Flag],
    ) -> Result<(), Failure> {
        let (name, joined) = split(word);
        let shown = name.to_string_lossy();
        let Some(flag) = flags.iter().find(|flag| flag.name == name) else {
            return Err(Failure::usage(format!("there is no option {shown}")));
        };
        let value = match (flag.value, joined) {
            (None, None) => OsString::new(),
            (None, Some(_)) => return Err(Failure::usage(format!("{shown} takes no value"))),
            (Some(_), Some(value)) => value,
            (Some(_), None) => rest.next().ok_or_else(|| Failure::usage(format!("{shown} needs a value")))?,
        };
        if flag.value.is_some() && self.given.iter().any(|(given, _)| *given == flag.name) {
            return Err(Failure::usage(format!("{shown} is given twice")));
        }
        self.given.push((flag.name, value));
        Ok(())
    }

    /// Whether an option without a value is given.
    pub fn flag(&self, name: &str) -> bool {
        self.given.iter().any(|(given, _)| *given == name)
    }

    /// An option's value.
    pub fn value(&self, name: &str) -> Option<OsString> {
        self.given.iter().find(|(given, _)| *given == name).map(|(_, value)| value.clone())
    }

    /// The value of an option that must be there.
    pub fn needed(&self, name: &str) -> Result<OsString, Failure> {
        self.value(name).ok_or_else(|| Failure::usage(format!("{name} is needed")))
    }

    /// How a run tells what it did.
    pub fn manner(&self) -> Manner {
        Manner { json: self.flag("--json"), quiet: self.flag("--quiet"), explain: self.flag("--explain") }
    }

    /// How long to wait for another run that changes the same image; None: as long as it takes.
    pub fn timeout(&self) -> Result<Option<Duration>, Failure> {
        let Some(word) = self.value("--timeout") else { return Ok(None) };
        let seconds = word.to_str().and_then(|word| word.parse::<f64>().ok());
        match seconds.map(Duration::try_from_secs_f64) {
            Some(Ok(time)) => Ok(Some(time)),
            _ => Err(Failure::usage("--timeout needs a number of seconds")),
        }
    }

    /// Takes the next argument that is no option.
    pub fn next(&mut self, what: &str) -> Result<OsString, Failure> {
        self.words.pop_front().ok_or_else(|| Failure::usage(format!("{what} is missing")))
    }

    /// Takes the next argument as a path.
    pub fn path(&mut self, what: &str) -> Result<PathBuf, Failure> {
        self.next(what).map(PathBuf::from)
    }

    /// How many arguments are left.
    pub fn left(&self) -> usize {
        self.words.len()
    }

    /// Takes all arguments that are left, one or more.
    pub fn some(&mut self, what: &str) -> Result<Vec<OsString>, Failure> {
        let first = self.next(what)?;
        Ok([first].into_iter().chain(self.words.drain(..)).collect())
    }

    /// Nothing may be left.
    pub fn end(&mut self) -> Result<(), Failure> {
        match self.words.pop_front() {
            Some(word) => Err(Failure::usage(format!("{} is one argument too many", word.display()))),
            None => Ok(()),
        }
    }
}

/// `--name=A` is the option `--name` and its value.
fn split(word: &OsStr) -> (&OsStr, Option<OsString>) {
    let bytes = word.as_bytes();
    match bytes.iter().position(|&byte| byte == b'=') {
        Some(at) if bytes.starts_with(b"--") => {
            (OsStr::from_bytes(&bytes[..at]), Some(OsString::from_vec(bytes[at + 1..].to_vec())))
        }
        _ => (word, None),
    }
}

/// An argument as text; names and types are text.
pub fn text(what: &str, word: OsString) -> Result<String, Failure> {
    word.into_string().map_err(|_| Failure::usage(format!("the {what} is no text")))
}

#[cfg(test)]
mod tests {
    use super::*;

    const JSON: Flag = Flag { name: "--json", value: None, about: "" };
    const NAME: Flag = Flag { name: "--name", value: Some("NAME"), about: "" };
    const TO: Flag = Flag { name: "-o", value: Some("FILE"), about: "" };
    const TIMEOUT: Flag = Flag { name: "--timeout", value: Some("SECONDS"), about: "" };

    fn arguments(words: &[&str]) -> Result<Arguments, Failure> {
        Arguments::new(words.iter().map(OsString::from), &[&JSON, &NAME, &TO, &TIMEOUT])
    }

    #[test]
    fn options_stand_anywhere() {
        let mut line = arguments(&["a", "-o", "b", "--json", "c", "-"]).expect("legal");
        assert!(line.flag("--json") && !line.flag("--name"));
        assert_eq!(line.value("-o"), Some("b".into()));
        assert_eq!([line.next("x").ok(), line.next("x").ok()], [Some("a".into()), Some("c".into())]);
        assert_eq!((line.left(), line.some("x").ok()), (1, Some(vec!["-".into()])));
        assert!(line.end().is_ok() && line.some("x").is_err());
    }

    /// What follows an option is its value, whatever it looks like.
    #[test]
    fn a_value_may_stand_behind_an_equals_sign() {
        for words in [&["--name=A=B"][..], &["--name", "A=B"]] {
            assert_eq!(arguments(words).expect("legal").value("--name"), Some("A=B".into()));
        }
        assert_eq!(arguments(&["--name="]).expect("legal").value("--name"), Some("".into()));
        assert_eq!(arguments(&["--name", "--json"]).expect("legal").value("--name"), Some("--json".into()));
        for wrong in [&["--json=1"][..], &["--name"], &["-o=a"], &["--name=a", "--name", "b"], &["--jason"]] {
            assert!(arguments(wrong).is_err(), "{wrong:?}");
        }
    }

    #[test]
    fn two_dashes_end_the_options() {
        let mut line = arguments(&["a", "--", "-b", "--json"]).expect("legal");
        assert_eq!(line.some("x").ok(), Some(["a", "-b", "--json"].map(OsString::from).to_vec()));
        assert!(arguments(&["-b"]).is_err());
    }

    #[test]
    fn a_timeout_is_a_number_of_seconds() {
        let time = |words: &[&str]| arguments(words).expect("legal").timeout().ok();
        assert_eq!(time(&[]), Some(None));
        assert_eq!(time(&["--timeout", "1.5"]), Some(Some(Duration::from_millis(1500))));
        for wrong in ["", "x", "-1", "nan", "inf", "1e99"] {
            assert_eq!(time(&["--timeout", wrong]), None, "{wrong}");
        }
    }
}
