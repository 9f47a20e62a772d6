//! The rows of sample and program files that have a rule: what each is called and what it may hold.
//!
//! The library refuses a file by 18 or 20 and tells the offset alone; here are the words for it. Nothing is judged here.
//!
//! ```
//! use skilletjay::{SampleKind, rows::{self, Form}, sample};
//!
//! let mut file = vec![0; 60];
//! file[..10].copy_from_slice(b"BASS C2   ");
//! file[26] = b'X';
//! let refusal = sample::words_of(SampleKind::S900, &file).unwrap_err();
//! let words = rows::words(Form::Sample(SampleKind::S900), &file, refusal.place());
//! assert_eq!(words.as_deref(), Some("loop mode is X, not O, L or A"));
//! ```

mod tables;

use crate::{SampleKind, sample};
use std::fmt;
use tables::{HEADER, KEYGROUP, NEXT, Rule, S900, S1000, SAMPLE};

/// Bytes of a program's header and of each keygroup.
const PART: usize = 150;

/// A sample of a keygroup has so many bytes, and there are four.
const SAMPLE_BYTES: usize = 24;

/// What a file is taken for.
#[derive(Clone, Copy, Debug, PartialEq, Eq)]
pub enum Form {
    /// A sample file.
    Sample(SampleKind),
    /// An S1000 program file.
    Program,
}

/// A row of a file that has a rule.
#[derive(Clone, Debug, PartialEq, Eq)]
pub struct Row {
    /// What it holds; in a keygroup with the keygroup's number, from 1.
    pub name: String,
    /// Where its first byte stands in the file.
    pub offset: usize,
    /// What each of its values may be.
    pub legal: Legal,
    values: usize,
    width: usize,
}

/// What the values of a row may be.
#[derive(Clone, Copy, Debug, PartialEq, Eq)]
pub enum Legal {
    /// From the first to the second; two's complement if the first is below 0.
    From(i64, i64),
    /// From 0 to this, or 255.
    OrOff(i64),
    /// One of these characters.
    OneOf(&'static [u8]),
    /// From 0 to the number, of four bytes, at this offset.
    UpTo(usize),
    /// The number that the file's length asks for.
    Fitting(Form),
}

impl Legal {
    /// The same with the numbers that a file gives. A length that no number fits leaves it as it is.
    pub fn in_file(self, file: &[u8]) -> Legal {
        match self {
            Legal::UpTo(at) => Legal::From(0, number(file, at, 4)),
            Legal::Fitting(form) => match fitting(form, file.len()) {
                Some(only) => Legal::From(only, only),
                None => self,
            },
            legal => legal,
        }
    }

    /// Whether a file may have a value.
    pub fn allows(self, file: &[u8], value: i64) -> bool {
        match self.in_file(file) {
            Legal::From(low, high) => low <= value && value <= high,
            Legal::OrOff(high) => (0..=high).contains(&value) || value == 255,
            Legal::OneOf(values) => values.iter().any(|&legal| i64::from(legal) == value),
            Legal::UpTo(_) | Legal::Fitting(_) => false,
        }
    }

    fn is_signed(self) -> bool {
        matches!(self, Legal::From(low, _) if low < 0)
    }

    fn is_letters(self) -> bool {
        matches!(self, Legal::OneOf(_))
    }
}

impl fmt::Display for Legal {
    fn fmt(&self, to: &mut fmt::Formatter<'_>) -> fmt::Result {
        match self {
            Legal::From(low, high) if low == high => write!(to, "{low}"),
            Legal::From(low, high) => write!(to, "{low} to {high}"),
            Legal::OrOff(high) => write!(to, "0 to {high} or 255"),
            Legal::OneOf([first @ .., last]) => {
                let first: Vec<String> = first.iter().map(|&value| char::from(value).to_string()).collect();
                write!(to, "{} or {}", first.join(", "), char::from(*last))
            }
            Legal::OneOf([]) => write!(to, "none"),
            Legal::UpTo(at) => write!(to, "0 to the number at {at}"),
            Legal::Fitting(Form::Program) => write!(to, "1 to 99, as the file's length asks"),
            Legal::Fitting(Form::Sample(_)) => write!(to, "as the file's length asks"),
        }
    }
}

impl Row {
    /// The values that a file has in it; none if the file is too short.
    pub fn values(&self, file: &[u8]) -> Vec<i64> {
        let end = self.offset + self.values * self.width;
        let Some(bytes) = file.get(self.offset..end) else { return Vec::new() };
        let all = 1 << (8 * self.width);
        let below_zero = |value: i64| self.legal.is_signed() && 2 * value >= all;
        let value = |bytes: &[u8]| number(bytes, 0, self.width);
        let values = bytes.chunks(self.width).map(value);
        values.map(|value| if below_zero(value) { value - all } else { value }).collect()
    }

    /// The first of a file's values that it may not have.
    pub fn fault(&self, file: &[u8]) -> Option<i64> {
        self.values(file).into_iter().find(|&value| !self.legal.allows(file, value))
    }

    /// What is wrong with it in a file; None if nothing is.
    fn words(&self, file: &[u8]) -> Option<String> {
        let (name, value) = (&self.name, self.fault(file)?);
        let legal = self.legal.in_file(file);
        let odd = self.legal == Legal::Fitting(Form::Sample(SampleKind::S900)) && value % 2 == 1;
        let value = match u8::try_from(value) {
            Ok(letter) if legal.is_letters() && letter.is_ascii_graphic() => char::from(letter).to_string(),
            _ => value.to_string(),
        };
        let Legal::Fitting(form) = self.legal else {
            return Some(format!("{name} is {value}, not {legal}"));
        };
        let counted = if form == Form::Program { "keygroups" } else { "words" };
        Some(match legal {
            _ if odd => format!("{value} {counted} said, and their number is even"),
            Legal::Fitting(_) => format!("{value} {counted} said, {} there", bytes(file.len())),
            fits => format!("{value} {counted} said, {fits} there"),
        })
    }
}

/// What is wrong with a file that is refused at an offset; None if the offset is no row's or nothing is wrong there.
pub fn words(form: Form, file: &[u8], offset: usize) -> Option<String> {
    let (what, header) = match form {
        Form::Sample(SampleKind::S900) => {
            ("an S900 sample's header", sample::header_length(SampleKind::S900))
        }
        Form::Sample(SampleKind::S1000) => {
            ("an S1000 sample's header", sample::header_length(SampleKind::S1000))
        }
        Form::Program => ("a program's header", PART),
    };
    if file.len() < header {
        return Some(format!("it has {}, and {what} {header}", bytes(file.len())));
    }
    row(form, offset)?.words(file)
}

/// A number of bytes, one or many.
fn bytes(number: usize) -> String {
    format!("{number} byte{}", if number == 1 { "" } else { "s" })
}

/// The row that an offset lies in, if it has a rule.
pub fn row(form: Form, offset: usize) -> Option<Row> {
    let (part, at) = match form {
        Form::Sample(_) => (0, offset),
        Form::Program => (offset / PART, offset % PART),
    };
    if part > 99 {
        return None;
    }
    let (rule, sample) = match (form, part) {
        (Form::Sample(SampleKind::S900), _) => (find(S900, at)?, None),
        (Form::Sample(SampleKind::S1000), _) => (find(S1000, at)?, None),
        (Form::Program, 0) => (find(HEADER, at)?, None),
        (Form::Program, _) => find_in_keygroup(at)?,
    };
    let first = rule.at + sample.map_or(0, |sample| SAMPLE_BYTES * sample);
    let within = if rule.own_place { at - first } else { 0 };
    let name = match (part, sample) {
        (0, _) => rule.name(within),
        (_, None) => format!("keygroup {part}'s {}", rule.name(within)),
        (_, Some(sample)) => format!("keygroup {part}'s sample {} {}", sample + 1, rule.name(within)),
    };
    let next = (PART * (part + 1)) as i64;
    let legal = if rule.legal == NEXT { Legal::From(next, next) } else { rule.legal };
    let values = if rule.own_place { 1 } else { rule.values };
    Some(Row { name, offset: PART * part + first + within, legal, values, width: rule.width })
}

/// The rule that an offset lies in.
fn find(rules: &'static [Rule], at: usize) -> Option<&'static Rule> {
    rules.iter().find(|rule| (rule.at..rule.at + rule.values * rule.width).contains(&at))
}

/// The same in a keygroup, and the sample, from 0, that it is about.
fn find_in_keygroup(at: usize) -> Option<(&'static Rule, Option<usize>)> {
    if let Some(rule) = find(KEYGROUP, at) {
        return Some((rule, None));
    }
    let sample = at.checked_sub(SAMPLE[0].at)? / SAMPLE_BYTES;
    let rule = find(SAMPLE, at - SAMPLE_BYTES * sample)?;
    (sample < 4).then_some((rule, Some(sample)))
}

/// The number of words or of keygroups that a file of a length has; None if there is no such length.
fn fitting(form: Form, length: usize) -> Option<i64> {
    let (header, bytes, numbers, step) = match form {
        Form::Sample(SampleKind::S900) => (60, 3, 0..=i64::MAX, 2), // two words take three bytes
        Form::Sample(SampleKind::S1000) => (PART, 2, 0..=i64::MAX, 1),
        Form::Program => (PART, PART, 1..=99, 1),
    };
    let rest = length.checked_sub(header)?;
    let fits = (rest / bytes) as i64 * step;
    (rest.is_multiple_of(bytes) && numbers.contains(&fits)).then_some(fits)
}

/// The number of some bytes, least significant first; bytes that aren't there are 0.
fn number(bytes: &[u8], at: usize, width: usize) -> i64 {
    let byte = |at: usize| i64::from(bytes.get(at).copied().unwrap_or(0));
    (0..width).rev().fold(0, |high, within| 256 * high + byte(at + within))
}

#[cfg(test)]
mod tests {
    use super::*;

    #[test]
    fn rows_are_found_by_any_of_their_bytes() {
        let name = |form, offset| row(form, offset).map(|row| (row.name, row.offset));
        let some = |name: &str, offset| Some((name.to_string(), offset));
        assert_eq!(name(Form::Sample(SampleKind::S900), 38), some("loop length", 36));
        assert_eq!(name(Form::Sample(SampleKind::S1000), 5), some("name character 3", 5));
        assert_eq!(name(Form::Sample(SampleKind::S1000), 38), None);
        assert_eq!(name(Form::Program, 50), some("key temperament", 44));
        assert_eq!(name(Form::Program, 150 * 2 + 3), some("keygroup 2's low key", 303));
        assert_eq!(name(Form::Program, 150 + 77), some("keygroup 1's sample 2 loop mode", 227));
        assert_eq!(name(Form::Program, 150 + 147), some("keygroup 1's vel>sample start", 290));
        assert_eq!(name(Form::Program, 150 + 57), None);
        assert_eq!(name(Form::Program, 150 * 100), None);
    }

    #[test]
    fn lengths_ask_for_numbers() {
        let fits = |kind, length| fitting(Form::Sample(kind), length);
        assert_eq!(
            [fits(SampleKind::S900, 60), fits(SampleKind::S900, 66), fits(SampleKind::S900, 61)],
            [Some(0), Some(4), None]
        );
        assert_eq!([fits(SampleKind::S1000, 154), fits(SampleKind::S1000, 155)], [Some(2), None]);
        let fits = [150, 300, 301, 15_000, 15_150].map(|length| fitting(Form::Program, length));
        assert_eq!(fits, [None, Some(1), None, Some(99), None]);
    }

    #[test]
    fn words_say_value_and_range() {
        let mut file = vec![0; 450];
        (file[42], file[17]) = (3, 17);
        let told = |file: &[u8], offset| words(Form::Program, file, offset).unwrap_or_default();
        assert_eq!(told(&file, 17), "polyphony is 17, not 1 to 16");
        assert_eq!(told(&file, 42), "3 keygroups said, 2 there");
        assert_eq!(told(&file[..449], 42), "3 keygroups said, 449 bytes there");
        assert_eq!(told(&file[..149], 0), "it has 149 bytes, and a program's header 150");
        assert_eq!(told(&file, 301), "keygroup 2's next keygroup address is 0, not 450");
        file[300 + 142] = 255;
        file[300 + 143] = 128;
        assert_eq!(told(&file, 440), "keygroup 2's vel>sample start is -32513, not -9999 to 9999");
        assert_eq!(words(Form::Program, &file, 16), None);
        let mut odd = [0; 64];
        odd[16] = 3;
        let told = words(Form::Sample(SampleKind::S900), &odd, 16);
        assert_eq!(told.as_deref(), Some("3 words said, and their number is even"));
    }
}
