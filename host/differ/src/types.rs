//! What calls and disks met of names that stand in more than one type (document 02, request six).

use crate::call::{Call, Given, MARGIN, Outcome};
use model::layout::{LAYOUTS, Layout, TYPE_AT};
use model::names::{area_of, is_type};
use model::script::{ENTRY, PART};

/// What a name and a type are on a disk.
#[derive(Clone, Copy, Debug, PartialEq, Eq)]
enum Met {
    /// A file's, whose name stands in no other type.
    Alone,
    /// A file's, whose name stands in another type too.
    Twin,
    /// The name stands in other types alone.
    Elsewhere,
    /// The name stands nowhere.
    Nowhere,
    /// The type is illegal, and the name stands there.
    TypeOfHeld,
    /// The type is illegal, and the name, which is legal, stands nowhere.
    TypeOfNew,
    /// The name is illegal, and the type is legal.
    Name,
}

/// Finds, removals and puts, by what their name and type were on the disk, in the order of `Met`.
pub type Answered = [[usize; 7]; 3];

/// What was met on one layout.
#[derive(Clone, Copy, Debug, Default, PartialEq, Eq)]
pub struct Types {
    /// Calls with the answer that is due: a file found or removed, or 10; one put, or 12; 11 for what is illegal.
    pub calls: Answered,
    /// Those of scripts, by what name and type were on the disk before the script.
    pub scripts: Answered,
    /// Those of both that gave an illegal type: 0, 255, the letter of another kind, or another byte.
    pub illegal: [usize; 4],
    /// Checks that accepted a disk with a name in two types.
    pub accepted: usize,
    /// Checks that refused a disk by 5.
    pub twice: usize,
    /// Those of them where a slot between the two has the name in another type.
    pub between: usize,
    /// Files that were found and paged to their ends after another one of their name was removed.
    pub stayed: usize,
}

/// Counts by layout, in the order of [`LAYOUTS`].
pub type Counts = [Types; LAYOUTS.len()];

/// A find, a removal or a put, as its place in [`Answered`], by what its name and type are on the disk.
pub struct Asked {
    call: usize,
    met: Met,
    file_type: u8,
}

/// What a call met on an image of a layout, and each call of a script; nothing for calls that take no name.
pub fn asked(call: &Call, image: &[u8], layout: Layout) -> Vec<Option<Asked>> {
    let one = |call: usize, file: Option<(&[u8], u8)>| {
        let (name, file_type) = file?;
        Some(Asked { call, met: met(name, file_type, image, layout)?, file_type })
    };
    match call {
        Call::Find { .. } => vec![one(0, call.file())],
        Call::Remove { .. } => vec![one(1, call.file())],
        Call::Put { .. } => vec![one(2, call.file())],
        Call::Run { script, pool, .. } => script
            .chunks_exact(ENTRY)
            .map(|entry| match entry[0] {
                2..=4 => one(usize::from(entry[0] - 2), named(entry, pool)),
                _ => None,
            })
            .collect(),
        _ => Vec::new(),
    }
}

/// The name and the type of a script's entry, if the pool holds the name.
fn named<'a>(entry: &[u8], pool: &'a [u8]) -> Option<(&'a [u8], u8)> {
    let four =
        |at: usize| entry[at..at + 4].iter().rev().fold(0, |high, &byte| high * 256 + usize::from(byte));
    Some((pool.get(four(4)..four(4) + four(8))?, entry[1]))
}

fn met(name: &[u8], file_type: u8, image: &[u8], layout: Layout) -> Option<Met> {
    let area = area_of(layout.kind, name);
    let held = |&(_, other, _): &Used| area.is_some_and(|area| other == area);
    let types: Vec<u8> = used(image, layout).filter(held).map(|(_, _, own)| own).collect();
    match (area, is_type(layout.kind, file_type)) {
        (None, false) => None,
        (None, true) => Some(Met::Name),
        (Some(_), false) => Some(if types.is_empty() { Met::TypeOfNew } else { Met::TypeOfHeld }),
        (Some(_), true) => Some(match types[..] {
            [] => Met::Nowhere,
            [own] if own == file_type => Met::Alone,
            _ if types.contains(&file_type) => Met::Twin,
            _ => Met::Elsewhere,
        }),
    }
}

/// A used slot's number, its name's area and its type.
type Used<'a> = (usize, &'a [u8], u8);

fn used(image: &[u8], layout: Layout) -> impl Iterator<Item = Used<'_>> {
    let slots = (0..layout.slots()).map(move |slot| {
        let bytes = &image[layout.slot_at(slot)..];
        (slot, &bytes[..TYPE_AT], bytes[TYPE_AT])
    });
    slots.filter(|&(_, _, file_type)| file_type != 0)
}

impl Asked {
    /// The number that the call is due to be answered with, on a disk that is accepted.
    fn due(&self) -> u8 {
        match (self.call, self.met) {
            (_, Met::TypeOfHeld | Met::TypeOfNew | Met::Name) => 11,
            (2, Met::Alone | Met::Twin) => 12,
            (0 | 1, Met::Elsewhere | Met::Nowhere) => 10,
            _ => 0,
        }
    }

    /// Which illegal type it is, as its place in [`Types::illegal`].
    fn illegal(&self) -> Option<usize> {
        matches!(self.met, Met::TypeOfHeld | Met::TypeOfNew).then_some(match self.file_type {
            0 => 0,
            255 => 1,
            b'A'..=b'Z' | b'a'..=b'z' | 193..=218 => 2,
            _ => 3,
        })
    }
}

impl Types {
    /// Counts what a call met, or a script's calls, where the answer was the one that is due.
    pub fn count(&mut self, asked: &[Option<Asked>], outcome: &Outcome) {
        let (sum, told): (&mut Answered, Vec<u8>) = match outcome.given {
            Given::Made(made) => {
                let parts = outcome.output[MARGIN..].chunks(PART).take(made);
                (&mut self.scripts, parts.map(|part| part[0]).collect())
            }
            given => (&mut self.calls, vec![given.refusal() as u8]),
        };
        for (asked, told) in asked.iter().zip(told) {
            let Some(asked) = asked.as_ref().filter(|asked| asked.due() == told) else { continue };
            sum[asked.call][asked.met as usize] += 1;
            asked.illegal().into_iter().for_each(|sort| self.illegal[sort] += 1);
        }
    }

    /// Counts a check of an image of a layout, by its answer.
    pub fn count_check(&mut self, image: &[u8], layout: Layout, given: &Given) {
        let Given::Checked(checked) = given else { return };
        let files: Vec<Used> = used(image, layout).collect();
        if checked.refusal == 0 {
            let mut names: Vec<&[u8]> = files.iter().map(|file| file.1).collect();
            names.sort_unstable();
            self.accepted += usize::from(names.windows(2).any(|pair| pair[0] == pair[1]));
        } else if checked.refusal == 5 {
            let name = &image[layout.slot_at(checked.place)..][..TYPE_AT];
            let up_to_it = files.iter().filter(|file| file.0 <= checked.place && file.1 == name);
            let types: Vec<u8> = up_to_it.map(|file| file.2).collect();
            let lower = types.iter().position(|own| Some(own) == types.last());
            self.twice += 1;
            self.between += usize::from(lower.is_some_and(|lower| lower + 2 < types.len()));
        }
    }

    /// Adds other counts.
    pub fn add(&mut self, other: &Types) {
        let sums = self.calls.iter_mut().chain(&mut self.scripts).flatten();
        let mores = other.calls.iter().chain(&other.scripts).flatten();
        sums.zip(mores).for_each(|(sum, more)| *sum += more);
        self.illegal.iter_mut().zip(other.illegal).for_each(|(sum, more)| *sum += more);
        self.accepted += other.accepted;
        self.twice += other.twice;
        self.between += other.between;
        self.stayed += other.stayed;
    }
}
