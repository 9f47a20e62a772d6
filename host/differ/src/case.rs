//! A case: all that one seed decides.

use crate::call::{Call, MARGIN, Outcome, by_library, by_model};
use crate::salvages::{self, Before};
use crate::types::{self, Asked};
use crate::{disks, programs, samples, scripts, spellings};
use model::layout::LAYOUTS;
use model::random::Random;
use std::fmt;

/// What a seed decides: any case, or the values of every byte of sample headers and of a program.
#[derive(Clone, Copy, Debug, PartialEq, Eq)]
pub enum Sort {
    /// [`run`]
    Any,
    /// [`run_every_byte`]
    EveryByte,
}

impl Sort {
    /// The option of `differ` that runs such a case.
    pub fn option(self) -> &'static str {
        match self {
            Sort::Any => "--seed",
            Sort::EveryByte => "--every-byte",
        }
    }
}

/// The line that runs a case again, to be typed in host/.
pub fn again(sort: Sort, seed: u64) -> String {
    format!("cargo run --offline --quiet -p differ -- {} {seed}", sort.option())
}

/// Where library and model part.
#[derive(Clone, Debug)]
pub struct Disagreement {
    /// What the seed decides.
    pub sort: Sort,
    /// Runs the case again.
    pub seed: u64,
    /// What the case was about.
    pub about: String,
    /// Which call of the case, from 0.
    pub turn: usize,
    /// The call.
    pub call: String,
    /// What differs and how.
    pub difference: String,
}

impl fmt::Display for Disagreement {
    fn fmt(&self, to: &mut fmt::Formatter) -> fmt::Result {
        writeln!(to, "library and model disagree")?;
        writeln!(to, "  seed {}: {}", self.seed, self.about)?;
        writeln!(to, "  call {}: {}", self.turn, self.call)?;
        writeln!(to, "  {}", self.difference)?;
        write!(to, "  again, in host/: {}", again(self.sort, self.seed))
    }
}

/// Calls by the number they were refused with; 0 for those that were done.
pub type Refusals = [usize; 22];

/// How many calls were made.
#[derive(Clone, Copy, Debug, Default, PartialEq, Eq)]
pub struct Tally {
    /// All of them.
    pub refusals: Refusals,
    /// Those on an image that seems to have a layout, in the order of [`LAYOUTS`].
    pub layouts: [Refusals; LAYOUTS.len()],
    /// Those that met another spelling of their name.
    pub spellings: spellings::Counts,
    /// What was met of names in several types.
    pub types: types::Counts,
    /// What salvages did.
    pub salvages: salvages::Counts,
}

impl Tally {
    /// All calls.
    pub fn calls(&self) -> usize {
        self.refusals.iter().sum()
    }

    /// Adds another tally's calls.
    pub fn add(&mut self, other: &Tally) {
        let sums = self.refusals.iter_mut().chain(self.layouts.iter_mut().flatten());
        let mores = other.refusals.iter().chain(other.layouts.iter().flatten());
        sums.zip(mores).for_each(|(sum, more)| *sum += more);
        self.spellings.iter_mut().zip(&other.spellings).for_each(|(sum, more)| sum.add(more));
        self.types.iter_mut().zip(&other.types).for_each(|(sum, more)| sum.add(more));
        self.salvages.iter_mut().zip(&other.salvages).for_each(|(sum, more)| sum.add(more));
    }
}

/// What a case comes to: its calls, or where they part.
pub type Ran = Result<Tally, Box<Disagreement>>;

/// An image lent to the library and its twin lent to the model, with margins, and the calls so far.
pub struct Case {
    sort: Sort,
    seed: u64,
    about: String,
    tally: Tally,
    library: Vec<u8>,
    model: Vec<u8>,
}

/// What is to be known of an image before a call, so that the call can be counted; layouts as their places in [`LAYOUTS`].
struct Seen {
    layout: Option<usize>,
    /// On which the call's name stands in another spelling.
    respelt: Option<usize>,
    /// What the call's name and type are there; of a script, those of each call.
    asked: Vec<Option<Asked>>,
    /// If the call is a salvage.
    mended: Option<Before>,
}

/// Tells how to run a case again that ended in a panic.
struct Panicked(Sort, u64);

impl Drop for Panicked {
    fn drop(&mut self) {
        if std::thread::panicking() {
            println!("a panic in a case; again, in host/: {}", again(self.0, self.1));
        }
    }
}

/// Runs the case of a seed.
pub fn run(seed: u64) -> Ran {
    let _panicked = Panicked(Sort::Any, seed);
    let (mut case, mut random) = (Case::new(Sort::Any, seed), Random::new(seed));
    match random.below(17) {
        0..=2 => disks::scattered(&mut case, &mut random)?,
        3 | 4 => disks::near_full(&mut case, &mut random)?,
        5 => disks::full_directory(&mut case, &mut random)?,
        6 => disks::shared(&mut case, &mut random)?,
        7 => disks::faults(&mut case, &mut random)?,
        8 => disks::damage(&mut case, &mut random)?,
        9 => disks::wrecked(&mut case, &mut random)?,
        10 => disks::noise(&mut case, &mut random)?,
        11 => scripts::run(&mut case, &mut random)?,
        12 => samples::whole(&mut case, &mut random)?,
        13 => samples::headers(&mut case, &mut random)?,
        14 => samples::wrapping(&mut case, &mut random)?,
        15 => programs::damaged(&mut case, &mut random)?,
        _ => programs::pairs(&mut case, &mut random)?,
    }
    Ok(case.tally)
}

/// Tries every value of every byte of sample headers and of a program.
pub fn run_every_byte(seed: u64) -> Ran {
    let _panicked = Panicked(Sort::EveryByte, seed);
    let (mut case, mut random) = (Case::new(Sort::EveryByte, seed), Random::new(seed));
    samples::every_byte(&mut case, &mut random)?;
    programs::every_byte(&mut case, &mut random)?;
    Ok(case.tally)
}

impl Case {
    fn new(sort: Sort, seed: u64) -> Case {
        let (about, tally) = (String::new(), Tally::default());
        Case { sort, seed, about, tally, library: Vec::new(), model: Vec::new() }
    }

    /// What the case is about, for a disagreement's report.
    pub fn about(&mut self, about: impl Into<String>) {
        self.about = about.into();
    }

    /// The image of the next calls.
    pub fn lend(&mut self, image: &[u8]) {
        for twin in [&mut self.library, &mut self.model] {
            twin.clear();
            twin.resize(MARGIN, 0xA5);
            twin.extend_from_slice(image);
            twin.resize(MARGIN + image.len() + MARGIN, 0xA5);
        }
    }

    /// The image as the model left it.
    pub fn image(&self) -> &[u8] {
        &self.model[MARGIN..self.model.len() - MARGIN]
    }

    /// Counts a file that stayed as it was when another of its name was removed.
    pub fn count_stayed(&mut self) {
        if let Some(layout) = spellings::layout_of(self.image()) {
            self.tally.types[layout].stayed += 1;
        }
    }

    /// Changes the image of the next calls.
    pub fn change(&mut self, mut change: impl FnMut(&mut [u8])) {
        let end = self.model.len() - MARGIN;
        change(&mut self.model[MARGIN..end]);
        self.library.clone_from(&self.model);
    }

    /// Makes a call both ways and compares.
    pub fn call(&mut self, call: &Call) -> Result<(), Box<Disagreement>> {
        let end = self.model.len().saturating_sub(MARGIN);
        let start = MARGIN.min(end);
        let image = &self.model[start..end];
        let layout = spellings::layout_of(image).filter(|_| call.is_on_image());
        let seen = Seen {
            layout,
            respelt: spellings::met(call, image),
            asked: layout.map_or(Vec::new(), |at| types::asked(call, image, LAYOUTS[at])),
            mended: salvages::before(call, image),
        };
        let lent = call.clone();
        let library = by_library(&lent, &mut self.library[start..end]);
        let model = by_model(call, &mut self.model[start..end]);
        let difference = if lent != *call {
            "the library changed an argument that it was lent to read".to_string()
        } else if library.given != model.given {
            format!("library {:?}\n  model   {:?}", library.given, model.given)
        } else if let Some(at) = first_apart(&library.output, &model.output) {
            format!("output at {}", told(&library.output, &model.output, at))
        } else if let Some(at) = first_apart(&library.words, &model.words) {
            format!("words at {}", told(&library.words, &model.words, at))
        } else if let Some(at) = first_apart(&library.blocks, &model.blocks) {
            format!("blocks at {}", told(&library.blocks, &model.blocks, at))
        } else if let Some(at) = first_apart(&self.library, &self.model) {
            format!("image at {}", told(&self.library, &self.model, at))
        } else {
            self.count(call, &model, &seen);
            return Ok(());
        };
        let (sort, seed, about, turn) = (self.sort, self.seed, self.about.clone(), self.tally.calls());
        Err(Box::new(Disagreement { sort, seed, about, turn, call: call.to_string(), difference }))
    }

    fn count(&mut self, call: &Call, outcome: &Outcome, seen: &Seen) {
        let refusal = outcome.given.refusal();
        self.tally.refusals[refusal as usize] += 1;
        if let Some(layout) = seen.layout {
            self.tally.layouts[layout][refusal as usize] += 1;
            self.tally.types[layout].count(&seen.asked, outcome);
            let image = &self.model[MARGIN..self.model.len() - MARGIN];
            self.tally.types[layout].count_check(image, LAYOUTS[layout], &outcome.given);
        }
        if let Some(layout) = seen.respelt {
            spellings::count(&mut self.tally.spellings, layout, call, refusal);
        }
        if let Some(before) = &seen.mended {
            salvages::count(&mut self.tally.salvages, before, refusal, &outcome.output[MARGIN..]);
        }
    }
}

/// The first place where two differ; slices are compared whole first, as that is fast.
fn first_apart<T: PartialEq>(one: &[T], other: &[T]) -> Option<usize> {
    if one == other { None } else { one.iter().zip(other).position(|(one, other)| one != other) }
}

fn told<T: fmt::Debug>(library: &[T], model: &[T], at: usize) -> String {
    let place = at as isize - MARGIN as isize;
    format!("{place}: library {:?}, model {:?}", library[at], model[at])
}
