//! A call, made by the library and by the model.

use model::layout::{Density, Kind};
use model::{Answer, calls, program, salvage, samples, script};
use skilletjay::lend;
use skilletjay::raw::{Checked, Counted, Done, Found, Listed, Paged};
use std::fmt;

/// Bytes or words on either side of what is lent, which no call may touch. It is odd, so that images and outputs begin at
/// odd addresses.
pub const MARGIN: usize = 17;

/// A call with its arguments, which may be anything. What is written to, `output`, `report` and the `words` of Unpack, has
/// a margin on either side.
#[derive(Clone, PartialEq, Eq)]
#[allow(missing_docs)]
pub enum Call {
    Check,
    List { slot: usize },
    Find { name: Vec<u8>, file_type: u8 },
    Page { slot: usize, offset: usize, output: Vec<u8> },
    Blocks { slot: usize, output: Vec<u16> },
    Put { name: Vec<u8>, file_type: u8, content: Vec<u8> },
    Remove { name: Vec<u8>, file_type: u8 },
    Salvage { report: Vec<u8> },
    Run { script: Vec<u8>, pool: Vec<u8>, output: Vec<u8> },
    Unpack { kind: Kind, file: Vec<u8>, words: Vec<i16> },
    Pack { kind: Kind, header: Vec<u8>, words: Vec<i16>, output: Vec<u8> },
    Program { file: Vec<u8> },
}

impl Call {
    /// Whether it is made on an image, and not on a file.
    pub fn is_on_image(&self) -> bool {
        !matches!(self, Call::Unpack { .. } | Call::Pack { .. } | Call::Program { .. })
    }

    /// The name and the type by which it tells a file, if it does.
    pub fn file(&self) -> Option<(&[u8], u8)> {
        match self {
            Call::Find { name, file_type }
            | Call::Put { name, file_type, .. }
            | Call::Remove { name, file_type } => Some((name, *file_type)),
            _ => None,
        }
    }
}

/// What a call gave, as C sees it.
#[derive(Clone, Copy, Debug, PartialEq, Eq)]
#[allow(missing_docs)]
pub enum Given {
    Checked(Checked),
    Listed(Listed),
    Found(Found),
    Paged(Paged),
    Done(Done),
    Counted(Counted),
    /// Calls of a script.
    Made(usize),
}

impl Given {
    /// The number that the call was refused with, or 0.
    pub fn refusal(&self) -> u32 {
        match self {
            Given::Checked(Checked { refusal, .. })
            | Given::Listed(Listed { refusal, .. })
            | Given::Found(Found { refusal, .. })
            | Given::Paged(Paged { refusal, .. })
            | Given::Done(Done { refusal, .. })
            | Given::Counted(Counted { refusal, .. }) => *refusal,
            Given::Made(_) => 0,
        }
    }
}

/// What a call gave and what it left in the output that it was lent.
#[derive(Clone, Debug, PartialEq, Eq)]
pub struct Outcome {
    /// The answer.
    pub given: Given,
    /// The output, or the report, with its margins.
    pub output: Vec<u8>,
    /// The output of words with its margins.
    pub words: Vec<i16>,
    /// The output of block numbers with its margins.
    pub blocks: Vec<u16>,
}

/// The part of an output that is lent.
fn lent<T>(output: &mut [T]) -> &mut [T] {
    let end = output.len() - MARGIN;
    &mut output[MARGIN..end]
}

/// Makes a call with the library.
pub fn by_library(call: &Call, image: &mut [u8]) -> Outcome {
    let (mut out, mut out_words, mut out_blocks) = (Vec::new(), Vec::new(), Vec::new());
    let given = match call {
        Call::Check => Given::Checked(lend::check(image)),
        Call::List { slot } => Given::Listed(lend::list(image, *slot)),
        Call::Find { name, file_type } => Given::Found(lend::find(image, name, *file_type)),
        Call::Page { slot, offset, output } => {
            out.clone_from(output);
            Given::Paged(lend::page(image, *slot, *offset, lent(&mut out)))
        }
        Call::Blocks { slot, output } => {
            out_blocks.clone_from(output);
            Given::Counted(lend::blocks(image, *slot, lent(&mut out_blocks)))
        }
        Call::Put { name, file_type, content } => Given::Found(lend::put(image, name, *file_type, content)),
        Call::Remove { name, file_type } => Given::Done(lend::remove(image, name, *file_type)),
        Call::Salvage { report } => {
            out.clone_from(report);
            Given::Counted(lend::salvage(image, lent(&mut out)))
        }
        Call::Run { script, pool, output } => {
            out.clone_from(output);
            Given::Made(lend::run(image, script, pool, lent(&mut out)))
        }
        Call::Unpack { kind, file, words } => {
            out_words.clone_from(words);
            let unpack = if *kind == Kind::S900 { lend::s900_unpack } else { lend::s1000_unpack };
            Given::Counted(unpack(file, lent(&mut out_words)))
        }
        Call::Pack { kind, header, words, output } => {
            out.clone_from(output);
            let pack = if *kind == Kind::S900 { lend::s900_pack } else { lend::s1000_pack };
            Given::Counted(pack(header, words, lent(&mut out)))
        }
        Call::Program { file } => Given::Counted(lend::program(file)),
    };
    Outcome { given, output: out, words: out_words, blocks: out_blocks }
}

/// Makes a call with the model, its answer put as C would see it.
pub fn by_model(call: &Call, image: &mut [u8]) -> Outcome {
    let (mut out, mut out_words, mut out_blocks) = (Vec::new(), Vec::new(), Vec::new());
    let given = match call {
        Call::Check => Given::Checked(checked(calls::check(image))),
        Call::List { slot } => Given::Listed(listed(calls::list(image, *slot))),
        Call::Find { name, file_type } => Given::Found(found(calls::find(image, name, *file_type))),
        Call::Page { slot, offset, output } => {
            out.clone_from(output);
            Given::Paged(paged(calls::page(image, *slot, *offset, lent(&mut out))))
        }
        Call::Blocks { slot, output } => {
            out_blocks.clone_from(output);
            Given::Counted(counted(calls::blocks(image, *slot, lent(&mut out_blocks))))
        }
        Call::Put { name, file_type, content } => {
            Given::Found(found(calls::put(image, name, *file_type, content)))
        }
        Call::Remove { name, file_type } => Given::Done(done(calls::remove(image, name, *file_type))),
        Call::Salvage { report } => {
            out.clone_from(report);
            Given::Counted(counted(salvage::salvage(image, lent(&mut out))))
        }
        Call::Run { script: entries, pool, output } => {
            out.clone_from(output);
            Given::Made(script::run(image, entries, pool, lent(&mut out)))
        }
        Call::Unpack { kind, file, words } => {
            out_words.clone_from(words);
            Given::Counted(counted(samples::unpack(*kind, file, lent(&mut out_words))))
        }
        Call::Pack { kind, header, words, output } => {
            out.clone_from(output);
            Given::Counted(counted(samples::pack(*kind, header, words, lent(&mut out))))
        }
        Call::Program { file } => Given::Counted(counted(program::check(file))),
    };
    Outcome { given, output: out, words: out_words, blocks: out_blocks }
}

fn checked(answer: Answer<calls::Checked>) -> Checked {
    match answer {
        Err(refusal) => Checked { refusal: refusal.number, place: refusal.place, ..Checked::default() },
        Ok(calls::Checked { layout, files, free }) => Checked {
            refusal: 0,
            place: 0,
            kind: match layout.kind {
                Kind::S900 => 900,
                Kind::S1000 => 1000,
                Kind::S3000 => 3000,
            },
            density: u32::from(layout.density == Density::High),
            files,
            free,
        },
    }
}

fn listed(answer: Answer<calls::Listed>) -> Listed {
    match answer {
        Err(refusal) => Listed { refusal: refusal.number, place: refusal.place, ..Listed::default() },
        Ok(calls::Listed { name, file_type, length }) => {
            let mut twelve = [0; 12];
            twelve[..name.len()].copy_from_slice(&name);
            Listed { refusal: 0, place: 0, name: twelve, file_type, length }
        }
    }
}

fn found(answer: Answer<usize>) -> Found {
    match answer {
        Err(refusal) => Found { refusal: refusal.number, place: refusal.place, slot: 0 },
        Ok(slot) => Found { refusal: 0, place: 0, slot },
    }
}

fn paged(answer: Answer<calls::Paged>) -> Paged {
    match answer {
        Err(refusal) => Paged { refusal: refusal.number, place: refusal.place, ..Paged::default() },
        Ok(calls::Paged { count, end }) => Paged { refusal: 0, place: 0, count, end: u8::from(end) },
    }
}

fn done(answer: Answer<()>) -> Done {
    match answer {
        Err(refusal) => Done { refusal: refusal.number, place: refusal.place },
        Ok(()) => Done::default(),
    }
}

fn counted(answer: Answer<usize>) -> Counted {
    match answer {
        Err(refusal) => Counted { refusal: refusal.number, place: refusal.place, count: 0 },
        Ok(count) => Counted { refusal: 0, place: 0, count },
    }
}

impl fmt::Display for Call {
    fn fmt(&self, to: &mut fmt::Formatter) -> fmt::Result {
        let text = |bytes: &[u8]| format!("\"{}\"", bytes.escape_ascii());
        match self {
            Call::Check => write!(to, "check"),
            Call::List { slot } => write!(to, "list slot {slot}"),
            Call::Find { name, file_type } => write!(to, "find {} type {file_type}", text(name)),
            Call::Page { slot, offset, output } => {
                write!(to, "page slot {slot} offset {offset} output {}", output.len() - 2 * MARGIN)
            }
            Call::Blocks { slot, output } => {
                write!(to, "blocks slot {slot} output {}", output.len() - 2 * MARGIN)
            }
            Call::Put { name, file_type, content } => {
                write!(to, "put {} type {file_type} content {}", text(name), content.len())
            }
            Call::Remove { name, file_type } => write!(to, "remove {} type {file_type}", text(name)),
            Call::Salvage { report } => write!(to, "salvage report {}", report.len() - 2 * MARGIN),
            Call::Run { script, pool, output } => {
                let (script, pool, output) = (script.len(), pool.len(), output.len() - 2 * MARGIN);
                write!(to, "run script {script} pool {pool} output {output}")
            }
            Call::Unpack { kind, file, words } => {
                write!(to, "unpack {kind:?} file {} words {}", file.len(), words.len() - 2 * MARGIN)
            }
            Call::Pack { kind, header, words, output } => {
                let (header, words, output) = (header.len(), words.len(), output.len() - 2 * MARGIN);
                write!(to, "pack {kind:?} header {header} words {words} output {output}")
            }
            Call::Program { file } => write!(to, "program file {}", file.len()),
        }
    }
}
