//! `sj unpack SAMPLE -o FILE.wav`, `sj unpack IMAGE NAME|'#SLOT'..` and `sj unpack IMAGE --all -o DIR`

use super::{SHIFT, Sample, fields, read};
use crate::arguments::Arguments;
use crate::commands::into::Out;
use crate::failure::{Failure, counting, named, plain};
use crate::file_type::{self, Typed};
use crate::image_file::{self, Opened};
use crate::json::Object;
use crate::progress::Progress;
use crate::select::Files;
use crate::wav::Wav;
use crate::{input, output, outside, save};
use skilletjay::{Entry, Image, SampleKind};
use std::path::{Path, PathBuf};

/// Unpacks a sample file, or samples of an image, to WAV files.
pub fn unpack(arguments: &mut Arguments) -> Result<(), Failure> {
    if arguments.flag("--all") || arguments.left() > 1 { from_image(arguments) } else { from_file(arguments) }
}

fn from_file(arguments: &mut Arguments) -> Result<(), Failure> {
    let manner = arguments.manner();
    let path = arguments.path("the sample file")?;
    let to = PathBuf::from(arguments.needed("-o")?);
    image_file::refuse_itself(&path, &to)?;
    let sample = sample_in(&path)?;
    if arguments.flag("--type") {
        return Err(Failure::usage("--type is for samples on an image, and a sample file has none"));
    }
    let object = fields(Object::new().text("file", &named(&path)), &sample.header);
    save::save(&to, &wav_of(&named(&path), sample)?.to_bytes())?;
    if !manner.json || manner.quiet || input::is_standard(&to) {
        return Ok(()); // the caller knows where it is
    }
    output::say(&object.text("to", &to.display().to_string()).line())
}

/// The sample in a file; whoever gives an image is told what is missing.
fn sample_in(path: &Path) -> Result<Sample, Failure> {
    let (about, file) = (named(path), read(path)?);
    Sample::of_bytes(&about, &file).map_err(|failure| match Image::new(&file[..]).check() {
        Ok(_) => Failure::usage(format!("{} is an image; name its samples, or give --all", plain(&about))),
        Err(_) => failure,
    })
}

fn from_image(arguments: &mut Arguments) -> Result<(), Failure> {
    let to = arguments.value("-o").map(PathBuf::from);
    let (manner, force) = (arguments.manner(), arguments.flag("--force"));
    let typed = Typed::asked(arguments)?;
    let path = arguments.path("the image")?;
    let opened = Opened::new(&path)?;
    let about = named(&path);
    let out = Out { path, manner, force };
    if arguments.flag("--all") {
        arguments.end()?;
        let folder = to.ok_or_else(|| Failure::usage("--all needs -o DIR"))?;
        let entries = samples(&about, &opened.image(), typed)?;
        return several(&out, opened, &entries, &folder);
    }
    let words = arguments.some("the sample's name or '#slot'")?;
    let chosen = Files::of(&about, &opened.image(), typed)?.samples_first().chosen(words)?;
    match (&chosen.entries[..], chosen.single) {
        ([entry], true) => one(&out, opened, entry, to.as_deref()),
        (entries, _) => several(&out, opened, entries, to.as_deref().unwrap_or(Path::new("."))),
    }
}

/// The files whose type is a sample's, or the one that is asked for.
fn samples(about: &str, image: &Image<&[u8]>, typed: Option<Typed>) -> Result<Vec<Entry>, Failure> {
    let files = Files::of(about, image, typed)?;
    let mut entries = files.all()?;
    entries.retain(|entry| typed.is_some() || entry.file_type == file_type::of_samples(files.kind));
    Ok(entries)
}

fn one(out: &Out, mut opened: Opened, entry: &Entry, to: Option<&Path>) -> Result<(), Failure> {
    let file = out.file(entry, to, outside::wav_name)?;
    save::save(&file, &wav_on(out, &mut opened, entry)?)?;
    out.tell(entry, &file, to.is_none())
}

/// A sample that is refused is told and passed over; a file that can't be read or written ends the run.
fn several(out: &Out, mut opened: Opened, entries: &[Entry], folder: &Path) -> Result<(), Failure> {
    let files = out.files(entries, folder, outside::wav_name)?;
    let (mut done, mut progress) = (0, Progress::new(entries.len()));
    for (entry, to) in entries.iter().zip(&files) {
        match wav_on(out, &mut opened, entry).and_then(|wav| save::save(to, &wav)) {
            Ok(()) => {
                done += 1;
                progress.before_line();
                out.tell(entry, to, true)?;
            }
            Err(failure) if failure.number() == 1 => {
                progress.clear();
                failure.tell(out.manner);
            }
            Err(failure) => {
                let all = counting(entries.len(), "sample");
                return Err(failure.and(format!("{done} of {all} unpacked before")));
            }
        }
        progress.step();
    }
    drop(progress);
    close(out, done, entries.len() - done)
}

/// Counts at the end of several.
fn close(out: &Out, done: usize, refused: usize) -> Result<(), Failure> {
    if out.manner.json && !out.manner.quiet {
        output::say(&Object::new().number("unpacked", done).number("refused", refused).line())?;
    } else if !out.manner.quiet {
        let refused = if refused == 0 { String::new() } else { format!(", {refused} refused") };
        output::say(&format!("{} unpacked{refused}\n", counting(done, "sample")))?;
    }
    if refused == 0 { Ok(()) } else { Err(Failure::told(1)) }
}

/// The WAV file of a sample on an image, of which only the sample's own blocks are read.
fn wav_on(out: &Out, opened: &mut Opened, entry: &Entry) -> Result<Vec<u8>, Failure> {
    let about = named(&out.path);
    opened.fetch_file(entry.slot)?;
    let file = opened.image().read(entry.slot).map_err(|refusal| Failure::refused(&about, refusal))?;
    let wav = Sample::of_bytes(&about, &file).and_then(|sample| wav_of(&about, sample));
    wav.map(|wav| wav.to_bytes()).map_err(|failure| failure.on_entry(entry))
}

/// A sample as a WAV file; an S900's words fill the upper bits.
pub fn wav_of(about: &str, sample: Sample) -> Result<Wav, Failure> {
    let Sample { header, mut words } = sample;
    if header.rate() == 0 {
        let advice =
            "Set the rate in the sample's header, on a sampler or at offset 20 (S900) or 138 (S1000).";
        return Err(Failure::declined(about, "its rate is 0, and a WAV file needs one; set it", advice));
    }
    if header.kind == SampleKind::S900 {
        words.iter_mut().for_each(|word| *word <<= SHIFT);
    }
    Ok(Wav { rate: header.rate().into(), smpl: header.smpl(), words })
}
