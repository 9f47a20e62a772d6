//! `sj pack FILE.wav --like SAMPLE -o FILE`

use super::header::Header;
use super::{SHIFT, Sample, fields, read};
use crate::arguments::{Arguments, text};
use crate::commands::put::refuse_empty;
use crate::failure::{Failure, counting, named, plain};
use crate::file_name::bad_character;
use crate::json::Object;
use crate::wav::Wav;
use crate::wav::smpl::Smpl;
use crate::{image_file, input, output, save};
use skilletjay::{SampleKind, sample};
use std::path::{Path, PathBuf};

/// What the options ask for.
pub struct Asked {
    /// The sample whose header is taken.
    pub like: PathBuf,
    /// The new name.
    pub name: Option<String>,
    /// Whether an S900's words are rounded.
    pub round: bool,
    /// Whether markers and loops are moved back to the last word.
    pub clip: bool,
}

/// Packs a WAV file to a sample file with another sample's header.
pub fn pack(arguments: &mut Arguments) -> Result<(), Failure> {
    let to = PathBuf::from(arguments.needed("-o")?);
    let asked = asked(arguments)?;
    let path = arguments.path("the WAV file")?;
    arguments.end()?;
    if path == asked.like && input::is_standard(&path) {
        return Err(Failure::usage("standard input can be one of the WAV file and --like"));
    }
    image_file::refuse_itself(&path, &to)?;
    image_file::refuse_itself(&asked.like, &to)?;
    let about = named(&path);
    let wav = Wav::read(&about, &read(&path)?)?;
    let like = Sample::of_bytes(&named(&asked.like), &read(&asked.like)?)?.header;
    let header = header_for(&like, &about, &wav, &asked)?;
    let words = words_for(like.kind, &about, &wav.words, asked.round)?;
    let packed = sample::file_of(like.kind, &header.bytes, &words).map_err(|refusal| {
        if like.kind == SampleKind::S900 && words.len() % 2 == 1 {
            let words = counting(words.len(), "word");
            let words = format!("it has {words}, and an S900 sample an even number; cut one");
            return Failure::refused_as(&about, refusal, words);
        }
        Failure::refused(&about, refusal)
    })?;
    save::save(&to, &packed)?;
    tell(arguments, &path, &to, &header)
}

fn asked(arguments: &Arguments) -> Result<Asked, Failure> {
    let name = arguments.value("--name").map(|name| text("name", name)).transpose()?;
    if let Some(name) = &name {
        refuse_empty(arguments, name)?;
    }
    let like = PathBuf::from(arguments.needed("--like")?);
    Ok(Asked { like, name, round: arguments.flag("--round"), clip: arguments.flag("--clip-loops") })
}

/// The header for a WAV's words: the other sample's, with the WAV's number and rate, its note and loops where it tells them,
/// and no marker or active loop past the words.
pub fn header_for(like: &Header, about: &str, wav: &Wav, asked: &Asked) -> Result<Header, Failure> {
    let Ok(rate) = u16::try_from(wav.rate) else {
        let words = format!("its rate is {}, and a sample's at most 65535; resample it", wav.rate);
        return Err(Failure::declined(about, words, "Resample it to 65,535 words a second or less."));
    };
    let words = wav.words.len() as u32; // the file was read up to a length that fits
    let declined = |words: String| Failure::declined(about, words, "Set it in an editor that keeps loops.");
    let mut header = like.clone();
    header.set_words(words, rate);
    if let Some(smpl) = &wav.smpl {
        let smpl = within(smpl, words, asked.clip).map_err(declined)?;
        header.take(&smpl, like, wav.rate).map_err(declined)?;
    }
    if asked.clip {
        header.clip();
    } else if let Some(past) = header.past(&plain(&named(&asked.like))) {
        let advice =
            "Give --clip-loops to move markers and loops back to the last word, or take a header that fits.";
        return Err(Failure::declined(about, format!("{past}; --clip-loops moves it back"), advice));
    }
    if let Some(name) = &asked.name {
        if let Some(words) = bad_character(like.kind.disk(), name) {
            return Err(Failure::declined(about, words, "Give a name that the sampler can show.").on(name));
        }
        header.set_name(name.trim_end());
    }
    Ok(header)
}

/// A chunk none of whose loops lies past the words: refused, or moved back to end with the last.
fn within(smpl: &Smpl, words: u32, clip: bool) -> Result<Smpl, String> {
    let mut smpl = smpl.clone();
    for (told, number) in smpl.loops.iter_mut().zip(1..) {
        if told.end <= words {
            continue;
        }
        if !clip {
            let (end, words) = (told.end, counting(words as usize, "word"));
            return Err(format!(
                "its loop {number} ends at {end}, past the {words}; --clip-loops moves it back"
            ));
        }
        told.end = words;
        if told.length >= words {
            (told.length, told.fraction) = (words, 0);
        }
    }
    smpl.loops.retain(|told| told.length > 0);
    Ok(smpl)
}

/// A sampler's words of a WAV's. An S900 has 12 bits: if the low four of 16 say something, the words are rounded only if
/// that is asked for.
pub fn words_for(kind: SampleKind, about: &str, words: &[i16], round: bool) -> Result<Vec<i16>, Failure> {
    if kind == SampleKind::S1000 {
        return Ok(words.to_vec());
    }
    let (half, lost) = (1 << (SHIFT - 1), (1 << SHIFT) - 1);
    if round {
        let rounded = |&word: &i16| word.saturating_add(half) >> SHIFT;
        return Ok(words.iter().map(rounded).collect());
    }
    if let Some(at) = words.iter().position(|word| word & lost != 0) {
        let words =
            format!("word {at} has more than the 12 bits of an S900 sample; --round rounds such words");
        let advice = "Round the words with --round, or use an S1000 header.";
        return Err(Failure::declined(about, words, advice));
    }
    Ok(words.iter().map(|word| word >> SHIFT).collect())
}

/// Told only as an object: the caller knows what was to be made.
fn tell(arguments: &Arguments, path: &Path, to: &Path, header: &Header) -> Result<(), Failure> {
    let manner = arguments.manner();
    if !manner.json || manner.quiet || input::is_standard(to) {
        return Ok(());
    }
    let object = fields(Object::new().text("file", &named(path)), header);
    output::say(&object.text("to", &to.display().to_string()).line())
}
