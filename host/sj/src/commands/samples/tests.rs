//! There and back within the program, over many samples.

use super::header::Header;
use super::pack::{Asked, header_for, words_for};
use super::unpack::wav_of;
use super::*;
use crate::wav::Wav;
use crate::wav::smpl::{Loop, Smpl};
use model::files;
use model::random::Random;

const KINDS: [(SampleKind, model::layout::Kind); 2] =
    [(SampleKind::S900, model::layout::Kind::S900), (SampleKind::S1000, model::layout::Kind::S1000)];

fn asked() -> Asked {
    Asked { like: "like".into(), name: None, round: false, clip: false }
}

/// A sample whose tuning and loops are of all sorts: noise, in the words, at their edges and past them.
fn sample_file(theirs: model::layout::Kind, words: usize, random: &mut Random) -> Vec<u8> {
    let mut file = files::sample(theirs, words, random);
    let (kind, rate) =
        if theirs == model::layout::Kind::S900 { (SampleKind::S900, 20) } else { (SampleKind::S1000, 138) };
    file[rate] |= 1; // a WAV file has no rate of 0
    let mut header = Header::of_file(kind, &file);
    if kind == SampleKind::S900 {
        let any = random.below(2048) as u16;
        header.set_two(22, random.pick(&[0, 960, 967, 2047, 2048, 65_535, any]));
    } else {
        header.bytes[16] = random.below(9) as u8;
        for at in 0..8 {
            if !random.one_in(4) {
                let any = random.below(words + 1);
                let marker = random.pick(&[0, 1, words, words + 1, any]);
                let any = random.below(marker + 1);
                let coarse = random.pick(&[0, 1, marker, marker + 1, any]);
                header.set_four(38 + 12 * at, marker as u32);
                header.set_four(38 + 12 * at + 6, coarse as u32);
                header.set_two(38 + 12 * at + 10, random.pick(&[0, 1, 500, 9998, 9999, 10_000]));
            }
        }
    }
    file[..header.bytes.len()].copy_from_slice(&header.bytes);
    file
}

fn packed(wav: &Wav, like: &Header) -> Vec<u8> {
    let header = header_for(like, "a.wav", wav, &asked()).expect("it fits");
    let words = words_for(like.kind, "a.wav", &wav.words, false).expect("12 bits");
    sample::file_of(like.kind, &header.bytes, &words).expect("legal")
}

/// Whether an active loop ends past the words.
fn plays_past(header: &Header) -> bool {
    let active = if header.kind == SampleKind::S1000 { header.bytes[16].min(8) } else { 0 };
    (0..usize::from(active)).any(|at| header.four(38 + 12 * at) > header.words())
}

/// What is packed like a sample from that sample's own WAV file is that sample; or refused, where it plays past its words.
#[test]
fn samples_come_back_byte_for_byte() {
    let (mut random, mut refused) = (Random::new(21), 0);
    for turn in 0..20_000 {
        let (kind, theirs) = KINDS[turn % 2];
        let most = if random.one_in(20) { 500 } else { 8 };
        let words = 2 * random.below(most);
        let file = sample_file(theirs, words, &mut random);
        let like = Sample::of_bytes("a", &file).expect("legal").header;
        let wav = wav_of("a", Sample::of_bytes("a", &file).expect("legal")).expect("a rate");
        let back = Wav::of_bytes(&wav.to_bytes()).expect("a WAV file");
        assert_eq!(back, wav);
        if plays_past(&like) {
            assert!(header_for(&like, "a.wav", &back, &asked()).is_err(), "turn {turn}");
            refused += 1;
        } else {
            assert!(packed(&back, &like) == file, "{kind} of {words} words, turn {turn}");
        }
    }
    assert!((1_000..9_000).contains(&refused), "{refused} refused");
}

/// What is packed like one sample from another's WAV file tells the same as the other, note, loops and words.
#[test]
fn another_samples_note_and_loops_are_taken() {
    let (mut random, mut loops) = (Random::new(22), 0);
    for turn in 0..20_000 {
        let (kind, theirs) = KINDS[turn % 2];
        let words = 2 + 2 * random.below(20);
        let wav =
            wav_of("a", Sample::of_bytes("a", &sample_file(theirs, words, &mut random)).expect("legal"));
        let wav = wav.expect("a rate");
        let like = sample_file(theirs, words, &mut random);
        let mut like = Sample::of_bytes("b", &like).expect("legal").header;
        like.clip();
        if kind == SampleKind::S900 {
            like.set_four(32, 0); // its start is before any loop's end
        }
        let new = Sample::of_bytes("c", &packed(&wav, &like)).expect("legal");
        let new = wav_of("c", new).expect("a rate");
        assert_eq!((new.rate, &new.words), (wav.rate, &wav.words));
        if let Some(told) = &wav.smpl {
            let taken = new.smpl.expect("a chunk");
            assert_eq!((taken.note, taken.fraction), (told.note, told.fraction), "turn {turn}");
            assert_eq!(taken.loops.len(), told.loops.len(), "turn {turn}: {told:?} {taken:?}");
            loops += told.loops.len();
            for (taken, told) in taken.loops.iter().zip(&told.loops) {
                assert_eq!((taken.end, taken.length), (told.end, told.length));
                assert_eq!((taken.alternating, taken.fraction), (told.alternating, told.fraction));
                assert_eq!(taken.count == 0, told.count == 0);
            }
        }
    }
    assert!(loops > 5_000, "{loops} loops");
}

/// A header that was clipped is legal, whatever the loops; one that wasn't is legal or refused in words.
#[test]
fn clipped_headers_are_legal() {
    let (mut random, mut refused) = (Random::new(23), 0);
    for turn in 0..20_000 {
        let (kind, theirs) = KINDS[turn % 2];
        let like = 2 * random.below(20);
        let like = Sample::of_bytes("b", &sample_file(theirs, like, &mut random)).expect("legal").header;
        let words = vec![16; 2 * random.below(20)];
        let any = |random: &mut Random| random.pick(&[0, 1, 7, 39, u32::MAX - 1, u32::MAX]);
        let loops = (0..random.below(if kind == SampleKind::S900 { 2 } else { 9 })).map(|_| Loop {
            alternating: kind == SampleKind::S900 && random.one_in(2),
            end: 1 + any(&mut random).min(u32::MAX - 1),
            length: 1,
            fraction: any(&mut random),
            count: any(&mut random),
        });
        let mut loops: Vec<Loop> = loops.collect();
        loops.iter_mut().for_each(|told| told.length = 1 + any(&mut random).min(told.end - 1));
        let smpl = Smpl { note: random.below(128) as u8, fraction: any(&mut random), loops };
        let wav = Wav { rate: 1 + any(&mut random).min(65_534), smpl: Some(smpl), words };
        let back = Wav::of_bytes(&wav.to_bytes()).expect("a WAV file");
        assert_eq!(back, wav);
        let packs = |clip: bool| {
            let header = header_for(&like, "a.wav", &wav, &Asked { clip, ..asked() })?;
            let words = words_for(kind, "a.wav", &wav.words, false)?;
            Ok::<Vec<u8>, Failure>(sample::file_of(kind, &header.bytes, &words).expect("legal"))
        };
        let clipped = packs(true).expect("clipped");
        match packs(false) {
            Ok(file) if kind == SampleKind::S900 => {
                assert!(file == clipped, "turn {turn}: nothing was to be clipped")
            }
            Ok(_) => {}
            Err(_) => refused += 1,
        }
    }
    assert!((5_000..19_000).contains(&refused), "{refused} refused");
}

/// No bytes make it panic.
#[test]
fn damaged_wav_files_are_refused_or_read() {
    let mut random = Random::new(24);
    let file = sample_file(model::layout::Kind::S1000, 20, &mut random);
    let like = Sample::of_bytes("a", &file).expect("legal").header;
    let whole = wav_of("a", Sample::of_bytes("a", &file).expect("legal")).expect("a rate").to_bytes();
    let mut read = 0;
    for _ in 0..50_000 {
        let mut wav = whole.clone();
        for _ in 0..random.within(1, 3) {
            let at = random.below(wav.len());
            wav[at] = random.pick(&[0, 1, 2, 127, 128, 255]);
        }
        if random.one_in(4) {
            wav.truncate(random.below(wav.len()));
        }
        if let Ok(wav) = Wav::of_bytes(&wav) {
            read += 1;
            let _ = header_for(&like, "a.wav", &wav, &asked()); // refused or not
            let header = header_for(&like, "a.wav", &wav, &Asked { clip: true, ..asked() });
            let header = header.map(|header| sample::file_of(like.kind, &header.bytes, &wav.words));
            assert!(header.is_err() || header.is_ok_and(|packed| packed.is_ok()));
        }
    }
    assert!(read > 1_000, "{read} read");
}
