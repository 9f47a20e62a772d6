//! pack on WAV files that are fine and that aren't.

mod common;
mod sound;

use common::Folder;
use model::files;
use model::layout::Kind;
use model::random::Random;
use sound::{data, format, riff, set_four, smpl, wav, wav_with};

/// A folder with a sample whose header fits any words.
fn folder(name: &str) -> Folder {
    let (folder, mut random) = (Folder::new(name), Random::new(11));
    let mut like = files::sample(Kind::S1000, 10, &mut random);
    like[16] = 0;
    set_four(&mut like, 30, 0);
    set_four(&mut like, 34, 10);
    folder.write("like", &like);
    folder
}

/// Packs a WAV file; a refused one leaves nothing.
fn refused(folder: &Folder, file: &[u8], words: &[&str]) {
    folder.write("a.wav", file);
    let mut ran = folder.sj(&["pack", "a.wav", "--like", "like", "-o", "new"]);
    ran.err = ran.err.replace("\n    ", " "); // a long line is broken
    ran.failed(1, &[&["a.wav: "], words].concat());
    assert_eq!(folder.names(), ["a.wav", "like"]);
}

fn packed(folder: &Folder, file: &[u8], words: &[i16]) {
    folder.write("a.wav", file);
    folder.sj(&["pack", "a.wav", "--like", "like", "-o", "new"]).done();
    assert_eq!(folder.read("new")[150..], data(words));
    std::fs::remove_file(folder.0.join("new")).expect("there");
}

const SOME: [i16; 5] = [0, -1, i16::MIN, i16::MAX, 256];

#[test]
fn other_chunks_are_passed_over() {
    let folder = folder("wav-chunks");
    let (fmt, words, list) = ((b"fmt ", format(44_100)), (b"data", data(&SOME)), (b"LIST", b"abc".to_vec()));
    packed(&folder, &riff(&[fmt.clone(), words.clone()]), &SOME);
    packed(&folder, &riff(&[list.clone(), fmt.clone(), list.clone(), words.clone(), list.clone()]), &SOME);
    packed(&folder, &riff(&[fmt.clone(), (b"data", Vec::new())]), &[]);
    let mut unpadded = riff(&[fmt, words, list]);
    unpadded.pop();
    packed(&folder, &unpadded, &SOME);
}

/// Lengths that a program writes before it has recorded, and never came to mend.
#[test]
fn a_recording_that_was_never_finished_is_refused() {
    let folder = folder("wav-unfinished");
    let whole = wav(44_100, &[100; 500]);
    let says = ["never finished", "1,000 follow", "sox --ignore-length"];
    for data_length in [0, u32::MAX, 0x7FFF_F000] {
        for riff_length in [0, 36, u32::MAX, four_of(&whole)] {
            let mut file = whole.clone();
            set_four(&mut file, 4, riff_length);
            set_four(&mut file, 40, data_length);
            refused(&folder, &file, &says);
            file[44..].fill(0); // silence is no chunk
            refused(&folder, &file, &says);
        }
    }
    // A length from halfway, and a RIFF that is still open.
    for riff_length in [0, u32::MAX] {
        let mut file = whole.clone();
        set_four(&mut file, 4, riff_length);
        packed(&folder, &file, &[100; 500]);
        set_four(&mut file, 40, 400);
        refused(&folder, &file, &says);
    }
    // Whatever follows a length of 0 may be words, if it looks like a chunk too.
    let (fmt, list) = ((b"fmt ", format(44_100)), (b"LIST", b"abc".to_vec()));
    let empty = riff(&[fmt, (b"data", Vec::new()), list]);
    refused(&folder, &empty, &["never finished", "says 0 bytes and 12 follow"]);
    refused(&folder, &whole[..800], &["says 1,000 bytes and 756 follow"]);
}

fn four_of(file: &[u8]) -> u32 {
    sound::four(file, 4)
}

#[test]
fn formats_that_contradict_themselves_are_refused() {
    let folder = folder("wav-format");
    let with = |change: &dyn Fn(&mut Vec<u8>)| {
        let mut chunk = format(44_100);
        change(&mut chunk);
        riff(&[(b"fmt ", chunk), (b"data", data(&SOME))])
    };
    refused(&folder, &wav(0, &SOME), &["its rate is 0", "set its true rate"]);
    refused(&folder, &with(&|chunk| chunk[12] = 4), &["4 bytes a word", "anew"]);
    refused(&folder, &with(&|chunk| chunk[12] = 0), &["0 bytes a word"]);
    refused(&folder, &with(&|chunk| chunk[8] ^= 1), &["88,201 bytes a second, not 88,200"]);
    refused(&folder, &with(&|chunk| chunk[8..12].fill(0)), &["0 bytes a second"]);
    refused(&folder, &with(&|chunk| chunk[2] = 2), &["2 channels", "sox in.wav left.wav remix 1"]);
    refused(&folder, &with(&|chunk| chunk[14] = 24), &["24 bits a word", "-b 16"]);
    refused(&folder, &with(&|chunk| chunk[0] = 3), &["format 3", "signed-integer"]);
    refused(&folder, &with(&|chunk| chunk.truncate(14)), &["format chunk is too short"]);
    refused(&folder, &wav(96_000, &SOME), &["96000", "65535", "resample"]);
    refused(&folder, &wav(u32::MAX, &SOME), &["bytes a second"]);
    refused(&folder, &riff(&[(b"data", data(&SOME))]), &["no format chunk"]);
    refused(&folder, &riff(&[(b"fmt ", format(1))]), &["no data chunk"]);
    refused(&folder, &riff(&[(b"fmt ", format(1)), (b"data", vec![1; 3])]), &["ends within a word"]);
    refused(&folder, b"RIFX", &["no WAV file"]);
}

/// The sub-format is the whole of its 16 bytes.
#[test]
fn an_extensible_format_must_be_pcm() {
    let folder = folder("wav-extensible");
    let mut chunk = format(44_100);
    chunk[..2].copy_from_slice(&[0xFE, 0xFF]);
    chunk.extend([22, 0, 16, 0, 4, 0, 0, 0]);
    chunk.extend([1, 0, 0, 0, 0, 0, 0x10, 0, 0x80, 0, 0, 0xAA, 0, 0x38, 0x9B, 0x71]);
    packed(&folder, &riff(&[(b"fmt ", chunk.clone()), (b"data", data(&SOME))]), &SOME);
    for at in 24..40 {
        let mut other = chunk.clone();
        other[at] ^= 2;
        refused(&folder, &riff(&[(b"fmt ", other), (b"data", data(&SOME))]), &["extended format", "sox"]);
    }
    chunk.truncate(26);
    refused(&folder, &riff(&[(b"fmt ", chunk), (b"data", data(&SOME))]), &["extended format"]);
}

#[test]
fn a_smpl_chunk_that_is_wrong_is_refused() {
    let folder = folder("wav-smpl");
    let with = |smpl: Vec<u8>| wav_with(44_100, &SOME, smpl);
    refused(&folder, &with(smpl(128, 0, &[])), &["the note 128"]);
    refused(&folder, &with(smpl(60, 0, &[(2, 0, 3, 0, 0)])), &["loop 1 is of kind 2"]);
    refused(&folder, &with(smpl(60, 0, &[(0, 0, 3, 0, 0), (0, 3, 2, 0, 0)])), &["loop 2 ends before"]);
    refused(&folder, &with(smpl(60, 0, &[(1, 0, 3, 0, 0)])), &["loop 1 is alternating"]);
    refused(&folder, &with(smpl(60, 0, &[(0, 0, 3, 0, 0); 9])), &["9 loops", "8 at most"]);
    let mut short = smpl(60, 0, &[(0, 0, 3, 0, 0)]);
    short.pop();
    refused(&folder, &with(short.clone()), &["1 loop and has room for 0"]);
    refused(&folder, &with(short[..35].to_vec()), &["smpl chunk is too short"]);
    let whole = with(smpl(60, 0, &[]));
    refused(&folder, &whole[..whole.len() - 1], &["\"smpl\" is cut short"]);
}

/// The first bytes of a file are no WAV file, or one that is refused.
#[test]
fn a_file_cut_anywhere_is_refused() {
    let folder = folder("wav-cut");
    let file = riff(&[(b"fmt ", format(44_100)), (b"smpl", smpl(60, 0, &[])), (b"data", data(&SOME))]);
    for length in 0..file.len() {
        refused(&folder, &file[..length], &[]);
    }
}
