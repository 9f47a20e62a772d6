//! Samples, WAV files, images and programs on standard input.

mod common;
mod sound;

use common::{Folder, Ran};
use model::files;
use model::layout::Kind;
use model::random::Random;
use skilletjay::Image;
use std::fs::File;
use std::io::Write;
use std::process::Stdio;

/// Runs sj with bytes on standard input, by a pipe.
fn fed(folder: &Folder, arguments: &[&str], bytes: &[u8]) -> Ran {
    let mut command = folder.command(arguments);
    command.stdin(Stdio::piped()).stdout(Stdio::piped()).stderr(Stdio::piped());
    let mut child = command.spawn().expect("sj runs");
    let _ = child.stdin.take().expect("a pipe").write_all(bytes); // it may have seen enough
    Ran::of(child.wait_with_output().expect("sj ends"))
}

fn sample(random: &mut Random) -> Vec<u8> {
    let mut file = files::sample(Kind::S900, 100, random);
    file[20] |= 1; // a rate
    file
}

#[test]
fn a_sample_goes_through_pipes() {
    let (folder, mut random) = (Folder::new("pipes"), Random::new(1));
    let file = sample(&mut random);
    folder.write("a", &file);
    folder.sj(&["unpack", "a", "-o", "a.wav"]).done();
    let wav = folder.read("a.wav");
    let ran = fed(&folder, &["unpack", "-", "-o", "-"], &file);
    assert_eq!((ran.status, ran.out), (Some(0), wav.clone()));
    let ran = fed(&folder, &["pack", "-", "--like", "a", "-o", "-"], &wav);
    assert_eq!((ran.status, ran.out), (Some(0), file.clone()));
    let ran = fed(&folder, &["pack", "a.wav", "--like", "-", "-o", "-"], &file);
    assert_eq!((ran.status, ran.out), (Some(0), file.clone()));
    fed(&folder, &["unpack", "-", "-o", "b.wav"], &file[..50])
        .failed(1, &["sj: standard input: ", "50 bytes"]);
    let unrated = fed(&folder, &["pack", "-", "--like", "a", "-o", "b"], &sound::wav(0, &[]));
    unrated.failed(1, &["sj: standard input: its rate is 0"]);
    let mut command = folder.command(&["unpack", "-", "-o", "-"]);
    command.stdin(File::open(folder.0.join("a")).expect("there"));
    assert_eq!(command.output().expect("sj runs").stdout, wav); // a file, not a pipe
}

#[test]
fn samples_come_out_of_an_image_on_standard_input() {
    let (folder, mut random) = (Folder::new("image-input"), Random::new(2));
    let mut image = Image::new(vec![0; 819_200]);
    for name in ["A         ", "B         "] {
        image.put(name, b'S', &sample(&mut random)).expect("room");
    }
    let told = fed(&folder, &["unpack", "-", "B"], image.bytes()).done();
    assert_eq!(told, "#1 [B] -> B.wav\n");
    let told = fed(&folder, &["unpack", "-", "--all", "-o", "out"], image.bytes()).done();
    assert_eq!(told, "#0 [A] -> A.wav\n#1 [B] -> B.wav\n2 samples unpacked\n");
    let words = "standard input is an image; name its samples";
    fed(&folder, &["unpack", "-", "-o", "c.wav"], image.bytes()).failed(2, &[words]);
}

#[test]
fn a_program_may_be_on_standard_input() {
    let (folder, mut random) = (Folder::new("program-input"), Random::new(3));
    let file = files::program(3, &mut random);
    assert_eq!(fed(&folder, &["program", "-"], &file).done(), "standard input: S1000 program, 3 keygroups\n");
    fed(&folder, &["program", "-"], &file[..300])
        .failed(1, &["sj: standard input: 3 keygroups said, 1 there"]);
}
