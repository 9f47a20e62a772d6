//! The tour's disk: accepted, with a sample and a program that are, and the same at every run.

use model::calls::{check, list, page};
use model::layout::{Density, Kind};
use model::{program, samples, tour};

fn content(image: &[u8], slot: usize) -> Vec<u8> {
    let mut content = vec![0; list(image, slot).expect("a file").length];
    assert!(page(image, slot, 0, &mut content).expect("a page").end);
    content
}

#[test]
fn the_disk_is_accepted_and_always_the_same() {
    let image = tour::disk();
    let checked = check(&image).expect("accepted");
    assert_eq!((checked.layout.kind, checked.layout.density), (Kind::S1000, Density::High));
    assert_eq!((checked.files, checked.free), (3, 1595 - 22 - 1 - 1));
    assert_eq!(image, tour::disk());
}

#[test]
fn the_sample_is_one_and_fades() {
    let file = content(&tour::disk(), 0);
    let mut words = vec![0; 11_025];
    assert_eq!(samples::unpack(Kind::S1000, &file, &mut words), Ok(11_025));
    let loudest = |words: &[i16]| words.iter().map(|word| word.unsigned_abs()).max().unwrap_or(0);
    assert!(loudest(&words[..1_000]) > 9_000);
    assert!((100..6_000).contains(&loudest(&words[10_000..])), "{}", loudest(&words[10_000..]));
}

/// Whether the loop is told by its beginning or by its end, it is inside the sample.
#[test]
fn the_loop_is_inside() {
    let file = content(&tour::disk(), 0);
    let four = |at: usize| u32::from_le_bytes([file[at], file[at + 1], file[at + 2], file[at + 3]]);
    let (words, at, length) = (four(26), four(38), four(44));
    assert!(length > 0 && length <= at && at + length <= words);
}

#[test]
fn the_program_plays_the_sample() {
    let image = tour::disk();
    let file = content(&image, 1);
    assert_eq!(program::check(&file), Ok(2));
    let sample = &content(&image, 0)[3..15];
    assert!([184, 334].iter().all(|&at| &file[at..at + 12] == sample));
}
