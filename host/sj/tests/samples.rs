//! Samples straight from images; names, rounding, root notes and loops.

mod common;
mod sound;

use common::Folder;
use model::files;
use model::layout::Kind;
use model::random::Random;
use skilletjay::Image;
use sound::{Loop, chunk, data, format, four, riff, set_four, smpl, told, wav, wav_with, within};
use std::fs;

/// A legal sample that can be a WAV file: its rate isn't 0.
fn sample(kind: Kind, words: usize, random: &mut Random) -> Vec<u8> {
    let mut file = files::sample(kind, words, random);
    file[if kind == Kind::S900 { 20 } else { 138 }] |= 1;
    file
}

/// An S1000 disk with samples, a program and a damaged sample; and its files.
fn disk(random: &mut Random) -> (Vec<u8>, Vec<Vec<u8>>) {
    let mut bytes = vec![0; 1_638_400];
    for slot in 0..64 {
        bytes[24 * slot + 23] = 3;
    }
    for block in 0..5 {
        bytes[1536 + 2 * block..][..2].copy_from_slice(&16_384u16.to_le_bytes());
    }
    let mut image = Image::new(bytes);
    let mut files = vec![
        sample(Kind::S1000, 1000, random),
        files::program(2, random),
        sample(Kind::S1000, 500, random),
        sample(Kind::S1000, 20, random),
    ];
    files[2][19] = 7; // a loop mode that isn't
    let names = ["BASS C2     ", "PIANO       ", "BROKEN      ", "BASS C3     "];
    for ((name, file_type), file) in names.iter().zip(b"spss").zip(&files) {
        image.put(name, *file_type, file).expect("room");
    }
    (image.into_bytes(), files)
}

const BROKEN: &str =
    "a.img: #2 [BROKEN]: as S1000 (first byte 3): loop mode is 7, not 0 to 3 (refusal 18, offset 19)";

/// The words of an S1000 sample file.
fn words(file: &[u8]) -> Vec<u8> {
    file[150..].to_vec()
}

#[test]
fn a_sample_is_unpacked_straight_from_an_image() {
    let (folder, (image, files)) = (Folder::new("unpack-one"), disk(&mut Random::new(1)));
    folder.write("a.img", &image);
    assert_eq!(folder.sj(&["unpack", "a.img", "BASS C2"]).done(), "#0 [BASS C2] -> BASS C2.wav\n");
    let first = folder.read("BASS C2.wav");
    assert_eq!(chunk(&first, b"data"), Some(words(&files[0])));
    folder.sj(&["unpack", "a.img", "#0"]).failed(2, &["BASS C2.wav is there already", "--force replaces it"]);
    folder.sj(&["unpack", "a.img", "#0", "--force", "--quiet"]).done();
    assert_eq!(folder.sj(&["unpack", "a.img", "#3", "-o", "BASS C2.wav"]).done(), "");
    assert_eq!(chunk(&folder.read("BASS C2.wav"), b"data"), Some(words(&files[3])));
    assert_eq!(folder.sj(&["unpack", "a.img", "#0", "-o", "-"]).out, first);
    let json = folder.sj(&["unpack", "a.img", "#0", "-o", "x.wav", "--json"]).done();
    let expected = "{\"file\":\"a.img\",\"slot\":0,\"name\":\"BASS C2\",\"stored\":\"BASS C2     \",\"type\":\"s\",\"type_byte\":115,\
                    \"length\":2150,\"to\":\"x.wav\"}\n";
    assert_eq!((json.as_str(), folder.read("x.wav")), (expected, first));
    folder.sj(&["unpack", "a.img", "BROKEN"]).failed(1, &[BROKEN]);
    folder
        .sj(&["unpack", "a.img", "PIANO"])
        .failed(1, &["#1 [PIANO]: as S900 (first byte not 3): ", "refusal 18"]);
    folder.sj(&["unpack", "a.img", "NONE"]).failed(1, &["NONE", "refusal 10"]);
    folder.sj(&["unpack", "a.img", "#0", "-o", "a.img"]).failed(2, &["a.img is the file that is read"]);
    folder.sj(&["unpack", "a.img", "-o", "b.wav"]).failed(2, &["a.img is an image", "--all"]);
    assert_eq!(folder.names(), ["BASS C2.wav", "a.img", "x.wav"]);
    assert!(folder.read("a.img") == image);
}

/// One refused sample doesn't keep the others from being unpacked.
#[test]
fn all_samples_of_an_image_are_unpacked() {
    let (folder, (image, files)) = (Folder::new("unpack-all"), disk(&mut Random::new(2)));
    folder.write("a.img", &image);
    let ran = folder.sj(&["unpack", "a.img", "--all", "-o", "out"]);
    let lines = "#0 [BASS C2] -> BASS C2.wav\n#3 [BASS C3] -> BASS C3.wav\n2 samples unpacked, 1 refused\n";
    assert_eq!((ran.status, String::from_utf8(ran.out).expect("text").as_str()), (Some(1), lines));
    assert_eq!(ran.err.lines().collect::<Vec<_>>(), [format!("sj: {BROKEN}")]);
    let out = Folder(folder.0.join("out"));
    assert_eq!(out.names(), ["BASS C2.wav", "BASS C3.wav"]);
    assert_eq!(chunk(&out.read("BASS C3.wav"), b"data"), Some(words(&files[3])));
    let again = folder.sj(&["unpack", "a.img", "--all", "-o", "out"]);
    again.failed(2, &["BASS C2.wav is there already"]);
    let ran = folder.sj(&["unpack", "a.img", "--all", "-o", "out", "--force", "--quiet"]);
    assert_eq!((ran.status, ran.out.len(), ran.err.lines().count()), (Some(1), 0, 1));
    let ran = folder.sj(&["unpack", "a.img", "--all", "-o", "out", "--force", "--json"]);
    let text = String::from_utf8(ran.out).expect("text");
    assert_eq!((text.lines().count(), ran.err.as_str()), (4, ""));
    assert!(text.ends_with("{\"unpacked\":2,\"refused\":1}\n") && text.contains("\"refusal\":18"), "{text}");
    folder.sj(&["unpack", "a.img", "--all"]).failed(2, &["-o DIR"]);
    folder.sj(&["unpack", "a.img", "--all", "-o", "-"]).failed(2, &["a folder", "-o DIR"]);
    folder.sj(&["unpack", "a.img", "BASS C2", "--all", "-o", "out"]).failed(2, &["too many"]);
}

#[test]
fn patterns_and_several_names_go_into_a_folder() {
    let (folder, (image, _)) = (Folder::new("unpack-several"), disk(&mut Random::new(3)));
    folder.write("a.img", &image);
    let told = folder.sj(&["unpack", "a.img", "BASS*", "-o", "out"]).done();
    assert_eq!(told, "#0 [BASS C2] -> BASS C2.wav\n#3 [BASS C3] -> BASS C3.wav\n2 samples unpacked\n");
    let ran = folder.sj(&["unpack", "a.img", "BROKEN", "#3", "PIANO"]);
    assert_eq!((ran.status, ran.err.matches("sj: a.img: ").count()), (Some(1), 2));
    let out = String::from_utf8(ran.out).expect("text");
    assert_eq!(out, "#3 [BASS C3] -> BASS C3.wav\n1 sample unpacked, 2 refused\n");
    assert_eq!(folder.names(), ["BASS C3.wav", "a.img", "out"]);
}

/// The type S is an S900 disk's samples'; a folder that can't be written to ends the run.
#[test]
fn an_s900_disk_has_samples_of_type_s() {
    let (folder, mut random) = (Folder::new("unpack-900"), Random::new(4));
    let mut image = Image::new(vec![0; 819_200]);
    image.put("a/b       ", b'S', &sample(Kind::S900, 4, &mut random)).expect("room");
    image.put("A_B       ", b'S', &sample(Kind::S900, 6, &mut random)).expect("room");
    image.put("KIT       ", b'P', &[1; 60]).expect("room");
    folder.write("a.img", image.bytes());
    let told = folder.sj(&["unpack", "a.img", "--all", "-o", "out"]).done();
    assert_eq!(told, "#0 [a/b] -> a_b.wav\n#1 [A_B] -> 1-A_B.wav\n2 samples unpacked\n");
    fs::create_dir(folder.0.join("blocked")).expect("made");
    fs::create_dir(folder.0.join("blocked/1-A_B.wav")).expect("made");
    let ran = folder.sj(&["unpack", "a.img", "--all", "-o", "blocked", "--force"]);
    assert_eq!(ran.status, Some(2));
    assert!(ran.err.replace("\n    ", " ").contains("1 of 2 samples unpacked before"), "{}", ran.err);
}

/// Every sample there and back through the command, S900 and S1000, with loops of noise that end in the words.
#[test]
fn samples_of_both_kinds_come_back() {
    let (folder, mut random) = (Folder::new("back"), Random::new(5));
    for turn in 0..60 {
        let kind = [Kind::S900, Kind::S1000][turn % 2];
        let words = 2 * random.below(200);
        let file = within(kind, words, sample(kind, words, &mut random));
        folder.write("a", &file);
        folder.sj(&["unpack", "a", "-o", "a.wav"]).done();
        folder.sj(&["pack", "a.wav", "--like", "a", "-o", "b"]).done();
        assert!(folder.read("b") == file, "{kind:?} {words}");
    }
}

/// An S1000 sample of 100 words with a root note, a mode and loops: marker, fine, coarse, time.
fn s1000(root: u8, mode: u8, loops: &[(u32, u16, u32, u16)], random: &mut Random) -> Vec<u8> {
    let mut file = sample(Kind::S1000, 100, random);
    (file[2], file[16], file[19]) = (root, loops.len() as u8, mode);
    set_four(&mut file, 34, 100);
    set_four(&mut file, 30, 0);
    file[138..140].copy_from_slice(&10_000u16.to_le_bytes());
    for (at, &(marker, fine, coarse, time)) in loops.iter().enumerate() {
        let from = 38 + 12 * at;
        set_four(&mut file, from, marker);
        file[from + 4..from + 6].copy_from_slice(&fine.to_le_bytes());
        set_four(&mut file, from + 6, coarse);
        file[from + 10..from + 12].copy_from_slice(&time.to_le_bytes());
    }
    file
}

/// An S900 sample of 100 words: tuning, mode, end and loop length.
fn s900(tuning: u16, mode: u8, end: u32, length: u32, random: &mut Random) -> Vec<u8> {
    let mut file = sample(Kind::S900, 100, random);
    file[22..24].copy_from_slice(&tuning.to_le_bytes());
    file[26] = mode;
    set_four(&mut file, 28, end);
    set_four(&mut file, 32, 0);
    set_four(&mut file, 36, length);
    file
}

/// What unpacking a file tells.
fn unpacked(folder: &Folder, file: &[u8]) -> Option<(u32, u32, Vec<Loop>)> {
    folder.write("a", file);
    folder.sj(&["unpack", "a", "-o", "a.wav"]).done();
    told(&folder.read("a.wav"))
}

#[test]
fn loops_and_root_notes_are_told_in_a_smpl_chunk() {
    let (folder, mut random) = (Folder::new("smpl-out"), Random::new(6));
    let loops =
        [(50, 0x8000, 20, 9999), (100, 0, 100, 500), (60, 0, 10, 0), (101, 0, 3, 9999), (5, 0, 6, 9999)];
    let file = s1000(64, 1, &loops, &mut random);
    // The third isn't played, the fourth ends past the words, the fifth begins before them.
    let expected = vec![(0, 30, 49, 0x8000_0000, 0), (0, 0, 99, 0, 50)];
    assert_eq!(unpacked(&folder, &file), Some((64, 0, expected)));
    assert_eq!(unpacked(&folder, &s1000(0, 2, &loops, &mut random)), Some((0, 0, vec![])));
    assert_eq!(unpacked(&folder, &s1000(127, 0, &[], &mut random)), Some((127, 0, vec![])));
    let s900 = |tuning, mode, random: &mut Random| s900(tuning, mode, 80, 30, random);
    assert_eq!(unpacked(&folder, &s900(960, b'L', &mut random)), Some((60, 0, vec![(0, 50, 79, 0, 0)])));
    assert_eq!(
        unpacked(&folder, &s900(968, b'A', &mut random)),
        Some((60, 1 << 31, vec![(1, 50, 79, 0, 0)]))
    );
    assert_eq!(unpacked(&folder, &s900(967, b'O', &mut random)), Some((60, 7 << 28, vec![])));
    assert_eq!(unpacked(&folder, &s900(5000, b'L', &mut random)), Some((60, 0, vec![(0, 50, 79, 0, 0)])));
    assert_eq!(unpacked(&folder, &s900(5000, b'O', &mut random)), None);
}

/// Packs 100 words with a smpl chunk like a sample.
fn packed(folder: &Folder, smpl: Vec<u8>, like: &[u8]) -> Vec<u8> {
    folder.write("like", like);
    folder.write("in.wav", &wav_with(10_000, &[16; 100], smpl));
    folder.sj(&["pack", "in.wav", "--like", "like", "-o", "new"]).done();
    folder.read("new")
}

#[test]
fn an_s1000_takes_the_note_and_the_loops_of_a_smpl_chunk() {
    let (folder, mut random) = (Folder::new("smpl-in"), Random::new(7));
    let like = s1000(60, 2, &[(50, 7, 20, 300)], &mut random);
    let loops = [(0, 10, 19, 0xC000_FFFF, 0), (0, 0, 99, 0, 2), (0, 5, 5, 0, u32::MAX)];
    let new = packed(&folder, smpl(72, 0, &loops), &like);
    let mut expected = like[..150].to_vec();
    (expected[2], expected[16], expected[19]) = (72, 3, 0);
    let held = [(20u32, 0xC000u16, 10u32, 9999u16), (100, 0, 100, 20), (6, 0, 1, 9998)];
    for (at, (marker, fine, coarse, time)) in held.into_iter().enumerate() {
        let bytes =
            [&marker.to_le_bytes()[..], &fine.to_le_bytes(), &coarse.to_le_bytes(), &time.to_le_bytes()];
        expected[38 + 12 * at..][..12].copy_from_slice(&bytes.concat());
    }
    assert_eq!(new[..150], expected);
    assert_eq!(
        told(&{
            unpacked(&folder, &new);
            folder.read("a.wav")
        })
        .map(|told| told.2.len()),
        Some(3)
    );
    // Without loops none is active; the mode stays.
    let like = s1000(60, 1, &[(50, 7, 20, 300)], &mut random);
    let new = packed(&folder, smpl(60, 0, &[]), &like);
    assert_eq!((new[16], new[19], &new[38..50]), (0, 1, &like[38..50]));
    // A fraction goes to the cents of the nearest note.
    for (fraction, root, cents) in [(1 << 30, 60, -25), (1 << 31, 60, -50), (3 << 30, 61, 25)] {
        let new = packed(&folder, smpl(60, fraction, &[]), &like);
        assert_eq!((new[2], new[20] as i8), (root, cents), "{fraction:x}");
    }
}

/// A loop that is as it was keeps its bytes, also where another is new.
#[test]
fn loops_that_stay_keep_their_bytes() {
    let (folder, mut random) = (Folder::new("smpl-same"), Random::new(8));
    let like = s1000(60, 1, &[(50, 7, 20, 301), (200, 0, 5, 9999), (90, 1, 3, 77)], &mut random);
    let (_, _, mut loops) = unpacked(&folder, &like).expect("told");
    assert_eq!(loops.len(), 2);
    loops.swap(0, 1);
    loops.push((0, 1, 2, 0, 0));
    let new = packed(&folder, smpl(60, 0, &loops), &like);
    assert_eq!((new[16], &new[38..50], &new[50..62]), (3, &like[62..74], &like[38..50]));
}

#[test]
fn an_s900_takes_the_note_and_the_loop_of_a_smpl_chunk() {
    let (folder, mut random) = (Folder::new("smpl-900"), Random::new(9));
    let like = s900(960, b'O', 100, 0, &mut random);
    for (kind, mode) in [(0, b'L'), (1, b'A')] {
        let new = packed(&folder, smpl(48, 1 << 31, &[(kind, 20, 59, 0, 0)]), &like);
        assert_eq!((new[22..24].to_vec(), new[26]), ((16 * 48 + 8u16).to_le_bytes().to_vec(), mode));
        assert_eq!([28, 32, 36].map(|at| four(&new, at)), [60, 0, 40]);
    }
    let like = s900(960, b'A', 70, 30, &mut random);
    let new = packed(&folder, smpl(60, 0, &[]), &like);
    assert_eq!((new[26], [28, 36].map(|at| four(&new, at))), (b'O', [70, 30]));
    folder.write("in.wav", &wav_with(10_000, &[16; 100], smpl(60, 0, &[(0, 0, 9, 0, 0); 2])));
    let pack = ["pack", "in.wav", "--like", "like", "-o", "b"];
    folder.sj(&pack).failed(1, &["2 loops", "an S900 sample one"]);
    // The loop ends where the chunk says, though the end was after the last word.
    let whole = s900(960, b'L', 100, 30, &mut random);
    folder.write("like", &whole);
    folder.write("in.wav", &wav_with(10_000, &[16; 200], smpl(60, 0, &[(0, 70, 99, 0, 0)])));
    folder.sj(&pack).done();
    assert_eq!([16, 28, 36].map(|at| four(&folder.read("b"), at)), [200, 100, 30]);
    let mut late = whole.clone();
    set_four(&mut late, 32, 90);
    folder.write("like", &late);
    folder.write("in.wav", &wav_with(10_000, &[16; 100], smpl(60, 0, &[(0, 0, 79, 0, 0)])));
    folder.sj(&pack).failed(1, &["the start marker of like is 90, past the end at 80"]);
}

/// Loops past the last word, the header's or the chunk's, are refused or moved back with their length.
#[test]
fn loops_past_the_words_are_refused_or_clipped() {
    let (folder, mut random) = (Folder::new("clip"), Random::new(10));
    let pack = ["pack", "in.wav", "--like", "like", "-o", "new"];
    let clip = [&pack[..], &["--clip-loops"]].concat();
    let like = s1000(60, 0, &[(10, 1, 5, 300), (50, 7, 4, 300), (60, 8, 30, 9999)], &mut random);
    folder.write("like", &like);
    folder.write("in.wav", &wav(10_000, &[16; 20]));
    folder
        .sj(&pack)
        .failed(1, &["in.wav: loop 2 of like ends at 50, past the 20 words", "--clip-loops moves it back"]);
    folder.sj(&clip).done();
    let new = folder.read("new");
    let held = |at: usize| (four(&new, 38 + 12 * at), new[42 + 12 * at], four(&new, 44 + 12 * at));
    assert_eq!([held(0), held(1), held(2)], [(10, 1, 5), (20, 7, 4), (20, 0, 20)]);
    assert_eq!([26, 30, 34].map(|at| four(&new, at)), [20, 0, 20]);
    // A loop that isn't active may lie anywhere.
    let mut idle = like.clone();
    idle[16] = 1;
    folder.write("like", &idle);
    folder.sj(&pack).done();
    assert_eq!(folder.read("new")[50..74], like[50..74]);
    // The chunk's own.
    folder.write("in.wav", &wav_with(10_000, &[16; 20], smpl(60, 0, &[(0, 0, 9, 0, 0), (0, 16, 20, 0, 0)])));
    folder.sj(&pack).failed(1, &["its loop 2 ends at 21, past the 20 words", "--clip-loops moves it back"]);
    folder.sj(&clip).done();
    let new = folder.read("new");
    assert_eq!((new[16], four(&new, 50), four(&new, 56)), (2, 20, 5));
    // No words, no loops.
    let told = smpl(60, 0, &[(0, 0, 9, 0, 0)]);
    folder.write("in.wav", &riff(&[(b"fmt ", format(10_000)), (b"smpl", told), (b"data", Vec::new())]));
    folder.sj(&pack).failed(1, &["past the 0 words"]);
    folder.sj(&clip).done();
    assert_eq!(folder.read("new")[16], 0);
}

/// The same where there are as many words as before: a sample that plays past its words isn't made again.
#[test]
fn loops_that_were_past_the_words_already_are_refused_or_clipped() {
    let (folder, mut random) = (Folder::new("past-already"), Random::new(11));
    let like = s1000(60, 0, &[(500, 1, 5, 300)], &mut random);
    unpacked(&folder, &like);
    folder.write("more.wav", &wav(10_000, &[0; 101]));
    for file in ["a.wav", "more.wav"] {
        folder.sj(&["pack", file, "--like", "a", "-o", "b"]).failed(1, &["loop 1 of a ends at 500"]);
    }
    folder.sj(&["pack", "a.wav", "--like", "a", "-o", "b", "--clip-loops"]).done();
    let new = folder.read("b");
    assert_eq!((four(&new, 38), four(&new, 44)), (100, 5));
    assert!(new[..38] == like[..38] && new[50..] == like[50..]);
}

#[test]
fn words_are_rounded_only_if_that_is_asked_for() {
    let (folder, mut random) = (Folder::new("round"), Random::new(12));
    folder.write("like", &s900(960, b'O', 100, 0, &mut random));
    let words = [7, 8, -8, -9, i16::MAX, i16::MIN, 0, 16, -7, 32_752];
    folder.write("in.wav", &wav(10_000, &words));
    let pack = ["pack", "in.wav", "--like", "like", "-o", "new"];
    folder.sj(&pack).failed(1, &["word 0 has more than the 12 bits", "--round"]);
    folder.sj(&[&pack[..], &["--round"]].concat()).done();
    folder.sj(&["unpack", "new", "-o", "out.wav"]).done();
    let rounded = [0, 16, 0, -16, 32_752, i16::MIN, 0, 16, 0, 32_752];
    assert_eq!(chunk(&folder.read("out.wav"), b"data"), Some(data(&rounded)));
}

#[test]
fn a_packed_sample_gets_a_name() {
    let (folder, mut random) = (Folder::new("name"), Random::new(13));
    folder.write("like900", &s900(960, b'O', 100, 0, &mut random));
    folder.write("like1000", &s1000(60, 0, &[], &mut random));
    folder.write("in.wav", &wav(10_000, &[16; 100]));
    let pack = |like: &str, rest: &[&str]| {
        folder.sj(&[&["pack", "in.wav", "--like", like, "-o", "new"], rest].concat())
    };
    pack("like900", &["--name", "Bass c2~"]).done();
    assert_eq!(folder.read("new")[..16], *b"Bass c2~  \0\0\0\0\0\0");
    pack("like1000", &["--name", "A9 Z#+-."]).done();
    assert_eq!(folder.read("new")[3..15], [11, 9, 10, 36, 37, 38, 39, 40, 10, 10, 10, 10]);
    pack("like1000", &["--name", "Bass c2"]).done(); // AKAII has capitals alone
    assert_eq!(folder.read("new")[3..15], [12, 11, 29, 29, 10, 13, 2, 10, 10, 10, 10, 10]);
    pack("like1000", &["--name", "b_ss"]).failed(1, &["in.wav: b_ss: ", "'_' (2 of 4) isn't legal"]);
    pack("like900", &["--name", "12345678901"]).failed(1, &["11 characters", "S900"]);
    pack("like900", &["--name="]).failed(2, &["--allow-empty-name"]);
    pack("like1000", &["--name= ", "--allow-empty-name"]).done();
    assert_eq!(folder.read("new")[3..15], [10; 12]);
    let json = pack("like900", &["--json", "--name", "A"]).done();
    let expected = "{\"file\":\"in.wav\",\"kind\":\"S900\",\"words\":100,\"rate\":10000,\"to\":\"new\"}\n";
    assert_eq!(json, expected);
    assert_eq!(pack("like900", &[]).done(), "");
}

/// Standard output takes one file, byte for byte; nothing is told beside it.
#[test]
fn one_file_may_go_to_standard_output() {
    let (folder, mut random) = (Folder::new("stdout"), Random::new(14));
    let file = s1000(60, 0, &[], &mut random);
    folder.write("a", &file);
    folder.sj(&["unpack", "a", "-o", "a.wav"]).done();
    let ran = folder.sj(&["unpack", "a", "-o", "-", "--json"]);
    assert_eq!((ran.status, ran.out), (Some(0), folder.read("a.wav")));
    let ran = folder.sj(&["pack", "a.wav", "--like", "a", "-o", "-", "--json"]);
    assert_eq!((ran.status, ran.out), (Some(0), file));
    assert_eq!(folder.names(), ["a", "a.wav"]);
}

#[test]
fn a_sample_without_a_rate_is_refused() {
    let (folder, mut random) = (Folder::new("no-rate"), Random::new(15));
    let mut file = s1000(60, 0, &[], &mut random);
    file[138..140].fill(0);
    folder.write("a", &file);
    folder.sj(&["unpack", "a", "-o", "a.wav"]).failed(1, &["a: its rate is 0"]);
    folder.write("in.wav", &wav(10_000, &[0; 100]));
    folder.sj(&["pack", "in.wav", "--like", "a", "-o", "b"]).done();
    assert_eq!(folder.read("b")[138..140], 10_000u16.to_le_bytes());
}
