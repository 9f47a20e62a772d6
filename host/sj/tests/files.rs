//! unpack, pack and program on files of the model.

mod common;
mod sound;

use common::Folder;
use model::files;
use model::layout::Kind;
use model::random::Random;
use sound::wav;

#[test]
fn samples_go_to_wav_and_back() {
    let (folder, mut random) = (Folder::new("wav"), Random::new(1));
    for kind in [Kind::S900, Kind::S1000] {
        for words in [0, 2, 1000, 40_000] {
            let file = sound::within(kind, words, files::sample(kind, words, &mut random));
            folder.write("a", &file);
            folder.sj(&["unpack", "a", "-o", "a.wav"]).done();
            assert_eq!(sound::chunk(&folder.read("a.wav"), b"data").map(|data| data.len()), Some(2 * words));
            folder.sj(&["pack", "a.wav", "--like", "a", "-o", "back"]).done();
            assert!(folder.read("back") == file, "{kind:?} {words}");
        }
    }
    assert_eq!(folder.names(), ["a", "a.wav", "back"]);
}

/// No file that is read is lost to what is made of it: a sample, a WAV file, or the sample whose header is taken.
#[test]
fn no_file_is_replaced_by_what_is_made_of_it() {
    let folder = Folder::new("itself");
    let file = files::sample(Kind::S1000, 10, &mut Random::new(3));
    folder.write("a", &file);
    folder.sj(&["unpack", "a", "-o", "./a"]).failed(2, &["./a is the file that is read"]);
    folder.sj(&["unpack", "a", "-o", "a.wav"]).done();
    let wav = folder.read("a.wav");
    folder
        .sj(&["pack", "a.wav", "--like", "a", "-o", "a.wav"])
        .failed(2, &["a.wav is the file that is read"]);
    folder.sj(&["pack", "a.wav", "--like", "a", "-o", "./a"]).failed(2, &["./a is the file that is read"]);
    std::fs::hard_link(folder.0.join("a"), folder.0.join("b")).expect("linked");
    folder.sj(&["pack", "a.wav", "--like", "a", "-o", "b"]).failed(2, &["b is the file that is read"]);
    assert!(folder.read("a") == file && folder.read("a.wav") == wav);
}

/// A sample of 500 words without loops whose markers, at these offsets, are as given.
fn marked(kind: Kind, markers: &[(usize, u32)], random: &mut Random) -> Vec<u8> {
    let mut file = files::sample(kind, 500, random);
    if kind == Kind::S1000 {
        file[16] = 0;
    }
    for &(at, value) in markers {
        sound::set_four(&mut file, at, value);
    }
    file
}

/// A kind of sample, its header's length, where it tells number, markers and rate.
type Marked = (Kind, usize, usize, &'static [(usize, u32)], usize);
const MARKED: [Marked; 2] = [
    (Kind::S900, 60, 16, &[(28, 400), (32, 300), (36, 350)], 20),
    (Kind::S1000, 150, 26, &[(34, 400), (30, 300)], 138),
];

/// End, start, and on an S900 the loop length: what lies past the new words is refused, or moved back; the rest of the
/// header stays.
#[test]
fn a_shorter_wav_doesnt_cut_the_markers_unasked() {
    let (folder, mut random) = (Folder::new("shorter"), Random::new(2));
    folder.write("short.wav", &wav(8000, &[160; 20]));
    let pack = ["pack", "short.wav", "--like", "long", "-o", "new"];
    for (kind, header, count, markers, rate) in MARKED {
        let long = marked(kind, markers, &mut random);
        folder.write("long", &long);
        let refused = ["short.wav: the end marker of long is 400, past the 20 words", "--clip-loops"];
        folder.sj(&pack).failed(1, &refused);
        folder.sj(&[&pack[..], &["--clip-loops"]].concat()).done();
        let mut expected = long[..header].to_vec();
        expected[rate..rate + 2].copy_from_slice(&8000u16.to_le_bytes());
        for at in markers.iter().map(|marker| marker.0).chain([count]) {
            sound::set_four(&mut expected, at, 20);
        }
        assert_eq!(folder.read("new")[..header], expected);
        std::fs::remove_file(folder.0.join("new")).expect("there");
    }
    assert_eq!(folder.names(), ["long", "short.wav"]);
}

/// An end after the last word is there again, and then the others are judged by it.
#[test]
fn an_end_after_the_last_word_moves_with_it() {
    let (folder, mut random) = (Folder::new("whole-end"), Random::new(9));
    folder.write("short.wav", &wav(8000, &[160; 20]));
    let pack = ["pack", "short.wav", "--like", "long", "-o", "new"];
    for (kind, end, start) in [(Kind::S900, 28, 32), (Kind::S1000, 34, 30)] {
        let mut long = marked(kind, &[(end, 500), (start, 21)], &mut random);
        if kind == Kind::S900 {
            sound::set_four(&mut long, 36, 30);
        }
        folder.write("long", &long);
        folder.sj(&pack).failed(1, &["the start marker of long is 21, past the end at 20"]);
        sound::set_four(&mut long, start, 20);
        folder.write("long", &long);
        if kind == Kind::S900 {
            folder.sj(&pack).failed(1, &["the loop length of long is 30, past the end at 20"]);
            sound::set_four(&mut long, 36, 20);
            folder.write("long", &long);
        }
        folder.sj(&pack).done();
        assert_eq!([end, start].map(|at| sound::four(&folder.read("new"), at)), [20, 20]);
    }
}

/// Markers before the new end stay where they are; an end that was the last word's is so again.
#[test]
fn a_wav_keeps_the_markers_that_fit() {
    let (folder, mut random) = (Folder::new("fit"), Random::new(5));
    folder.write("more.wav", &wav(8000, &[32; 600]));
    for (end, new_end) in [(400, 400), (500, 600)] {
        folder.write("like", &marked(Kind::S900, &[(28, end), (32, 300), (36, 350)], &mut random));
        folder.sj(&["pack", "more.wav", "--like", "like", "-o", "new"]).done();
        let new = folder.read("new");
        assert_eq!([16, 28, 32, 36].map(|at| sound::four(&new, at)), [600, new_end, 300, 350]);
    }
}

#[test]
fn other_samples_are_refused() {
    let (folder, mut random) = (Folder::new("samples-refused"), Random::new(3));
    folder.write("s900", &files::sample(Kind::S900, 4, &mut random));
    folder.write("s1000", &files::sample(Kind::S1000, 4, &mut random));
    folder.write("fine.wav", &wav(44_100, &[16, 32, 33, 0]));
    folder.sj(&["pack", "fine.wav", "--like", "s900", "-o", "b"]).failed(1, &["word 2", "--round"]);
    folder.write("odd.wav", &wav(44_100, &[16, 32, 32]));
    let odd = ["odd.wav: it has 3 words", "an even number", "refusal 18, offset 16"];
    folder.sj(&["pack", "odd.wav", "--like", "s900", "--clip-loops", "-o", "b"]).failed(1, &odd);
    folder.write("bad", b"RIFF");
    let short = "as S900 (first byte not 3): it has 4 bytes, and an S900 sample's header 60";
    folder.sj(&["pack", "fine.wav", "--like", "bad", "-o", "b"]).failed(1, &["sj: bad: ", short]);
    folder.sj(&["unpack", "s900"]).failed(2, &["-o is needed"]);
    folder.sj(&["unpack", "none", "-o", "b.wav"]).failed(2, &["none"]);
    folder.sj(&["pack", "fine.wav", "-o", "b"]).failed(2, &["--like is needed"]);
    folder.sj(&["pack", "fine.wav", "--like", "s900"]).failed(2, &["-o is needed"]);
    folder.sj(&["pack", "-", "--like", "-", "-o", "b"]).failed(2, &["standard input"]);
    assert_eq!(folder.names(), ["bad", "fine.wav", "odd.wav", "s1000", "s900"]);
}

/// A line says what the file was taken for and why, the row, its value and its range.
#[test]
fn a_refused_header_is_told_by_its_row() {
    let (folder, mut random) = (Folder::new("row"), Random::new(8));
    let s900 = files::sample(Kind::S900, 4, &mut random);
    let s1000 = files::sample(Kind::S1000, 4, &mut random);
    let told = |like: &[u8], at: usize, value: u8, words: &str| {
        let mut file = like.to_vec();
        file[at] = value;
        folder.write("a", &file);
        let ran = folder.sj(&["unpack", "a", "-o", "a.wav"]);
        assert!(ran.err.lines().count() == 1 && ran.err.len() <= 101, "{}", ran.err);
        ran.failed(1, &["sj: a: ", words]);
    };
    let s900_is = "as S900 (first byte not 3): ";
    told(&s900, 26, b'X', &format!("{s900_is}loop mode is X, not O, L or A (refusal 18, offset 26)"));
    told(&s900, 26, 7, &format!("{s900_is}loop mode is 7, not O, L or A"));
    told(&s900, 2, 200, &format!("{s900_is}name character 3 is 200, not 32 to 126 (refusal 18, offset 2)"));
    told(&s900, 13, 1, &format!("{s900_is}fixed byte 4 is 1, not 0 (refusal 18, offset 13)"));
    told(&s900, 16, 6, &format!("{s900_is}6 words said, 4 there (refusal 18, offset 16)"));
    told(&s900, 29, 1, &format!("{s900_is}end marker is 2"));
    let s1000_is = "as S1000 (first byte 3): ";
    told(&s1000, 2, 128, &format!("{s1000_is}root note is 128, not 0 to 127 (refusal 18, offset 2)"));
    told(&s1000, 21, 205, &format!("{s1000_is}tune semitones is -51, not -50 to 50 (refusal 18, offset 21)"));
    told(&s1000, 16, 9, &format!("{s1000_is}number of loops is 9, not 0 to 8 (refusal 18, offset 16)"));
    assert_eq!(folder.names(), ["a"]);
}

/// Its data chunk is whole, but nobody reads so much.
#[test]
fn a_file_that_is_too_long_is_told_so() {
    let (folder, mut random) = (Folder::new("long-wav"), Random::new(6));
    folder.write("s", &files::sample(Kind::S1000, 4, &mut random));
    folder.write("a.wav", &wav(44_100, &vec![0; 10_000_000]));
    folder.sj(&["pack", "a.wav", "--like", "s", "-o", "b"]).failed(1, &["longer than 16,777,215", "cut it"]);
    folder.sj(&["unpack", "a.wav", "-o", "b"]).failed(1, &["longer than 16,777,215"]);
    assert_eq!(folder.names(), ["a.wav", "s"]);
}

#[test]
fn programs_are_checked() {
    let (folder, mut random) = (Folder::new("program"), Random::new(4));
    let mut file = files::program(3, &mut random);
    folder.write("p", &file);
    assert_eq!(folder.sj(&["program", "p"]).done(), "p: S1000 program, 3 keygroups\n");
    assert_eq!(folder.sj(&["program", "p", "--json"]).done(), "{\"file\":\"p\",\"keygroups\":3}\n");
    assert_eq!(folder.sj(&["program", "p", "--quiet"]).done(), "");
    folder.write("q", &files::program(1, &mut random));
    let both = "p: S1000 program, 3 keygroups\nq: S1000 program, 1 keygroup\n2 accepted, 0 refused\n";
    assert_eq!(folder.sj(&["program", "p", "q"]).done(), both);
    file[303] = 12;
    folder.write("x.p", &file);
    let words = "sj: x.p: keygroup 2's low key is 12, not 24 to 127 (refusal 20, offset 303)\n";
    folder.sj(&["program", "x.p"]).failed(1, &[words]);
    let ran = folder.sj(&["program", "p", "x.p", "none", "q"]);
    assert_eq!(ran.status, Some(2));
    assert!(ran.err.contains(words) && ran.err.contains("none: "), "{}", ran.err);
    let out = String::from_utf8(ran.out).expect("text");
    assert!(out.ends_with("2 accepted, 1 refused (20: 1), 1 not read\n"), "{out}");
    folder.sj(&["program"]).failed(2, &["missing"]);
    folder.sj(&["program", "none"]).failed(2, &["none"]);
}

#[test]
fn a_program_of_a_wrong_length_is_told_so() {
    let (folder, mut random) = (Folder::new("program-length"), Random::new(7));
    let file = files::program(99, &mut random);
    let told = |file: &[u8], words: &str| {
        folder.write("p", file);
        folder.sj(&["program", "p"]).failed(1, &[&format!("sj: p: {words}\n")]);
    };
    let at_count = "(refusal 20, offset 42)";
    told(&[], "it has 0 bytes, and a program's header 150 (refusal 20, offset 0)");
    told(&file[..14_850], &format!("99 keygroups said, 98 there {at_count}"));
    told(&file[..14_999], &format!("99 keygroups said, 14999 bytes there {at_count}"));
    let long = [&file[..], &[0]].concat();
    told(&long, &format!("it is longer than a program of 99 keygroups, 15,000 bytes {at_count}"));
}
