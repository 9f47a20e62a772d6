//! Words and the slots that they choose.

use super::*;

/// An S900 disk on which a sample and a program have one name, and another name looks like a pattern.
fn disk() -> Image {
    let mut image = Image::new(vec![0; 819_200]);
    let files = [("PIANO", b'P'), ("KICK", b'S'), ("PIANO", b'S'), ("a*b", b'S'), ("axb", b'P')];
    for (name, file_type) in files {
        image.put(Kind::S900.padded(name), file_type, &[1; 1025]).expect("room");
    }
    image
}

/// Slots, or exit status and the refusal's number, 0 for a refusal of `sj` itself.
type Slots = Result<Vec<usize>, (u8, u32)>;

fn told<T>(chosen: Result<T, Failure>, entries: impl FnOnce(T) -> Vec<Entry>) -> Slots {
    match chosen {
        Ok(chosen) => Ok(entries(chosen).iter().map(|entry| entry.slot.0).collect()),
        Err(failure) => Err((failure.number(), failure.refusal().unwrap_or(0))),
    }
}

/// What words choose of that disk.
fn slots(typed: Option<Typed>, samples_first: bool, words: &[&str]) -> Slots {
    let image = disk();
    let chosen = Files::of("a.img", &image, typed).and_then(|files| {
        let files = if samples_first { files.samples_first() } else { files };
        files.chosen(words.iter().map(OsString::from).collect())
    });
    told(chosen, |chosen| chosen.entries)
}

#[test]
fn slots_and_names_are_told_apart() {
    assert_eq!(slot_number("#12"), Some(Slot(12)));
    assert_eq!(slot_number("#99999999999999999999999"), Some(Slot(usize::MAX)));
    assert_eq!([slot_number("12"), slot_number("#"), slot_number("#1 "), slot_number("#+1")], [None; 4]);
}

#[test]
fn a_name_is_enough_where_one_file_has_it() {
    for (words, expected) in [
        (&["KICK"][..], Ok(vec![1])),
        (&["#2"], Ok(vec![2])),
        (&["P*"], Ok(vec![0, 2])),
        (&["#2", "*", "KICK"], Ok(vec![2, 0, 1, 3, 4])),
        (&["PIANO"], Err((1, 0))),
        (&["KICK", "PIANO"], Err((1, 0))),
        (&["piano"], Err((1, 10))),
        (&["#5"], Err((1, 10))),
        (&["PIANO\u{e9}"], Err((1, 11))),
        (&["X*"], Err((1, 0))),
    ] {
        assert_eq!(slots(None, false, words), expected, "{words:?}");
    }
}

#[test]
fn a_type_says_which_is_meant() {
    for (letter, word, expected) in [
        (b'S', "PIANO", Ok(vec![2])),
        (b'P', "PIANO", Ok(vec![0])),
        (b'Q', "PIANO", Err((1, 10))),
        (b'P', "KICK", Err((1, 10))),
        (b'S', "#2", Ok(vec![2])),
        (b'P', "#2", Err((1, 0))),
        (b'P', "#5", Err((1, 10))),
        (b'S', "*", Ok(vec![1, 2, 3])),
        (b'P', "P*", Ok(vec![0])),
        (b'P', "K*", Err((1, 0))),
        (b's', "PIANO", Err((1, 11))),
        (b's', "*", Err((1, 11))),
        (b's', "#2", Err((1, 11))),
    ] {
        let typed = Some(Typed::Letter(letter));
        assert_eq!(slots(typed, false, &[word]), expected, "{} {word}", char::from(letter));
    }
    assert_eq!(slots(Some(Typed::Number(211)), false, &["PIANO"]), Err((2, 0))); // an S3000 disk alone has numbers
}

#[test]
fn all_are_those_of_the_type() {
    let image = disk();
    let all = |typed| told(Files::of("a.img", &image, typed).and_then(|files| files.all()), |all| all);
    assert_eq!(all(None), Ok(vec![0, 1, 2, 3, 4]));
    let of = |letter| all(Some(Typed::Letter(letter)));
    assert_eq!([of(b'P'), of(b'Q'), of(b'p')], [Ok(vec![0, 4]), Ok(vec![]), Err((1, 11))]);
}

/// Whatever its type: who asks for one that the name hasn't gets no other file.
#[test]
fn a_name_on_the_disk_is_no_pattern() {
    assert_eq!(slots(None, false, &["a*b"]), Ok(vec![3]));
    assert_eq!(slots(Some(Typed::Letter(b'P')), false, &["a*b"]), Err((1, 10)));
    assert_eq!(slots(Some(Typed::Letter(b'P')), false, &["a?b"]), Ok(vec![4]));
}

#[test]
fn of_several_the_sample_may_be_meant() {
    assert_eq!(slots(None, true, &["PIANO"]), Ok(vec![2]));
    assert_eq!(slots(None, true, &["axb"]), Ok(vec![4])); // the only one
    assert_eq!(slots(None, true, &["P*"]), Ok(vec![0, 2]));
    assert_eq!(slots(Some(Typed::Letter(b'P')), true, &["PIANO"]), Ok(vec![0]));
}

#[test]
fn patterns_match_whole_names() {
    let yes = [
        ("*", ""),
        ("*", "A"),
        ("A*", "A"),
        ("A*C", "ABC"),
        ("*B*", "ABC"),
        ("A??", "ABC"),
        ("*A*AB", "AAAAB"),
    ];
    let no = [("?", ""), ("A", "AB"), ("A?", "A"), ("a*", "A"), ("*A", "AB"), ("", "A"), ("*AB*AB", "AB")];
    yes.iter().for_each(|(pattern, name)| assert!(matches(pattern, name), "{pattern} {name}"));
    no.iter().for_each(|(pattern, name)| assert!(!matches(pattern, name), "{pattern} {name}"));
}

/// Small letters of a pattern stand for capitals where the disk has no others.
#[test]
fn patterns_are_folded_for_an_s1000_and_an_s3000() {
    for (pattern, s900, s1000) in
        [("b*", false, true), ("B*", true, true), ("bAsS ??", false, true), ("BASS C?", true, true)]
    {
        let matches = |kind| matches(&file_name::folded(kind, pattern), "BASS C2");
        assert_eq!([Kind::S900, Kind::S1000, Kind::S3000].map(matches), [s900, s1000, s1000], "{pattern}");
    }
    assert_eq!(file_name::folded(Kind::S1000, "a\u{e9}#9"), "A\u{e9}#9"); // what has no code stays to be refused
}
