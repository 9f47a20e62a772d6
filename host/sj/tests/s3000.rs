//! S3000 disks, made byte for byte: every command on them, types as capitals and as numbers, 512 slots and 17 system blocks.

mod common;

use common::{Folder, Ran, s3000, s3000_slot, set_map, slot_at};
use model::files;
use model::layout::{Kind, LAYOUTS};
use model::random::Random;

/// Types of samples and programs.
const S: u8 = 211;
const P: u8 = 208;

/// A sample of three blocks and a program of one.
fn two() -> Vec<u8> {
    s3000(&[("BASS C2", S, &[1; 2150]), ("KIT", P, &[2; 450])])
}

/// A folder with an image.
fn with(name: &str, image: &[u8]) -> Folder {
    let folder = Folder::new(&format!("s3000-{name}"));
    folder.write("a.img", image);
    folder
}

/// What a run that lost something wrote.
fn lossy(ran: Ran) -> Vec<String> {
    assert_eq!((ran.status, ran.err.as_str()), (Some(1), ""));
    String::from_utf8(ran.out).expect("text").lines().map(str::to_string).collect()
}

/// As many files as there are slots, of a block each: N 0 to N 511.
fn full() -> Vec<u8> {
    let names: Vec<String> = (0..512).map(|slot| format!("N {slot}")).collect();
    let contents: Vec<[u8; 2]> = (0..512u16).map(u16::to_le_bytes).collect();
    let files = names.iter().zip(&contents).map(|(name, content)| (name.as_str(), S, content.as_slice()));
    s3000(&files.collect::<Vec<_>>())
}

#[test]
fn check_and_ls_tell_kind_and_capitals() {
    let folder = with("ls", &two());
    let line = "a.img: S3000 high, 2 files, 1,579 blocks free (1,616,896 bytes)\n";
    assert_eq!(folder.sj(&["check", "a.img"]).done(), line);
    let lines = format!("{line}  #0 S     2150 [BASS C2     ]\n  #1 P      450 [KIT         ]\n");
    assert_eq!(folder.sj(&["ls", "a.img"]).done(), lines);
    let json = concat!(
        r#"{"file":"a.img","kind":"S3000","density":"high","files":2,"free":1579,"free_bytes":1616896,"entries":["#,
        r#"{"slot":0,"name":"BASS C2","stored":"BASS C2     ","type":"S","type_byte":211,"length":2150},"#,
        r#"{"slot":1,"name":"KIT","stored":"KIT         ","type":"P","type_byte":208,"length":450}]}"#,
        "\n"
    );
    assert_eq!(folder.sj(&["ls", "--json", "a.img"]).done(), json);
}

#[test]
fn files_are_copied_out_under_name_and_capital() {
    let folder = with("get", &two());
    assert_eq!(folder.sj(&["get", "a.img", "bass c2"]).done(), "#0 [BASS C2] -> BASS C2.S\n");
    assert_eq!(folder.read("BASS C2.S"), [1; 2150]);
    assert_eq!(folder.sj(&["get", "a.img", "k*", "-o", "out"]).done(), "#1 [KIT] -> KIT.P\n");
    folder.sj(&["get", "a.img", "--all", "-o", "all"]).done();
    assert_eq!(Folder(folder.0.join("all")).names(), ["BASS C2.S", "KIT.P"]);
    assert_eq!(folder.sj(&["get", "a.img", "#1", "-o", "-"]).out, [2; 450]);
    for slot in ["#2", "#511", "#512"] {
        folder.sj(&["get", "a.img", slot]).failed(1, &["there is no such file (refusal 10)"]);
    }
}

/// By its file's name, by capital and by number: the same bytes, and the slot whole, identity too, whatever stood in it.
#[test]
fn a_type_is_a_capital_or_its_number() {
    let expected = s3000(&[("BASS C2", S, &[1; 2150]), ("KIT", P, &[2; 450]), ("NEW", S, &[7; 1025])]);
    for words in [&["New.S"][..], &["New.x", "--type", "S"], &["New.x", "--type", "211"]] {
        let folder = with("put", &two());
        folder.write(words[0], &[7; 1025]);
        assert_eq!(folder.sj(&[&["put", "a.img"], words].concat()).done(), "#2\n");
        assert!(folder.read("a.img") == expected, "{words:?}");
        folder.sj(&["get", "a.img", "new", "-o", "back"]).done();
        assert_eq!(folder.read("back"), [7; 1025]);
    }
    let folder = with("put-json", &two());
    folder.write("New.S", &[7; 1025]);
    let told = folder.sj(&["put", "a.img", "New.S", "--json"]).done();
    assert!(
        told.contains(r#""slot":2,"name":"NEW","stored":"NEW         ","type":"S","type_byte":211,"#),
        "{told}"
    );
}

#[test]
fn what_is_no_type_is_told_with_the_rule() {
    let folder = with("types", &two());
    folder.write("new", b"x");
    folder.write("New.s", b"x");
    folder.write("s1000.img", &common::disk(LAYOUTS[3], 3, 10, 1));
    let put = |image: &str, file_type: &str| {
        folder.sj(&["put", image, "new", "--name", "NEW", "--type", file_type])
    };
    let rule = "isn't legal: an S3000 type is one of A (193) to Z (218) (refusal 11)";
    for (typed, told) in [
        ("s", "'s' (115)"),
        ("83", "'S' (83)"),
        ("192", "192"),
        ("219", "219"),
        ("255", "255"),
        ("5", "'5' (53)"),
    ] {
        put("a.img", typed).failed(1, &[&format!("a.img: NEW: the type {told} {rule}")]);
    }
    folder.sj(&["put", "a.img", "New.s"]).failed(1, &["a.img: New: the type 's' (115)", rule]); // not folded
    for typed in ["256", "SS", "+21", ""] {
        put("a.img", typed).failed(2, &["the type is one letter; on an S3000 disk its number does too"]);
    }
    put("s1000.img", "211").failed(2, &["the type is one letter; on an S3000 disk its number does too"]);
    put("s1000.img", "S")
        .failed(1, &["the type 'S' isn't legal: an S1000 type is one of a to z (refusal 11)"]);
    let ran = folder.sj(&["put", "a.img", "New.s", "--explain"]);
    ran.failed(1, &["and an S3000 disk such a name and a type A (193) to Z (218)."]);
    folder
        .sj(&["put", "a.img", "new", "--name", "A/B", "--type", "S"])
        .failed(1, &["an S3000 name has at most 12"]);
    assert!(folder.read("a.img") == two());
}

/// Spellings of a name are one, and a removed slot keeps its identity alone.
#[test]
fn names_are_those_of_an_s1000() {
    let folder = with("names", &two());
    folder.write("new", b"x");
    let put = |name: &str| folder.sj(&["put", "a.img", "new", "--type", "P", "--name", name]);
    put("kit").failed(1, &["kit: a file of that type already has the name (refusal 12, slot 1)"]);
    assert_eq!(folder.sj(&["mv", "a.img", "Kit", "kit 2"]).done(), "#1 [KIT 2]\n");
    let told = folder.sj(&["ls", "a.img"]).done();
    assert!(told.contains("  #1 P      450 [KIT 2       ]\n"), "{told}"); // the type stays
    folder.sj(&["rm", "a.img", "bass c2"]).done();
    let image = folder.read("a.img");
    assert_eq!(image[slot_at(&image, 0, 0)..][..24], [[0; 22].as_slice(), &[0, 12]].concat());
    assert!(image[..1536] == two()[..1536] && image[1024 * 17..] == two()[1024 * 17..]);
    assert_eq!(put("Bass c3").done(), "#0\n");
}

#[test]
fn all_512_slots_are_used() {
    let folder = with("full", &full());
    let told = folder.sj(&["ls", "a.img"]).done();
    let lines: Vec<&str> = told.lines().collect();
    assert_eq!(lines[0], "a.img: S3000 high, 512 files, 1,071 blocks free (1,096,704 bytes)");
    assert_eq!(
        (lines.len(), lines[1], lines[512]),
        (513, "  #0 S        2 [N 0         ]", "#511 S        2 [N 511       ]")
    );
    assert_eq!(folder.sj(&["get", "a.img", "#511", "-o", "-"]).out, 511u16.to_le_bytes());
    folder.write("new", b"x");
    let put = || folder.sj(&["put", "a.img", "new", "--name", "NEW", "--type", "S"]);
    put().failed(1, &["a.img: NEW: all 512 slots are used (refusal 14)"]);
    folder.sj(&["get", "a.img", "#512"]).failed(1, &["#512: there is no such file (refusal 10)"]);
    assert!(folder.read("a.img") == full());
    assert_eq!(folder.sj(&["mv", "a.img", "#511", "LAST"]).done(), "#511 [LAST]\n");
    folder.sj(&["rm", "a.img", "#300"]).done();
    assert_eq!(put().done(), "#300\n");
}

/// One byte decides the kind, before the identities, and what it is no disk by.
#[test]
fn refusals_of_the_image() {
    let folder = with("refused", &two());
    let refused = |image: &[u8], told: &str| {
        folder.write("b.img", image);
        folder.sj(&["check", "b.img"]).failed(1, &[&format!("b.img: {told}")]);
    };
    let mut low = vec![0; 819_200]; // an S900's, but for one byte
    low[16] = 255;
    refused(&low, "the directory is of no known kind (refusal 2)");
    folder
        .sj(&["check", "b.img", "--explain"])
        .failed(1, &["whose byte 16 is 255, must be of high density."]);
    let spoiled = |at: usize, byte: u8| {
        let mut image = two();
        image[at] = byte;
        image
    };
    let slot = |at| slot_at(&two(), 1, at);
    refused(&spoiled(16, 254), "the directory is of no known kind (refusal 2)");
    refused(
        &spoiled(1536 + 2 * 16, 1),
        "a system block isn't marked as one in the map (refusal 3, block 16)",
    );
    for (at, byte) in [(0, 41), (12, 32), (15, 1), (16, b'P'), (16, 219), (22, 12), (23, 11), (23, 3)] {
        let told = "a slot of the directory is malformed (refusal 4, slot 1)";
        refused(&spoiled(slot(at), byte), told);
    }
    refused(&spoiled(slot(20), 16), "a file's chain of blocks leaves the data area (refusal 6, slot 1)");
    refused(
        &spoiled(1536 + 2 * 1599, 1),
        "a block is marked as used but belongs to no file (refusal 9, block 1599)",
    );
}

/// A plain file is read to 17,408 bytes and in the blocks that are asked for; a pipe whole.
#[test]
fn the_head_of_a_file_is_enough() {
    let folder = with("head", &full());
    for words in [&["check"][..], &["ls"], &["ls", "--json"], &["get", "-o", "-", "#511"]] {
        let plain: Vec<&str> = [&words[..1], &["a.img"], &words[1..]].concat();
        let piped =
            format!("cat a.img | '{}' {} - {}", env!("CARGO_BIN_EXE_sj"), words[0], words[1..].join(" "));
        let piped = piped.replace("#511", "'#511'");
        let piped = std::process::Command::new("sh").args(["-c", &piped]).current_dir(&folder.0).output();
        let piped =
            String::from_utf8_lossy(&piped.expect("sh runs").stdout).replace("standard input", "a.img");
        assert_eq!(String::from_utf8_lossy(&folder.sj(&plain).out), piped, "{words:?}");
    }
}

const MALFORMED: &str = "dropped: a slot of the directory is malformed";

/// The two files, and five slots that are dropped, up to the last one.
fn damaged() -> Vec<u8> {
    let mut image = two();
    for (slot, bytes) in [
        (2, s3000_slot("KIT", P, 100, 30)),
        (100, s3000_slot("C", b'S', 1, 30)),
        (300, s3000_slot("D", S, 1, 30)),
        (510, s3000_slot("E", P, 3000, 30)),
        (511, s3000_slot("F", P, 1, 16)),
    ] {
        let at = slot_at(&image, slot, 0);
        image[at..at + 24].copy_from_slice(&bytes);
    }
    let identity = slot_at(&image, 300, 23);
    image[identity] = 3;
    set_map(&mut image, 30, 49_152); // on no kept chain
    set_map(&mut image, 16, 30); // a system block's
    image
}

#[test]
fn a_statement_names_what_stood_in_the_slots() {
    let folder = with("statement", &damaged());
    let lines = lossy(folder.sj(&["salvage", "a.img", "--dry-run"]));
    let expected = [
        "a.img: S3000 high, would be mended, nothing is written".to_string(),
        r#"  #0 S          2150 [BASS C2     ] kept"#.into(),
        r#"  #1 P           450 [KIT         ] kept"#.into(),
        r#"  #2 P           100 [KIT         ] dropped: a name stands twice within one type (refusal 5)"#.into(),
        format!(r#"#100 "\x53"        1 [C           ] {MALFORMED} (refusal 4)"#),
        format!(r#"#300 S             1 [D           ] {MALFORMED}, its identity is 0,3 (refusal 4)"#),
        r#"#510 P          3000 [E           ] dropped: a file's chain of blocks is shorter or longer than the file (refusal 7)"#.into(),
        r#"#511 P             1 [F           ] dropped: a file's chain of blocks leaves the data area (refusal 6)"#.into(),
        "  2 slots kept, 5 dropped, 2 map values changed, 1 block freed".into(),
    ];
    assert_eq!(lines, expected);
    assert_eq!(lossy(folder.sj(&["salvage", "a.img", "--in-place"]))[1..], expected[1..]);
    let mut mended = two(); // dropped slots keep their identity, also a wrong one
    for (slot, identity) in [(2, 12), (100, 12), (300, 3), (510, 12), (511, 12)] {
        let at = slot_at(&mended, slot, 0);
        mended[at..at + 24].copy_from_slice(&[[0; 23].as_slice(), &[identity]].concat());
    }
    assert!(folder.read("a.img") == mended);
    let told = folder.sj(&["salvage", "a.img", "--dry-run"]).done();
    assert!(told.contains(", nothing to mend, it is as it was\n"), "{told}");
}

#[test]
fn a_statement_in_json_has_the_type_byte() {
    let mut image = two();
    let at = slot_at(&image, 1, 16);
    image[at] = b'P';
    let folder = with("statement-json", &image);
    let told = lossy(folder.sj(&["salvage", "a.img", "--dry-run", "--json"]));
    let slots = concat!(
        r#""kept":1,"dropped":1,"map_values":1,"freed":1,"slots":["#,
        r#"{"slot":0,"name":"BASS C2","stored":"BASS C2     ","type":"S","type_byte":211,"length":2150,"fate":"kept"},"#,
        r#"{"slot":1,"name":"KIT","stored":"KIT         ","type":"\"\\x50\"","type_byte":80,"length":450,"fate":"dropped","#,
        r#""refusal":4,"words":"a slot of the directory is malformed","bytes":"15131e0a0a0a0a0a0a0a0a0a0000000250c201001400000c"}]}"#
    );
    assert!(told[0].ends_with(slots), "{}", told[0]);
}

/// All 17 system values are set, and none of them is a block that is freed.
#[test]
fn system_values_cost_no_file() {
    let mut image = two();
    (0..17).for_each(|block| set_map(&mut image, block, 0));
    let folder = with("system", &image);
    let told = folder.sj(&["salvage", "a.img", "-o", "b.img"]).done();
    assert!(told.ends_with("  2 slots kept, 0 dropped, 17 map values changed, 0 blocks freed\n"), "{told}");
    assert!(folder.read("b.img") == two() && folder.read("a.img") == image);
}

/// Samples of an S1000 are unpacked; one in the S3000's own form is refused, and passed over among several.
#[test]
fn samples_in_an_s1000s_form_are_unpacked() {
    let mut random = Random::new(3);
    let mut sample = files::sample(Kind::S1000, 100, &mut random);
    sample[138] |= 1; // a WAV file has no rate of 0
    let mut own = [&sample[..150], &[0; 42], &sample[150..]].concat();
    own[16] = 0;
    let image = s3000(&[("ONE", S, &sample), ("OWN", S, &own), ("PROGRAM", P, &sample)]);
    let folder = with("unpack", &image);
    let told = "#1 [OWN]: as S1000 (first byte 3): 100 words said, 121 there; an S3000 sample's header, of 192 bytes, isn't read \
                (refusal 18, offset 26)";
    let ran = folder.sj(&["unpack", "a.img", "--all", "-o", "wav"]);
    assert_eq!(String::from_utf8_lossy(&ran.out), "#0 [ONE] -> ONE.wav\n1 sample unpacked, 1 refused\n");
    assert!(ran.status == Some(1) && ran.err.replace("\n    ", " ").contains(told), "{}", ran.err);
    folder.sj(&["unpack", "a.img", "own"]).failed(1, &[told]);
    assert_eq!(Folder(folder.0.join("wav")).names(), ["ONE.wav"]);
    folder.sj(&["unpack", "a.img", "-o", "x.wav"]).failed(2, &["a.img is an image; name its samples"]);
}

/// Help names what an S3000 disk takes.
#[test]
fn help_names_types_by_capital_and_number() {
    let folder = Folder::new("s3000-help");
    let told = |words: &[&str]| folder.sj(words).done().replace('\n', " ");
    assert!(told(&["--help"]).contains("Akai S900, S950, S1000 and S3000 samplers"));
    assert!(told(&["put", "--help"]).contains("A (193) to Z (218) on an S3000 disk"));
    assert!(told(&["unpack", "--help"]).contains("S (211) on an S3000's"));
    assert!(told(&["help", "refusals"]).contains("A (193) to Z (218)"));
}
