//! Files of one name and several types: PIANO as sample and as program, on every kind of disk.

mod common;

use common::{Folder, Ran, disk, s3000, slot_at};
use model::disk::{content, read};
use model::files;
use model::layout::{self, LAYOUTS, Layout};
use model::random::Random;

/// A kind of disk, and its types of samples and programs: as they are typed, and as messages tell them.
struct Case {
    layout: Layout,
    typed: [&'static str; 2],
    told: [&'static str; 2],
}

const CASES: [Case; 5] = [
    Case { layout: LAYOUTS[0], typed: ["S", "P"], told: ["S", "P"] },
    Case { layout: LAYOUTS[1], typed: ["S", "P"], told: ["S", "P"] },
    Case { layout: LAYOUTS[2], typed: ["s", "p"], told: ["s", "p"] },
    Case { layout: LAYOUTS[3], typed: ["s", "p"], told: ["s", "p"] },
    Case { layout: LAYOUTS[4], typed: ["S", "P"], told: ["S (211)", "P (208)"] },
];

/// Contents of the sample PIANO, the program PIANO and the sample KICK, in slots 0 to 2.
const CONTENTS: [&[u8]; 3] = [&[1; 2150], &[2; 450], &[3; 1]];

impl Case {
    /// A folder with a disk that has the three files, and with these files.
    fn folder(&self, test: &str) -> Folder {
        let folder = Folder::new(&format!("types-{test}-{:?}-{}", self.layout.kind, self.layout.blocks()));
        folder.write("a.img", &disk(self.layout, 0, 0, 1));
        let [sample, program] = self.typed;
        let names = [format!("PIANO.{sample}"), format!("PIANO.{program}"), format!("KICK.{sample}")];
        for (name, content) in names.iter().zip(CONTENTS) {
            folder.write(name, content);
        }
        let told = folder.sj(&["put", "a.img", &names[0], &names[1], &names[2]]).done();
        let [one, two, three] = &names;
        assert_eq!(told, format!("{one} -> #0 [PIANO]\n{two} -> #1 [PIANO]\n{three} -> #2 [KICK]\n"));
        folder
    }

    /// A type that no file has.
    fn third(&self) -> &'static str {
        if self.typed[0] == "s" { "q" } else { "Q" }
    }

    /// How a refusal tells the two files called PIANO.
    fn both(&self) -> String {
        let [sample, program] = self.told;
        let which = "2 files have the name, say which by --type or '#SLOT'";
        format!("a.img: PIANO: {which}: #0 {sample}, 2,150 bytes; #1 {program}, 450 bytes")
    }
}

/// The slots, types and names that `ls` tells.
fn listed(folder: &Folder) -> Vec<String> {
    let told = folder.sj(&["ls", "a.img"]).done();
    let words = |line: &str| line.replace(['[', ']'], "").split_whitespace().collect::<Vec<_>>().join(" ");
    told.lines().skip(1).map(words).collect()
}

/// What `get` writes to standard output.
fn got(folder: &Folder, words: &[&str]) -> Vec<u8> {
    let Ran { status, out, err } = folder.sj(&[&["get", "a.img", "-o", "-"], words].concat());
    assert_eq!((status, err.as_str()), (Some(0), ""), "{words:?}");
    out
}

#[test]
fn a_sample_and_its_program_are_two_files() {
    for case in CASES {
        let (folder, [sample, program]) = (case.folder("two"), case.typed);
        folder.sj(&["check", "a.img"]).done();
        let all = [
            format!("#0 {sample} 2150 PIANO"),
            format!("#1 {program} 450 PIANO"),
            format!("#2 {sample} 1 KICK"),
        ];
        assert_eq!(listed(&folder), all);
        for (file_type, slot, content) in [(sample, "#0", CONTENTS[0]), (program, "#1", CONTENTS[1])] {
            assert_eq!(got(&folder, &["PIANO", "--type", file_type]), content);
            assert_eq!(got(&folder, &[slot, "--type", file_type]), content);
            assert_eq!(got(&folder, &[slot]), content);
        }
        assert_eq!(got(&folder, &["KICK"]), CONTENTS[2]); // a name that one file has is enough
        let image = folder.read("a.img");
        for (file_type, left) in [(sample, [1, 2]), (program, [0, 2])] {
            folder.write("a.img", &image);
            assert_eq!(folder.sj(&["rm", "a.img", "PIANO", "--type", file_type]).done(), "");
            assert_eq!(listed(&folder), left.map(|at| all[at].clone()));
            assert_eq!(got(&folder, &["PIANO"]), CONTENTS[left[0]]); // and now it has
        }
    }
}

/// On any disk name and type are one file. A name alone is, where no other file has it, and else tells all that have.
#[test]
fn files_of_any_disk_are_known_by_name_and_type() {
    let folder = Folder::new("types-any");
    for turn in 0..15 {
        let case = &CASES[turn % 5];
        let image = disk(case.layout, 20, 50, turn as u64);
        folder.write("a.img", &image);
        let files = read(&image).expect("accepted").files;
        for file in files.iter().flatten() {
            let name = String::from_utf8(file.name.clone()).expect("ASCII");
            let get = |words: &[&str]| {
                folder.sj(&[&["get", "a.img", "-o", "-"], words, &["--", name.trim_end()]].concat())
            };
            let letter = char::from(file.file_type & 127).to_string();
            let ran = get(&["--type", &letter]);
            assert!(ran.status == Some(0) && ran.out == content(&image, file), "{name} {letter}");
            let has_it = |slot: &usize| files[*slot].as_ref().is_some_and(|other| other.name == file.name);
            let slots: Vec<usize> = (0..files.len()).filter(has_it).collect();
            let ran = get(&[]);
            if slots.len() == 1 {
                assert!(ran.status == Some(0) && ran.out == content(&image, file), "{name}");
                continue;
            }
            let err = ran.err.replace("\n    ", " ");
            let counted = err.contains(&format!(": {} files have the name, ", slots.len()));
            let told = slots.iter().all(|slot| err.contains(&format!(" #{slot} ")));
            assert!(ran.status == Some(1) && counted && told, "{err}");
        }
    }
}

#[test]
fn files_of_one_name_are_copied_out_apart() {
    for case in CASES {
        let (folder, [sample, program]) = (case.folder("all"), case.typed);
        let lines = [
            format!("#0 [PIANO] -> PIANO.{sample}\n"),
            format!("#1 [PIANO] -> PIANO.{program}\n"),
            format!("#2 [KICK] -> KICK.{sample}\n"),
        ];
        let get = |words: &[&str]| folder.sj(&[&["get", "a.img"], words].concat()).done();
        assert_eq!(get(&["--all", "-o", "all"]), lines.concat());
        let all = Folder(folder.0.join("all"));
        assert_eq!(all.read(&format!("PIANO.{sample}")), CONTENTS[0]);
        assert_eq!(all.read(&format!("PIANO.{program}")), CONTENTS[1]);
        assert_eq!(get(&["P*", "-o", "pattern"]), lines[..2].concat());
        assert_eq!(get(&["P*", "--type", program, "-o", "programs"]), lines[1]);
        assert_eq!(get(&["--all", "--type", sample, "-o", "samples"]), [&*lines[0], &lines[2]].concat());
        assert_eq!(get(&["#1", "PIANO", "--type", program, "-o", "once"]), lines[1]);
        assert_eq!(Folder(folder.0.join("programs")).names(), [format!("PIANO.{program}")]);
        assert_eq!(get(&["--all", "--type", case.third(), "-o", "none"]), "");
    }
}

/// A run that isn't told which does nothing, and tells all of them: in a line, with advice, and as an object.
#[test]
fn a_name_that_several_files_have_is_refused() {
    for case in CASES {
        let folder = case.folder("several");
        let (image, names) = (folder.read("a.img"), folder.names());
        for words in
            [&["get", "a.img", "PIANO"][..], &["rm", "a.img", "PIANO"], &["mv", "a.img", "PIANO", "NEW"]]
        {
            folder.sj(words).failed(1, &[&case.both()]);
            let advice = format!("as --type {}, or its slot, as '#0'.", case.typed[0]);
            folder.sj(&[words, &["--explain"]].concat()).failed(1, &[&case.both(), &advice]);
        }
        for words in [&["get", "a.img", "KICK", "PIANO", "-o", "out"][..], &["rm", "a.img", "K*", "PIANO"]] {
            folder.sj(words).failed(1, &[&case.both()]);
        }
        assert!(folder.read("a.img") == image && folder.names() == names);
    }
}

#[test]
fn several_files_are_told_as_json() {
    let folder = CASES[4].folder("json");
    let expected = concat!(
        r#"{"file":"a.img","name":"piano","words":"2 files have the name, say which by --type or '#SLOT': "#,
        r##"#0 S (211), 2,150 bytes; #1 P (208), 450 bytes","##,
        r#""advice":"Give the type of the file that is meant, as --type S, or its slot, as '#0'.","entries":["#,
        r#"{"slot":0,"name":"PIANO","stored":"PIANO       ","type":"S","type_byte":211,"length":2150},"#,
        r#"{"slot":1,"name":"PIANO","stored":"PIANO       ","type":"P","type_byte":208,"length":450}]}"#,
        "\n"
    );
    for words in [&["get", "a.img", "piano"][..], &["rm", "a.img", "piano"], &["mv", "a.img", "piano", "x"]] {
        let ran = folder.sj(&[words, &["--json", "--explain"]].concat());
        let told = String::from_utf8(ran.out).expect("text");
        assert_eq!((ran.status, ran.err.as_str(), told.as_str()), (Some(1), "", expected));
    }
    let told = folder.sj(&["rm", "a.img", "piano", "--type", "208", "--json"]).done();
    assert!(told.starts_with(r#"{"file":"a.img","slot":1,"name":"PIANO","#), "{told}");
}

#[test]
fn a_slot_of_another_type_is_refused() {
    for case in CASES {
        let (folder, [sample, program]) = (case.folder("slots"), case.told);
        let image = folder.read("a.img");
        for (slot, at) in [("#0", 1), ("#1", 0), ("#2", 1)] {
            let is = if at == 1 { sample } else { program };
            let told = format!("a.img: {slot}: its file is of type {is}, not of type {}", case.told[at]);
            for words in [&["get", "a.img", slot][..], &["rm", "a.img", slot], &["mv", "a.img", slot, "NEW"]]
            {
                folder.sj(&[words, &["--type", case.typed[at]]].concat()).failed(1, &[&told]);
            }
        }
        let ran = folder.sj(&["get", "a.img", "#0", "--type", case.typed[1], "--explain"]);
        ran.failed(1, &["Give the type that the slot has, or the slot alone."]);
        let ran = folder.sj(&["get", "a.img", "#3", "--type", case.typed[1]]);
        ran.failed(1, &["a.img: #3: there is no such file (refusal 10)"]);
        assert!(folder.read("a.img") == image);
    }
}

#[test]
fn what_has_no_such_type_is_told_with_it() {
    for case in CASES {
        let (folder, [_, program]) = (case.folder("absent"), case.told);
        let image = folder.read("a.img");
        for (word, told) in [
            ("KICK", format!("a.img: KICK: there is no such file of type {program} (refusal 10)")),
            ("NONE", format!("a.img: NONE: there is no such file of type {program} (refusal 10)")),
            ("K*", format!("a.img: K*: no file of type {program} has such a name")),
        ] {
            for command in ["get", "rm", "unpack"] {
                folder.sj(&[command, "a.img", word, "--type", case.typed[1]]).failed(1, &[&told]);
            }
        }
        assert!(folder.read("a.img") == image);
    }
}

/// A type that the disk hasn't is refused as `put` refuses it, whatever the words; what is no type at all is wrong usage.
#[test]
fn an_illegal_type_is_refused() {
    for (case, wrong, told) in [
        (&CASES[0], "s", "the type 's' isn't legal: an S900 type is one of A to Z (refusal 11)"),
        (&CASES[3], "S", "the type 'S' isn't legal: an S1000 type is one of a to z (refusal 11)"),
        (
            &CASES[4],
            "s",
            "the type 's' (115) isn't legal: an S3000 type is one of A (193) to Z (218) (refusal 11)",
        ),
        (
            &CASES[4],
            "83",
            "the type 'S' (83) isn't legal: an S3000 type is one of A (193) to Z (218) (refusal 11)",
        ),
    ] {
        let folder = case.folder("illegal");
        let (image, names) = (folder.read("a.img"), folder.names());
        for words in [
            &["get", "a.img", "PIANO"][..],
            &["get", "a.img", "NONE"],
            &["get", "a.img", "--all", "-o", "out"],
            &["rm", "a.img", "*"],
            &["rm", "a.img", "#0"],
            &["mv", "a.img", "PIANO", "NEW"],
            &["unpack", "a.img", "PIANO"],
            &["unpack", "a.img", "--all", "-o", "out"],
        ] {
            folder.sj(&[words, &["--type", wrong]].concat()).failed(1, &[&format!("a.img: {told}")]);
            let several = [words, &["--type", "SS"]].concat();
            folder.sj(&several).failed(2, &["the type is one letter; on an S3000 disk its number does too"]);
        }
        assert!(folder.read("a.img") == image && folder.names() == names);
    }
    let folder = CASES[3].folder("number");
    folder.sj(&["get", "a.img", "PIANO", "--type", "115"]).failed(2, &["the type is one letter"]);
}

#[test]
fn put_refuses_and_replaces_within_one_type() {
    for case in CASES {
        let (folder, [sample, program]) = (case.folder("put"), case.typed);
        let [one, two] = [sample, program].map(|file_type| format!("PIANO.{file_type}"));
        let image = folder.read("a.img");
        for (file, slot) in [(&one, 0), (&two, 1)] {
            let told = format!("PIANO: a file of that type already has the name (refusal 12, slot {slot})");
            folder.sj(&["put", "a.img", file]).failed(1, &[&told]);
        }
        folder.write("more", &[7; 10]);
        let more = ["put", "a.img", "more", "--name", "PIANO", "--type"];
        assert!(folder.read("a.img") == image);
        folder.sj(&[&more[..], &[program, "--replace"]].concat()).done();
        assert_eq!(got(&folder, &["#1"]), [7; 10]);
        assert_eq!([got(&folder, &["#0"]), got(&folder, &["#2"])], [CONTENTS[0], CONTENTS[2]]);
        folder.sj(&["put", "a.img", &one, &two, "--replace"]).done();
        assert!(folder.read("a.img") == image); // in the lowest slots and blocks again
        assert_eq!(folder.sj(&[&more[..], &[case.third(), "--replace"]].concat()).done(), "#3\n"); // none to replace
        assert_eq!(listed(&folder).len(), 4);
    }
}

/// Two files of a run are refused if they would be one file of the disk.
#[test]
fn files_to_put_differ_in_name_or_type() {
    for case in CASES {
        let (folder, [sample, program]) = (case.folder("run"), case.typed);
        folder.write("a.img", &disk(case.layout, 0, 0, 1));
        let (one, two) = (format!("PIANO.{sample}"), format!("PIANO.{program}"));
        let again = format!("./PIANO.{program}");
        let told = format!("PIANO is the name of two of the files of type {}", case.told[1]);
        folder.sj(&["put", "a.img", &one, &two, &again]).failed(2, &[&told]);
        folder.sj(&["put", "a.img", &one, &two, &again, "--replace"]).failed(2, &[&told]);
        assert!(folder.read("a.img") == disk(case.layout, 0, 0, 1));
        folder.sj(&["put", "a.img", &one, &two]).done();
    }
}

#[test]
fn mv_keeps_the_type() {
    for case in CASES {
        let (folder, [sample, program]) = (case.folder("mv"), case.typed);
        let image = folder.read("a.img");
        let mv = |words: &[&str]| folder.sj(&[&["mv", "a.img"], words].concat());
        assert_eq!(mv(&["PIANO", "KICK", "--type", program]).done(), "#1 [KICK]\n"); // another type has that name
        let kicks = [format!("#1 {program} 450 KICK"), format!("#2 {sample} 1 KICK")];
        assert_eq!(listed(&folder)[1..], kicks);
        folder.write("a.img", &image);
        let taken = "KICK: a file of that type already has the name (refusal 12, slot 2)";
        mv(&["PIANO", "KICK", "--type", sample]).failed(1, &[taken]);
        mv(&["#0", "KICK"]).failed(1, &[taken]);
        mv(&["P*", "NEW"]).failed(2, &["mv renames one file, and several have such a name"]);
        assert!(folder.read("a.img") == image);
        assert_eq!(mv(&["P*", "NEW", "--type", program]).done(), "#1 [NEW]\n");
        folder.write("a.img", &image);
        assert_eq!(mv(&["PIANO", "KICK", "--type", sample, "--replace"]).done(), "#0 [KICK]\n");
        assert_eq!(listed(&folder), [format!("#0 {sample} 2150 KICK"), format!("#1 {program} 450 PIANO")]);
        mv(&["KICK", "PIANO", "--replace"]).done(); // the program isn't in its way, and stays
        assert_eq!(listed(&folder), [format!("#0 {sample} 2150 PIANO"), format!("#1 {program} 450 PIANO")]);
    }
}

#[test]
fn patterns_remove_files_of_all_types_or_of_one() {
    for case in CASES {
        let (folder, [sample, program]) = (case.folder("rm"), case.typed);
        let image = folder.read("a.img");
        for (words, told, left) in [
            (&["P*"][..], "#0 [PIANO]\n#1 [PIANO]\n", 1),
            (&["*", "--type", program], "#1 [PIANO]\n", 2),
            (&["*", "--type", sample], "#0 [PIANO]\n#2 [KICK]\n", 1),
            (&["#1", "?IANO"], "#1 [PIANO]\n#0 [PIANO]\n", 1),
        ] {
            folder.write("a.img", &image);
            assert_eq!(folder.sj(&[&["rm", "a.img"], words].concat()).done(), told);
            assert_eq!(listed(&folder).len(), left, "{words:?}");
        }
    }
}

/// An S900 name may look like a pattern: on the disk to the letter it is that name, and may be several files'.
#[test]
fn a_name_like_a_pattern_may_be_several_files() {
    let folder = Folder::new("types-letter");
    folder.write("a.img", &vec![0; 819_200]);
    folder.write("one", b"x");
    for (name, file_type) in [("a*b", "S"), ("axb", "S"), ("axb", "P")] {
        folder.sj(&["put", "a.img", "one", "--name", name, "--type", file_type]).done();
    }
    folder.sj(&["rm", "a.img", "a*b", "--type", "P"]).failed(1, &["a*b: there is no such file of type P"]);
    folder.sj(&["put", "a.img", "one", "--name", "a*b", "--type", "Q"]).done();
    folder
        .sj(&["rm", "a.img", "a*b"])
        .failed(1, &["a*b: 2 files have the name", "#0 S, 1 byte; #3 Q, 1 byte"]);
    folder.sj(&["rm", "a.img", "a*b", "--type", "Q"]).done();
    assert_eq!(listed(&folder), ["#0 S 1 a*b", "#1 S 1 axb", "#2 P 1 axb"]);
    assert_eq!(folder.sj(&["rm", "a.img", "a?b", "--type", "S"]).done(), "#0 [a*b]\n#1 [axb]\n");
}

/// A disk with a sample and a program called PIANO, and two more called KIT that are no samples; and the sample.
fn with_sample(folder: &Folder) -> Vec<u8> {
    let mut sample = files::sample(layout::Kind::S1000, 100, &mut Random::new(3));
    sample[138] |= 1; // a WAV file has no rate of 0
    folder.write("a.img", &disk(LAYOUTS[3], 0, 0, 1));
    for (name, content) in
        [("PIANO.p", &[1; 300][..]), ("PIANO.s", &sample), ("KIT.p", &[1; 300]), ("KIT.q", &sample)]
    {
        folder.write(name, content);
        folder.sj(&["put", "a.img", name]).done();
    }
    sample
}

#[test]
fn a_name_to_unpack_is_the_samples() {
    let folder = Folder::new("types-unpack");
    let sample = with_sample(&folder);
    let unpack = |words: &[&str]| folder.sj(&[&["unpack", "a.img"], words].concat());
    assert_eq!(unpack(&["piano"]).done(), "#1 [PIANO] -> PIANO.wav\n");
    assert!(folder.read("PIANO.wav").ends_with(&sample[150..]));
    let both = "KIT: 2 files have the name, say which by --type or '#SLOT': #2 p, 300 bytes; #3 q, 350 bytes";
    unpack(&["KIT"]).failed(1, &[both]);
    assert_eq!(unpack(&["KIT", "--type", "q"]).done(), "#3 [KIT] -> KIT.wav\n");
    assert!(folder.read("KIT.wav") == folder.read("PIANO.wav"));
    let told = ["a.img: #0 [PIANO]: as S900 (first byte not 3)", "refusal 18"];
    unpack(&["PIANO", "--type", "p", "-o", "x.wav"]).failed(1, &told);
    unpack(&["#0", "--type", "s"]).failed(1, &["#0: its file is of type p, not of type s"]);
    assert_eq!(unpack(&["PIANO", "#1", "-o", "one"]).done(), "#1 [PIANO] -> PIANO.wav\n1 sample unpacked\n");
    assert_eq!(unpack(&["--all", "-o", "all"]).done(), "#1 [PIANO] -> PIANO.wav\n1 sample unpacked\n");
    let told = unpack(&["--all", "--type", "q", "-o", "all"]).done();
    assert_eq!(told, "#3 [KIT] -> KIT.wav\n1 sample unpacked\n");
    folder
        .sj(&["unpack", "PIANO.s", "-o", "x.wav", "--type", "s"])
        .failed(2, &["--type is for samples on an image"]);
    folder.sj(&["unpack", "a.img", "-o", "x.wav", "--type", "s"]).failed(2, &["a.img is an image"]);
}

/// Several files of one name get WAV files apart, and one that is refused is told by its slot.
#[test]
fn unpacked_files_of_one_name_dont_collide() {
    let folder = Folder::new("types-unpack-several");
    let sample = with_sample(&folder);
    let ran = folder.sj(&["unpack", "a.img", "PIANO*", "KIT*", "-o", "out"]);
    let told = "#1 [PIANO] -> 1-PIANO.wav\n#3 [KIT] -> 3-KIT.wav\n2 samples unpacked, 2 refused\n";
    assert_eq!((ran.status, String::from_utf8_lossy(&ran.out).as_ref()), (Some(1), told));
    assert!(
        ran.err.contains("sj: a.img: #0 [PIANO]: as S900") && ran.err.contains("#2 [KIT]: as S900"),
        "{}",
        ran.err
    );
    let ran = folder.sj(&["unpack", "a.img", "K*", "-o", "json", "--json"]);
    let told = String::from_utf8_lossy(&ran.out).into_owned();
    assert!(told.starts_with(r#"{"file":"a.img","slot":2,"name":"KIT","refusal":18,"place":"#), "{told}");
    folder.sj(&["put", "a.img", "PIANO.s", "--name", "PIANO", "--type", "p", "--replace"]).done();
    folder.sj(&["unpack", "a.img", "PIANO*", "-o", "both"]).done();
    let both = Folder(folder.0.join("both"));
    assert_eq!(both.names(), ["1-PIANO.wav", "PIANO.wav"]);
    assert!(both.names().iter().all(|name| both.read(name).ends_with(&sample[150..])));
}

/// A salvage keeps a name in two types, and drops the second within one.
#[test]
fn a_salvage_keeps_a_name_in_two_types() {
    let mut image = s3000(&[("PIANO", 211, &[1; 10]), ("PIANO", 208, &[2; 10]), ("KICK", 208, &[3; 10])]);
    let folder = Folder::new("types-salvage");
    folder.write("a.img", &image);
    folder.sj(&["check", "a.img"]).done();
    assert!(folder.sj(&["salvage", "a.img", "--in-place"]).done().contains("nothing to mend"));
    let (lower, higher) = (slot_at(&image, 1, 0), slot_at(&image, 2, 0));
    image.copy_within(lower..lower + 12, higher);
    folder.write("a.img", &image);
    let told = "a.img: a name stands twice within one type (refusal 5, slot 2)";
    folder.sj(&["check", "a.img"]).failed(1, &[told]);
    let ran = folder.sj(&["salvage", "a.img", "--in-place"]);
    let told = String::from_utf8_lossy(&ran.out).into_owned();
    let dropped = "  #2 P       10 [PIANO       ] dropped: a name stands twice within one type (refusal 5)\n";
    assert!(ran.status == Some(1) && told.contains(dropped), "{told}");
    assert_eq!(listed(&folder), ["#0 S 10 PIANO", "#1 P 10 PIANO"]);
}

#[test]
fn help_names_the_type() {
    let folder = Folder::new("types-help");
    for command in ["get", "put", "mv", "rm", "unpack"] {
        let told = folder.sj(&["help", command]).done();
        assert!(told.contains("[--type T]") && told.contains("\n  --type T "), "{told}");
    }
    folder.sj(&["ls", "a.img", "--type", "s"]).failed(2, &["there is no option --type"]);
}
