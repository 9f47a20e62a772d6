//! salvage: what is lost and what is kept, and how it is told.

mod common;

use common::{Folder, Ran, disk, sample_type, set_map, slot_at};
use model::calls;
use model::disk::{content, read};
use model::faults;
use model::layout::{Kind, LAYOUTS, Layout};
use model::random::Random;

const S900_LOW: Layout = LAYOUTS[0];

/// A disk with four files, A to D, of two blocks each; the first has the two first data blocks, and so on.
fn four(layout: Layout) -> Vec<u8> {
    let mut image = disk(layout, 0, 0, 1);
    let (letters, file_type, _) = sample_type(&image);
    for name in ["A", "B", "C", "D"] {
        let name = format!("{name:letters$}");
        calls::put(&mut image, name.as_bytes(), file_type, &[name.as_bytes()[0]; 2000]).expect("room");
    }
    image
}

/// Changes a byte of a slot.
fn set_slot(image: &mut [u8], slot: usize, at: usize, byte: u8) {
    let at = slot_at(image, slot, at);
    image[at] = byte;
}

/// Gives slot 2 a fault by which it is dropped alone.
fn spoil(image: &mut [u8], layout: Layout, number: u32) {
    let block = layout.first() + 4; // C's first
    match number {
        4 => set_slot(image, 2, 16, 255),
        5 => {
            let lower = slot_at(image, 1, 0);
            image.copy_within(lower..lower + 16, lower + 24); // all four have one type
        }
        6 => set_map(image, block, 1),
        7 => set_map(image, block, layout.end_mark()),
        _ => {
            set_slot(image, 2, 20, (block - 1) as u8); // B's second
            set_slot(image, 2, 18, 0);
        }
    }
}

const WORDS: [(u32, &str); 5] = [
    (4, "a slot of the directory is malformed"),
    (5, "a name stands twice within one type"),
    (6, "a file's chain of blocks leaves the data area"),
    (7, "a file's chain of blocks is shorter or longer than the file"),
    (8, "a file shares a block with a file in a lower slot"),
];

/// The statement of a dry run by which something is lost.
fn lossy(folder: &Folder, image: &[u8]) -> Vec<String> {
    folder.write("a.img", image);
    let ran = folder.sj(&["salvage", "--dry-run", "a.img"]);
    assert_eq!((ran.status, ran.err.as_str()), (Some(1), ""));
    String::from_utf8(ran.out).expect("text").lines().map(str::to_string).collect()
}

/// The slots of a statement that are dropped, with the number.
fn dropped(lines: &[String]) -> Vec<(usize, u32)> {
    let one = |line: &String| {
        let (slot, rest) = line.trim_start().strip_prefix('#')?.split_once(' ')?;
        let number = rest.split_once("(refusal ")?.1.strip_suffix(')')?;
        Some((slot.parse().ok()?, number.parse().ok()?))
    };
    lines.iter().filter_map(one).collect()
}

/// The image that is mended to `mended.img`: what the model makes of it, which accepts it.
fn mended(folder: &Folder) -> (Vec<u8>, model::disk::Disk) {
    folder.sj(&["salvage", "a.img", "-o", "mended.img", "--force"]);
    let image = folder.read("mended.img");
    let disk = read(&image).expect("accepted");
    (image, disk)
}

#[test]
fn every_reason_alone_on_every_kind() {
    let folder = Folder::new("salvage-reasons");
    for layout in LAYOUTS {
        for (number, words) in WORDS {
            let mut image = four(layout);
            spoil(&mut image, layout, number);
            let lines = lossy(&folder, &image);
            let fate = format!("] dropped: {words} (refusal {number})");
            assert!(lines[3].starts_with("  #2 ") && lines[3].ends_with(&fate), "{lines:?}");
            assert!([1, 2, 4].iter().all(|&at: &usize| lines[at].ends_with("] kept")), "{lines:?}");
            let counts = "  3 slots kept, 1 dropped, 2 map values changed, 2 blocks freed";
            assert_eq!((lines.len(), lines[5].as_str()), (6, counts));
            let (mended, disk) = mended(&folder);
            assert!(disk.file(2).is_none() && disk.free().len() == layout.data_blocks() - 6);
            for slot in [0, 1, 3] {
                let file = disk.file(slot).expect("kept");
                assert_eq!(content(&mended, file), [b"ABCD"[slot]; 2000]);
            }
        }
    }
}

#[test]
fn a_statement_has_kind_names_types_and_lengths() {
    let folder = Folder::new("salvage-lines");
    let mut image = four(S900_LOW);
    set_slot(&mut image, 1, 1, 255);
    set_slot(&mut image, 2, 16, b's');
    set_slot(&mut image, 3, 12, 7);
    let expected = [
        "a.img: S900 low, would be mended, nothing is written",
        r#"  #0 S       2000 [A         ]                           kept"#,
        r#"  #1 S       2000 ["B\xFF        "]                      dropped: a slot of the directory is malformed (refusal 4)"#,
        r#"  #2 "s"     2000 [C         ]                           dropped: a slot of the directory is malformed (refusal 4)"#,
        r#"  #3 S       2000 ["D         \x00\x00\x07\x00\x00\x00"] dropped: a slot of the directory is malformed (refusal 4)"#,
        "  1 slot kept, 3 dropped, 6 map values changed, 6 blocks freed",
    ];
    assert_eq!(lossy(&folder, &image), expected);
    let mut image = four(LAYOUTS[3]);
    set_slot(&mut image, 1, 1, 41); // AKAII has codes to 40
    set_map(&mut image, 4, 0); // a system block's
    let lines = lossy(&folder, &image);
    assert_eq!(lines[0], "a.img: S1000 high, would be mended, nothing is written");
    assert!(lines[1].ends_with("s     2000 [A           ]      kept"), "{lines:?}");
    assert!(lines[2].contains(r#"s     2000 ["B\x29          "] dropped: "#), "{lines:?}");
    assert_eq!(lines[5], "  3 slots kept, 1 dropped, 3 map values changed, 2 blocks freed");
}

#[test]
fn two_faults_at_once() {
    let folder = Folder::new("salvage-two");
    for layout in LAYOUTS {
        for (number, _) in WORDS {
            let mut image = four(layout);
            spoil(&mut image, layout, number);
            set_slot(&mut image, 3, 17, 1);
            set_slot(&mut image, 3, 18, 20); // longer than its chain
            let lines = lossy(&folder, &image);
            assert_eq!(dropped(&lines), [(2, number), (3, 7)]);
            assert!(mended(&folder).1.files.iter().flatten().count() == 2);
        }
        let mut image = four(layout);
        spoil(&mut image, layout, 6);
        spoil(&mut image, layout, 5);
        assert_eq!(dropped(&lossy(&folder, &image)), [(2, 5)]); // the first that applies
    }
}

/// What only a dropped slot has, no kept slot has: a name is new there, and a block is no other's.
#[test]
fn a_dropped_slot_is_in_nobodys_way() {
    let folder = Folder::new("salvage-way");
    for layout in LAYOUTS {
        let mut image = four(layout);
        set_slot(&mut image, 1, 16, 255);
        spoil(&mut image, layout, 5); // C is called B
        assert_eq!(dropped(&lossy(&folder, &image)), [(1, 4)]);
        let (_, disk) = mended(&folder);
        assert!(disk.file(2).is_some_and(|file| file.name.starts_with(b"B ")));
        let mut image = four(layout);
        set_slot(&mut image, 1, 16, 255);
        set_slot(&mut image, 2, 20, (layout.first() + 2) as u8); // C has B's chain
        assert_eq!(dropped(&lossy(&folder, &image)), [(1, 4)]);
        let (mended, disk) = mended(&folder);
        assert_eq!(content(&mended, disk.file(2).expect("kept")), [b'B'; 2000]);
    }
}

#[test]
fn nothing_may_be_kept() {
    let folder = Folder::new("salvage-nothing");
    for layout in LAYOUTS {
        let mut image = four(layout);
        (0..4).for_each(|slot| set_slot(&mut image, slot, 16, 1));
        let lines = lossy(&folder, &image);
        assert_eq!(dropped(&lines), [(0, 4), (1, 4), (2, 4), (3, 4)]);
        assert_eq!(lines[5], "  0 slots kept, 4 dropped, 8 map values changed, 8 blocks freed");
        assert_eq!(mended(&folder).1.free().len(), layout.data_blocks());
    }
}

/// Strays and system values cost no file, and then the status is 0.
#[test]
fn a_map_may_be_mended_without_a_loss() {
    let folder = Folder::new("salvage-map");
    for layout in LAYOUTS {
        let mut image = four(layout);
        set_map(&mut image, layout.blocks() - 1, 5);
        folder.write("a.img", &image);
        let said = folder.sj(&["salvage", "a.img", "--in-place"]).done();
        assert!(said.contains("mended in place\n"), "{said}");
        assert!(said.ends_with("  4 slots kept, 0 dropped, 1 map value changed, 1 block freed\n"), "{said}");
        assert!(folder.read("a.img") == four(layout));
        if layout.kind != Kind::S900 {
            set_map(&mut image, layout.first() - 1, 0);
            set_map(&mut image, 0, 5);
            folder.write("a.img", &image);
            let said = folder.sj(&["salvage", "a.img", "--in-place"]).done();
            assert!(said.ends_with("3 map values changed, 1 block freed\n"), "{said}");
            assert!(folder.read("a.img") == four(layout));
        }
    }
}

#[test]
fn what_is_no_disk_is_refused() {
    let folder = Folder::new("salvage-noise");
    let noise = Random::new(3).bytes(819_200);
    folder.write("noise.img", &noise);
    folder.write("short.img", &noise[1..]);
    for way in [&["--dry-run"][..], &["--in-place"], &["-o", "new.img"]] {
        let words = |image| [&["salvage", image], way].concat();
        let told = "noise.img: the directory is of no known kind (refusal 2)";
        folder.sj(&words("noise.img")).failed(2, &[told]);
        folder.sj(&words("short.img")).failed(2, &["short.img: ", "bytes long (refusal 1)"]);
    }
    let ran = folder.sj(&["salvage", "--dry-run", "noise.img", "--explain"]);
    ran.failed(2, &["refusal 2", "all 64 slots must have the identity"]);
    let ran = folder.sj(&["salvage", "--dry-run", "noise.img", "--json"]);
    let told = r#"{"file":"noise.img","refusal":2,"place":0,"words":"the directory is of no known kind (refusal 2)"}"#;
    assert_eq!((ran.status, String::from_utf8_lossy(&ran.out).trim_end()), (Some(2), told));
    assert!(folder.read("noise.img") == noise && folder.read("short.img") == noise[1..]);
    assert_eq!(folder.names(), ["noise.img", "short.img"]);
}

#[test]
fn a_statement_in_json() {
    let folder = Folder::new("salvage-json");
    let mut image = four(S900_LOW);
    set_slot(&mut image, 1, 1, 255);
    spoil(&mut image, S900_LOW, 6);
    folder.write("a.img", &image);
    let ran = folder.sj(&["salvage", "a.img", "-o", "b.img", "--json"]);
    let expected = concat!(
        r#"{"file":"a.img","kind":"S900","density":"low","files":2,"free":792,"free_bytes":811008,"changed":true,"#,
        r#""dry_run":false,"to":"b.img","kept":2,"dropped":2,"map_values":4,"freed":4,"slots":["#,
        r#"{"slot":0,"name":"A","stored":"A         ","type":"S","type_byte":83,"length":2000,"fate":"kept"},"#,
        r#"{"slot":1,"name":"\"B\\xFF        \"","stored":"\"B\\xFF        \"","type":"S","type_byte":83,"length":2000,"fate":"dropped","#,
        r#""refusal":4,"words":"a slot of the directory is malformed","bytes":"42ff202020202020202000000000000053d0070006000000"},"#,
        r#"{"slot":2,"name":"C","stored":"C         ","type":"S","type_byte":83,"length":2000,"fate":"dropped","refusal":6,"#,
        r#""words":"a file's chain of blocks leaves the data area","bytes":"4320202020202020202000000000000053d0070008000000"},"#,
        r#"{"slot":3,"name":"D","stored":"D         ","type":"S","type_byte":83,"length":2000,"fate":"kept"}]}"#,
        "\n"
    );
    assert_eq!((ran.status, String::from_utf8(ran.out).expect("text").as_str()), (Some(1), expected));
    let ran = folder.sj(&["salvage", "b.img", "a.img", "none.img", "--json", "--dry-run"]);
    let said = String::from_utf8(ran.out).expect("text");
    let lines: Vec<&str> = said.lines().collect();
    assert!(lines[0].contains(r#""changed":false,"dry_run":true,"kept":2,"#), "{said}");
    assert!(lines[2].starts_with(r#"{"file":"none.img","error":"#), "{said}");
    let closing = concat!(
        r#"{"accepted":1,"mended":1,"dry_run":true,"refused":0,"refusals":{},"failed":1,"#,
        r#""kept":4,"dropped":2,"map_values":4,"freed":4}"#
    );
    assert_eq!((ran.status, lines.len(), lines[3]), (Some(2), 4, closing));
}

/// One that is refused keeps none of the others from being mended, and the closing line has the sums.
#[test]
fn many_are_summed_up() {
    let folder = Folder::new("salvage-many");
    let mut image = four(S900_LOW);
    spoil(&mut image, S900_LOW, 7);
    folder.write("a.img", &image);
    folder.write("b.img", &four(LAYOUTS[3]));
    folder.write("c.img", &[7; 819_200]);
    spoil(&mut image, S900_LOW, 5);
    set_map(&mut image, 700, 9);
    folder.write("d.img", &image);
    let sums = "10 slots kept, 2 dropped, 5 map values changed, 5 blocks freed\n";
    let ended = |ran: Ran, status: i32, closing: &str, sums: &str| {
        let said = String::from_utf8_lossy(&ran.out).into_owned();
        assert_eq!(ran.status, Some(status), "{said}{}", ran.err);
        assert!(said.ends_with(&format!("\n{closing}; {sums}")), "{said}");
    };
    let all = "1 accepted, 2 to mend, 1 refused (2: 1)";
    ended(folder.sj(&["salvage", ".", "--dry-run"]), 2, all, sums);
    let images = ["salvage", "a.img", "none.img", "b.img", "c.img", "d.img"];
    let all = "1 accepted, 2 mended, 1 refused (2: 1), 1 failed";
    ended(folder.sj(&[&images[..], &["--in-place"]].concat()), 2, all, sums);
    let sums = "10 slots kept, 0 dropped, 0 map values changed, 0 blocks freed\n";
    let all = "3 accepted, 0 mended, 0 refused";
    ended(folder.sj(&["salvage", "a.img", "b.img", "d.img", "--in-place"]), 0, all, sums);
    folder.write("d.img", &image);
    let ran = folder.sj(&["salvage", "a.img", "d.img", "--in-place", "--quiet"]);
    let said = String::from_utf8(ran.out).expect("text");
    assert_eq!((ran.status, said.lines().count()), (Some(1), 6)); // d.img alone, which loses something
    assert_eq!(folder.sj(&["salvage", "a.img", "d.img", "--in-place", "--quiet"]).done(), "");
}

/// Any damage: what is written is accepted, its files are those that are told as kept, and nothing is left to mend.
#[test]
fn damaged_disks_are_mended() {
    let (folder, mut random) = (Folder::new("salvage-damage"), Random::new(4));
    for turn in 0..60 {
        let layout = LAYOUTS[turn % LAYOUTS.len()];
        let mut image = disk(layout, 30, 100, turn as u64);
        faults::damage(&mut image, layout, &mut random);
        folder.write("a.img", &image);
        let ran = folder.sj(&["salvage", "a.img", "-o", "mended.img", "--force"]);
        let said = String::from_utf8(ran.out).expect("text");
        if calls::check(&image).is_err_and(|refusal| refusal.number < 3) {
            assert_eq!((ran.status, said.as_str()), (Some(2), ""));
            continue;
        }
        let lines: Vec<String> = said.lines().map(str::to_string).collect();
        assert_eq!(ran.status, Some(i32::from(!dropped(&lines).is_empty())), "{said}");
        let mended = folder.read("mended.img");
        let disk = read(&mended).expect("accepted");
        let used: Vec<usize> = (0..disk.files.len()).filter(|&slot| disk.file(slot).is_some()).collect();
        let kept =
            |slot: &usize| lines.iter().any(|line| line.trim_start().starts_with(&format!("#{slot} ")));
        assert!(used.iter().all(kept) && lines.len() == 2 + used.len() + dropped(&lines).len(), "{said}");
        let data = 1024 * layout.first();
        assert!(mended[data..] == image[data..]);
        let told = folder.sj(&["salvage", "mended.img", "--dry-run"]).done();
        assert!(told.contains(", nothing to mend, it is as it was\n"), "{told}");
    }
}
