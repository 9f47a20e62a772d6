//! The peer must do the library's work: both answer alike, on good disks and files and on faulty ones.

use crate::calls::{HASHES, LIBRARY, PAIRS, PEER};
use crate::disks::{Order, share_names};
use crate::s3000;
use model::faults::{self, FAULTS};
use model::files;
use model::layout::{Kind, LAYOUTS, SLOTS};
use model::maker::{self, Plan};
use model::random::Random;

/// Compares both sides on some thousands of disks and files; gives how many. Panics where they part.
pub fn hold() -> usize {
    let mut compared = 0;
    for seed in 0..120 {
        let mut random = Random::new(seed);
        compared += disks(&mut random) + s3000_disks(&mut random) + samples(&mut random);
    }
    compared
}

fn disks(random: &mut Random) -> usize {
    let layout = random.pick(&LAYOUTS);
    let image = maker::disk(layout, Plan::any(layout, random), random);
    let disk = model::disk::read(&image).expect("a maker's disk is accepted");
    for fault in FAULTS {
        let mut spoilt = image.clone();
        faults::spoil(&mut spoilt, &disk, fault, random);
        same_check(&spoilt);
        same_salvage(&spoilt, SLOTS);
        let mut damaged = image.clone();
        faults::damage(&mut damaged, layout, random);
        same_check(&damaged);
        same_salvage(&damaged, SLOTS);
        let mut wrecked = image.clone();
        faults::wreck(&mut wrecked, &disk, random);
        same_salvage(&wrecked, SLOTS);
    }
    same_check(&image);
    same_salvage(&image, SLOTS);
    changes(image, layout.kind, random);
    3 * FAULTS.len() + 1
}

/// S3000 disks with up to three faults.
fn s3000_disks(random: &mut Random) -> usize {
    let files = random.pick(&[0, 1, 40, 500, 511, 512]);
    let used = random.within(files, s3000::DATA_BLOCKS);
    let mut image = s3000::disk(files, used, random.pick(&[Order::Rising, Order::Scattered]));
    if random.one_in(2) {
        share_names(&mut image, s3000::DIRECTORY, files, s3000::PROGRAM);
    }
    for _ in 0..20 {
        let mut spoilt = image.clone();
        for _ in 0..random.within(0, 3) {
            s3000::spoil(&mut spoilt, random);
        }
        same_check(&spoilt);
        same_salvage(&spoilt, s3000::SLOTS);
    }
    changes(image, Kind::S3000, random);
    20
}

/// Both check an image alike.
pub fn same_check(image: &[u8]) {
    assert_eq!(LIBRARY.check(image), PEER.check(image), "check");
    assert_eq!(PEER.check(image), PAIRS.check(image), "check of all pairs");
    assert_eq!(PEER.check(image), HASHES.check(image), "check by hashes");
}

/// Both salvage an image of so many slots alike, and refuse to where the report is too short; gives the report.
pub fn same_salvage(image: &[u8], slots: usize) -> Vec<u8> {
    let (mut ours, mut theirs) = (image.to_vec(), image.to_vec());
    let (mut our, mut their) = (vec![9; slots + 3], vec![9; slots + 3]);
    for room in [slots - 1, slots + 3] {
        let salvaged = LIBRARY.salvage(&mut ours, &mut our[..room]);
        assert_eq!(salvaged, PEER.salvage(&mut theirs, &mut their[..room]), "salvage");
        assert_eq!(our, their, "reports");
        assert!(ours == theirs, "images part");
    }
    our.truncate(slots);
    our
}

/// Puts, finds and removes, legal and not, by the same name in more than one spelling and more than one type.
fn changes(mut image: Vec<u8>, kind: Kind, random: &mut Random) {
    let mut copy = image.clone();
    for _ in 0..12 {
        let mut name = maker::legal_name(kind, random);
        if random.one_in(2) {
            name = maker::respelt(&name, random);
        }
        if random.one_in(8) {
            name[3] = random.pick(&[200, b'@', b'[', b'`', b'{']);
        }
        let file_type = if random.one_in(8) { b'!' } else { maker::legal_type(kind, random) };
        let size = random.pick(&[0, 1, 1024, 1025, 50_000, 1_000_000]);
        let content = random.bytes(size);
        let put = LIBRARY.put(&mut image, &name, file_type, &content);
        assert_eq!(put, PEER.put(&mut copy, &name, file_type, &content), "put");
        let name = maker::respelt(&name, random);
        for other in [file_type, maker::legal_type(kind, random), 0] {
            assert_eq!(LIBRARY.find(&image, &name, other), PEER.find(&copy, &name, other), "find");
            if random.one_in(3) {
                let again = LIBRARY.put(&mut image, &name, other, b"again");
                assert_eq!(again, PEER.put(&mut copy, &name, other, b"again"), "put again");
                let removed = LIBRARY.remove(&mut image, &name, other);
                assert_eq!(removed, PEER.remove(&mut copy, &name, other), "remove");
            }
        }
        assert!(image == copy, "images part");
    }
}

fn samples(random: &mut Random) -> usize {
    for kind in [Kind::S900, Kind::S1000] {
        let count = 2 * random.below(200);
        let mut file = files::sample(kind, count, random);
        if random.one_in(2) {
            let at = random.below(60);
            file[at] = random.byte();
        }
        let mut words = [[7i16; 402]; 2];
        let room = random.pick(&[402, count, count / 2]);
        let [ours, theirs] = &mut words;
        let unpacked = LIBRARY.unpack(kind, &file, &mut ours[..room]);
        assert_eq!(unpacked, PEER.unpack(kind, &file, &mut theirs[..room]), "unpack");
        assert_eq!(ours, theirs, "words");
        if kind == Kind::S900 && random.one_in(3) && count > 0 {
            ours[random.below(count)] = random.pick(&[2048, -2049]);
        }
        packed(kind, &file, &ours[..count]);
    }
    4
}

fn packed(kind: Kind, file: &[u8], words: &[i16]) {
    let header = &file[..model::samples::header_bytes(kind)];
    let mut outs = [vec![9u8; file.len() + 3], vec![9u8; file.len() + 3]];
    let [ours, theirs] = &mut outs;
    assert_eq!(LIBRARY.pack(kind, header, words, ours), PEER.pack(kind, header, words, theirs), "pack");
    assert_eq!(ours, theirs, "files");
}
