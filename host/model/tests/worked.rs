//! The worked disks and words of document 01, and such for the requests of document 02.

mod common;

use common::{at, empty, map, slot};
use model::calls::{Checked, blocks, check, find, list, page, put, remove};
use model::layout::{Kind, LAYOUTS, Layout};
use model::{Refusal, samples};

const S900_LOW: Layout = LAYOUTS[0];
const S1000_LOW: Layout = LAYOUTS[2];
const S1000_HIGH: Layout = LAYOUTS[3];
const S3000: Layout = LAYOUTS[4];

fn counts(image: &[u8]) -> (usize, usize) {
    let checked = check(image).expect("accepted");
    (checked.files, checked.free)
}

fn refused(image: &[u8], number: u32, place: usize) {
    assert_eq!(check(image), Err(Refusal { number, place }));
}

#[test]
fn accepted_disks() {
    let p1 = vec![0; 819_200];
    assert_eq!(check(&p1).map(|checked| checked.layout), Ok(S900_LOW));
    assert_eq!(counts(&p1), (0, 796));
    let mut p3 = empty(S1000_HIGH);
    slot(&mut p3, 0, 1024, 5);
    map(&mut p3, 5, 49152);
    assert_eq!(check(&p3).map(|checked| checked.layout), Ok(S1000_HIGH));
    assert_eq!(counts(&p3), (1, 1594));
    let mut p6 = empty(S900_LOW);
    slot(&mut p6, 0, 1, 4);
    map(&mut p6, 4, 32768);
    assert_eq!(counts(&p6), (1, 795));
}

#[test]
fn refused_disks() {
    refused(&vec![0; 819_199], 1, 0); // P2
    let mut image = empty(S1000_HIGH);
    map(&mut image, 5, 49152);
    slot(&mut image, 0, 1025, 5); // P4
    refused(&image, 7, 0);
    slot(&mut image, 0, 1, 4); // P5
    refused(&image, 6, 0);
    slot(&mut image, 0, 1, 1600); // P7
    refused(&image, 6, 0);
    slot(&mut image, 0, 1, 5);
    slot(&mut image, 1, 1, 5); // P9
    refused(&image, 8, 1);
    let mut image = empty(S1000_HIGH);
    slot(&mut image, 0, 2048, 5);
    map(&mut image, 5, 5); // P8
    refused(&image, 7, 0);
    let mut image = empty(S900_LOW);
    map(&mut image, 9, 32768); // P10
    refused(&image, 9, 9);
    let mut image = empty(S1000_LOW);
    map(&mut image, 4, 16384);
    refused(&image, 9, 4);
}

/// Request one: 49,152 ends the chains of an S1000 disk, and 19,152 is a bad value like any other.
#[test]
fn the_sources_slip_ends_no_chain() {
    let mut image = empty(S1000_HIGH);
    map(&mut image, 5, 19152);
    refused(&image, 9, 5);
    slot(&mut image, 0, 1024, 5);
    refused(&image, 7, 0);
    slot(&mut image, 0, 1025, 5);
    refused(&image, 6, 0);
    let mut image = empty(S1000_HIGH);
    assert_eq!(put(&mut image, b"A           ", b's', &[7; 1025]), Ok(0));
    assert_eq!(image[1536 + 10..][..4], [6, 0, 0, 192]);
}

/// Request two: on S1000 disks small letters are capitals, and two spellings are one name.
#[test]
fn spellings_are_one_name_on_s1000_disks_alone() {
    let mut image = empty(S1000_HIGH);
    assert_eq!(put(&mut image, b"Bass c2     ", b's', b"x"), Ok(0));
    assert_eq!(image[..12], [12, 11, 29, 29, 10, 13, 2, 10, 10, 10, 10, 10]);
    assert_eq!(list(&image, 0).map(|listed| listed.name), Ok(b"BASS C2     ".to_vec()));
    assert_eq!(find(&image, b"bAsS C2     ", b's'), Ok(0));
    assert_eq!(put(&mut image, b"bASS C2     ", b's', b"x"), Err(Refusal { number: 12, place: 0 }));
    assert_eq!(put(&mut image, b"bASS c2     ", b'p', b"x"), Ok(1));
    assert_eq!(remove(&mut image, b"BASs c2     ", b's'), Ok(()));
    assert_eq!(find(&image, b"bass C2     ", b'p'), Ok(1));
    assert_eq!(counts(&image), (1, 1594));
    let mut image = empty(S900_LOW);
    assert_eq!(put(&mut image, b"Bass      ", b'S', b"x"), Ok(0));
    assert_eq!(find(&image, b"BASS      ", b'S'), Err(Refusal { number: 10, place: 0 }));
    assert_eq!(put(&mut image, b"BASS      ", b'S', b"x"), Ok(1));
    assert_eq!(remove(&mut image, b"Bass      ", b'S'), Ok(()));
    assert_eq!(find(&image, b"BASS      ", b'S'), Ok(1));
}

/// Request five: what tells an S3000 disk, asked before the identities, and the disks that are none.
#[test]
fn s3000_disks_are_told_by_one_byte() {
    let image = empty(S3000);
    assert_eq!(check(&image), Ok(Checked { layout: S3000, files: 0, free: 1583 }));
    for (layout, refusal) in [(S900_LOW, 2), (S1000_LOW, 2)] {
        let mut image = empty(layout);
        image[16] = 255;
        refused(&image, refusal, 0);
    }
    // valid but for the byte: too few system blocks
    let mut image = empty(S1000_HIGH);
    image[16] = 255;
    refused(&image, 3, 5);
    (5..17).for_each(|block| map(&mut image, block, 16384));
    assert_eq!(counts(&image), (0, 1583)); // identities of 0,3 all over
    image[16] = 254;
    refused(&image, 4, 0);
    image[16] = 0;
    refused(&image, 9, 5);
    image[24 * 63 + 23] = 12;
    refused(&image, 2, 0);
    // all identities of 0,12 are those of no kind
    let mut image = empty(S3000);
    image[16] = 0;
    (0..64).for_each(|slot| image[24 * slot + 23] = 12);
    refused(&image, 2, 0);
}

/// Request five: the rules of an S3000 disk, one by one.
#[test]
fn s3000_disks_are_refused() {
    for (block, value) in [(0, 0), (5, 0), (16, 49152), (16, 16385)] {
        let mut image = empty(S3000);
        map(&mut image, block, value);
        refused(&image, 3, block);
    }
    let mut image = empty(S3000);
    map(&mut image, 17, 16384);
    refused(&image, 9, 17);
    for start in [0, 5, 16, 1600, 49152] {
        let mut image = empty(S3000);
        slot(&mut image, 300, 1, start);
        refused(&image, 6, 300);
    }
    for (length, value, number) in [(1, 32768, 7), (1025, 32768, 6), (1025, 49152, 7), (1025, 16, 6)] {
        let mut image = empty(S3000);
        slot(&mut image, 0, length, 17);
        map(&mut image, 17, value);
        refused(&image, number, 0);
    }
}

/// Request five: a used slot of an S3000 disk, byte by byte; an empty one isn't read.
#[test]
fn s3000_slots_are_judged() {
    let mut good = empty(S3000);
    slot(&mut good, 70, 1, 17);
    map(&mut good, 17, 49152);
    assert_eq!(counts(&good), (1, 1582));
    let from = at(&good, 70);
    let of_s1000 = [(12, 32), (13, 32), (14, 32), (15, 32), (16, b's')];
    let others = [(11, 41), (15, 1), (15, 0), (16, b'S'), (16, 192), (16, 219), (16, 255), (17, 0)];
    let identities = [(22, 1), (22, 12), (23, 3), (23, 11), (23, 0)];
    for (offset, value) in [&of_s1000[..], &others, &identities].concat() {
        let mut image = good.clone();
        image[from + offset] = value;
        refused(&image, 4, 70);
    }
    for (offset, value) in [(0, 40), (11, 0), (16, 193), (16, 218), (17, 255)] {
        let mut image = good.clone();
        image[from + offset] = value;
        assert_eq!(counts(&image), (1, 1582));
    }
    let mut image = good.clone();
    image[5120..from].fill(7);
    (0..70).for_each(|slot| image[5120 + 24 * slot + 16] = 0);
    assert_eq!(counts(&image), (1, 1582));
    slot(&mut image, 511, 1, 18);
    map(&mut image, 18, 49152);
    image.copy_within(from..from + 16, 5120 + 24 * 511);
    refused(&image, 5, 511);
    image[5120 + 24 * 511 + 16] = 208;
    assert_eq!(counts(&image), (2, 1581));
}

/// Request five: the last slot, and those past it.
#[test]
fn s3000_disks_have_512_slots() {
    let mut image = empty(S3000);
    slot(&mut image, 511, 3, 1599);
    map(&mut image, 1599, 49152);
    image[1599 * 1024..][..3].copy_from_slice(b"END");
    let listed = list(&image, 511).expect("a file");
    assert_eq!((&listed.name[..], listed.file_type, listed.length), (&b"RS          "[..], 211, 3));
    assert_eq!(find(&image, b"rs          ", 211), Ok(511));
    let mut end = [0; 4];
    assert_eq!(page(&image, 511, 0, &mut end).map(|page| (page.count, page.end)), Ok((3, true)));
    assert_eq!(end, *b"END\0");
    let mut one = [0];
    assert_eq!((blocks(&image, 511, &mut one), one), (Ok(1), [1599]));
    for slot in [0, 510, 512, 513] {
        assert_eq!(list(&image, slot), Err(Refusal { number: 10, place: 0 }));
    }
    for slot in 0..511 {
        let name = format!("NEW {slot:<8}");
        assert_eq!(put(&mut image, name.as_bytes(), 211, b"x"), Ok(slot));
    }
    assert_eq!(put(&mut image, b"ONE MORE    ", 211, b"x"), Err(Refusal { number: 14, place: 0 }));
    assert_eq!(put(&mut image, b"rs          ", 211, b"x"), Err(Refusal { number: 12, place: 511 }));
    assert_eq!(counts(&image), (512, 1583 - 512));
}

/// Request five: put writes all of a slot, its identity too; remove leaves that. Nothing else of either directory changes.
#[test]
fn s3000_files_are_put_and_removed() {
    let mut image = empty(S3000);
    image[..16].fill(200);
    image[17..1536].fill(201);
    image[4736..5120].fill(202);
    image[5120 + 24 * 3..][..24].fill(203);
    (0..4).for_each(|slot| image[5120 + 24 * slot + 16] = 0);
    let before = image.clone();
    for name in [b"0           ", b"1           ", b"2           "] {
        assert_eq!(put(&mut image, name, 193, b"x"), Ok(usize::from(name[0] - b'0')));
    }
    assert_eq!(put(&mut image, b"Bass c2     ", b'S', &[7; 1025]), Err(Refusal { number: 11, place: 0 }));
    assert_eq!(put(&mut image, b"Bass c2     ", 211, &[7; 1025]), Ok(3));
    let bass = [12, 11, 29, 29, 10, 13, 2, 10, 10, 10, 10, 10, 0, 0, 0, 2, 211, 1, 4, 0, 20, 0, 0, 12];
    assert_eq!(image[5120 + 24 * 3..][..24], bass);
    assert_eq!(image[1536 + 2 * 20..][..4], [21, 0, 0, 192]);
    assert_eq!(image[20 * 1024..][..1025], [7; 1025]);
    assert_eq!(image[21 * 1024 + 1..22 * 1024], [0; 1023]);
    let listed = list(&image, 3).expect("a file");
    assert_eq!((&listed.name[..], listed.file_type, listed.length), (&b"BASS C2     "[..], 211, 1025));
    for (name, file_type) in
        [(b"2           ", 193), (b"BASS c2     ", 211), (b"0           ", 193), (b"1           ", 193)]
    {
        assert_eq!(remove(&mut image, name, file_type), Ok(()));
    }
    for slot in 0..4 {
        assert_eq!(image[5120 + 24 * slot..][..24], [&[0; 23][..], &[12]].concat());
    }
    assert_eq!(image[..5120], before[..5120]);
    assert_eq!(image[5120 + 24 * 4..17 * 1024], before[5120 + 24 * 4..17 * 1024]);
    assert_eq!(counts(&image), (0, 1583));
}

#[test]
fn packed_words() {
    for (words, bytes) in [([291, -1], [63, 18, 255]), ([-2048, 2047], [15, 128, 127])] {
        let mut header = vec![0; 60];
        header[..10].fill(b' ');
        header[16] = 2;
        header[26] = b'O';
        let mut file = [0; 64];
        assert_eq!(samples::pack(Kind::S900, &header, &words, &mut file), Ok(63)); // P11, P12
        assert_eq!(file[60..], [bytes[0], bytes[1], bytes[2], 0]);
        let mut back = [0; 3];
        assert_eq!(samples::unpack(Kind::S900, &file[..63], &mut back), Ok(2));
        assert_eq!(back, [words[0], words[1], 0]);
    }
}

#[test]
fn put_of_two_blocks() {
    let mut image = vec![0; 819_200];
    assert_eq!(put(&mut image, b"A         ", b'S', &[7; 1025]), Ok(0)); // P13
    assert_eq!(image[1536 + 8..][..4], [5, 0, 0, 128]);
    assert_eq!(image[..24], *b"A         \0\0\0\0\0\0S\x01\x04\0\x04\0\0\0");
    assert_eq!(image[4096 + 1024..][..3], [7, 0, 0]);
    assert_eq!(counts(&image), (1, 794));
    let mut two = [0; 2];
    assert_eq!((blocks(&image, 0, &mut two), two), (Ok(2), [4, 5]));
}
