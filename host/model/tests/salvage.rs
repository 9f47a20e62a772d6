//! Salvage on disks made by hand: what is dropped and for which reason, what is freed, and what stays.

mod common;

use common::{at, empty, map, slot};
use model::calls::{check, page};
use model::disk::{content, read};
use model::faults::{OF_KNOWN_KIND, spoil};
use model::layout::{Kind, LAYOUTS, Layout};
use model::maker::{self, Plan};
use model::random::Random;
use model::salvage::salvage;
use model::{Answer, Refusal};

const S900_LOW: Layout = LAYOUTS[0];
const S1000_HIGH: Layout = LAYOUTS[3];
const S3000: Layout = LAYOUTS[4];

fn end_mark(layout: Layout) -> u16 {
    if layout.kind == Kind::S900 { 32768 } else { 49152 }
}

/// Three files on any layout: slot 0 in blocks 24 and 25, slot 2 in block 20, slot 5 in 30, 32 and 31.
fn three(layout: Layout) -> Vec<u8> {
    let mut image = empty(layout);
    image[1024 * layout.first()..].fill(0xE5);
    slot(&mut image, 0, 2048, 24);
    slot(&mut image, 2, 1, 20);
    slot(&mut image, 5, 2049, 30);
    let end = end_mark(layout);
    for (block, value) in [(24, 25), (25, end), (20, end), (30, 32), (32, 31), (31, end)] {
        map(&mut image, block, value);
    }
    image
}

/// The three files with some damage.
fn damaged(layout: Layout, damage: impl Fn(&mut [u8])) -> Vec<u8> {
    let mut image = three(layout);
    damage(&mut image);
    image
}

/// Sets a byte of a slot.
fn byte(image: &mut [u8], slot: usize, offset: usize, value: u8) {
    let from = at(image, slot);
    image[from + offset] = value;
}

/// A slot takes another's name.
fn name_of(image: &mut [u8], from: usize, to: usize) {
    image.copy_within(at(image, from)..at(image, from) + 16, at(image, to));
}

/// A slot takes another's length and start.
fn chain_of(image: &mut [u8], from: usize, to: usize) {
    image.copy_within(at(image, from) + 17..at(image, from) + 22, at(image, to) + 17);
}

/// Salvages an image. It has to be what is due, with this report, empty slots left out, and so many map values changed. It is accepted
/// then, a second run changes nothing, and all else of the report is kept.
fn comes_to(mut image: Vec<u8>, due: &[u8], told: &[(usize, u8)], count: usize) {
    let slots = if at(&image, 0) == 0 { 64 } else { 512 };
    let (mut said, mut report) = (vec![0; slots], vec![9; slots + 6]);
    told.iter().for_each(|&(slot, number)| said[slot] = number);
    assert_eq!(salvage(&mut image, &mut report), Ok(count));
    assert_eq!((&report[..slots], &report[slots..]), (&said[..], &[9; 6][..]));
    assert!(image == due, "image at {:?}", image.iter().zip(due).position(|(one, other)| one != other));
    let kept: Vec<u8> = said.iter().map(|&number| u8::from(number == 1)).collect();
    assert_eq!(
        check(&image).map(|checked| checked.files),
        Ok(kept.iter().map(|&one| usize::from(one)).sum())
    );
    assert_eq!(salvage(&mut image, &mut report), Ok(0));
    assert_eq!((&report[..slots], &report[slots..]), (&kept[..], &[9; 6][..]));
    assert!(image == due, "a second run");
}

/// Of an image with this report nothing changes but the slots that are told to be dropped and the map values of these blocks.
fn loses(image: Vec<u8>, told: &[(usize, u8)], freed: &[usize]) {
    let mut due = image.clone();
    for &(slot, _) in told.iter().filter(|told| told.1 > 1) {
        due[at(&image, slot)..][..22].fill(0);
    }
    freed.iter().for_each(|&block| map(&mut due, block, 0));
    comes_to(image, &due, told, freed.len());
}

#[test]
fn malformed_slots_are_dropped() {
    for layout in LAYOUTS {
        for (offset, value) in [(16, 1), (16, 255), (3, 200), (13, 1), (15, 7), (9, 127)] {
            let malformed = damaged(layout, |image| byte(image, 2, offset, value));
            loses(malformed, &[(0, 1), (2, 4), (5, 1)], &[20]);
        }
        let nothing = damaged(layout, |image| slot(image, 5, 0, 30));
        loses(nothing, &[(0, 1), (2, 1), (5, 4)], &[30, 31, 32]);
    }
    // other kinds' types
    for (layout, others) in [(S900_LOW, [b's', 211]), (S1000_HIGH, [b'S', 211]), (S3000, [b's', b'S'])] {
        for other in others {
            let of_another = damaged(layout, |image| byte(image, 0, 16, other));
            loses(of_another, &[(0, 4), (2, 1), (5, 1)], &[24, 25]);
        }
    }
}

/// An S3000 disk's dropped slot keeps its identity, also a wrong one; those of empty slots aren't read.
#[test]
fn identities_are_kept() {
    for (offset, value) in [(22, 1), (23, 3), (23, 11), (23, 0)] {
        let other = damaged(S3000, |image| {
            [1, 2, 511].into_iter().for_each(|number| byte(image, number, offset, value));
        });
        loses(other, &[(0, 1), (2, 4), (5, 1)], &[20]);
    }
}

/// An S3000 disk's first directory isn't read, whatever it says, and stays; so does all that lies between the map and the second one.
#[test]
fn the_first_directory_is_kept() {
    let mut random = Random::new(10);
    let noise = damaged(S3000, |image| byte(image, 5, 16, 1));
    let mut noise =
        [random.bytes(1536), noise[1536..4736].to_vec(), random.bytes(384), noise[5120..].to_vec()];
    noise[0][16] = 255;
    loses(noise.concat(), &[(0, 1), (2, 1), (5, 4)], &[30, 31, 32]);
}

/// The lower slot keeps the name in its type.
#[test]
fn names_of_kept_slots_are_dropped() {
    for layout in LAYOUTS {
        loses(damaged(layout, |image| name_of(image, 0, 2)), &[(0, 1), (2, 5), (5, 1)], &[20]);
        loses(damaged(layout, |image| name_of(image, 5, 2)), &[(0, 1), (2, 1), (5, 5)], &[30, 31, 32]);
        let thrice = damaged(layout, |image| [2, 5].into_iter().for_each(|to| name_of(image, 0, to)));
        loses(thrice, &[(0, 1), (2, 5), (5, 5)], &[20, 30, 31, 32]);
    }
}

/// One name in three types is kept in all of them; so it is beside a slot that has it in one of the types again, wherever that stands.
#[test]
fn names_in_other_types_are_kept() {
    for layout in LAYOUTS {
        let three_types = |types: [u8; 3]| {
            damaged(layout, |image| {
                for (slot, more) in [0, 2, 5].into_iter().zip(types) {
                    name_of(image, 0, slot);
                    let own = image[at(image, slot) + 16];
                    byte(image, slot, 16, own - more);
                }
            })
        };
        loses(three_types([0, 1, 2]), &[(0, 1), (2, 1), (5, 1)], &[]);
        loses(three_types([1, 0, 1]), &[(0, 1), (2, 1), (5, 5)], &[30, 31, 32]);
        loses(three_types([1, 1, 0]), &[(0, 1), (2, 5), (5, 1)], &[20]);
        loses(three_types([0, 1, 1]), &[(0, 1), (2, 1), (5, 5)], &[30, 31, 32]);
        // the type's lower slot is dropped, and counts no more
        for (offset, value, number) in [(13, 1, 4), (21, 255, 6), (17, 1, 7)] {
            let mut image = three_types([1, 0, 1]);
            byte(&mut image, 0, offset, value);
            loses(image, &[(0, number), (2, 1), (5, 1)], &[24, 25]);
        }
    }
}

#[test]
fn faulty_chains_are_dropped() {
    for layout in LAYOUTS {
        let end = end_mark(layout);
        let (last, past) = (layout.first() as u16 - 1, layout.blocks() as u16);
        for start in [0, last, past, 16384, end, 65535] {
            let astray = damaged(layout, |image| slot(image, 5, 2049, start));
            loses(astray, &[(0, 1), (2, 1), (5, 6)], &[30, 31, 32]);
        }
        // 32,768 and 49,152 differ in that one bit: the other kind's end mark
        for value in [last, past, 16384, 19152, end ^ 16384] {
            let astray = damaged(layout, |image| map(image, 32, value));
            loses(astray, &[(0, 1), (2, 1), (5, 6)], &[30, 31, 32]);
            let long = damaged(layout, |image| map(image, 31, value));
            loses(long, &[(0, 1), (2, 1), (5, 7)], &[30, 31, 32]);
        }
        // a value that is 0 already isn't one that changes
        loses(damaged(layout, |image| map(image, 32, 0)), &[(0, 1), (2, 1), (5, 6)], &[30, 31]);
        loses(damaged(layout, |image| map(image, 32, end)), &[(0, 1), (2, 1), (5, 7)], &[30, 31, 32]);
        loses(damaged(layout, |image| map(image, 31, 30)), &[(0, 1), (2, 1), (5, 7)], &[30, 31, 32]);
        loses(damaged(layout, |image| slot(image, 5, 2048, 30)), &[(0, 1), (2, 1), (5, 7)], &[30, 31, 32]);
        loses(damaged(layout, |image| slot(image, 0, 2049, 24)), &[(0, 7), (2, 1), (5, 1)], &[24, 25]);
        let ring = damaged(layout, |image| {
            slot(image, 0, 16_777_215, 24);
            map(image, 25, 24);
        });
        loses(ring, &[(0, 7), (2, 1), (5, 1)], &[24, 25]);
    }
}

/// A shared block stays with the lower slot; what the higher one had alone is free.
#[test]
fn chains_on_kept_blocks_are_dropped() {
    for layout in LAYOUTS {
        let told = [(0, 1), (2, 1), (5, 8)];
        loses(damaged(layout, |image| chain_of(image, 2, 5)), &told, &[30, 31, 32]);
        loses(damaged(layout, |image| slot(image, 5, 1024, 25)), &told, &[30, 31, 32]);
        let ending = damaged(layout, |image| map(image, 32, 20));
        loses(ending, &told, &[30, 31, 32]);
        // the lower slot's start lies in the middle of the higher one's chain
        let within = damaged(layout, |image| slot(image, 2, 2048, 32));
        loses(within, &told, &[20, 30]);
    }
}

/// 9, and 3 on S1000 and S3000 disks: no slot is at fault. System values of S900 disks are kept.
#[test]
fn strays_are_freed_and_system_blocks_marked() {
    let told = [(0, 1), (2, 1), (5, 1)];
    for layout in LAYOUTS {
        let strays = [(layout.first(), 1), (40, 41), (41, 16384), (layout.blocks() - 1, end_mark(layout))];
        let stray =
            damaged(layout, |image| strays.iter().for_each(|&(block, value)| map(image, block, value)));
        loses(stray, &told, &strays.map(|stray| stray.0));
        let last = layout.first() - 1;
        let system =
            damaged(layout, |image| [1, last].into_iter().for_each(|block| map(image, block, 16385)));
        match layout.kind {
            Kind::S900 => loses(system, &told, &[]),
            Kind::S1000 | Kind::S3000 => comes_to(system, &three(layout), &told, 2),
        }
        let lost = damaged(layout, |image| byte(image, 5, 16, 0));
        loses(lost, &[(0, 1), (2, 1)], &[30, 31, 32]); // the slot is empty, and keeps its bytes
    }
}

/// The first reason that applies to a slot; and each slot its own.
#[test]
fn two_reasons_at_once() {
    for layout in LAYOUTS {
        let malformed_name = damaged(layout, |image| {
            name_of(image, 0, 2);
            byte(image, 2, 16, 1);
        });
        loses(malformed_name, &[(0, 1), (2, 4), (5, 1)], &[20]);
        let name_astray = damaged(layout, |image| {
            slot(image, 5, 2049, 0);
            name_of(image, 0, 5);
        });
        loses(name_astray, &[(0, 1), (2, 1), (5, 5)], &[30, 31, 32]);
        let long_shared = damaged(layout, |image| slot(image, 5, 1025, 20));
        loses(long_shared, &[(0, 1), (2, 1), (5, 7)], &[30, 31, 32]);
        let astray_shared = damaged(layout, |image| {
            map(image, 25, 0);
            slot(image, 0, 3072, 24);
            slot(image, 2, 3072, 24);
        });
        loses(astray_shared, &[(0, 6), (2, 6), (5, 1)], &[24, 20]);
        let several = damaged(layout, |image| {
            byte(image, 2, 16, 1);
            map(image, 30, end_mark(layout));
            map(image, 700, 700);
        });
        loses(several, &[(0, 1), (2, 4), (5, 7)], &[20, 30, 31, 32, 700]);
    }
}

/// A name that stands in no lower slot but a dropped one is no repetition.
#[test]
fn names_of_dropped_slots_are_kept() {
    for layout in LAYOUTS {
        for (length, start, number) in [(0, 24, 4), (2048, 0, 6), (1, 24, 7)] {
            let image = damaged(layout, |image| {
                slot(image, 0, length, start);
                name_of(image, 0, 2);
                name_of(image, 0, 5);
            });
            loses(image, &[(0, number), (2, 1), (5, 5)], &[24, 25, 30, 31, 32]);
        }
        // the second of three has a kept block, so that the third is the name's next
        let shared = damaged(layout, |image| {
            chain_of(image, 0, 2);
            name_of(image, 2, 5);
        });
        loses(shared, &[(0, 1), (2, 8), (5, 1)], &[20]);
    }
}

/// A chain that meets no other but a dropped slot's is kept, and so are the blocks that both have.
#[test]
fn chains_on_dropped_blocks_are_kept() {
    for layout in LAYOUTS {
        let malformed = damaged(layout, |image| {
            byte(image, 0, 16, 1);
            chain_of(image, 0, 5);
        });
        loses(malformed, &[(0, 4), (2, 1), (5, 1)], &[30, 31, 32]);
        let twice = damaged(layout, |image| {
            name_of(image, 0, 2);
            chain_of(image, 2, 5);
        });
        loses(twice, &[(0, 1), (2, 5), (5, 1)], &[30, 31, 32]);
        let within = damaged(layout, |image| {
            slot(image, 0, 1, 24);
            slot(image, 5, 1, 25);
        });
        loses(within, &[(0, 7), (2, 1), (5, 1)], &[24, 30, 31, 32]);
        // chains that meet end together: who meets slot 2, which ends on slot 0's chain, ends there too
        let shared = damaged(layout, |image| {
            slot(image, 2, 2048, 20);
            map(image, 20, 25);
            slot(image, 5, 5120, 30);
            map(image, 31, 20);
        });
        loses(shared, &[(0, 1), (2, 8), (5, 8)], &[20, 30, 31, 32]);
    }
}

/// Every slot malformed and every map value wrong: what is left is a disk without files.
#[test]
fn nothing_can_be_kept() {
    for layout in LAYOUTS {
        let mut image = empty(layout);
        let mut due = image.clone();
        for slot in 0..layout.slots() {
            let from = at(&image, slot);
            image[from..][..22].fill(254); // 255 in slot 0 would tell another kind
        }
        for block in 0..layout.blocks() {
            map(&mut image, block, 65535);
            if layout.kind == Kind::S900 && block < layout.first() {
                map(&mut due, block, 65535);
            }
        }
        let told: Vec<(usize, u8)> = (0..layout.slots()).map(|slot| (slot, 4)).collect();
        let count = if layout.kind == Kind::S900 { layout.data_blocks() } else { layout.blocks() };
        comes_to(image, &due, &told, count);
    }
}

/// Noise in directory and map but for what tells the kind, 0 in three type bytes and none of an S3000's types: every used slot is
/// malformed.
#[test]
fn noise_is_mended() {
    let mut random = Random::new(7);
    for layout in LAYOUTS.into_iter().cycle().take(15) {
        let (end, slots) = (1536 + 2 * layout.blocks(), layout.slots());
        let mut image = random.bytes(layout.image_bytes());
        image[16] = if layout.kind == Kind::S3000 { 255 } else { 128 };
        let mut due = image.clone();
        for slot in 0..slots {
            let from = at(&image, slot);
            if layout.kind != Kind::S3000 {
                image[from + 22..][..2].copy_from_slice(&layout.identity());
            }
            image[from + 16] =
                if [0, 13, slots - 1].contains(&slot) { 0 } else { image[from + 16] % 32 + 128 };
            due[from..][..24].copy_from_slice(&image[from..][..24]);
            if image[from + 16] != 0 {
                due[from..][..22].fill(0);
            }
        }
        due[1536..end].copy_from_slice(&empty(layout)[1536..end]);
        if layout.kind == Kind::S900 {
            due[1536..1536 + 2 * layout.first()].copy_from_slice(&image[1536..1536 + 2 * layout.first()]);
        }
        let others = (1536..end).step_by(2).filter(|&at| image[at..at + 2] != due[at..at + 2]).count();
        let used = (0..slots).filter(|slot| ![0, 13, slots - 1].contains(slot));
        let told: Vec<(usize, u8)> = used.map(|slot| (slot, 4)).collect();
        comes_to(image, &due, &told, others);
    }
}

#[test]
fn accepted_disks_stay_as_they_are() {
    let mut random = Random::new(8);
    for layout in LAYOUTS.into_iter().cycle().take(40) {
        let image = maker::disk(layout, Plan::any(layout, &mut random), &mut random);
        let disk = read(&image).expect("accepted");
        let used = (0..layout.slots()).filter(|&slot| disk.file(slot).is_some());
        let told: Vec<(usize, u8)> = used.map(|slot| (slot, 1)).collect();
        comes_to(image.clone(), &image, &told, 0);
    }
}

/// After a salvage of a disk with some faults, a kept slot pages as its blocks were chained before.
#[test]
fn what_is_kept_reads_by_its_own_chain() {
    let (mut random, mut kept) = (Random::new(9), 0);
    for layout in LAYOUTS.into_iter().cycle().take(40) {
        let mut image = maker::disk(layout, Plan::any(layout, &mut random), &mut random);
        let disk = read(&image).expect("accepted");
        let before = image.clone();
        for _ in 0..3 {
            spoil(&mut image, &disk, random.pick(OF_KNOWN_KIND), &mut random);
        }
        let (spoilt, mut report) = (image.clone(), [0; 512]);
        salvage(&mut image, &mut report).expect("a known kind");
        let data = 1024 * layout.first();
        assert!(image[data..] == before[data..]);
        let same = |slot: &usize| {
            let from = at(&spoilt, *slot);
            spoilt[from..from + 24] == before[from..from + 24]
        };
        for slot in (0..layout.slots()).filter(same) {
            let Some(file) = disk.file(slot).filter(|_| report[slot] == 1) else { continue };
            let mut output = vec![0; file.length];
            assert!(page(&image, slot, 0, &mut output).is_ok_and(|page| page.end));
            assert_eq!(output, content(&before, file));
            kept += 1;
        }
    }
    assert!(kept > 500, "{kept}");
}

/// 1, then 2, then 21; nothing is written.
#[test]
fn refusals_in_their_order() {
    fn refused(image: &[u8], room: usize) -> Answer<usize> {
        let (mut lent, mut report) = (image.to_vec(), vec![9; room]);
        let answer = salvage(&mut lent, &mut report);
        assert!(lent == image && report == vec![9; room]);
        answer
    }
    for (layout, slots) in [(S1000_HIGH, 64), (S3000, 512)] {
        let spoilt = damaged(layout, |image| byte(image, 0, 16, 1));
        for room in [0, 1, 63, slots - 1] {
            assert_eq!(refused(&spoilt[1..], room), Err(Refusal { number: 1, place: 0 }));
            assert_eq!(refused(&spoilt, room), Err(Refusal { number: 21, place: 0 }));
        }
    }
    for room in [0, 63, 64, 100, 512] {
        assert_eq!(refused(&[], room), Err(Refusal { number: 1, place: 0 }));
        assert_eq!(refused(&three(S1000_HIGH)[..819_199], room), Err(Refusal { number: 1, place: 0 }));
        let mixed = damaged(S1000_HIGH, |image| image[24 * 63 + 23] = 0);
        assert_eq!(refused(&mixed, room), Err(Refusal { number: 2, place: 0 }));
        let low = damaged(S900_LOW, |image| image[16] = 255);
        assert_eq!(refused(&low, room), Err(Refusal { number: 2, place: 0 }));
        let read = damaged(S3000, |image| image[..48].copy_from_slice(&[[7; 24], [8; 24]].concat()));
        assert_eq!(refused(&read, room), Err(Refusal { number: 2, place: 0 }));
    }
}

/// A report of just a byte for each slot is enough, and of a long one all past those is kept.
#[test]
fn reports_of_any_room() {
    for (layout, slots, more) in
        [(S900_LOW, 64, 0), (S900_LOW, 64, 1), (S900_LOW, 64, 936), (S3000, 512, 0), (S3000, 512, 9)]
    {
        let mut report = vec![9; slots + more];
        assert_eq!(salvage(&mut three(layout), &mut report), Ok(0));
        assert_eq!(report[..6], [1, 0, 1, 0, 0, 1]);
        assert_eq!((&report[6..slots], &report[slots..]), (&vec![0; slots - 6][..], &vec![9; more][..]));
    }
}
