//! What the maker makes: disks that are accepted, and faults that are refused as they say. And the calls on
//! bytes against the plain record.

use model::calls;
use model::disk::{Disk, content, read};
use model::faults::{FAULTS, Fault, share_name, spoil};
use model::files;
use model::layout::{Kind, LAYOUTS, Layout};
use model::maker::{self, Plan};
use model::random::Random;
use model::record::Record;
use model::{Refusal, program, samples};
use std::collections::{BTreeMap, BTreeSet};

fn plans(random: &mut Random) -> Vec<(usize, Plan)> {
    let layouts = LAYOUTS.into_iter().enumerate();
    let mut plans = Vec::new();
    for plan in [Plan::scattered, Plan::near_full, Plan::full_directory] {
        plans.extend(layouts.clone().map(|(at, layout)| (at, plan(layout, random))));
    }
    plans
}

#[test]
fn disks_are_accepted() {
    let mut random = Random::new(1);
    for (at, plan) in (0..10).flat_map(|_| plans(&mut random)).collect::<Vec<_>>() {
        let checked = calls::check(&maker::disk(LAYOUTS[at], plan, &mut random)).expect("accepted");
        let free = if plan.files == 0 { LAYOUTS[at].data_blocks() } else { plan.free };
        assert_eq!((checked.layout, checked.files, checked.free), (LAYOUTS[at], plan.files, free));
    }
}

/// S3000 disks have files in slots past 63, and whole directories of them; what isn't read is noise, also a directory that would
/// tell of another kind, and wrong identities in empty slots.
#[test]
fn s3000_disks_are_of_every_sort() {
    let (mut random, layout) = (Random::new(7), LAYOUTS[4]);
    let (mut high, mut full, mut s900, mut s1000, mut odd) = (0, 0, 0, 0, 0);
    for _ in 0..100 {
        let image = maker::disk(layout, Plan::any(layout, &mut random), &mut random);
        let disk = read(&image).expect("accepted");
        high += usize::from(disk.files[64..].iter().any(Option::is_some));
        full += usize::from(disk.files.iter().all(Option::is_some));
        let all = |own: [u8; 2]| image[..1536].chunks(24).all(|slot| slot[22..] == own);
        s900 += usize::from(all([0, 0]));
        s1000 += usize::from(all([0, 3]));
        odd += image[5120..17_408].chunks(24).filter(|slot| slot[16] == 0 && slot[22..] != [0, 12]).count();
    }
    assert!([high, full, s900, s1000].iter().all(|&times| times >= 5), "{high} {full} {s900} {s1000}");
    assert!(odd > 1000, "{odd}");
}

/// On all five layouts there are disks whose names all differ, and others with names that stand in two types, three and more.
#[test]
fn names_stand_in_several_types() {
    let mut random = Random::new(11);
    for layout in LAYOUTS {
        let (mut apart, mut met) = (0, [0; 5]);
        for _ in 0..60 {
            let image = maker::disk(layout, Plan::any(layout, &mut random), &mut random);
            let disk = read(&image).expect("accepted");
            let mut types: BTreeMap<&[u8], usize> = BTreeMap::new();
            disk.files.iter().flatten().for_each(|file| *types.entry(&file.name).or_default() += 1);
            apart += usize::from(types.values().all(|&types| types == 1));
            types.into_values().for_each(|types| met[types.min(4)] += 1);
        }
        assert!(apart >= 5 && met[1..].iter().all(|&names| names >= 30), "{layout:?}: {apart}, {met:?}");
    }
}

/// Whether two files of one type have names that differ in the case of letters alone.
fn is_spelt_twice(disk: &Disk) -> bool {
    let mut capitals = BTreeSet::new();
    disk.files.iter().flatten().any(|file| !capitals.insert((file.name.to_ascii_uppercase(), file.file_type)))
}

/// A name that a slot takes from another in a type of its own is no fault, again and again on one disk; on S900 disks another spelling
/// in the same type is none either.
#[test]
fn shared_names_are_accepted() {
    let mut random = Random::new(12);
    for layout in LAYOUTS {
        let (mut shared, mut spelt) = (0, 0);
        for _ in 0..30 {
            let mut image = maker::disk(layout, Plan::any(layout, &mut random), &mut random);
            let mut disk = read(&image).expect("accepted");
            for _ in 0..8 {
                let before = calls::check(&image);
                shared += usize::from(share_name(&mut image, &disk, &mut random).is_some());
                assert_eq!(calls::check(&image), before);
                disk = read(&image).expect("accepted");
            }
            spelt += usize::from(is_spelt_twice(&disk));
        }
        let enough = if layout.kind == Kind::S900 { spelt > 10 } else { spelt == 0 };
        assert!(shared > 100 && enough, "{layout:?}: {shared}, {spelt}");
    }
}

#[test]
fn faults_are_refused() {
    let mut random = Random::new(2);
    let mut met = vec![[0; 5]; FAULTS.len()];
    for (at, plan) in (0..20).flat_map(|_| plans(&mut random)).collect::<Vec<_>>() {
        let good = maker::disk(LAYOUTS[at], plan, &mut random);
        let disk = read(&good).expect("accepted");
        for (which, &fault) in FAULTS.iter().enumerate() {
            let mut image = good.clone();
            if let Some(refusal) = spoil(&mut image, &disk, fault, &mut random) {
                assert_eq!(calls::check(&image), Err(refusal), "{fault:?}");
                met[which][at] += 1;
            }
        }
    }
    for (fault, times) in FAULTS.iter().zip(met) {
        for (layout, times) in LAYOUTS.iter().zip(times) {
            let can = match fault {
                Fault::System => layout.kind != Kind::S900,
                Fault::Ignored => layout.kind != Kind::S3000,
                Fault::SlotIdentity => layout.kind == Kind::S3000,
                _ => true,
            };
            assert!(if can { times > 20 } else { times == 0 }, "{times} times {fault:?} on {layout:?}");
        }
    }
}

/// One call on bytes and record alike; the page's output too.
fn step(image: &mut [u8], record: &mut Record, random: &mut Random, layout: Layout) {
    let kind = layout.kind;
    let other = maker::legal_type(kind, random);
    let (mut name, mut file_type) = match record.list(random.below(layout.slots())) {
        Ok(listed) => (listed.name, if random.one_in(4) { other } else { listed.file_type }),
        Err(_) => (maker::legal_name(kind, random), other),
    };
    if random.one_in(20) {
        file_type = random.byte();
    }
    if random.one_in(3) {
        name = maker::respelt(&name, random);
    }
    if random.one_in(20) {
        name[0] = random.byte();
    }
    let (slot, offset) = (random.below(layout.slots() + 2), random.below(5000));
    match random.below(5) {
        0 => assert_eq!(calls::find(image, &name, file_type), record.find(&name, file_type)),
        1 => assert_eq!(calls::list(image, slot), record.list(slot)),
        2 => {
            let (mut one, mut other) = ([9; 3000], [9; 3000]);
            assert_eq!(calls::page(image, slot, offset, &mut one), record.page(slot, offset, &mut other));
            assert_eq!(one, other);
        }
        3 => {
            let (new, content) = (maker::legal_name(kind, random), random.bytes(offset));
            let name = if random.one_in(3) { name } else { maker::respelt(&new, random) };
            let put = calls::put(image, &name, file_type, &content);
            assert_eq!(put, record.put(&name, file_type, &content));
        }
        _ => assert_eq!(calls::remove(image, &name, file_type), record.remove(&name, file_type)),
    }
    assert_eq!(calls::check(image), record.check());
}

#[test]
fn calls_behave_as_the_record() {
    let mut random = Random::new(3);
    for (at, plan) in plans(&mut random) {
        let mut image = maker::disk(LAYOUTS[at], plan, &mut random);
        let disk = read(&image).expect("accepted");
        let mut record = Record::of(&image, &disk);
        for turn in 0..300 {
            step(&mut image, &mut record, &mut random, LAYOUTS[at]);
            if turn % 50 == 0 {
                let disk = read(&image).expect("accepted");
                assert_eq!(record, Record::of(&image, &disk));
            }
        }
    }
}

/// A slot's blocks hold its content, and the output past them is kept; shorter outputs are refused.
#[test]
fn blocks_hold_the_content() {
    let mut random = Random::new(6);
    for (at, plan) in plans(&mut random) {
        let image = maker::disk(LAYOUTS[at], plan, &mut random);
        let disk = read(&image).expect("accepted");
        for slot in 0..disk.files.len() + 2 {
            let mut output = vec![9; 1600];
            let Some(file) = disk.file(slot) else {
                assert_eq!(calls::blocks(&image, slot, &mut output), Err(Refusal { number: 10, place: 0 }));
                continue;
            };
            let count = file.length.div_ceil(1024);
            assert_eq!(calls::blocks(&image, slot, &mut output), Ok(count));
            assert!(output[count..].iter().all(|&block| block == 9));
            let held: Vec<&[u8]> =
                output[..count].iter().map(|&b| &image[1024 * b as usize..][..1024]).collect();
            assert_eq!(held.concat()[..file.length], content(&image, file));
            let mut short = vec![9; count - 1];
            assert_eq!(calls::blocks(&image, slot, &mut short), Err(Refusal { number: 21, place: 0 }));
            assert_eq!(short, vec![9; count - 1]);
        }
    }
}

#[test]
fn samples_go_there_and_back() {
    let mut random = Random::new(4);
    for kind in [Kind::S900, Kind::S1000] {
        for count in [0, 2, 4, 100, 1000] {
            let file = files::sample(kind, count, &mut random);
            let mut words = vec![0; count];
            assert_eq!(samples::unpack(kind, &file, &mut words), Ok(count));
            let mut back = vec![0; file.len()];
            let header = &file[..samples::header_bytes(kind)];
            assert_eq!(samples::pack(kind, header, &words, &mut back), Ok(file.len()));
            assert_eq!(back, file);
        }
    }
}

#[test]
fn programs_are_accepted_and_judged() {
    let mut random = Random::new(5);
    for keygroups in [1, 2, 99] {
        let mut file = files::program(keygroups, &mut random);
        assert_eq!(program::check(&file), Ok(keygroups));
        file[150 + 137] = 8;
        assert_eq!(program::check(&file), Err(Refusal { number: 20, place: 150 + 136 }));
        file[150 + 40] = 41;
        assert_eq!(program::check(&file), Err(Refusal { number: 20, place: 150 + 40 }));
        file.push(0);
        assert_eq!(program::check(&file), Err(Refusal { number: 20, place: 42 }));
        assert_eq!(program::check(&file[..149]), Err(Refusal { number: 20, place: 0 }));
    }
}
