//! Cases about disks.

use crate::call::Call;
use crate::case::{Case, Disagreement};
use crate::choose;
use crate::spellings::layout_of;
use model::disk::{Disk, File, content, read};
use model::faults::{FAULTS, Fault, damage as damage_bytes, share_name, spoil, wreck};
use model::layout::{BLOCK, IGNORED, Kind, LAYOUTS, Layout, SLOTS, TYPE_AT};
use model::maker::{self, Plan};
use model::random::Random;
use std::collections::BTreeMap;

type Done = Result<(), Box<Disagreement>>;

/// Calls on a valid disk, some hundreds of them.
fn sequence(case: &mut Case, layout: Layout, plan: Plan, calls: usize, random: &mut Random) -> Done {
    case.lend(&maker::disk(layout, plan, random));
    let mut puts = random.within(2, 8);
    for turn in 0..calls {
        if turn % 60 == 59 {
            puts = random.within(2, 9);
        }
        let disk = read(case.image()).ok();
        let call = choose::call(layout, disk.as_ref(), puts, random);
        case.call(&call)?;
    }
    let Ok(disk) = read(case.image()) else { return Ok(()) };
    let slots = some_files(&disk, random);
    downloads(case, &disk, &slots, 8, random)
}

/// The slots of every file; on S3000 disks of any 20 of them, as 512 would take the time of other cases.
fn some_files(disk: &Disk, random: &mut Random) -> Vec<usize> {
    let mut slots = choose::used(disk);
    if disk.layout.kind == Kind::S3000 {
        random.shuffle(&mut slots);
        slots.truncate(20);
    }
    slots
}

/// Files paged to their ends, in so many pages at most; the pages' ends are compared as all answers are.
fn downloads(case: &mut Case, disk: &Disk, slots: &[usize], pages: usize, random: &mut Random) -> Done {
    for &slot in slots {
        let Some(file) = disk.file(slot) else { continue };
        let size =
            random.pick(&[BLOCK, BLOCK - 1, BLOCK + 1, 7 * BLOCK, 100_000]).max(file.length / pages + 1);
        for offset in (0..file.length + 1).step_by(size) {
            case.call(&Call::Page { slot, offset, output: choose::output(size, random) })?;
        }
    }
    Ok(())
}

/// A salvage of the image, now and then after one whose report is too short. Then both accept the disk, and list and page its files
/// alike; some calls more, which may use what was freed, and a second salvage.
fn mended(case: &mut Case, random: &mut Random) -> Done {
    let slots = layout_of(case.image()).map_or(SLOTS, |layout| LAYOUTS[layout].slots());
    if random.one_in(4) {
        let short = if random.one_in(4) { slots - 1 } else { random.below(slots) };
        case.call(&Call::Salvage { report: choose::output(short, random) })?;
    }
    let room = slots + random.pick(&[0, 0, 1, 40]);
    case.call(&Call::Salvage { report: choose::output(room, random) })?;
    case.call(&Call::Check)?;
    let disk = match read(case.image()) {
        Ok(disk) => disk,
        Err(refusal) => {
            assert!(refusal.number <= 2, "a mended image is refused: {refusal:?}");
            return Ok(());
        }
    };
    let files = some_files(&disk, random);
    for &slot in &files {
        case.call(&Call::List { slot })?;
    }
    downloads(case, &disk, &files, 1, random)?;
    for _ in 0..random.below(4) {
        let call = choose::call(disk.layout, Some(&disk), 6, random);
        case.call(&call)?;
    }
    case.call(&Call::Salvage { report: choose::output(slots, random) })
}

/// Scattered chains and gaps.
pub fn scattered(case: &mut Case, random: &mut Random) -> Done {
    let layout = random.pick(&LAYOUTS);
    let plan = Plan::scattered(layout, random);
    case.about(format!("scattered {layout:?} {plan:?}"));
    sequence(case, layout, plan, random.within(150, 500), random)
}

/// Next to no room.
pub fn near_full(case: &mut Case, random: &mut Random) -> Done {
    let layout = random.pick(&LAYOUTS);
    let plan = Plan::near_full(layout, random);
    case.about(format!("near full {layout:?} {plan:?}"));
    sequence(case, layout, plan, random.within(150, 500), random)
}

/// No slot left, or next to none.
pub fn full_directory(case: &mut Case, random: &mut Random) -> Done {
    let layout = random.pick(&LAYOUTS);
    let plan = Plan::full_directory(layout, random);
    case.about(format!("full directory {layout:?} {plan:?}"));
    sequence(case, layout, plan, random.within(150, 500), random)
}

/// Each fault: alone, twice (which place is the lowest?), or with another (which number comes first?).
pub fn faults(case: &mut Case, random: &mut Random) -> Done {
    let layout = random.pick(&LAYOUTS);
    let good = maker::disk(layout, Plan::any(layout, random), random);
    let Ok(disk) = read(&good) else { return Ok(()) };
    for fault in FAULTS {
        let second = [None, Some(fault), Some(random.pick(&FAULTS[1..]))][random.below(3)];
        case.about(format!("fault {fault:?} on {layout:?}, and {second:?}"));
        let mut image = good.clone();
        if let Some(second) = second {
            spoil(&mut image, &disk, second, random);
        }
        spoil(&mut image, &disk, fault, random);
        case.lend(&image);
        for call in choose::each(layout, Some(&disk), random) {
            case.call(&call)?;
        }
        mended(case, random)?;
    }
    Ok(())
}

/// Names that stand in several types: of two files of a name one is removed, and the other stays as it was. Then names that stand twice
/// in one type.
pub fn shared(case: &mut Case, random: &mut Random) -> Done {
    let layout = random.pick(&LAYOUTS);
    case.about(format!("names in several types on {layout:?}"));
    let mut image = maker::disk(layout, Plan::any(layout, random), random);
    for _ in 0..random.below(8) {
        let Ok(disk) = read(&image) else { return Ok(()) };
        share_name(&mut image, &disk, random);
    }
    case.lend(&image);
    case.call(&Call::Check)?;
    for _ in 0..12 {
        let Ok(disk) = read(case.image()) else { return Ok(()) };
        let Some((gone, stays)) = twins(&disk, random) else { return Ok(()) };
        removed(case, &disk, gone, stays, random)?;
    }
    let good = case.image().to_vec();
    let Ok(disk) = read(&good) else { return Ok(()) };
    for fault in [Fault::NameTwice, Fault::NameBetween].repeat(3) {
        let mut image = good.clone();
        spoil(&mut image, &disk, fault, random);
        case.lend(&image);
        case.call(&Call::Check)?;
        mended(case, random)?;
    }
    Ok(())
}

/// The slots of two files of one name, if there are such.
fn twins(disk: &Disk, random: &mut Random) -> Option<(usize, usize)> {
    let mut slots: BTreeMap<&[u8], Vec<usize>> = BTreeMap::new();
    for slot in choose::used(disk) {
        slots.entry(&disk.file(slot)?.name).or_default().push(slot);
    }
    let mut names: Vec<Vec<usize>> = slots.into_values().filter(|slots| slots.len() > 1).collect();
    random.shuffle(&mut names);
    let mut slots = names.pop()?;
    random.shuffle(&mut slots);
    Some((slots[0], slots[1]))
}

/// Removes one of two files of a name: it is found no more, and the other is, and pages as before. Then the name is put in that type
/// again, twice.
fn removed(case: &mut Case, disk: &Disk, gone: usize, stays: usize, random: &mut Random) -> Done {
    let (Some(one), Some(other)) = (disk.file(gone), disk.file(stays)) else { return Ok(()) };
    let find = |file: &File| Call::Find { name: file.name.clone(), file_type: file.file_type };
    let remove = Call::Remove { name: one.name.clone(), file_type: one.file_type };
    let before = content(case.image(), other);
    for call in [find(one), find(other), remove.clone(), find(one), find(other), remove] {
        case.call(&call)?;
    }
    downloads(case, disk, &[stays], 4, random)?;
    assert!(content(case.image(), other) == before, "the file of another type changed");
    case.count_stayed();
    for _ in 0..2 {
        let (name, content) = (one.name.clone(), random.within(1, 3000));
        case.call(&Call::Put { name, file_type: one.file_type, content: random.bytes(content) })?;
    }
    Ok(())
}

/// Many faults at once, again and again on the same disk: slots that are dropped have names and blocks of others.
pub fn wrecked(case: &mut Case, random: &mut Random) -> Done {
    let layout = random.pick(&LAYOUTS);
    case.about(format!("many faults on {layout:?}"));
    let good = maker::disk(layout, Plan::any(layout, random), random);
    let Ok(disk) = read(&good) else { return Ok(()) };
    for _ in 0..30 {
        let mut image = good.clone();
        wreck(&mut image, &disk, random);
        case.lend(&image);
        case.call(&Call::Check)?;
        mended(case, random)?;
    }
    Ok(())
}

/// Any damage to directory and map, again and again on the same disk.
pub fn damage(case: &mut Case, random: &mut Random) -> Done {
    let layout = random.pick(&LAYOUTS);
    case.about(format!("damage on {layout:?}"));
    let good = maker::disk(layout, Plan::any(layout, random), random);
    let disk = read(&good).ok();
    for _ in 0..25 {
        case.lend(&good);
        case.change(|image| damage_bytes(image, layout, random));
        case.call(&Call::Check)?;
        for call in choose::each(layout, disk.as_ref(), random).into_iter().skip(1) {
            if random.one_in(2) {
                case.call(&call)?;
            }
        }
        mended(case, random)?;
    }
    Ok(())
}

/// Bytes that are no disk: truncations, odd lengths, noise in directory and map, some of it of a known kind.
pub fn noise(case: &mut Case, random: &mut Random) -> Done {
    let layout = random.pick(&LAYOUTS);
    case.about(format!("noise, {layout:?}"));
    let good = maker::disk(layout, Plan::any(layout, random), random);
    for _ in 0..6 {
        let mut image = good.clone();
        match random.below(5) {
            0 => image.truncate(random.below(good.len())),
            1 => image.truncate(random.pick(&[0, 1, 16, 17, 24, 1535, 1536, 3136, 4736, 5120, 17_408])),
            2 => image.resize(random.pick(&[819_199, 819_200, 819_201, 1_638_399, 1_638_400, 1_638_401]), 0),
            3 => random.fill(&mut image[..17_408]),
            _ => noise_of(&mut image, layout, random),
        }
        case.lend(&image);
        for call in choose::each(layout, None, random) {
            case.call(&call)?;
        }
        mended(case, random)?;
    }
    Ok(())
}

/// Noise in directory and map of an image, but for what tells its kind.
fn noise_of(image: &mut [u8], layout: Layout, random: &mut Random) {
    random.fill(&mut image[..BLOCK * layout.first()]);
    for slot in 0..layout.slots() {
        image[layout.slot_at(slot) + 22..][..2].copy_from_slice(&layout.identity());
    }
    if layout.kind == Kind::S3000 {
        image[TYPE_AT] = IGNORED;
    }
}
