//! Cases about scripts of calls.

use crate::call::Call;
use crate::case::{Case, Disagreement};
use crate::choose;
use model::disk::read;
use model::faults::damage;
use model::layout::LAYOUTS;
use model::maker::{self, Plan};
use model::random::Random;
use model::script::{ENTRY, PART};

/// Scripts one after another on one disk, which now and then is damaged.
pub fn run(case: &mut Case, random: &mut Random) -> Result<(), Box<Disagreement>> {
    let layout = random.pick(&LAYOUTS);
    case.about(format!("scripts on {layout:?}"));
    case.lend(&maker::disk(layout, Plan::any(layout, random), random));
    for _ in 0..24 {
        if random.one_in(24) {
            case.change(|image| damage(image, layout, random));
        }
        let disk = read(case.image()).ok();
        let (mut script, mut pool) = (Vec::new(), Vec::new());
        let calls = random.below(60);
        for _ in 0..=calls {
            let call = choose::call(layout, disk.as_ref(), 6, random);
            script.extend(entry(&call, &mut pool, random));
        }
        // The last entry is cut, so it is no call. Now and then there is a part for it all the same.
        script.truncate(ENTRY * calls + random.below(ENTRY));
        let parts = calls + usize::from(random.one_in(3));
        let length =
            (PART * parts + random.below(PART)).saturating_sub(random.pick(&[0, 0, 0, 1, PART, 5 * PART]));
        case.call(&Call::Run { script, pool, output: choose::output(length, random) })?;
    }
    Ok(())
}

/// The entry of a call, its name and content put into the pool; noise where nothing is read. Now and then no call.
fn entry(call: &Call, pool: &mut Vec<u8>, random: &mut Random) -> Vec<u8> {
    let mut entry = random.bytes(ENTRY);
    let mut set = |at: usize, value: usize| entry[at..at + 4].copy_from_slice(&(value as u32).to_le_bytes());
    let (operation, numbers) = fields(call, pool, random);
    for (number, at) in numbers.into_iter().zip([4, 8, 12, 16]) {
        set(at, number);
    }
    if random.one_in(100) {
        set(
            random.pick(&[4, 8, 12, 16]),
            random.pick(&[pool.len(), pool.len() + 1, 0xFFFF_FFFF, 0xFFFF_FFF6]),
        );
    }
    entry[0] = operation;
    if let Some((_, file_type)) = call.file() {
        entry[1] = file_type;
    }
    entry
}

/// An entry's first byte, and its numbers from offset 4 on.
fn fields(call: &Call, pool: &mut Vec<u8>, random: &mut Random) -> (u8, Vec<usize>) {
    let mut pooled = |bytes: &[u8]| {
        pool.extend(bytes);
        [pool.len() - bytes.len(), bytes.len()]
    };
    match call {
        // a script has no call for blocks, and none for a salvage
        Call::List { slot } | Call::Blocks { slot, .. } => (0, vec![*slot]),
        Call::Salvage { .. } => (0, vec![random.below(513)]),
        Call::Page { slot, offset, .. } => (1, vec![*slot, *offset]),
        Call::Find { name, .. } => (2, pooled(name).to_vec()),
        Call::Remove { name, .. } => (3, pooled(name).to_vec()),
        Call::Put { name, content, .. } => (4, [pooled(name), pooled(content)].concat()),
        _ => (random.pick(&[0, 0, 0, 0, 0, 0, 0, 5, 255]), Vec::new()),
    }
}
