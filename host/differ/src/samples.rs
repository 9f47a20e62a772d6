//! Cases about sample files.

use crate::call::Call;
use crate::case::{Case, Disagreement};
use crate::choose::{near, output, words};
use model::files;
use model::layout::Kind;
use model::random::Random;
use model::samples::{count_at, file_bytes, header_bytes};

type Done = Result<(), Box<Disagreement>>;

const KINDS: [Kind; 2] = [Kind::S900, Kind::S1000];

/// Words for packing: of 12 bits on S900 disks, their ends often.
fn some_words(kind: Kind, count: usize, random: &mut Random) -> Vec<i16> {
    let word = |random: &mut Random| match (kind, random.below(4)) {
        (Kind::S900, 0) => random.pick(&[-2048, 2047, -1, 0]),
        (Kind::S900, _) => random.below(4096) as i16 - 2048,
        (Kind::S1000 | Kind::S3000, _) => random.next_number() as i16,
    };
    (0..count).map(|_| word(random)).collect()
}

fn some_count(random: &mut Random) -> usize {
    match random.below(4) {
        0 => random.pick(&[0, 1, 2, 3, 4]),
        1 => random.below(3000),
        _ => 2 * random.below(1500),
    }
}

/// Good samples both ways; odd counts, truncations, words out of range, outputs too short.
pub fn whole(case: &mut Case, random: &mut Random) -> Done {
    for _ in 0..60 {
        let (kind, count) = (random.pick(&KINDS), some_count(random));
        case.about(format!("{kind:?} sample of {count} words"));
        unpack(case, kind, count, random)?;
        pack(case, kind, count, random)?;
    }
    Ok(())
}

fn unpack(case: &mut Case, kind: Kind, count: usize, random: &mut Random) -> Done {
    let mut file = files::sample(kind, count, random);
    match random.below(8) {
        0 => file.truncate(near(file.len(), random)),
        1 => file.push(0),
        2 => file.truncate(random.below(header_bytes(kind) + 2)),
        _ => {}
    }
    let lent = near(count, random);
    case.call(&Call::Unpack { kind, file, words: words(lent, random) })
}

fn pack(case: &mut Case, kind: Kind, count: usize, random: &mut Random) -> Done {
    let mut header = files::sample_header(kind, count, random);
    if random.one_in(8) {
        header.resize(random.pick(&[0, 1, 59, 60, 61, 149, 150, 151]), 0);
    }
    let given = if random.one_in(6) { near(count, random) } else { count };
    let mut words = some_words(kind, given, random);
    if random.one_in(3) && !words.is_empty() {
        let at = random.below(words.len());
        words[at] = random.pick(&[-2049, 2048, i16::MIN, i16::MAX]);
    }
    let lent = near(file_bytes(kind, count), random);
    case.call(&Call::Pack { kind, header, words, output: output(lent, random) })
}

/// Every header byte damaged, also in pairs.
pub fn headers(case: &mut Case, random: &mut Random) -> Done {
    let (kind, count) = (random.pick(&KINDS), 2 * random.below(30));
    case.about(format!("damaged {kind:?} headers"));
    let good = files::sample(kind, count, random);
    for at in 0..header_bytes(kind) {
        let mut file = good.clone();
        file[at] = match random.below(3) {
            0 => file[at] ^ 1,
            1 => random.pick(&[0, 1, 4, 9, 31, 41, 51, 127, 128, 205, 255]),
            _ => random.byte(),
        };
        if random.one_in(4) {
            let other = random.below(header_bytes(kind));
            file[other] = random.byte();
        }
        let header = file[..header_bytes(kind)].to_vec();
        let lent = near(count, random);
        case.call(&Call::Unpack { kind, file, words: words(lent, random) })?;
        let lent = near(good.len(), random);
        let words = some_words(kind, count, random);
        case.call(&Call::Pack { kind, header, words, output: output(lent, random) })?;
    }
    Ok(())
}

/// Counts whose data would have the file's length if lengths wrapped at 32 bits, and markers as large.
pub fn wrapping(case: &mut Case, random: &mut Random) -> Done {
    for _ in 0..40 {
        let (kind, more) = (random.pick(&KINDS), random.below(60));
        // S900: 3 bytes for 2 words; S1000: 4.
        let (count, data) = match kind {
            Kind::S900 => (2 * (0x5555_5556 + more), 2 + 3 * more),
            Kind::S1000 | Kind::S3000 => (0x8000_0000 + more, 2 * more),
        };
        case.about(format!("{kind:?} sample of {count} words in {data} bytes"));
        let mut file = files::sample_header(kind, 0, random);
        let said = random.pick(&[count, count, 0xFFFF_FFFE, 0xFFFF_FFFF]);
        file[count_at(kind)..][..4].copy_from_slice(&(said as u32).to_le_bytes());
        let header = file.clone();
        file.extend(random.bytes(data));
        case.call(&Call::Unpack { kind, file, words: words(more, random) })?;
        let words = some_words(kind, more, random);
        case.call(&Call::Pack { kind, header, words, output: output(1000, random) })?;
    }
    Ok(())
}

/// Every header byte with every value.
pub fn every_byte(case: &mut Case, random: &mut Random) -> Done {
    for kind in KINDS {
        let good = files::sample(kind, 20, random);
        let (lent, into) = (some_words(kind, 20, random), output(good.len(), random));
        for at in 0..header_bytes(kind) {
            case.about(format!("{kind:?} sample, byte {at}"));
            for value in 0..=255 {
                let mut file = good.clone();
                file[at] = value;
                let header = file[..header_bytes(kind)].to_vec();
                case.call(&Call::Unpack { kind, file, words: words(20, random) })?;
                case.call(&Call::Pack { kind, header, words: lent.clone(), output: into.clone() })?;
            }
        }
    }
    Ok(())
}
