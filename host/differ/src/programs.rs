//! Cases about program files.

use crate::call::Call;
use crate::case::{Case, Disagreement};
use model::files;
use model::program::{KEYGROUPS_AT, PART};
use model::random::Random;

type Done = Result<(), Box<Disagreement>>;

/// Values at the ends of the rows' ranges and next to them.
const EDGES: [u8; 31] = [
    0, 1, 2, 3, 4, 5, 7, 8, 12, 13, 15, 16, 17, 23, 24, 25, 26, 40, 41, 50, 51, 99, 100, 127, 128, 205, 206,
    230, 243, 253, 254,
];

/// Good programs; every byte damaged, also in pairs; wrong numbers of keygroups; truncations.
pub fn damaged(case: &mut Case, random: &mut Random) -> Done {
    let keygroups = random.pick(&[0, 1, 1, 2, 3, 98, 99, 100]);
    case.about(format!("programs of {keygroups} keygroups"));
    let good = files::program(keygroups, random);
    case.call(&Call::Program { file: good.clone() })?;
    for at in (0..good.len()).step_by(if keygroups > 3 { 37 } else { 1 }) {
        let mut file = good.clone();
        file[at] = if random.one_in(2) { random.byte() } else { random.pick(&EDGES) };
        if random.one_in(3) {
            let other = random.below(good.len());
            file[other] = random.byte();
        }
        match random.below(40) {
            0 => file.truncate(random.below(good.len())),
            1 => file.truncate(random.pick(&[0, 1, 149, 150, 299])),
            2 => file.extend_from_slice(&good[..PART]),
            3 => file[KEYGROUPS_AT] = random.pick(&[0, 1, 2, 99, 100, 255]),
            _ => {}
        }
        case.call(&Call::Program { file })?;
    }
    Ok(())
}

/// Pairs of bytes: addresses of this part, of another or of none, and sample starts around their ends.
pub fn pairs(case: &mut Case, random: &mut Random) -> Done {
    let keygroups = random.pick(&[1, 2, 5, 99]);
    case.about(format!("pairs in programs of {keygroups} keygroups"));
    let good = files::program(keygroups, random);
    for part in 0..=keygroups {
        let own = (PART * part) as i16;
        for address in [0, own, own + 150, own + 300, own + 151, -1] {
            set_pair(case, &good, PART * part + 1, address)?;
        }
        for at in (140..148).step_by(2) {
            for start in [9998, 9999, 10_000, -9999, -10_000, i16::MIN, i16::MAX] {
                set_pair(case, &good, PART * part + at, start)?;
            }
        }
    }
    Ok(())
}

fn set_pair(case: &mut Case, good: &[u8], at: usize, value: i16) -> Done {
    let mut file = good.to_vec();
    file[at..at + 2].copy_from_slice(&value.to_le_bytes());
    case.call(&Call::Program { file })
}

/// Every byte of a program with every value.
pub fn every_byte(case: &mut Case, random: &mut Random) -> Done {
    let good = files::program(2, random);
    for at in 0..good.len() {
        case.about(format!("program, byte {at}"));
        for value in 0..=255 {
            let mut file = good.clone();
            file[at] = value;
            case.call(&Call::Program { file })?;
        }
    }
    Ok(())
}
