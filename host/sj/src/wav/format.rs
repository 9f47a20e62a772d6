//! The format chunk of a WAV file.

use crate::failure::{counting, grouped};

const PCM: u16 = 1;
const EXTENSIBLE: u16 = 0xFFFE;

/// The sub-format of an extensible format that is PCM, whole: its first two bytes alone say nothing.
const PCM_GUID: [u8; 16] = [1, 0, 0, 0, 0, 0, 0x10, 0, 0x80, 0, 0, 0xAA, 0, 0x38, 0x9B, 0x71];

/// Bytes of a word.
const WIDTH: u16 = 2;

/// The format of one channel and 16 bits a word.
pub fn to_bytes(rate: u32) -> Vec<u8> {
    let mut chunk = Vec::with_capacity(16);
    chunk.extend(PCM.to_le_bytes());
    chunk.extend(1u16.to_le_bytes()); // channels
    chunk.extend(rate.to_le_bytes());
    chunk.extend((u32::from(WIDTH) * rate).to_le_bytes()); // bytes a second
    chunk.extend(WIDTH.to_le_bytes()); // bytes of all channels' words
    chunk.extend((8 * WIDTH).to_le_bytes()); // bits a word
    chunk
}

/// The rate of a format chunk that is as it must be.
pub fn rate_of(chunk: &[u8]) -> Result<u32, String> {
    if chunk.len() < 16 {
        return Err("its format chunk is too short; make the file anew".into());
    }
    let two = |at: usize| u16::from_le_bytes([chunk[at], chunk[at + 1]]);
    let four = |at: usize| u32::from_le_bytes([chunk[at], chunk[at + 1], chunk[at + 2], chunk[at + 3]]);
    refuse_other_words(chunk, two(0))?;
    if two(2) != 1 {
        return Err(format!(
            "it has {} channels and a sample has one; split it, e.g. sox in.wav left.wav remix 1",
            two(2)
        ));
    }
    if two(14) != 8 * WIDTH {
        let bits = counting(two(14).into(), "bit");
        return Err(format!("it has {bits} a word; make it 16, e.g. sox in.wav -b 16 out.wav"));
    }
    let rate = four(4);
    if rate == 0 {
        return Err("its rate is 0; set its true rate in an editor".into());
    }
    if two(12) != WIDTH {
        let bytes = counting(two(12).into(), "byte");
        return Err(format!("it says {bytes} a word of 16 bits, not 2; make the file anew"));
    }
    let due = usize::from(WIDTH) * rate as usize;
    if four(8) as usize != due {
        let (bytes, due) = (counting(four(8) as usize, "byte"), grouped(due));
        return Err(format!("it says {bytes} a second, not {due} as its rate; make the file anew"));
    }
    Ok(rate)
}

/// Words must be plain; an extensible format says in its sub-format whether they are.
fn refuse_other_words(chunk: &[u8], tag: u16) -> Result<(), String> {
    let plain = "make it plain 16 bits, e.g. sox in.wav -b 16 -e signed-integer out.wav";
    match tag {
        PCM => Ok(()),
        EXTENSIBLE if chunk.get(24..40) == Some(&PCM_GUID) => Ok(()),
        EXTENSIBLE => Err(format!("its words aren't plain (PCM) but of an extended format; {plain}")),
        tag => Err(format!("its words aren't plain (PCM) but of format {tag}; {plain}")),
    }
}
