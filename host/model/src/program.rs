//! S1000 program files: a header and keygroups, 150 bytes each (document 01, "The files").
//!
//! The rows count bytes from 1, as the published tables do. A row that isn't here is carried.

use crate::names::character_of;
use crate::{Answer, number, refuse};

/// Bytes of the header and of each keygroup.
pub const PART: usize = 150;
/// Where the header holds the number of keygroups.
pub const KEYGROUPS_AT: usize = 42;

/// What a row's bytes may be.
#[derive(Clone, Copy, Debug, PartialEq, Eq)]
pub enum Rule {
    /// Just this value.
    Is(u8),
    /// From the first to the second.
    Range(u8, u8),
    /// From 0 to this value, or 255.
    Or255(u8),
    /// Two's complement, from the first to the second.
    Signed(i8, i8),
    /// A pair of bytes that holds the address of the next part.
    Address,
    /// An AKAII character; a fault stands at its own byte.
    Character,
    /// Pairs of bytes in two's complement, -9,999 to 9,999.
    Starts,
}

/// A row: its first byte, its number of bytes, and what they may be.
pub type Row = (usize, usize, Rule);

use Rule::{Address, Character, Is, Or255, Range, Signed, Starts};

const LEVEL: Rule = Range(0, 99);
const SWITCH: Rule = Range(0, 1);
const KEY: Rule = Range(24, 127);
const FIFTY: Rule = Signed(-50, 50);

/// The header's rows. The number of keygroups is judged with the length.
pub const HEADER: &[Row] = &[
    (1, 1, Is(1)),             // program ID
    (2, 2, Address),           // first keygroup address
    (4, 12, Character),        // program name
    (16, 1, Range(0, 127)),    // MIDI program number
    (17, 1, Or255(15)),        // MIDI channel, 255 OMNI
    (18, 1, Range(1, 16)),     // polyphony
    (19, 1, Range(0, 3)),      // priority LOW, NORM, HIGH, HOLD
    (20, 1, KEY),              // low key
    (21, 1, KEY),              // high key
    (22, 1, Signed(-2, 2)),    // octave shift
    (23, 1, Or255(7)),         // aux output select, 255 OFF
    (24, 1, LEVEL),            // mix output level
    (25, 1, FIFTY),            // mix output pan
    (26, 1, LEVEL),            // volume
    (27, 1, FIFTY),            // vel>volume
    (28, 1, FIFTY),            // key>volume
    (29, 1, FIFTY),            // pres>volume
    (30, 1, LEVEL),            // pan lfo rate
    (31, 1, LEVEL),            // pan lfo depth
    (32, 1, LEVEL),            // pan lfo delay
    (33, 1, FIFTY),            // key>pan
    (34, 1, LEVEL),            // lfo rate
    (35, 1, LEVEL),            // lfo depth
    (36, 1, LEVEL),            // lfo delay
    (37, 1, LEVEL),            // mod>lfo depth
    (38, 1, LEVEL),            // pres>lfo depth
    (39, 1, LEVEL),            // vel>lfo depth
    (40, 1, Range(0, 12)),     // bend>pitch
    (41, 1, Signed(-12, 12)),  // pres>pitch
    (42, 1, SWITCH),           // keygroup crossfade
    (45, 12, Signed(-25, 25)), // key temperament
    (57, 1, SWITCH),           // fx output
    (58, 1, FIFTY),            // mod>pan
    (59, 1, SWITCH),           // stereo coherence
    (60, 1, SWITCH),           // lfo desync
    (62, 1, SWITCH),           // voice re-assign OLDEST, QUIETEST
    (63, 1, LEVEL),            // softped>volume
    (64, 1, LEVEL),            // softped>attack
    (65, 1, LEVEL),            // softped>filt
    (67, 1, FIFTY),            // tune semitones
    (68, 1, FIFTY),            // key>lfo rate
    (69, 1, FIFTY),            // key>lfo depth
    (70, 1, FIFTY),            // key>lfo delay
    (71, 1, Range(0, 2)),      // voice output scale -6dB, 0dB, +12dB
    (72, 1, SWITCH),           // stereo output scale 0dB, +6dB
];

/// A keygroup's rows but for the four samples'.
pub const KEYGROUP: &[Row] = &[
    (1, 1, Is(2)),         // keygroup ID
    (2, 2, Address),       // next keygroup address
    (4, 1, KEY),           // low key
    (5, 1, KEY),           // high key
    (7, 1, FIFTY),         // tune semitones
    (8, 1, LEVEL),         // filter
    (9, 1, Range(0, 24)),  // key>filter
    (10, 1, FIFTY),        // vel>filt
    (11, 1, FIFTY),        // pres>filt
    (12, 1, FIFTY),        // env2>filt
    (13, 1, LEVEL),        // env1 attack
    (14, 1, LEVEL),        // env1 decay
    (15, 1, LEVEL),        // env1 sustain
    (16, 1, LEVEL),        // env1 release
    (17, 1, FIFTY),        // env1 vel>attack
    (18, 1, FIFTY),        // env1 vel>release
    (19, 1, FIFTY),        // env1 offvel>release
    (20, 1, FIFTY),        // env1 key>dec&rel
    (21, 1, LEVEL),        // env2 attack
    (22, 1, LEVEL),        // env2 decay
    (23, 1, LEVEL),        // env2 sustain
    (24, 1, LEVEL),        // env2 release
    (25, 1, FIFTY),        // env2 vel>attack
    (26, 1, FIFTY),        // env2 vel>release
    (27, 1, FIFTY),        // env2 offvel>release
    (28, 1, FIFTY),        // env2 key>dec&rel
    (29, 1, FIFTY),        // vel>env2>filter
    (30, 1, FIFTY),        // env2>pitch
    (31, 1, SWITCH),       // vel zone crossfade
    (131, 1, FIFTY),       // beat detune
    (132, 1, SWITCH),      // hold attack until loop
    (133, 4, SWITCH),      // key tracking of samples 1 to 4, TRACK or FIXED
    (137, 4, Range(0, 7)), // aux out offset of samples 1 to 4
    (141, 8, Starts),      // vel>sample start of samples 1 to 4
    (149, 1, FIFTY),       // vel>volume offset
];

/// The rows of a keygroup's first sample; the others follow at 24 bytes each.
pub const SAMPLE: &[Row] = &[
    (35, 12, Character),    // sample name
    (47, 1, Range(0, 127)), // low vel
    (48, 1, Range(0, 127)), // high vel
    (50, 1, FIFTY),         // tune semitones
    (51, 1, FIFTY),         // loudness
    (52, 1, FIFTY),         // filter
    (53, 1, FIFTY),         // pan
    (54, 1, Range(0, 4)),   // loop mode, AS_SAMPLE to PLAY_TO_END
];

/// All rows of a part: the header's, part 0, or a keygroup's.
pub fn rows(part: usize) -> Vec<Row> {
    if part == 0 {
        return HEADER.to_vec();
    }
    let mut rows = KEYGROUP.to_vec();
    for sample in 0..4 {
        rows.extend(SAMPLE.iter().map(|&(byte, bytes, rule)| (byte + 24 * sample, bytes, rule)));
    }
    rows
}

/// Whether a file is an S1000 program, and its number of keygroups: 20.
pub fn check(file: &[u8]) -> Answer<usize> {
    if file.len() < PART {
        return refuse(20, 0);
    }
    let keygroups = usize::from(file[KEYGROUPS_AT]);
    if !(1..=99).contains(&keygroups) || file.len() != PART * (keygroups + 1) {
        return refuse(20, KEYGROUPS_AT);
    }
    for (part, bytes) in file.chunks(PART).enumerate() {
        if let Some(at) = rows(part).iter().filter_map(|row| judge(part, bytes, row)).min() {
            return refuse(20, PART * part + at);
        }
    }
    Ok(keygroups)
}

/// The offset in its part where a row's fault stands, if it has one.
fn judge(part: usize, bytes: &[u8], &(byte, length, rule): &Row) -> Option<usize> {
    let at = byte - 1;
    let row = &bytes[at..at + length];
    if rule == Character {
        return row.iter().position(|&code| character_of(code).is_none()).map(|within| at + within);
    }
    let met = match rule {
        Address => number(row) == PART * (part + 1),
        Starts => row.chunks(2).all(|pair| (-9999..=9999).contains(&i16::from_le_bytes([pair[0], pair[1]]))),
        _ => row.iter().all(|&value| allows(rule, value)),
    };
    if met { None } else { Some(at) }
}

/// Whether a rule about single bytes allows a value.
pub fn allows(rule: Rule, value: u8) -> bool {
    match rule {
        Is(only) => value == only,
        Range(low, high) => low <= value && value <= high,
        Or255(high) => value <= high || value == 255,
        Signed(low, high) => low <= value as i8 && value as i8 <= high,
        Character => character_of(value).is_some(),
        Address | Starts => true,
    }
}
