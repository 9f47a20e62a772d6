//! The rows with a rule, a line each (the source's sections 3, 5 and 6; offsets from 0). A test holds them to the library's
//! answers, value by value.

use super::{Form, Legal};
use crate::SampleKind;
use Legal::{Fitting, From, OneOf, OrOff, UpTo};

/// A row's rule in its part of a file.
pub struct Rule {
    pub at: usize,
    pub values: usize,
    /// Bytes of a value.
    pub width: usize,
    /// Whether a fault stands at its own byte, not at the row's first.
    pub own_place: bool,
    name: &'static str,
    pub legal: Legal,
}

impl Rule {
    /// What it is called; where a fault stands at its own byte, with the number of that byte.
    pub fn name(&self, within: usize) -> String {
        if self.own_place && self.values > 1 {
            return format!("{} {}", self.name, within + 1);
        }
        self.name.to_string()
    }
}

/// Stands for the address of the next part, which the part's number decides.
pub const NEXT: Legal = From(i64::MIN, i64::MIN);

const fn one(at: usize, name: &'static str, legal: Legal) -> Rule {
    Rule { at, values: 1, width: 1, own_place: false, name, legal }
}

/// Several values under one name, whose fault stands at the first.
const fn several(at: usize, values: usize, name: &'static str, legal: Legal) -> Rule {
    Rule { at, values, width: 1, own_place: false, name, legal }
}

const fn wide(at: usize, width: usize, name: &'static str, legal: Legal) -> Rule {
    Rule { at, values: 1, width, own_place: false, name, legal }
}

/// Bytes that are always the same.
const fn fixed(at: usize, values: usize, value: i64) -> Rule {
    Rule { at, values, width: 1, own_place: true, name: "fixed byte", legal: From(value, value) }
}

/// The characters of a name.
const fn name(at: usize, values: usize, legal: Legal) -> Rule {
    Rule { at, values, width: 1, own_place: true, name: "name character", legal }
}

const ASCII: Legal = From(32, 126);
const AKAII: Legal = From(0, 40);
const LEVEL: Legal = From(0, 99);
const SWITCH: Legal = From(0, 1);
const KEY: Legal = From(24, 127);
const MIDI: Legal = From(0, 127);
const FIFTY: Legal = From(-50, 50);

/// An S900 sample's header.
pub const S900: &[Rule] = &[
    name(0, 10, ASCII),
    fixed(10, 6, 0),
    wide(16, 4, "number of words", Fitting(Form::Sample(SampleKind::S900))),
    fixed(24, 2, 0),
    one(26, "loop mode", OneOf(b"OLA")),
    fixed(27, 1, 0),
    wide(28, 4, "end marker", UpTo(16)),
    wide(32, 4, "start marker", UpTo(28)),
    wide(36, 4, "loop length", UpTo(28)),
];

/// An S1000 sample's header.
pub const S1000: &[Rule] = &[
    fixed(0, 1, 3),
    one(2, "root note", MIDI),
    name(3, 12, AKAII),
    fixed(15, 1, 128),
    one(16, "number of loops", From(0, 8)),
    one(19, "loop mode", From(0, 3)),
    one(20, "tune cents", FIFTY),
    one(21, "tune semitones", FIFTY),
    wide(26, 4, "number of words", Fitting(Form::Sample(SampleKind::S1000))),
    wide(30, 4, "start marker", UpTo(34)),
    wide(34, 4, "end marker", UpTo(26)),
];

/// A program's header.
pub const HEADER: &[Rule] = &[
    one(0, "program identity", From(1, 1)),
    wide(1, 2, "first keygroup address", NEXT),
    name(3, 12, AKAII),
    one(15, "MIDI program number", MIDI),
    one(16, "MIDI channel", OrOff(15)),
    one(17, "polyphony", From(1, 16)),
    one(18, "priority", From(0, 3)),
    one(19, "low key", KEY),
    one(20, "high key", KEY),
    one(21, "octave shift", From(-2, 2)),
    one(22, "aux output select", OrOff(7)),
    one(23, "mix output level", LEVEL),
    one(24, "mix output pan", FIFTY),
    one(25, "volume", LEVEL),
    one(26, "vel>volume", FIFTY),
    one(27, "key>volume", FIFTY),
    one(28, "pres>volume", FIFTY),
    one(29, "pan lfo rate", LEVEL),
    one(30, "pan lfo depth", LEVEL),
    one(31, "pan lfo delay", LEVEL),
    one(32, "key>pan", FIFTY),
    one(33, "lfo rate", LEVEL),
    one(34, "lfo depth", LEVEL),
    one(35, "lfo delay", LEVEL),
    one(36, "mod>lfo depth", LEVEL),
    one(37, "pres>lfo depth", LEVEL),
    one(38, "vel>lfo depth", LEVEL),
    one(39, "bend>pitch", From(0, 12)),
    one(40, "pres>pitch", From(-12, 12)),
    one(41, "keygroup crossfade", SWITCH),
    one(42, "number of keygroups", Fitting(Form::Program)),
    several(44, 12, "key temperament", From(-25, 25)),
    one(56, "fx output", SWITCH),
    one(57, "mod>pan", FIFTY),
    one(58, "stereo coherence", SWITCH),
    one(59, "lfo desync", SWITCH),
    one(61, "voice re-assign", SWITCH),
    one(62, "softped>volume", LEVEL),
    one(63, "softped>attack", LEVEL),
    one(64, "softped>filter", LEVEL),
    one(66, "tune semitones", FIFTY),
    one(67, "key>lfo rate", FIFTY),
    one(68, "key>lfo depth", FIFTY),
    one(69, "key>lfo delay", FIFTY),
    one(70, "voice output scale", From(0, 2)),
    one(71, "stereo output scale", SWITCH),
];

/// A keygroup but for its samples.
pub const KEYGROUP: &[Rule] = &[
    one(0, "identity", From(2, 2)),
    wide(1, 2, "next keygroup address", NEXT),
    one(3, "low key", KEY),
    one(4, "high key", KEY),
    one(6, "tune semitones", FIFTY),
    one(7, "filter", LEVEL),
    one(8, "key>filter", From(0, 24)),
    one(9, "vel>filter", FIFTY),
    one(10, "pres>filter", FIFTY),
    one(11, "env2>filter", FIFTY),
    one(12, "env1 attack", LEVEL),
    one(13, "env1 decay", LEVEL),
    one(14, "env1 sustain", LEVEL),
    one(15, "env1 release", LEVEL),
    one(16, "env1 vel>attack", FIFTY),
    one(17, "env1 vel>release", FIFTY),
    one(18, "env1 offvel>release", FIFTY),
    one(19, "env1 key>decay and release", FIFTY),
    one(20, "env2 attack", LEVEL),
    one(21, "env2 decay", LEVEL),
    one(22, "env2 sustain", LEVEL),
    one(23, "env2 release", LEVEL),
    one(24, "env2 vel>attack", FIFTY),
    one(25, "env2 vel>release", FIFTY),
    one(26, "env2 offvel>release", FIFTY),
    one(27, "env2 key>decay and release", FIFTY),
    one(28, "vel>env2>filter", FIFTY),
    one(29, "env2>pitch", FIFTY),
    one(30, "vel zone crossfade", SWITCH),
    one(130, "beat detune", FIFTY),
    one(131, "hold attack until loop", SWITCH),
    several(132, 4, "key tracking", SWITCH),
    several(136, 4, "aux out offset", From(0, 7)),
    Rule {
        at: 140,
        values: 4,
        width: 2,
        own_place: false,
        name: "vel>sample start",
        legal: From(-9999, 9999),
    },
    one(148, "vel>volume offset", FIFTY),
];

/// A keygroup's first sample; the other three follow.
pub const SAMPLE: &[Rule] = &[
    name(34, 12, AKAII),
    one(46, "low vel", MIDI),
    one(47, "high vel", MIDI),
    one(49, "tune semitones", FIFTY),
    one(50, "loudness", FIFTY),
    one(51, "filter", FIFTY),
    one(52, "pan", FIFTY),
    one(53, "loop mode", From(0, 4)),
];
