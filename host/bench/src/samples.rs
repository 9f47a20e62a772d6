//! Sample files against C, and a program file against the model.

use crate::calls::{LIBRARY, PEER};
use crate::race::{Spread, race, timed};
use crate::table::{Table, seconds};
use model::files;
use model::layout::Kind;
use model::random::Random;
use skilletjay::lend;

const WORDS: usize = 100_000;

/// Times unpackers and packers, then the program check.
pub fn run(table: &mut Table) {
    for kind in [Kind::S900, Kind::S1000] {
        sample(table, kind);
    }
    program(table);
}

fn sample(table: &mut Table, kind: Kind) {
    let file = &files::sample(kind, WORDS, &mut Random::new(5));
    let header = &file[..model::samples::header_bytes(kind)];
    let (mut ours, mut theirs) = (vec![0; WORDS], vec![0; WORDS]);
    let taken = race(&mut [
        timed(|| LIBRARY.unpack(kind, file, &mut ours)),
        timed(|| PEER.unpack(kind, file, &mut theirs)),
    ]);
    assert!(ours == theirs, "words part");
    table.ratio(&format!("unpack {kind:?}, 100,000 words"), &taken[0], "C", &taken[1], Some(1.3));
    let words = &ours;
    let (mut ours, mut theirs) = (vec![0; file.len()], vec![0; file.len()]);
    let taken = race(&mut [
        timed(|| LIBRARY.pack(kind, header, words, &mut ours)),
        timed(|| PEER.pack(kind, header, words, &mut theirs)),
    ]);
    assert!(ours == *file && theirs == *file, "files part");
    table.ratio(&format!("pack {kind:?}, 100,000 words"), &taken[0], "C", &taken[1], Some(1.3));
}

fn program(table: &mut Table) {
    let file = &files::program(99, &mut Random::new(6));
    assert_eq!(lend::program(file).count, 99);
    let taken = race(&mut [timed(|| lend::program(file)), timed(|| model::program::check(file).is_ok())]);
    let time = Spread::of(taken[0].clone());
    let spread = format!("{:.1} to {:.1} µs", time.low * 1e6, time.high * 1e6);
    table.limit("program, 99 keygroups", &seconds(time.median), &spread, "below 100 µs", time.median < 1e-4);
    table.ratio("program, 99 keygroups", &taken[0], "model", &taken[1], None);
}
