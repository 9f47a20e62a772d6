//! The words about rows against the library: every value of every byte of legal files.

use model::files;
use model::layout::Kind::{self, S900, S1000};
use model::random::Random;
use skilletjay::rows::{self, Form, Legal, Row};
use skilletjay::{Refusal, program, sample};
use std::collections::BTreeSet;

/// What the library says of a file.
fn judged(form: Form, file: &[u8]) -> Result<(), Refusal> {
    match form {
        Form::Sample(kind) => sample::words_of(kind, file).map(drop),
        Form::Program => program::check(file).map(drop),
    }
}

/// All rows that begin below a length.
fn rows_below(form: Form, length: usize) -> Vec<Row> {
    let beginning = |at| rows::row(form, at).filter(|row| row.offset == at);
    (0..length).filter_map(beginning).collect()
}

/// A file that the library accepts has no row at fault; of a refused one the row at the place is.
fn hold(form: Form, all: &[Row], file: &[u8], met: &mut BTreeSet<usize>) {
    let Err(refusal) = judged(form, file) else {
        let fault = all.iter().find(|row| row.fault(file).is_some());
        assert_eq!(fault, None, "{form:?}: accepted");
        return;
    };
    let place = refusal.place();
    if !met.insert(place) {
        let row = all.iter().find(|row| row.offset == place);
        assert!(row.is_some_and(|row| row.fault(file).is_some()), "{form:?}: {row:?} has no fault");
        return;
    }
    let row = rows::row(form, place).unwrap_or_else(|| panic!("{form:?}: no row at {place}"));
    let words = rows::words(form, file, place).unwrap_or_else(|| panic!("{form:?}: no fault at {place}"));
    let named =
        words.starts_with(&row.name) || words.contains(" said, ") && matches!(row.legal, Legal::Fitting(_));
    assert!(row.offset == place && named, "{words}");
    assert!(words.len() <= 64, "{words} is long"); // a line of 100 columns with file, number and offset
}

/// Every value of every byte of the headers, and some pairs of bytes; every row is met.
fn hold_all(form: Form, file: &[u8], length: usize, random: &mut Random) {
    let (all, mut met) = (rows_below(form, length), BTreeSet::new());
    let mut changed = file.to_vec();
    for at in 0..length {
        for value in 0..=255 {
            changed[at] = value;
            hold(form, &all, &changed, &mut met);
        }
        for _ in 0..20 {
            random.fill(&mut changed[at..length.min(at + 2)]);
            hold(form, &all, &changed, &mut met);
        }
        changed.copy_from_slice(file);
    }
    assert_eq!(met, all.iter().map(|row| row.offset).collect(), "{form:?}");
}

#[test]
fn rows_of_samples_are_the_librarys() {
    let mut random = Random::new(1);
    for (kind, theirs, header) in
        [(skilletjay::SampleKind::S900, S900, 60), (skilletjay::SampleKind::S1000, S1000, 150)]
    {
        for words in [0, 2, 1000] {
            let file = files::sample(theirs, words, &mut random);
            hold_all(Form::Sample(kind), &file, header, &mut random);
        }
    }
}

#[test]
fn rows_of_programs_are_the_librarys() {
    let mut random = Random::new(2);
    for keygroups in [1, 3] {
        let file = files::program(keygroups, &mut random);
        hold_all(Form::Program, &file, file.len(), &mut random);
    }
    let file = files::program(99, &mut random);
    let (all, mut met) = (rows_below(Form::Program, file.len()), BTreeSet::new());
    for at in 99 * 150..file.len() {
        let mut changed = file.clone();
        changed[at] ^= 128;
        hold(Form::Program, &all, &changed, &mut met);
    }
    assert!(met.contains(&(99 * 150 + 148)), "the last keygroup's last row");
}

/// Files that are cut short, even within their header, and numbers that don't fit the length.
#[test]
fn lengths_are_told() {
    let mut random = Random::new(3);
    let kinds: [(Form, Vec<u8>); 3] = [
        (Form::Sample(skilletjay::SampleKind::S900), files::sample(Kind::S900, 8, &mut random)),
        (Form::Sample(skilletjay::SampleKind::S1000), files::sample(Kind::S1000, 8, &mut random)),
        (Form::Program, files::program(2, &mut random)),
    ];
    for (form, file) in kinds {
        for length in 0..file.len() {
            let refusal = judged(form, &file[..length]).expect_err("cut short");
            let words = rows::words(form, &file[..length], refusal.place()).expect("words");
            assert!(words.contains("it has ") || words.contains(" said, "), "{words}");
        }
    }
}
