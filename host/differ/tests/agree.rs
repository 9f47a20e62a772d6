//! The library against the model, the same cases at every run.

use differ::case::{self, Disagreement, Sort, Tally};
use differ::costs::{self, Pages};
use model::layout::{Kind, LAYOUTS};
use std::path::Path;
use std::process::Command;

/// Fewest calls of a run.
const CALLS: usize = 540_000;

#[test]
fn library_and_model_agree() {
    let (mut seed, mut tally) = (0, Tally::default());
    while tally.calls() < CALLS {
        match case::run(seed) {
            Ok(more) => tally.add(&more),
            Err(disagreement) => panic!("{disagreement}"),
        }
        seed += 1;
    }
    println!("{seed} cases, {} calls, by refusal {:?}", tally.calls(), tally.refusals);
    for (number, count) in tally.refusals.into_iter().enumerate() {
        // 16 can't be given: 15 is asked first.
        let enough = if number == 16 { count == 0 } else { count >= 100 };
        assert!(enough, "{count} calls were refused by {number}");
    }
    refusals_were_met(&tally);
    spellings_were_met(&tally);
    types_were_met(&tally);
    salvages_were_met(&tally);
}

/// On all five layouts calls were refused by each number that there is for images: 3 but on S900 disks, and 2 where other slots tell the
/// kind than the first.
fn refusals_were_met(tally: &Tally) {
    for (layout, met) in LAYOUTS.iter().zip(tally.layouts) {
        println!("{layout:?}: {met:?}");
        for (number, count) in met.into_iter().enumerate() {
            let can = match number {
                1 | 16 | 18..=20 => false,
                2 => layout.kind != Kind::S3000,
                3 => layout.kind != Kind::S900,
                _ => true,
            };
            let enough = if can { count >= 10 } else { count == 0 };
            assert!(enough, "{layout:?}: {count} calls were refused by {number}");
        }
    }
}

/// On S1000 disks of both densities and on S3000 disks files were found and removed, and puts refused, by another spelling than the
/// disk's; on S900 disks two spellings stood side by side, and each was found and removed for itself.
fn spellings_were_met(tally: &Tally) {
    for (layout, met) in LAYOUTS.iter().zip(tally.spellings) {
        println!("{layout:?}: {met:?}");
        let counts = match layout.kind {
            Kind::S900 => vec![met.beside, met.apart],
            Kind::S1000 | Kind::S3000 => vec![met.found, met.used, met.removed],
        };
        assert!(counts.iter().all(|&count| count >= 30), "{layout:?}: {met:?}");
    }
}

/// On all five layouts finds, removals and puts, by themselves and in scripts, were answered as is due for all that a name and a type can be on
/// a disk: a file's, its name in other types too or not; in other types alone; nowhere; an illegal type, of each sort, or name. Disks with a
/// name in two types were accepted, and with one twice in one type refused; of two files of a name one was removed and the other stayed.
fn types_were_met(tally: &Tally) {
    for (layout, met) in LAYOUTS.iter().zip(tally.types) {
        println!("{layout:?}: {met:?}");
        assert!(met.calls.iter().flatten().all(|&count| count >= 100), "{layout:?}: {met:?}");
        assert!(met.scripts.iter().flatten().all(|&count| count >= 10), "{layout:?}: {met:?}");
        let others = [met.accepted, met.twice, met.between, met.stayed];
        assert!(met.illegal.into_iter().chain(others).all(|count| count >= 30), "{layout:?}: {met:?}");
    }
}

/// On all five layouts images were salvaged that the check refuses by each number, and accepted ones; slots were dropped for each reason;
/// some were kept with name and type or the blocks of a dropped one, and some with the name of a kept one in another type, beside which others
/// were dropped. A report said nothing else.
fn salvages_were_met(tally: &Tally) {
    for (layout, met) in LAYOUTS.iter().zip(tally.salvages) {
        println!("{layout:?}: {met:?}");
        for (number, count) in met.images.into_iter().enumerate() {
            let can = !(number == 1 || number == 2 || number == 3 && layout.kind == Kind::S900);
            let enough = if can { count >= 20 } else { count == 0 };
            assert!(enough, "{layout:?}: {count} images refused by {number} were salvaged");
        }
        for (said, count) in met.slots.into_iter().enumerate() {
            let enough = if said == 2 || said == 3 { count == 0 } else { count >= 400 };
            assert!(enough, "{layout:?}: {count} slots were reported as {said}");
        }
        let counts = [met.names, met.types, met.beside, met.chains, met.short];
        assert!(counts.iter().all(|&count| count >= 50), "{layout:?}: {met:?}");
    }
}

/// What pages cost is what the model says, on good and damaged disks.
#[test]
fn costs_agree() {
    let program = Path::new(env!("CARGO_MANIFEST_DIR")).join("../../target/bin/cases");
    assert!(program.exists(), "{} isn't built; make target/bin/cases builds it", program.display());
    let mut pages = Pages::default();
    for seed in 0..200 {
        costs::run(&program, seed, &mut pages).unwrap_or_else(|apart| panic!("{apart}"));
    }
    println!("{pages:?}");
    let counts = [pages.one_run, pages.runs, pages.empty, pages.refused];
    assert!(counts.iter().all(|&count| count >= 500), "{pages:?}");
}

#[test]
fn every_byte_of_files_is_judged_alike() {
    match case::run_every_byte(1) {
        Ok(tally) => println!("{} calls, by refusal {:?}", tally.calls(), tally.refusals),
        Err(disagreement) => panic!("{disagreement}"),
    }
}

/// The line that a disagreement ends with runs the same case: its calls are as many.
#[test]
fn a_disagreement_tells_how_to_run_it_again() {
    for (sort, run) in
        [(Sort::Any, case::run as fn(u64) -> case::Ran), (Sort::EveryByte, case::run_every_byte)]
    {
        let [about, call, difference] = ["", "", ""].map(String::from);
        let told = Disagreement { sort, seed: 8, about, turn: 0, call, difference }.to_string();
        let line = told.lines().last().and_then(|line| line.split_once("cargo run ")).expect("a line").1;
        let words: Vec<&str> = line.split_once(" -- ").expect("arguments").1.split(' ').collect();
        let ran = Command::new(env!("CARGO_BIN_EXE_differ")).args(words).output().expect("differ runs");
        let calls = run(8).expect("agreed").calls();
        let said = format!("seed 8: {calls} calls, library and model agree\n");
        assert_eq!(String::from_utf8_lossy(&ran.stdout), said);
    }
}
