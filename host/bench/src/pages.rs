//! Pages of a file of 1.5 MB against plain Rust and against memcpy, and what they cost.

use crate::calls::PEER;
use crate::disks::{Order, disk};
use crate::race::{race, timed};
use crate::reader;
use crate::s3000;
use crate::table::{Goal, Table};
use model::cases::{cost_in, printed_by, text_of};
use model::layout::{BLOCK, Kind};
use skilletjay::lend;
use std::path::Path;

const BLOCKS: usize = 1536;
const LENGTH: usize = BLOCK * BLOCKS;

/// Times the whole file in pages of some sizes, and once on an S3000 disk.
pub fn run(table: &mut Table) {
    let image = disk(Kind::S1000, 1, BLOCKS, Order::Rising);
    for (size, rust, copy) in
        [(1 << 10, None, None), (4 << 10, None, None), (64 << 10, Some(1.2), None), (LENGTH, None, Some(2.0))]
    {
        let what = match size {
            LENGTH => "page 1.5 MB, whole".into(),
            _ => format!("page 1.5 MB, {} KiB each", size / BLOCK),
        };
        against(table, &what, Paged { image: &image, slot_at: 0, first: 5 }, size, [rust, copy]);
    }
    let image = s3000::disk(1, BLOCKS, Order::Rising);
    let paged = Paged { image: &image, slot_at: s3000::DIRECTORY, first: s3000::FIRST };
    against(table, "page 1.5 MB, S3000, 64 KiB each", paged, 64 << 10, [Some(1.2), None]);
}

/// A disk whose one file is in slot 0 and begins at the first data block.
struct Paged<'a> {
    image: &'a [u8],
    slot_at: usize,
    first: usize,
}

/// The goals are those against the checked reader and against memcpy.
fn against(table: &mut Table, what: &str, disk: Paged, size: usize, goals: [Goal; 2]) {
    let Paged { image, slot_at, first } = disk;
    let content = image[first * BLOCK..][..LENGTH].to_vec();
    let mut outs = [vec![0; LENGTH], vec![0; LENGTH], vec![0; LENGTH], vec![0; LENGTH]];
    let [library, checked, unchecked, copied] = &mut outs;
    let read = |at, out: &mut [u8]| reader::page(image, slot_at, at, out).map_or(0, |page| page.0);
    let mut runners = [
        timed(|| pages(library, size, |at, out| lend::page(image, 0, at, out).count)),
        timed(|| pages(checked, size, |at, out| if accepted(image) { read(at, out) } else { 0 })),
        timed(|| pages(unchecked, size, read)),
        timed(|| copied.copy_from_slice(&content)),
    ];
    let taken = race(&mut runners);
    drop(runners);
    assert!(outs.iter().all(|out| *out == content), "pages part");
    table.ratio(what, &taken[0], "Rust, each page checked by C", &taken[1], goals[0]);
    table.ratio(what, &taken[0], "Rust, no check", &taken[2], None);
    table.ratio(what, &taken[0], "memcpy of the whole", &taken[3], goals[1]);
}

/// Counts links and runs of the whole file in pages of 64 KiB, as the program `cases` tells them: C isn't told.
pub fn costs(table: &mut Table, cases: &Path) -> Result<(), String> {
    const SIZE: usize = 64 << 10;
    let image = disk(Kind::S1000, 1, BLOCKS, Order::Scattered);
    let asked: String = (0..LENGTH).step_by(SIZE).map(|at| format!("took 0 {at} {SIZE}\n")).collect();
    let told = printed_by(cases, &(text_of(&image) + &asked))?;
    let costs: Vec<(usize, usize)> = told.lines().filter_map(cost_in).collect();
    if costs.len() != LENGTH.div_ceil(SIZE) {
        return Err(format!("{}: {told}", cases.display()));
    }
    let (links, runs) = costs.iter().fold((0, 0), |sum, cost| (sum.0 + cost.0, sum.1 + cost.1));
    // A page starts at the file's first block, so it follows at least the links to the block of its last byte.
    let least = (SIZE..LENGTH + 1).step_by(SIZE).map(|end| (end - 1) / BLOCK).sum();
    let what = "links followed for a whole download in 64 KiB pages";
    table.count(what, links, "least possible", least, Some(1.0));
    table.count(what, links, "one walk for all pages", BLOCKS - 1, None);
    table.count("runs copied for it", runs, "blocks of the file", BLOCKS, Some(1.0));
    Ok(())
}

/// Fills an output page by page.
fn pages(out: &mut [u8], size: usize, mut page: impl FnMut(usize, &mut [u8]) -> usize) {
    let mut at = 0;
    for part in out.chunks_mut(size) {
        at += page(at, part);
    }
}

/// The check that each page of the library has.
fn accepted(image: &[u8]) -> bool {
    PEER.check(image).refusal == 0
}
