//! The check against C and against the model.

use crate::agree::same_check;
use crate::calls::{HASHES, LIBRARY, PAIRS, PEER};
use crate::disks::{Order, disk, high, share_names};
use crate::race::{race, timed};
use crate::s3000;
use crate::table::{Goal, Table};
use model::layout::{Kind, SLOTS};

/// Times the check of high density disks, their maps full where there are files.
pub fn run(table: &mut Table) {
    for kind in [Kind::S900, Kind::S1000] {
        for files in [0, 8, 64] {
            check(table, kind, files, Order::Rising);
        }
        check(table, kind, 64, Order::Scattered);
    }
    for (files, order) in
        [(0, Order::Rising), (64, Order::Rising), (512, Order::Rising), (512, Order::Scattered)]
    {
        check_s3000(table, files, order);
    }
    check_shared(table);
}

fn check(table: &mut Table, kind: Kind, files: usize, order: Order) {
    let image = &disk(kind, files, if files == 0 { 0 } else { high(kind).data_blocks() }, order);
    same_check(image);
    assert_eq!(LIBRARY.check(image).files, files);
    let taken = race(&mut [
        timed(|| LIBRARY.check(image)),
        timed(|| PEER.check(image)),
        timed(|| model::calls::check(image).is_ok()),
    ]);
    let what = format!("check {kind:?}, files {files}{}", said(order));
    table.ratio(&what, &taken[0], "C", &taken[1], Some(1.0));
    table.ratio(&what, &taken[0], "model", &taken[2], None);
}

fn check_s3000(table: &mut Table, files: usize, order: Order) {
    let image = &s3000::disk(files, if files == 0 { 0 } else { s3000::DATA_BLOCKS }, order);
    let quarter = (files == s3000::SLOTS).then_some(0.25);
    by_hashes(table, &format!("check S3000, files {files}{}", said(order)), image, files, quarter);
}

/// Full directories in which every name stands in two types.
fn check_shared(table: &mut Table) {
    let mut image = disk(Kind::S1000, SLOTS, high(Kind::S1000).data_blocks(), Order::Scattered);
    share_names(&mut image, 0, SLOTS, b'p');
    by_hashes(table, "check S1000, files 64, each name in two types", &image, SLOTS, Some(1.0));
    let mut image = s3000::disk(s3000::SLOTS, s3000::DATA_BLOCKS, Order::Scattered);
    share_names(&mut image, s3000::DIRECTORY, s3000::SLOTS, s3000::PROGRAM);
    by_hashes(table, "check S3000, files 512, each name in two types", &image, s3000::SLOTS, Some(0.25));
}

/// Against C that finds names by hashes, and C that compares all pairs of them: a full S3000 directory has 512. The goal is the one against
/// all pairs.
fn by_hashes(table: &mut Table, what: &str, image: &[u8], files: usize, goal: Goal) {
    same_check(image);
    assert_eq!(LIBRARY.check(image).files, files);
    let taken = race(&mut [
        timed(|| LIBRARY.check(image)),
        timed(|| HASHES.check(image)),
        timed(|| PAIRS.check(image)),
    ]);
    table.ratio(what, &taken[0], "C, hashes", &taken[1], Some(1.0));
    table.ratio(what, &taken[0], "C, all pairs", &taken[2], goal);
}

fn said(order: Order) -> &'static str {
    if order == Order::Scattered { ", scattered" } else { "" }
}
