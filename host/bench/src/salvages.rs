//! Salvage against C.

use crate::agree::same_salvage;
use crate::calls::{Calls, LIBRARY, PEER};
use crate::disks::{Order, disk, high};
use crate::race::{Runner, race};
use crate::s3000;
use crate::table::Table;
use model::faults::{OF_KNOWN_KIND, spoil};
use model::layout::{BLOCK, Kind, SLOTS};
use model::random::Random;
use std::time::{Duration, Instant};

/// Times the salvage of high density disks whose files take all slots and all blocks, with every fault of a slot and of the map, and with none.
pub fn run(table: &mut Table) {
    for kind in [Kind::S900, Kind::S1000] {
        let accepted = disk(kind, SLOTS, high(kind).data_blocks(), Order::Scattered);
        let damaged = damage(&accepted);
        both(table, &format!("{kind:?}"), damaged, accepted, SLOTS);
    }
    let accepted = s3000::disk(s3000::SLOTS, s3000::DATA_BLOCKS, Order::Scattered);
    let mut damaged = accepted.clone();
    s3000::damage(&mut damaged);
    both(table, "S3000", damaged, accepted, s3000::SLOTS);
}

fn both(table: &mut Table, kind: &str, damaged: Vec<u8>, accepted: Vec<u8>, slots: usize) {
    let report = same_salvage(&damaged, slots);
    assert!([0, 1, 4, 5, 6, 7, 8].iter().all(|said| report.contains(said)), "{report:?}");
    assert!(same_salvage(&accepted, slots).iter().all(|&said| said == 1));
    against(table, &format!("salvage a full damaged disk, {kind}"), damaged, slots);
    against(table, &format!("salvage a full accepted disk, {kind}"), accepted, slots);
}

/// Every fault but those of length and kind, one after another, by a seed that gives each a slot of its own; the blocks of the slots that are
/// dropped are strays then.
fn damage(accepted: &[u8]) -> Vec<u8> {
    let (mut image, mut random) = (accepted.to_vec(), Random::new(53));
    let disk = model::disk::read(accepted).expect("accepted");
    for &fault in OF_KNOWN_KIND {
        spoil(&mut image, &disk, fault, &mut random);
    }
    image
}

fn against(table: &mut Table, what: &str, image: Vec<u8>, slots: usize) {
    // Directory and map lie in these bytes: all that a salvage changes.
    let head = &image[..if slots == SLOTS { 5120 } else { BLOCK * s3000::FIRST }];
    let [mut ours, mut theirs] = [image.clone(), image.clone()];
    let mut runners = [turns(LIBRARY, &mut ours, head, slots), turns(PEER, &mut theirs, head, slots)];
    let taken = race(&mut runners);
    drop(runners);
    assert!(ours == theirs, "images part");
    table.ratio(what, &taken[0], "C", &taken[1], Some(1.3));
}

/// Salvages the same image again and again: directory and map are put back before each call, which isn't counted.
fn turns<'a>(side: Calls, image: &'a mut [u8], head: &'a [u8], slots: usize) -> Runner<'a> {
    let mut report = vec![0; slots];
    Box::new(move |times| {
        let mut taken = Duration::ZERO;
        for _ in 0..times {
            image[..head.len()].copy_from_slice(head);
            let begin = Instant::now();
            let refusal = side.salvage(image, &mut report).refusal;
            taken += begin.elapsed();
            assert_eq!(refusal, 0);
        }
        taken
    })
}
