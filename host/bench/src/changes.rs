//! Find, put and remove against C.

use crate::calls::{Calls, LIBRARY, PEER};
use crate::disks::{Order, disk, name, share_names};
use crate::race::{Runner, race};
use crate::s3000;
use crate::table::Table;
use model::layout::Kind;
use model::random::Random;
use std::time::{Duration, Instant};

/// Times a put, a find and a remove by turns, on a disk with 32 files whose free blocks lie scattered; once by a name in small letters, once by
/// one that stands there in another type, and on S3000 disks.
pub fn run(table: &mut Table) {
    let capitals = &name(Kind::S1000, 90);
    let (small, held) = (&capitals.to_ascii_lowercase(), &name(Kind::S1000, 20));
    for (name, file_type, size, said) in [
        (capitals, b's', 1000, "1 KB"),
        (small, b's', 1000, "1 KB, small letters"),
        (held, b'p', 1000, "1 KB, name in a second type"),
        (capitals, b's', 1_000_000, "1 MB"),
    ] {
        let content = &Random::new(3).bytes(size);
        against(table, said, disk(Kind::S1000, 32, 560, Order::Scattered), File { name, file_type, content });
    }
    let fresh = s3000::disk(256, 560, Order::Scattered);
    let mut shared = fresh.clone();
    share_names(&mut shared, s3000::DIRECTORY, 256, s3000::PROGRAM);
    let file = File { name: &s3000::name(600), file_type: s3000::TYPE, content: &[1; 1000] };
    against(table, "1 KB, S3000, 256 files", fresh, file);
    let file = File { name: &s3000::name(100), file_type: s3000::TYPE - 1, ..file };
    against(table, "1 KB, S3000, 256 files, name in a third type", shared, file);
}

/// What is put and removed.
#[derive(Clone, Copy)]
struct File<'a> {
    name: &'a [u8],
    file_type: u8,
    content: &'a [u8],
}

fn against(table: &mut Table, said: &str, fresh: Vec<u8>, file: File) {
    let [mut ours, mut theirs] = [fresh.clone(), fresh];
    for (what, timed) in [("put", Timed::Put), ("find", Timed::Find), ("remove", Timed::Remove)] {
        let mut runners = [turns(LIBRARY, &mut ours, file, timed), turns(PEER, &mut theirs, file, timed)];
        let taken = race(&mut runners);
        drop(runners);
        assert!(ours == theirs, "images part");
        table.ratio(&format!("{what} {said}"), &taken[0], "C", &taken[1], Some(1.3));
    }
}

#[derive(Clone, Copy)]
enum Timed {
    Put,
    Find,
    Remove,
}

/// Puts, finds and removes by turns, so that each meets the same disk; counts one of the three.
fn turns<'a>(side: Calls, image: &'a mut [u8], file: File<'a>, timed: Timed) -> Runner<'a> {
    Box::new(move |times| {
        let mut taken = Duration::ZERO;
        for _ in 0..times {
            let begin = Instant::now();
            let put = side.put(image, file.name, file.file_type, file.content);
            let stands = Instant::now();
            let found = side.find(image, file.name, file.file_type);
            let known = Instant::now();
            let removed = side.remove(image, file.name, file.file_type);
            let end = Instant::now();
            assert_eq!((put.refusal, found, removed.refusal), (0, put, 0));
            taken += match timed {
                Timed::Put => stands - begin,
                Timed::Find => known - stands,
                Timed::Remove => end - known,
            };
        }
        taken
    })
}
