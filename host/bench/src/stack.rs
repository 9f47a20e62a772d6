//! The largest stack that a call uses.

use crate::calls::LIBRARY;
use crate::disks::{Order, disk, high, name};
use crate::s3000;
use crate::table::Table;
use model::files;
use model::layout::{Kind, SLOTS};
use model::random::Random;
use skilletjay::lend;
use std::ffi::c_void;
use std::hint::black_box;

unsafe extern "C" {
    fn stack_used(run: extern "C" fn(*mut c_void), with: *mut c_void) -> usize;
}

extern "C" fn run_call<F: FnMut()>(call: *mut c_void) {
    // SAFETY: `used` gives the address of an F that it alone holds.
    let call = unsafe { &mut *call.cast::<F>() };
    call();
}

/// The bytes of stack that a call uses on a thread of its own, the thread's part too.
fn used<F: FnMut()>(mut call: F) -> usize {
    // SAFETY: the call outlives the thread, which has ended when the function returns.
    unsafe { stack_used(run_call::<F>, (&raw mut call).cast()) }
}

/// Measures every call of the header, each where it is done.
pub fn run(table: &mut Table) {
    let own = used(|| {});
    let image = disk(Kind::S1000, 63, high(Kind::S1000).data_blocks() - 8, Order::Scattered);
    let mut calls = disk_calls(image, &name(Kind::S1000, 5), b's', SLOTS);
    let image = s3000::disk(511, s3000::DATA_BLOCKS - 8, Order::Scattered);
    calls.extend(disk_calls(image, &s3000::name(5), s3000::TYPE, s3000::SLOTS));
    calls.extend(file_calls());
    let (call, most) = calls.into_iter().max_by_key(|&(_, bytes)| bytes).expect("some calls");
    let bytes = most - own;
    let kib = format!("{:.1} KiB", bytes as f64 / 1024.0);
    table.limit(&format!("largest stack: {call}"), &kib, "", "below 64 KiB", own > 0 && bytes < 64 << 10);
}

fn disk_calls(mut image: Vec<u8>, held: &[u8], file_type: u8, slots: usize) -> Vec<(&'static str, usize)> {
    let (put, content) = (s3000::name(600), vec![1; 8000]);
    let (mut out, mut blocks, mut answers) = (vec![0; 1 << 16], vec![0; 1600], vec![0; 1044]);
    let mut report = vec![0; slots];
    let pool = [put.clone(), content.clone()].concat();
    // Puts the content, which stands in the pool after the name.
    let script = [4, file_type, 0, 0, 0, 0, 0, 0, 12, 0, 0, 0, 12, 0, 0, 0, 64, 31, 0, 0];
    vec![
        ("check", used(|| assert_eq!(LIBRARY.check(&image).refusal, 0))),
        ("list", used(|| assert_eq!(lend::list(&image, 5).refusal, 0))),
        ("find", used(|| assert_eq!(LIBRARY.find(&image, held, file_type).refusal, 0))),
        ("page", used(|| assert_eq!(lend::page(&image, 5, 0, &mut out).refusal, 0))),
        ("blocks", used(|| assert_eq!(lend::blocks(&image, 5, &mut blocks).refusal, 0))),
        ("put", used(|| assert_eq!(LIBRARY.put(&mut image, &put, file_type, &content).refusal, 0))),
        ("remove", used(|| assert_eq!(LIBRARY.remove(&mut image, &put, file_type).refusal, 0))),
        ("salvage", used(|| assert_eq!(LIBRARY.salvage(&mut image, &mut report).refusal, 0))),
        ("run", used(|| assert_eq!(lend::run(&mut image, &script, &pool, &mut answers), 1))),
    ]
}

fn file_calls() -> Vec<(&'static str, usize)> {
    let mut calls = Vec::new();
    for kind in [Kind::S900, Kind::S1000] {
        let file = files::sample(kind, 1000, &mut Random::new(5));
        let (mut words, mut out) = (vec![0; 1000], vec![0; file.len()]);
        calls.push(("unpack", used(|| assert_eq!(LIBRARY.unpack(kind, &file, &mut words).refusal, 0))));
        let header = &file[..model::samples::header_bytes(kind)];
        calls.push(("pack", used(|| assert_eq!(LIBRARY.pack(kind, header, &words, &mut out).refusal, 0))));
    }
    let program = files::program(99, &mut Random::new(6));
    calls.push(("program", used(|| assert_eq!(black_box(lend::program(&program)).count, 99))));
    calls
}
