//! `make bench`: the library's times beside those of plain C, plain Rust, the model and public tools, in one run.
//!
//! All in a row are given the same input, warm, and take turns. A ratio is the median of the rounds' ratios.

mod agree;
mod calls;
mod changes;
mod checks;
mod disks;
mod pages;
mod processes;
mod race;
mod reader;
mod s3000;
mod salvages;
mod samples;
mod stack;
mod table;

use std::fs;
use std::path::Path;

fn main() {
    let root = Path::new(env!("CARGO_MANIFEST_DIR")).join("../..");
    let program = std::env::current_exe().expect("this program has a path");
    println!("Machine: {}", machine());
    println!("Peer and library agree on {} disks and files, good and faulty.\n", agree::hold());
    let mut table = table::Table::new();
    checks::run(&mut table);
    pages::run(&mut table);
    let costs = pages::costs(&mut table, &root.join("target/bin/cases"));
    changes::run(&mut table);
    salvages::run(&mut table);
    samples::run(&mut table);
    stack::run(&mut table);
    let processes = processes::run(&mut table, &root, program.with_file_name("sj").as_path());
    table.end();
    for why in [costs, processes.map_err(|why| why.to_string())].into_iter().filter_map(Result::err) {
        println!("Not all processes ran: {why}");
    }
}

/// The processor, how many of it there are, and how busy they are with other things.
fn machine() -> String {
    let told = |path: &str| fs::read_to_string(path).unwrap_or_default();
    let info = told("/proc/cpuinfo");
    let model = info.lines().find_map(|line| line.strip_prefix("model name")).unwrap_or("\t: unknown");
    let cores = std::thread::available_parallelism().map_or(1, usize::from);
    let load = told("/proc/loadavg");
    let model = model.trim_start_matches([':', '\t', ' ']);
    format!("{model}, {cores} cores, load {}", load.split(' ').next().unwrap_or("unknown"))
}
