//! Compiles the peers in C and archives them.

use std::path::Path;
use std::process::Command;

// Functions, loops and jumps are aligned so that the peer's times don't hang on where they happen to be put.
const FLAGS: [&str; 10] = [
    "-O3",
    "-falign-functions=64",
    "-falign-loops=64",
    "-falign-jumps=32",
    "-std=c11",
    "-D_DEFAULT_SOURCE",
    "-Wall",
    "-Wextra",
    "-Werror",
    "-I../../include",
];

fn main() {
    let out = std::env::var("OUT_DIR").expect("cargo gives OUT_DIR");
    let archive = Path::new(&out).join("libpeer.a");
    let mut members = Vec::new();
    for name in ["disk", "samples", "stack"] {
        let object = Path::new(&out).join(format!("{name}.o"));
        run(Command::new("gcc").args(FLAGS).arg("-c").arg(format!("peer/{name}.c")).arg("-o").arg(&object));
        members.push(object);
    }
    run(Command::new("ar").arg("rcs").arg(&archive).args(&members));
    println!("cargo::rerun-if-changed=peer");
    println!("cargo::rerun-if-changed=../../include/skilletjay.h");
    println!("cargo::rustc-link-search=native={out}");
    println!("cargo::rustc-link-lib=static=peer");
}

fn run(command: &mut Command) {
    let status = command.status().expect("gcc and ar are needed");
    assert!(status.success(), "{command:?} failed");
}
