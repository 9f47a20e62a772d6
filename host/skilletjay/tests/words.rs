//! `sj_words` (c/sj_words.c) and the header's names of refusals against the binding's words, number by number.

use skilletjay::Refusal;
use std::path::{Path, PathBuf};
use std::process::Command;

/// Prints the words of 0 to 22 and of the largest number, a line each.
const PRINTS: &str = "
#include <skilletjay.h>
#include <stdio.h>
int main(void) {
    for (uint32_t refusal = 0; refusal <= 22; refusal++)
        puts(sj_words(refusal));
    puts(sj_words(UINT32_MAX));
}
";

fn root() -> PathBuf {
    Path::new(env!("CARGO_MANIFEST_DIR")).join("../..")
}

/// What the C function says, under the sanitizers.
fn words_in_c() -> Vec<String> {
    let folder = Path::new(env!("CARGO_TARGET_TMPDIR"));
    let (source, program) = (folder.join("words.c"), folder.join("words"));
    std::fs::write(&source, PRINTS).expect("written");
    let mut compiler = Command::new("cc");
    compiler.args(["-std=c11", "-Wall", "-Wextra", "-Werror", "-pedantic", "-fsanitize=address,undefined"]);
    compiler.arg("-I").arg(root().join("include")).arg(&source).arg(root().join("c/sj_words.c"));
    let compiled = compiler.arg("-o").arg(&program).output().expect("cc runs");
    assert!(compiled.status.success(), "{}", String::from_utf8_lossy(&compiled.stderr));
    let ran = Command::new(&program).output().expect("it runs");
    assert!(ran.status.success(), "{}", String::from_utf8_lossy(&ran.stderr));
    String::from_utf8(ran.stdout).expect("text").lines().map(String::from).collect()
}

#[test]
fn c_has_the_bindings_words() {
    let words = words_in_c();
    assert_eq!(words[0], "done");
    for refusal in Refusal::all() {
        assert_eq!(words[refusal.number() as usize], refusal.words(), "{}", refusal.number());
    }
    assert_eq!(Refusal::all().last().map(|refusal| refusal.number()), Some(21));
    assert_eq!(words[22..], ["there is no refusal of this number"; 2]);
}

/// Every number has one name in the header, and the man page has it beside the number.
#[test]
fn every_number_has_a_name() {
    let header = include_str!("../../../include/skilletjay.h");
    let named = |line: &str| {
        let (name, number) = line.trim().strip_prefix("SJ_")?.split_once(" = ")?;
        let digits = number.split(|character: char| !character.is_ascii_digit()).next()?;
        Some((name.to_string(), digits.parse::<u32>().ok()?))
    };
    let names: Vec<(String, u32)> = header.lines().filter_map(named).collect();
    let numbers: Vec<u32> = names.iter().map(|(_, number)| *number).collect();
    assert_eq!(numbers, (0..=21).collect::<Vec<u32>>());
    let page = std::fs::read_to_string(root().join("man/skilletjay.3")).expect("the man page");
    for (name, number) in names {
        assert!(page.contains(&format!(".It {number} Ta Dv SJ_{name} Ta ")), "{number} {name}");
    }
}
