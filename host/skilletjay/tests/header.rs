//! The raw declarations against `include/skilletjay.h`: sizes, offsets and the functions' types, judged by the C compiler.

use skilletjay::raw::{Checked, Counted, Done, Found, Listed, Paged};
use std::collections::BTreeSet;
use std::fmt::Write;
use std::mem::{offset_of, size_of};
use std::path::Path;
use std::process::Command;

/// Assertions in C that a struct is as Rust has it; a field's name in C comes first.
macro_rules! like {
    ($text:ident, $c:literal, $rust:ty, $($c_field:literal $field:ident),*) => {
        let size = size_of::<$rust>();
        let _ = writeln!($text, "_Static_assert(sizeof({}) == {size}, \"size\");", $c);
        $(
            let at = offset_of!($rust, $field);
            let _ = writeln!($text, "_Static_assert(offsetof({}, {}) == {at}, \"{}\");", $c, $c_field, $c_field);
        )*
    };
}

const FUNCTIONS: &str = "
sj_checked (*check)(const uint8_t *, size_t) = sj_check;
sj_listed (*list)(const uint8_t *, size_t, size_t) = sj_list;
sj_found (*find)(const uint8_t *, size_t, const uint8_t *, size_t, uint8_t) = sj_find;
sj_paged (*page)(const uint8_t *, size_t, size_t, size_t, uint8_t *, size_t) = sj_page;
sj_counted (*blocks)(const uint8_t *, size_t, size_t, uint16_t *, size_t) = sj_blocks;
sj_found (*put)(uint8_t *, size_t, const uint8_t *, size_t, uint8_t, const uint8_t *, size_t) = sj_put;
sj_done (*take)(uint8_t *, size_t, const uint8_t *, size_t, uint8_t) = sj_remove;
sj_counted (*salvage)(uint8_t *, size_t, uint8_t *, size_t) = sj_salvage;
size_t (*run)(uint8_t *, size_t, const uint8_t *, size_t, const uint8_t *, size_t, uint8_t *, size_t) = sj_run;
sj_counted (*unpack[])(const uint8_t *, size_t, int16_t *, size_t) = {sj_s900_unpack, sj_s1000_unpack};
sj_counted (*pack[])(const uint8_t *, size_t, const int16_t *, size_t, uint8_t *, size_t) = {sj_s900_pack, sj_s1000_pack};
sj_counted (*program)(const uint8_t *, size_t) = sj_program;
";

fn source() -> String {
    let mut text = String::from("#include <skilletjay.h>\n");
    like!(text, "sj_checked", Checked, "refusal" refusal, "place" place, "kind" kind, "density" density, "files" files, "free" free);
    like!(text, "sj_listed", Listed, "refusal" refusal, "place" place, "name" name, "type" file_type, "length" length);
    like!(text, "sj_found", Found, "refusal" refusal, "place" place, "slot" slot);
    like!(text, "sj_paged", Paged, "refusal" refusal, "place" place, "count" count, "end" end);
    like!(text, "sj_done", Done, "refusal" refusal, "place" place);
    like!(text, "sj_counted", Counted, "refusal" refusal, "place" place, "count" count);
    text.push_str(FUNCTIONS);
    text
}

#[test]
fn declarations_are_the_headers() {
    let include = Path::new(env!("CARGO_MANIFEST_DIR")).join("../../include");
    let file = Path::new(env!("CARGO_TARGET_TMPDIR")).join("header.c");
    std::fs::write(&file, source()).expect("written");
    let mut compiler = Command::new("cc");
    compiler.args(["-std=c11", "-Wall", "-Werror", "-fsyntax-only", "-I"]).arg(include).arg(&file);
    let output = compiler.output().expect("cc runs");
    assert!(output.status.success(), "{}", String::from_utf8_lossy(&output.stderr));
}

/// The functions that a text names: `sj_`, letters and digits, and then what must follow.
fn named(text: &str, follows: &[char]) -> BTreeSet<String> {
    let name = |rest: &str| {
        let end = rest.find(|character: char| !character.is_ascii_alphanumeric() && character != '_')?;
        rest[end..].starts_with(follows).then(|| rest[..end].to_string())
    };
    text.split("sj_").skip(1).filter_map(name).collect()
}

const HEADER: &str = include_str!("../../../include/skilletjay.h");

/// A function that is new in the header is declared in Rust, and its type is compared above. `sj_words` isn't: it is of
/// `c/sj_words.c` and not of the proved library, and the binding has its own words (`words.rs` holds the two equal).
#[test]
fn every_function_is_declared_and_compared() {
    let mut header = named(HEADER, &['(']);
    assert!(header.remove("words"));
    assert_eq!(named(include_str!("../src/raw.rs"), &['(']), header);
    assert_eq!(named(FUNCTIONS, &[';', ',', '}']), header);
}

#[test]
fn the_versions_agree() {
    let defined = |name: &str| {
        let line = HEADER.lines().find_map(|line| line.strip_prefix(&format!("#define {name} ")));
        line.unwrap_or_else(|| panic!("no {name}")).trim_matches('"').to_string()
    };
    let numbers = ["SJ_VERSION_MAJOR", "SJ_VERSION_MINOR", "SJ_VERSION_PATCH"].map(defined);
    assert_eq!(numbers.join("."), env!("CARGO_PKG_VERSION"));
    assert_eq!(defined("SJ_VERSION"), env!("CARGO_PKG_VERSION"));
}
