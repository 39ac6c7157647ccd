//! include/liuwdom.h against this package's declarations, what the archive asks for, and the examples in C, compiled and run.

use std::path::PathBuf;
use std::process::Command;

use liuwdom::records::{self, kind};

const ROOT: &str = concat!(env!("CARGO_MANIFEST_DIR"), "/..");
const HEADER: &str = include_str!("../../include/liuwdom.h");
const RAW: &str = include_str!("../src/raw.rs");

// Each name that stands between these two in a text, sorted.
fn names<'a>(text: &'a str, before: &str, after: char) -> Vec<&'a str> {
    let mut names: Vec<&str> = text
        .split(before)
        .skip(1)
        .filter_map(|rest| Some(rest.split_once(after)?.0))
        .collect();
    names.sort_unstable();
    names
}

#[test]
fn both_declare_the_same_functions() {
    let mut in_header = names(HEADER, "\nuint64_t liuwdom_", '(');
    in_header.extend(names(HEADER, "\nbool liuwdom_", '('));
    in_header.sort_unstable();
    assert_eq!(in_header.len(), 18);
    assert_eq!(in_header, names(RAW, "pub fn liuwdom_", '('));
}

fn defined(name: &str) -> u64 {
    let line = format!("#define LIUWDOM_{name} ");
    let rest = HEADER.split_once(&line).unwrap().1;
    let number = rest.split_whitespace().next().unwrap();
    number.parse().unwrap()
}

#[test]
fn both_have_the_same_constants() {
    let lengths = ["ANSWER", "BOARD", "PREPARED", "PRINTED", "OUTPUT"].map(defined);
    let ours = [
        records::ANSWER,
        records::BOARD,
        records::PREPARED,
        records::PRINTED,
        records::OUTPUT,
    ];
    assert_eq!(lengths, ours.map(|length| length as u64));
    let lengths = ["SPEC_CELLS", "CALL_CELLS", "TEXTS"].map(defined);
    let ours = [records::SPEC_CELLS, records::CALL_CELLS, records::TEXTS];
    assert_eq!(lengths, ours.map(|length| length as u64));
    assert_eq!(defined("RUNS"), records::RUNS as u64);
    assert_eq!(defined("WINDOW"), records::WINDOW);
    assert_eq!(defined("NOT_PREPARED"), records::NOT_PREPARED);
    assert_eq!(defined("NO_ROOM"), records::NO_ROOM);
    let kinds = ["NOTHING", "FLAG", "WHOLE", "REAL"].map(defined);
    let ours = [kind::NOTHING, kind::FLAG, kind::WHOLE, kind::REAL];
    assert_eq!(kinds, ours);
    let kinds = ["SPEC_TEXT", "CALL_TEXT", "HANDLE", "ARGS", "KWARGS"].map(defined);
    let ours = [
        kind::SPEC_TEXT,
        kind::CALL_TEXT,
        kind::HANDLE,
        kind::ARGS,
        kind::KWARGS,
    ];
    assert_eq!(kinds, ours);
}

fn archive() -> PathBuf {
    let folder = std::env::var_os("LIUWDOM_LIB_DIR").map(PathBuf::from);
    let folder = folder.unwrap_or(PathBuf::from(ROOT).join("crates/liuwdom/out"));
    folder.join("libliuwdom.a")
}

// What an example in C prints. Needs a C compiler; without one there is nothing to run.
fn printed_by(example: &str) -> Option<String> {
    let program = PathBuf::from(env!("CARGO_TARGET_TMPDIR")).join(example);
    let mut compiler = Command::new("cc");
    compiler
        .current_dir(ROOT)
        .args(["-Wall", "-Wextra", "-Werror", "-pedantic", "-std=c99"])
        .args(["-Iinclude", &format!("examples/{example}.c")])
        .arg(archive())
        .arg("-o")
        .arg(&program);
    let Ok(compiled) = compiler.status() else {
        eprintln!("no C compiler: examples/{example}.c was not compiled");
        return None;
    };
    assert!(compiled.success());
    let output = Command::new(program).output().unwrap();
    Some(String::from_utf8(output.stdout).unwrap())
}

// A program that has these two, and no C library, can link the archive.
#[test]
fn the_archive_asks_for_two_names() {
    let Ok(output) = Command::new("nm").arg("-u").arg(archive()).output() else {
        eprintln!("no nm: what the archive asks for was not read");
        return;
    };
    assert!(output.status.success());
    let said = String::from_utf8(output.stdout).unwrap();
    let asked = said
        .lines()
        .filter_map(|line| line.trim().strip_prefix("U "));
    assert_eq!(asked.collect::<Vec<_>>(), ["memcpy", "memset"]);
}

#[test]
fn the_example_in_c_prints_the_sheet_of_01() {
    let Some(printed) = printed_by("water") else {
        return;
    };
    let sheet = std::fs::read(format!("{ROOT}/examples/water.sheet")).unwrap();
    let bound = String::from_utf8(liuwdom::bind_sheet(&sheet)).unwrap();
    // By its record and by the prepared list.
    assert_eq!(printed.matches(&bound).count(), 2, "{printed}");
    assert!(printed.ends_with("refused,21,start\n"), "{printed}");
}

#[test]
fn the_example_in_c_of_a_pump_permit() {
    let Some(printed) = printed_by("permit") else {
        return;
    };
    let lines = [
        "90 minutes over 3 runs: exceeded at run 3",
        "105 minutes over 3 runs: kept",
        "90 minutes over 1441 runs: refused, 39",
    ];
    assert_eq!(printed.lines().collect::<Vec<_>>(), lines);
}
