//! What the library calls, and what it offers: include/northbridge.h says so.

use std::collections::BTreeSet;
use std::process::Command;

/// The names of the archive's symbols of one kind, each once, in order.
fn symbols(kind: &str) -> Vec<String> {
    let archive = env!("NORTHBRIDGE_ARCHIVE");
    let told = Command::new("nm").args(["--format=posix", kind, archive]).output();
    let told = told.expect("nm, which comes with the linker");
    assert!(told.status.success(), "{}", String::from_utf8_lossy(&told.stderr));
    let lines = String::from_utf8(told.stdout).expect("names in ASCII");
    let lines = lines.lines().filter(|line| !line.ends_with(':'));
    let names: BTreeSet<_> = lines.filter_map(|line| line.split(' ').next()).collect();
    names.into_iter().map(str::to_string).collect()
}

#[test]
fn it_calls_memset_and_memmove_alone() {
    assert_eq!(symbols("--undefined-only"), ["memmove", "memset"]);
}

#[test]
fn it_offers_two_functions() {
    let offered = symbols("--extern-only");
    let offered: Vec<_> = offered.iter().filter(|name| !name.starts_with("mem")).collect();
    assert_eq!(offered, ["northbridge_serve", "northbridge_serve_leased"]);
}
