//! Hands the compiler's version to the program, which tells it beside what it measured.

use std::env;
use std::process::Command;

fn main() {
    println!("cargo::rerun-if-changed=build.rs");
    let rustc = env::var_os("RUSTC").expect("cargo names the compiler");
    let told = Command::new(rustc).arg("--version").output().expect("the compiler's version");
    println!("cargo::rustc-env=RUSTC_VERSION={}", String::from_utf8_lossy(&told.stdout).trim());
}
