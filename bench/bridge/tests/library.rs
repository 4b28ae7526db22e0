//! Where the library is looked for: NORTHBRIDGE_LIBRARY, from where cargo was started. And what
//! build-library says while it is proved.

use std::os::unix::fs::PermissionsExt;
use std::path::{Path, PathBuf};
use std::process::{Command, Output};
use std::sync::Mutex;
use std::{env, fs, process};

/// Held by each test: a script that one writes is not to be open in a process that another starts.
static ALONE: Mutex<()> = Mutex::new(());

/// A new folder for a test.
fn folder(name: &str) -> PathBuf {
    env::temp_dir().join(format!("northbridge-{}-{name}", process::id()))
}

/// Builds the bridge anew, started in a folder, with the variable set so.
fn build(started: &Path, named: &str) -> Output {
    let target = folder(&named.replace('/', "-"));
    let manifest = Path::new(env!("CARGO_MANIFEST_DIR")).join("Cargo.toml");
    let mut cargo = Command::new(env!("CARGO"));
    cargo.args(["build", "--offline", "--manifest-path"]).arg(manifest);
    cargo.env("NORTHBRIDGE_LIBRARY", named).env("CARGO_TARGET_DIR", &target).current_dir(started);
    let built = cargo.output().expect("cargo");
    let _ = fs::remove_dir_all(target);
    built
}

#[test]
fn a_relative_folder_is_taken_from_where_cargo_was_started() {
    let _alone = ALONE.lock();
    let folder = Path::new(env!("NORTHBRIDGE_ARCHIVE")).parent().expect("the library's folder");
    let above = folder.parent().expect("a folder above the library's");
    let name = folder.file_name().and_then(|name| name.to_str()).expect("a name in UTF-8");
    let built = build(above, name);
    assert!(built.status.success(), "{}", String::from_utf8_lossy(&built.stderr));
}

#[test]
fn a_folder_without_the_library_is_told_with_the_variable() {
    let _alone = ALONE.lock();
    let built = build(&env::temp_dir(), "no/such/folder");
    let told = String::from_utf8_lossy(&built.stderr);
    assert!(!built.status.success());
    let expected = "NORTHBRIDGE_LIBRARY is 'no/such/folder', and there is no libnorthbridge.a in ";
    assert!(told.contains(expected), "{told}");
    assert!(told.contains("expected the folder in which build-library left it"), "{told}");
}

/// Stands for the toolchain, in a crate's folder: says what it is asked for, and fails at the crate
/// that FAIL names.
const TOOL: &str = r#"#!/bin/sh
if [ "$1" = version ]; then exit 0; fi
name=$(basename "$PWD")
echo "fn $name::one: proved"
if [ "$1 $name" = "lib ${FAIL:-}" ]; then
    echo "proofs/Laws.antt:1:1: error"
    echo "logic=not-proved"
    exit 1
fi
mkdir -p out
(cd out && echo "$1" >"$name.o" && rm -f "lib$name.a" && ar rc "lib$name.a" "$name.o" && rm "$name.o")
echo "logic=proved functions=1"
"#;

/// A repository of five crates: northbridge and leased do not stand on the second.
fn repository(name: &str) -> PathBuf {
    let root = folder(name);
    fs::create_dir_all(root.join("bin")).expect("a new folder");
    for name in ["bits/src", "uses", "locks", "northbridge", "leased"] {
        fs::create_dir_all(root.join("crates").join(name)).expect("a new folder");
    }
    fs::write(root.join("crates/bits/src/lib.rt"), "").expect("a crate");
    for script in ["build-library", "in-memory"] {
        let from = Path::new(env!("CARGO_MANIFEST_DIR")).join("../..").join(script);
        fs::copy(from, root.join(script)).expect("a copy of the script");
    }
    fs::write(
        root.join("crates.txt"),
        "bits:\nuses: bits\nlocks: bits\nnorthbridge staticlib: locks\nleased staticlib: locks\n",
    )
    .expect("a list of crates");
    let tool = root.join("bin/rt");
    fs::write(&tool, TOOL).expect("a tool");
    fs::set_permissions(&tool, fs::Permissions::from_mode(0o755)).expect("a tool to run");
    root
}

/// Runs build-library there: whether it succeeds, and what it says.
fn build_library(root: &Path, fails: &str) -> (bool, String, String) {
    let path = env::var("PATH").expect("a path to the shell's tools");
    let mut command = Command::new(root.join("build-library"));
    command.env("PATH", format!("{}:{path}", root.join("bin").display())).env("FAIL", fails);
    let ended = command.output().expect("a shell");
    let text = |bytes| String::from_utf8(bytes).expect("text");
    (ended.status.success(), text(ended.stdout), text(ended.stderr))
}

/// What it says, with N for each number of seconds.
fn untimed(said: &str) -> String {
    let timed = |line: &str| line.split_once('(').map(|(told, _)| format!("{told}(N s)\n"));
    said.lines().map(|line| timed(line).unwrap_or(format!("{line}\n"))).collect()
}

#[test]
fn each_crate_is_told_when_it_is_proved() {
    let _alone = ALONE.lock();
    let root = repository("told");
    let proves = "build-library: proves bits locks northbridge leased\n\
                  build-library: bits proved (N s)\nbuild-library: locks proved (N s)\n\
                  build-library: northbridge proved (N s)\nbuild-library: leased proved (N s)\n";
    let built =
        "build-library: target/staticlib/libnorthbridge.a is proved and built from these crates\n";
    let says = |expected: &str| {
        let (succeeded, out, error) = build_library(&root, "");
        assert_eq!((succeeded, untimed(&out), error), (true, expected.to_string(), String::new()));
    };
    says(proves);
    says(built);
    fs::write(root.join("crates/bits/src/lib.rt"), "changed").expect("a crate");
    says(proves);
    says(built);
    fs::write(root.join("target/staticlib/libnorthbridge.a"), "another").expect("an archive");
    says(proves);
    let _ = fs::remove_dir_all(&root);
}

#[test]
fn a_crate_that_is_not_proved_is_told_with_its_error() {
    let _alone = ALONE.lock();
    let root = repository("failed");
    for _ in 0..2 {
        let (succeeded, out, error) = build_library(&root, "locks");
        assert!(!succeeded);
        assert!(untimed(&out).ends_with("build-library: bits proved (N s)\n"), "{out}");
        assert!(error.starts_with("proofs/Laws.antt:1:1: error\n"), "{error}");
        assert!(error.contains("build-library: locks is not proved; target/log/locks"), "{error}");
    }
    let _ = fs::remove_dir_all(&root);
}
