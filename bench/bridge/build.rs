//! Finds the static library. NORTHBRIDGE_LIBRARY names its folder; without it, the library is proved
//! and built from this repository's crates.

use std::env;
use std::ffi::OsStr;
use std::fs::{self, File, OpenOptions};
use std::io::{self, BufRead, BufReader, IsTerminal, Write};
use std::os::unix::process::parent_id;
use std::path::{Path, PathBuf};
use std::process::{Command, Stdio};
use std::time::{Duration, SystemTime};

const ARCHIVE: &str = "libnorthbridge.a";
const VARIABLE: &str = "NORTHBRIDGE_LIBRARY";

fn main() {
    println!("cargo::rerun-if-env-changed={VARIABLE}");
    let found = match env::var_os(VARIABLE) {
        Some(named) => lent(&named),
        None => proved(),
    };
    match found {
        Ok(archive) => link(&archive),
        Err(lines) => lines.iter().for_each(|line| println!("cargo::error={line}")),
    }
}

fn link(archive: &Path) {
    let folder = archive.parent().expect("an archive in a folder");
    println!("cargo::rerun-if-changed={}", archive.display());
    println!("cargo::rustc-env=NORTHBRIDGE_ARCHIVE={}", archive.display());
    println!("cargo::rustc-link-search=native={}", folder.display());
    println!("cargo::rustc-link-lib=static=northbridge");
}

/// The library in the folder that the variable names, from where cargo was started.
fn lent(named: &OsStr) -> Result<PathBuf, Vec<String>> {
    let started = fs::read_link(of_cargo("cwd")).unwrap_or_default();
    let folder = started.join(named);
    let archive = folder.join(ARCHIVE);
    archive.is_file().then_some(archive).ok_or_else(|| {
        let named = named.display();
        vec![
            format!("{VARIABLE} is '{named}', and there is no {ARCHIVE} in {}", folder.display()),
            "expected the folder in which build-library left it; without the variable it is built"
                .to_string(),
        ]
    })
}

/// Proves the crates, if they have changed since, and builds the library.
fn proved() -> Result<PathBuf, Vec<String>> {
    let started = SystemTime::now();
    let root = env::var("CARGO_MANIFEST_DIR").expect("cargo names the package's folder");
    let root = fs::canonicalize(PathBuf::from(root).join("../..")).expect("the repository's root");
    for part in ["crates", "crates.txt", "build-library", "in-memory"] {
        println!("cargo::rerun-if-changed={}", root.join(part).display());
    }
    let (succeeded, mut said) = run(&root.join("build-library")).expect("a shell and a pipe");
    said.retain(|line| !line.contains(" proved ("));
    if !succeeded {
        return Err(said);
    }
    let archive = root.join("target/staticlib").join(ARCHIVE);
    age(&archive, started).expect("an archive that was built");
    Ok(archive)
}

/// Makes an archive that was built just now older than this script's start, as what it was built from
/// is. Cargo runs the script again if a file that it names is newer.
fn age(archive: &Path, started: SystemTime) -> io::Result<()> {
    let older = started - Duration::from_secs(60);
    let file = OpenOptions::new().append(true).open(archive)?;
    if file.metadata()?.modified()? > older {
        file.set_modified(older)?;
    }
    Ok(())
}

/// Runs a program, and hands on what it says line by line. It may take minutes, and cargo keeps what
/// a build script says to itself, so the lines go to the terminal, if cargo has one.
fn run(program: &Path) -> io::Result<(bool, Vec<String>)> {
    let (reader, writer) = io::pipe()?;
    let mut command = Command::new(program);
    command.stdin(Stdio::null()).stdout(writer.try_clone()?).stderr(writer);
    let mut child = command.spawn()?;
    drop(command);
    let mut terminal = terminal();
    let mut said = Vec::new();
    for line in BufReader::new(reader).lines() {
        let line = line?;
        if let Some(terminal) = &mut terminal {
            // Cargo's bar stands in this line, and is drawn again.
            let _ = writeln!(terminal, "\r\x1b[K{line}");
        }
        said.push(line);
    }
    Ok((child.wait()?.success(), said))
}

/// The terminal to which cargo itself speaks.
fn terminal() -> Option<File> {
    let file = OpenOptions::new().append(true).open(of_cargo("fd/2")).ok()?;
    file.is_terminal().then_some(file)
}

/// What the system tells of cargo, which started this script.
fn of_cargo(part: &str) -> PathBuf {
    format!("/proc/{}/{part}", parent_id()).into()
}
