//! The files of each package stand one above the other: none uses, over others, itself.
//!
//! A use is a path from `crate`, `super` or `self`, or in a `lib.rs` or `mod.rs` from one of its own
//! modules. To declare a module is no use of it, to hand on what it has is one: so a file uses its
//! neighbours, and never what stands above both.

use std::collections::{BTreeMap, BTreeSet};
use std::fs;
use std::path::{Path, PathBuf};
use std::slice::from_ref;

/// A module by its names from the package's root on; the root has none.
type Module = Vec<String>;

/// For each module those that its file uses.
type Uses = BTreeMap<Module, BTreeSet<Module>>;

/// The folders of sources, one for each package.
fn packages() -> Vec<PathBuf> {
    let bench = Path::new(env!("CARGO_MANIFEST_DIR")).join("..");
    let folders = fs::read_dir(bench).expect("the bench").map(|one| one.expect("a file").path());
    let sources = folders.map(|folder| folder.join("src"));
    sources.filter(|folder| folder.join("lib.rs").is_file()).collect()
}

/// The modules under a folder with their texts. Programs are not modules.
fn modules(folder: &Path, above: &[String], found: &mut BTreeMap<Module, String>) {
    for file in fs::read_dir(folder).expect("a folder of sources") {
        let path = file.expect("a source").path();
        let name = path.file_stem().expect("a name").to_string_lossy().into_owned();
        let own = [above, from_ref(&name)].concat();
        match name.as_str() {
            "bin" | "main" => {}
            _ if path.is_dir() => modules(&path, &own, found),
            "lib" | "mod" => drop(found.insert(above.to_vec(), read(&path))),
            _ => drop(found.insert(own, read(&path))),
        }
    }
}

fn read(path: &Path) -> String {
    fs::read_to_string(path).expect("a source")
}

/// The names and marks of a source, without comments and without what is for its tests.
fn tokens(text: &str) -> Vec<String> {
    let mut tokens: Vec<String> = Vec::new();
    let lines = text.lines().take_while(|line| *line != "#[cfg(test)]");
    for line in lines.map(|line| line.split("//").next().unwrap_or("")) {
        let mut last = ' ';
        for letter in line.chars() {
            let goes_on = is_of_name(letter) && is_of_name(last) || letter == ':' && last == ':';
            match tokens.last_mut() {
                Some(token) if goes_on => token.push(letter),
                _ if letter != ' ' => tokens.push(letter.to_string()),
                _ => {}
            }
            last = letter;
        }
    }
    tokens
}

fn is_of_name(letter: char) -> bool {
    letter.is_alphanumeric() || letter == '_'
}

/// Follows a path, and each of those in braces, to its end; what stands behind is handed back.
fn follow<'a>(path: Module, rest: &'a [String], found: &mut Vec<Module>) -> &'a [String] {
    let further = |name: &String| [&path[..], from_ref(name)].concat();
    match rest {
        [colons, brace, inside @ ..] if colons == "::" && brace == "{" => {
            let mut rest = inside;
            loop {
                rest = match rest {
                    [name, behind @ ..] if name.starts_with(is_of_name) => {
                        follow(further(name), behind, found)
                    }
                    [end, behind @ ..] if end == "}" => return behind,
                    [_, behind @ ..] => behind,
                    [] => return rest,
                };
            }
        }
        [colons, name, behind @ ..] if colons == "::" && name.starts_with(is_of_name) => {
            follow(further(name), behind, found)
        }
        _ => {
            found.push(path);
            rest
        }
    }
}

/// The paths of a source that begin at one of these names.
fn paths(tokens: &[String], starts: &[String]) -> Vec<Module> {
    let mut found = Vec::new();
    for (at, token) in tokens.iter().enumerate().filter(|(_, token)| starts.contains(token)) {
        let begins = at == 0 || tokens[at - 1] != "::";
        if begins && tokens.get(at + 1).is_some_and(|next| next == "::") {
            follow(vec![token.clone()], &tokens[at + 1..], &mut found);
        }
    }
    found
}

/// The module whose file has what a path names.
fn target(own: &[String], path: &[String], all: &BTreeMap<Module, String>) -> Module {
    let mut module = own.to_vec();
    for name in path {
        match name.as_str() {
            "crate" => module.clear(),
            "super" => drop(module.pop()),
            "self" => {}
            _ => module.push(name.clone()),
        }
    }
    while !all.contains_key(&module) {
        module.pop();
    }
    module
}

fn uses(folder: &Path) -> Uses {
    let mut all = BTreeMap::new();
    modules(folder, &[], &mut all);
    let used = |own: &Module, text: &String| {
        let below = all.keys().filter(|other| other.len() == own.len() + 1);
        let children =
            below.filter(|other| other.starts_with(own)).filter_map(|other| other.last());
        let roots = ["crate", "super", "self"].map(str::to_string);
        let starts: Vec<String> = children.cloned().chain(roots).collect();
        let paths = paths(&tokens(text), &starts);
        let used = paths.iter().map(|path| target(own, path, &all));
        used.filter(|used| used != own).collect()
    };
    all.iter().map(|(own, text)| (own.clone(), used(own, text))).collect()
}

/// What is left when each module that uses none of the others, or that none of them uses, is taken
/// away, again and again.
fn circles(mut uses: Uses) -> Uses {
    loop {
        let left: BTreeSet<Module> = uses.keys().cloned().collect();
        uses.values_mut().for_each(|used| used.retain(|module| left.contains(module)));
        let used: BTreeSet<Module> = uses.values().flatten().cloned().collect();
        uses.retain(|own, below| !below.is_empty() && used.contains(own));
        if uses.len() == left.len() {
            return uses;
        }
    }
}

#[test]
fn no_files_use_each_other_in_a_circle() {
    let packages = packages();
    assert!(packages.len() >= 6);
    for folder in packages {
        let uses = uses(&folder);
        assert!(uses.values().any(|used| !used.is_empty()), "{}", folder.display());
        assert_eq!(circles(uses), Uses::new(), "{}", folder.display());
    }
}

#[test]
fn paths_of_each_form_are_found() {
    let text = "pub use one::{self, Two};\n// crate::not\nuse crate::{three::Four, five};\n\
                fn six() { super::seven::eight(self::nine) }\n#[cfg(test)]\nuse crate::ten;\n";
    let starts = ["one", "crate", "super", "self"].map(str::to_string);
    let found: Vec<String> =
        paths(&tokens(text), &starts).iter().map(|path| path.join("::")).collect();
    let wanted = [
        "one::self",
        "one::Two",
        "crate::three::Four",
        "crate::five",
        "super::seven::eight",
        "self::nine",
    ];
    assert_eq!(found, wanted);
}

#[test]
fn a_circle_is_found() {
    let module = |name: &str| vec![name.to_string()];
    let use_of = |one: &str, two: &str| (module(one), BTreeSet::from([module(two)]));
    let line = [use_of("a", "b"), use_of("b", "c"), (module("c"), BTreeSet::new())];
    assert_eq!(circles(Uses::from(line.clone())), Uses::new());
    let mut round = Uses::from(line);
    round.insert(module("c"), BTreeSet::from([module("b")]));
    assert_eq!(circles(round).len(), 2);
}
