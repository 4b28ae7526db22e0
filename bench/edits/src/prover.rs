//! Checks of a crate by the prover, over an incremental folder.

use std::fs;
use std::fs::File;
use std::path::{Path, PathBuf};
use std::process::{Command, Stdio};

use crate::kit::Kit;
use crate::listed::{self, Listed};

/// The prover with the crates of a repository.
#[derive(Clone, Debug)]
pub struct Prover {
    kit: Kit,
    root: PathBuf,
    pub crates: Vec<Listed>,
}

/// What the prover came to, with the crate's folder left out of the paths that it tells.
#[derive(Clone, Debug, PartialEq, Eq)]
pub struct Said {
    /// None if a signal ended it.
    pub status: Option<i32>,
    pub text: String,
}

impl Prover {
    pub fn new(root: &Path) -> Result<Prover, String> {
        let list = root.join("crates.txt");
        let text = fs::read_to_string(&list).map_err(|error| told(&list, error))?;
        Ok(Prover { kit: Kit::find()?, root: root.to_path_buf(), crates: listed::read(&text)? })
    }

    /// Where a crate of the repository stands.
    pub fn folder(&self, name: &str) -> PathBuf {
        self.root.join("crates").join(name)
    }

    /// Checks a copy of a crate. All that is said goes to the log.
    pub fn check(&self, name: &str, copy: &Path, saved: &Path, log: &Path) -> Result<Said, String> {
        let mut command = Command::new(&self.kit.rattle);
        command.arg("check").args(self.words(name, copy)?).arg("--incremental").arg(saved);
        let file = File::create(log).map_err(|error| told(log, error))?;
        let also = file.try_clone().map_err(|error| told(log, error))?;
        command.stdin(Stdio::null()).stdout(file).stderr(also);
        let status = command.status().map_err(|error| told(&self.kit.rattle, error))?;
        let said = fs::read(log).map_err(|error| told(log, error))?;
        let text = String::from_utf8_lossy(&said).replace(&format!("{}/", copy.display()), "");
        Ok(Said { status: status.code(), text })
    }

    /// The words that rt gives the prover.
    fn words(&self, name: &str, copy: &Path) -> Result<Vec<String>, String> {
        let kit = &self.kit.libraries;
        let root = ["src/main.rt", "src/lib.rt"].map(|file| copy.join(file));
        let root = root.into_iter().find(|file| file.is_file());
        let root = root.ok_or("it has neither src/main.rt nor src/lib.rt")?;
        let used = |folder: &Path, name: &str| {
            ["--extern".to_string(), format!("{name}={}/{name}.rlib", folder.display())]
        };
        let below = |folder: &Path| ["-L".to_string(), format!("dependency={}", folder.display())];
        let mut words = vec!["--crate-name".to_string(), name.to_string(), text(&root)];
        words.extend(used(kit, "std"));
        words.extend(below(kit));
        for one in &self.listed(name)?.below {
            words.extend(used(&self.built(one)?, one));
        }
        for one in self.all_below(name)? {
            words.extend(below(&self.built(&one)?));
        }
        words.extend(["--antt-project".to_string(), text(&self.kit.project)]);
        words.extend(["--logic-built".to_string(), text(&self.kit.logic)]);
        Ok(words)
    }

    fn listed(&self, name: &str) -> Result<&Listed, String> {
        let listed = self.crates.iter().find(|one| one.name == name);
        listed.ok_or_else(|| format!("crates.txt does not list {name}"))
    }

    /// The crates of the repository below one, each once.
    pub fn all_below(&self, name: &str) -> Result<Vec<String>, String> {
        let mut all = Vec::new();
        let mut next = self.listed(name)?.below.clone();
        while let Some(one) = next.pop() {
            if !all.contains(&one) {
                next.extend_from_slice(&self.listed(&one)?.below);
                all.push(one);
            }
        }
        Ok(all)
    }

    /// The folder with a proved crate's library.
    fn built(&self, name: &str) -> Result<PathBuf, String> {
        let folder = self.folder(name).join("out/rlib");
        match folder.join(format!("{name}.rlib")).exists() {
            true => Ok(folder),
            false => Err(format!("crates/{name}/out has no library, which 'rt lib' makes")),
        }
    }
}

fn text(path: &Path) -> String {
    path.to_string_lossy().into_owned()
}

fn told(path: &Path, error: std::io::Error) -> String {
    format!("{}: {error}", path.display())
}
