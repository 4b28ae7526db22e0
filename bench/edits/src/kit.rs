//! The Rattle toolchain, where `rt` finds it.

use std::env;
use std::path::{Path, PathBuf};

#[derive(Clone, Debug)]
pub struct Kit {
    pub rattle: PathBuf,
    /// The logic's project file, and the logic as it was built.
    pub project: PathBuf,
    pub logic: PathBuf,
    /// The built libraries of the kit.
    pub libraries: PathBuf,
}

impl Kit {
    /// The kit at RATTLE_HOME, or the one that the command rt is of.
    pub fn find() -> Result<Kit, String> {
        let home = env::var_os("RATTLE_HOME").filter(|home| !home.is_empty());
        let home = home.map(PathBuf::from).or_else(home_of_rt);
        home.as_deref().ok_or("expected the Rattle toolchain's command rt".to_string()).and_then(at)
    }
}

fn at(home: &Path) -> Result<Kit, String> {
    let rattle = home.join("bin/rattle");
    if !rattle.is_file() {
        return Err(format!("expected the Rattle toolchain at {}", rattle.display()));
    }
    let project = home.join("rattle/logic/antt-project.json");
    Ok(Kit { rattle, project, logic: home.join("logic_built"), libraries: home.join("rlibs") })
}

fn home_of_rt() -> Option<PathBuf> {
    let path = env::var_os("PATH")?;
    let rt = env::split_paths(&path).map(|folder| folder.join("rt")).find(|rt| rt.is_file())?;
    Some(rt.canonicalize().ok()?.parent()?.parent()?.to_path_buf())
}
