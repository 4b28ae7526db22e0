//! Folders: copies, and those that are removed when they are done with.

use std::fs;
use std::path::{Path, PathBuf};

/// A new folder, removed with all that it holds when this is dropped.
#[derive(Debug)]
pub struct Room {
    path: PathBuf,
}

impl Room {
    /// A room in a folder, which is made where it is not there.
    pub fn new(folder: &Path, name: &str) -> Result<Room, String> {
        let path = folder.join(format!("edits-{}-{name}", std::process::id()));
        let made = fs::create_dir_all(folder).and_then(|()| fs::create_dir(&path));
        made.map_err(|error| format!("{}: {error}", path.display()))?;
        Ok(Room { path })
    }

    pub fn path(&self) -> &Path {
        &self.path
    }
}

impl Drop for Room {
    fn drop(&mut self) {
        let _ = fs::remove_dir_all(&self.path);
    }
}

/// Copies a folder with all that it holds. A link is not followed, but an error.
pub fn copy(from: &Path, to: &Path) -> Result<(), String> {
    let told = |error| format!("{}: {error}", from.display());
    fs::create_dir_all(to).map_err(told)?;
    for one in fs::read_dir(from).map_err(told)? {
        let one = one.map_err(told)?;
        let (path, kind) = (one.path(), one.file_type().map_err(told)?);
        let copied = to.join(one.file_name());
        if kind.is_dir() {
            copy(&path, &copied)?;
        } else if kind.is_file() {
            fs::copy(&path, &copied).map_err(told)?;
        } else {
            return Err(format!("expected a file or a folder, and no link: {}", path.display()));
        }
    }
    Ok(())
}

/// The parts of a crate that the prover sees.
pub fn copy_crate(from: &Path, to: &Path) -> Result<(), String> {
    let parts = ["src", "specs", "proofs"].into_iter().filter(|part| from.join(part).exists());
    parts.into_iter().try_for_each(|part| copy(&from.join(part), &to.join(part)))
}

/// The names of the edits in a folder, in order, without their ending.
pub fn edits(folder: &Path) -> Result<Vec<String>, String> {
    let told = |error| format!("{}: {error}", folder.display());
    let mut names = Vec::new();
    for one in fs::read_dir(folder).map_err(told)? {
        let name = one.map_err(told)?.file_name().to_string_lossy().into_owned();
        names.extend(name.strip_suffix(".edit").map(str::to_string));
    }
    names.sort();
    Ok(names)
}

#[cfg(test)]
mod tests {
    use super::*;

    #[test]
    fn a_copy_has_all_that_the_prover_sees() {
        let room = Room::new(&std::env::temp_dir(), "copies").unwrap();
        let (from, to) = (room.path().join("a"), room.path().join("b"));
        fs::create_dir_all(from.join("src/inner")).unwrap();
        fs::create_dir_all(from.join("edits")).unwrap();
        fs::write(from.join("src/inner/x.rt"), "x").unwrap();
        fs::write(from.join("edits/y.edit"), "y").unwrap();
        fs::write(from.join("edits/a.edit"), "a").unwrap();
        fs::write(from.join("edits/notes"), "n").unwrap();
        copy_crate(&from, &to).unwrap();
        assert_eq!(fs::read_to_string(to.join("src/inner/x.rt")).unwrap(), "x");
        assert!(!to.join("edits").exists() && !to.join("specs").exists());
        assert_eq!(edits(&from.join("edits")).unwrap(), ["a", "y"]);
        std::os::unix::fs::symlink("x.rt", from.join("src/inner/link.rt")).unwrap();
        assert!(copy_crate(&from, &to).unwrap_err().contains("no link"));
    }

    #[test]
    fn a_room_is_removed() {
        let room = Room::new(&std::env::temp_dir(), "removed").unwrap();
        let path = room.path().to_path_buf();
        fs::write(path.join("x"), "x").unwrap();
        drop(room);
        assert!(!path.exists());
    }
}
