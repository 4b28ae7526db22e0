//! The tool over small repositories: with a prover of the tests' own, which goes by words, and with
//! the kit's.

use std::os::unix::fs::PermissionsExt;
use std::path::{Path, PathBuf};
use std::process::Command;
use std::{env, fs};

/// A repository in a folder of its own, which is removed at the end.
struct Repository {
    folder: PathBuf,
}

impl Drop for Repository {
    fn drop(&mut self) {
        let _ = fs::remove_dir_all(&self.folder);
    }
}

impl Repository {
    fn new(test: &str) -> Repository {
        let folder = env::temp_dir().join(format!("edits-test-{test}-{}", std::process::id()));
        let _ = fs::remove_dir_all(&folder);
        let repository = Repository { folder };
        repository.write("temporary/held", "");
        repository.write("kit/rattle/logic/antt-project.json", "");
        let prover = "kit/bin/rattle";
        repository.write(prover, include_str!("prover.sh"));
        let executable = fs::Permissions::from_mode(0o755);
        fs::set_permissions(repository.folder.join(prover), executable).expect("a mode");
        repository
    }

    fn write(&self, file: &str, text: &str) {
        let path = self.folder.join(file);
        fs::create_dir_all(path.parent().expect("a folder")).expect("a folder");
        fs::write(path, text).expect("a file");
    }

    /// A crate that stands on none, as `text` in its root file.
    fn put(&self, name: &str, text: &str) {
        let list = self.folder.join("crates.txt");
        let listed = fs::read_to_string(list).unwrap_or_default();
        self.write("crates.txt", &format!("{listed}{name}:\n"));
        self.write(&format!("crates/{name}/src/lib.rt"), text);
        fs::create_dir_all(self.folder.join(format!("crates/{name}/edits"))).expect("a folder");
    }

    /// An edit of a crate's root file.
    fn edit(&self, of: &str, old: &str, new: &str) {
        let text = format!("# a test\nfile: src/lib.rt\nold: {old}\nnew: {new}\n");
        self.write(&format!("crates/{}.edit", of.replace('/', "/edits/")), &text);
    }

    /// Runs the tool with a kit, or with the installed one: its status and all that it said.
    fn run(&self, words: &[&str], kit: Option<&Path>) -> (i32, String) {
        let mut tool = Command::new(env!("CARGO_BIN_EXE_edits"));
        tool.args(words).current_dir(&self.folder).env("TMPDIR", self.folder.join("temporary"));
        match kit {
            Some(kit) => tool.env("RATTLE_HOME", kit),
            None => tool.env_remove("RATTLE_HOME"),
        };
        let output = tool.output().expect("the tool");
        let said = [output.stdout, output.stderr].concat();
        (output.status.code().unwrap_or(-1), String::from_utf8_lossy(&said).into_owned())
    }

    /// Runs it with the prover of these tests. The copies are removed.
    fn tried(&self, words: &[&str]) -> (i32, String) {
        let done = self.run(words, Some(&self.folder.join("kit")));
        let left = fs::read_dir(self.folder.join("temporary")).expect("a folder").count();
        assert_eq!(left, 1, "{}", done.1);
        done
    }

    /// Runs it, which must fail, and tell this.
    fn fails(&self, why: &str) {
        let (status, said) = self.tried(&[]);
        assert_eq!(status, 1, "{said}");
        assert!(said.contains(why), "{said}");
        assert!(said.ends_with(" 1 failed\n"), "{said}");
    }
}

#[test]
fn refused_edits_pass() {
    let repository = Repository::new("refused");
    repository.put("one", "equal\n");
    repository.put("two", "equal\n");
    repository.edit("one/first", "equal", "edited unequal");
    repository.edit("one/second", "equal", "edited and unequal");
    repository.edit("two/third", "equal", "edited unequal");
    let (status, said) = repository.tried(&[]);
    assert_eq!(status, 0, "{said}");
    assert!(said.starts_with("edits: tests of the tests, "), "{said}");
    let line = "edits: two/third: refused over an incremental folder, as it must be (first at \
                proofs/Lib.antt:2:3; 0 s)\n";
    assert!(said.contains(line), "{said}");
    assert!(said.contains("edits: one: checked as it stands (0 s)\n"), "{said}");
    assert!(said.ends_with("edits: 3 refused, 0 failed\n"), "{said}");
    assert!(repository.folder.join("target/edits/one/first.log").is_file());
    assert!(repository.tried(&["two"]).1.ends_with("edits: 1 refused, 0 failed\n"));
}

#[test]
fn an_edit_that_is_proved_fails() {
    let repository = Repository::new("proved");
    repository.put("one", "equal\n// a comment\n");
    repository.edit("one/comment", "// a comment", "// edited");
    repository.fails("edits: one/comment: NOT REFUSED: the crate is still proved with this edit");
}

#[test]
fn an_edit_that_breaks_a_definition_itself_fails() {
    let repository = Repository::new("untyped");
    repository.put("one", "equal\n");
    repository.edit("one/untyped", "equal", "edited untyped");
    repository.fails("edits: one/untyped: SHOWS NOTHING: it breaks a definition itself");
}

#[test]
fn an_edit_that_does_not_reach_the_prover_fails() {
    let repository = Repository::new("unparsed");
    repository.put("one", "equal\n");
    repository.edit("one/unparsed", "equal", "edited unparsed");
    repository.fails("edits: one/unparsed: BAD EDIT: it did not reach the prover (exit 1)");
}

#[test]
fn an_edit_that_is_none_fails() {
    let repository = Repository::new("none");
    repository.put("one", "equal\n");
    repository.edit("one/absent", "unequal", "edited");
    repository.fails("edits: one/absent: BAD EDIT: an 'old:' text is not in src/lib.rt");
}

#[test]
fn a_crate_that_is_not_proved_as_it_stands_fails() {
    let repository = Repository::new("standing");
    repository.put("one", "unequal\n");
    repository.edit("one/first", "unequal", "edited unequal");
    repository.fails("edits: one: FAILED: the unedited crate is not proved");
}

#[test]
fn a_folder_without_edits_fails() {
    let repository = Repository::new("empty");
    repository.put("one", "equal\n");
    repository.fails("edits: one: FAILED: crates/one/edits has no edit");
}

#[test]
fn a_crate_over_one_that_was_not_proved_fails() {
    let repository = Repository::new("over");
    repository.put("one", "equal\n");
    repository.edit("one/first", "equal", "edited unequal");
    repository.write("crates/two/src/lib.rt", "equal\n");
    repository.write("crates.txt", "two:\none: two\n");
    repository.fails("edits: one: FAILED: crates/two/out has no library");
    let built = repository.folder.join("crates/two/out/rlib/two.rlib");
    fs::create_dir_all(built).expect("a folder");
    assert_eq!(repository.tried(&[]).0, 0);
}

#[test]
fn bad_input_is_told() {
    let repository = Repository::new("input");
    repository.write("crates.txt", "one:\n");
    repository.write("crates/one/src/lib.rt", "equal\n");
    let told = |words: &[&str], why: &str| {
        let (status, said) = repository.tried(words);
        assert_eq!(status, 2, "{said}");
        assert!(said.contains(why), "{said}");
    };
    told(&[], "none has one");
    told(&["one"], "crates/one/edits");
    told(&["--from", "must-fail", "one"], "crates/one/must-fail");
    told(&["--what"], "found --what");
    assert!(repository.tried(&["--help"]).1.contains("tests of the tests, and no verdict"));
}

#[test]
fn the_kits_prover_refuses_a_wrong_number_and_not_a_comment() {
    if Command::new("rt").arg("version").output().is_err() {
        return println!("the kit's prover was not tried, as rt is not installed");
    }
    let repository = Repository::new("kit");
    let code = "#![tactic(auto)]\nghost use Rattle.std.specs.Prelude.{◌≡◌};\n\n// seven\n\
                pub fn seven() -> usize\n    ensures { result ≡ 7 }\n{\n    7\n}\n";
    repository.put("one", code);
    repository.edit("one/comment", "// seven", "// the number seven");
    repository.edit("one/eight", "    7", "    8");
    let (status, said) = repository.run(&[], None);
    assert_eq!(status, 1, "{said}");
    assert!(said.contains("edits: one/comment: NOT REFUSED"), "{said}");
    assert!(said.contains("edits: one/eight: refused over an incremental folder"), "{said}");
    assert!(said.ends_with("edits: 1 refused, 1 failed\n"), "{said}");
}
