//! `nb load` and `nb dump` as they are called, over the files of bench/vendor.

use std::path::{Path, PathBuf};
use std::process::Command;
use std::{env, fs};

/// Status, standard output and standard error.
fn nb(words: &[&str]) -> (i32, String, String) {
    let output = Command::new(env!("CARGO_BIN_EXE_nb")).args(words).output().expect("the tool");
    let text = |bytes: &[u8]| String::from_utf8_lossy(bytes).into_owned();
    (output.status.code().unwrap_or(-1), text(&output.stdout), text(&output.stderr))
}

fn vendor(name: &str) -> String {
    let folder = Path::new(env!("CARGO_MANIFEST_DIR")).join("../vendor");
    folder.join(name).to_string_lossy().into_owned()
}

/// A folder of one test, with a session in it.
struct Folder(PathBuf);

const START: &str = "# A card's buffer\nmemory 131072 entries 4\nreset key 0 0 nonce 1 -> 0\n\
                     derive root length 17 permissions RW -> 0 as card\n\
                     derive root length 4 permissions R -> 0 as reader\n";

impl Folder {
    fn new(test: &str) -> Folder {
        let folder = env::temp_dir().join(format!("nb-images-{test}-{}", std::process::id()));
        let _ = fs::remove_dir_all(&folder);
        fs::create_dir_all(&folder).expect("a folder");
        fs::write(folder.join("start.session"), START).expect("a session");
        Folder(folder)
    }

    fn path(&self, name: &str) -> String {
        self.0.join(name).to_string_lossy().into_owned()
    }

    /// A load of a file of bench/vendor through a token of the session.
    fn load(&self, token: &str, file: &str) -> (i32, String, String) {
        nb(&["load", &self.path("start.session"), token, &vendor(file)])
    }
}

impl Drop for Folder {
    fn drop(&mut self) {
        let _ = fs::remove_dir_all(&self.0);
    }
}

#[test]
fn a_file_is_loaded_and_dumped_again() {
    let folder = Folder::new("again");
    let (start, loaded, again) =
        (folder.path("start.session"), folder.path("loaded.session"), folder.path("again.hex"));
    let file = vendor("srec-17.hex");
    let (status, out, error) = nb(&["load", "--to", &loaded, &start, "card", &file]);
    assert_eq!((status, error.as_str()), (0, ""), "{out}");
    assert!(out.contains("3 records, 17 bytes of data from 0 to 16: 0 granted\n"), "{out}");
    let (status, out, error) = nb(&["dump", &loaded, "card", &again]);
    assert_eq!((status, error.as_str()), (0, ""), "{out}");
    assert!(out.contains("17 bytes as 86 bytes of text"), "{out}");
    let text = |file: &str| fs::read(file).expect("a file");
    assert_eq!(text(&again), text(&vendor("dump-17.hex")));
    // What was written is a session, with the text as it is.
    assert_eq!(nb(&["replay", "--brief", &loaded]).0, 0);
    let written = String::from_utf8(text(&loaded)).expect("text");
    let record = String::from_utf8(text(&file)).expect("text");
    let record = record.lines().nth(1).expect("a data record");
    assert!(written.starts_with("# A card's buffer\n") && written.contains(record), "{written}");
}

/// An exact session stays one.
#[test]
fn an_exact_session() {
    let folder = Folder::new("exact");
    let (exact, loaded) = (folder.path("exact.session"), folder.path("loaded.session"));
    let (_, text, _) = nb(&["record", &folder.path("start.session")]);
    fs::write(&exact, text).expect("a session");
    let file = vendor("srec-1.hex");
    assert_eq!(nb(&["load", "--to", &loaded, &exact, "card", &file]).0, 0);
    let written = fs::read_to_string(&loaded).expect("a session");
    assert!(written.contains("\nexact\n") && written.ends_with("= at 0 05\n"), "{written}");
    assert_eq!(nb(&["replay", "--brief", &loaded]).0, 0);
}

#[test]
fn what_is_wrong_is_told_in_words() {
    let folder = Folder::new("wrong");
    let holds = |token: &str, file: &str, told: &str| {
        let (status, out, error) = folder.load(token, file);
        assert_eq!((status, error.as_str()), (1, ""), "{out}");
        assert!(out.contains(told), "{out}");
    };
    let crlf = "12 malformed record or ending: line 1: it ends in CR LF, and must end in a line \
                feed alone; sed 's/\\r$//' or dos2unix converts the file";
    holds("card", "objcopy.hex", crlf);
    holds("card", "srec-across.hex", "line 2: its 32 bytes at FFF8 run past the page's end");
    holds("card", "srec-300.hex", "8 out of bounds: the data ends behind byte 299, of 17");
    holds("reader", "srec-1.hex", "7 right lacking");
    holds("root+1", "srec-1.hex", "1 bad request: the token has an offset, 1");
    let wrong = folder.path("wrong.hex");
    fs::write(&wrong, ":0000000000\n:00000001FE\n").expect("a file");
    let (status, out, _) = nb(&["load", &folder.path("start.session"), "card", &wrong]);
    assert_eq!(status, 1);
    assert!(out.contains("13 wrong checksum: line 2: its checksum is FE, and must be FF"), "{out}");
}

/// A start address comes in lines that end in CR LF too; these are told first.
#[test]
fn a_start_address_is_told() {
    let folder = Folder::new("start");
    let text = fs::read_to_string(vendor("objcopy-start.hex")).expect("a file");
    let file = folder.path("start.hex");
    fs::write(&file, text.replace('\r', "")).expect("a file");
    let (status, out, _) = nb(&["load", &folder.path("start.session"), "card", &file]);
    assert_eq!(status, 1);
    assert!(out.contains("type 03 (start address) is not taken"), "{out}");
}

#[test]
fn what_cannot_be_dumped_is_told() {
    let folder = Folder::new("dumped");
    let (start, file) = (folder.path("start.session"), folder.path("none.hex"));
    let (status, out, _) = nb(&["dump", &start, "root", &file]);
    assert_eq!(status, 1);
    let told =
        "root: 14 no room for the output: the text would have 360476 bytes, of at most 65536";
    assert!(out.contains(told), "{out}");
    let (status, _, error) = nb(&["dump", &start, "nobody", &file]);
    assert_eq!(status, 2);
    assert!(error.contains("nobody gave 'nobody'"), "{error}");
    assert!(!Path::new(&file).exists());
}

/// A session that does not go as it says is no ground for a load.
#[test]
fn a_session_that_goes_otherwise() {
    let folder = Folder::new("otherwise");
    let wrong = folder.path("wrong.session");
    fs::write(&wrong, "memory 64 entries 2\nreset nonce 1 -> 0\nclone root -> 5\n").expect("one");
    let (status, _, error) = nb(&["load", &wrong, "root", &vendor("srec-1.hex")]);
    assert_eq!(status, 2);
    assert!(error.contains("line 3 does not"), "{error}");
}
