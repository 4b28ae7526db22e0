//! HEX files that other tools wrote, and dumps beside what a tool wrote for the same bytes.
//! bench/vendor/README.md says how they were made.

use std::collections::BTreeSet;
use std::fs;
use std::path::{Path, PathBuf};

use bridge::{text_length, Northbridge, Refusal, Task, Token, TEXT_BYTES};

/// The files that load, and where their data begins.
const LOADED: [(&str, usize); 13] = [
    ("srec-1", 0),
    ("srec-15", 0),
    ("srec-16", 0),
    ("srec-17", 0),
    ("srec-300", 0),
    ("srec-4096", 0),
    ("srec-overlap", 0),
    ("srec-pages", 0xFFF8),
    ("intelhex-1", 0),
    ("intelhex-7", 0),
    ("intelhex-255", 0),
    ("intelhex-pages", 0xFFF0),
    ("small-digits", 0),
];

/// The files that are refused as they are.
const REFUSED: [&str; 3] = ["objcopy", "objcopy-start", "srec-across"];

/// The lengths whose dumps are stored as text.
const DUMPED: [usize; 5] = [1, 15, 16, 17, 4_096];

/// The longest segment that can be dumped.
const LONGEST: usize = 23_820;

const MEMORY: usize = 1 << 17;
/// What stands where nothing was loaded.
const UNTOUCHED: u8 = 0xEE;

fn folder() -> PathBuf {
    Path::new(env!("CARGO_MANIFEST_DIR")).join("../vendor")
}

fn stored(name: &str) -> Vec<u8> {
    fs::read(folder().join(name)).unwrap_or_else(|error| panic!("{name}: {error}"))
}

/// What memory holds after a load of a text through the root's token.
fn loaded(text: &[u8]) -> Result<Vec<u8>, Refusal> {
    let (mut table, mut memory) = ([0; 4 * 32], vec![UNTOUCHED; MEMORY]);
    let mut bridge = Northbridge::reset([1, 2], 1, &mut table, &mut memory)?;
    let answer = bridge.load(Token::ROOT, Task::NONE, text);
    answer.map(|()| memory)
}

/// The bytes of a file stand from a place on, and nothing else has changed.
fn holds(name: &str, memory: &[u8], start: usize) {
    let bytes = stored(&format!("{name}.bin"));
    let (front, rest) = memory.split_at(start);
    let (data, back) = rest.split_at(bytes.len());
    assert!(data == bytes, "{name}");
    assert!(front.iter().chain(back).all(|byte| *byte == UNTOUCHED), "{name}");
}

#[test]
fn what_a_tool_wrote_loads_as_the_tool_says() {
    for (name, start) in LOADED {
        let memory = loaded(&stored(&format!("{name}.hex")));
        holds(name, &memory.unwrap_or_else(|refusal| panic!("{name}: {refusal}")), start);
    }
}

#[test]
fn what_is_not_taken_is_refused() {
    for name in REFUSED {
        let refused = loaded(&stored(&format!("{name}.hex")));
        assert_eq!(refused, Err(Refusal::Malformed), "{name}");
    }
}

/// With line feeds alone, what objcopy wrote loads.
#[test]
fn converted_line_ends_load() {
    let text: Vec<u8> = stored("objcopy.hex").into_iter().filter(|byte| *byte != b'\r').collect();
    holds("objcopy", &loaded(&text).expect("a granted load"), 0);
}

/// The bytes that the tools were given.
fn bytes(length: usize) -> Vec<u8> {
    (0..length).map(|at| (73 * at + 31 * (at / 256) + 5) as u8).collect()
}

/// The text of a dump of so many bytes.
fn dumped(length: usize) -> Vec<u8> {
    let (mut table, mut memory, mut buffer) = ([0; 4 * 32], bytes(length), vec![0; TEXT_BYTES]);
    let mut bridge = Northbridge::reset([1, 2], 1, &mut table, &mut memory).expect("a reset");
    let text = bridge.dump(Token::ROOT, Task::NONE, &mut buffer).expect("a granted dump");
    assert_eq!(text as u64, text_length(length as u64));
    buffer.truncate(text);
    buffer
}

#[test]
fn a_dump_is_what_srec_cat_writes() {
    for length in DUMPED {
        assert!(dumped(length) == stored(&format!("dump-{length}.hex")), "{length}");
    }
    let told = String::from_utf8(stored(&format!("dump-{LONGEST}.cksum"))).expect("two numbers");
    let text = dumped(LONGEST);
    assert_eq!(format!("{} {}\n", cksum(&text), text.len()), told);
}

/// The checksum of POSIX's `cksum`: over the bytes, and over their number, the low byte first.
fn cksum(bytes: &[u8]) -> u32 {
    let length = (bytes.len() as u64).to_le_bytes();
    let used = length.iter().rposition(|byte| *byte != 0).map_or(0, |last| last + 1);
    let all = bytes.iter().chain(&length[..used]);
    let step = |sum: u32| sum << 1 ^ if sum >> 31 == 1 { 0x04C1_1DB7 } else { 0 };
    !all.fold(0, |sum, byte| (0..8).fold(sum ^ u32::from(*byte) << 24, |sum, _| step(sum)))
}

#[test]
fn a_dump_restores_the_bytes() {
    for length in DUMPED.into_iter().chain([LONGEST]) {
        let memory = loaded(&dumped(length)).expect("a granted load");
        assert!(memory[..length] == bytes(length), "{length}");
    }
}

/// No file of the folder is left out.
#[test]
fn each_file_is_looked_at() {
    let files = fs::read_dir(folder()).expect("the folder");
    let paths = files.map(|file| file.expect("a file").path());
    let texts = paths.filter(|path| path.extension().is_some_and(|end| end == "hex"));
    let found: BTreeSet<String> =
        texts.map(|path| path.file_stem().expect("a name").to_string_lossy().into()).collect();
    let loaded = LOADED.iter().map(|(name, _)| name.to_string());
    let refused = REFUSED.map(str::to_string);
    let dumps = DUMPED.map(|length| format!("dump-{length}"));
    assert_eq!(found, loaded.chain(refused).chain(dumps).collect());
}
