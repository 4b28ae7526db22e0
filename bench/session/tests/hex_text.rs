//! HEX text in sessions: as it is where a buffer holds it, and read in the place of any bytes.

use session::text::{parse, print_script};
use session::Step;

/// The buffers of a text's requests behind the reset.
fn buffers(lines: &str) -> Vec<Vec<u8>> {
    let text = format!("memory 64 entries 4\nreset nonce 1\n{lines}\n");
    let script = parse(&text).unwrap_or_else(|error| panic!("{error}\n{text}"));
    let steps = script.session().expect("no names").steps.into_iter().skip(1);
    steps.map(|Step { buffer, .. }| buffer).collect()
}

/// How a load of such bytes is printed, which is read again as the same.
fn printed(buffer: &[u8]) -> String {
    let digits: String = buffer.iter().map(|byte| format!("{byte:02x}")).collect();
    let text = format!("memory 64 entries 4\nload root {digits}\n");
    let script = parse(&text).unwrap_or_else(|error| panic!("{error}\n{text}"));
    let printed = print_script(&script);
    let again = parse(&printed).unwrap_or_else(|error| panic!("{error}\n{printed}"));
    assert_eq!(again.session(), script.session(), "{printed}");
    printed.lines().skip(1).collect::<Vec<&str>>().join("\n").replace("load root ", "")
}

#[test]
fn a_record_is_a_word_and_has_its_line_feed() {
    let held = |line: &str, bytes: &[u8]| assert_eq!(buffers(line), [bytes], "{line}");
    held("load root :0100000005FA :00000001FF", b":0100000005FA\n:00000001FF\n");
    held("load root :0100000005FA \\\n    :00000001FF -> 12", b":0100000005FA\n:00000001FF\n");
    held("load root :00000001FF task 7 -> 0", b":00000001FF\n");
    held("write root :00000001FF", b":00000001FF\n");
    held("clone root buffer :*2", b":\n:\n");
    held("load root :00000001FE*2 00*2", b":00000001FE\n:00000001FE\n\0\0");
}

#[test]
fn letters_in_quotes_stand_alone() {
    let held = |line: &str, bytes: &[u8]| assert_eq!(buffers(line), [bytes], "{line}");
    held("load root \":00000001FF\"", b":00000001FF");
    held("load root \":00000001FF\" 0d0a", b":00000001FF\r\n");
    held("load root \"00\"*3 0a", b"000000\n");
    let wrong = |word: &str| parse(&format!("memory 64 entries 4\nload root {word}")).is_err();
    for word in ["\"", "\"\"", "\"a", "a\"", ":a\"b", "\"a\"b", ":a*", "\"\u{e9}\"", ":\u{e9}"] {
        assert!(wrong(word), "{word}");
    }
}

#[test]
fn a_load_shows_its_text() {
    let shown = |bytes: &[u8], text: &str| assert_eq!(printed(bytes), text);
    shown(b":0100000005FA\n:00000001FF\n", ":0100000005FA :00000001FF");
    shown(b":00000001FF\r\n", "\":00000001FF\" 0d0a");
    shown(b"00000001FF\n", "\"00000001FF\" 0a");
    shown(b"\n:00000001FF", "0a \":00000001FF\"");
    shown(b":0000000000\n:0000000000\n:00000001FF\n:", ":0000000000*2 :00000001FF 3a");
    shown(b":000#000\n", "\":000\" 233030300a");
    shown(&[0xa5; 40], "a5*40");
    shown(&[b'0'; 40], "30*40");
}

/// Only what is to hold HEX text is shown so.
#[test]
fn other_bytes_stay_digits() {
    let text = "memory 64 entries 4\nat 0 3a303030303030303146460a\nwrite root :00000001FF\n";
    let printed = print_script(&parse(text).expect("a session"));
    assert!(!printed.contains(":00000001FF"), "{printed}");
}

#[test]
fn a_dump_tells_length_and_text() {
    let text = "memory 1 entries 2\n\
                dump root 47 -> 0 length 42 buffer :020000040000FA :0100000000FF :00000001FF a5*5\n";
    let script = parse(text).expect("a session");
    assert_eq!(print_script(&script), text);
    let expected = script.asks[0].expected.as_ref().expect("an answer");
    assert_eq!((expected.length, expected.buffer.as_ref().map(Vec::len)), (Some(42), Some(47)));
}
