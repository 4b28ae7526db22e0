//! Bad text: the line, the column, and what was expected.

use session::text::{parse, Error};

fn error(text: &str) -> Error {
    match parse(text) {
        Ok(_) => panic!("this is no error: {text}"),
        Err(error) => error,
    }
}

/// Holds where an error is told, and parts of what was expected and found.
fn holds(text: &str, place: (usize, usize), expected: &str, found: &str) {
    let error = error(text);
    assert_eq!((error.line, error.column), place, "{error}");
    assert!(error.expected.contains(expected), "{error}");
    assert!(error.found.contains(found), "{error}");
}

/// An error in a line behind a sound start.
fn holds_in(line: &str, column: usize, expected: &str, found: &str) {
    let text = format!("memory 64 entries 4\nrevoke root -> 0 as one\n{line}\n");
    holds(&text, (3, column), expected, found);
}

#[test]
fn the_first_line() {
    holds("", (1, 1), "memory BYTES entries NUMBER", "the line's end");
    holds("# nothing\n\n", (2, 1), "memory BYTES entries NUMBER", "the line's end");
    holds("reset nonce 1\n", (1, 1), "memory BYTES", "'reset'");
    holds("memory\n", (1, 7), "the memory's length", "the line's end");
    holds("memory x\n", (1, 8), "a number from 0 to", "'x'");
    holds("memory 64\n", (1, 10), "'entries' or 'table'", "the line's end");
    holds("memory 64 rows 4\n", (1, 11), "'entries' or 'table'", "'rows'");
    holds("memory 64 entries 4 5\n", (1, 21), "the line's end", "'5'");
    holds("memory 99999999999 entries 4\n", (1, 8), "a number from 0 to", "'99999999999'");
}

#[test]
fn the_start() {
    let start = |line: &str| format!("memory 64 entries 4\n  {line}\n");
    let holds = |line: &str, column, expected: &str| holds(&start(line), (2, column), expected, "");
    holds("state key 1", 14, "the second key word");
    holds("state nonse 1", 9, "'key', 'last', 'nonce' or 'total'");
    holds("state last 1 last 2", 16, "each once");
    holds("entry 4 free", 9, "a number from 0 to 3");
    holds("entry 3", 10, "'free', 'direct', 'indirect', 'paged', 'bytes'");
    holds("entry 3 count 5", 11, "'free', 'direct', 'indirect', 'paged' or 'bytes'");
    holds("entry 3 free count 1", 16, "a field of the entry's type");
    holds("entry 3 free tag 65536", 20, "a number from 0 to 65535");
    holds("entry 3 direct parent root", 18, "a field of the entry's type");
    holds("entry 3 direct base 1 base 1", 25, "each once");
    holds("entry 3 direct count 65536", 24, "a number from 0 to 65535");
    holds("entry 3 direct permissions RR", 30, "letters of RWX");
    holds("entry 3 direct permissions 8", 30, "0 to 7");
    holds("entry 3 direct locked 2", 25, "a number from 0 to 1");
    holds("entry 3 indirect parent child", 27, "the parent's token");
    holds("entry 3 paged base 1", 17, "a field of the entry's type");
    holds("entry 3 paged count 1", 17, "a field of the entry's type");
    holds("entry 3 paged zeros 0x8000000000", 23, "a number from 0 to 549755813887");
    holds("entry 3 direct page-file 1", 18, "a field of the entry's type");
    holds("entry 3 bytes 00", 17, "32 bytes");
    holds("entry 3 bytes xyz", 17, "pairs of hex digits");
    holds("at 64 00", 9, "bytes that end inside memory, which has 64");
    holds("at 65 00", 6, "a number from 0 to 64");
    holds("at 0 0", 8, "pairs of hex digits");
    holds("table 127 0000", 13, "bytes that end inside the table");
    holds("= state last 1", 3, "a request");
}

#[test]
fn requests() {
    holds_in("raed root 1", 1, "a request: 'reset', 'read'", "'raed'");
    holds_in("state last 1", 1, "'=' with what must stand", "'state'");
    holds_in("read", 5, "a token: 'root', a name given before", "the line's end");
    holds_in("read two 1", 6, "a name given before", "'two'");
    holds_in("read one/4 1", 6, "a token", "'one/4'");
    holds_in("read one+x 1", 6, "a token", "'one+x'");
    holds_in("read @1 1", 6, "'@NUMBER:TAG'", "'@1'");
    holds_in("read @1:65536 1", 6, "each inside its width", "'@1:65536'");
    holds_in("read root/1+5 1", 6, "each inside its width", "'root/1+5'");
    holds_in("read root+4294967296 1", 6, "each inside its width", "'root+4294967296'");
    holds_in("read root", 10, "the number of bytes, or 'buffer'", "the line's end");
    holds_in("read root task 7", 11, "the number of bytes, or 'buffer'", "'task'");
    holds_in("read root 1 tsak 7", 13, "'task', 'length'", "'tsak'");
    holds_in("read root 1 task", 17, "a task", "the line's end");
    holds_in("read root 1 task -1", 18, "a task", "'-1'");
    holds_in("read root 1 task 7 task 8", 20, "'task' once only", "'task'");
    holds_in("write root", 11, "bytes: pairs of hex digits", "the line's end");
    holds_in("write root 0g", 12, "bytes: pairs of hex digits", "'0g'");
    holds_in("write root 00*99999999999", 12, "at most 67108864 bytes", "'00*99999999999'");
    holds_in("write root 0011 00*67108863", 17, "at most 67108864 bytes", "'00*67108863'");
    holds_in(&format!("write root 00*{}", "9".repeat(30)), 12, "at most 67108864 bytes", "'00*9");
    holds_in("write root 00*", 12, "bytes: pairs of hex digits", "'00*'");
    holds_in("read root 67108865", 11, "a number from 0 to 67108864", "'67108865'");
    holds_in("merge root", 11, "a token", "the line's end");
    holds_in("lock root offset 5", 11, "'task', 'length'", "'offset'");
    holds_in("derive root offset", 19, "the offset", "the line's end");
    holds_in("derive root permissions RWZ", 25, "letters of RWX", "'RWZ'");
    holds_in("operation", 10, "the operation's number", "the line's end");
    holds_in("reset key 1", 12, "the second key word", "the line's end");
    holds_in("reset nonce 0x", 13, "the first nonce", "'0x'");
    holds_in("reset nonce 18446744073709551616", 13, "the first nonce", "'18446744073709551616'");
}

#[test]
fn results() {
    holds_in("drop root ->", 13, "a refusal's number, or 'granted'", "the line's end");
    holds_in("drop root -> ok", 14, "a refusal's number, or 'granted'", "'ok'");
    holds_in("drop root -> 0 nmber 1", 16, "'as', 'first', 'second', 'number'", "'nmber'");
    holds_in("drop root -> 0 number", 22, "drop's number", "the line's end");
    holds_in("revoke root -> 0 as one", 21, "a name that was not given before", "'one'");
    holds_in("revoke root -> 0 as task", 21, "no word of a request", "'task'");
    holds_in("revoke root -> 0 as 5", 21, "a new name", "'5'");
    holds_in("revoke root -> 2 as two", 18, "a refusal gives no token", "'as'");
    holds_in("revoke root -> 0 first one", 24, "a token: 'root', '@NUMBER:TAG'", "'one'");
    holds_in("revoke root -> 0 first @1:2 as a=@1:3", 32, "each token once", "'a=@1:3'");
    holds_in("revoke root -> 0 as a=@1:3 first @1:2", 28, "each token once", "'first'");
    holds_in("drop root -> 0 number 1 number 1", 25, "'number' once only", "'number'");
}

/// A name is for a token that the request gives.
#[test]
fn names_of_tokens_that_are_not_given() {
    let none = "no name, as this request gives no token";
    for request in ["reset nonce 1", "read root 1", "clone root", "lock root task 1", "drop root"] {
        holds_in(&format!("{request} -> 0 as two"), request.len() + 7, none, "'as'");
    }
    holds_in("operation 17 -> 0 as two", 19, none, "'as'");
    let one = "one name, as this request gives one token";
    holds_in("revoke root -> 0 as two three", 25, one, "'three'");
    holds_in("derive root length 1 permissions R -> 0 as - two", 46, one, "'two'");
    holds_in("page-in root root 00 -> 0 as two three", 34, one, "'three'");
}

/// A number that does not fit is told as such, wherever it stands.
#[test]
fn numbers_of_more_than_64_bits() {
    let wide = "', a number of more than 64 bits";
    holds_in("reset nonce 18446744073709551616", 13, "the first nonce", wide);
    holds_in("read root 1 task 0x1_0000_0000_0000_0000", 18, "a task", wide);
    holds_in("read 99999999999999999999 1", 6, "a token", wide);
    holds_in("read root 99999999999999999999", 11, "the number of bytes", wide);
    holds_in("derive root length 1 permissions 99999999999999999999", 34, "permissions", wide);
    holds_in("drop root -> 0 number 99999999999999999999", 23, "drop's number", wide);
    holds("memory 99999999999999999999 entries 4\n", (1, 8), "the memory's length", wide);
    assert!(!error("memory 64 entries 4\nread root 1 task x\n").found.contains("64 bits"));
}

#[test]
fn what_must_stand() {
    let holds = |line: &str, column, expected: &str| {
        let text = format!("memory 64 entries 4\nreset nonce 1\n{line}\n");
        holds(&text, (3, column), expected, "");
    };
    holds("= entry 9 free", 9, "a number from 0 to 3");
    holds("=", 2, "'state', 'entry', 'table' or 'at'");
    holds("= entry 1 colour 5", 11, "a field of the entry's type");
    holds("= at 60 00*5", 9, "bytes that end inside memory");
}

#[test]
fn exact_sessions() {
    let exact = |line: &str| format!("memory 64 entries 4\nexact\n{line}\n");
    holds(&exact("reset nonce 1"), (3, 14), "'->' and the answer", "the line's end");
    holds(&exact("revoke root -> 0 as one"), (3, 21), "'=' and its token", "'one'");
}

#[test]
fn lines_that_go_on() {
    let start = "memory 64 entries 4\nreset \\\n  nonce \\\n  x\n";
    holds(start, (4, 3), "the first nonce", "'x'");
    holds("memory 64 entries 4\nreset nonce 1 \\\n", (2, 14), "a further line", "the line's end");
    holds("memory 64 entries 4\n  \\\n", (2, 3), "a word before", "");
    holds("memory 64 entries 4\nreset \\ # on\n", (2, 8), "the line's end", "a comment");
    assert!(parse("memory 64 entries 4\r\nreset \\\r\n nonce 1 -> 0\r\n").is_ok());
}

/// A short text can stand for many bytes; all together have a bound.
#[test]
fn bytes_of_all_lines_together() {
    let lines = "write root 00*67108864\n".repeat(4);
    let text = format!("memory 64 entries 4\n{lines}write root 00*5\n");
    holds(&text, (6, 1), "at most 268435456 bytes in all lines together", "'write'");
}

/// Columns count characters, not bytes.
#[test]
fn columns_count_characters() {
    holds("memory 64 entries 4\nread é 1\n", (2, 6), "a token", "'é'");
    holds("memory 64 entries 4\nreset nonce 1 é 2\n", (2, 15), "'key', 'nonce', 'task'", "'é'");
}

#[test]
fn leases_that_cannot_be_read() {
    let expected = "leases: 'TOKEN=OPENING..CLOSING'";
    for word in ["root", "root=5", "root=1..65536", "root=1..", "two=1..2", "@65536:1/1=1..2", "0"]
    {
        holds_in(&format!("read root 1 leases {word}"), 20, expected, "");
    }
    holds_in("read root 1 leases", 19, expected, "the line's end");
    holds_in("read root 1 leases root=1..2*9999999", 20, "at most 67108864 bytes", "root=");
    holds_in("read root 1 leases root=1..2 5", 30, "'leases' or '->'", "'5'");
    holds_in("read root 1 leases 00 leases 00", 23, "'leases' once only", "'leases'");
    holds_in("clone root minute 5", 12, "'second', 'buffer', 'leases' or '->'", "'minute'");
    holds_in("read root 1 minute x", 20, "a minute of the week", "'x'");
    holds_in("revoke root -> 0 as leases", 21, "no word of a request", "'leases'");
    holds_in("revoke root -> 0 as minute", 21, "no word of a request", "'minute'");
}
