//! The line protocol: each line on a simulator's standard input is answered by one line on its
//! standard output.
//!
//! ```text
//! northbridge 5                                   northbridge 5
//! world TABLE MEMORY KEY0 KEY1 LAST NEXT TOTAL    ok
//! table AT BYTES                                  ok
//! memory AT BYTES                                 ok
//! serve WORD0 .. WORD7 BUFFER LEASES              answer REFUSAL PLACE FIRST SECOND DROPPED LENGTH
//!                                                        KEY0 KEY1 LAST NEXT TOTAL BUFFER
//! show-table AT LENGTH                            bytes BYTES
//! show-memory AT LENGTH                           bytes BYTES
//! anything else                                   error WHAT WAS EXPECTED
//! ```
//!
//! Numbers are hexadecimal without a prefix, bytes two digits each, and `-` stands for no bytes.
//! `world` gives a table and a memory of so many zero bytes, and a state; `table` and `memory` put
//! bytes into them; `serve` gives a request's eight words, its buffer and its leases. No line, asked or
//! answered, holds more than 8,192 bytes, two digits each, but for a buffer, which has at most 69,632,
//! with leases of at most 1,024 behind it; so none has more than 141,568 characters. A simulator flushes
//! its output after each answer and ends at the end of its input.

use bridge::{Reply, State, Words};

/// The protocol's version. It is raised with every change that a simulator can see.
const VERSION: &str = "5";

/// The first line, and its answer.
pub const GREETING: &str = "northbridge 5";

/// How many bytes of table or memory one line holds at most.
pub const PIECE: usize = 8_192;

/// How many bytes a buffer has at most: more than HEX text may have.
pub const BUFFER: usize = 69_632;

/// How many bytes leases have at most: twice what may be lent.
pub const LEASES: usize = 1_024;

/// How many characters one line has at most: two for each byte, and room for the words before them.
pub const LINE: usize = 2 * (BUFFER + LEASES) + 256;

/// A line, read.
#[derive(Clone, Debug, PartialEq, Eq)]
pub enum Line {
    Greeting,
    World { table: usize, memory: usize, state: State },
    Put { part: Name, at: usize, bytes: Vec<u8> },
    Serve { words: Words, buffer: Vec<u8>, leases: Vec<u8> },
    Show { part: Name, at: usize, length: usize },
}

#[derive(Clone, Copy, Debug, PartialEq, Eq)]
pub enum Name {
    Table,
    Memory,
}

/// Reads a line; the error says what was expected.
pub fn parse(line: &str) -> Result<Line, String> {
    let words: Vec<&str> = line.split_whitespace().collect();
    match words[..] {
        ["northbridge", ref rest @ ..] => greeting(rest),
        ["world", ref rest @ ..] => world(rest),
        ["table", at, text] => put(Name::Table, at, text),
        ["memory", at, text] => put(Name::Memory, at, text),
        ["serve", ref rest @ .., buffer, leases] => {
            let words = Words::from_order(numbers(rest, "before the last two")?);
            let (buffer, leases) = (bytes(buffer, BUFFER)?, bytes(leases, LEASES)?);
            Ok(Line::Serve { words, buffer, leases })
        }
        ["show-table", at, length] => show(Name::Table, at, length),
        ["show-memory", at, length] => show(Name::Memory, at, length),
        _ => Err(expected(words.first().copied())),
    }
}

fn expected(word: Option<&str>) -> String {
    let form = match word {
        Some("table" | "memory") => "a place and bytes",
        Some("serve") => "eight words, a buffer and leases",
        Some("show-table" | "show-memory") => "a place and a length",
        _ => "northbridge, world, table, memory, serve, show-table or show-memory",
    };
    format!("expected {form}")
}

fn greeting(words: &[&str]) -> Result<Line, String> {
    match words {
        [VERSION] => Ok(Line::Greeting),
        _ => Err(format!("expected version {VERSION}; docs/SUPPLIER.md says what changed")),
    }
}

fn world(words: &[&str]) -> Result<Line, String> {
    let [table, memory, state @ ..] = numbers::<{ 2 + State::WORDS }>(words, "behind the first")?;
    let (table, memory) = (length(table)?, length(memory)?);
    Ok(Line::World { table, memory, state: State::from_order(state) })
}

/// A table or a memory that is a little too long is served; one that fills the machine is not.
fn length(number: u64) -> Result<usize, String> {
    let length = usize::try_from(number).ok().filter(|length| *length <= 1 << 28);
    length.ok_or_else(|| format!("expected a length of at most 10000000, not {number:x}"))
}

fn put(part: Name, at: &str, text: &str) -> Result<Line, String> {
    Ok(Line::Put { part, at: length(number(at)?)?, bytes: bytes(text, PIECE)? })
}

fn show(part: Name, at: &str, wanted: &str) -> Result<Line, String> {
    let wanted = length(number(wanted)?)?;
    if wanted > PIECE {
        return Err(format!("expected to be asked for at most {PIECE:x} bytes, not {wanted:x}"));
    }
    Ok(Line::Show { part, at: length(number(at)?)?, length: wanted })
}

/// What is expected of an answer.
pub const ANSWER: &str = "expected answer, eleven words and a buffer";

/// The reply, the state and the buffer of an answer.
pub fn parse_answer(line: &str) -> Result<(Reply, State, Vec<u8>), String> {
    let words: Vec<&str> = line.split_whitespace().collect();
    let ["answer", ref rest @ .., buffer] = words[..] else {
        return Err(ANSWER.to_string());
    };
    let numbers: [u64; Reply::WORDS + State::WORDS] = numbers(rest, "before the last")?;
    let reply = std::array::from_fn(|at| numbers[at]);
    let state = std::array::from_fn(|at| numbers[Reply::WORDS + at]);
    Ok((Reply::from_order(reply), State::from_order(state), bytes(buffer, BUFFER)?))
}

/// The bytes of an answer, which must be as many as the place has.
pub fn parse_bytes(line: &str, place: &mut [u8]) -> Result<(), String> {
    let wrong = || format!("expected bytes and {} bytes", place.len());
    let text = line.strip_prefix("bytes ").ok_or_else(wrong)?.trim_end();
    if place.is_empty() && text == "-" {
        return Ok(());
    }
    if text.len() != 2 * place.len() {
        return Err(wrong());
    }
    read_digits(text, place)
}

fn number(word: &str) -> Result<u64, String> {
    let digits = word.bytes().all(|letter| letter.is_ascii_hexdigit());
    let number = u64::from_str_radix(word, 16).ok().filter(|_| digits);
    number.ok_or_else(|| format!("expected a hexadecimal number of 64 bits, not '{word}'"))
}

/// Exactly as many numbers as are wanted, and where they stand.
fn numbers<const N: usize>(words: &[&str], place: &str) -> Result<[u64; N], String> {
    let numbers: Result<Vec<u64>, String> = words.iter().map(|word| number(word)).collect();
    let numbers = numbers?;
    let count = numbers.len();
    numbers.try_into().map_err(|_| format!("expected {N} words {place}, not {count}"))
}

/// Up to so many bytes.
fn bytes(text: &str, most: usize) -> Result<Vec<u8>, String> {
    if text == "-" {
        return Ok(Vec::new());
    }
    if text.len() > 2 * most {
        return Err(format!("expected at most {most} bytes, not {}", text.len() / 2));
    }
    if !text.len().is_multiple_of(2) {
        return Err("expected an even number of hexadecimal digits, or -".to_string());
    }
    let mut bytes = vec![0; text.len() / 2];
    read_digits(text, &mut bytes)?;
    Ok(bytes)
}

fn read_digits(text: &str, place: &mut [u8]) -> Result<(), String> {
    for (byte, pair) in place.iter_mut().zip(text.as_bytes().chunks_exact(2)) {
        let digits = (VALUES[usize::from(pair[0])], VALUES[usize::from(pair[1])]);
        let (high, low) = digits;
        if high > 15 || low > 15 {
            return Err(format!(
                "expected hexadecimal digits, not '{}'",
                String::from_utf8_lossy(pair)
            ));
        }
        *byte = high << 4 | low;
    }
    Ok(())
}

/// The value of each letter as a hexadecimal digit; 16 for none.
const VALUES: [u8; 256] = values();

const fn values() -> [u8; 256] {
    let mut values = [16; 256];
    let mut digit = 0;
    while digit < 16 {
        values[b"0123456789abcdef"[digit] as usize] = digit as u8;
        values[b"0123456789ABCDEF"[digit] as usize] = digit as u8;
        digit += 1;
    }
    values
}

/// Adds bytes to a line, after a space.
pub fn write_bytes(line: &mut Vec<u8>, bytes: &[u8]) {
    const DIGITS: &[u8; 16] = b"0123456789abcdef";
    line.push(b' ');
    if bytes.is_empty() {
        line.push(b'-');
    }
    for byte in bytes {
        let digits = [byte >> 4, byte & 15];
        line.extend(digits.map(|digit| DIGITS[usize::from(digit)]));
    }
}

/// Adds numbers to a line, each after a space.
pub fn write_numbers(line: &mut Vec<u8>, numbers: &[u64]) {
    for number in numbers {
        line.extend_from_slice(format!(" {number:x}").as_bytes());
    }
}

#[cfg(test)]
mod tests {
    use super::*;

    #[test]
    fn lines_are_read() {
        let state = State::from_order([1, 2, 3, 4, 5]);
        assert_eq!(parse(GREETING), Ok(Line::Greeting));
        let world = Line::World { table: 64, memory: 16, state };
        assert_eq!(parse("world 40 10 1 2 3 4 5"), Ok(world));
        let put = Line::Put { part: Name::Memory, at: 10, bytes: vec![0xAB, 0] };
        assert_eq!(parse("memory a Ab00"), Ok(put));
        let words = Words::from_order([1, 0, 0, 0, 0, 0, 0, u64::MAX]);
        let serve = Line::Serve { words, buffer: vec![], leases: vec![1, 2] };
        assert_eq!(parse("serve 1 0 0 0 0 0 0 ffffffffffffffff - 0102"), Ok(serve));
        let show = Line::Show { part: Name::Table, at: 0, length: 32 };
        assert_eq!(parse("show-table 0 20"), Ok(show));
    }

    #[test]
    fn bad_lines_say_what_was_expected() {
        let wrong = |line: &str| parse(line).unwrap_err();
        assert!(wrong("").contains("northbridge"));
        assert!(wrong("northbridge 4").contains("version 5"));
        assert!(wrong("world 40 10 1 2 3 4").contains("7 words"));
        assert!(wrong("serve 1 2 - -").contains("8 words before the last two, not 2"));
        assert!(wrong("serve +1 0 0 0 0 0 0 0 - -").contains("'+1'"));
        assert!(wrong("table 0 abc").contains("even"));
        assert!(wrong("table 0 zz").contains("'zz'"));
        assert!(wrong("world ffffffffffffffff 0 0 0 0 0 0").contains("length"));
    }

    /// A line holds so many bytes and no more, and no line asks for more.
    #[test]
    fn bytes_of_one_line() {
        let table = |bytes: usize| parse(&format!("table 0 {}", "00".repeat(bytes)));
        assert!(table(PIECE).is_ok());
        assert_eq!(table(PIECE + 1), Err("expected at most 8192 bytes, not 8193".to_string()));
        assert!(parse("show-memory 0 2000").is_ok());
        assert!(parse("show-memory 0 2001").unwrap_err().contains("at most 2000 bytes"));
        let serve = |buffer: usize, leases: usize| {
            let [buffer, leases] = [buffer, leases].map(|bytes| "00".repeat(bytes));
            parse(&format!("serve 0 0 0 0 0 0 0 0 {buffer} {leases}"))
        };
        assert!(serve(BUFFER, LEASES).is_ok());
        assert!(serve(BUFFER + 1, LEASES).is_err() && serve(BUFFER, LEASES + 1).is_err());
    }

    /// The longest lines there are: a request with the widest words, and its answer.
    #[test]
    fn the_longest_lines_have_room() {
        let words = Reply::WORDS + State::WORDS;
        for (name, words) in [("serve", Words::COUNT), ("answer", words)] {
            let mut line = name.as_bytes().to_vec();
            write_numbers(&mut line, &vec![u64::MAX; words]);
            write_bytes(&mut line, &[0; BUFFER]);
            write_bytes(&mut line, &[0; LEASES]);
            assert!(line.len() <= LINE, "{name}: {}", line.len());
        }
    }

    #[test]
    fn bytes_are_written_as_they_are_read() {
        let mut line = b"bytes".to_vec();
        write_bytes(&mut line, &[0, 0x5A, 0xFF]);
        let mut place = [1; 3];
        parse_bytes(std::str::from_utf8(&line).unwrap(), &mut place).unwrap();
        assert_eq!(place, [0, 0x5A, 0xFF]);
        assert!(parse_bytes("bytes 00", &mut place).unwrap_err().contains("3 bytes"));
    }
}
