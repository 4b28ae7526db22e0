//! Script to text.

use super::lines::Comments;
use super::named::Word;
use super::script::{Ask, EntryLine, Expected, Script, Sizes, Standing, Start};
use super::state::{StatedState, STATE};
use super::words::token_text;
use super::{arguments, bytes, words};
use crate::entry::{Field, Type, SIZE};
use crate::token::PARENT_ENCODING;
use crate::world::Session;
use bridge::{Argument, Buffer, Operation, Place, Reply};
use std::fmt::Write;

/// Requests longer than this do not push the results of the others to the right.
const WIDEST: usize = 64;

/// A session as text, without results. Parsing gives the same session.
pub fn print(session: &Session) -> String {
    print_script(&Script::of(session))
}

/// A session as text with the replies that are expected, one for each request; tokens that they
/// give are named. Parsing gives the same session.
pub fn print_with(session: &Session, replies: &[Reply]) -> String {
    let mut script = Script::of(session);
    script.name_tokens(replies);
    print_script(&script)
}

/// A script as text. Parsing gives the same script.
pub fn print_script(script: &Script) -> String {
    let mut text = String::new();
    push_lines(&mut text, &script.head.above);
    text.push_str(&sizes_text(&script.sizes));
    push_end(&mut text, &script.head);
    if script.exact {
        text.push_str("exact\n");
    }
    for start in &script.start {
        push_start(&mut text, start);
    }
    let requests: Vec<String> = script.asks.iter().map(print_request).collect();
    let short = requests.iter().map(String::len).filter(|length| *length <= WIDEST);
    let width = short.max().unwrap_or(0);
    for (ask, request) in script.asks.iter().zip(requests) {
        push_ask(&mut text, ask, &request, width);
    }
    push_lines(&mut text, &script.below);
    text
}

fn push_lines(text: &mut String, lines: &[String]) {
    for line in lines {
        text.push_str(line);
        text.push('\n');
    }
}

/// A comment behind a line, and the line's end.
fn push_end(text: &mut String, comments: &Comments) {
    if let Some(comment) = &comments.behind {
        let _ = write!(text, "  # {comment}");
    }
    text.push('\n');
}

fn sizes_text(sizes: &Sizes) -> String {
    let Sizes { table, memory } = sizes;
    match table % SIZE {
        0 => format!("memory {memory} entries {}", table / SIZE),
        _ => format!("memory {memory} table {table}"),
    }
}

fn push_start(text: &mut String, start: &Start) {
    push_lines(text, &start.comments.above);
    text.push_str(&print_standing(&start.standing));
    push_end(text, &start.comments);
}

fn push_ask(text: &mut String, ask: &Ask, request: &str, width: usize) {
    push_lines(text, &ask.comments.above);
    text.push_str(request);
    if let Some(expected) = &ask.expected {
        let blanks = width.saturating_sub(request.len());
        let expected = expected_text(ask.words.operation, expected);
        let _ = write!(text, "{:blanks$} -> {expected}", "");
    }
    push_end(text, &ask.comments);
    for line in &ask.standing {
        push_standing(text, "= ", line);
    }
}

/// The request with its words; those that are zero are left out unless the operation lives by them.
pub fn print_request(ask: &Ask) -> String {
    let operation = Operation::of(ask.words.operation);
    let mut text = match operation {
        Some(operation) => operation.name().to_string(),
        None => format!("operation {}", words::number_text(ask.words.operation)),
    };
    text.push_str(&leading(ask, operation));
    for any in arguments::NUMBERS {
        text.push_str(&argument_text(ask, operation, any));
    }
    text + &trailing_buffer(ask, operation) + &leases_text(ask)
}

/// The leases that are lent with a request, if there are any.
fn leases_text(ask: &Ask) -> String {
    match ask.leases.is_empty() {
        true => String::new(),
        false => format!(" leases {}", ask.leases.text(word_text)),
    }
}

/// A number behind its word, unless it can be left out.
fn argument_text(ask: &Ask, operation: Option<Operation>, any: Argument) -> String {
    let (argument, taken) = arguments::instead(operation, any);
    let value = argument.places().first().map_or(0, |place| ask.words.in_order()[*place]);
    if value == 0 && !(taken && arguments::is_always_written(argument)) {
        return String::new();
    }
    let value = match argument {
        Argument::Permissions => words::permissions_text(value),
        _ => words::number_text(value),
    };
    format!(" {} {value}", arguments::word(argument))
}

/// The tokens, and what stands behind them without a name.
fn leading(ask: &Ask, operation: Option<Operation>) -> String {
    let takes = |argument| operation.is_some_and(|operation| operation.takes(argument));
    let (token, second) = (word_text(&ask.token), word_text(&ask.second));
    let mut text = String::new();
    if takes(Argument::Key) {
        let _ = write!(text, " key {} {}", key_text(&ask.token), key_text(&ask.second));
    }
    if operation.is_some_and(Operation::names_entry) {
        let _ = write!(text, " {token}");
    }
    if takes(Argument::SecondToken) {
        let _ = write!(text, " {second}");
    }
    if takes(Argument::Offset) {
        text += &second_number(Argument::Offset, &ask.second);
    }
    text += &unused_text(operation, Argument::Token, &ask.token);
    text += &transferred(ask, operation);
    for number in [Argument::Minute, Argument::PageFile].into_iter().filter(|own| takes(*own)) {
        text += &second_number(number, &ask.second);
    }
    text + &unused_text(operation, Argument::SecondToken, &ask.second)
}

/// The second word where it is a number, unless it is zero; a name in its place stands as a token.
fn second_number(argument: Argument, second: &Word) -> String {
    match second {
        Word::Number(0) => String::new(),
        Word::Number(number) => {
            format!(" {} {}", arguments::word(argument), words::number_text(*number))
        }
        named => format!(" {} {}", arguments::word(Argument::SecondToken), word_text(named)),
    }
}

/// A token's word that the operation does not look at, unless it is zero.
fn unused_text(operation: Option<Operation>, argument: Argument, word: &Word) -> String {
    let uses = |operation: Operation| argument.places().iter().any(|place| operation.uses(*place));
    if operation.is_some_and(uses) || is_zero(word) {
        return String::new();
    }
    format!(" {} {}", arguments::word(argument), word_text(word))
}

fn is_zero(word: &Word) -> bool {
    *word == Word::Number(0)
}

/// What is transferred, where it stands in front: the bytes, or how many.
fn transferred(ask: &Ask, operation: Option<Operation>) -> String {
    match operation.map_or(Buffer::Unused, Operation::buffer) {
        buffer if buffer.is_written() && is_filled(ask) => format!(" {}", ask.buffer.len()),
        buffer if buffer.is_brought() => format!(" {}", own_buffer_text(ask)),
        _ => String::new(),
    }
}

fn is_filled(ask: &Ask) -> bool {
    ask.buffer.iter().all(|byte| *byte == bytes::FILL)
}

/// The buffer, where it does not stand in front.
fn trailing_buffer(ask: &Ask, operation: Option<Operation>) -> String {
    let in_front = match operation.map_or(Buffer::Unused, Operation::buffer) {
        buffer if buffer.is_written() => is_filled(ask),
        buffer if buffer.is_brought() => true,
        _ => ask.buffer.is_empty(),
    };
    if in_front {
        String::new()
    } else {
        format!(" buffer {}", own_buffer_text(ask))
    }
}

fn own_buffer_text(ask: &Ask) -> String {
    buffer_text(ask.words.operation, &ask.buffer)
}

/// The bytes of a buffer that an operation is lent: as HEX text where it is to hold that.
pub fn buffer_text(operation: u64, buffer: &[u8]) -> String {
    match Operation::of(operation).is_some_and(|operation| operation.buffer().is_text()) {
        true => bytes::hex_text(buffer),
        false => bytes::text(buffer),
    }
}

fn word_text(word: &Word) -> String {
    match word {
        Word::Number(number) => token_text(*number, 0),
        Word::Name { name, encoding: None, offset } => {
            format!("{name}{}", words::suffixes(0, 0, *offset))
        }
        Word::Name { name, encoding: Some(encoding), offset } => {
            format!("{name}{}", words::suffixes(*encoding, 4, *offset))
        }
    }
}

/// A word that is no token, though it stands in a token's place.
fn key_text(word: &Word) -> String {
    match word {
        Word::Number(number) => words::number_text(*number),
        named => word_text(named),
    }
}

fn expected_text(operation: u64, expected: &Expected) -> String {
    let mut text = words::number_text(expected.refusal);
    if let Some(place) = expected.place.and_then(Place::of) {
        let _ = write!(text, " {}", words::place_word(place));
    }
    text.push_str(&tokens_text(expected));
    if let Some(number) = expected.number {
        let _ = write!(text, " number {}", words::number_text(number));
    }
    if let Some(length) = expected.length {
        let _ = write!(text, " length {}", words::number_text(length));
    }
    if let Some(buffer) = &expected.buffer {
        let _ = write!(text, " buffer {}", buffer_text(operation, buffer));
    }
    text
}

/// The named tokens behind `as`, the others by their place.
fn tokens_text(expected: &Expected) -> String {
    let [first, second] = &expected.names;
    let mut text = String::new();
    if first.is_some() || second.is_some() {
        text.push_str(" as ");
        text.push_str(&name_text(first, expected.first));
    }
    if second.is_some() {
        text.push(' ');
        text.push_str(&name_text(second, expected.second));
    }
    let unnamed = [("first", first, expected.first), ("second", second, expected.second)];
    for (place, name, token) in unnamed {
        if let (None, Some(token)) = (name, token) {
            let _ = write!(text, " {place} {}", token_text(token, 0));
        }
    }
    text
}

fn name_text(name: &Option<String>, token: Option<u64>) -> String {
    match (name, token) {
        (Some(name), Some(token)) => format!("{name}={}", token_text(token, 0)),
        (Some(name), None) => name.clone(),
        (None, _) => "-".to_string(),
    }
}

/// What stands, as its line.
pub fn print_standing(standing: &Standing) -> String {
    let mut text = String::new();
    push_standing(&mut text, "", standing);
    text.trim_end().to_string()
}

/// A line on what stands, or several for long bytes.
fn push_standing(text: &mut String, mark: &str, standing: &Standing) {
    match standing {
        Standing::State(state) => {
            let _ = writeln!(text, "{mark}state{}", state_text(state));
        }
        Standing::Entry { number, line } => {
            let _ = writeln!(text, "{mark}entry {number}{}", entry_text(line));
        }
        Standing::Table { at, bytes } => push_placed(text, &format!("{mark}table"), *at, bytes),
        Standing::Memory { at, bytes } => push_placed(text, &format!("{mark}at"), *at, bytes),
    }
}

fn push_placed(text: &mut String, name: &str, at: usize, bytes: &[u8]) {
    for (before, line) in bytes::lines(bytes) {
        let _ = writeln!(text, "{name} {} {line}", at + before);
    }
}

fn state_text(state: &StatedState) -> String {
    let stated = STATE.iter().filter_map(|part| Some((part.word, state.get(part)?)));
    let text = |(word, numbers): (&str, Vec<u64>)| {
        let numbers = numbers.into_iter().map(|number| format!(" {}", words::number_text(number)));
        format!(" {word}{}", numbers.collect::<String>())
    };
    stated.map(text).collect()
}

/// An entry by its fields, if its type has any; those of little interest are left out at zero.
fn entry_text(line: &EntryLine) -> String {
    let whole = match line {
        EntryLine::Whole(whole) => whole,
        EntryLine::Fields(fields) => {
            return fields.iter().map(|(field, value)| field_text(*field, *value)).collect()
        }
    };
    match whole.kept_tag() {
        Some(0) => return " free".to_string(),
        Some(tag) => return format!(" free{}", field_text(Field::Tag, tag)),
        None => {}
    }
    let Some(own) = Type::of(whole.kind()) else {
        return format!(" bytes {}", bytes::text(&whole.0));
    };
    let fields = own.fields.iter().map(|(field, bits)| (*field, whole.get(*bits)));
    let shown = fields.filter(|(field, value)| *value != 0 || always_shown(*field));
    let shown = shown.map(|(field, value)| whole_field_text(field, value));
    format!(" {}{}", own.name, shown.collect::<String>())
}

fn always_shown(field: Field) -> bool {
    use Field::*;
    matches!(field, PageFile | Base | Length | Parent | Count | Permissions | Tag | Nonce)
}

/// In a whole entry a flag stands alone.
fn whole_field_text(field: Field, value: u64) -> String {
    match field {
        Field::Locked | Field::Lockable | Field::Cow => format!(" {}", words::field_name(field)),
        _ => field_text(field, value),
    }
}

fn field_text(field: Field, value: u64) -> String {
    let value = match field {
        Field::Permissions => words::permissions_text(value),
        Field::Parent => token_text(value, PARENT_ENCODING),
        Field::Tag => format!("{value:#06x}"),
        _ => words::number_text(value),
    };
    format!(" {} {value}", words::field_name(field))
}
