//! The words by which a request's arguments are written.

use bridge::{Argument, Operation};

/// The numbers that any request may be given, even where it does not look at them, in the order in
/// which they are written.
pub const NUMBERS: [Argument; 5] =
    [Argument::Task, Argument::Length, Argument::User, Argument::Permissions, Argument::Encoding];

/// The tokens that any request may be given.
const TOKENS: [Argument; 2] = [Argument::Token, Argument::SecondToken];

/// All that any request may be given.
fn any() -> impl Iterator<Item = Argument> {
    NUMBERS.into_iter().chain(TOKENS)
}

/// What is expected where a token stands.
pub const TOKEN: &str = "a token: 'root', a name given before, '@NUMBER:TAG' or a number, with \
     '/ENCODING' and '+OFFSET' behind if needed, each inside its width";

/// The word that an argument stands behind.
pub fn word(argument: Argument) -> &'static str {
    match argument {
        Argument::Address | Argument::Token => "token",
        Argument::SecondToken => "second",
        Argument::Key => "key",
        Argument::Offset => "offset",
        Argument::PageFile => "page-file",
        Argument::Minute => "minute",
        Argument::Task | Argument::Holder => "task",
        Argument::FirstNonce => "nonce",
        Argument::Length => "length",
        Argument::User => "user",
        Argument::Permissions => "permissions",
        Argument::Encoding => "encoding",
    }
}

/// What is expected behind the word, for each word of the request that it fills.
pub fn expected(argument: Argument) -> &'static [&'static str] {
    match argument {
        Argument::Address | Argument::Token | Argument::SecondToken => &[TOKEN],
        Argument::Key => &["the first key word", "the second key word"],
        Argument::Offset => &["the offset"],
        Argument::PageFile => &["a page-file number"],
        Argument::Minute => &["a minute of the week"],
        Argument::Task | Argument::Holder => &["a task"],
        Argument::FirstNonce => &["the first nonce"],
        Argument::Length => &["a length"],
        Argument::User => &["a user's mark"],
        Argument::Permissions => &["permissions: letters of RWX, '-' or a number"],
        Argument::Encoding => &["an encoding"],
    }
}

/// Whether an operation that takes it has it written at zero too, since it lives by it.
pub fn is_always_written(argument: Argument) -> bool {
    use Argument::*;
    matches!(argument, Holder | FirstNonce | Length | Permissions)
}

/// The arguments of an operation that have words of their own.
fn own(operation: Option<Operation>) -> impl Iterator<Item = Argument> {
    let taken = operation.map_or(&[][..], Operation::arguments).iter().copied();
    taken.filter(|argument| any().all(|any| word(any) != word(*argument)))
}

/// The argument that a word stands for in a request.
pub fn find(operation: Option<Operation>, name: &str) -> Option<Argument> {
    own(operation).chain(any()).find(|argument| word(*argument) == name)
}

/// The words that a request may be given, each in quotes with a comma behind it.
pub fn words(operation: Option<Operation>) -> String {
    own(operation).chain(any()).map(|argument| format!("'{}', ", word(argument))).collect()
}

/// What stands at the place where any request may have this number, and whether the operation takes
/// it.
pub fn instead(operation: Option<Operation>, any: Argument) -> (Argument, bool) {
    let taken = operation.map_or(&[][..], Operation::arguments);
    let own = taken.iter().find(|argument| argument.places() == any.places());
    own.map_or((any, false), |argument| (*argument, true))
}

#[cfg(test)]
mod tests {
    use super::*;
    use bridge::Words;

    /// So every word of every request can be written.
    #[test]
    fn any_request_may_be_given_each_of_its_words() {
        let mut places: Vec<usize> = any().flat_map(Argument::places).copied().collect();
        places.sort_unstable();
        assert!(places.into_iter().eq(1..Words::COUNT));
    }
}
