//! Requests as the eight words of the interface, and what an operation's words say.

/// A request as the interface takes it. Words that an operation does not use are not looked at.
#[derive(Clone, Copy, Debug, Default, PartialEq, Eq)]
pub struct Words {
    pub operation: u64,
    /// The token; for a reset the first key word.
    pub token: u64,
    /// A merge's second token, a page-in's donor, a derive's offset, an access's minute, a page-out's
    /// page-file number; for a reset the second key word.
    pub second: u64,
    /// The task; for a reset the first nonce.
    pub task: u64,
    pub length: u64,
    pub user: u64,
    /// R 4, W 2, X 1, added.
    pub permissions: u64,
    /// Of the tokens in the answer: 0 to 3.
    pub encoding: u64,
}

impl Words {
    pub const COUNT: usize = 8;

    /// The places of the words that may hold tokens.
    pub const TOKEN: usize = 1;
    pub const SECOND: usize = 2;

    pub fn in_order(&self) -> [u64; Words::COUNT] {
        [
            self.operation,
            self.token,
            self.second,
            self.task,
            self.length,
            self.user,
            self.permissions,
            self.encoding,
        ]
    }

    pub fn from_order(words: [u64; Words::COUNT]) -> Words {
        let [operation, token, second, task, length, user, permissions, encoding] = words;
        Words { operation, token, second, task, length, user, permissions, encoding }
    }

    /// The word at a place.
    pub fn at(&mut self, place: usize) -> &mut u64 {
        let Words { operation, token, second, task, length, user, permissions, encoding } = self;
        let words: [&mut u64; Words::COUNT] =
            [operation, token, second, task, length, user, permissions, encoding];
        words.into_iter().nth(place).expect("a place of a request's word")
    }
}

/// What words of a request say.
#[derive(Clone, Copy, Debug, PartialEq, Eq)]
pub enum Argument {
    /// A token that may carry an offset: where an access begins.
    Address,
    /// A token without an offset.
    Token,
    SecondToken,
    /// Two words.
    Key,
    Offset,
    /// The page-file number that a paged entry keeps.
    PageFile,
    /// The minute of the week at which an access, a load or a dump is asked.
    Minute,
    /// The task that asks; 0 for none.
    Task,
    /// The task that a lock is for, which is not 0.
    Holder,
    FirstNonce,
    Length,
    User,
    Permissions,
    Encoding,
}

impl Argument {
    pub const ALL: &[Argument] = &[
        Argument::Address,
        Argument::Token,
        Argument::SecondToken,
        Argument::Key,
        Argument::Offset,
        Argument::PageFile,
        Argument::Minute,
        Argument::Task,
        Argument::Holder,
        Argument::FirstNonce,
        Argument::Length,
        Argument::User,
        Argument::Permissions,
        Argument::Encoding,
    ];

    /// Where it stands among the words.
    pub const fn places(self) -> &'static [usize] {
        match self {
            Argument::Address | Argument::Token => &[Words::TOKEN],
            Argument::Key => &[Words::TOKEN, Words::SECOND],
            Argument::SecondToken | Argument::Offset | Argument::PageFile | Argument::Minute => {
                &[Words::SECOND]
            }
            Argument::Task | Argument::Holder | Argument::FirstNonce => &[3],
            Argument::Length => &[4],
            Argument::User => &[5],
            Argument::Permissions => &[6],
            Argument::Encoding => &[7],
        }
    }
}
