//! The entry at which a refused request stopped. A note of the tool, read off what stood before; the
//! answer tells a number, and for some whether it was the named entry or an ancestor.

use crate::map::{judge, Judged, Link};
use bridge::{Argument, Check, Operation, Words};
use session::entry::{self, Entry, Field};
use session::text::number_text;
use session::token::Token;

/// An entry by its number, and what is bad about it where its row of the map does not tell.
#[derive(Clone, Debug, PartialEq, Eq)]
pub struct Stop {
    /// The named entry in whose line it lies, which may be itself.
    pub named: u64,
    pub number: u64,
    pub why: Option<String>,
}

/// The numbers of the entries that a request names.
pub fn named(request: &Words) -> Vec<u64> {
    tokens(request).iter().map(|token| token.number).collect()
}

fn tokens(request: &Words) -> Vec<Token> {
    let Some(operation) = Operation::of(request.operation).filter(|one| one.names_entry()) else {
        return Vec::new();
    };
    let second = operation.takes(Argument::SecondToken).then_some(request.second);
    [request.token].into_iter().chain(second).map(Token::unpack).collect()
}

/// Where a request with this refusal stopped; none if it was for no entry, or none fits.
/// The table is as it was before, and memory has so many bytes.
pub fn stop(request: &Words, table: &[u8], memory: usize, refusal: u64) -> Option<Stop> {
    let operation = Operation::of(request.operation)?;
    let table = Table { bytes: table, judged: judge(table, memory) };
    let tokens = tokens(request);
    let first = |bad: &dyn Fn(&Token) -> Option<Stop>| tokens.iter().find_map(bad);
    match Check::of(refusal)? {
        Check::Entry => first(&|token| table.unnamed(token)),
        Check::IllFormed => first(&|token| table.ill_formed(token)),
        Check::Dead => first(&|token| table.dead(token)),
        Check::Lock => first(&|token| table.locked(token, request.task)),
        Check::Paged => first(&|token| table.paged(token)),
        Check::Kind if operation == Operation::PageIn => table.not_to_page_in(&tokens),
        Check::Kind => first(&|token| table.derived(token)),
        Check::Right => table.owned(operation == Operation::Lock, tokens.first()?),
        // A merge's second does not begin where its first ends; a page-in's donor may be as long as its
        // entry, and the buffer not.
        Check::Bounds => Some(itself(tokens.last()?)),
        Check::Standing if operation == Operation::Merge => table.in_use(&tokens),
        Check::Standing if operation == Operation::PageIn => Some(itself(tokens.last()?)),
        Check::Standing => table.owned(operation == Operation::Unlock, tokens.first()?),
        // These are about no entry.
        Check::Request | Check::Numbers | Check::Nonces => None,
        Check::Malformed | Check::Checksum | Check::Room => None,
        // These are about leases, which no entry knows of.
        Check::Closed | Check::Lease => None,
    }
}

/// The named entry, whose row tells all.
fn itself(token: &Token) -> Stop {
    Stop { named: token.number, number: token.number, why: None }
}

fn because(token: &Token, number: u64, why: &str) -> Stop {
    Stop { named: token.number, number, why: Some(why.to_string()) }
}

struct Table<'a> {
    bytes: &'a [u8],
    judged: Vec<Judged>,
}

impl Table<'_> {
    fn entry(&self, number: u64) -> Entry {
        Entry::of(self.bytes, usize::try_from(number).unwrap_or(usize::MAX))
    }

    fn judged(&self, number: u64) -> Option<&Judged> {
        self.judged.get(usize::try_from(number).ok()?)
    }

    fn unnamed(&self, token: &Token) -> Option<Stop> {
        let (number, wanted) = (token.number, token.tag);
        let tag = self.entry(number).get(entry::TAG);
        match self.judged(number) {
            None => Some(because(token, number, "it is beyond the table")),
            Some(Judged::Free) => Some(because(token, number, "it is free")),
            Some(_) if tag == wanted => None,
            Some(_) => {
                let why = format!("it holds tag {tag:#06x}, not {wanted:#06x}");
                Some(because(token, number, &why))
            }
        }
    }

    fn ill_formed(&self, token: &Token) -> Option<Stop> {
        let number = match self.judged(token.number)? {
            Judged::IllFormed(_) => token.number,
            Judged::Indirect(Link::IllFormed { at, .. }) => *at as u64,
            _ => return None,
        };
        self.judged(number)?.reason().map(|why| because(token, number, why))
    }

    fn dead(&self, token: &Token) -> Option<Stop> {
        let Judged::Indirect(Link::Dead { at, .. }) = self.judged(token.number)? else {
            return None;
        };
        self.judged[*at].reason().map(|why| because(token, *at as u64, why))
    }

    /// The end of a line that is alive.
    fn owner(&self, mut number: u64) -> Option<u64> {
        while let Judged::Indirect(Link::Alive { parent }) = self.judged(number)? {
            number = *parent as u64;
        }
        (*self.judged(number)? == Judged::Direct).then_some(number)
    }

    fn locked(&self, token: &Token, task: u64) -> Option<Stop> {
        let owner = self.owner(token.number)?;
        let entry = self.entry(owner);
        let holder = entry.field(Field::Holder);
        let is_locked = entry.field(Field::Locked) != 0 && holder != task;
        let why = || format!("it is locked for task {}", number_text(holder));
        is_locked.then(|| because(token, owner, &why()))
    }

    fn derived(&self, token: &Token) -> Option<Stop> {
        matches!(self.judged(token.number)?, Judged::Indirect(_)).then(|| itself(token))
    }

    fn paged(&self, token: &Token) -> Option<Stop> {
        let paged = self.entry(token.number).kind() == entry::PAGED;
        paged.then(|| itself(token))
    }

    /// The first entry, if it is not paged out, or the donor, if it is no segment.
    fn not_to_page_in(&self, tokens: &[Token]) -> Option<Stop> {
        let [first, donor] = tokens else { return None };
        match self.judged(first.number)? {
            Judged::Paged => Some(itself(donor)),
            _ => Some(itself(first)),
        }
    }

    /// The named entry, or the owner of its line.
    fn owned(&self, by_owner: bool, token: &Token) -> Option<Stop> {
        match by_owner {
            true => self.owner(token.number).map(|number| Stop { number, ..itself(token) }),
            false => Some(itself(token)),
        }
    }

    /// "create or merge when locked or count not 0": of two segments, the locked ones first.
    fn in_use(&self, tokens: &[Token]) -> Option<Stop> {
        let with =
            |field: Field| tokens.iter().find(|token| self.entry(token.number).field(field) != 0);
        with(Field::Locked).or_else(|| with(Field::Count)).map(itself)
    }
}
