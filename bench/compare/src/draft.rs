//! A session as the shrinker holds it: tokens that an earlier request gave are held as such, so that
//! they stay right when the requests before them change.

use bridge::{Argument, Lease, Operation, Reply, Words, LEASE_BYTES};
use session::token::{self, Token};
use session::{Session, Step, World};

use crate::pair::Pair;
use crate::player::Found;

/// Where a token word comes from.
#[derive(Clone, Copy, Debug, PartialEq, Eq)]
pub enum Source {
    /// The word itself.
    Word,
    /// The token that a request gave, with another encoding or offset, or bits of its tag flipped.
    Given { part: usize, second: bool, encoding: u64, offset: u64, flip: u64 },
}

/// A request of a draft. Its name stays when others are left out.
#[derive(Clone, Debug, PartialEq, Eq)]
pub struct Part {
    pub name: usize,
    pub request: Words,
    pub buffer: Vec<u8>,
    pub token: Source,
    pub second: Source,
    pub leases: Vec<Held>,
    /// What stands behind the last whole lease.
    pub rest: Vec<u8>,
}

/// A lease that is lent with a request.
#[derive(Clone, Debug, PartialEq, Eq)]
pub struct Held {
    pub token: u64,
    pub of: Of,
    /// The opening and the closing one.
    pub minutes: [u64; 2],
}

/// Whose a lease is.
#[derive(Clone, Copy, Debug, PartialEq, Eq)]
pub enum Of {
    /// The token's that the request names, but for these bits of its number and its tag.
    Request { number: u64, tag: u64 },
    /// A token's from elsewhere.
    Token(Source),
}

#[derive(Clone, Debug, PartialEq, Eq)]
pub struct Draft {
    pub world: World,
    pub parts: Vec<Part>,
}

/// The replies so far, by the parts' names.
type Replies = Vec<(usize, Reply)>;

impl Draft {
    /// The draft of a session, whose tokens are looked up among what the proved code answers.
    pub fn of(session: &Session) -> Draft {
        let mut world = session.world.clone();
        let mut replies = Replies::new();
        let mut parts = Vec::new();
        for (name, step) in session.steps.iter().enumerate() {
            let Step { request, buffer, leases } = step.clone();
            let operation = Operation::of(request.operation);
            let one = operation.is_none_or(Operation::names_entry);
            let two = operation.is_some_and(|operation| operation.takes(Argument::SecondToken));
            let token = if one { source(&replies, request.token) } else { Source::Word };
            let second = if two { source(&replies, request.second) } else { Source::Word };
            let (whole, rest) = leases.as_chunks::<LEASE_BYTES>();
            let held = |bytes: &[u8; LEASE_BYTES]| {
                Held::of(Lease::from_bytes(*bytes), request.token, &replies)
            };
            let (leases, rest) = (whole.iter().map(held).collect(), rest.to_vec());
            parts.push(Part { name, request, buffer, token, second, leases, rest });
            replies.push((name, step.serve(&mut world)));
        }
        Draft { world: session.world.clone(), parts }
    }

    /// Plays the draft; the session up to the first difference, if there is one.
    pub fn play(&self, pair: &mut Pair) -> Option<Found> {
        let mut session = Session { world: self.world.clone(), steps: Vec::new() };
        let mut replies = Replies::new();
        if let Err(difference) = pair.begin(&self.world) {
            return Some(Found { session, difference });
        }
        for part in &self.parts {
            let step = part.resolve(&replies);
            let answer = pair.ask(&step);
            session.steps.push(step);
            match answer {
                Ok(reply) => replies.push((part.name, reply)),
                Err(difference) => return Some(Found { session, difference }),
            }
        }
        None
    }

    /// Whether the first request is a reset.
    pub fn begins_with_reset(&self) -> bool {
        self.parts.first().is_some_and(Part::is_reset)
    }
}

impl Draft {
    /// The draft without a request; those that used a token of its use the token that it used.
    #[must_use]
    pub fn without(&self, at: usize) -> Draft {
        let mut draft = self.clone();
        let gone = draft.parts.remove(at);
        for part in &mut draft.parts {
            gone.stand_in(&mut part.token, &mut part.request.token);
            gone.stand_in(&mut part.second, &mut part.request.second);
            for Held { token, of, .. } in &mut part.leases {
                if let Of::Token(source) = of {
                    gone.stand_in(source, token);
                }
            }
        }
        draft
    }
}

impl Part {
    pub fn is_reset(&self) -> bool {
        self.request.operation == Operation::Reset as u64
    }

    /// Puts its own token where one that it gave is used.
    fn stand_in(&self, source: &mut Source, word: &mut u64) {
        let Source::Given { part, encoding, offset, .. } = *source else {
            return;
        };
        if part != self.name {
            return;
        }
        *source = match self.token {
            Source::Word => Source::Word,
            Source::Given { part, second, flip, .. } => {
                Source::Given { part, second, encoding, offset, flip }
            }
        };
        let Token { tag, number, .. } = Token::unpack(self.request.token);
        *word = token::packed(encoding, tag, number, offset);
    }

    fn resolve(&self, replies: &Replies) -> Step {
        let token = self.token.resolve(self.request.token, replies);
        let second = self.second.resolve(self.request.second, replies);
        let leases = self.leases.iter().flat_map(|held| held.resolve(token, replies).to_bytes());
        let leases = leases.chain(self.rest.iter().copied()).collect();
        let request = Words { token, second, ..self.request };
        Step { request, buffer: self.buffer.clone(), leases }
    }
}

impl Held {
    /// A lease that is lent with a request through a token.
    fn of(lease: Lease, named: u64, replies: &Replies) -> Held {
        let Lease { number, tag, opening, closing } = lease;
        let token = token::packed(1, tag.into(), number.into(), 0);
        let (named, leased) = (Token::unpack(named), Token::unpack(token));
        let same_tag = leased.tag == named.tag && leased.tag != 0;
        let of = match leased.number == named.number || same_tag {
            true => {
                let (number, tag) = (leased.number ^ named.number, leased.tag ^ named.tag);
                Of::Request { number, tag }
            }
            false => Of::Token(source(replies, token)),
        };
        Held { token, of, minutes: [opening.into(), closing.into()] }
    }

    /// The lease, beside the token that its request names now.
    fn resolve(&self, named: u64, replies: &Replies) -> Lease {
        let (number, tag) = match self.of {
            Of::Request { number, tag } => {
                let named = Token::unpack(named);
                (named.number ^ number, named.tag ^ tag)
            }
            Of::Token(source) => {
                let Token { number, tag, .. } = Token::unpack(source.resolve(self.token, replies));
                (number, tag)
            }
        };
        let [opening, closing] = self.minutes.map(|minute| minute as u16);
        Lease { number: number as u16, tag: tag as u16, opening, closing }
    }
}

impl Source {
    /// The word; the one that was written down if the giving request is no longer there.
    fn resolve(self, word: u64, replies: &Replies) -> u64 {
        let Source::Given { part, second, encoding, offset, flip } = self else {
            return word;
        };
        let Some((_, reply)) = replies.iter().find(|(name, _)| *name == part) else {
            return word;
        };
        let given = if second { reply.second } else { reply.first };
        let Token { tag, number, .. } = Token::unpack(given);
        token::packed(encoding, tag ^ flip, number, offset)
    }
}

/// The latest request that gave a token of this number and tag, or of a tag with one bit flipped.
fn source(replies: &Replies, word: u64) -> Source {
    let token = Token::unpack(word);
    let Token { encoding, offset, .. } = token;
    if (token.tag, token.number) == (0, 0) {
        return Source::Word;
    }
    for (name, reply) in replies.iter().rev() {
        for (second, given) in [(false, reply.first), (true, reply.second)] {
            let other = Token::unpack(given);
            let flip = token.tag ^ other.tag;
            if given != 0 && token.number == other.number && flip.count_ones() < 2 {
                return Source::Given { part: *name, second, encoding, offset, flip };
            }
        }
    }
    Source::Word
}
