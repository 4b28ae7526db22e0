//! A script: a session as it is written, with names, expected results and comments.

use super::leases::Leases;
use super::lines::Comments;
use super::named::{Names, Unresolved, Word};
use super::state::StatedState;
use crate::entry::{Entry, Field};
use crate::world::{Session, Step, World};
use bridge::{Operation, Reply, Words};

/// A start, and requests with what is expected of them.
#[derive(Clone, Debug, PartialEq, Eq)]
pub struct Script {
    /// Comments at the first line, which gives the sizes.
    pub head: Comments,
    pub sizes: Sizes,
    /// What stands at the start, where it is not zero.
    pub start: Vec<Start>,
    /// Whether everything is fixed: what no line states is as it was before the request, and words
    /// of an answer that are not stated are 0.
    pub exact: bool,
    pub asks: Vec<Ask>,
    /// Comments and blank lines at the end.
    pub below: Vec<String>,
}

/// The lengths of table and memory in bytes.
#[derive(Clone, Copy, Debug, PartialEq, Eq)]
pub struct Sizes {
    pub table: usize,
    pub memory: usize,
}

/// Something that stands at the start.
#[derive(Clone, Debug, PartialEq, Eq)]
pub struct Start {
    pub comments: Comments,
    pub standing: Standing,
}

/// One request with what is lent with it, the answer expected, and what must stand after it.
#[derive(Clone, Debug, PartialEq, Eq)]
pub struct Ask {
    /// Where it stands in its file; 0 if it comes from none.
    pub line: usize,
    pub comments: Comments,
    /// The words; the token and the second word are overlaid by the next two.
    pub words: Words,
    pub token: Word,
    pub second: Word,
    pub buffer: Vec<u8>,
    pub leases: Leases,
    pub expected: Option<Expected>,
    pub standing: Vec<Standing>,
}

/// The answer expected. What is none is not stated.
#[derive(Clone, Debug, Default, PartialEq, Eq)]
pub struct Expected {
    pub refusal: u64,
    pub place: Option<u64>,
    pub first: Option<u64>,
    pub second: Option<u64>,
    pub number: Option<u64>,
    /// The length of a dump's text.
    pub length: Option<u64>,
    pub buffer: Option<Vec<u8>>,
    /// Names for the first and the second token.
    pub names: [Option<String>; 2],
}

/// Something that must stand after a request.
#[derive(Clone, Debug, PartialEq, Eq)]
pub enum Standing {
    State(StatedState),
    Entry {
        number: usize,
        line: EntryLine,
    },
    /// Bytes of the table that are given by their place.
    Table {
        at: usize,
        bytes: Vec<u8>,
    },
    Memory {
        at: usize,
        bytes: Vec<u8>,
    },
}

/// A whole entry, or some of its fields.
#[derive(Clone, Debug, PartialEq, Eq)]
pub enum EntryLine {
    Whole(Entry),
    Fields(Vec<(Field, u64)>),
}

impl Standing {
    /// How many bytes it states.
    pub fn bytes(&self) -> usize {
        match self {
            Standing::State(_) | Standing::Entry { .. } => 0,
            Standing::Table { bytes, .. } | Standing::Memory { bytes, .. } => bytes.len(),
        }
    }

    /// Makes it stand. Places lie inside the world that the text was read for.
    pub fn put(&self, world: &mut World) {
        match self {
            Standing::State(state) => state.put(&mut world.state),
            Standing::Entry { number, line } => put_entry(&mut world.table, *number, line),
            Standing::Table { at, bytes } => {
                world.table[*at..at + bytes.len()].copy_from_slice(bytes);
            }
            Standing::Memory { at, bytes } => {
                world.memory[*at..at + bytes.len()].copy_from_slice(bytes);
            }
        }
    }
}

fn put_entry(table: &mut [u8], number: usize, line: &EntryLine) {
    let Some(before) = Entry::at(table, number) else {
        return;
    };
    let set = |entry: Entry, (field, value): &(Field, u64)| entry.with_field(*field, *value);
    let entry = match line {
        EntryLine::Whole(whole) => *whole,
        EntryLine::Fields(fields) => fields.iter().fold(before, set),
    };
    entry.store(table, number);
}

impl Ask {
    pub fn of(step: &Step) -> Ask {
        Ask {
            line: 0,
            comments: Comments::default(),
            words: step.request,
            token: Word::Number(step.request.token),
            second: Word::Number(step.request.second),
            buffer: step.buffer.clone(),
            leases: Leases::of(&step.leases),
            expected: None,
            standing: Vec::new(),
        }
    }

    /// How many bytes its line gives.
    pub fn bytes(&self) -> usize {
        let stated = self.expected.as_ref().and_then(|expected| expected.buffer.as_ref());
        self.buffer.len() + self.leases.length() + stated.map_or(0, Vec::len)
    }

    /// Puts a number at a place among the request's words.
    pub fn put(&mut self, place: usize, number: u64) {
        match place {
            Words::TOKEN => self.token = Word::Number(number),
            Words::SECOND => self.second = Word::Number(number),
            _ => *self.words.at(place) = number,
        }
    }

    /// The request's words, with the tokens that the names stand for.
    pub fn resolve(&self, names: &Names) -> Result<Words, Unresolved> {
        let (token, second) = (self.token.resolve(names)?, self.second.resolve(names)?);
        Ok(Words { token, second, ..self.words })
    }

    /// Adds the names of the tokens that were given. A name whose token is stated stands for that
    /// one, so that the session is the same whoever answers; another one for what was given.
    pub fn add_names(&self, given: [Option<u64>; 2], names: &mut Names) {
        let Some(expected) = &self.expected else {
            return;
        };
        let tokens = [expected.first.or(given[0]), expected.second.or(given[1])];
        for (name, token) in expected.names.iter().zip(tokens) {
            if let (Some(name), Some(token)) = (name, token) {
                names.insert(name.clone(), token);
            }
        }
    }
}

impl Script {
    /// What stands at the start.
    pub fn world(&self) -> World {
        let mut world = World::zeros(self.sizes.table, self.sizes.memory);
        self.start.iter().for_each(|start| start.standing.put(&mut world));
        world
    }

    /// The session, if every name that is used has its token stated.
    pub fn session(&self) -> Result<Session, Unresolved> {
        let mut names = Names::new();
        let mut steps = Vec::new();
        for ask in &self.asks {
            let (request, leases) = (ask.resolve(&names)?, ask.leases.resolve(&names)?);
            steps.push(Step { request, buffer: ask.buffer.clone(), leases });
            ask.add_names([None, None], &mut names);
        }
        Ok(Session { world: self.world(), steps })
    }
}

impl Expected {
    /// All that an answer gives, under these names. Zeros are not stated, but for a number or a length
    /// that the operation answers.
    pub fn of(operation: u64, reply: &Reply, names: [Option<String>; 2]) -> Expected {
        let granted = reply.refusal == 0;
        let answers =
            |what: fn(Operation) -> bool| granted && Operation::of(operation).is_some_and(what);
        let [first, second] = names.map(|name| name.filter(|_| granted));
        let stated = |word: u64, named: bool| Some(word).filter(|word| *word != 0 || named);
        Expected {
            refusal: reply.refusal,
            place: stated(reply.place, false),
            first: stated(reply.first, first.is_some()),
            second: stated(reply.second, second.is_some()),
            number: stated(reply.dropped, answers(Operation::answers_number)),
            length: stated(reply.length, answers(Operation::answers_length)),
            buffer: None,
            names: [first, second],
        }
    }
}
