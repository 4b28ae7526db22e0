//! Playing a script: asking its requests one by one, and comparing what is expected.

use crate::entry::Entry;
use crate::server::{Longest, Server, Trouble};
use crate::text::{
    buffer_text, changes, print_standing, token_text, Ask, EntryLine, Expected, Names, Script,
    Standing, Unresolved, Word,
};
use crate::token::Token;
use crate::world::World;
use bridge::{refusal_words, Lent, Operation, Place, Reply, Words};
use std::fmt;

/// What came of one request.
#[derive(Clone, Debug, PartialEq, Eq)]
pub struct Played {
    /// What stood before it.
    pub before: World,
    pub request: Words,
    pub reply: Reply,
    /// What stands in the buffer afterwards.
    pub buffer: Vec<u8>,
    /// The leases that were lent.
    pub leases: Vec<u8>,
    pub changes: Vec<Standing>,
    pub differences: Vec<Difference>,
}

/// Why a request has no answer.
#[derive(Clone, Debug, PartialEq, Eq)]
pub enum NoAnswer {
    /// It was not asked, since a name in it stands for no token.
    Unresolved(Unresolved),
    /// It was not asked, since so much cannot be lent to who serves.
    TooLong { part: &'static str, length: usize, longest: usize },
    /// It was asked in vain.
    Trouble(Trouble),
}

impl From<Unresolved> for NoAnswer {
    fn from(unresolved: Unresolved) -> NoAnswer {
        NoAnswer::Unresolved(unresolved)
    }
}

impl From<Trouble> for NoAnswer {
    fn from(trouble: Trouble) -> NoAnswer {
        NoAnswer::Trouble(trouble)
    }
}

impl fmt::Display for NoAnswer {
    fn fmt(&self, to: &mut fmt::Formatter) -> fmt::Result {
        match self {
            NoAnswer::Unresolved(unresolved) => write!(to, "not asked: {unresolved}"),
            NoAnswer::TooLong { part, length, longest } => {
                write!(to, "not asked: its {part} has {length} bytes, of at most {longest}")
            }
            NoAnswer::Trouble(trouble) => write!(to, "no answer: {}", trouble.message()),
        }
    }
}

/// Something that is not as expected.
#[derive(Clone, Debug, PartialEq, Eq)]
pub struct Difference {
    pub what: String,
    pub expected: String,
    pub given: String,
}

impl Difference {
    fn of_standing(expected: &Standing, given: &Standing) -> Difference {
        let (expected, given) = (print_standing(expected), print_standing(given));
        Difference { what: "what stands".to_string(), expected, given }
    }
}

/// A script that is being played.
pub struct Player<'a, S: ?Sized> {
    server: &'a mut S,
    exact: bool,
    /// Whether the server has taken over the world.
    begun: bool,
    pub world: World,
    pub names: Names,
}

impl<'a, S: Server + ?Sized> Player<'a, S> {
    pub fn new(script: &Script, server: &'a mut S) -> Player<'a, S> {
        let (exact, begun) = (script.exact, false);
        Player { server, exact, begun, world: script.world(), names: Names::new() }
    }

    /// Asks one request. A request with a name that nobody gave is not asked.
    pub fn play(&mut self, ask: &Ask) -> Result<Played, NoAnswer> {
        let (request, leases) = (ask.resolve(&self.names)?, ask.leases.resolve(&self.names)?);
        let Longest { buffer: longest_buffer, leases: longest_leases } = self.server.longest();
        fits("buffer", ask.buffer.len(), longest_buffer)?;
        fits("table of leases", leases.len(), longest_leases)?;
        if !self.begun {
            self.server.begin(&self.world)?;
            self.begun = true;
        }
        let before = self.world.clone();
        let mut buffer = ask.buffer.clone();
        let lent = Lent { buffer: &mut buffer, leases: &leases };
        let reply = self.server.serve(&request, &mut self.world, lent)?;
        let given = given(&request, &reply, &self.world);
        ask.add_names(given, &mut self.names);
        let mut differences = self.answer_differences(ask, &reply, &buffer);
        differences.extend(nothing_to_name(ask, &reply, given));
        differences.extend(self.standing_differences(ask, &before));
        let changes = changes(&before, &self.world);
        Ok(Played { before, request, reply, buffer, leases, changes, differences })
    }

    /// Where answer and buffer are not as expected.
    fn answer_differences(&self, ask: &Ask, reply: &Reply, buffer: &[u8]) -> Vec<Difference> {
        let Some(expected) = &ask.expected else {
            return Vec::new();
        };
        // In an exact script what is not stated is 0.
        let stated = |word: Option<u64>| word.or(self.exact.then_some(0));
        let words = [
            ("refusal", Some(expected.refusal), reply.refusal),
            ("place", stated(expected.place), reply.place),
            ("first token", stated(expected.first), reply.first),
            ("second token", stated(expected.second), reply.second),
            ("number", stated(expected.number), reply.dropped),
            ("length", stated(expected.length), reply.length),
        ];
        let differs = words
            .into_iter()
            .filter(|(_, expected, given)| expected.is_some_and(|word| word != *given));
        let answer = differs.map(|(what, expected, given)| Difference {
            what: what.to_string(),
            expected: word_text(what, expected.unwrap_or(0)),
            given: word_text(what, given),
        });
        answer.chain(self.buffer_difference(ask, expected, buffer)).collect()
    }

    fn buffer_difference(
        &self,
        ask: &Ask,
        expected: &Expected,
        given: &[u8],
    ) -> Option<Difference> {
        let kept = self.exact.then_some(&ask.buffer);
        let expected = expected.buffer.as_ref().or(kept)?;
        let text = |bytes: &[u8]| buffer_text(ask.words.operation, bytes);
        (expected != given).then(|| Difference {
            what: "buffer".to_string(),
            expected: text(expected),
            given: text(given),
        })
    }

    /// Where state, table and memory are not as expected. In an exact script all that no line
    /// states is as before.
    fn standing_differences(&self, ask: &Ask, before: &World) -> Vec<Difference> {
        if ask.standing.is_empty() && !self.exact {
            return Vec::new();
        }
        let mut expected = if self.exact { before.clone() } else { self.world.clone() };
        ask.standing.iter().for_each(|standing| standing.put(&mut expected));
        let wanted = changes(&self.world, &expected);
        let given = changes(&expected, &self.world);
        let both = wanted.iter().zip(&given);
        let differing = both.map(|(wanted, given)| Difference::of_standing(wanted, given));
        differing.chain(self.fieldless(ask)).collect()
    }

    /// Entries whose type has not the fields that are stated of them.
    fn fieldless(&self, ask: &Ask) -> Vec<Difference> {
        let stated = ask.standing.iter().filter_map(|standing| {
            let Standing::Entry { number, line: EntryLine::Fields(fields) } = standing else {
                return None;
            };
            let given = Entry::at(&self.world.table, *number)?;
            let lacking = fields.iter().any(|(field, _)| given.place(*field).is_none());
            let line = EntryLine::Whole(given);
            lacking.then(|| {
                Difference::of_standing(standing, &Standing::Entry { number: *number, line })
            })
        });
        stated.collect()
    }
}

/// Whether so many bytes of a part can be lent.
fn fits(part: &'static str, length: usize, longest: usize) -> Result<(), NoAnswer> {
    match length <= longest {
        true => Ok(()),
        false => Err(NoAnswer::TooLong { part, length, longest }),
    }
}

/// The tokens that an answer gives. A token may be 0, so that its word does not tell: the second one,
/// a create's rest or what a page-out leaves behind, is given if the named entry is still in use.
fn given(request: &Words, reply: &Reply, after: &World) -> [Option<u64>; 2] {
    let operation = Operation::of(request.operation).filter(|_| reply.refusal == 0);
    let tokens = operation.map_or(0, |operation| operation.tokens().len());
    let named = Token::unpack(request.token).number as usize;
    let rest = tokens == 2 && !Entry::of(&after.table, named).is_free();
    [Some(reply.first).filter(|_| tokens > 0), Some(reply.second).filter(|_| rest)]
}

/// Names for tokens that a granted request did not give.
fn nothing_to_name(ask: &Ask, reply: &Reply, given: [Option<u64>; 2]) -> Vec<Difference> {
    let Some(expected) = ask.expected.as_ref().filter(|_| reply.refusal == 0) else {
        return Vec::new();
    };
    let names = expected.names.iter().zip(given).zip(["first token", "second token"]);
    let without = names.filter_map(|((name, given), what)| match (name, given) {
        (Some(name), None) => Some((name, what)),
        _ => None,
    });
    let difference = |(name, what): (&String, &str)| Difference {
        what: what.to_string(),
        expected: format!("one for '{name}'"),
        given: "none".to_string(),
    };
    without.map(difference).collect()
}

fn place_text(place: u64) -> String {
    Place::of(place).map_or_else(|| place.to_string(), |place| place.words().to_string())
}

fn word_text(what: &str, word: u64) -> String {
    match (what, word) {
        ("place", 0) => "none".to_string(),
        ("place", _) => place_text(word),
        ("refusal", _) => format!("{word} ({})", refusal_words(word)),
        ("first token" | "second token", 0) => "0".to_string(),
        ("first token" | "second token", _) => token_text(word, 0),
        _ => word.to_string(),
    }
}

/// A script with everything that a server gives stated, so that each byte is fixed. What the script
/// expected before must have come true; else the differences are handed back, with the request's
/// line.
pub fn record<S: Server>(script: &Script, server: &mut S) -> Result<Script, NotRecorded> {
    let mut player = Player::new(script, server);
    let mut recorded = Script { exact: true, ..script.clone() };
    for ask in &mut recorded.asks {
        let played = player
            .play(ask)
            .map_err(|no_answer| NotRecorded::NoAnswer { line: ask.line, no_answer })?;
        if !played.differences.is_empty() {
            let differences = played.differences;
            return Err(NotRecorded::Differs { line: ask.line, differences });
        }
        state_all(ask, played);
    }
    Ok(recorded)
}

/// Why a script was not recorded.
#[derive(Clone, Debug, PartialEq, Eq)]
pub enum NotRecorded {
    NoAnswer { line: usize, no_answer: NoAnswer },
    Differs { line: usize, differences: Vec<Difference> },
}

/// States the answer, the buffer if it changed, and all that changed. Names stay.
fn state_all(ask: &mut Ask, played: Played) {
    let Played { reply, buffer, changes, .. } = played;
    let names = ask.expected.take().map_or([None, None], |expected| expected.names);
    let buffer = Some(buffer).filter(|buffer| *buffer != ask.buffer);
    ask.expected = Some(Expected { buffer, ..Expected::of(ask.words.operation, &reply, names) });
    ask.standing = changes;
}

/// The least first key word of the first request, a reset, with which a script goes as it expects:
/// the way to sessions that come by chance only.
pub fn search<S: Server>(script: &Script, server: &mut S, limit: u64) -> Option<u64> {
    let mut script = script.clone();
    (0..limit).find(|key| {
        if let Some(reset) = script.asks.first_mut() {
            reset.token = Word::Number(*key);
        }
        goes_as_expected(&script, server)
    })
}

/// Whether nothing differs from what a script expects; it ends at the first difference.
pub fn goes_as_expected<S: Server>(script: &Script, server: &mut S) -> bool {
    let mut player = Player::new(script, server);
    let mut as_expected =
        |ask: &Ask| player.play(ask).is_ok_and(|played| played.differences.is_empty());
    script.asks.iter().all(&mut as_expected)
}
