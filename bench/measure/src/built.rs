//! Worlds to measure in, built by requests that are granted.

use bridge::{Encoding, Lent, Permissions, Request, Task, Token};
use session::{entry, World};

pub const KEY: [u64; 2] = [0x0706_0504_0302_0100, 0x0f0e_0d0c_0b0a_0908];

/// A world with its root, and requests to go on from there.
#[derive(Clone, Debug)]
pub struct Built {
    pub world: World,
}

impl Built {
    /// A table of so many entries over a memory of so many bytes, after a reset.
    pub fn new(entries: usize, memory: usize) -> Built {
        let mut built = Built { world: World::zeros(entry::SIZE * entries, memory) };
        built.ask(&Request::Reset { key: KEY, first_nonce: 1 });
        built
    }

    /// The first token of a request that must be granted.
    pub fn ask(&mut self, request: &Request) -> Token {
        let reply = self.world.serve(&request.words(), Lent::of(&mut []));
        assert_eq!(reply.refusal, 0, "{request:?} builds a world to measure in");
        Token(reply.first)
    }

    /// A child one byte shorter than its parent, whose length is given.
    pub fn derive(&mut self, token: Token, length: usize) -> Token {
        self.ask(&derive(token, length as u64 - 1, Permissions::ALL))
    }

    /// The tokens of a line, from the root down to so many links below it.
    pub fn line(&mut self, depth: usize) -> Vec<Token> {
        let length = self.world.memory.len();
        let mut line = vec![Token::ROOT];
        for link in 0..depth {
            line.push(self.derive(line[link], length - link));
        }
        line
    }

    /// A line whose entries below the root all stand at count 1, so that a drop climbs to the root.
    pub fn bare_line(&mut self, depth: usize) -> Token {
        let line = self.line(depth);
        for token in &line[1..depth] {
            self.ask(&Request::Drop { token: *token });
        }
        line[depth]
    }

    /// A table full but for the number that is sought last.
    pub fn full_but_one(entries: usize, memory: usize) -> Built {
        let mut built = Built::new(entries, memory);
        let mut last = Token::ROOT;
        for _ in 1..entries {
            last = built.derive(Token::ROOT, memory);
        }
        built.ask(&Request::Drop { token: last });
        built
    }
}

/// A derive at its parent's start.
pub fn derive(token: Token, length: u64, permissions: Permissions) -> Request {
    Request::Derive { token, offset: 0, length, permissions, encoding: Encoding::E0 }
}

/// A create with no task and no user.
pub fn create(token: Token, length: u64, permissions: Permissions) -> Request {
    let (task, user, encoding) = (Task::NONE, 0, Encoding::E0);
    Request::Create { token, task, length, user, permissions, encoding }
}
