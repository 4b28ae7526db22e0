//! The northbridge, typed: over a table and a memory that are lent to it.

use crate::answer::{Granted, Reply};
use crate::lease::Shift;
use crate::operation::Operation;
use crate::refusal::Refusal;
use crate::request::{PageIn, PageOut, Request};
use crate::rights::Task;
use crate::serve::{self, serve_brought};
use crate::state::State;
use crate::token::Token;
use crate::words::Words;

/// A northbridge over a table and a memory that are lent to it.
pub struct Northbridge<'a> {
    pub state: State,
    pub table: &'a mut [u8],
    pub memory: &'a mut [u8],
}

/// The tokens that a page-out gives.
#[derive(Clone, Copy, Debug, PartialEq, Eq)]
pub struct PagedOut {
    /// The entry's new one: it is for a page-in alone.
    pub paged: Token,
    /// That of the segment that became free for others: zeros, with all rights and no user.
    pub segment: Token,
}

/// A northbridge during a shift: its accesses bring the minute, and are under the leases.
pub struct During<'b, 'a> {
    bridge: &'b mut Northbridge<'a>,
    shift: Shift<'b>,
}

impl<'a> Northbridge<'a> {
    /// A northbridge after a granted reset.
    pub fn reset(
        key: [u64; 2],
        first_nonce: u64,
        table: &'a mut [u8],
        memory: &'a mut [u8],
    ) -> Result<Northbridge<'a>, Refusal> {
        let mut bridge = Northbridge { state: State::default(), table, memory };
        bridge.ask(&Request::Reset { key, first_nonce })?;
        Ok(bridge)
    }

    /// How many numbers can still be given. It stands in the state: no request is asked, and the table
    /// is not looked at.
    pub fn free_total(&self) -> u64 {
        self.state.total
    }

    /// Serves a request that brings no buffer.
    pub fn ask(&mut self, request: &Request) -> Result<Granted, Refusal> {
        self.served(request.words(), None, &mut [])
    }

    /// The accesses of this borrow are asked at a minute, and under leases. Without it there are no
    /// shifts.
    pub fn during<'b>(&'b mut self, shift: Shift<'b>) -> During<'b, 'a> {
        During { bridge: self, shift }
    }

    /// The bytes at an address go to the buffer.
    pub fn read(&mut self, address: Token, task: Task, buffer: &mut [u8]) -> Result<(), Refusal> {
        self.served(Words::access(Operation::Read, address, task), None, buffer).map(|_| ())
    }

    /// As read, for instructions.
    pub fn fetch(&mut self, address: Token, task: Task, buffer: &mut [u8]) -> Result<(), Refusal> {
        self.served(Words::access(Operation::Fetch, address, task), None, buffer).map(|_| ())
    }

    /// The bytes go to an address.
    pub fn write(&mut self, address: Token, task: Task, bytes: &[u8]) -> Result<(), Refusal> {
        self.brought(Words::access(Operation::Write, address, task), None, bytes).map(|_| ())
    }

    /// What HEX text says is written. The token has no offset.
    pub fn load(&mut self, token: Token, task: Task, text: &[u8]) -> Result<(), Refusal> {
        self.brought(Words::access(Operation::Load, token, task), None, text).map(|_| ())
    }

    /// All bytes that a token names go to the buffer's front as HEX text, whose length is told. The
    /// token has no offset.
    pub fn dump(&mut self, token: Token, task: Task, buffer: &mut [u8]) -> Result<usize, Refusal> {
        self.served(Words::access(Operation::Dump, token, task), None, buffer).map(length)
    }

    /// A segment's bytes go to a buffer that is as long, and its entry is paged out. The segment, all
    /// zeros, is a new entry's.
    pub fn page_out(&mut self, request: &PageOut, buffer: &mut [u8]) -> Result<PagedOut, Refusal> {
        let granted = self.served(request.words(), None, buffer)?;
        Ok(PagedOut { paged: granted.first, segment: granted.second })
    }

    /// The bytes go to the donor's segment, which becomes the paged entry's; the donor's number is
    /// freed. The entry's new token is told.
    pub fn page_in(&mut self, request: &PageIn, bytes: &[u8]) -> Result<Token, Refusal> {
        self.brought(request.words(), None, bytes).map(|granted| granted.first)
    }

    /// Serves a request that only reads its buffer: a write, a load or a page-in.
    fn brought(
        &mut self,
        request: Words,
        shift: Option<Shift>,
        bytes: &[u8],
    ) -> Result<Granted, Refusal> {
        let (request, leases) = under(request, shift);
        let Northbridge { state, table, memory } = self;
        let brought = (bytes.as_ptr().cast_mut(), bytes.len());
        // The exclusive slices do not overlap the bytes, and these requests only read them:
        // tests/typed.rs lends them bytes that cannot be written.
        let reply = unsafe { serve_brought(&request, state, table, memory, brought, leases) };
        typed(&reply)
    }

    fn served(
        &mut self,
        request: Words,
        shift: Option<Shift>,
        buffer: &mut [u8],
    ) -> Result<Granted, Refusal> {
        let (request, leases) = under(request, shift);
        let Northbridge { state, table, memory } = self;
        typed(&match leases {
            None => serve::serve(&request, state, table, memory, buffer),
            Some(leases) => serve::serve_leased(&request, state, table, memory, buffer, leases),
        })
    }
}

impl During<'_, '_> {
    /// The bytes at an address go to the buffer.
    pub fn read(&mut self, address: Token, task: Task, buffer: &mut [u8]) -> Result<(), Refusal> {
        let request = Words::access(Operation::Read, address, task);
        self.bridge.served(request, Some(self.shift), buffer).map(|_| ())
    }

    /// As read, for instructions.
    pub fn fetch(&mut self, address: Token, task: Task, buffer: &mut [u8]) -> Result<(), Refusal> {
        let request = Words::access(Operation::Fetch, address, task);
        self.bridge.served(request, Some(self.shift), buffer).map(|_| ())
    }

    /// The bytes go to an address.
    pub fn write(&mut self, address: Token, task: Task, bytes: &[u8]) -> Result<(), Refusal> {
        let request = Words::access(Operation::Write, address, task);
        self.bridge.brought(request, Some(self.shift), bytes).map(|_| ())
    }

    /// What HEX text says is written. The token has no offset.
    pub fn load(&mut self, token: Token, task: Task, text: &[u8]) -> Result<(), Refusal> {
        let request = Words::access(Operation::Load, token, task);
        self.bridge.brought(request, Some(self.shift), text).map(|_| ())
    }

    /// All bytes that a token names go to the buffer's front as HEX text, whose length is told. The
    /// token has no offset.
    pub fn dump(&mut self, token: Token, task: Task, buffer: &mut [u8]) -> Result<usize, Refusal> {
        let request = Words::access(Operation::Dump, token, task);
        self.bridge.served(request, Some(self.shift), buffer).map(length)
    }
}

/// A request with its minute, and its leases as bytes, if there are shifts.
fn under(request: Words, shift: Option<Shift<'_>>) -> (Words, Option<&[u8]>) {
    match shift {
        Some(Shift { minute, leases }) => {
            (Words { second: minute, ..request }, Some(leases.as_flattened()))
        }
        None => (request, None),
    }
}

fn length(granted: Granted) -> usize {
    usize::try_from(granted.length).expect("a length inside the buffer")
}

fn typed(reply: &Reply) -> Result<Granted, Refusal> {
    reply.typed().expect("an answer of the interface")
}
