//! The machine: state, table, memory and leases together, with what issuing
//! and freeing need.

use crate::check::SPENT;
use crate::entry::{Direct, Entry, Kind, Raw};
use crate::interface::{Answer, Request, State};
use crate::lease::Leases;
use crate::permissions;
use crate::refusal::{need, Refusal};
use crate::siphash;
use crate::table::Table;
use crate::token::naming;

pub struct Machine<'a> {
    pub state: &'a mut State,
    pub table: Table<'a>,
    pub memory: &'a mut [u8],
    pub leases: Leases<'a>,
}

/// An issue whose nonce is found, and which is not yet made.
#[derive(Clone, Copy)]
pub struct Issue {
    number: usize,
    raw: Raw,
    /// The nonce behind the one found: those passed over are not tried again.
    pub next: u64,
}

impl Issue {
    /// "A request names the encoding of the token it wants back."
    #[inline]
    pub fn token(&self, encoding: u64) -> u64 {
        naming(self.number, self.raw.tag(), encoding)
    }
}

impl Machine<'_> {
    /// "It writes entry 0, the root: direct, base 0, all of memory, count 0,
    /// permissions R, W and X, Lockable, tag 0, nonce 0. All other entries
    /// become zeros, the last number 0, the next nonce that first one." So all
    /// numbers but 0 are free. 02, paper 5: "Reset clears the kept tags".
    pub fn reset(&mut self, request: &Request) -> Answer {
        let root = Entry {
            base: 0,
            length: self.memory.len() as u32,
            count: 0,
            permissions: permissions::ALL,
            tag: 0,
            nonce: 0,
            kind: Kind::Direct(Direct { holder: 0, user: 0, lockable: true }),
        };
        self.table.clear();
        self.table.store(0, root.pack());
        *self.state = State {
            key0: request.token,
            key1: request.second,
            last: 0,
            next: request.task,
            total: self.table.top(),
        };
        Answer::GRANTED
    }

    /// Place 10.
    #[inline]
    pub fn need_number(&self) -> Result<usize, Refusal> {
        self.table.free_number(self.state.last).ok_or(Refusal::Numbers)
    }

    /// The bytes of an entry issued with this nonce: "The tag is the low 16
    /// bits of SipHash-2-4 over 40 bytes: the entry as issued with tag 0, then
    /// the number as 8 bytes, low byte first."
    #[inline]
    fn under(&self, nonce: u64, number: usize, entry: &Entry) -> Raw {
        let raw = Entry { tag: 0, nonce: nonce as u32, ..*entry }.pack();
        let [a, b, c, d] = raw.hashed();
        let words = [a, b, c, d, number as u64];
        raw.with_tag(siphash::of_five_words(self.state.key0, self.state.key1, words) as u16)
    }

    /// Place 11: finds the nonce of an issue, from this next one on, and
    /// changes nothing yet. 02, paper 5: "Every issue, also by create and
    /// merge, passes over nonces whose tag equals the one its entry last held,
    /// as revoke does." Refused if "too few left, those to be passed over not
    /// counted".
    #[inline]
    pub fn seek_nonce(
        &self,
        next: u64,
        number: usize,
        entry: &Entry,
        last_held: u16,
    ) -> Result<Issue, Refusal> {
        let mut nonce = next;
        loop {
            need(nonce < SPENT, Refusal::Nonces)?;
            let raw = self.under(nonce, number, entry);
            nonce += 1;
            if raw.tag() != last_held {
                return Ok(Issue { number, raw, next: nonce });
            }
        }
    }

    /// "An issue uses the next nonce and raises it by one": the next one that was
    /// not passed over.
    #[inline]
    pub fn issue(&mut self, issue: Issue) {
        self.table.store(issue.number, issue.raw);
        self.state.next = issue.next;
    }

    /// An issue of a new number, which place 10 found free. 02, paper 3: "A
    /// wrong handed-over total stops at 0".
    #[inline]
    pub fn issue_new(&mut self, issue: Issue) {
        self.state.last = issue.number as u64;
        self.state.total = self.state.total.saturating_sub(1);
        self.issue(issue);
    }

    /// Frees a number in use. 02, paper 3: the total is one "without number
    /// 0", and a wrong one stops "at that top".
    #[inline]
    pub fn free(&mut self, number: usize) {
        self.table.free(number);
        if number != 0 {
            self.state.total = self.state.total.saturating_add(1).min(self.table.top());
        }
    }
}
