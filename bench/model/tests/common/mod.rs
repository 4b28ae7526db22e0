//! A machine with buffers of its own, asked through `serve` alone.
#![allow(dead_code)]

use model::operation::*;
use model::{serve, Answer, Request, State};
use std::hash::Hasher;

#[derive(Clone, Debug, PartialEq, Eq)]
pub struct Rig {
    pub state: State,
    pub table: Vec<u8>,
    pub memory: Vec<u8>,
    pub leases: Vec<u8>,
    /// The minute that each access brings.
    pub minute: u64,
}

pub const SPENT: u64 = 1 << 32;

impl Rig {
    pub fn bare(memory: usize, entries: usize) -> Rig {
        let (table, memory) = (vec![0; 32 * entries], vec![0; memory]);
        Rig { state: State::default(), table, memory, leases: Vec::new(), minute: 0 }
    }

    /// After a granted reset with key 0 and first nonce 1.
    pub fn new(memory: usize, entries: usize) -> Rig {
        let mut rig = Rig::bare(memory, entries);
        assert_eq!(rig.reset(0, 0, 1).refusal, 0);
        rig
    }

    /// Serves one request, and sees to it that a refusal changes nothing and
    /// carries neither token nor number, that only a dump tells a length, that
    /// leases stop accesses only, that a page-in never meets 17, that the total
    /// is corrected by what the table shows, and that a number freed keeps its
    /// tag and a number issued gets another.
    pub fn ask_with(&mut self, request: Request, buffer: &mut [u8]) -> Answer {
        let before = (self.clone(), buffer.to_vec());
        let Rig { state, table, memory, leases, .. } = self;
        let answer = serve(request, state, table, memory, buffer, leases);
        assert!(match answer.refusal {
            15 | 16 => is_access(request.operation),
            17 => ![RESET, PAGE_IN].contains(&request.operation),
            refusal => refusal <= 14,
        });
        if answer.refusal != 0 {
            assert_eq!(before, (self.clone(), buffer.to_vec()));
            assert_eq!((answer.first, answer.second, answer.dropped), (0, 0, 0));
        } else if request.operation != RESET {
            assert_eq!(self.state.total, before.0.corrected(self));
            before.0.held(self);
        }
        assert_eq!(answer.place != 0, matches!(answer.refusal, 3 | 4));
        let dumped = request.operation == DUMP && answer.refusal == 0;
        assert_eq!(answer.length != 0, dumped);
        answer
    }

    pub fn ask(&mut self, request: Request) -> Answer {
        self.ask_with(request, &mut [])
    }

    pub fn reset(&mut self, key0: u64, key1: u64, nonce: u64) -> Answer {
        self.ask(Request {
            operation: RESET,
            token: key0,
            second: key1,
            task: nonce,
            ..Request::default()
        })
    }

    pub fn access(&mut self, operation: u64, token: u64, length: usize, task: u64) -> u64 {
        let mut buffer = vec![0xB5; length];
        let second = self.minute;
        let request = Request { operation, token, second, task, ..Request::default() };
        self.ask_with(request, &mut buffer).refusal
    }

    pub fn read(&mut self, token: u64, length: usize, task: u64) -> Result<Vec<u8>, u64> {
        let mut buffer = vec![0; length];
        let request =
            Request { operation: READ, token, second: self.minute, task, ..Request::default() };
        match self.ask_with(request, &mut buffer).refusal {
            0 => Ok(buffer),
            refusal => Err(refusal),
        }
    }

    pub fn write(&mut self, token: u64, bytes: &[u8], task: u64) -> u64 {
        let request =
            Request { operation: WRITE, token, second: self.minute, task, ..Request::default() };
        self.ask_with(request, &mut bytes.to_vec()).refusal
    }

    pub fn create(&mut self, token: u64, length: u64, permissions: u64) -> Answer {
        self.ask(Request { operation: CREATE, token, length, permissions, ..Request::default() })
    }

    pub fn merge(&mut self, token: u64, second: u64) -> Answer {
        self.ask(Request { operation: MERGE, token, second, ..Request::default() })
    }

    pub fn derive(&mut self, token: u64, offset: u64, length: u64, permissions: u64) -> Answer {
        let second = offset;
        self.ask(Request {
            operation: DERIVE,
            token,
            second,
            length,
            permissions,
            ..Request::default()
        })
    }

    /// A request that has a token alone: execute-only, clone, drop, revoke.
    pub fn simple(&mut self, operation: u64, token: u64) -> Answer {
        self.ask(Request { operation, token, ..Request::default() })
    }

    pub fn lock(&mut self, token: u64, task: u64) -> u64 {
        self.ask(Request { operation: LOCK, token, task, ..Request::default() }).refusal
    }

    pub fn unlock(&mut self, token: u64, task: u64) -> u64 {
        self.ask(Request { operation: UNLOCK, token, task, ..Request::default() }).refusal
    }

    pub fn load(&mut self, token: u64, text: &[u8], task: u64) -> u64 {
        let mut buffer = text.to_vec();
        let request =
            Request { operation: LOAD, token, second: self.minute, task, ..Request::default() };
        let refusal = self.ask_with(request, &mut buffer).refusal;
        assert_eq!(buffer, text);
        refusal
    }

    /// The text in a buffer of this length, whose other bytes stay.
    pub fn dump(&mut self, token: u64, room: usize, task: u64) -> Result<Vec<u8>, u64> {
        let mut buffer = vec![0xB5; room];
        let request =
            Request { operation: DUMP, token, second: self.minute, task, ..Request::default() };
        let answer = self.ask_with(request, &mut buffer);
        if answer.refusal != 0 {
            return Err(answer.refusal);
        }
        let rest = buffer.split_off(answer.length as usize);
        assert!(rest.iter().all(|&byte| byte == 0xB5));
        Ok(buffer)
    }

    /// The two tokens of a page-out and the bytes that went out.
    pub fn page_out(&mut self, token: u64, page_file: u64, room: usize) -> (Answer, Vec<u8>) {
        let mut buffer = vec![0xB5; room];
        let request =
            Request { operation: PAGE_OUT, token, second: page_file, ..Request::default() };
        let answer = self.ask_with(request, &mut buffer);
        (answer, buffer)
    }

    pub fn page_in(&mut self, token: u64, donor: u64, bytes: &[u8]) -> Answer {
        let mut buffer = bytes.to_vec();
        let request = Request { operation: PAGE_IN, token, second: donor, ..Request::default() };
        let answer = self.ask_with(request, &mut buffer);
        assert_eq!(buffer, bytes);
        answer
    }

    /// A field of an entry by its place in Table 2, from the top bit.
    pub fn bits(&self, number: usize, from: usize, width: usize) -> u64 {
        (from..from + width).fold(0, |value, at| {
            let byte = self.table[32 * number + at / 8];
            value << 1 | u64::from(byte >> (7 - at % 8) & 1)
        })
    }

    pub fn set(&mut self, number: usize, from: usize, width: usize, value: u64) {
        for at in from..from + width {
            let bit = (value >> (from + width - 1 - at) & 1) as u8;
            let byte = &mut self.table[32 * number + at / 8];
            *byte = *byte & !(0x80 >> (at % 8)) | bit << (7 - at % 8);
        }
    }

    pub fn entries(&self) -> usize {
        self.table.len() / 32
    }

    /// The free numbers without number 0, by a pass through the table.
    pub fn free_numbers(&self) -> u64 {
        (1..self.entries()).filter(|&number| self.kind(number) == 0).count() as u64
    }

    /// The total that a granted request makes of this one's, if it leaves that
    /// table: a number given is given before one is freed.
    fn corrected(&self, left: &Rig) -> u64 {
        let changed = |from: &Rig, to: &Rig| {
            let free = |number| from.kind(number) != 0 && to.kind(number) == 0;
            (1..from.entries()).filter(|&number| free(number)).count() as u64
        };
        let (given, freed) = (changed(left, self), changed(self, left));
        (self.state.total.saturating_sub(given) + freed).min(self.entries() as u64 - 1)
    }

    /// 02, paper 5, of a granted request that leaves that table: "A freed entry
    /// now keeps its tag, all else zero", and no issue gives the tag that "its
    /// entry last held".
    fn held(&self, left: &Rig) {
        for number in (0..self.entries()).filter(|&n| self.entry(n) != left.entry(n)) {
            if left.kind(number) == 0 {
                assert_ne!(self.kind(number), 0);
                assert_eq!(left.entry(number), freed(self.token(number)));
            } else if self.kind(number) == 0 || self.nonce(number) != left.nonce(number) {
                assert_ne!(self.tag(number), left.tag(number));
            }
        }
    }

    /// The 32 bytes of an entry.
    pub fn entry(&self, number: usize) -> &[u8] {
        &self.table[32 * number..32 * number + 32]
    }

    pub fn kind(&self, number: usize) -> u64 {
        self.bits(number, 0, 3)
    }

    pub fn base(&self, number: usize) -> u64 {
        self.bits(number, 3, 32)
    }

    pub fn length(&self, number: usize) -> u64 {
        let at = match self.kind(number) {
            1 => 35,
            3 => 67,
            _ => 99,
        };
        self.bits(number, at, 32)
    }

    fn count_at(&self, number: usize) -> usize {
        if self.kind(number) == 1 {
            67
        } else {
            131
        }
    }

    pub fn count(&self, number: usize) -> u64 {
        self.bits(number, self.count_at(number), 16)
    }

    pub fn set_count(&mut self, number: usize, count: u64) {
        self.set(number, self.count_at(number), 16, count);
    }

    pub fn holder(&self, number: usize) -> u64 {
        self.bits(number, 83, 55)
    }

    pub fn user(&self, number: usize) -> u64 {
        self.bits(number, 138, 64)
    }

    pub fn page_file(&self, number: usize) -> u64 {
        self.bits(number, 3, 64)
    }

    /// Makes a paged entry of what stands at a number, with its tag and nonce.
    pub fn set_paged(&mut self, number: usize, length: u64) {
        self.set(number, 0, 3, 3);
        self.set(number, 3, 64, u64::MAX);
        self.set(number, 67, 32, length);
        self.set(number, 99, 39, 0);
        self.set(number, 205, 1, 0);
    }

    pub fn parent(&self, number: usize) -> u64 {
        self.bits(number, 35, 64)
    }

    pub fn permissions(&self, number: usize) -> u64 {
        self.bits(number, 202, 3)
    }

    pub fn locked(&self, number: usize) -> u64 {
        self.bits(number, 205, 1)
    }

    pub fn lockable(&self, number: usize) -> u64 {
        self.bits(number, 206, 1)
    }

    pub fn tag(&self, number: usize) -> u64 {
        self.bits(number, 208, 16)
    }

    pub fn nonce(&self, number: usize) -> u64 {
        self.bits(number, 224, 32)
    }

    /// A token in encoding 0 for what stands at a number.
    pub fn token(&self, number: usize) -> u64 {
        self.tag(number) << 46 | (number as u64) << 32
    }
}

/// 02, paper 4: "Loads and dumps count as accesses."
pub fn is_access(operation: u64) -> bool {
    [READ, WRITE, FETCH, LOAD, DUMP].contains(&operation)
}

/// The 32 bytes that a token in encoding 0 leaves at its number when that is
/// freed. 02, paper 5: "A freed entry now keeps its tag, all else zero."
pub fn freed(token: u64) -> [u8; 32] {
    let mut entry = [0; 32];
    entry[26..28].copy_from_slice(&((token >> 46) as u16).to_be_bytes());
    entry
}

/// The tag that what stands at a number would have under a nonce, by the
/// library's SipHash-2-4: "the entry as issued with tag 0, then the number as
/// 8 bytes, low byte first".
#[allow(deprecated)]
pub fn tag_under(rig: &Rig, number: usize, nonce: u64) -> u64 {
    let mut entry = rig.entry(number).to_vec();
    entry[26..28].fill(0);
    entry[28..].copy_from_slice(&(nonce as u32).to_be_bytes());
    let mut hasher = std::hash::SipHasher::new_with_keys(rig.state.key0, rig.state.key1);
    hasher.write(&entry);
    hasher.write(&(number as u64).to_le_bytes());
    hasher.finish() & 0xFFFF
}

/// The eight bytes of a lease on a token in encoding 0.
pub fn lease(token: u64, opening: u16, closing: u16) -> Vec<u8> {
    let fields = [(token >> 32 & 0x3FFF) as u16, (token >> 46) as u16, opening, closing];
    fields.map(u16::to_le_bytes).concat()
}

/// A record of Intel HEX with its checksum.
pub fn record(kind: u8, address: u16, data: &[u8]) -> Vec<u8> {
    let mut bytes = vec![data.len() as u8];
    bytes.extend(address.to_be_bytes());
    bytes.push(kind);
    bytes.extend(data);
    let sum = bytes.iter().fold(0, |sum: u8, &byte| sum.wrapping_add(byte));
    bytes.push(sum.wrapping_neg());
    let digits: String = bytes.iter().map(|byte| format!("{byte:02X}")).collect();
    format!(":{digits}\n").into_bytes()
}

/// A small generator of numbers.
pub struct Dice(pub u64);

impl Dice {
    pub fn word(&mut self) -> u64 {
        self.0 = self.0.wrapping_add(0x9e37_79b9_7f4a_7c15);
        let x = (self.0 ^ (self.0 >> 30)).wrapping_mul(0xbf58_476d_1ce4_e5b9);
        let x = (x ^ (x >> 27)).wrapping_mul(0x94d0_49bb_1331_11eb);
        x ^ (x >> 31)
    }

    pub fn below(&mut self, end: u64) -> u64 {
        self.word() % end
    }

    pub fn one_of(&mut self, list: &[u64]) -> u64 {
        list[self.below(list.len() as u64) as usize]
    }
}
